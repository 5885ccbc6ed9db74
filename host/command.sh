#!/bin/sh
# Tries the command railnoise.sh around the built program: what it reads, what it writes where, and its status. host/program.sh runs it.
#   host/command.sh PROGRAM
# The command is tried in a checkout of its own, made here of the few files that it looks at; a kit of this script's own stands for rt.
# shellcheck disable=SC2016 # what stands in single quotes is for an inner shell
set -eu
program=$(readlink -f -- "$1")
here=$(cd "$(dirname "$0")" && pwd)
root=$here/..
build=$here/build/command
[ ! -d "$build" ] || chmod -R u+w "$build"
rm -rf "$build"
mkdir -p "$build"
build=$(cd "$build" && pwd)
cases=0
wrong=0

# checkout NAME: a checkout in which the program is built
checkout() {
    mkdir -p "$build/$1/crates/railnoise/out" "$build/$1/include"
    cp "$root/railnoise.sh" "$root/crates.txt" "$build/$1/"
    cp "$root/crates/railnoise/stdin" "$build/$1/crates/railnoise/"
    cp "$root/include/railnoise.h" "$build/$1/include/"
    cp "$program" "$build/$1/crates/railnoise/out/railnoise"
    touch "$build/$1/crates/railnoise/out/railnoise"
}

# fresh NAME: a checkout in which nothing is built, with the program at hand for the kit to put in place
fresh() {
    checkout "$1"
    mv "$build/$1/crates/railnoise/out/railnoise" "$build/$1/made"
    rm -r "$build/$1/crates/railnoise/out"
}

# told OUTCOME NAME [WHY]
told() {
    cases=$((cases + 1))
    if [ "$1" = right ]; then
        echo "right: $2"
    else
        wrong=$((wrong + 1))
        echo "WRONG: $2: $3"
    fi
}

# holds NAME TEST..
holds() {
    name=$1
    shift
    outcome=right
    "$@" || outcome=wrong
    told $outcome "$name" "not so: $*"
}

# judge NAME STATUS OUTPUT ERRORS: holds $status and the files out and err against them. ERRORS is a pattern of the shell's.
judge() {
    printf %b "$3" >"$build/expected"
    outcome=right
    why=
    if [ "$status" -ne "$2" ]; then
        outcome=wrong
        why="status $status, not $2"
    elif ! cmp -s "$build/expected" "$build/out"; then
        outcome=wrong
        why="it wrote: $(cat "$build/out")"
    else
        # shellcheck disable=SC2254 # the pattern is meant as one
        case $(cat "$build/err") in
        $4) ;;
        *)
            outcome=wrong
            why="it said: $(cat "$build/err")"
            ;;
        esac
    fi
    told $outcome "$1" "$why"
}

# try NAME STATUS OUTPUT ERRORS COMMAND..
try() {
    name=$1 expected_status=$2 output=$3 errors=$4
    shift 4
    status=0
    "$@" >"$build/out" 2>"$build/err" || status=$?
    judge "$name" "$expected_status" "$output" "$errors"
}

# at_terminal COMMAND..: with a terminal for standard input
at_terminal() {
    python3 -c 'import pty, subprocess, sys
_, terminal = pty.openpty()
sys.exit(subprocess.run(sys.argv[1:], stdin=terminal).returncode)' "$@"
}

# powerless COMMAND..: without the superuser's way past a file's permissions
powerless() {
    if [ "$(id -u)" -eq 0 ]; then
        setpriv --bounding-set=-dac_override,-dac_read_search "$@"
    else
        "$@"
    fi
}
powerless true || { echo 'as the superuser this needs setpriv, and the right to drop capabilities' >&2; exit 2; }

checkout built
run=$build/built/railnoise.sh
sample=$build/built/crates/railnoise/stdin
answer='period level close met\nday 62.9 0 no\nnight 56.3 0 no\n'
other='1 1\n2500 0 600 0 180 180 0 0 0 0 0 0 0 0 0\n1 100 1 1 0\n'
other_answer='period level close met\nday 37.9 0 no\nnight silent 0 no\n'
printf %b "$other" >"$build/other"
printf '1 1\n' >"$build/short"
cd "$build"

# What is read.
try 'a named file' 0 "$other_answer" '' "$run" other
try 'standard input as -' 0 "$other_answer" '' "$run" - <other
try 'standard input, nothing named' 0 "$other_answer" '' "$run" <other
try 'a piped study is answered, not the sample' 0 "$other_answer" '' sh -c 'cat other | "$1"' sh "$run"
try 'nothing named at a terminal: the sample, and it says so' 0 "$answer" '*sample study*' at_terminal "$run"
try '--sample' 0 "$answer" '' "$run" --sample
try '--sample, whatever standard input holds' 0 "$answer" '' "$run" --sample <other
try 'an empty standard input is an empty text' 1 'refused 13 line 1\n' '*' "$run" </dev/null
try 'a refused study' 1 'refused 13 line 2\n' '*' "$run" short
try 'more than a text may have' 1 'refused 12 line 0\n' '*' sh -c 'yes | "$1"' sh "$run"

# Several files.
try 'several files, each answer under its name' 0 "==> other <==\n$other_answer==> $sample <==\n$answer" '' "$run" other "$sample"
try 'standard input among several' 0 "==> other <==\n$other_answer==> standard input <==\n$answer" '' "$run" other - <"$sample"
try 'one of several refused' 1 "==> short <==\nrefused 13 line 2\n==> other <==\n$other_answer" '*' "$run" short other
try 'one of several missing: the others are answered' 2 "==> other <==\n$other_answer==> short <==\nrefused 13 line 2\n" \
    '*no such file*' "$run" other missing short

# Options and wrong use.
try '--help' 0 "$("$run" --help)\n" '' "$run" --help
case $("$run" --help) in
Usage:*FILE*--sample*--help*--version*--*Status:*) told right '--help names every option and the status' ;;
*) told wrong '--help names every option and the status' "$("$run" --help)" ;;
esac
version=$(sed -n 's/^#define RAILNOISE_VERSION "\([0-9.]*\)"$/\1/p' "$root/include/railnoise.h")
try "--version is the header's" 0 "railnoise ${version:?the header has no version}\n" '' "$run" --version
try 'an unknown option' 2 '' '*unknown option --colour*' "$run" --colour other
try '--sample beside a file' 2 '' '*takes no file*' "$run" --sample other
try 'an empty name' 2 '' '*name is empty*' "$run" ''
try 'a missing file' 2 '' '*cannot read missing: there is no such file' "$run" missing
try 'a directory' 2 '' '*cannot read built: it is a directory' "$run" built
try 'a directory as standard input' 2 '' '*cannot read standard input' "$run" <built
try 'a file that gives an error as it is read' 2 '' '*cannot read /proc/self/mem' "$run" /proc/self/mem
try 'a closed standard input' 2 '' '*standard input: it is closed' "$run" <&-
try 'a named file, with standard input closed' 0 "$other_answer" '' "$run" other <&-
printf %b "$other" >unreadable
chmod 000 unreadable
try 'an unreadable file' 2 '' '*cannot read unreadable: permission is missing' powerless "$run" unreadable

# Names and places.
mkdir -p elsewhere
ln -sf ../built/railnoise.sh elsewhere/railnoise
ln -sf railnoise elsewhere/noise
cp other 'elsewhere/a study'
cp other elsewhere/-study
cp other elsewhere/--sample
cd elsewhere
try 'through a symbolic link to a symbolic link, from another directory' 0 "$other_answer" '' ./noise ../other
try 'from the PATH, by a symbolic link' 0 "$answer" '' env PATH="$build/elsewhere:$PATH" railnoise --sample
try 'a name with a space' 0 "$other_answer" '' "$run" 'a study'
try 'a name that begins with a minus' 0 "$other_answer" '' "$run" -- -study
try 'a name that is an option' 0 "$other_answer" '' "$run" -- --sample
try 'such names among several' 0 "==> -study <==\n$other_answer==> a study <==\n$other_answer" '' "$run" -- -study 'a study'
cd "$build"
try 'process substitution' 0 "$other_answer" '' bash -c '"$1" <(cat "$2")' bash "$run" other
try 'process substitution twice' 0 "==> /dev/fd/A <==\n$other_answer==> /dev/fd/B <==\n$answer" '' \
    bash -c '"$1" <(cat "$2") <(cat "$3") | sed "2,\$s|/dev/fd/[0-9]*|/dev/fd/B|; 1s|/dev/fd/[0-9]*|/dev/fd/A|"' bash "$run" other "$sample"

# Writing.
if [ -c /dev/full ]; then
    try 'a full device' 2 '' '*cannot write to standard output' sh -c '"$1" "$2" >/dev/full' sh "$run" other
    try 'a full device, for --help' 2 '' '*cannot write to standard output' sh -c '"$1" --help >/dev/full' sh "$run"
fi
try 'a closed standard output' 2 '' '*standard output: it is closed' sh -c '"$1" "$2" >&-' sh "$run" other
try 'a closed standard error' 0 "$other_answer" '' sh -c '"$1" "$2" 2>&-' sh "$run" other
# The reader has gone before anything is written.
try 'a reader that went away' 0 '2\n' '*cannot write to standard output' \
    sh -c 'exec 3>&1; { sleep 0.3; s=0; "$1" "$2" || s=$?; echo $s >&3; } | true' sh "$run" other

# The program's own words on standard error, and a program that fails.
checkout stub
stub=$build/stub/crates/railnoise/out/railnoise
printf '#!/bin/sh\ncat >/dev/null\necho "railnoise: words of the program" >&2\necho "refused 9 line 3"\n' >"$stub"
try "the program's words pass through" 1 'refused 9 line 3\n' 'railnoise: words of the program' stub/railnoise.sh other
try 'the words with a closed standard error' 1 'refused 9 line 3\n' '' sh -c '"$1" "$2" 2>&-' sh stub/railnoise.sh other
[ ! -c /dev/full ] || try 'the words on a full device' 1 'refused 9 line 3\n' '' sh -c '"$1" "$2" 2>/dev/full' sh stub/railnoise.sh other
try 'with several files each after its name' 1 '==> other <==\nrefused 9 line 3\n==> standard input <==\nrefused 9 line 3\n' \
    'other: railnoise: words of the program
standard input: railnoise: words of the program' stub/railnoise.sh other - <short
printf '#!/bin/sh\ncat >/dev/null\necho "refused 9 line 3"\nkill -KILL $$\n' >"$stub"
try 'a program that is killed' 2 '' '*gave no answer to other' stub/railnoise.sh other
printf '#!/bin/sh\ncat >/dev/null\n' >"$stub"
try 'a program that writes nothing' 2 '' '*gave no answer to other' stub/railnoise.sh other

# A checkout that is built and may only be read.
checkout locked
chmod -R a-w locked
try 'a read-only checkout that is built' 0 "$other_answer" '' powerless locked/railnoise.sh other
chmod -R u+w locked
sleep 0.01
touch locked/crates.txt
mkdir kit
cat >kit/rt <<'KIT'
#!/bin/sh
# Stands for rt run: takes all that it can read, says what rt says, counts its runs, puts the program in place, and writes what that
# does. SLOW: seconds that a crate takes.
[ "$*" = "run --cpu x86-64" ] || exit 2
cd ../..
cat >/dev/null
echo run >>builds
echo 'fn small: proved' >&2
echo 'crate decibel: modules loaded=1 checked=2' >&2
[ -e broken ] || echo 'logic=proved functions=1' >&2
if [ -n "${SLOW:-}" ]; then
    sleep "$SLOW" &
    echo $! >child
    wait
fi
[ ! -e broken ] || { echo 'logic=not-proved' >&2; exit 1; }
mkdir -p crates/railnoise/out
cp made crates/railnoise/out/railnoise
echo 'refused 13 line 1'
KIT
chmod +x kit/rt
with_kit() {
    PATH="$build/kit:$PATH" "$@"
}
chmod -R a-w locked
try 'a read-only checkout that must be built' 2 '' '*cannot be written*' with_kit powerless locked/railnoise.sh other
chmod -R u+w locked

# The first build.
fresh first
try 'a file that cannot be read starts no build' 2 '' '*no such file' with_kit first/railnoise.sh missing
holds 'nothing was built for it' [ ! -e first/builds ]
try 'the first build shows each crate' 0 "$other_answer" '*proving and building*
railnoise: decibel is proved' with_kit first/railnoise.sh other
try 'the second run builds nothing' 0 "$other_answer" '' with_kit first/railnoise.sh other
fresh mute
[ ! -c /dev/full ] || try 'a build that cannot show its crates' 0 "$other_answer" '' \
    with_kit sh -c '"$1" "$2" 2>/dev/full' sh mute/railnoise.sh other
fresh piped
try 'a build leaves standard input alone' 0 "$other_answer" '*decibel is proved' with_kit piped/railnoise.sh <other
fresh broken
touch broken/broken
try 'a build that fails shows the end of its log' 2 '' '*fn small: proved*logic=not-proved*could not be proved*' \
    with_kit broken/railnoise.sh other
mkdir tools
for tool in bash cat cp dirname env find flock head mkdir readlink rm sed sh sleep tail tee touch; do
    ln -s "$(command -v "$tool")" "tools/$tool"
done
fresh kitless
try 'no kit' 2 '' '*rt is not on the PATH*' env PATH="$build/tools" kitless/railnoise.sh other
fresh together
(SLOW=1 with_kit together/railnoise.sh other >first.out 2>first.err) &
while [ ! -e together/child ]; do sleep 0.05; done
try 'a second first run waits' 0 "$other_answer" '*another run is building*' with_kit together/railnoise.sh other
wait $!
holds 'two first runs build once' [ "$(wc -l <together/builds)" -eq 1 ]

# interrupted SIGNAL STATUS: a build that is interrupted ends with its children, and the command ends by the signal
interrupted() {
    rm -rf stopped
    fresh stopped
    status=0
    SLOW=60 with_kit python3 -c 'import os, signal, subprocess, sys, time
def goes_on(process):
    # One that has ended stands in /proc until its new parent asks for it, and that may take seconds.
    try:
        return open(f"/proc/{process}/stat").read().rpartition(")")[2].split()[0] != "Z"
    except OSError:
        return False
number = signal.Signals[sys.argv[1]]
signal.signal(number, signal.SIG_DFL)
command = subprocess.Popen(["stopped/railnoise.sh", "other"])
while not os.path.exists("stopped/child") or not open("stopped/child").read():
    time.sleep(0.05)
command.send_signal(number)
ended = command.wait(timeout=20)
for _ in range(40):
    if not goes_on(open("stopped/child").read().strip()):
        break
    time.sleep(0.05)
else:
    sys.exit("a child of the build goes on")
sys.exit(0 if ended == -number else f"ended with {ended}")' "$1" >out 2>err || status=$?
    judge "a build that is ended by $1 ends its children" 0 '' '*proving and building*'
}
interrupted SIGINT
interrupted SIGTERM
interrupted SIGHUP

echo "$cases cases of the command, $wrong wrong"
[ "$wrong" -eq 0 ]
