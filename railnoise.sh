#!/usr/bin/env bash
# railnoise: day and night railway noise at a window, from study texts. railnoise.sh --help says how it is used.
#
# In a checkout this proves and builds the program where that has not been done; below an installed prefix (tools/install.sh) the
# program stands ready. The program's own exit status is 0 for an answer and for a refusal, so the status is taken here from the first
# word that it writes, and what it writes is held back until it can be written with a check.
set -uo pipefail

here=$(dirname -- "$(readlink -f -- "$0")")
if [ -f "$here/crates.txt" ]; then
    program=$here/crates/railnoise/out/railnoise
    sample=$here/crates/railnoise/stdin
    header=$here/include/railnoise.h
else
    program=$here/../libexec/railnoise
    sample=$here/../share/railnoise/sample.txt
    header=$here/../include/railnoise.h
fi

# One byte more than a text may have: a longer one is refused all the same.
readonly MOST_BYTES=16385
readonly ANSWERED=0 REFUSED=1 FAILED=2

status=$ANSWERED
ready=no

say() {
    printf 'railnoise: %s\n' "$*" >&2
}

die() {
    say "$@"
    exit $FAILED
}

# A failure that leaves the other files to be answered.
fail() {
    say "$@"
    status=$FAILED
}

# Everything on standard output goes through here. A reader that has gone away is a write that fails, not a signal.
write() {
    trap '' PIPE
    printf '%s\n' "$1" 2>/dev/null || die 'cannot write to standard output'
    trap - PIPE
}

usage() {
    write "Usage: railnoise.sh [FILE]...
Works out the day and night railway noise level at a window, after Calculation of Railway Noise 1995.

A FILE holds one study text (docs/PLANNER.md); - is standard input. Without a FILE standard input is read; at a terminal the sample
study is answered instead. With several, each answer stands under a line '==> FILE <=='.

  --sample   answer the sample study
  --help     show this and exit
  --version  show the version and exit
  --         what follows is a FILE, also where it begins with a minus

Status: 0 all answered, 1 some study was refused, 2 wrong use, or something could not be read, written or built."
}

built() {
    [ -x "$program" ] && { [ ! -f "$here/crates.txt" ] ||
        [ -z "$(find "$here/crates.txt" "$here/crates" -name out -prune -o -type f -newer "$program" -print -quit)" ]; }
}

# stop SIGNAL: ends the build with all its children, then this script in the signal's own way.
# shellcheck disable=SC2317 # a trap calls it
stop() {
    kill -s TERM -- "-$build" 2>/dev/null
    wait "$build" 2>/dev/null
    trap - "$1"
    kill -s "$1" $$
}

# Proves and builds in a process group of its own, so that all of it can be ended. Each crate is shown as it is proved. rt runs the
# program too, here on nothing; what that writes goes to the log alone.
prove() {
    local log=$here/target/build.log crate signal built
    say "proving and building, some minutes the first time; the whole log is $log"
    set -m
    (
        cd "$here/crates/railnoise" && rt run --cpu x86-64 2>&1 </dev/null 9>&- | tee "$log" | {
            while IFS= read -r line; do
                case $line in
                'crate '*) crate=${line#crate } crate=${crate%%:*} ;;
                'logic=proved '*) say "$crate is proved" ;;
                esac
            done || :
        }
    ) &
    build=$!
    set +m
    for signal in HUP INT TERM; do
        # shellcheck disable=SC2064 # the signal's name is meant now
        trap "stop $signal" "$signal"
    done
    wait "$build"
    built=$?
    trap - HUP INT TERM
    if [ $built -ne 0 ]; then
        tail -n 20 "$log" >&2
        die 'the program could not be proved and built'
    fi
    touch "$program"
}

# Makes sure once that the program is there. Of several first runs one builds, and the others wait for it.
prepare() {
    [ $ready = no ] || return
    ready=yes
    built && return
    [ -f "$here/crates.txt" ] || die "the program is missing: $program"
    command -v rt >/dev/null || die 'rt is not on the PATH. The Rattle kit proves and builds the program; install it and try again.'
    if ! { mkdir -p "$here/target" && : >>"$here/target/build.lock"; } 2>/dev/null; then
        die "the program must be built, and $here/target cannot be written"
    fi
    exec 9>>"$here/target/build.lock"
    if ! flock -n 9; then
        say 'another run is building here; waiting for it'
        until flock -n 9; do sleep 1; done
    fi
    built || prove
    exec 9>&-
}

# run PREFIX: the program on standard input. Its words on standard error pass through, each line after PREFIX. Fails with UNREAD where
# the input cannot be read, and with BROKEN where the program does not end well.
readonly UNREAD=3 BROKEN=4
run() {
    {
        {
            head -c $MOST_BYTES 2>/dev/null | "$program" 2>&1 >&4
            ended=("${PIPESTATUS[@]}")
            [ "${ended[1]}" -eq 0 ] || exit $BROKEN
            [ "${ended[0]}" -eq 0 ] || exit $UNREAD
        } | {
            # words that cannot be written change no answer
            while IFS= read -r line; do printf '%s%s\n' "$1" "$line" >&2; done || :
        }
    } 4>&1
}

# answer NAME TITLE: the study on standard input. TITLE is empty where only one was asked for.
answer() {
    local written ended
    prepare
    written=$(run "${2:+$2: }")
    ended=$?
    if [ $ended -eq $UNREAD ]; then
        fail "cannot read $1"
        return
    fi
    case $ended,$written in
    0,'period '*) ;;
    0,'refused '*) [ $status -ne $ANSWERED ] || status=$REFUSED ;;
    *) die "the program gave no answer to $1" ;;
    esac
    write "${2:+==> $2 <==
}$written"
}

# named FILE TITLE
named() {
    if [ -z "$1" ]; then
        fail 'a file name is empty'
    elif [ "$1" = - ]; then
        if [ $input_closed = yes ]; then
            fail 'cannot read standard input: it is closed'
        else
            answer 'standard input' "${2:+standard input}"
        fi
    elif [ ! -e "$1" ]; then
        fail "cannot read $1: there is no such file"
    elif [ -d "$1" ]; then
        fail "cannot read $1: it is a directory"
    elif [ ! -r "$1" ]; then
        fail "cannot read $1: permission is missing"
    else
        # shellcheck disable=SC2094 # the file is only read
        answer "$1" "$2" <"$1" || fail "cannot read $1"
    fi
}

# A pipe or a file would be given the number of a closed input or output; bash opens this script in place of a closed standard error.
if [ ! -e /dev/fd/2 ] || [ /dev/fd/2 -ef "$0" ]; then
    exec 2>/dev/null
fi
[ -e /dev/fd/1 ] || die 'cannot write to standard output: it is closed'
input_closed=no
if [ ! -e /dev/fd/0 ]; then
    input_closed=yes
    exec </dev/null
fi

files=()
asked=
while [ $# -gt 0 ]; do
    case $1 in
    --help | --version | --sample) asked=$1 ;;
    --)
        shift
        files+=("$@")
        break
        ;;
    -?*) die "unknown option $1; railnoise.sh --help says how it is used" ;;
    *) files+=("$1") ;;
    esac
    shift
done

case $asked in
--help)
    usage
    exit
    ;;
--version)
    version=$(sed -n 's/^#define RAILNOISE_VERSION "\(.*\)"$/\1/p' "$header") || die "cannot read $header"
    write "railnoise $version"
    exit
    ;;
--sample)
    [ ${#files[@]} -eq 0 ] || die '--sample takes no file'
    files=("$sample")
    ;;
*)
    if [ ${#files[@]} -eq 0 ] && [ -t 0 ]; then
        say 'no study was named: this is the answer to the sample study'
        files=("$sample")
    elif [ ${#files[@]} -eq 0 ]; then
        files=(-)
    fi
    ;;
esac

for file in "${files[@]}"; do
    if [ ${#files[@]} -eq 1 ]; then
        named "$file" ''
    else
        named "$file" "$file"
    fi
done
exit $status
