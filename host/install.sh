#!/bin/sh
# Tries tools/install.sh: the installed command, and README's C examples built with the flags of the installed pkg-config files.
#   host/install.sh
# The prefix is moved before it is tried, as when it is copied to another machine. Where pkg-config is missing, its flags are written out here.
set -eu
here=$(cd "$(dirname "$0")" && pwd)
root=$here/..
build=$here/build/install
rm -rf "$build"
mkdir -p "$build"
cd "$build"
"$root/tools/install.sh" first
mv first prefix

# stated WORDS: the number of kB that README gives after these words
stated() {
    tr '\n' ' ' <"$root/README.md" | sed -n "s/.*$1 less than \([0-9]*\) kB.*/\1/p"
}

# within NAME BYTES KILOBYTES
within() {
    if [ "$2" -ge "$(($3 * 1000))" ]; then
        echo "WRONG: $1: $2 bytes, README has less than $3 kB"
        exit 1
    fi
    echo "right: $1"
}

# same NAME EXPECTED WRITTEN
same() {
    if [ "$2" != "$3" ]; then
        printf 'WRONG: %s\n    expected: %s\n    written:  %s\n' "$1" "$2" "$3"
        exit 1
    fi
    echo "right: $1"
}

within 'the size of the program' "$(stat -c %s prefix/libexec/railnoise)" "$(stated 'finished program has')"
within 'the size of the prefix' "$(find prefix -type f -printf '%s\n' | awk '{ sum += $1 } END { print sum }')" "$(stated 'copy the prefix,')"
version=$(sed -n 's/^#define RAILNOISE_VERSION "\(.*\)"$/\1/p' "$root/include/railnoise.h")
same 'the version has its part of CHANGELOG.md' "## $version" "$(grep -Fx "## $version" "$root/CHANGELOG.md")"
answer='period level close met
day 62.9 0 no
night 56.3 0 no'
same 'the installed command on a study' "$answer" "$(prefix/bin/railnoise "$root/crates/railnoise/stdin")"
same 'its sample' "$answer" "$(prefix/bin/railnoise --sample)"
same 'its version' "railnoise $version" "$(prefix/bin/railnoise --version)"
status=0
written=$(printf '1 1\n' | prefix/bin/railnoise 2>/dev/null) || status=$?
same 'its status on a refusal' 'refused 13 line 2, status 1' "$written, status $status"
rm prefix/libexec/railnoise
status=0
written=$(prefix/bin/railnoise --sample 2>&1) || status=$?
case $written in *'program is missing'*) written=said ;; esac
same 'the program taken away' 'said, status 2' "$written, status $status"

# block KIND NUMBER: what stands in README's fence of this kind and number
block() {
    awk -v fence='```'"$1" -v number="$2" '$0 == fence { on = ++found == number; next } /^```$/ { on = 0 } on' "$root/README.md"
}

# example NUMBER PACKAGE: the example and what it prints are those that README shows
example() {
    block c "$1" >"$2.c"
    block text "$1" >"$2.expected"
    if [ ! -s "$2.c" ] || [ ! -s "$2.expected" ]; then
        echo "README shows no example $1" >&2
        exit 1
    fi
    if command -v pkg-config >/dev/null; then
        same "pkg-config's version of $2" "$version" "$(pkg-config --modversion "$2")"
        flags=$(pkg-config --cflags --libs "$2")
    else
        flags="-Iprefix/include -Lprefix/lib -l$2_c"
    fi
    # shellcheck disable=SC2086 # several flags
    gcc -std=c99 -Wall -Wextra -Wpedantic -Werror "$2.c" $flags -o "$2"
    same "README's example of $2" "$(cat "$2.expected")" "$("./$2")"
}

PKG_CONFIG_PATH=$build/prefix/lib/pkgconfig
export PKG_CONFIG_PATH
example 1 railnoise
example 2 railnoise_requests
example 3 railnoise_requests
example 4 railnoise_requests
same 'README has no further example' none "$(block c 5 | grep . || echo none)"
