#!/bin/sh
# Holds the program's words on standard error beside the header's, for every refusal that a text can give.
#   host/words.sh [PROGRAM]
# PROGRAM: by default the product's. A refusal N at line K is told as `railnoise: refused N line K: WORDS`; an answer as nothing.
set -eu
here=$(cd "$(dirname "$0")" && pwd)
root=$here/..
# shellcheck source=tools/places.sh
. "$root/tools/places.sh"
take_program "${1:-}"
build=$here/build
mkdir -p "$build"
gcc -std=c99 -Wall -Wextra -Werror -I"$here/../include" "$here/c/words.c" -o "$build/words"
cases=0
wrong=0

# told NUMBER LINE TEXT: the text is refused so, and in the header's words; NUMBER 0 is an answer
told() {
    cases=$((cases + 1))
    printf %b "$3" | "$program" >"$build/words.out" 2>"$build/words.err"
    : >"$build/words.expected"
    first=period
    if [ "$1" -ne 0 ]; then
        first="refused $1 line $2"
        printf 'railnoise: refused %s line %s: %s\n' "$1" "$2" "$("$build/words" "$1")" >"$build/words.expected"
    fi
    case $(cat "$build/words.out") in
    "$first"*) ;;
    *)
        wrong=$((wrong + 1))
        echo "WRONG: not refused $1 line $2: $(cat "$build/words.out")"
        return
        ;;
    esac
    cmp "$build/words.expected" "$build/words.err" || { wrong=$((wrong + 1)); cat "$build/words.expected" "$build/words.err"; }
}

near='2500 0 600 0 180 180'
train='1 100 1 1 1'
told 0 0 "1 1\n$near 0 0 0 0 0 0 0 0 0\n$train\n"
told 1 2 "1 1\n999 0 600 0 180 180 0 0 0 0 0 0 0 0 0\n$train\n"
told 2 2 "1 1\n2500 5001 600 0 180 180 0 0 0 0 0 0 0 0 0\n$train\n"
told 3 2 "1 1\n2500 0 600 11 180 180 0 0 0 0 0 0 0 0 0\n$train\n"
told 4 2 "1 1\n2500 0 600 0 4 180 0 0 0 0 0 0 0 0 0\n$train\n"
told 5 2 "1 1\n$near 3 0 0 0 0 0 0 0 0\n$train\n"
told 5 2 "1 1\n$near 0 0 0 0 0 0 0 0 20\n$train\n"
told 6 2 "1 1\n$near 1 1000 5000 0 0 0 0 0 0\n$train\n"
told 7 2 "1 1\n$near 0 0 0 0 151 0 0 0 0\n$train\n"
told 8 3 "1 1\n$near 0 0 0 0 0 0 0 0 0\n35 100 1 1 1\n"
told 9 3 "1 1\n$near 0 0 0 0 0 0 0 0 0\n1 0 1 1 1\n"
told 10 3 "1 1\n$near 0 0 0 0 0 0 0 0 0\n1 100 61 1 1\n"
told 11 3 "1 1\n$near 0 0 0 0 0 0 0 0 0\n1 100 1 2001 1\n"
told 12 3 "1 1\n$near 0 0 0 0 0 0 0 0 0\n1 100 1 1.5 1\n"
told 12 0 "$(printf '%16385s' '')"
told 13 1 ''
told 13 4 "1 1\n$near 0 0 0 0 0 0 0 0 0\n$train\n$train\n"

echo "words: $cases texts, $wrong told otherwise"
[ "$wrong" -eq 0 ]
