#!/bin/sh
# Speed, instructions and stack of the product's four C functions beside the plain C program, with strtol (plain) and
# with a digit loop of its own (digits).
#   host/bench.sh [--counts] [ARCHIVE] [TEXTS]
# --counts: what is the same from run to run alone, no times; ARCHIVE: the static library to test, with librailnoise_requests_c.a
# beside it, by default the product's; TEXTS: how many the plain program is tried on for misreadings, by default 20000.
set -eu
here=$(cd "$(dirname "$0")" && pwd)
root=$here/..
# shellcheck source=tools/places.sh
. "$root/tools/places.sh"
times=yes
if [ "${1-}" = --counts ]; then
    times=no
    shift
fi
take_archives "${1:-}"
texts=${2:-20000}
command -v valgrind >/dev/null || { echo "host/bench.sh: valgrind is missing" >&2; exit 2; }
build=$here/build
mkdir -p "$build"

compile="gcc -std=c11 -O2 -Wall -Wextra -Werror"
$compile -I"$here/../include" -DDIGIT_LOOP -c "$here/c/plain.c" -o "$build/digits.o"
$compile -I"$here/../include" "$here/c/bench.c" "$here/c/plain.c" "$build/digits.o" "$archive" "$requests_archive" \
    ${LINK_FLAGS:-} -lm -lpthread -Wl,-z,now -o "$build/bench"
# First by itself: what it says under the instruction counter is not shown.
"$build/bench" check

if [ "$times" = yes ]; then
    echo "# Time of one call in nanoseconds, all in one run; the product's ratio to each"
    "$build/bench" time
    echo
fi
echo "# Instructions of one call: 11 calls less 1, over 10; the product's ratio to each"

# collected WHO HEAD ROW COUNT: what callgrind collects over the whole program. It counts a repeated string instruction once for each byte, so
# the C library is told to fill and copy without them.
collected() {
    GLIBC_TUNABLES=glibc.cpu.x86_rep_stosb_threshold=1000000:glibc.cpu.x86_rep_movsb_threshold=1000000 valgrind --tool=callgrind --callgrind-out-file=/dev/null "$build/bench" call "$1" "$2" "$3" "$4" 2>&1 |
        sed -n 's/.*Collected : \([0-9]*\).*/\1/p'
}

# instructions HEAD ROW: those of one call, for product, plain and digits
instructions() {
    for who in product plain digits; do
        once=$(collected "$who" "$1" "$2" 1)
        more=$(collected "$who" "$1" "$2" 11)
        echo "$(( (more - once) / 10 ))"
    done
}

# counted HEAD ROW..: a table with the product's ratios
counted() {
    head=$1
    printf '%-8s %10s %10s %10s %10s %10s\n' "$head" product plain digits 'to plain' 'to digits'
    shift
    for row in "$@"; do
        counts=$(instructions "$head" "$row")
        echo "$row" $counts |
            awk '{ printf "%-8s %10d %10d %10d %10.2f %10.2f\n", $1, $2, $3, $4, $2 / $3, $2 / $4 }'
    done
}

counted instr one sample eight full refused
counted request night new full4 refused4
counted merged two halves refused2
counted speed one eight full refused
echo
echo "# Instructions by size; from the second row what each further entry, or segment with 4 entries, has added"

# growth UNIT COUNT=STUDY..: a row for each study, which has so many of the unit
growth() {
    printf '%-8s %10s %10s %10s %10s %10s %10s\n' "$1" product plain digits +product +plain +digits
    shift
    before=
    for row in "$@"; do
        counts="${row%=*} $(instructions instr "${row#*=}")"
        echo $counts $before | awk '{
            printf "%-8d %10d %10d %10d", $1, $2, $3, $4
            for (i = 2; NF > 4 && i <= 4; i++) printf " %10.0f", ($i - $(i + 4)) / ($1 - $5)
            print "" }'
        before=$counts
    done
}

growth entries 24=24x1 48=24x2 96=24x4
growth segments 6=6x4 12=12x4 24=24x4
echo
echo "# Stack of one call in bytes, by a painted stack"
"$build/bench" stack
echo
echo "# How often the plain program misreads"
(cd "$here/second" && cargo build --release --offline -j1 --quiet --features mock)
for who in plain digits; do
    "$here/second/target/release/differential" --of "$who" 1 "$texts" | grep "^$who:"
done
