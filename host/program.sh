#!/bin/sh
# Tries the built program on texts: what it writes is compared byte for byte with what documents 01 and 02 say, and it must end with
# status 0.
# Beside a refusal one line on standard error says the same in words; else nothing stands there.
# Then the command around it, railnoise.sh, is tried by host/command.sh.
#   host/program.sh [PROGRAM]
# PROGRAM: by default the product's, as rt run and rt ci build it.
#
# Levels are worked out from these documents: row 1 is 14.8, 100 km/h 71.2 and 150 km/h 74.7, ten vehicles are 10.0 and 60 are 17.8,
# 2000 trains 33.0; 48.1 come off by day and 43.3 by night; angles 5, 5 are -38.5, a facade is 2.5; distance and air are 0.0 at 25 m,
# -10.0 and -1.8 at 250 m, -10.8 and -2.2 at 300 m. The eleventh field is the Table 1 reading, in tenths, the
# last the far wall (02, L1).
set -eu
here=$(cd "$(dirname "$0")" && pwd)
root=$here/..
# shellcheck source=tools/places.sh
. "$root/tools/places.sh"
take_program "${1:-}"
sample=$here/../crates/railnoise/stdin
build=$here/build
mkdir -p "$build"
text=$build/program.text
expected=$build/program.expected
written=$build/program.written
noticed=$build/program.noticed
cases=0
wrong=0

# notice_fits EXPECTED: whether standard error has what belongs to EXPECTED, the words of a refusal being any
notice_fits() {
    case $1 in
    refused*) [ "$(wc -l <"$noticed")" -eq 1 ] && grep -q "^railnoise: ${1%??}: [a-zA-Z]" "$noticed" ;;
    *) [ ! -s "$noticed" ] ;;
    esac
}

# judge NAME STATUS EXPECTED: holds what the program wrote, and its exit status, against EXPECTED and 0
judge() {
    cases=$((cases + 1))
    printf %b "$3" >"$expected"
    if [ "$2" -eq 0 ] && cmp -s "$expected" "$written" && notice_fits "$3"; then
        echo "right: $1"
        return
    fi
    wrong=$((wrong + 1))
    echo "WRONG: $1: status $2"
    sed 's/^/    expected: /' "$expected"
    sed 's/^/    written:  /' "$written"
    sed 's/^/    noticed:  /' "$noticed"
}

# run NAME EXPECTED: the program on the text that stands in $text
run() {
    status=0
    "$program" <"$text" >"$written" 2>"$noticed" || status=$?
    judge "$1" "$status" "$2"
}

# lines DAY NIGHT: what is written of an answered study
lines() {
    printf %s "period level close met\nday $1\nnight $2\n"
}

# answered NAME TEXT DAY NIGHT
answered() {
    printf %b "$2" >"$text"
    run "$1" "$(lines "$3" "$4")"
}

# refused NAME TEXT NUMBER LINE
refused() {
    printf %b "$2" >"$text"
    run "$1" "refused $3 line $4\n"
}

# spaces COUNT
spaces() {
    printf "%$1s" ''
}

# full SPEED: 24 segments and 96 trains, each figure as wide as it can be; the last train's speed as given
full() {
    awk -v last="$1" 'BEGIN {
        printf "24"
        for (i = 1; i <= 24; i++) printf " 4"
        print ""
        for (i = 1; i <= 96; i++) {
            if (i % 4 == 1) print "30000 5000 5000 10 180 180 2 29900 -2000 100 150 0 1 180 100"
            print "34", i < 96 ? 300 : last, "60 2000 2000"
        }
    }'
}

cp "$sample" "$text"
run 'sample' "$(lines '62.9 0 no' '56.3 0 no')"

near='2500 0 600 0 180 180 0 0 0 0'
narrow='2500 0 600 0 5 5 0 0 0 0'
answered 'zero has no minus' "1 1\n$narrow 6 0 0 0 0\n1 100 1 1 1\n" '0.0 0 no' '4.8 0 no'
answered 'minus below one decibel' "1 1\n$narrow 2 0 0 0 0\n1 100 1 1 1\n" '-0.4 0 no' '4.4 0 no'
answered 'two digits below zero' '1 1\n30000 0 600 0 5 5 0 0 0 0 36 0 0 0 0\n1 100 1 1 1\n' '-10.0 0 no' '-5.2 0 no'
answered 'three digits, met, silent' "1 1\n$near 116 0 0 0 0\n1 100 60 2000 0\n" '100.3 0 yes' 'silent 0 no'
answered 'silent by day' "1 1\n$near 0 0 0 0 0\n1 100 1 0 1\n" 'silent 0 no' '42.7 0 no'
answered 'silent throughout' "1 1\n$near 0 0 0 0 0\n1 100 1 0 0\n" 'silent 0 no' 'silent 0 no'
answered 'close count 1' '1 1\n25000 0 350 5 180 180 0 0 0 0 0 0 0 0 0\n1 100 1 1 0\n' '25.4 1 no' 'silent 0 no'
answered '67.5 by day is met' "1 1\n$near 136 0 1 0 0\n1 150 10 1 0\n" '67.5 0 yes' 'silent 0 no'
answered '67.4 by day is not met' "1 1\n$near 135 0 1 0 0\n1 150 10 1 0\n" '67.4 0 no' 'silent 0 no'
answered '62.5 by night is met' "1 1\n$near 38 0 1 0 0\n1 150 10 0 1\n" 'silent 0 no' '62.5 0 yes'
answered '62.4 by night is not met' "1 1\n$near 37 0 1 0 0\n1 150 10 0 1\n" 'silent 0 no' '62.4 0 no'

# 14.8 + 57.2 - 48.1 or - 43.3: below 20 km/h a train is heard as at 20.
answered 'a train that crawls' "1 1\n$near 0 0 0 0 0\n1 7 1 1 1\n" '23.9 0 no' '28.7 0 no'
answered 'a train at 20 km/h' "1 1\n$near 0 0 0 0 0\n1 20 1 1 1\n" '23.9 0 no' '28.7 0 no'

# 10.8 + 70.8 + 10.8 + 16.0 - 48.1 - 3.9 - 0.3 - 1.8 + 2.5 + 0.2 is 57.0 by day before the screen; 7 trains by night are
# 2.7 less. The screen is -14.7, and 1.0 goes off it behind a far wall of 15 decimetres, 2 m to the nearest metre.
cut='6200 150 300 4 90 120 1 900 260 0 0 0 1 10'
answered 'a far wall too low to count' "1 1\n$cut 14\n4 95 12 40 7\n" '42.3 0 no' '39.6 0 no'
answered 'a far wall' "1 1\n$cut 15\n4 95 12 40 7\n" '43.3 0 no' '40.6 0 no'

# 14.8 + 80.7 + 17.8 + 33.0 - 48.1 - 10.9 - 2.2 + 10.0 + 15.0 + 2.5 + 1.5 is 114.1, and 96 like levels add 19.8. The screen is 0.0,
# behind a far wall too.
full 300 >"$text"
run 'full study' "$(lines '133.9 0 yes' '138.7 0 yes')"
full 301 >"$text"
run 'refused at the last line of a full study' 'refused 9 line 121\n'

refused 'speed 0' "1 1\n$near 0 0 0 0 0\n1 0 1 1 1\n" 9 3
grep -qx 'railnoise: refused 9 line 3: speed must be 1 to 300 km/h' "$noticed" || { echo 'WRONG: the words of refusal 9'; wrong=$((wrong + 1)); }
refused 'two digits of a refusal' "1 1\n$near 0 0 0 0 0\n1 100 61 1 1\n" 10 3
refused 'distance 999' '1 1\n999 0 600 0 180 180 0 0 0 0 0 0 0 0 0\n1 100 1 1 1\n' 1 2
refused 'far wall without a screen' "1 1\n$near 0 0 0 0 20\n1 100 1 1 1\n" 5 2
refused 'a segment without its far wall' "1 1\n$near 0 0 0 0\n1 100 1 1 1\n" 12 2
refused 'missing line' '1 1\n' 13 2
refused 'extra line without a line feed' "1 1\n$near 0 0 0 0 0\n1 100 1 1 1\nx" 13 4
refused 'last line without a line feed' "1 1\n$near 0 0 0 0 0\n1 100 1 1 1" 12 3
refused 'empty text' '' 13 1

for bytes in 16384 16385 40000; do
    spaces "$bytes" >"$text"
    [ "$bytes" -le 16384 ] && line=1 || line=0
    run "$bytes spaces" "refused 12 line $line\n"
done
length=$(wc -c <"$sample")
{ cat "$sample"; spaces $((16384 - length)); } >"$text"
run 'sample and spaces, 16384 bytes' 'refused 13 line 8\n'
{ cat "$sample"; spaces $((16385 - length)); } >"$text"
run 'sample and spaces, 16385 bytes' 'refused 12 line 0\n'

# The first piece ends inside a number. The pipe's status is the program's.
status=0
{ head -c 11 "$sample"; sleep 1; tail -c +12 "$sample"; } | "$program" >"$written" 2>"$noticed" || status=$?
judge 'sample in two pieces' "$status" "$(lines '62.9 0 no' '56.3 0 no')"

status=0
"$program" <&- >"$written" 2>"$noticed" || status=$?
judge 'standard input closed: as an empty text' "$status" 'refused 13 line 1\n'

echo "$cases cases, $wrong wrong"
[ "$wrong" -eq 0 ]

"$here/command.sh" "$program"
