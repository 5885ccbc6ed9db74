#!/bin/sh
# Coverage-guided fuzzing of railnoise_levels, railnoise_merged_levels and railnoise_highest_speed under AddressSanitizer, with libFuzzer.
#   host/fuzz.sh [--install] SECONDS [ARCHIVE [REQUESTS_ARCHIVE]]
# The static libraries to test, by default the product's as rt lib writes them; the second by default beside a first that is named.
# --install: where clang or its fuzzer library is missing, install Debian's packages of them with apt-get. Without it the script
# says what is missing and exits with 2.
# Coverage comes from the plain program and from the second implementation, both instrumented here, and from an archive if it was
# built with -fsanitize-coverage itself. Levels are held against the second implementation, a speed against railnoise_levels.
# New texts are kept in host/build/corpus; a failing one is written to host/build/fuzz-*.
set -eu
here=$(cd "$(dirname "$0")" && pwd)
root=$here/..
# shellcheck source=tools/places.sh
. "$root/tools/places.sh"
install=no
if [ "${1:-}" = --install ]; then
    install=yes
    shift
fi
[ $# -ge 1 ] || { echo "usage: host/fuzz.sh [--install] SECONDS [ARCHIVE [REQUESTS_ARCHIVE]]" >&2; exit 2; }
seconds=$1
take_archives "${2:-}" "${3:-}"
build=$here/build
mkdir -p "$build/corpus"

# missing: names what this machine lacks for fuzzing; nothing where it lacks nothing
missing() {
    if ! command -v clang >/dev/null; then
        echo clang
    elif ! echo 'int LLVMFuzzerTestOneInput(void) { return 0; }' |
        clang -fsanitize=fuzzer,address -x c - -o "$build/fuzz_library" 2>/dev/null; then
        echo "clang's fuzzer library"
    fi
}

if [ -n "$(missing)" ] && [ "$install" = yes ]; then
    apt-get install -y --no-install-recommends clang libclang-rt-dev
fi
lacking=$(missing)
if [ -n "$lacking" ]; then
    echo "host/fuzz.sh: $lacking is missing (with --install it installs Debian's packages clang and libclang-rt-dev)" >&2
    exit 2
fi

# The second implementation, with counters that libFuzzer reads. In a directory of its own, so that
# the other programs keep their uninstrumented build.
coverage='-Cpasses=sancov-module -Cllvm-args=-sanitizer-coverage-level=3
    -Cllvm-args=-sanitizer-coverage-inline-8bit-counters -Cllvm-args=-sanitizer-coverage-pc-table'
(cd "$here/second" && RUSTFLAGS=$(echo $coverage) cargo build --release --offline -j1 --quiet --lib \
    --target-dir "$build/instrumented" --target "$(rustc -vV | sed -n 's/^host: //p')")
second=$(ls "$build"/instrumented/*/release/libsecond.a)

clang -std=c11 -O1 -g -Wall -Wextra -Werror -fsanitize=fuzzer,address -I"$here/../include" \
    "$here/c/fuzz_target.c" "$here/c/plain.c" "$archive" "$requests_archive" "$second" ${LINK_FLAGS:-} -lm -lpthread -ldl \
    -o "$build/fuzz"

(cd "$here/second" && cargo build --release --offline -j1 --quiet --features mock)
"$here/second/target/release/differential" --corpus "$build/seeds" 7 500
# A total below zero, which few of these have.
printf '1 1\n30000 0 600 0 5 5 0 0 0 0 48 -30 0 0 0\n8 100 10 10 10\n' >"$build/seeds/below_zero"

# Long enough for two texts of 16,384 bytes and more.
"$build/fuzz" -max_total_time="$seconds" -max_len=32800 -dict="$here/c/fuzz.dict" -artifact_prefix="$build/fuzz-" \
    -print_final_stats=1 "$build/corpus" "$build/seeds" 2>"$build/fuzz.log" || {
    tail -40 "$build/fuzz.log"
    echo "fuzz: failed, see $build/fuzz.log"
    exit 1
}
runs=$(sed -n 's/^stat::number_of_executed_units: *//p' "$build/fuzz.log")
edges=$(sed -n 's/.*cov: \([0-9]*\) .*/\1/p' "$build/fuzz.log" | tail -1)
echo "fuzz: $runs texts in $seconds s, $edges edges covered, no failure"
