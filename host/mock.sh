#!/bin/sh
# Builds the mock archives, this project's second implementation behind the product's C functions:
# host/build/librailnoise_c.a, whose path it prints, and librailnoise_requests_c.a beside it.
# Each shows its own functions alone, as the product's archives do: the first railnoise_levels, the second
# railnoise_entitlement, railnoise_merged_levels and railnoise_highest_speed. So both can be linked together, or one of
# them beside the product's other: no name is there twice, and no mock stands in for a product unasked.
set -eu
here=$(cd "$(dirname "$0")" && pwd)
build=$here/build
mkdir -p "$build"
(cd "$here/second" && cargo build --release --offline -j1 --quiet --lib --features mock)

# archive NAME FUNCTION...: one object with all that the functions need. Its section groups are dissolved: a linker
# would drop one that it has seen before. The bitcode beside Rust's own code is left out: ar and nm would hand
# it to a plugin. So are names that nothing refers to any more: not every C library has them.
archive() {
    name=$1
    shift
    # shellcheck disable=SC2046 # several flags
    ld -r --force-group-allocation --gc-sections $(printf -- '-u %s ' "$@") \
        "$here/second/target/release/libsecond.a" -o "$build/mock.o"
    # shellcheck disable=SC2046 # several flags
    objcopy --strip-unneeded -R .llvmbc -R .llvmcmd $(printf -- '--keep-global-symbol=%s ' "$@") "$build/mock.o"
    rm -f "$build/$name"
    ar rcs "$build/$name" "$build/mock.o"
    rm "$build/mock.o"
}

archive librailnoise_c.a railnoise_levels
archive librailnoise_requests_c.a railnoise_entitlement railnoise_merged_levels railnoise_highest_speed
echo "$build/librailnoise_c.a"
