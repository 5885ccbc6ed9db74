#!/bin/sh
# Host tests of the C functions: plain, under AddressSanitizer and UndefinedBehaviorSanitizer, and
# under valgrind, which also sees inside an archive that was not built with a sanitizer. Before them each
# header is compiled alone, as C99 and, where there is a compiler for it, as C++.
#   host/test.sh [ARCHIVE [REQUESTS_ARCHIVE]]
# The static libraries to test, by default the product's as rt lib writes them; the second by default beside a first that is named.
set -eu
here=$(cd "$(dirname "$0")" && pwd)
root=$here/..
# shellcheck source=tools/places.sh
. "$root/tools/places.sh"
include=$here/../include
take_archives "${1:-}" "${2:-}"
build=$here/build
mkdir -p "$build"

# headers COMPILER LANGUAGE STANDARD
headers() {
    for header in railnoise.h railnoise_requests.h; do
        "$1" -x "$2" -std="$3" -Wall -Wextra -Wpedantic -Werror -fsyntax-only -include "$include/$header" /dev/null
    done
}

headers gcc c c99
if command -v g++ >/dev/null; then
    headers g++ c++ c++11
fi

# try NAME ARCHIVE...: c/NAME.c with these archives
try() {
    name=$1
    shift
    # shellcheck disable=SC2086 # several flags
    set -- -std=c11 -Wall -Wextra -Werror -O1 -g -I"$include" "$here/c/$name.c" "$@" ${LINK_FLAGS:-} -lm -lpthread
    gcc "$@" -o "$build/$name"
    gcc -fsanitize=address,undefined -fno-sanitize-recover=all "$@" -o "$build/${name}_sanitized"
    "$build/$name"
    "$build/${name}_sanitized"
    if command -v valgrind >/dev/null; then
        valgrind -q --error-exitcode=3 "$build/$name"
    fi
}

try host_test "$archive"
try requests_test "$archive" "$requests_archive"
try merged_test "$archive" "$requests_archive"
try speed_test "$archive" "$requests_archive"
