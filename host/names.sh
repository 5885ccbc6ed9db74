#!/bin/sh
# The names that the C library's archives need from outside: memcpy and memset of the C library, as the headers and README.md say, and no other.
#   host/names.sh [ARCHIVE [REQUESTS_ARCHIVE]]
# The static libraries to look at, by default the product's as rt lib writes them; the second by default beside a first that is named.
set -eu
root=$(cd "$(dirname "$0")" && pwd)/..
# shellcheck source=tools/places.sh
. "$root/tools/places.sh"
take_archives "${1:-}" "${2:-}"

status=0
for file in "$archive" "$requests_archive"; do
    needed=$(nm -u "$file" | awk 'NF == 2 { print $2 }' | sort -u | tr '\n' ' ')
    case $needed in
    "memcpy memset ") verdict=right ;;
    *)
        verdict=WRONG
        status=1
        ;;
    esac
    echo "$verdict: $(basename "$file") needs $needed"
done
exit $status
