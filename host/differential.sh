#!/bin/sh
# The product against the second implementation: the levels of many texts, then many requests of four texts, then
# the levels of many pairs of drawings as one study, then the highest speed past many windows.
#   host/differential.sh SEED COUNT [ARCHIVE [REQUESTS_ARCHIVE]]
# ARCHIVE: the static library to test, by default the product's as rt lib writes it; REQUESTS_ARCHIVE: that
# of the requests, by default librailnoise_requests_c.a beside an ARCHIVE that is named, else the product's.
set -eu
here=$(cd "$(dirname "$0")" && pwd)
root=$here/..
# shellcheck source=tools/places.sh
. "$root/tools/places.sh"
seed=$1
count=$2
take_archives "${3:-}" "${4:-}"
RAILNOISE_ARCHIVE=$(cd "$(dirname "$archive")" && pwd)/$(basename "$archive")
RAILNOISE_REQUESTS_ARCHIVE=$(cd "$(dirname "$requests_archive")" && pwd)/$(basename "$requests_archive")
export RAILNOISE_ARCHIVE RAILNOISE_REQUESTS_ARCHIVE
(cd "$here/second" && cargo build --release --offline -j1 --quiet)
"$here/second/target/release/differential" "$seed" "$count"
