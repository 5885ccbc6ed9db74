# shellcheck shell=sh
# Where rt leaves what it builds. The scripts of host/ and tools/ source this, with the top of the checkout in `root`.

# archive_of NAME: a static library
archive_of() {
    # shellcheck disable=SC2154 # who sources this sets root
    echo "$root/crates/$1/out/lib$1.a"
}

# make_archive NAME: proves and builds it, for any x86-64, and shows what rt said where that fails. `rt ci` proves it too, and leaves no archive.
make_archive() {
    said=$(cd "$root/crates/$1" && rt lib --cpu x86-64 2>&1) || {
        printf '%s\n' "$said" >&2
        return 1
    }
}

# take_archives [ARCHIVE [REQUESTS_ARCHIVE]]: sets archive and requests_archive to the C library's two, by default the product's. An ARCHIVE
# that is named has the other beside it, unless that is named too. Where one is missing the script ends with 2.
take_archives() {
    if [ -n "${1:-}" ]; then
        archive=$1
        requests_archive=${2:-$(dirname "$1")/librailnoise_requests_c.a}
    else
        archive=$(archive_of railnoise_c)
        requests_archive=${2:-$(archive_of railnoise_requests_c)}
    fi
    [ -r "$archive" ] || { echo "$archive is missing: run rt lib in crates/railnoise_c" >&2; exit 2; }
    [ -r "$requests_archive" ] || { echo "$requests_archive is missing: run rt lib in crates/railnoise_requests_c" >&2; exit 2; }
}

# take_program [PROGRAM]: sets program, by default to the product's, as rt run and rt ci leave it. Where it is missing the script ends with 2.
take_program() {
    program=${1:-$root/crates/railnoise/out/railnoise}
    [ -x "$program" ] || { echo "$program is missing: run rt run in crates/railnoise" >&2; exit 2; }
}
