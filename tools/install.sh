#!/bin/sh
# Puts the built command, the C library's archives, headers and pkg-config files, and the pages below a prefix.
#   tools/install.sh PREFIX
# What is installed needs neither this checkout nor the Rattle kit, and the prefix may be moved or copied to another machine as it is.
set -eu
case ${1:-},$# in
[!-]*,1) ;;
*)
    echo 'Usage: tools/install.sh PREFIX (not empty, and without a minus in front)' >&2
    exit 2
    ;;
esac
prefix=$1
root=$(cd "$(dirname "$0")/.." && pwd)
# shellcheck source=tools/places.sh
. "$root/tools/places.sh"
version=$(sed -n 's/^#define RAILNOISE_VERSION "\(.*\)"$/\1/p' "$root/include/railnoise.h")
take_program ''
take_archives ''

# put MODE FROM TO
put() {
    mkdir -p "$(dirname "$prefix/$3")"
    install -m "$1" "$2" "$prefix/$3"
}

put 755 "$root/railnoise.sh" bin/railnoise
put 755 "$program" libexec/railnoise
put 644 "$root/crates/railnoise/stdin" share/railnoise/sample.txt
for page in PLANNER.md RULES.md ACCURACY.md accuracy-budget.svg; do
    put 644 "$root/docs/$page" "share/doc/railnoise/$page"
done

# package NAME DESCRIPTION: header, archive and pkg-config file
package() {
    put 644 "$root/include/$1.h" "include/$1.h"
    put 644 "$(archive_of "$1_c")" "lib/lib$1_c.a"
    mkdir -p "$prefix/lib/pkgconfig"
    cat >"$prefix/lib/pkgconfig/$1.pc" <<PC
prefix=\${pcfiledir}/../..

Name: $1
Description: $2
Version: $version
Cflags: -I\${prefix}/include
Libs: -L\${prefix}/lib -l$1_c
PC
}

package railnoise 'Day and night railway noise at a window, after Calculation of Railway Noise 1995'
package railnoise_requests 'Railway noise at a window: entitlement to insulation, two drawings as one study, highest speeds'
echo "railnoise $version is installed below $prefix"
