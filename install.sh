#!/usr/bin/env bash
# install.sh PREFIX [ARCHIVES]: puts the C headers in PREFIX/include, the archives in PREFIX/lib and smelvock.pc in PREFIX/lib/pkgconfig.
# The archives are those of the folder ARCHIVES; where none is named, rt lib proves the crates below them and makes them.
set -euo pipefail
[ $# -eq 1 ] || [ $# -eq 2 ] || { echo "usage: install.sh PREFIX [ARCHIVES]" >&2; exit 2; }
root=$(cd "$(dirname "$0")" && pwd)
libraries="smelvock smelvock_planning smelvock_reading" # those with a header
if [ $# -eq 1 ]; then
    for library in $libraries; do (cd "$root/crates/$library" && rt lib); done
fi
archive() { echo "${archives:-$root/crates/$1/out}/lib$1.a"; }
archives=${2:-}
for library in $libraries; do # all or nothing
    [ -f "$(archive "$library")" ] || { echo "install.sh: there is no $(archive "$library")" >&2; exit 1; }
done

mkdir -p "$1/include" "$1/lib/pkgconfig"
prefix=$(cd "$1" && pwd)
for library in $libraries; do
    install -m 644 "$root/host/smelvock/include/$library.h" "$prefix/include"
    install -m 644 "$(archive "$library")" "$prefix/lib"
done
cat >"$prefix/lib/pkgconfig/smelvock.pc" <<PC
prefix=$prefix
includedir=\${prefix}/include
libdir=\${prefix}/lib

Name: smelvock
Description: A verified sequence index, its planning tree and its reading copy, on words that the caller lends
Version: $(sed -n 's/^version = "\(.*\)"/\1/p' "$root/host/Cargo.toml")
Cflags: -I\${includedir}
Libs: -L\${libdir}$(printf -- ' -l%s' $libraries)
PC
