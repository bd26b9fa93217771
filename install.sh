#!/usr/bin/env bash
# Installs the library for C: bash install.sh [PREFIX]. Writes PREFIX/include/bucketmonk.h, PREFIX/lib/libbucketmonk_c.a and
# PREFIX/lib/pkgconfig/bucketmonk.pc; PREFIX is /usr/local if not given. Where DESTDIR is set, it is put before PREFIX in the names of
# these files, but not in what bucketmonk.pc says. rt lib builds the library and proves what is not proved yet: minutes in a fresh tree.
set -u

# stop MESSAGE [STATUS]
stop() { echo "install.sh: $1" >&2; exit "${2-1}"; }

prefix=${1-/usr/local}
case $#,$prefix in [01],[!-]*) ;; *) stop "usage: bash install.sh [PREFIX]" 2 ;; esac
[ "${prefix:0:1}" = / ] || prefix=$PWD/$prefix
case $prefix in *[[:space:]\\\"\'\$\#]*) stop "no space, backslash, quote, \$ or # may stand in the prefix: $prefix" 2 ;; esac
command -v rt >/dev/null 2>&1 || stop "rt is not on PATH; it comes with the Rattle kit"
cd "$(dirname "$0")" || stop "no such directory"

version=$(sed -n 's/^#define BUCKETMONK_VERSION "\(.*\)"$/\1/p' include/bucketmonk.h)
[ -n "$version" ] || stop "no version in include/bucketmonk.h"
root=${DESTDIR-}$prefix
mkdir -p "$root/include" "$root/lib/pkgconfig" || stop "cannot make the directories in $root"
(cd crates/bucketmonk_c && rt lib) || stop "the library is not proved or not built; nothing is installed"

install -m 644 include/bucketmonk.h "$root/include/" || stop "cannot write to $root/include"
install -m 644 crates/bucketmonk_c/out/libbucketmonk_c.a "$root/lib/" || stop "cannot write to $root/lib"
install -m 644 /dev/stdin "$root/lib/pkgconfig/bucketmonk.pc" <<END || stop "cannot write to $root/lib/pkgconfig"
prefix=$prefix
includedir=\${prefix}/include
libdir=\${prefix}/lib

Name: bucketmonk
Description: Proved solver for 2-pointer logic
Version: $version
Cflags: -I\${includedir}
Libs: -L\${libdir} -lbucketmonk_c
END
echo "bucketmonk $version is installed in $root"
