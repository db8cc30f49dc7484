#!/usr/bin/env bash
# The version of the next release, which is the first in CHANGELOG.md; `version.sh --pc PREFIX LIB` prints wlim.pc.
set -e
version=$(sed -n 's/^## \([0-9.]*\), .*/\1/p' "$(dirname "$0")/../CHANGELOG.md" | head -n 1)
if [ "$1" != --pc ]; then
	echo "$version"
	exit
fi
cat << PC
prefix=$2
libdir=\${prefix}/$3
includedir=\${prefix}/include
Name: wlim
Description: The text-input and input-method relay of a Wayland seat
Version: $version
Cflags: -I\${includedir}
Libs: -L\${libdir} -lwlim
PC
