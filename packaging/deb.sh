#!/usr/bin/env bash
# Makes packages of Debian of what is built, in out/deb. What isn't built but the plug-in for Weston ends it.
set -e
cd "$(dirname "$0")/.."
for built in crates/wlim/out/wlim out/libwlim/lib/libwlim.a out/gateway/wlim-gateway out/man/man1/wlim.1; do
	[ -f "$built" ] || { echo "$built is missing: make build libwlim gateway man come before"; exit 1; }
done
command -v dh > /dev/null || { echo "dh is missing: Debian's debhelper has it"; exit 1; }
version=$(packaging/version.sh)
tree=$PWD to=out/deb/wlim-$version
rm -rf out/deb && mkdir -p "$to" && cp -r packaging/debian "$to/"
[ ! -d gateway/systemd ] || echo usr/lib/systemd/user >> "$to/debian/wlim-gateway.install"
python3 tools/abi.py --symbols > "$to/debian/libwlim0.symbols"

# Each change by its first words.
{
	echo "wlim ($version) unstable; urgency=medium"
	echo
	sed -n 's/^- \*\*\(.*\)\*\*.*/  * \1/p' CHANGELOG.md | tr -d '`' | cut -c 1-78
	echo
	date=$(sed -n 's/^## .*, \([0-9-]*\)$/\1/p' CHANGELOG.md | head -n 1)
	echo " -- $(sed -n 's/^Maintainer: //p' packaging/debian/control)  $(LC_ALL=C date -u -R -d "$date")"
} > "$to/debian/changelog"

cd "$to"
TREE=$tree DEB_BUILD_OPTIONS="noautodbgsym nocheck" dpkg-buildpackage -b -us -uc > ../build.log 2>&1 \
	|| { tail -n 40 ../build.log; exit 1; }
cd ..
rm -rf "wlim-$version"
ls ./*.deb
