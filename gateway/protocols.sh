#!/bin/sh
# Brings the XML files of protocols that no package of the build has: wlroots' own, as layer-shell, of its sources, and
# KDE's, as text-input-unstable-v2, of plasma-wayland-protocols.
#
#     protocols.sh FOLDER
#
# WLROOTS_PROTOCOL and PLASMA_PROTOCOL name folders that have them; without, apt fetches both of Debian, and nothing is
# installed or changed in sources.list.
set -e
to=$(mkdir -p "$1" && cd "$1" && pwd)
work=$(mktemp -d)
trap 'rm -rf "$work"' EXIT
if [ -z "$WLROOTS_PROTOCOL" ] && [ ! -e "$to/wlr-layer-shell-unstable-v1.xml" ]; then
	mkdir -p "$work/lists/partial"
	release=$(. /etc/os-release && echo "$VERSION_CODENAME")
	key=/usr/share/keyrings/debian-archive-keyring.gpg
	echo "deb-src [signed-by=$key] http://deb.debian.org/debian $release main" > "$work/src.list"
	fetch() {
		(cd "$work" && timeout 180 apt-get -qq -o Dir::Etc::sourcelist="$work/src.list" -o Dir::Etc::sourceparts=- \
			-o Dir::State::lists="$work/lists" -o APT::Sandbox::User=root "$@")
	}
	fetch update
	fetch source --download-only wlroots
	tar -C "$work" -xf "$work"/wlroots_*.orig.tar.* --wildcards '*/protocol/*.xml'
	WLROOTS_PROTOCOL=$(echo "$work"/wlroots-*/protocol)
fi
[ -z "$WLROOTS_PROTOCOL" ] || cp "$WLROOTS_PROTOCOL"/*.xml "$to"
if [ -z "$PLASMA_PROTOCOL" ] && [ ! -e "$to/text-input-unstable-v2.xml" ]; then
	PLASMA_PROTOCOL=/usr/share/plasma-wayland-protocols
	if [ ! -e "$PLASMA_PROTOCOL/text-input-unstable-v2.xml" ]; then
		(cd "$work" && timeout 180 apt-get -qq -o APT::Sandbox::User=root download plasma-wayland-protocols)
		dpkg-deb -x "$work"/plasma-wayland-protocols_*.deb "$work"
		PLASMA_PROTOCOL=$work/usr/share/plasma-wayland-protocols
	fi
fi
[ -z "$PLASMA_PROTOCOL" ] || cp "$PLASMA_PROTOCOL"/*.xml "$to"
