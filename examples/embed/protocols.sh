#!/bin/sh
# Makes the protocols' headers and tables of the glue, for the compositor's side and for clients:
#
#   protocols.sh FOLDER
#
# The text input's protocol is of wayland-protocols. Those of the input method and of the virtual keyboard lie in no
# Debian package: they are files of the sources of wlroots, in protocol/. WLROOTS_PROTOCOL names that folder; without
# it they are fetched by apt of Debian's sources, which changes nothing in your sources.list.
set -e
to=$1
mkdir -p "$to"
if [ ! -e "$to/input-method-unstable-v2.xml" ] && [ -n "$WLROOTS_PROTOCOL" ]; then
	cp "$WLROOTS_PROTOCOL/virtual-keyboard-unstable-v1.xml" "$WLROOTS_PROTOCOL/input-method-unstable-v2.xml" "$to"
elif [ ! -e "$to/input-method-unstable-v2.xml" ]; then
	work=$(mktemp -d)
	trap 'rm -rf "$work"' EXIT
	mkdir -p "$work/lists/partial"
	release=$(. /etc/os-release && echo "$VERSION_CODENAME")
	key=/usr/share/keyrings/debian-archive-keyring.gpg
	echo "deb-src [signed-by=$key] http://deb.debian.org/debian $release main" > "$work/src.list"
	fetch() {
		(cd "$work" && timeout 180 apt-get -qq -o Dir::Etc::sourcelist="$work/src.list" -o Dir::Etc::sourceparts=- \
			-o Dir::State::lists="$work/lists" -o APT::Sandbox::User=root "$@")
	}
	fetch update
	fetch source --download-only wlroots
	tar -C "$work" -xf "$work"/wlroots_*.orig.tar.* --wildcards '*/protocol/input-method-unstable-v2.xml' \
		'*/protocol/virtual-keyboard-unstable-v1.xml'
	cp "$work"/wlroots-*/protocol/*.xml "$to"
fi
cp "$(pkg-config --variable=pkgdatadir wayland-protocols)/unstable/text-input/text-input-unstable-v3.xml" "$to"
for file in "$to"/*-unstable-v*.xml; do
	name=${file%.xml}
	wayland-scanner server-header "$file" "$name-protocol.h"
	wayland-scanner client-header "$file" "$name-client-protocol.h"
	wayland-scanner private-code "$file" "$name-protocol.c"
done
