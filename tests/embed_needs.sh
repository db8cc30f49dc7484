#!/usr/bin/env bash
# Installs packages of Debian 12 as root, or says what to install: embed_needs.sh [PACKAGE..]
#
# Without a name: what tests/embed_glue.sh and tests/embed_programs.sh need.
set -e
needs=${*:-"gcc pkg-config libwayland-dev libwayland-bin wayland-protocols libwlroots-dev libxkbcommon-dev libgtk-4-dev
	foot fonts-dejavu-core fcitx5 fcitx5-pinyin dbus"}
if ! dpkg -s $needs > /dev/null 2>&1; then
	[ "$(id -u)" = 0 ] || { echo "install first: $needs" | tr -d '\n\t'; echo; exit 1; }
	apt-get -qq update
	DEBIAN_FRONTEND=noninteractive timeout 600 apt-get -qq install -y --no-install-recommends $needs > /dev/null
fi
