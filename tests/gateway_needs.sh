#!/usr/bin/env bash
# Installs of Debian 12 what gateway/build.sh and tests/gateway.sh need, as root; else says what that is.
set -e
needs="gcc pkg-config python3 libwayland-dev libwayland-bin wayland-protocols libxkbcommon0 libgtk-4-dev libgtk-3-dev
	sway foot grim fonts-dejavu-core fcitx5 fcitx5-pinyin dbus systemd
	kitty libgl1-mesa-dri firefox-esr chromium python3-pyqt5 qtwayland5 python3-pyqt6 qt6-wayland"
if ! dpkg -s $needs > /dev/null 2>&1; then
	[ "$(id -u)" = 0 ] || { echo "install first: $needs" | tr -d '\n\t'; echo; exit 1; }
	apt-get -qq update
	DEBIAN_FRONTEND=noninteractive timeout 600 apt-get -qq install -y --no-install-recommends $needs > /dev/null
fi
