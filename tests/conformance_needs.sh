#!/usr/bin/env bash
# Installs of Debian 12, as root, what `make conformance` needs; else says what that is.
exec "$(dirname "$0")/embed_needs.sh" gcc pkg-config python3 libwayland-dev libwayland-bin wayland-protocols \
	libwlroots-dev libxkbcommon-dev libgtk-4-dev sway fcitx5 fcitx5-pinyin dbus mir-test-tools mir-platform-graphics-x20 libegl-mesa0 \
	libgl1-mesa-dri xvfb libxtst6 wlcs
