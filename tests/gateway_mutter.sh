#!/usr/bin/env bash
# Types by fcitx5 into GTK 4 and foot through the gateway beside Mutter, GNOME's compositor, which has no input-method-v2.
# Installs mutter of Debian 12, as root. tests/gateway.sh comes before.
set -e
cd "$(dirname "$0")/.."
checked=out/gateway/checked
if ! dpkg -s mutter > /dev/null 2>&1; then
	[ "$(id -u)" = 0 ] || { echo "install first: mutter"; exit 1; }
	DEBIAN_FRONTEND=noninteractive timeout 600 apt-get -qq install -y --no-install-recommends mutter > /dev/null
fi
${CC:-cc} -std=c11 -Wall -Wextra -Werror -g -o "$checked/keys" tests/gateway_mutter_keys.c \
	$(pkg-config --cflags --libs gio-2.0)
timeout -k 10 200 tests/gateway_mutter.py "$checked"
