#!/usr/bin/env bash
# Builds the project's example compositor, and says where it is: embed.sh FOLDER [SOURCES]. `make libwlim` comes before.
#
# SOURCES is a folder like examples/embed, which is taken else: tests/conformance_faults.py gives one with a fault.
set -e
cd "$(dirname "$0")/.."
to=$1
from=${2:-examples/embed}
protocols=$to/embed-protocols
mkdir -p "$to" "$protocols"
WLROOTS_PROTOCOL=$PWD/conformance/protocol examples/embed/protocols.sh "$protocols"
shell=$(pkg-config --variable=pkgdatadir wayland-protocols)/stable/xdg-shell/xdg-shell.xml
wayland-scanner server-header "$shell" "$protocols/xdg-shell-protocol.h"
${CC:-cc} -std=c11 -Wall -Wextra -Werror -g -O1 $EMBED_FLAGS -DWLR_USE_UNSTABLE -I"$protocols" -Iout/libwlim/include \
	-o "$to/compositor" "$from/compositor.c" "$from/wlim_glue.c" "$protocols"/*-unstable-*-protocol.c \
	out/libwlim/lib/libwlim.a $(pkg-config --cflags --libs wlroots wayland-server xkbcommon pixman-1)
echo "$to/compositor"
