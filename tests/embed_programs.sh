#!/usr/bin/env bash
# Types by fcitx5 into foot and an entry of GTK 4, through the glue in a compositor on wlroots, and says what each got.
# `make libwlim` comes before.
#
#   tests/embed_programs.sh [ROUNDS]
set -e
cd "$(dirname "$0")/.."
made=out/embed
protocols=$made/protocols
examples/embed/protocols.sh "$protocols"
stable=$(pkg-config --variable=pkgdatadir wayland-protocols)/stable
wayland-scanner server-header "$stable/xdg-shell/xdg-shell.xml" "$protocols/xdg-shell-protocol.h"
flags="-std=c11 -Wall -Wextra -Werror -g"
uses="wlroots wayland-server xkbcommon pixman-1"
${CC:-cc} $flags -fsanitize=address,undefined -DWLR_USE_UNSTABLE -I"$protocols" -Iout/libwlim/include \
	-o "$made/compositor" examples/embed/compositor.c examples/embed/wlim_glue.c "$protocols"/*-unstable-*-protocol.c \
	out/libwlim/lib/libwlim.a $(pkg-config --cflags --libs $uses)
${CC:-cc} $flags -o "$made/entry" tests/embed_entry.c $(pkg-config --cflags --libs gtk4)
${CC:-cc} $flags -I"$protocols" -o "$made/method" tests/weston_method.c "$protocols"/*-unstable-*-protocol.c \
	$(pkg-config --cflags --libs wayland-client xkbcommon)
timeout -k 10 240 tests/embed_programs.py "$made" "$@"
