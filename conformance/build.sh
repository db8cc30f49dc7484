#!/usr/bin/env bash
# Builds the suite's client: build.sh FOLDER [FLAG..]. It needs a C compiler, pkg-config, wayland-scanner, libwayland,
# wayland-protocols and libxkbcommon; for the toolkit's scenarios GTK 4.
set -e
here="$(cd "$(dirname "$0")" && pwd)"
to=$1
shift
mkdir -p "$to/protocols"
shared=$(pkg-config --variable=pkgdatadir wayland-protocols)
for file in "$here"/protocol/*.xml "$shared/unstable/text-input/text-input-unstable-v3.xml" \
		"$shared/stable/xdg-shell/xdg-shell.xml"; do
	name="$to/protocols/$(basename "$file" .xml)"
	wayland-scanner client-header "$file" "$name-client-protocol.h"
	wayland-scanner private-code "$file" "$name-protocol.c"
done
${CC:-cc} -std=c11 -Wall -Wextra -Werror -g -O1 "$@" -I"$to/protocols" -o "$to/client" "$here"/client/*.c \
	"$to"/protocols/*-protocol.c $(pkg-config --cflags --libs wayland-client xkbcommon)
if pkg-config --exists gtk4; then
	${CC:-cc} -std=c11 -Wall -Wextra -Werror -g -O1 -o "$to/entries" "$here/toolkit/entries.c" \
		$(pkg-config --cflags --libs gtk4)
fi
