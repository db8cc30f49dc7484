#!/usr/bin/env bash
# Builds the glue and its test over libwayland, with the address sanitizer, and runs it. It needs Debian's
# libwayland-dev, libwayland-bin and wayland-protocols; `make libwlim` comes before.
set -e
cd "$(dirname "$0")/.."
made=out/embed
protocols=$made/protocols
examples/embed/protocols.sh "$protocols"
flags="-std=c11 -Wall -Wextra -Werror -g -fsanitize=address,undefined"
flags="$flags -I$protocols -Iexamples/embed -Iout/libwlim/include"
wraps="-Wl,--wrap=malloc,--wrap=calloc,--wrap=realloc,--wrap=fstatfs"
${CC:-cc} $flags $wraps -o "$made/glue" tests/embed_glue.c examples/embed/wlim_glue.c "$protocols"/*-protocol.c \
	out/libwlim/lib/libwlim.a $(pkg-config --cflags --libs wayland-server wayland-client)
timeout 60 "$made/glue"
