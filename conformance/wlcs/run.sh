#!/usr/bin/env bash
# Runs WLCS's tests of text inputs at the example compositor: run.sh FOLDER. It needs Debian's package wlcs.
set -e
cd "$(dirname "$0")/../.."
to=$(realpath "$1")
EMBED_FLAGS="conformance/wlcs/lenient.c -Wl,--wrap=wlr_scene_xdg_surface_create" conformance/embed.sh "$to/wlcs" > /dev/null
${CC:-cc} -std=c11 -Wall -Wextra -Werror -g -shared -fPIC -o "$to/wlcs-wlim.so" conformance/wlcs/module.c \
	$(pkg-config --cflags wlcs wayland-client)
WLIM_COMPOSITOR="$to/wlcs/compositor" timeout 120 "$(pkg-config --variable=test_runner wlcs)" "$to/wlcs-wlim.so" \
	--gtest_filter='TextInputV3WithInputMethodV2Test.*'
