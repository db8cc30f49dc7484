#!/usr/bin/env bash
# Builds wlim-gateway over out/libwlim: `make libwlim` comes before.
#
#     gateway/build.sh FOLDER [FLAG..]
#
# FOLDER gets the program, and the tables that are made of the protocols' XML files: gateway/protocols, KDE's and wlroots'
# (gateway/protocols.sh brings them), those of wayland-protocols, and those that MORE_PROTOCOLS names. The compiler is told
# the flags too.
set -e
cd "$(dirname "$0")/.."
to=$1
shift
mkdir -p "$to"
gateway/protocols.sh "$to/protocols/more"
WLROOTS_PROTOCOL="$to/protocols/more" examples/embed/protocols.sh "$to/protocols"
shared=$(pkg-config --variable=pkgdatadir wayland-protocols)
# Another file has it, or we do; and text-input.xml is text-input-unstable-v1 before it had its name.
hidden="xdg-shell-unstable-v5.xml text-input-unstable-v1.xml input-method-unstable-v1.xml /text-input.xml"
gateway/tables.py "$to" $(ls gateway/protocols/*.xml "$to"/protocols/more/*.xml "$shared"/unstable/*/*.xml \
	| grep -v -F "${hidden// /$'\n'}") "$shared"/{staging,stable}/*/*.xml \
	"$(pkg-config --variable=pkgdatadir wayland-scanner)/wayland.xml" "$to"/protocols/*.xml $MORE_PROTOCOLS
{
	echo 'static const char usage[] ='
	sed 's/["\\]/\\&/g; s/.*/\t"&\\n"/' gateway/usage.txt
	echo '	;'
} > "$to/usage.h"
${CC:-cc} -std=c11 -D_GNU_SOURCE -Wall -Wextra -Werror -g -O2 "$@" -Igateway -I"$to" -Iout/libwlim/include \
	-o "$to/wlim-gateway" gateway/*.c "$to/tables.c" out/libwlim/lib/libwlim.a
