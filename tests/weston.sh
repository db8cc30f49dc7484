#!/usr/bin/env bash
# Builds the plug-in for Weston and tries it in a headless Weston, with real programs and fcitx5: tests/weston.sh [TRIAL..]
# Then again under the address and undefined sanitizers; without a TRIAL also with faults planted. `make libwlim` comes
# before. WESTON_SHOTS names a folder for screenshots, as PPM.
set -e
cd "$(dirname "$0")/.."
version=10
flags="-std=gnu11 -Wall -Wextra -Werror -g"
uses="weston libweston-$version wayland-server xkbcommon pixman-1"

# The plug-in, the driver and the trials' programs: build FOLDER FLAGS
build() {
	local to=$1/$version protocols=$1/protocols
	make -s -C modules/weston OUT="$1" CFLAGS="$2"
	${CC:-cc} $flags $2 -fPIC -shared -fvisibility=hidden -o "$to/drive.so" tests/weston_drive.c \
		$(pkg-config --cflags --libs $uses)
	${CC:-cc} $flags -o "$to/entry" tests/embed_entry.c $(pkg-config --cflags --libs gtk4)
	${CC:-cc} $flags -I"$protocols" -o "$to/method" tests/weston_method.c \
		"$protocols"/{input-method,text-input,virtual-keyboard}-unstable-v*-protocol.c \
		$(pkg-config --cflags --libs wayland-client xkbcommon)
}

build "$PWD/out/weston" "-O2 -g"
timeout -k 10 900 tests/weston_trials.py out/weston/$version "$@"
build "$PWD/out/weston-checked" "-O1 -g -fsanitize=address,undefined"
WESTON_PRELOAD=$(${CC:-cc} -print-file-name=libasan.so) \
	timeout -k 10 900 tests/weston_trials.py out/weston-checked/$version "$@"
[ $# != 0 ] || timeout -k 10 900 tests/weston_faults.py out/weston/$version
