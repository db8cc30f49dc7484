# What tests/embed_speed.sh and tests/weston_speed.sh share: a folder to work in, their client, a compositor that is
# started for it. Each names `protocols` and `shell`, where the protocols' files are, and reads this.
work=$(mktemp -d)
compositor=
trap '[ -z "$compositor" ] || kill "$compositor"; rm -rf "$work"' EXIT
chmod 755 "$work"
user=
[ "$(id -u)" != 0 ] || user="setpriv --reuid nobody --regid nogroup --clear-groups"
flags="-std=c11 -Wall -Wextra -Werror -O2 -I$protocols -I$shell -Iout/libwlim/include"

# The client, and the compositor of examples/embed.
build_client() {
	local xml=$(pkg-config --variable=pkgdatadir wayland-protocols)/stable/xdg-shell/xdg-shell.xml
	mkdir -p "$shell"
	wayland-scanner server-header "$xml" "$shell/xdg-shell-protocol.h"
	wayland-scanner client-header "$xml" "$shell/xdg-shell-client-protocol.h"
	wayland-scanner private-code "$xml" "$shell/xdg-shell-protocol.c"
	${CC:-cc} $flags -DWLR_USE_UNSTABLE -o "$work/compositor" examples/embed/compositor.c examples/embed/wlim_glue.c \
		"$protocols"/*-unstable-*-protocol.c out/libwlim/lib/libwlim.a \
		$(pkg-config --cflags --libs wlroots wayland-server xkbcommon pixman-1)
	${CC:-cc} $flags -o "$work/embed_speed" tests/embed_speed.c "$protocols"/*-unstable-*-protocol.c \
		"$shell/xdg-shell-protocol.c" $(pkg-config --cflags --libs wayland-client) -lpthread
	echo 'xwayland disable' > "$work/config"
	mkfifo "$work/nothing"
	exec 3<> "$work/nothing"
	# Without a cursor theme, whose reading would be most of sway's start.
	export WLR_BACKENDS=headless WLR_RENDERER=pixman XCURSOR_PATH=$work
}

# What the client prints of a compositor, after it was there for `rest` seconds: measure BATCHES SINGLES COMMAND..
measure() {
	local many=$1 singles=$2 tries=0 socket
	shift 2
	export XDG_RUNTIME_DIR=$work/run
	mkdir -m 700 "$XDG_RUNTIME_DIR"
	[ -z "$user" ] || chown nobody "$XDG_RUNTIME_DIR"
	$user "$@" < "$work/nothing" > "$work/log" 2>&1 3>&- &
	compositor=$!
	until socket=$(cd "$XDG_RUNTIME_DIR" && ls | grep -x 'wayland-[0-9]*'); do
		[ $((tries += 1)) -lt 300 ] || { cat "$work/log"; exit 1; }
		sleep 0.1
	done
	sleep "${rest:-0}"
	WAYLAND_DISPLAY=$socket $user "$work/embed_speed" "$many" "$singles"
	kill "$compositor"
	wait "$compositor" || true
	compositor=
	rm -rf "$XDG_RUNTIME_DIR"
}

# Instructions that a compositor takes for a batch, the start and the end taken off: batch_instructions COMMAND..
batch_instructions() {
	local many counted
	for many in 2000 10000; do
		measure $many 0 valgrind --tool=callgrind --callgrind-out-file="$work/run/callgrind" "$@" > "$work/line"
		counted="$(sed -n 's/.*Collected : //p' "$work/log") $counted"
	done
	echo "$counted" | awk '{ printf "%.0f\n", ($1 - $2) / 8000 }'
}
