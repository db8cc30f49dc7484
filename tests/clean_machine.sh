#!/usr/bin/env bash
# The packages of `make deb` in a fresh Debian 12, without this repository: as root, with mmdebstrap and a network.
#
#     tests/clean_machine.sh [FOLDER OF PACKAGES]
#
# It makes the root of Debian's mirror by this machine's apt settings, in namespaces of its own, and leaves nothing. A
# line for each test; the last is `N passed, M failed`.
cd "$(dirname "$0")/.."
debs=$(realpath "${1:-out/deb}")
if [ -z "$IN_NAMESPACE" ]; then
	[ "$(id -u)" = 0 ] && command -v mmdebstrap > /dev/null || { echo "skipped: needs root and mmdebstrap"; exit 0; }
	ls "$debs"/wlim_*.deb > /dev/null || exit 1
	tree=$(mktemp -d /tmp/clean_machine.XXXXXX)
	trap 'rm -rf --one-file-system "$tree"' EXIT
	IN_NAMESPACE=$tree unshare --mount --pid --fork --kill-child "$0" "$debs"
	exit
fi

tree=$IN_NAMESPACE/root passed=0 failed=0 log=$IN_NAMESPACE/log

# check NAME COMMAND..
check() {
	local name=$1
	shift
	if "$@" > "$log" 2>&1; then
		passed=$((passed + 1))
		echo "ok: $name"
	else
		failed=$((failed + 1))
		echo "FAILED: $name"
		tail -n 30 "$log"
	fi
}

inside() {
	chroot "$tree" /usr/bin/env -i PATH=/usr/sbin:/usr/bin:/sbin:/bin LC_ALL=C.UTF-8 DEBIAN_FRONTEND=noninteractive \
		HOME=/root "$@"
}

apt() {
	inside apt-get -qq -y --no-install-recommends "$@"
}

ours() {
	(cd "$tree" && for name; do ls srv/"$name"_*.deb | sed 's,^,/,'; done)
}

make_root() {
	local sources=/etc/apt/sources.list.d/debian.sources
	[ -f $sources ] || sources=/etc/apt/sources.list
	mmdebstrap --quiet --variant=apt --dpkgopt=force-unsafe-io bookworm "$tree" "$sources" || return 1
	apt-config dump | grep -E '^Acquire::(http|https|Check)' > "$tree/etc/apt/apt.conf.d/99machine"
	cp /etc/resolv.conf /etc/hosts "$tree/etc/"
	mount -t proc proc "$tree/proc" && mount --rbind /dev "$tree/dev" && mount -t tmpfs tmpfs "$tree/run" || return 1
	mkdir -p "$tree/srv" && cp "$debs"/*.deb "$tree/srv" && cp tests/clean_machine_types.sh conformance/suite/fcitx5.profile "$tree/srv"
	apt update
}

# Which files there are, without what apt, dpkg and ldconfig keep of their own.
list() {
	(cd "$tree" && find . -xdev -not -path './var/lib/dpkg/*' -not -path './var/lib/apt/*' -not -path './var/cache/*' \
		-not -path './var/log/*' -not -path './tmp/*' -not -path './etc/ld.so.cache' | sort)
}

replays() {
	inside sh -c 'wlim replay < /usr/share/doc/wlim/examples/one_batch.session | cmp - \
		/usr/share/doc/wlim/examples/one_batch.transcript'
}

explains() {
	inside sh -c 'wlim explain --bad-only < /usr/share/doc/wlim/examples/stale_serial.session | grep "reached nobody"'
}

no_toolchain() {
	! inside sh -c 'command -v rt || command -v cc || command -v gcc || command -v python3'
}

compiles() {
	inside sh -ec 'cd /tmp; cp /usr/share/doc/libwlim-dev/examples/relay.c .
		cc -Wall -Wextra -Werror relay.c $(pkg-config --cflags --libs wlim) -o relay; ldd ./relay
		test "$(./relay)" = "object 7 is told the string hello"
		cc relay.c -I/usr/include -static $(pkg-config --static --libs wlim) -o fixed; ./fixed | grep hello
		pkg-config --modversion wlim'
}

pages_are_found() {
	inside sh -ec 'for page in wlim wlim-replay wlim-serve wlim-gateway libwlim wlim_open wlim_broker_take; do
		man -w "$page"; done; man 5 wlim | grep -q session'
}

# as_tester SCRIPT: by a user with a runtime folder.
as_tester() {
	inside sh -ec 'id tester > /dev/null 2>&1 || useradd -m tester; mkdir -p /run/user/1000; chown tester /run/user/1000
		chmod 700 /run/user/1000; chmod 1777 /dev/shm; export HOME=/home/tester XDG_RUNTIME_DIR=/run/user/1000
		setpriv --reuid=tester --regid=tester --init-groups timeout 180 sh -mc "$0"' "$1"
}

types() {
	as_tester /srv/clean_machine_types.sh
}

nothing_is_left() {
	list > "$IN_NAMESPACE/after"
	diff "$IN_NAMESPACE/before" "$IN_NAMESPACE/after"
}

none_of_ours() {
	local file left=0
	while read -r file; do
		[ ! -f "$tree$file" ] && [ ! -L "$tree$file" ] || { echo "left: $file"; left=1; }
	done < "$IN_NAMESPACE/ours"
	return $left
}

offers_by_plugin() {
	as_tester 'weston --backend=headless-backend.so --use-pixman --modules=wlim.so --no-config --socket=weston-1 &
		for _ in $(seq 100); do [ -S /run/user/1000/weston-1 ] && break; sleep 0.1; done
		WAYLAND_DISPLAY=weston-1 wayland-info | grep zwp_text_input_manager_v3; offered=$?; kill %1; exit $offered'
}

names="wlim libwlim0 libwlim-dev wlim-gateway"
check "a fresh Debian 12" make_root
list > "$IN_NAMESPACE/before"
check "apt installs $names" apt install $(ours $names)
check "no compiler and no python is there" no_toolchain
check "wlim replay of an example gives its transcript" replays
check "wlim explain says why a batch reached nobody" explains
check "apt removes them" apt purge --autoremove $names
check "nothing is left" nothing_is_left

[ ! -f "$(ls "$debs"/weston-wlim_*.deb 2> /dev/null)" ] || names="$names weston-wlim"
check "apt installs $names, a compiler, and what types" apt install $(ours $names) gcc libc6-dev pkg-config man-db \
	sway foot fonts-dejavu-core fcitx5 fcitx5-pinyin dbus wtype wayland-utils
check "a program compiles by pkg-config, and relays a string" compiles
check "the manual has its pages" pages_are_found
[ "$names" = "${names% weston-wlim}" ] || check "Weston offers text input by the plug-in" offers_by_plugin
check "fcitx5 types into foot through wlim-gateway" types
inside dpkg -L $names | sort -u > "$IN_NAMESPACE/ours"
inside sh -c 'while read -r it; do [ -d "$it" ] || echo "$it"; done' < "$IN_NAMESPACE/ours" > "$log"
cp "$log" "$IN_NAMESPACE/ours"
check "apt removes all of them" apt purge $names
check "none of their files is left" none_of_ours
echo "$passed passed, $failed failed"
[ "$failed" = 0 ]
