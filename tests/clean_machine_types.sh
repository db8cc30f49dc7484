#!/bin/sh
# In the root of tests/clean_machine.sh, as a user: sway without a screen, wlim-gateway, fcitx5 and foot; pinyin is
# typed until foot has the word, ten times at most.
cd "$HOME" || exit 1
export XDG_RUNTIME_DIR=/run/user/1000 LC_ALL=C.UTF-8
export WLR_BACKENDS=headless WLR_LIBINPUT_NO_DEVICES=1 WLR_RENDERER=pixman
mkdir -p .config/fcitx5
cp /srv/fcitx5.profile .config/fcitx5/profile
printf 'output * resolution 1280x720\n' > sway.conf
dbus-daemon --session --fork --address=unix:path=/run/user/1000/bus
export DBUS_SESSION_BUS_ADDRESS=unix:path=/run/user/1000/bus

# there NAME: waits for a socket.
there() {
	for _ in $(seq 100); do
		[ -S "$XDG_RUNTIME_DIR/$1" ] && return
		sleep 0.1
	done
	echo "no $1"
	cat ./*.log
	exit 1
}

sway -c sway.conf > sway.log 2>&1 &
there wayland-1
wlim-gateway --compositor wayland-1 --log > gateway.log 2>&1 &
there wlim-methods
WAYLAND_DISPLAY=wlim-methods fcitx5 --disable=notificationitem,kimpanel,xim,xcb,cloudpinyin,notifications \
	> fcitx5.log 2>&1 &
WAYLAND_DISPLAY=wlim-programs foot -c /dev/null sh -c 'stty raw -echo; exec cat > got' > foot.log 2>&1 &
for _ in $(seq 10); do
	# The keyboard is there as long as wtype runs: the window is entered at its begin.
	WAYLAND_DISPLAY=wayland-1 wtype -s 4000 -d 60 nihao -k space -s 500
	if grep -q 你好 got; then
		echo "foot has $(cat got)"
		exit 0
	fi
done
echo "foot has: $(cat got)"
tail -n 20 gateway.log fcitx5.log foot.log
exit 1
