#!/usr/bin/env bash
# Tests the gateway beside sway without a screen: its parts, random messages, and what clients see, with the address
# sanitizer; programs that fcitx5 types into; how long things take. PROGRAM replays each session to the bytes that
# clients got. `make libwlim` and `make build` come before.
#
#     tests/gateway.sh PROGRAM [ROUNDS]
set -e
cd "$(dirname "$0")/.."
program=$1
rounds=${2:-20}
made=out/gateway
checked=$made/checked
sanitize="-fsanitize=address,undefined -fno-sanitize-recover=all"
flags="-std=c11 -D_GNU_SOURCE -Wall -Wextra -Werror -g -Igateway -Iout/libwlim/include"
gateway/build.sh "$made"
mkdir -p "$checked"
cp -r "$made/protocols" "$checked"
gateway/build.sh "$checked" $sanitize
core=$(ls gateway/*.c | grep -v -e /gateway.c -e /sockets.c -e /outlets.c -e /listen.c -e /check.c)
shell=$(ls gateway/{sockets,outlets,listen,check}.c)
parts() { # FILE..: what they are compiled to
	for file in "$@"; do
		echo "$checked/parts/$(basename "$file" .c).o"
	done
}
mkdir -p "$checked/parts"
for file in $core $shell "$checked/tables.c"; do
	${CC:-cc} $flags $sanitize -I"$checked" -c -o "$(parts "$file")" "$file"
done
for name in fuzz order renewals popups pixels version_2 limits faults shell play loop sockets; do
	more= wrapped= from=tests/gateway_$name.c
	case $name in
	renewals) wrapped=-Wl,--wrap=wlim_broker_open ;;
	faults) wrapped=$(printf -- '-Wl,--wrap=%s ' malloc calloc realloc sendmsg recvmsg memfd_create mmap clock_gettime) ;;
	loop | sockets) more="$(parts $shell) -DOVER_SOCKETS" wrapped=-Wl,--wrap=clock_gettime ;;
	esac
	[ $name != sockets ] || from=tests/gateway_fuzz.c
	${CC:-cc} $flags $sanitize $wrapped -I"$checked" -o "$checked/$name" "$from" $more $(parts $core) \
		"$checked/parts/tables.o" out/libwlim/lib/libwlim.a
done
${CC:-cc} $flags $sanitize -I"$checked" -o "$checked/units" tests/gateway_units.c \
	gateway/{ids,keymaps,message,objects,popup_want,tokens,wire}.c "$checked/tables.c"
${CC:-cc} $flags -O2 -I"$made" -o "$made/speed" tests/gateway_speed.c gateway/message.c "$made/tables.c"
${CC:-cc} $flags -o "$checked/entry" tests/embed_entry.c $(pkg-config --cflags --libs gtk4)
${CC:-cc} $flags -o "$checked/entry3" tests/gateway_entry3.c $(pkg-config --cflags --libs gtk+-3.0)
rm -f "$checked"/*.session* "$checked"/*.taken* "$checked"/*.calls*
"$checked/units"
"$checked/shell"
"$checked/loop"
"$checked/order"
"$checked/renewals"
"$checked/popups"
"$checked/pixels"
"$checked/version_2"
"$checked/limits"
"$checked/faults"
for seed in 1 2 3; do
	timeout 300 "$checked/fuzz" 200000 $seed
done
timeout 300 "$checked/fuzz" 100000 4 honest
timeout 300 "$checked/sockets" 20000 5
timeout 300 "$checked/sockets" 10000 6 honest
timeout -k 10 100 tests/gateway_start.py "$checked"
timeout -k 10 200 tests/gateway_session.py "$checked"
timeout -k 10 300 tests/gateway_peers.py "$checked"
timeout -k 10 900 tests/gateway_limits.py "$checked"
timeout -k 10 900 tests/gateway_programs.py "$checked" "$rounds"
timeout -k 10 300 tests/gateway_hostile.py "$checked"
timeout -k 10 900 tests/gateway_candidates.py "$checked"
timeout -k 10 600 tests/gateway_replay.py "$program" "$checked"
# As root above all that else keeps the processors busy.
timeout -k 10 300 $([ "$(id -u)" != 0 ] || echo chrt -r 1) tests/gateway_figures.py "$made"
