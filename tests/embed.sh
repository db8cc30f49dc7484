#!/usr/bin/env bash
# Builds the players in C over out/libwlim, of acts and of sessions by bytes, and holds what they print against the
# program, over the worked rows, the examples, and lists and sessions made from numbers; again with the address sanitizer
# and under valgrind. Then what C and a client can do wrong (tests/embed_bad.c), and who has output among peers that come
# and go (tests/embed_ready.c). `make build` and `make libwlim` come before.
#
#   tests/embed.sh PROGRAM [LISTS]
set -e
cd "$(dirname "$0")/.."
program=$1
lists=${2:-1000}
export PKG_CONFIG_PATH=out/libwlim/lib/pkgconfig
made=out/embed
mkdir -p "$made"
flags="-std=c11 -D_POSIX_C_SOURCE=200809L -Wall -Wextra -Werror -g $(pkg-config --cflags wlim)"
player=examples/embed/play_acts.c
library=out/libwlim/lib/libwlim.a
${CC:-cc} $flags -o "$made/play_acts" "$player" "$library"
${CC:-cc} $flags -fsanitize=address,undefined -o "$made/play_acts_checked" "$player" "$library"
${CC:-cc} $flags -o "$made/play_acts_shared" "$player" $(pkg-config --libs wlim) -Wl,-rpath,"$PWD/out/libwlim/lib"
tests/embed.py "$program" "$made/play_acts" "$lists"
tests/embed.py "$program" "$made/play_acts_checked" 100
tests/embed.py "$program" "$made/play_acts_shared" 20
tests/embed.py "$program" "valgrind -q --leak-check=full --error-exitcode=9 $made/play_acts" 20
by_bytes=examples/embed/play_session.c
${CC:-cc} $flags -D_DEFAULT_SOURCE -o "$made/play_session" "$by_bytes" "$library"
${CC:-cc} $flags -D_DEFAULT_SOURCE -fsanitize=address,undefined -o "$made/play_session_checked" "$by_bytes" "$library"
tests/embed_bytes.py "$program" "$made/play_session" 20
tests/embed_bytes.py "$program" "$made/play_session_checked" 5
tests/embed_bytes.py "$program" "valgrind -q --leak-check=full --error-exitcode=9 $made/play_session" 1
bad="-Wl,--wrap=malloc,--wrap=realloc,--wrap=free tests/embed_bad.c"
${CC:-cc} $flags -o "$made/bad" $bad "$library"
${CC:-cc} $flags -fsanitize=address,undefined -o "$made/bad_checked" $bad "$library"
"$made/bad"
"$made/bad_checked"
valgrind -q --leak-check=full --error-exitcode=9 "$made/bad"
${CC:-cc} $flags -fsanitize=address,undefined -o "$made/ready" tests/embed_ready.c "$library"
"$made/ready" 5000
