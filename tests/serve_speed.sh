#!/bin/sh
# Measures `wlim serve` beside a plain relay: tests/serve_speed.sh [PROGRAM] [BATCHES]
#
# The program is what `rt run` in crates/wlim built. It needs a C compiler.
top=$(cd "$(dirname "$0")/.." && pwd)
program=${1:-$(find "$top/crates/wlim/out" -type f -perm -u+x -name wlim | head -n 1)}
[ -x "$program" ] || { echo "wlim isn't built: run 'make build'"; exit 2; }
work=$(mktemp -d)
trap 'rm -rf "$work"' EXIT
cc -O2 -o "$work/serve_speed" "$top/tests/serve_speed.c" -lpthread && "$work/serve_speed" "$program" "${2:-200000}"
