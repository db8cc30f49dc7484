#!/bin/sh
# Honest peers type through a server while others attack it, and each of them gets what the recorded session says.
#
#   tests/soak.sh [MINUTES] [PROGRAM]
#
# MINUTES is 1 where it isn't given; the program is what `rt run` in crates/wlim built. It prints its seed first: a run
# with SEED set to it sends the same again. Then come the cases of soak_cases.py, with a flood of FLOOD seconds (60).
top=$(cd "$(dirname "$0")/.." && pwd)
program=${2:-$(find "$top/crates/wlim/out" -type f -perm -u+x -name wlim | head -n 1)}
[ -x "$program" ] || { echo "wlim isn't built: run 'make build'"; exit 2; }
python3 "$top/tests/soak.py" "$program" "${1:-1}" "${SEED:-1}" || exit 1
exec python3 "$top/tests/soak_cases.py" "$program" "${FLOOD:-60}"
