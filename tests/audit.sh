#!/bin/sh
# The server is audited by its own auditor: tests/audit.sh [PROGRAM]
#
# The program is what `rt run` in crates/wlim built. What tools/audit_input.py makes of the examples is looked at first.
top=$(cd "$(dirname "$0")/.." && pwd)
program=${1:-$(find "$top/crates/wlim/out" -type f -perm -u+x -name wlim 2> /dev/null | head -n 1)}
[ -x "$program" ] || { echo "wlim isn't built: run 'make build'"; exit 2; }
exec python3 "$top/tests/audit.py" "$program"
