#!/bin/sh
# What `wlim serve` does where its record can't be written, or where it is killed: tests/serve_record.sh [PROGRAM]
#
# The program is what `rt run` in crates/wlim built. Where `unshare` may mount, the full disk is a tmpfs of 64 KiB in a
# namespace of its own; else it is `/dev/full`, which takes nothing.
top=$(cd "$(dirname "$0")/.." && pwd)
program=${1:-$(find "$top/crates/wlim/out" -type f -perm -u+x -name wlim | head -n 1)}
[ -x "$program" ] || { echo "wlim isn't built: run 'make build'"; exit 2; }
small=$(mktemp -d)
trap 'rmdir "$small"' EXIT
if unshare -rm mount -t tmpfs -o size=64k none "$small" 2>/dev/null; then
    unshare -rm sh -c 'mount -t tmpfs -o size=64k none "$1" && exec python3 "$2" "$3" "$1"' - \
        "$small" "$top/tests/serve_record.py" "$program"
else
    python3 "$top/tests/serve_record.py" "$program"
fi
