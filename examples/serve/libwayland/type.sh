#!/bin/sh
# An unmodified libwayland client types into another through wlim: libwayland/type.sh PROGRAM
#
# It needs Debian's libwayland-dev, libwayland-bin and wayland-protocols. The field is one client, the method another;
# the shell focuses the field's surface.
set -e
program=$(realpath "$1")
here=$(cd "$(dirname "$0")" && pwd)
work=$(mktemp -d)
trap 'kill $(jobs -p) 2>/dev/null; rm -rf "$work"' EXIT
cd "$work"
protocols=$(pkg-config --variable=pkgdatadir wayland-protocols)
for file in "$protocols/unstable/text-input/text-input-unstable-v3.xml" "$here/input-method-unstable-v2.xml"; do
    name=$(basename "$file" .xml)
    wayland-scanner client-header "$file" "$name-client-protocol.h"
    wayland-scanner private-code "$file" "$name.c"
done
for client in field method; do
    cc -w -I . -I "$here" -o $client "$here/$client.c" ./*-unstable-*.c -lwayland-client
done
"$program" serve --app app --method method_door --shell shell --order sam >session &
server=$!
python3 "$here/shell.py" shell field.out &
python3 "$here/../adapter.py" app "$work/for_field" &
python3 "$here/../adapter.py" method_door "$work/for_method" &
until [ -S for_field ] && [ -S for_method ]; do sleep 0.05; done
WAYLAND_DISPLAY=$work/for_field ./field >field.out &
field=$!
until grep -q surface field.out; do sleep 0.05; done
WAYLAND_DISPLAY=$work/for_method ./method
wait $field
wait $server
cat field.out session
