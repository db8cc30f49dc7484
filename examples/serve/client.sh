#!/bin/sh
# Types a text through `wlim serve` by a client in C: client.sh PROGRAM
set -eu
here=$(dirname "$0")
folder=$(mktemp -d)
trap 'rm -rf "$folder"' EXIT
gcc -std=gnu11 -Wall -Wextra -O1 -o "$folder/client" "$here/client.c"
"$1" serve --app "$folder/a" --method "$folder/m" --shell "$folder/s" --order ams > "$folder/session" &
server=$!
"$folder/client" "$folder/a" "$folder/m" "$folder/s" "hello"
wait "$server"
"$1" replay < "$folder/session" > "$folder/transcript"
echo "the recorded session replays"
