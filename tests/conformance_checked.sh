#!/usr/bin/env bash
# The conformance suite at the example compositor, its clients and the compositor under the address and undefined
# sanitizers: what they report fails it. `make build` and `make libwlim` come before.
set -eo pipefail
cd "$(dirname "$0")/.."
made=$PWD/out/conformance-checked
sanitize="-fsanitize=address,undefined -fno-sanitize-recover=all -O1"
conformance/build.sh "$made" $sanitize
EMBED_FLAGS=$sanitize conformance/embed.sh "$made" > /dev/null
rm -f "$made"/report.*
export ASAN_OPTIONS="log_path=$made/report:detect_leaks=0" UBSAN_OPTIONS="log_path=$made/report"
status=0
CONFORMANCE_BUILT=$made timeout -k 10 300 conformance/run.sh -- "$made/compositor" |
	grep -A1 -e ^failed -e ' passed, ' || status=1
if compgen -G "$made/report.*" > /dev/null; then
	cat "$made"/report.*
	status=1
fi
exit $status
