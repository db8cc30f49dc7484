#!/usr/bin/env bash
# Runs each example with its Nth request for memory refused, for N from 1 up to the first N that nothing asks for.
# The status is then 6 (no memory) and what was written a front of the example's output, or both are the example's own.
#
#   tests/refused-memory.sh            with crates/wlim/out/wlim, which `make build` proves and builds
#   tests/refused-memory.sh PROGRAM    with another build
#   HUB_TESTS=PROGRAM                  another build of the hub's tests
#
# It needs gcc: a small library that is loaded before the C library's counts the calls of malloc, realloc and the like.
cd "$(dirname "$0")/.." || exit 1
program=${1:-crates/wlim/out/wlim}
[ -x "$program" ] || { echo "no program at $program; run make build"; exit 2; }
work=$(mktemp -d)
trap 'rm -rf "$work"' EXIT

cat > "$work/refuse.c" <<'SOURCE'
#define _GNU_SOURCE
#include <dlfcn.h>
#include <errno.h>
#include <stdlib.h>
#include <unistd.h>
#include <fcntl.h>

/* The number of the request that is refused, and how many came. */
static long refused = 0, asked = 0;

static void __attribute__((constructor)) begin(void) {
    const char *number = getenv("REFUSED");
    refused = number ? atol(number) : 0;
    asked = 0;
}

/* The file says that the request came. */
static int refuse(void) {
    if (refused == 0 || ++asked != refused) return 0;
    int file = open(getenv("REFUSED_FILE"), O_CREAT | O_WRONLY, 0600);
    if (file >= 0) close(file);
    errno = ENOMEM;
    return 1;
}

void *malloc(size_t size) {
    static void *(*real)(size_t);
    if (!real) real = dlsym(RTLD_NEXT, "malloc");
    return refuse() ? NULL : real(size);
}

void *realloc(void *was, size_t size) {
    static void *(*real)(void *, size_t);
    if (!real) real = dlsym(RTLD_NEXT, "realloc");
    return refuse() ? NULL : real(was, size);
}

void *aligned_alloc(size_t align, size_t size) {
    static void *(*real)(size_t, size_t);
    if (!real) real = dlsym(RTLD_NEXT, "aligned_alloc");
    return refuse() ? NULL : real(align, size);
}

int posix_memalign(void **where, size_t align, size_t size) {
    static int (*real)(void **, size_t, size_t);
    if (!real) real = dlsym(RTLD_NEXT, "posix_memalign");
    return refuse() ? ENOMEM : real(where, align, size);
}
SOURCE
gcc -O1 -shared -fPIC -o "$work/refuse.so" "$work/refuse.c" -ldl || exit 2

failed=0

# try NAME INPUT WORD..: the command of the words over the input.
try() {
    name=$1 input=$2
    shift 2
    "$program" "$@" < "$input" > "$work/whole"
    own=$?
    number=0
    while :; do
        number=$((number + 1))
        rm -f "$work/came"
        REFUSED=$number REFUSED_FILE="$work/came" LD_PRELOAD="$work/refuse.so" "$program" "$@" < "$input" > "$work/part"
        status=$?
        [ -e "$work/came" ] || break
        size=$(stat -c %s "$work/part")
        if [ $status -eq 6 ] && cmp -s -n "$size" "$work/part" "$work/whole"; then continue; fi
        if [ $status -eq $own ] && cmp -s "$work/part" "$work/whole"; then continue; fi
        echo "WRONG $name: request $number refused, status $status"
        failed=1
    done
    if [ $status -ne $own ] || ! cmp -s "$work/part" "$work/whole"; then echo "WRONG $name: nothing refused"; failed=1; fi
    echo "$name: $((number - 1)) requests refused in turn"
}

for example in examples/*.acts; do try "$(basename "$example")" "$example" replay-acts; done
for example in examples/*.session; do try "$(basename "$example")" "$example" replay; done
for example in examples/*.seats; do try "$(basename "$example")" "$example" replay-seats; done
for example in examples/*.audit; do try "$(basename "$example")" "$example" audit; done
for example in examples/*.trial; do try "$(basename "$example")" "$example" trial; done
try "gen 7" /dev/null gen 7

# Rows whose stores, popups and keys no example has.
sed '1s/.*/session 1 1000000 163/' examples/one_batch.session > "$work/full"
try "both stores full" "$work/full" replay
printf '%s\n' peer "surface 1" "field 1" peer "surface 4" "method 4" "screen 1000 800" "area 2 100 200 900 600" \
    "area 5 0 0 200 100" "focus 2" "enable 3" "rect 3 850 560 2 20" "commit 3" "popup 6 5" end > "$work/popup"
try "a popup is placed" "$work/popup" replay-acts
printf '%s\n' "trial 1" "single 40 27" "single 18 65" "compose c3a9 40 18" "fields 1" "use 1" "press 40" "show 1" \
    "press 18" "show 1" end > "$work/compose"
try "a composed letter" "$work/compose" trial

# A call of the hub that memory was refused to is made again, with the answer of a hub that never lacked any. The test
# that does so is in the program that `rt test` in crates/test_hub builds.
hub=${HUB_TESTS:-crates/test_hub/out/test_hub_tests}
if [ -x "$hub" ]; then
    number=0
    while :; do
        number=$((number + 1))
        rm -f "$work/came"
        said=$(REFUSED=$number REFUSED_FILE="$work/came" LD_PRELOAD="$work/refuse.so" "$hub" call_tests::each_call_answers)
        case $said in *"test result: ok"*) ;; *) echo "WRONG hub: request $number refused"; failed=1 ;; esac
        [ -e "$work/came" ] || break
    done
    echo "a hub's calls, made again: $((number - 1)) requests refused in turn"
else
    echo "a hub's calls, made again: not built, run 'rt test' in crates/test_hub"
fi
exit $failed
