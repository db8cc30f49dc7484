#!/bin/sh
# A long run over the turn lock: many threads race for it again and again, and each run must end with every turn made.
# No contract says that a sleeping thread is woken, so this is what shows it.
#
#   tests/turns_finish.sh [ROUNDS]
#
# ROUNDS is 100 where it isn't given; each round has five runs. It needs the program built: run `rt run` in
# crates/benches first. A run that hangs is ended after 60 seconds.
rounds=${1:-100}
top=$(cd "$(dirname "$0")/.." && pwd)
bench=${BENCHES:-$(find "$top/crates/benches/out" -type f -perm -u+x -name benches | head -n 1)}
[ -x "$bench" ] || { echo "benches isn't built: run 'rt run' in crates/benches"; exit 2; }

runs=0
round=0
while [ "$round" -lt "$rounds" ]; do
    round=$((round + 1))
    for threads in 2 3 4 8 64; do
        line=$(timeout 60 "$bench" turn "$threads" 20000) || { echo "$threads threads: no end after $runs runs"; exit 1; }
        case $line in
            "turn $threads threads, $((threads * 20000)) turns, "*) runs=$((runs + 1)) ;;
            *) echo "$threads threads: $line"; exit 1 ;;
        esac
    done
done
echo "$runs runs, all ended with every turn made"
