#!/usr/bin/env bash
# Runs every example and compares what comes with the transcript beside it, or with what a trial shows or an audit says.
#
#   tests/examples.sh            with the program as `rt try` makes it, unproved
#   tests/examples.sh PROGRAM    with another build, as crates/wlim/out/wlim after `make build`
cd "$(dirname "$0")/.." || exit 1
program=$1
failed=0
if [ -n "$program" ] && [ ! -x "$program" ]; then
    echo "$program isn't built: make build"
    exit 1
fi
if [ -z "$program" ] && ! command -v rt > /dev/null; then
    echo "there is no rt: give a PROGRAM"
    exit 1
fi

run() {
    if [ -n "$program" ]; then "$program" "$1" < "$2"; else (cd crates/wlim && rt try -- "$1" < "../../$2" 2> /dev/null); fi
}

for example in examples/*.session examples/*.acts examples/*.seats examples/*.audit examples/*.trial; do
    wanted=${example%.*}.transcript
    case $example in
        *.acts) command=replay-acts ;;
        *.seats) command=replay-seats ;;
        *.audit) command=audit wanted=${example%.*}.verdict ;;
        *.trial) command=trial wanted=${example%.*}.shown ;;
        *) command=replay ;;
    esac
    if run $command "$example" | cmp -s - "$wanted"; then
        echo "same  $example"
    else
        echo "OTHER $example"
        failed=1
    fi
done
for wanted in examples/*.explained; do
    if run explain "${wanted%.*}.session" | cmp -s - "$wanted"; then
        echo "same  $wanted"
    else
        echo "OTHER $wanted"
        failed=1
    fi
done
python3 tools/stories.py --check || failed=1
exit $failed
