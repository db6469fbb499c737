#!/bin/sh
# The fixed call scripts: a script of every form of a line, cards that are run, and the examples. Each through dist/replay
# gives the answers that stand beside it; documents 01 and 02 state those of the cards.
cd "$(dirname "$0")/.." || exit 1
. tests/replay.sh

for script in tests/scripts/*.txt tests/cards/*.txt examples/*.txt; do
    answered "$script" "$script" "${script%.txt}.answers"
done

# trace COUNT FIRST: a trace of entries of one cycle with all pins high, but for the first
trace() { awk -v n="$1" -v first="$2" 'BEGIN { printf "T %d %s", n, first; while (--n > 0) printf " 2130706433"; print "" }'; }

# The longest trace passes, with Timer 0 overflowing in each cycle. With an entry more it is refused by 5, also where an entry is bad,
# and the device stays.
for kind in 51 52; do
    {
        printf '%s\n' "R $kind" 'W 137 2' 'W 140 255' 'W 138 255' 'W 136 16'
        trace 65536 2130706433
        echo D
        trace 65537 2130706433
        trace 65537 2147483648
        echo D
    } >"$work/script"
    after="$kind 0 48 2 255 0 255 0 0 0 0 0 0 0 0 0 0 0 0 0 0 0 0 0 1 0 0 0 0 2 2 0 0 65536 1 1 1 1 1 1 1 1 1 0 0 0 0 0 0 0 0 0 0 0 0 0 0"
    printf '%s\n' '0 0' '0 0' '0 0' '0 0' '0 0' '0 0 65536 0 0' "$after" '5 0 0 0 0' '5 0 0 0 0' "$after" >"$work/answers"
    answered "the longest trace, kind $kind" "$work/script" "$work/answers"
done
verdict
