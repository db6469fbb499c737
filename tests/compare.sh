#!/bin/sh
# compare.sh [SEEDS [LINES [FIRST]]]: dist/replay against the model by other hands, on the scripts of the model's
# generator, of every style, and on the same scripts damaged. SEEDS scripts of LINES lines for each style, seeds FIRST
# and up. Only a call that is out of reach is shortened (rust/compare/src/reach.rs); all else is as generated. Without
# arguments it is the fixed run. tests/stage has the model's stage: the N for which requests One to N have landed.
cd "$(dirname "$0")/.." || exit 1
least_calls=340000
least_board_calls=50000
least_speed_calls=22000
least_risen_dumps=95000
least_overflow_runs=37000
least_round_jumps=51000
least_saves=4000
least_loads=2800
least_refused_loads=350
stage=$(cat tests/stage) || exit 1
for number in "$@"; do
    case $number in
    0* | *[!0-9]* | '') echo "compare: wants whole numbers from 1 on, not '$number'" >&2; exit 2 ;;
    esac
done
[ $# -le 3 ] || { echo 'compare: wants at most three numbers, SEEDS, LINES and FIRST' >&2; exit 2; }
seeds=${1:-9}
lines=${2:-2800}
first=${3:-1}

. tests/replay.sh
(cd model && cargo build --release --offline --quiet) || exit 1
(cd rust && cargo build --release --offline --quiet --bin reach) || exit 1
gen=model/target/release/gen
runner=model/target/release/runner
reach=rust/target/release/reach
styles=$(sh model/styles.sh "$stage")
[ -n "$styles" ] || { echo 'compare: the model names no styles'; exit 1; }
calls=0
board_calls=0
speed_calls=0
risen_dumps=0
overflow_runs=0
round_jumps=0
saves=0
loads=0
by_15=0
by_16=0
by_17=0
shortened=0
compared=0

# Half of the lines of a script with bytes dropped or added, or in small letters.
damage() {
    awk -v seed="$1" 'BEGIN { srand(seed) } {
        r = int(rand() * 12); at = 1 + int(rand() * length($0))
        if (r == 0) print substr($0, 1, at - 1) substr($0, at + 1)
        else if (r == 1) print substr($0, 1, at) " " substr($0, at + 1)
        else if (r == 2) print substr($0, 1, at) "x" substr($0, at + 1)
        else if (r == 3) print $0 " 7"
        else if (r == 4) print $0 "99999999999999999999"
        else if (r == 5) print tolower($0)
        else print $0 }'
}

# same NAME SCRIPT: the script within reach gets the same answers from both. The calls are its lines but faults, dumps
# and set records; those of the 82C53 and of the board begin with V, those that ask for a speed with B. Dumps are counted
# where a flag rose: from the 42nd number on every second one is its ever. Runs are counted where a timer overflowed: the
# third to fifth number of an answer to J, T or VX are its totals. Jumps are counted where they took more than one round: the
# sixth number of an answer to J or VX. Saves and loads, P and Q, are counted where they pass, and loads by what refuses
# them.
same() {
    if ! "$reach" <"$2" >"$work/script"; then
        fault "$1" 'reach fails'
    elif [ "$(wc -l <"$work/script")" != "$lines" ]; then
        fault "$1" "$(wc -l <"$work/script") lines, not $lines"
    elif ! "$runner" --stage "$stage" <"$work/script" >"$work/model" 2>"$work/faults"; then
        fault "$1" 'the model fails'
    elif answered "$1" "$work/script" "$work/model"; then
        compared=$((compared + lines))
        shortened=$((shortened + $(diff "$2" "$work/script" | grep -c '^<')))
        awk 'NR == FNR { code[FNR] = $1; for (i = 42; i < NF; i += 2) rose[FNR] += $i == 1; lapped[FNR] = $3 + $4 + $5; rounds[FNR] = $6; next }
            code[FNR] != "?" && !/^[DS]/ { n++; v += /^V/; b += /^B/ } /^D/ && rose[FNR] { d++ } /^(J|T|VX) / && lapped[FNR] { o++ }
            /^(J|VX) / && rounds[FNR] > 1 { r++ } /^P/ && code[FNR] == "0" { p++ } /^Q/ { q[code[FNR]]++ }
            END { print n + 0, v + 0, b + 0, d + 0, o + 0, r + 0, p + 0, q["0"] + 0, q["15"] + 0, q["16"] + 0, q["17"] + 0 }' \
            "$work/model" "$work/script" >"$work/counted"
        read -r n v b d o r p q q15 q16 q17 <"$work/counted"
        calls=$((calls + n))
        board_calls=$((board_calls + v))
        speed_calls=$((speed_calls + b))
        risen_dumps=$((risen_dumps + d))
        overflow_runs=$((overflow_runs + o))
        round_jumps=$((round_jumps + r))
        saves=$((saves + p))
        loads=$((loads + q))
        by_15=$((by_15 + q15))
        by_16=$((by_16 + q16))
        by_17=$((by_17 + q17))
        return
    fi
    cp "$work/script" "dist/differs.$bad.txt"
}

for style in $styles; do
    seed=$first
    while [ "$seed" -lt $((first + seeds)) ]; do
        name="$style, seed $seed"
        if ! "$gen" "$seed" "$lines" "$style" "$stage" >"$work/made"; then
            fault "$name" 'the generator fails'
        else
            same "$name" "$work/made"
            if damage "$seed" <"$work/made" >"$work/damaged"; then
                same "$name, damaged" "$work/damaged"
            else
                fault "$name" 'damaging fails'
            fi
        fi
        seed=$((seed + 1))
    done
done

printf '%s calls compared, %s of them of the 82C53 or the board, %s for a speed, %s runs in which a timer overflowed, ' \
    "$calls" "$board_calls" "$speed_calls" "$overflow_runs"
printf '%s jumps of more than one round, ' "$round_jumps"
printf '%s saves, %s loads and %s, %s and %s refused by 15, 16 and 17, ' "$saves" "$loads" "$by_15" "$by_16" "$by_17"
printf '%s shortened, and %s dumps in which a flag rose, in %s lines, seeds from %s\n' "$shortened" "$risen_dumps" "$compared" "$first"
[ $# -gt 0 ] || [ "$calls" -ge "$least_calls" ] || fault compare "fewer than $least_calls calls"
[ $# -gt 0 ] || [ "$board_calls" -ge "$least_board_calls" ] || fault compare "fewer than $least_board_calls calls of the board"
[ $# -gt 0 ] || [ "$speed_calls" -ge "$least_speed_calls" ] || fault compare "fewer than $least_speed_calls calls for a speed"
[ $# -gt 0 ] || [ "$risen_dumps" -ge "$least_risen_dumps" ] || fault compare "fewer than $least_risen_dumps dumps in which a flag rose"
[ $# -gt 0 ] || [ "$overflow_runs" -ge "$least_overflow_runs" ] || fault compare "fewer than $least_overflow_runs runs in which a timer overflowed"
[ $# -gt 0 ] || [ "$round_jumps" -ge "$least_round_jumps" ] || fault compare "fewer than $least_round_jumps jumps of more than one round"
[ $# -gt 0 ] || [ "$saves" -ge "$least_saves" ] || fault compare "fewer than $least_saves saves"
[ $# -gt 0 ] || [ "$loads" -ge "$least_loads" ] || fault compare "fewer than $least_loads loads"
for refused in "$by_15" "$by_16" "$by_17"; do
    [ $# -gt 0 ] || [ "$refused" -ge "$least_refused_loads" ] || fault compare "fewer than $least_refused_loads loads refused by 15, 16 or 17"
done
verdict
