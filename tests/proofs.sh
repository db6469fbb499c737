#!/bin/sh
# proofs.sh [LOG STATUS]: every proof, test and must-fail edit, and the layout of every file: a plain rt ci at the top. A bad edit, which
# says nothing of a contract, counts as failed here. With a log of rt ci and the status that it ended with, it only judges those.
cd "$(dirname "$0")/.." || exit 1
log=$1
status=$2
if [ $# = 0 ]; then
    log=$(mktemp) || exit 1
    trap 'rm -f "$log" "$log.status"' EXIT
    { rt ci 2>&1; echo "$?" >"$log.status"; } | tee "$log"
    status=$(cat "$log.status")
fi
last=$(tail -n 1 "$log")
good=$(printf '%s\n' "$last" | sed -n 's/^\([0-9][0-9]*\) passed, [0-9][0-9]* failed$/\1/p')
failed=$(printf '%s\n' "$last" | sed -n 's/^[0-9][0-9]* passed, \([0-9][0-9]*\) failed$/\1/p')
if [ -z "$good" ]; then
    echo 'proofs: rt ci ends with no verdict'
    good=0
    failed=1
fi
if [ "$failed" = 0 ] && [ "$status" != 0 ]; then
    echo "proofs: rt ci ends with status $status"
    failed=1
fi
told=$(grep '^rt: ok;' "$log")
if [ "$failed" = 0 ] && [ -z "$told" ]; then
    echo 'proofs: rt ci does not say that all is well'
    failed=1
fi
bad=$(printf '%s\n' "$told" | sed -n 's/.*, \([0-9][0-9]*\) bad.*/\1/p')
[ -z "$bad" ] || echo "proofs: $bad must-fail edits are bad"
failed=$((failed + ${bad:-0}))
printf '%s passed, %s failed\n' "$good" "$failed"
[ "$failed" = 0 ]
