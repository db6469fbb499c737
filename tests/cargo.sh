#!/bin/sh
# cargo.sh FOLDER: the Rust tests of a folder, added up.
cd "$(dirname "$0")/../$1" || exit 1
log=$(mktemp) || exit 1
trap 'rm -f "$log"' EXIT
cargo test --offline --no-fail-fast >"$log" 2>&1
status=$?
cat "$log"
good=$(sed -n 's/^test result: [a-zA-Z]*\. \([0-9]*\) passed.*/\1/p' "$log" | awk '{ s += $1 } END { print s + 0 }')
bad=$(sed -n 's/^test result: [a-zA-Z]*\. [0-9]* passed; \([0-9]*\) failed.*/\1/p' "$log" | awk '{ s += $1 } END { print s + 0 }')
[ "$status" = 0 ] || [ "$bad" != 0 ] || bad=1
printf '%s passed, %s failed\n' "$good" "$bad"
[ "$bad" = 0 ]
