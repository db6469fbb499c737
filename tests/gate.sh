#!/bin/sh
# The gate. Each part is a command; its last line 'N passed, M failed' is added up, and a part that ends with another status
# than 0, or whose last line is another, counts as failed whatever it says. The last line is the sum.
cd "$(dirname "$0")/.." || exit 1

passed=0
failed=0
log=$(mktemp) || exit 1
trap 'rm -f "$log"' EXIT

part() {
    name=$1
    shift
    printf '== %s\n' "$name"
    { "$@" 2>&1; echo "$?" >"$log.status"; } | tee "$log"
    status=$(cat "$log.status")
    rm -f "$log.status"
    last=$(tail -n 1 "$log")
    good=$(printf '%s\n' "$last" | sed -n 's/^\([0-9][0-9]*\) passed, [0-9][0-9]* failed$/\1/p')
    bad=$(printf '%s\n' "$last" | sed -n 's/^[0-9][0-9]* passed, \([0-9][0-9]*\) failed$/\1/p')
    if [ -z "$good" ]; then
        good=0
        bad=1
        printf '%s: no verdict\n' "$name"
    fi
    if [ "$status" != 0 ] && [ "$bad" = 0 ]; then
        bad=1
        printf '%s: exit status %s\n' "$name" "$status"
    fi
    if [ "$good" = 0 ] && [ "$bad" = 0 ]; then
        bad=1
        printf '%s: nothing was tested\n' "$name"
    fi
    passed=$((passed + good))
    failed=$((failed + bad))
}

part 'proofs, must-fail edits and the layout of the files (rt ci)' sh tests/proofs.sh
part 'layout: every crate and Rattle file listed, no axiom, no foreign function' sh tests/layout.sh
part 'imports: every name that is imported is used' sh tests/imports.sh
part 'edits: docs/PROOF.md lists the must-fail edits' sh tests/edits.sh
part 'the tests of the sources find what they must' sh tests/finds.sh
part 'the model by other hands (cargo test)' sh tests/cargo.sh model
part 'the C library and the replay program are built' sh tests/build.sh
part 'the C library: header and exports' sh tests/lib.sh
part 'the fixed call scripts: every form of a line, cards, examples' sh tests/cards.sh
part 'the replay program against the model, fixed scripts' sh tests/compare.sh
part 'wrapper, replay, comparison, station, benchmark (cargo test)' sh tests/cargo.sh rust

printf '%s passed, %s failed\n' "$passed" "$failed"
[ "$failed" = 0 ]
