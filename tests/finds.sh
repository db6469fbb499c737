#!/bin/sh
# The tests of the sources refuse what they must, and say so: on a copy of the repository, a deleted line of crates.txt, a stray file, an
# undeclared module, an axiom, a foreign function, an import that is not used and an edit that is not listed each make the test for it
# fail with the message for it. So does a run of rt ci that fails, or that met an edit which says nothing, the test that reads its log.
here=$(cd "$(dirname "$0")/.." && pwd) || exit 1
copy=$(mktemp -d) || exit 1
trap 'rm -rf "$copy"' EXIT

good=0
bad=0
fresh() {
    rm -rf "$copy/repo"
    mkdir "$copy/repo"
    (cd "$here" && tar -cf - --exclude='crates/*/out' crates.txt crates docs) | tar -xf - -C "$copy/repo"
}
# refused TEST WHAT MESSAGE: the test fails, and the message is among its own
refused() {
    if sh "$here/tests/$1.sh" "$copy/repo" >"$copy/log"; then
        bad=$((bad + 1))
        printf 'the test %s passes %s\n' "$1" "$2"
    elif grep -Fqx "$1: $3" "$copy/log"; then
        good=$((good + 1))
        printf '%s: %s\n' "$2" "$3"
    else
        bad=$((bad + 1))
        printf 'the test %s fails on %s without saying: %s\n' "$1" "$2" "$3"
        cat "$copy/log"
    fi
}

fresh
for test in layout imports edits; do
    if sh "$here/tests/$test.sh" "$copy/repo" >"$copy/log"; then good=$((good + 1)); else bad=$((bad + 1)); cat "$copy/log"; fi
done
sed '/^laws:/d' "$here/crates.txt" >"$copy/repo/crates.txt"
refused layout 'a deleted line of crates.txt' 'crates/laws is not listed in crates.txt'
fresh
echo 'fn stray() {}' >"$copy/repo/stray.rt"
refused layout 'a stray file outside the crates' './stray.rt is in no crate'
fresh
echo '-- nothing' >"$copy/repo/crates/machine/specs/Stray.antt"
refused layout 'a module that is not declared' './crates/machine/specs/Stray.antt is not declared in its Lib.antt'
fresh
printf '\naxiom wish : Type 0\n' >>"$copy/repo/crates/machine/specs/Bits.antt"
refused layout 'an axiom' './crates/machine/specs/Bits.antt states an axiom'
fresh
printf '\nunsafe extern "C" {\n    safe fn getpid() -> i32;\n}\n' >>"$copy/repo/crates/laws/src/lib.rt"
refused layout 'a foreign function' './crates/laws/src/lib.rt declares foreign functions'
fresh
sed '/^use Rattle\.std\.specs\.Prelude\./s/}$/, leb}/' "$here/crates/machine/specs/Flags.antt" >"$copy/repo/crates/machine/specs/Flags.antt"
refused imports 'an import that is not used' 'crates/machine/specs/Flags.antt: leb is imported and not used'
fresh
sed '/^use Rattle\.std\.specs\.Prelude\./s/}$/, ◌^◌}/' "$here/crates/machine/specs/Flags.antt" >"$copy/repo/crates/machine/specs/Flags.antt"
refused imports 'an operator that is not used' 'crates/machine/specs/Flags.antt: ◌^◌ is imported and not used'
fresh
sed '/^use machine::places::/s/};$/, SMOD};/' "$here/crates/cycle/src/lib.rt" >"$copy/repo/crates/cycle/src/lib.rt"
refused imports 'an import of code that is not used' 'crates/cycle/src/lib.rt: SMOD is imported and not used'
fresh
cp "$here/crates/machine/must-fail/card1_offered_early.edit" "$copy/repo/crates/machine/must-fail/another.edit"
refused edits 'an edit that is not listed' 'there and not listed: machine/another'
fresh
rm "$copy/repo/crates/machine/must-fail/card1_offered_early.edit"
refused edits 'an edit that is not there' 'listed and not there: machine/card1_offered_early'

# judged STATUS WHAT LAST TOLD VERDICT: of a run of rt ci that ends with this status and this last line, the line told above it, the
# test gives this verdict
judged() {
    printf '%s\n' "$4" "$3" >"$copy/ran"
    verdict=$(sh "$here/tests/proofs.sh" "$copy/ran" "$1" | tail -n 1)
    if [ "$verdict" = "$5" ]; then
        good=$((good + 1))
        printf '%s: %s\n' "$2" "$verdict"
    else
        bad=$((bad + 1))
        printf 'the test proofs says %s of %s, not %s\n' "$verdict" "$2" "$5"
    fi
}
ok='rt: ok; handles allowed: none; must-fail edits: 7 refused'
rest='; every proof and must-fail edit was done in this run'
judged 0 'a run that passes' '9 passed, 0 failed' "$ok$rest" '9 passed, 0 failed'
judged 0 'a run with bad edits' '9 passed, 0 failed' "$ok, 2 bad$rest" '9 passed, 2 failed'
judged 1 'a run that fails' '8 passed, 1 failed' 'rt: FAILED: laws' '8 passed, 1 failed'
judged 1 'a run that ends badly' '9 passed, 0 failed' "$ok$rest" '9 passed, 1 failed'
judged 0 'a run of some crates' '9 passed, 0 failed (laws and the crates below alone: not the gate)' "$ok$rest" '0 passed, 1 failed'
judged 0 'a run that does not say that all is well' '9 passed, 0 failed' 'rt: nothing' '9 passed, 1 failed'

printf '%s passed, %s failed\n' "$good" "$bad"
[ "$bad" = 0 ]
