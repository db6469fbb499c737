#!/bin/sh
# Every folder of crates/ is listed in crates.txt and every listed crate is there; every Rattle and antt file belongs to a
# listed crate, and every antt module is declared; no axiom, and no block of foreign functions.
cd "${1:-"$(dirname "$0")/.."}" || exit 1

good=0
bad=0
ok() { good=$((good + 1)); }
fault() { bad=$((bad + 1)); printf 'layout: %s\n' "$1"; }

# a line is 'NAME: LIBRARIES', or 'NAME staticlib: LIBRARIES'
listed=$(sed -e 's/#.*//' -e 's/^\([a-z0-9_]*\)[^:]*:.*/\1/' crates.txt | grep .)
for dir in crates/*/; do
    name=$(basename "$dir")
    if printf '%s\n' "$listed" | grep -qx "$name"; then ok; else fault "crates/$name is not listed in crates.txt"; fi
done
for name in $listed; do
    if [ -f "crates/$name/src/lib.rt" ] || [ -f "crates/$name/src/main.rt" ]; then ok; else fault "$name of crates.txt has no src/"; fi
done

files=$(mktemp) || exit 1
trap 'rm -f "$files"' EXIT
find . \( -name .git -o -name target -o -name dist -o -path './crates/*/out' \) -prune -o \( -name '*.rt' -o -name '*.antt' \) -type f -print >"$files"
while read -r file; do
    case $file in
    ./crates/*/src/*.rt | ./crates/*/specs/*.antt | ./crates/*/proofs/*.antt)
        name=$(printf '%s\n' "$file" | cut -d/ -f3)
        if printf '%s\n' "$listed" | grep -qx "$name"; then ok; else fault "$file is in no listed crate"; fi
        ;;
    *) fault "$file is in no crate" ;;
    esac
    case $file in
    ./crates/*/specs/Lib.antt | ./crates/*/proofs/Lib.antt | ./crates/*/proofs/*/Proof.antt | *.rt) ;;
    ./crates/*/proofs/*/Invariants.antt | ./crates/*/proofs/*/Answers.antt) ;;
    *)
        module=$(basename "$file" .antt)
        if grep -Eqx "(pub )?mod $module" "$(dirname "$file")/Lib.antt" 2>/dev/null; then ok; else fault "$file is not declared in its Lib.antt"; fi
        ;;
    esac
    case $file in
    *.antt) if grep -nE '^[[:space:]]*(pub[[:space:]]+)?axiom[[:space:]]' "$file"; then fault "$file states an axiom"; else ok; fi ;;
    *.rt) if grep -nE 'extern[[:space:]]*("C")?[[:space:]]*\{' "$file"; then fault "$file declares foreign functions"; else ok; fi ;;
    esac
done <"$files"

printf '%s passed, %s failed\n' "$good" "$bad"
[ "$bad" = 0 ]
