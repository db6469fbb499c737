#!/bin/sh
# edits.sh [REPOSITORY]: the must-fail edits that docs/PROOF.md lists, by crate, are those of the folders crates/*/must-fail.
cd "${1:-"$(dirname "$0")/.."}" || exit 1
work=$(mktemp -d) || exit 1
trap 'rm -rf "$work"' EXIT

# a row of a table below '### `CRATE`', its first column, in the section of the edits
awk '
/^## / { within = $0 == "## Must-fail edits" }
within && /^### `/ { split($0, part, "`"); crate = part[2] }
within && /^\| / && $2 != "edit" && $2 !~ /^-/ { print crate "/" $2 }
' docs/PROOF.md | sort >"$work/listed"
for edit in crates/*/must-fail/*.edit; do
    crate=${edit#crates/}
    printf '%s/%s\n' "${crate%%/*}" "$(basename "$edit" .edit)"
done | sort >"$work/there"

good=$(comm -12 "$work/listed" "$work/there" | grep -c .)
comm -23 "$work/listed" "$work/there" | sed 's/^/edits: listed and not there: /' >"$work/bad"
comm -13 "$work/listed" "$work/there" | sed 's/^/edits: there and not listed: /' >>"$work/bad"
sort "$work/listed" | uniq -d | sed 's/^/edits: listed twice: /' >>"$work/bad"
cat "$work/bad"
bad=$(grep -c . <"$work/bad")
printf '%s passed, %s failed\n' "$good" "$bad"
[ "$bad" = 0 ]
