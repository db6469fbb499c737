#!/bin/sh
# imports.sh [REPOSITORY]: no file of a crate imports a name that it does not use. An operator is used where its symbols stand in the
# text, those between its ◌; of `x as y` it is y that has to.
cd "${1:-"$(dirname "$0")/.."}" || exit 1
files=$(find crates -name out -prune -o \( -name '*.rt' -o -name '*.antt' \) -print | sort)
[ -n "$files" ] || { echo 'imports: there is no file'; exit 1; }

# shellcheck disable=SC2086
awk '
function judged(    i, j, n, symbols, is_used, unused) {
    if (file == "") return
    for (i = 1; i <= names; i++) {
        n = split(name[i], symbols, "◌")
        is_used = name[i] in used
        if (!is_used && n > 1) {
            is_used = 1
            for (j = 1; j <= n; j++) if (symbols[j] != "" && !(symbols[j] in used)) is_used = 0
        }
        if (!is_used) { unused++; printf "imports: %s: %s is imported and not used\n", file, name[i] }
    }
    if (unused) bad++; else good++
    names = 0
    split("", used)
}
function imported(text) {
    sub(/^.* as /, "", text)
    gsub(/[ \t]/, "", text)
    if (text != "") name[++names] = text
}
# what the use line takes, all of it on one line
function taken(    n, i, list) {
    sub(/;[ \t]*$/, "", line)
    if (line ~ /\{.*\}$/) {
        sub(/^[^{]*\{/, "", line)
        sub(/\}$/, "", line)
        n = split(line, list, ",")
        for (i = 1; i <= n; i++) imported(list[i])
    } else if (line ~ / as /) {
        imported(line)
    } else {
        sub(/^.*(::| )/, "", line)
        imported(line)
    }
}
FNR == 1 { listing = 0; judged(); file = FILENAME }
/^[ \t]*(--|\/\/)/ { next }
listing {
    line = line $0
    if ($0 !~ /}/) next
    listing = 0
    taken()
    next
}
/^(pub )?(ghost )?use / {
    if ($0 ~ /^pub / || $0 ~ /[{, ]syntax /) next
    line = $0
    if (line ~ /\{/ && line !~ /}/) { listing = 1; next }
    taken()
    next
}
{
    sub(/(^|[ \t])(--|\/\/).*/, "")
    n = split($0, list, /[ \t(){};,.]+/)
    for (i = 1; i <= n; i++) used[list[i]] = 1
    n = split($0, list, /[][ \t(){};,.]+/)
    for (i = 1; i <= n; i++) used[list[i]] = 1
    if (FILENAME ~ /\.rt$/) {
        n = split($0, list, /[^A-Za-z0-9_]+/)
        for (i = 1; i <= n; i++) used[list[i]] = 1
    }
}
END { judged(); printf "%d passed, %d failed\n", good, bad; exit bad != 0 }
' $files
