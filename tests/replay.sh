# Sourced, in the repository's top folder, by the tests that run call scripts through dist/replay: a scratch folder, the
# counts of what passed and failed, and the verdict.
replay=dist/replay
[ -x "$replay" ] || { echo "$0: $replay is missing; run 'make replay'"; exit 1; }
work=$(mktemp -d) || exit 1
trap 'rm -rf "$work"' EXIT
good=0
bad=0
fault() { bad=$((bad + 1)); printf '%s: %s\n' "$1" "$2"; }

# line_count FILE: a last line with no newline is one
line_count() { grep -c '' <"$1"; }

# answered NAME SCRIPT ANSWERS: dist/replay gives these answers, one to each line of the script
answered() {
    "$replay" <"$2" >"$work/ours"
    status=$?
    if [ "$status" != 0 ]; then
        fault "$1" "$replay ends with status $status"
    elif [ ! -s "$2" ]; then
        fault "$1" 'the script is empty'
    elif [ "$(line_count "$2")" != "$(line_count "$3")" ]; then
        fault "$1" "$(line_count "$2") lines and $(line_count "$3") answers"
    elif ! cmp -s "$3" "$work/ours"; then
        fault "$1" 'an answer differs, first at:'
        diff "$3" "$work/ours" | head -n 6
    else
        good=$((good + 1))
        return 0
    fi
    return 1
}

verdict() {
    printf '%s passed, %s failed\n' "$good" "$bad"
    [ "$bad" = 0 ]
}
