#!/bin/sh
# The C library in dist: its header is the one of include, compiles as C89 and not with another layout of a record,
# and runs from C++; every function that it declares is exported, and no other c51 or c53 function is; it calls no function
# of other libraries but memcpy.
cd "$(dirname "$0")/.." || exit 1

good=0
bad=0
ok() { good=$((good + 1)); }
fault() { bad=$((bad + 1)); printf 'lib: %s\n' "$1"; }

declared=$(sed -n 's/^[a-z].* \(c5[13]_[a-z_]*\)(.*[;,]$/\1/p' include/c51.h | sort)
exported=$(nm -g --defined-only dist/libc51.a | sed -n 's/^[0-9a-f]* T \(c5[13]_.*\)$/\1/p' | sort)

if cmp -s include/c51.h dist/c51.h; then ok; else fault 'dist/c51.h is not include/c51.h'; fi
for name in $declared; do
    if printf '%s\n' "$exported" | grep -qx "$name"; then ok; else fault "$name is declared and not exported"; fi
done
for name in $exported; do
    if printf '%s\n' "$declared" | grep -qx "$name"; then ok; else fault "$name is exported and not declared"; fi
done

asked=$(nm -u dist/libc51.a | sed -n 's/^ *U //p' | sort -u)
case $asked in '' | memcpy) ok ;; *) fault "it calls $asked" ;; esac

work=$(mktemp -d) || exit 1
trap 'rm -rf "$work"' EXIT
echo '#include <c51.h>' >"$work/header.c"
c89() { "${CC:-cc}" -std=c89 -pedantic -Wall -Wextra -Werror -fsyntax-only -I dist "$@" "$work/header.c"; }
if c89; then ok; else fault 'the header is no C89'; fi
if c89 -fpack-struct=1 2>"$work/log"; then fault 'the header compiles with packed structs'; else ok; fi
for layout in c51_device_layout c53_interval_layout c51_board_layout; do
    if grep -q "$layout" "$work/log"; then
        ok
    else
        fault "with packed structs the header is not refused for $layout:"
        cat "$work/log"
    fi
done
if ! command -v "${CXX:-c++}" >"$work/log"; then
    echo 'lib: there is no C++ compiler, so the header is not tried as C++'
elif "${CXX:-c++}" -Wall -Wextra -Werror -I dist -x c++ rust/c51/tests/calls.c -x none dist/libc51.a -o "$work/calls" && "$work/calls"; then
    ok
else
    fault 'the calls from C++ fail'
fi

printf '%s passed, %s failed\n' "$good" "$bad"
[ "$bad" = 0 ]
