#!/bin/sh
# The C library is built from the proved crates, and the replay program over it.
cd "$(dirname "$0")/.." || exit 1
rm -f dist/replay
if make --no-print-directory replay && [ -f dist/libc51.a ] && [ -f dist/c51.h ] && [ -x dist/replay ]; then
    echo '1 passed, 0 failed'
else
    echo '0 passed, 1 failed'
    exit 1
fi
