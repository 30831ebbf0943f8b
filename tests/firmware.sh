#!/bin/sh
# Tries the header and the example of a board in C on the archive that `./prove mspis_c` leaves, or on one that is named: the
# header by itself as C and as C++; what the example prints; and, where valgrind is on the machine, the same with plan and image in
# blocks of just their lengths, so that a byte read or written outside them is an error.
set -eu
cd "$(dirname "$0")/.."
archive=${1:-target/staticlib/libmspis_c.a}
work=$(mktemp -d)
trap 'rm -rf "$work"' EXIT
warnings='-Wall -Wextra -Wpedantic -Wconversion -Werror'

# Twice, for its guard.
printf '#include "mspis.h"\n#include "mspis.h"\n' >"$work/header"
gcc -std=c99 $warnings -Iinclude -fsyntax-only -x c "$work/header"
g++ -std=c++11 $warnings -Iinclude -fsyntax-only -x c++ "$work/header"

gcc -std=c99 -O2 $warnings -Iinclude examples/firmware.c "$archive" -o "$work/firmware"
"$work/firmware" >"$work/printed"
cmp examples/firmware.txt "$work/printed"

if command -v valgrind >/dev/null; then
    gcc -std=c99 -g -DEXACT_BLOCKS $warnings -Iinclude examples/firmware.c "$archive" -o "$work/exact"
    valgrind --quiet --error-exitcode=1 "$work/exact" >"$work/printed"
    cmp examples/firmware.txt "$work/printed"
fi
