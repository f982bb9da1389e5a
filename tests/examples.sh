#!/usr/bin/env bash
# Does what README.md shows, C and Python examples among it; what the C example prints is held to
# c/first.out, and the header to the source. Then measures the stack that the calls need. Needs `tools/build.sh`.
set -eu
cd "$(dirname "$0")/.."
. tests/seed.sh
echo "examples: PUMP_SEED=$PUMP_SEED"
mkdir -p target
python3 tests/readme.py
python3 tests/border.py
strict="cc -std=c99 -Wall -Wextra -Werror -O2 -Ic"
$strict -o target/first c/first.c target/staticlib/libpump.a
target/first | diff c/first.out -
echo "examples: the C example prints what c/first.out has"
$strict -o target/short target/short.c target/staticlib/libpump.a
target/short
$strict -pthread -o target/stack tests/stack.c target/staticlib/libpump.a
target/stack
