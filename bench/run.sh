#!/bin/sh
# Proves the bench's calls, links them to a C program and compares what they answer with bench/cases.txt. Exit status 0: every answer is as stored.
set -eu
cd "$(dirname "$0")/.."
out=target/c
bench/library.sh lace_c liblace.a
mkdir -p "$out"
gcc -std=c11 -O2 -Wall -Wextra -Werror -I include bench/walk.c target/staticlib/liblace.a -o "$out/walk"
if command -v python3 >/dev/null 2>&1; then
    python3 bench/expect.py | cmp - bench/cases.txt || { echo "bench/cases.txt is not what bench/expect.py writes" >&2; exit 1; }
fi
"$out/walk" bench/cases.txt
