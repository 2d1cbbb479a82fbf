#!/bin/sh
# Times a step of the library from C; bench/speed.c says against what.
set -eu
cd "$(dirname "$0")/.."
out=target/c
bench/library.sh lace_c liblace.a
mkdir -p "$out"
gcc -std=c11 -O3 -Wall -Wextra -Werror -I include bench/speed.c target/staticlib/liblace.a -o "$out/speed"
"$out/speed"
