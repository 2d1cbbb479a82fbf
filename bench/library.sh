#!/bin/sh
# Proves and builds a static library of this repository, as target/staticlib/NAME.
#   bench/library.sh CRATE NAME
set -eu
cd "$(dirname "$0")/.."
mkdir -p target/staticlib
(cd "crates/$1" && rt lib) >"target/staticlib/$1.log" 2>&1 || { tail -n 20 "target/staticlib/$1.log" >&2; exit 1; }
cp "crates/$1/out/lib$1.a" "target/staticlib/$2"
