#!/bin/sh
# Makes out/libdilforec.a and out/libdilforec.so.0 of the library that `rt lib` made in crates/fts_c, and the examples in C,
# Python and Rust.
set -e
cd "$(dirname "$0")"

mkdir -p out
python3 python/link.py
${CC:-cc} -O2 -Wall -Wextra -o out/books c/example.c out/libdilforec.a
if command -v cargo > /dev/null; then
    (cd rust && cargo build --quiet --offline --release --examples --target-dir ../out/target)
fi
