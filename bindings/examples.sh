#!/bin/sh
# Runs the examples that build.sh built.
set -e
cd "$(dirname "$0")"
echo "C:"
out/books
echo "Python:"
PYTHONPATH=python python3 python/examples/books.py
if [ -x out/target/release/examples/books ]; then
    echo "Rust:"
    out/target/release/examples/books
fi
