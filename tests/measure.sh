#!/usr/bin/env bash
# Measures the library's calls and the second implementation's, and writes docs/MEASURED.md. Needs valgrind.
set -e
cd "$(dirname "$0")/.."
. tests/build-second.sh
python3 tests/measure.py target/second/release/measure docs/MEASURED.md
