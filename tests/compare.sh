#!/usr/bin/env bash
# Compares the static library with the second implementation in tests/second on drawn inputs. The last line is
# `compare: N inputs, 0 differences`; the exit status is 1 where they differ, or a number of the tables or a
# reason of one was never met.
set -e
cd "$(dirname "$0")/.."
. tests/build-second.sh
target/second/release/compare
