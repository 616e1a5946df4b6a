#!/usr/bin/env bash
# A long comparison: long.sh N [SEED] gives N times the inputs of compare.sh.
set -e
cd "$(dirname "$0")/.."
. tests/build-second.sh
target/second/release/compare "${1:-20}" ${2:+"$2"}
