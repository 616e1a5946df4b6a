#!/usr/bin/env bash
# The comparison under valgrind's memcheck, with fewer inputs: every buffer is an allocation of exactly its length, so that a read
# or write outside of one fails the run. fuzz.sh [N [SEED]], N being a share of the inputs of compare.sh.
set -e
cd "$(dirname "$0")/.."
. tests/build-second.sh
valgrind --tool=memcheck --error-exitcode=1 --quiet target/second/release/compare "${1:-0.1}" ${2:+"$2"}
