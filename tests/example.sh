#!/usr/bin/env bash
# Builds the programs of example/ with the static library and runs them, main.c on a few exchanges and buslink.c on frames; holds
# the library to what the header says of it: what it needs of C, that it has no data of its own, slices of length 0, and stack.
set -e
cd "$(dirname "$0")/.."
library=target/staticlib/libpualirqiq.a
strict="-Wall -Wextra -Wpedantic -Werror -Iinclude"

. tests/build-library.sh
others=$(nm --undefined-only $library | awk '$1 == "U" && $2 != "memcpy" && $2 != "memset" { print $2 }')
[ -z "$others" ] || { echo "the library also needs: $others"; exit 1; }
data=$(size $library | awk 'NR > 1 { sum += $2 + $3 } END { print sum }')
[ "$data" = 0 ] || { echo "the library has data of its own: $data bytes"; exit 1; }

for standard in c90 c99 c11; do
    cc -std=$standard $strict -fsyntax-only -x c include/pualirqiq.h
done
if command -v c++ > /dev/null; then
    c++ -std=c++17 $strict -fsyntax-only -x c++ include/pualirqiq.h
fi

cc -std=c99 $strict -O2 -o target/example example/main.c $library
sed 's/"Average=4/"Average=0/' example/main.c | cc -std=c99 $strict -O2 -o target/refused -x c - -x none $library
python3 tests/example.py target/example target/refused
cc -std=c99 $strict -O2 -o target/buslink example/buslink.c $library
python3 tests/buslink.py target/buslink
cc -std=c99 $strict -O2 -Wl,--wrap=memcpy,--wrap=memset -o target/null tests/null.c $library
target/null
python3 tests/stack.py $library include/pualirqiq.h
