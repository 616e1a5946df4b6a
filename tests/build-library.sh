# Builds the static library, for any x86-64 processor, and puts it where C callers find it: target/staticlib/libpualirqiq.a. To be
# sourced at the top of the repository.
mkdir -p target/staticlib
(cd crates/pualirqiq_c && rt lib --cpu=x86-64) > target/staticlib.log 2>&1 || { tail -n 5 target/staticlib.log; exit 1; }
cmp -s crates/pualirqiq_c/out/libpualirqiq_c.a target/staticlib/libpualirqiq.a ||
    cp crates/pualirqiq_c/out/libpualirqiq_c.a target/staticlib/libpualirqiq.a
