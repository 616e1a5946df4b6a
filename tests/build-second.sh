# Builds the static library and, with it, the programs of tests/second; they lie in target/second/release. To be sourced at the
# top of the repository.
. tests/build-library.sh
CARGO_TARGET_DIR=target/second cargo build --quiet --release --offline --manifest-path tests/second/Cargo.toml
