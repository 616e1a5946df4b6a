//! Links the programs with the static library, which `tests/build-library.sh` leaves below the top of the repository.
fn main() {
    let here = std::env::var("CARGO_MANIFEST_DIR").unwrap();
    let library = format!("{here}/../../target/staticlib/libpualirqiq.a");
    println!("cargo:rerun-if-changed={library}");
    println!("cargo:rustc-link-arg-bins={library}");
}
