//! Tells the linker where `tools/prove curlewreel` puts the engine's library.
fn main() {
    let top = std::env::var("CARGO_MANIFEST_DIR").expect("cargo gives the package's folder");
    println!("cargo:rustc-link-search=native={top}/../target/staticlib");
}
