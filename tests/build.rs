//! Where the linker finds the proved library, if it is asked for. What is linked to it is built anew when it changes.

fn main() {
    println!("cargo:rerun-if-changed=build.rs");
    if std::env::var_os("CARGO_FEATURE_LIBRARY").is_some() {
        let folder = std::env::var("CARGO_MANIFEST_DIR").expect("cargo names the package's folder");
        println!("cargo:rerun-if-changed={folder}/../crates/calls/out/libcalls.a");
        println!("cargo:rustc-link-search=native={folder}/../crates/calls/out");
    }
}
