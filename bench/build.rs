//! Links the static library, for the comparison and the timing alone.

fn main() {
    println!("cargo:rerun-if-env-changed=CORMCUSHION_LIB");
    if std::env::var_os("CARGO_FEATURE_LIBRARY").is_some() {
        let own = format!("{}/../target/staticlib", env!("CARGO_MANIFEST_DIR"));
        let folder = std::env::var("CORMCUSHION_LIB").unwrap_or(own);
        println!("cargo:rerun-if-changed={folder}/libcormcushion.a");
        println!("cargo:rustc-link-search=native={folder}");
        println!("cargo:rustc-link-lib=static=cormcushion");
    }
}
