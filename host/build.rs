// Links the archive that `tools/archive` writes. ROLBHUNGA_LIB names the folder that holds librolbhunga.a,
// where it is not the repository's own target/staticlib.
use std::env;
use std::path::Path;

fn main() {
    let dir = env::var("ROLBHUNGA_LIB").unwrap_or_else(|_| {
        let own = env::var("CARGO_MANIFEST_DIR").expect("cargo sets it");
        Path::new(&own).join("../target/staticlib").display().to_string()
    });
    println!("cargo:rerun-if-env-changed=ROLBHUNGA_LIB");
    println!("cargo:rerun-if-changed={dir}/librolbhunga.a");
    println!("cargo:rustc-link-search=native={dir}");
    println!("cargo:rustc-link-lib=static=rolbhunga");
}
