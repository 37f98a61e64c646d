//! Links the static library, from the folder that HAGGLETHWAIT_LIB names or from where `examples/archive`
//! puts it.

use std::env;
use std::path::Path;

fn main() {
    println!("cargo:rerun-if-env-changed=HAGGLETHWAIT_LIB");
    let folder = env::var("HAGGLETHWAIT_LIB").unwrap_or_else(|_| {
        let here = env::var("CARGO_MANIFEST_DIR").expect("cargo names the package's folder");
        format!("{here}/../../target/staticlib")
    });
    let archive = Path::new(&folder).join("libhagglethwait.a");
    println!("cargo:rerun-if-changed={}", archive.display());
    println!("cargo:rustc-link-search=native={folder}");
    println!("cargo:rustc-link-lib=static=hagglethwait");
}
