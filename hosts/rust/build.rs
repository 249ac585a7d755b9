//! Links the proved library that `hosts/library` writes. `THRESHREED_LIB` may name another folder that holds it.

use std::env;
use std::path::Path;

fn main() {
    println!("cargo::rerun-if-env-changed=THRESHREED_LIB");
    let folder = match env::var("THRESHREED_LIB") {
        Ok(folder) => Path::new(&folder).to_path_buf(),
        Err(_) => Path::new(env!("CARGO_MANIFEST_DIR")).join("../../target/staticlib"),
    };
    let library = folder.join("libhost.a");
    println!("cargo::rerun-if-changed={}", library.display());
    if !library.exists() {
        println!(
            "cargo::error={} is not there: run `hosts/library` in the repository's root",
            library.display()
        );
        return;
    }
    println!("cargo::rustc-link-search=native={}", folder.display());
    println!("cargo::rustc-link-lib=static=host");
}
