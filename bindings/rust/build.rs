// Links libcapi.a from the folder LIB_DIR, or from the repository's target/staticlib.

use std::env;
use std::path::PathBuf;

fn main() {
    println!("cargo::rerun-if-env-changed=LIB_DIR");
    let package = PathBuf::from(env::var("CARGO_MANIFEST_DIR").unwrap());
    let folder = match env::var("LIB_DIR") {
        Ok(folder) => PathBuf::from(folder),
        Err(_) => package.join("../../target/staticlib"),
    };
    let library = folder.join("libcapi.a");
    println!("cargo::rerun-if-changed={}", library.display());
    if !library.is_file() {
        println!(
            "cargo::error=there is no {}: run `tools/build library` at the top of the repository, or name a folder that has libcapi.a in LIB_DIR",
            library.display()
        );
        return;
    }
    println!("cargo::rustc-link-search=native={}", folder.display());
    println!("cargo::rustc-link-lib=static=capi");
}
