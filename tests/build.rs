//! Where the proved library is: RACK_LIB_DIR, or target/staticlib of the repository.

use std::env;
use std::path::PathBuf;

fn main() {
    let repository = PathBuf::from(env::var("CARGO_MANIFEST_DIR").unwrap()).join("..");
    let folder = match env::var("RACK_LIB_DIR") {
        Ok(named) => PathBuf::from(named),
        Err(_) => repository.join("target").join("staticlib"),
    };
    println!("cargo:rerun-if-env-changed=RACK_LIB_DIR");
    println!("cargo:rerun-if-changed={}", folder.join("librack.a").display());
    println!("cargo:rustc-link-search=native={}", folder.display());
    println!("cargo:rustc-link-lib=static=rack");
}
