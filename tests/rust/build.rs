//! Links the archive of the library, unless the feature `library` is off.

use std::env;
use std::path::PathBuf;

fn main() {
    println!("cargo:rerun-if-env-changed=PUMP_LIB");
    if env::var_os("CARGO_FEATURE_LIBRARY").is_none() {
        return;
    }
    let manifest = PathBuf::from(env::var_os("CARGO_MANIFEST_DIR").unwrap());
    let folder = match env::var_os("PUMP_LIB") {
        Some(folder) => PathBuf::from(folder),
        None => manifest.join("../../target/staticlib"),
    };
    println!("cargo:rerun-if-changed={}", folder.join("libpump.a").display());
    println!("cargo:rustc-link-search=native={}", folder.display());
    println!("cargo:rustc-link-lib=static=pump");
}
