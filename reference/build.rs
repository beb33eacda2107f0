//! Links the proved library, but only where the feature `proved` asks for it.

use std::env;
use std::path::Path;

fn main() {
    println!("cargo:rerun-if-env-changed=INVEROOK_LIB");
    if env::var_os("CARGO_FEATURE_PROVED").is_none() {
        return;
    }
    let Ok(folder) = env::var("INVEROOK_LIB") else {
        panic!("feature `proved`: set INVEROOK_LIB to the folder that holds libinverook.a");
    };
    let archive = Path::new(&folder).join("libinverook.a");
    assert!(
        archive.is_file(),
        "feature `proved`: there is no {}",
        archive.display()
    );
    println!("cargo:rerun-if-changed={}", archive.display());
    println!("cargo:rustc-link-search=native={folder}");
    println!("cargo:rustc-link-lib=static=inverook");
}
