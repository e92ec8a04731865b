//! Links libeoswynnor.a, which lies in the folder EOSWYNNOR_LIB_DIR, or in the one that the file library-folder names, as
//! seen from this crate: where ./build.sh, or make install, put it.

use std::path::Path;
use std::{env, fs};

fn main() {
    println!("cargo:rerun-if-changed=build.rs");
    println!("cargo:rerun-if-changed=library-folder");
    println!("cargo:rerun-if-env-changed=EOSWYNNOR_LIB_DIR");
    if env::var_os("CARGO_FEATURE_LINK").is_none() {
        return;
    }
    let beside = || fs::read_to_string("library-folder").expect("library-folder is a file of this crate");
    let folder = env::var("EOSWYNNOR_LIB_DIR").unwrap_or_else(|_| beside().trim().into());
    let library = fs::canonicalize(Path::new(&folder).join("libeoswynnor.a")).unwrap_or_else(|_| {
        panic!(
            "no libeoswynnor.a in {folder} (seen from here): set EOSWYNNOR_LIB_DIR to its folder, an absolute path; in the \
             repository run ./build.sh"
        )
    });
    println!("cargo:rerun-if-changed={}", library.display());
    println!("cargo:rustc-link-search=native={}", library.parent().expect("it lies in a folder").display());
    println!("cargo:rustc-link-lib=static=eoswynnor");
}
