use std::{env, fs};

fn main() {
    println!("cargo:rerun-if-changed=build.rs");
    println!("cargo:rerun-if-env-changed=EOS_LIB_DIR");
    println!("cargo:rustc-check-cfg=cfg(library)");
    // Without the folder all but the library's calls builds, and the tests run.
    let Ok(folder) = env::var("EOS_LIB_DIR") else { return };
    let folder = fs::canonicalize(&folder).expect("EOS_LIB_DIR is no folder");
    println!("cargo:rerun-if-changed={}", folder.join("libeoswynnor.a").display());
    println!("cargo:rustc-link-search=native={}", folder.display());
    println!("cargo:rustc-link-lib=static=eoswynnor");
    println!("cargo:rustc-cfg=library");
}
