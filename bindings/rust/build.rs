//! Links `libesr.a`: that of `ESR_LIB_DIR`, or `lib/libesr.a` of this package, or, in the repository, the one that
//! `bindings/build` makes.

use std::{env, path::PathBuf};

fn main() {
    println!("cargo::rerun-if-env-changed=ESR_LIB_DIR");
    let here = PathBuf::from(env::var_os("CARGO_MANIFEST_DIR").expect("cargo sets it"));
    let named = env::var_os("ESR_LIB_DIR").map(PathBuf::from);
    let folders = named.map_or_else(
        || vec![here.join("lib"), here.join("../lib")],
        |one| vec![one],
    );
    for folder in &folders {
        println!(
            "cargo::rerun-if-changed={}",
            folder.join("libesr.a").display()
        );
    }
    let Some(folder) = folders
        .iter()
        .find(|folder| folder.join("libesr.a").is_file())
    else {
        let looked = folders.iter().map(|folder| folder.display().to_string());
        println!(
            "cargo::error=no libesr.a in {}: bindings/build makes it, and ESR_LIB_DIR names the folder that has it",
            looked.collect::<Vec<_>>().join(" or ")
        );
        return;
    };
    println!("cargo::rustc-link-search=native={}", folder.display());
    println!("cargo::rustc-link-lib=static=esr");
}
