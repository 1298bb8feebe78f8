//! Links the proved library. Its archive is libcapi_c.a where `rt lib` wrote it and
//! libequalizer.a where `make` put it; either serves. It is looked for in the folder RATTLE_LIB, or
//! else in crates/capi_c/out and then in build, both at the top of the repository.

use std::env;
use std::path::{Path, PathBuf};

const NAMES: [&str; 2] = ["equalizer", "capi_c"];

fn main() {
    println!("cargo::rerun-if-changed=build.rs");
    println!("cargo::rerun-if-env-changed=RATTLE_LIB");
    let top = Path::new(&env::var_os("CARGO_MANIFEST_DIR").unwrap()).join("../..");
    let folders = match env::var_os("RATTLE_LIB").filter(|f| !f.is_empty()) {
        Some(folder) => vec![PathBuf::from(folder)],
        None => vec![top.join("crates/capi_c/out"), top.join("build")],
    };
    for folder in folders.iter().flat_map(|f| f.canonicalize()) {
        for name in NAMES {
            let archive = folder.join(format!("lib{name}.a"));
            if archive.is_file() {
                println!("cargo::rerun-if-changed={}", archive.display());
                println!("cargo::rustc-link-search=native={}", folder.display());
                println!("cargo::rustc-link-lib=static={name}");
                return;
            }
        }
    }
    let folders: Vec<_> = folders.iter().map(|f| f.display().to_string()).collect();
    println!(
        "cargo::error=no libequalizer.a or libcapi_c.a in {}: run `make` at the top of the repository, \
         or `rt lib` in crates/capi_c, or set RATTLE_LIB to the folder that holds one",
        folders.join(" or ")
    );
}
