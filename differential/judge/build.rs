//! Links our static libraries, if OURS_LIBRARY and OURS_QUERIES name them; `run` sets the variables
//! where the repository has made the libraries. The first has the functions of include/paths_numbers.h,
//! the second those of include/definition_log.h.

use std::{env, path::PathBuf};

fn main() {
    println!("cargo::rerun-if-changed=build.rs");
    link("OURS_LIBRARY", "ours");
    link("OURS_QUERIES", "ours_queries");
}

/// Links the library that a variable names, and sets `cfg`, if there is one.
fn link(variable: &str, cfg: &str) {
    println!("cargo::rustc-check-cfg=cfg({cfg})");
    println!("cargo::rerun-if-env-changed={variable}");
    let Some(library) = env::var_os(variable).map(PathBuf::from) else { return };
    println!("cargo::rerun-if-changed={}", library.display());
    if !library.is_file() {
        println!("cargo::error={variable} names {}, which is no file", library.display());
        return;
    }
    let name = library.file_stem().expect("a file").to_string_lossy();
    println!("cargo::rustc-cfg={cfg}");
    println!("cargo::rustc-link-search=native={}", library.parent().expect("a folder").display());
    println!("cargo::rustc-link-lib=static={}", name.strip_prefix("lib").unwrap_or(&name));
}
