// Included by the build scripts: where docs/src is, and copying a file of it into the build.

use std::{env, fs, path::PathBuf, process};

/// The folder docs/src: DOCS_SRC, or `shared/docs/src` beside the repository.
fn docs_src() -> PathBuf {
    println!("cargo::rerun-if-env-changed=DOCS_SRC");
    let folder = env::var_os("DOCS_SRC").map_or_else(
        || {
            let mut folder = PathBuf::from(env::var_os("CARGO_MANIFEST_DIR").expect("set by cargo"));
            while !folder.join("find_docs.rs").is_file() && folder.pop() {}
            folder.join("../../shared/docs/src")
        },
        PathBuf::from,
    );
    if !folder.join("crates/lowering/src/mir.rs").is_file() {
        eprintln!("docs/src is not at hand (looked in {}); set DOCS_SRC", folder.display());
        process::exit(2);
    }
    folder
}

/// Copies a file of docs/src into the build, byte for byte, with `behind` added after its end.
fn copy(from: &str, to: &str, behind: &str) {
    let from = docs_src().join(from);
    let to = PathBuf::from(env::var_os("OUT_DIR").expect("set by cargo")).join(to);
    println!("cargo::rerun-if-changed={}", from.display());
    let mut text = fs::read(&from).unwrap_or_else(|error| {
        eprintln!("docs/src lacks {}: {error}", from.display());
        process::exit(2);
    });
    text.extend_from_slice(behind.as_bytes());
    fs::create_dir_all(to.parent().expect("a folder")).expect("the build's folder");
    fs::write(to, text).expect("the build's folder can be written");
}
