//! Links the static library with the functions of `include/definition_log.h`: the file that
//! `DEFINITION_LOG_LIB` names, or the one that `rt lib` makes in the repository.

use std::{
    env,
    path::{Path, PathBuf},
};

/// Where `rt lib` in crates/definition_log_c puts it, from the repository's top folder.
const MADE: &str = "crates/definition_log_c/out/libdefinition_log_c.a";

fn main() {
    println!("cargo::rerun-if-changed=build.rs");
    println!("cargo::rerun-if-env-changed=DEFINITION_LOG_LIB");
    let package = PathBuf::from(env::var_os("CARGO_MANIFEST_DIR").expect("set by cargo"));
    let library = env::var_os("DEFINITION_LOG_LIB")
        .map_or_else(|| package.parent().unwrap_or(&package).join(MADE), |named| package.join(named));
    println!("cargo::rerun-if-changed={}", library.display());
    match link_name(&library) {
        Ok(name) => {
            let folder = library.parent().expect("a file has a folder");
            println!("cargo::rustc-link-search=native={}", folder.display());
            println!("cargo::rustc-link-lib=static={name}");
        }
        Err(why) => println!("cargo::error={why}"),
    }
}

/// The library's name for the linker, or in plain words why it cannot be linked.
fn link_name(library: &Path) -> Result<String, String> {
    let set = |name| env::var(name).expect("set by cargo");
    let (system, processor) = (set("CARGO_CFG_TARGET_OS"), set("CARGO_CFG_TARGET_ARCH"));
    if (system.as_str(), processor.as_str()) != ("linux", "x86_64") {
        return Err(format!(
            "the proved library is made for Linux on x86-64 only, and this build is for {system} on {processor}"
        ));
    }
    if !library.is_file() {
        return Err(format!(
            "the proved library is not there: {} is no file. Make it with `rt lib` in the repository's folder \
             crates/definition_log_c, or set DEFINITION_LOG_LIB to the path of libdefinition_log_c.a",
            library.display()
        ));
    }
    let file = library.file_name().and_then(|name| name.to_str()).unwrap_or_default();
    file.strip_prefix("lib").and_then(|name| name.strip_suffix(".a")).map(str::to_owned).ok_or_else(|| {
        format!("{} has not the name of a static library: it must be lib, a name and .a", library.display())
    })
}
