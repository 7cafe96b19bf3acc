//! Reads our sources as Rust: what is only for the prover is left out.

use std::{env, fs, path::Path, path::PathBuf};

/// The repository's crates, each with those that it uses.
const LISTED: &str = "../../crates.txt";

/// Our crates that are read, lowest first: what C links, with all that it uses.
fn crates_read() -> Vec<String> {
    println!("cargo::rerun-if-changed={LISTED}");
    let listed = fs::read_to_string(LISTED).unwrap_or_else(|error| panic!("{LISTED}: {error}"));
    let used = listed.lines().find_map(|line| line.strip_prefix("definition_log_c staticlib: ")).expect("it is listed");
    used.split(' ').chain(["definition_log_c"]).map(str::to_owned).collect()
}

fn main() {
    println!("cargo::rerun-if-env-changed=OURS_CRATES");
    let crates = env::var_os("OURS_CRATES").map_or_else(|| PathBuf::from("../../crates"), PathBuf::from);
    let out = PathBuf::from(env::var_os("OUT_DIR").expect("set by cargo"));
    let mut modules = String::new();
    let names = crates_read();
    for name in &names {
        read_crate(name, &names, &crates.join(name).join("src"), &out.join(name));
        modules += &format!("#[allow(dead_code, unused, clippy::all)]\nmod {name};\n");
    }
    fs::write(out.join("modules.rs"), modules).expect("the build's folder can be written");
}

/// Writes a crate's sources as a module.
fn read_crate(name: &str, names: &[String], from: &Path, to: &Path) {
    println!("cargo::rerun-if-changed={}", from.display());
    fs::create_dir_all(to).expect("the build's folder");
    for entry in fs::read_dir(from).unwrap_or_else(|error| panic!("{}: {error}", from.display())) {
        let file = entry.expect("a file").path();
        let text = as_rust(name, names, &fs::read_to_string(&file).expect("a text"));
        let stem = file.file_stem().expect("a name").to_string_lossy().into_owned();
        let stem = if stem == "lib" { "mod".to_owned() } else { stem };
        fs::write(to.join(stem + ".rs"), text).expect("the build's folder can be written");
    }
}

/// A source without ghost lines, contracts and attributes but derives, its own crate and the others as modules of one,
/// and the prover's sums that wrap as Rust's.
fn as_rust(name: &str, names: &[String], source: &str) -> String {
    let mut out = String::new();
    let mut open = 0;
    for line in source.lines() {
        let start = line.trim_start();
        let contract = ["requires", "ensures"].contains(&start.split(' ').next().unwrap_or_default());
        let kept = start.starts_with("#[derive(") && start != "#[derive(Drop)]";
        let attribute = !kept && (start.starts_with("#[") || start.starts_with("#!["));
        if open > 0 || contract || attribute {
            open += line.matches(['{', '[']).count();
            open -= line.matches(['}', ']']).count();
            // A trait's function ends with its contract.
            if open == 0 && !attribute && line.ends_with(';') {
                out += ";\n";
            }
        } else if !start.starts_with("ghost ") && !start.starts_with("pub ghost ") {
            let line = line.replace("pub extern \"C\" fn", "pub fn");
            let line = ["add", "sub"].iter().fold(line, |line, op| {
                line.replace(&format!("std::num::wrapping_{op}_u64"), &format!("u64::wrapping_{op}"))
            });
            let line = line.replace("crate::", &format!("crate::{name}::"));
            out += &names.iter().fold(line, |line, other| as_module(&line, other));
            out += "\n";
        }
    }
    out
}

/// A line in which a crate's name stands for a module.
fn as_module(line: &str, other: &str) -> String {
    let mut out = String::new();
    let mut rest = line;
    while let Some(at) = rest.find(&format!("{other}::")) {
        let (before, found) = rest.split_at(at);
        out += before;
        if !out.ends_with(|c: char| c == ':' || c == '_' || c.is_alphanumeric()) {
            out += "crate::";
        }
        let (name, behind) = found.split_at(other.len());
        out += name;
        rest = behind;
    }
    out + rest
}
