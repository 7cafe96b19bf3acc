include!("../find_docs.rs");

/// The files of docs/src that are compiled.
const FILES: [&str; 9] = [
    "mir.rs",
    "check_mir_post.rs",
    "expr_eval.rs",
    "extra_num_traits.rs",
    "diag.rs",
    "lowering/mod.rs",
    "lowering/item.rs",
    "lowering/dt_node.rs",
    "lowering/dt_property.rs",
];

/// Added behind a file's end: ways to call what is private in it.
const REACH: [(&str, &str); 3] = [
    ("mir.rs", include_str!("reach/mir.rs")),
    ("lowering/mod.rs", include_str!("reach/lowering.rs")),
    ("lowering/dt_property.rs", include_str!("reach/dt_property.rs")),
];

fn main() {
    for file in FILES {
        let behind = REACH.iter().find(|(of, _)| *of == file).map_or("", |(_, text)| text);
        copy(&format!("crates/lowering/src/{file}"), file, behind);
    }
    let out = PathBuf::from(env::var_os("OUT_DIR").expect("set by cargo"));
    let modules = "pub mod check_mir_post;\npub mod diag;\npub mod expr_eval;\n\
                   pub mod extra_num_traits;\npub mod lowering;\npub mod mir;\n";
    fs::write(out.join("modules.rs"), modules).expect("the build's folder can be written");
}
