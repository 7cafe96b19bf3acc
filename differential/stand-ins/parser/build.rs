include!("../../find_docs.rs");

fn main() {
    copy("crates/parser/src/ast.rs", "ast.rs", "");
    let modules = "pub mod ast;\n";
    let out = PathBuf::from(env::var_os("OUT_DIR").expect("set by cargo"));
    fs::write(out.join("modules.rs"), modules).expect("the build's folder can be written");
}
