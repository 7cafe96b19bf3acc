//! Lowers a small rack and prints what of it is live, with labels and values, and what is reported:
//! `cargo run --example rack`.
//!
//! ```text
//! /dts-v1/;
//! / {
//!     rack {
//!         first: bay@1 { ink = <12>; state = "ready"; };
//!         second: bay@2 { ink = <40>; };
//!         /delete-node/ bay@2;
//!     };
//!     order = <&first &second>;
//! };
//! &first { ink = <11>; };
//! ```

use std::error::Error;

use definition_log::{Cell, Directive, InputKind, Log, OwnedDescription, Tree, Value};

/// `<..>`, with these cells.
fn cells(cells: impl Into<Vec<Tree>>) -> Tree {
    Tree::of(InputKind::CellList).with(cells)
}

fn number(text: &str) -> Tree {
    Tree::of(InputKind::Number).text(text)
}

fn reference(label: &str) -> Tree {
    Tree::of(InputKind::Reference).text(label)
}

/// `@..`
fn unit_address(text: &str) -> Tree {
    Tree::of(InputKind::UnitAddress).with([Tree::name(text)])
}

fn property(name: &str, value: Tree) -> Tree {
    Tree::property([Tree::name(name)], [value])
}

/// `label: bay@unit { .. };`
fn bay(label: &str, unit: &str, items: impl Into<Vec<Tree>>) -> Tree {
    let label = Tree::of(InputKind::Label).with([Tree::name(label)]);
    Tree::node([label, Tree::name("bay"), unit_address(unit)], items)
}

fn rack() -> OwnedDescription {
    let ready = property("state", Tree::of(InputKind::String).text("ready"));
    let first = bay("first", "1", [property("ink", cells([number("12")])), ready]);
    let second = bay("second", "2", [property("ink", cells([number("40")]))]);
    let gone =
        Tree::of(InputKind::Directive(Directive::DeleteNode)).with([Tree::name("bay"), unit_address("2")]);
    let rack = Tree::node([Tree::name("rack")], [first, second, gone]);
    let order = property("order", cells([reference("first"), reference("second")]));
    OwnedDescription::of(&[
        Tree::of(InputKind::Directive(Directive::Version)),
        Tree::node([Tree::of(InputKind::Slash)], [rack, order]),
        Tree::node([reference("first")], [property("ink", cells([number("11")]))]),
    ])
}

/// A value as it would stand in the source.
fn shown(log: Log, value: Value) -> String {
    match value {
        Value::String(bytes) => format!("{:?}", String::from_utf8_lossy(bytes)),
        Value::Bytestring(bytes) => format!("{bytes:02x?}"),
        Value::Reference(target) => target.to_string(),
        Value::CellList { record, .. } => {
            let cells = log.cells(record).map(|cell| match cell {
                Cell::Number(number) => number.to_string(),
                Cell::Reference(target) => target.to_string(),
            });
            format!("<{}>", cells.collect::<Vec<_>>().join(" "))
        }
    }
}

fn main() -> Result<(), Box<dyn Error>> {
    let lowered = rack().description().lower()?;
    let log = lowered.log();
    println!("live, latest first:");
    for record in log.iter_live_defs_under("/")? {
        let definition = log.definition(record).ok_or("a list has definitions")?;
        let values: Vec<String> = log.values(record).map(|value| shown(log, value)).collect();
        let equals = if values.is_empty() { "" } else { " = " };
        println!(
            "  {} {}{equals}{}",
            definition.kind,
            String::from_utf8_lossy(definition.path),
            values.join(", ")
        );
    }
    println!("labels:");
    for binding in log.bindings() {
        println!("  {}: {}", String::from_utf8_lossy(binding.label), String::from_utf8_lossy(binding.path));
    }
    println!("reported:");
    for diagnostic in log.diagnostics().chain(log.post_diagnostics()) {
        println!("  {diagnostic}");
    }
    Ok(())
}
