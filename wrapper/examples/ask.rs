//! Asks the sample log the three queries, and shows each refusal: `cargo run --example ask`.

use definition_log::{Log, QueryError, sample};

/// Prints the definitions of a list, with their labels.
fn show(log: Log, what: &str, list: &[u32]) {
    println!("{what}: {}", list.len());
    for definition in list.iter().filter_map(|&record| log.definition(record)) {
        let path = String::from_utf8_lossy(definition.path);
        print!("  {} \"{path}\" at {:?}", definition.kind, definition.span);
        for label in log.labels(definition.record) {
            print!(", label {}", String::from_utf8_lossy(label));
        }
        println!();
    }
}

fn main() -> Result<(), QueryError> {
    let log = sample::log();
    show(log, "live under \"/\"", &log.iter_live_defs_under("/")?);
    show(log, "history of \"/c/q\"", &log.history("/c/q")?);
    for path in ["/b", "/c"] {
        println!("a node at {path}: {}", log.contains_node(path)?);
    }

    let cut = Log::new(&log.words()[..160], log.bytes());
    let refusals = [
        cut.contains_node("/b").map(usize::from),
        log.history("/c/").map(|list| list.len()),
        log.iter_live_defs_under_into("/", &mut [0; 3]),
    ];
    for error in refusals.into_iter().filter_map(Result::err) {
        println!("refused: {error}");
    }
    Ok(())
}
