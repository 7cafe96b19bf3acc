//! The one table of messages to 01's diagnostic codes. 29 is 02's (request 5): the Rust has no message for it.

/// Code, how the message begins, how it ends, and whether what stands between is 01's text.
const TABLE: [(u32, &str, &str, bool); 23] = [
    (1, "Preprocessor directives in `/include/` files are not processed", "", false),
    (2, "Unresolved `/include/` directive", "", false),
    (3, "Label not found: ", "", true),
    (4, "Node at path not found: ", "", true),
    (5, "Subnode must be defined inside a node", "", false),
    (6, "Root node (`/`) must be defined outside other nodes", "", false),
    (7, "Property must be defined inside a node", "", false),
    (8, "Currently unimplemented in property values", "", false),
    (9, "Currently unimplemented in cells", "", false),
    (10, "Macro `", "` is not defined", true),
    (11, "Bytestring is missing a hex digit", "", false),
    (12, "Unsupported /bits/: ", " Cells must be 8, 16, 32 or 64 bits.", false),
    (13, "character value ", "-bit cell", false),
    (14, "phandle reference not valid in ", " support phandles)", false),
    (16, "cannot parse integer from empty string", "", false),
    (17, "invalid digit found in string", "", false),
    (18, "number too large to fit in ", " integer", false),
    (19, "number too small to fit in ", " integer", false),
    (15, "number ", "-bit unsigned integer", false),
    (20, "Duplicate label `", "`", true),
    (21, "`/dts-v1/;` after definitions", "", false),
    (22, "`/plugin/;` must immediately follow `/dts-v1/`", "", false),
    (23, "Definition before `/dts-v1/;`", "", false),
];

/// The code of a message and 01's text for it.
///
/// # Panics
///
/// Panics on a message that is not in the table.
pub fn code_of(message: &str) -> (u32, &str) {
    for (code, begins, ends, has_text) in TABLE {
        let between = message.strip_prefix(begins).and_then(|rest| rest.strip_suffix(ends));
        if let Some(between) = between
            && (has_text || !ends.is_empty() || between.is_empty())
        {
            return (code, if has_text { between } else { "" });
        }
    }
    panic!("a message that is not in the table: {message}")
}
