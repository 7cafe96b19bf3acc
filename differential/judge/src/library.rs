//! A side that lowers records and answers queries.

use crate::{by_01, records::Records};

/// Lowering: records, room for words and bytes; number and what is returned.
pub type Lower = fn(&Records, &mut [u32], &mut [u8]) -> (u32, u32);

/// A query that fills a list: log words, log bytes, path, list; number and what is returned.
pub type List = fn(&[u32], &[u8], &[u8], &mut [u32]) -> (u32, u32);

/// The query that fills none.
pub type Contains = fn(&[u32], &[u8], &[u8]) -> (u32, u32);

/// The queries of a side.
#[derive(Clone, Copy)]
pub struct Queries {
    pub live: List,
    pub history: List,
    pub contains_node: Contains,
}

/// The entry points of a side.
#[derive(Clone, Copy)]
pub struct Library {
    pub lower: Lower,
    pub queries: Queries,
}

/// 01's sentences as a side: it shows that the comparison itself is sound.
pub fn by_01() -> Library {
    use by_01::written::{contains_node, history, live, lower_records};
    Library { lower: lower_records, queries: Queries { live, history, contains_node } }
}
