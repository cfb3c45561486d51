// The question "what is forbidden below this type" (request 8 of document 02).

use crate::table::{Table, FORBIDDEN};
use std::collections::BTreeSet;

/// The lowest of the privileges and how many they are; 0 and 0 where there is none.
#[derive(Debug, PartialEq)]
pub struct ForbiddenBelow {
    pub lowest: usize,
    pub count: usize,
}

/// The privileges are a set: each is in it once, however many paths lead to its type.
pub fn forbidden_below(table: &Table, marks: &[u8], y: usize) -> ForbiddenBelow {
    let below = table.below[y].iter().copied();
    let forbidden: BTreeSet<usize> = below.filter(|&p| marks[p] == FORBIDDEN).collect();
    ForbiddenBelow { lowest: forbidden.first().copied().unwrap_or(0), count: forbidden.len() }
}
