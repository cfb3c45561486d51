// Request 9's sentences.

use super::{forbidden_below, Sentences};
use crate::table::{Table, ALLOWED, FORBIDDEN};

pub const SENTENCES: Sentences = Sentences { star, replacement, mended };

/// "A star has insert, delete, replace."
fn three(table: &Table, marks: &[u8], t: usize) -> [u8; 3] {
    [0, 1, 2].map(|k| marks[table.first[t] + k])
}

/// "If insert and delete are both allowed, the replace is not forbidden either; if those two or the replace are allowed,
/// nothing below B is forbidden. Where the replace itself is forbidden it is condition 1's privilege."
fn star(table: &Table, marks: &[u8], t: usize) -> Vec<usize> {
    let below = forbidden_below(table, marks, table.types[t].children[0]);
    match three(table, marks, t) {
        [ALLOWED, ALLOWED, FORBIDDEN] => vec![table.first[t] + 2],
        [ALLOWED, ALLOWED, _] | [_, _, ALLOWED] => below,
        _ => Vec::new(),
    }
}

/// "A choice of n has n × n privileges, first + i × n + j."
fn replacement(table: &Table, t: usize, i: usize, j: usize) -> Option<usize> {
    Some(table.first[t] + i * table.types[t].children.len() + j)
}

/// "Mending condition 1 forbids the delete if insert and delete are both allowed, otherwise the replace."
fn mended(table: &Table, marks: &[u8], t: usize) -> usize {
    match three(table, marks, t) {
        [ALLOWED, ALLOWED, _] => table.first[t] + 1,
        _ => table.first[t] + 2,
    }
}
