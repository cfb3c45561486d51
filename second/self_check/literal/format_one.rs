// Document 01's sentences, as they stood before there was another format.

use super::{forbidden_below, Sentences};
use crate::table::{Table, ALLOWED};

pub const SENTENCES: Sentences = Sentences { star, replacement, mended };

/// "At a star with child B whose insert and delete are both allowed, no privilege below B is forbidden."
fn star(table: &Table, marks: &[u8], t: usize) -> Vec<usize> {
    let both = marks[table.first[t]..table.first[t] + 2] == [ALLOWED, ALLOWED];
    let below = forbidden_below(table, marks, table.types[t].children[0]);
    below.into_iter().filter(|_| both).collect()
}

/// "At first + i(n − 1) + j, less 1 if j is greater than i"; i differs from j.
fn replacement(table: &Table, t: usize, i: usize, j: usize) -> Option<usize> {
    let n = table.types[t].children.len();
    let less = (j > i) as usize;
    Some(i).filter(|_| i != j).map(|_| table.first[t] + i * (n - 1) + j - less)
}

/// "For condition 1, forbid the delete."
fn mended(table: &Table, _: &[u8], t: usize) -> usize {
    table.first[t] + 1
}
