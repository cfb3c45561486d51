// Kept runs: right ones, and such as are not.

use super::super::chance::Random;
use crate::conditions::first_breach;
use crate::editing::{entry, kept_entry, KEPT};
use crate::table::Table;

pub fn right(table: &Table, marks: &[u8]) -> Vec<u16> {
    (0..table.types.len()).flat_map(|t| entry(table, marks, t)).collect()
}

/// A word of a kept run: often a small one, V among them.
pub fn any_word(r: &mut Random, v: usize) -> u16 {
    let (any, small) = (r.next() as u16, r.below(v + 1) as u16);
    r.pick(&[0, 0, 1, small, small, v as u16, any, 60_000, 65_535])
}

pub fn any_words(r: &mut Random, v: usize, length: usize) -> Vec<u16> {
    (0..length).map(|_| any_word(r, v)).collect()
}

/// Another entry for a type: as if nothing were forbidden, one more or fewer, another lowest, or any.
fn other_entry(r: &mut Random, v: usize, [lowest, count]: [u16; KEPT]) -> [u16; KEPT] {
    let (word, some) = (any_word(r, v), count.max(1));
    r.pick(&[
        [0, 0],
        [0, 0],
        [lowest, 0],
        [word, 0],
        [lowest, count.wrapping_add(1)],
        [lowest, count.saturating_sub(1)],
        [lowest, 65_535],
        [word, count],
        [word, some],
        [v as u16, some],
        [65_535, some],
        [word, word],
    ])
}

/// Puts another entry at one type.
pub fn spoil_entry(r: &mut Random, table: &Table, entries: &mut [u16]) {
    let t = r.below(table.types.len());
    let other = other_entry(r, table.v(), kept_entry(entries, t));
    entries[KEPT * t..KEPT * (t + 1)].copy_from_slice(&other);
}

/// Puts count 0 where the first breach, if it is one of conditions 1 and 3, is read.
pub fn hide_first(r: &mut Random, table: &Table, marks: &[u8], entries: &mut [u16]) {
    if let Some(at) = first_breach(table, marks).filter(|at| at.condition != 2) {
        let child = table.types[at.of].children[at.i];
        entries[KEPT * child + 1] = 0;
        entries[KEPT * child] *= r.below(2) as u16;
    }
}
