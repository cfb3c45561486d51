// Editing one mark without a rescan (request 11 of document 02): what is forbidden below each type is kept from edit to edit.

use crate::answers::{refuse_at, refuse_if, Answer, Outcome};
use crate::conditions::{check_policy, first_breach_by};
use crate::forbidden_below::{forbidden_below, ForbiddenBelow};
use crate::table::{Table, FORBIDDEN};

/// How many words are kept for each type: the lowest privilege that is forbidden below it, and how many are.
pub const KEPT: usize = 2;

/// What is kept for a type, worked out from the marks.
pub fn entry(table: &Table, marks: &[u8], t: usize) -> [u16; KEPT] {
    let ForbiddenBelow { lowest, count } = forbidden_below(table, marks, t);
    [lowest as u16, count as u16]
}

/// The same as it stands in a kept run.
pub fn kept_entry(kept: &[u16], t: usize) -> [u16; KEPT] {
    [kept[KEPT * t], kept[KEPT * t + 1]]
}

/// The types that a privilege is below.
pub fn above(table: &Table, privilege: usize) -> Vec<usize> {
    (0..table.types.len()).filter(|&t| table.below[t].contains(&privilege)).collect()
}

/// What is forbidden below a type by a kept run, whatever that holds.
pub fn below_as_kept(kept: &[u16], y: usize) -> ForbiddenBelow {
    let [lowest, count] = kept_entry(kept, y).map(usize::from);
    ForbiddenBelow { lowest, count }
}

pub fn edit_mark(words: &[u16], marks: &mut [u8], kept: &mut [u16], privilege: usize, mark: u8) -> Outcome {
    let table = check_policy(words, marks)?;
    refuse_if(10, privilege >= table.v())?;
    refuse_at(11, Some(privilege).filter(|_| mark > FORBIDDEN))?;
    refuse_if(12, kept.len() < KEPT * table.types.len())?;
    marks[privilege] = mark;
    for t in above(&table, privilege) {
        kept[KEPT * t..KEPT * (t + 1)].copy_from_slice(&entry(&table, marks, t));
    }
    let breach = first_breach_by(&table, marks, |y| below_as_kept(kept, y)).unwrap_or_default();
    Ok(Answer { breach, ..Answer::default() })
}
