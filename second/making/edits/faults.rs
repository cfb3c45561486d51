// Faults of an edit, by the rank of the check that finds them.

use super::super::chance::Random;
use super::super::damage::spoil_table;
use super::super::roles::bend;
use super::clicks::{bend_mark, bend_privilege};
use super::Editing;
use crate::edit_case::{Edit, EditCase};
use crate::editing::KEPT;
use crate::table::UNSET;

const RANKS: usize = 6;

/// Other marks: one fewer or more, none, or twice as many.
fn spoil_length(r: &mut Random, v: usize, marks: &mut Vec<u8>) {
    let length = r.pick(&[v.saturating_sub(1), v + 1, v + 1, 0, 2 * v]);
    marks.resize_with(length, || r.next() as u8 % 3);
}

/// A mark above 2, or two; sometimes at the privilege of the first edit.
fn spoil_marks(r: &mut Random, case: &mut EditCase) {
    (0..r.pick(&[1, 1, 2])).for_each(|_| bend(r, &mut case.marks));
    if r.one_in(4) {
        let at = case.edits.first().map_or(0, |edit| edit.privilege as usize);
        case.marks.iter_mut().for_each(|mark| *mark %= 3);
        if let Some(mark) = case.marks.get_mut(at) {
            *mark = r.pick(&[3, 255]);
        }
    }
}

/// Fewer words than there must be.
fn spoil_room(r: &mut Random, e: usize, kept: &mut Vec<u16>) {
    let all = KEPT * e;
    let any = r.below(all);
    kept.truncate(r.pick(&[all - 1, all - 1, all - 2, e, 0, any]));
}

/// A fault that the check of this rank finds, as a rule.
fn spoil_at(r: &mut Random, rank: usize, base: &Editing, case: &mut EditCase) {
    let v = base.table.v();
    match rank {
        0 => spoil_table(r, &base.schema, &mut case.words),
        1 => spoil_length(r, v, &mut case.marks),
        2 => spoil_marks(r, case),
        3 => case.edits.iter_mut().for_each(|edit| bend_privilege(r, v, edit)),
        4 => case.edits.iter_mut().for_each(|edit| bend_mark(r, edit)),
        _ => spoil_room(r, base.table.types.len(), &mut case.kept),
    }
}

/// A fault of one rank, and of later ranks none, one in two, or all. The last one comes first, so that a run is bent before it gets shorter.
pub fn spoil(r: &mut Random, base: &Editing, case: &mut EditCase) {
    case.edits.resize(r.pick(&[1, 1, 1, 2]), Edit { privilege: 0, mark: UNSET });
    let (first, more) = (r.below(RANKS), r.below(5));
    for rank in (first..RANKS).rev() {
        if rank == first || more == 0 || more < 3 && r.one_in(2) {
            spoil_at(r, rank, base, case);
        }
    }
}
