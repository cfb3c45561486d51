// Edits by chance: each against what is worked out anew from the new marks and against another reading; and what holds of every sequence.

use super::super::expect;
use super::super::literal;
use super::kept::{below, entry_of, first_told, number_of};
use crate::answers::{Answer, Breach};
use crate::conditions::verdict;
use crate::edit_case::{written, EditCase, Step};
use crate::editing::edit_mark;
use crate::making::bases::any_case;
use crate::making::chance::Random;
use crate::making::edits::Editing;
use crate::table::{check_table, Table};

/// The most kinds of a choice whose chains are held to all lists of positions.
const MOST_KINDS: usize = 4;

/// A case by chance; where it is to be fresh, with marks and entries 0.
fn case_of(r: &mut Random, is_spoilt: bool, is_fresh: bool) -> EditCase {
    let mut case = any_case::<Editing>(r, is_spoilt);
    if is_fresh {
        case.marks.fill(0);
        case.kept.fill(0);
    }
    case
}

fn self_breach(table: &Table, marks: &[u8], kept: &[u16], breach: Breach) {
    let Breach { condition, of, i, j, privilege, forbidden, chain } = breach;
    let told = [of, condition, i, j, privilege, forbidden];
    expect(told == first_told(table, marks, kept), "the first breach by what is kept");
    if condition < 2 {
        expect(chain.length == 0, "no chain without condition 2 or 3");
    } else if table.types[of].children.len() <= MOST_KINDS {
        let positions: Vec<usize> = chain.positions().iter().map(|&position| position as usize).collect();
        expect(positions == literal::chain(table, marks, of, i, j), "the chain of an edit's breach");
    }
}

/// An edit that is done, on whatever is kept: one mark, the entries of the types above it, and the breach.
fn self_done(table: &Table, before: &Step, told: &Answer, marks: &[u8], kept: &[u16]) {
    let privilege = before.edit.privilege as usize;
    let mut expected = before.marks.clone();
    expected[privilege] = before.edit.mark;
    expect(marks == expected, "one mark is written, and no other");
    let (leads, owner) = (below(table), table.owner[privilege]);
    let mut entries = before.kept.clone();
    for t in (0..table.types.len()).filter(|&t| leads[t][owner]) {
        entries[2 * t..2 * t + 2].copy_from_slice(&entry_of(table, marks, t));
    }
    expect(kept == entries, "the entries of the types that the privilege is below, and no others");
    expect((told.number, told.place, told.count) == (0, 0, 0), "an edit that is done");
    self_breach(table, marks, kept, told.breach);
}

/// All entries are those worked out anew, and the breach is the verdict's.
fn self_anew(words: &[u16], table: &Table, told: &Answer, marks: &[u8], kept: &[u16]) {
    let right = |t: usize| kept[2 * t..2 * t + 2] == entry_of(table, marks, t);
    expect((0..table.types.len()).all(right), "the entries of a sequence are those worked out anew");
    expect(verdict(words, marks) == Ok(*told), "the verdict of a sequence is that of the marks");
}

/// The same edit again changes nothing, and the old mark brings back what there was.
fn self_back(before: &Step, marks: &[u8], kept: &[u16], told: &Answer) {
    let (mut marks, mut kept) = (marks.to_vec(), kept.to_vec());
    let after = (marks.clone(), kept.clone());
    let privilege = before.edit.privilege as usize;
    let again = edit_mark(&before.words, &mut marks, &mut kept, privilege, before.edit.mark);
    expect(again == Ok(*told) && (&marks, &kept) == (&after.0, &after.1), "the same edit again");
    let back = edit_mark(&before.words, &mut marks, &mut kept, privilege, before.marks[privilege]);
    expect(back == verdict(&before.words, &before.marks), "an edit taken back");
    expect(marks == before.marks && kept == before.kept, "an edit taken back");
}

/// Every edit of a case; gives how many were done.
fn self_case(case: &EditCase, is_fresh: bool) -> usize {
    let table = check_table(&case.words).ok();
    let mut count = 0;
    for (before, told) in case.steps() {
        let (marks, kept) = written(&told);
        let [number, place] = number_of(&before);
        match (&table, number) {
            (Some(table), 0) => {
                self_done(table, &before, &told.answer, &marks, &kept);
                if is_fresh {
                    self_anew(&before.words, table, &told.answer, &marks, &kept);
                    self_back(&before, &marks, &kept, &told.answer);
                }
                count += 1;
            }
            _ => {
                expect(told.answer == Answer { number, place, ..Answer::default() }, "a refused edit");
                expect(marks == before.marks && kept == before.kept, "a refused edit changes nothing");
            }
        }
    }
    count
}

/// Marks that are edited in from a fresh policy, in any order: the entries and the verdict of the last edit are theirs.
fn self_edited_in(r: &mut Random, case: &EditCase) {
    let table = check_table(&case.words).expect("a case without a fault");
    let mut order: Vec<usize> = (0..table.v()).collect();
    r.shuffle(&mut order);
    let (mut marks, mut kept) = (vec![0; table.v()], vec![0; 2 * table.types.len()]);
    let mut told = verdict(&case.words, &marks);
    for privilege in order {
        told = edit_mark(&case.words, &mut marks, &mut kept, privilege, case.marks[privilege]);
    }
    expect(marks == case.marks && told == verdict(&case.words, &case.marks), "a policy edited in");
    let entries: Vec<u16> = (0..table.types.len()).flat_map(|t| entry_of(&table, &case.marks, t)).collect();
    expect(kept == entries, "the entries of a policy edited in");
}

/// Of four cases two begin with a fresh policy, one with any entries, and one has faults.
pub fn self_by_chance(seed: u64, count: usize) -> String {
    let mut r = Random(seed);
    let [mut fresh, mut other] = [0; 2];
    for k in 0..count {
        let (is_spoilt, is_fresh) = (k % 4 == 3, k % 4 < 2);
        let case = case_of(&mut r, is_spoilt, is_fresh);
        let done = self_case(&case, is_fresh);
        *(if is_fresh { &mut fresh } else { &mut other }) += done;
        if k % 4 == 2 {
            self_edited_in(&mut r, &case);
        }
    }
    format!("{} cases ({} edits from a fresh policy, {} from others)", count, fresh, other)
}
