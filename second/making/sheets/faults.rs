// Faults of a call that counts roles, by the rank of the check that finds them.

use super::super::chance::Random;
use super::super::damage::spoil_table;
use super::super::roles::bend;
use super::{numbers, Month};
use crate::sheet::COUNTS;
use crate::sheet_case::SheetCase;
use crate::table::UNSET;

const RANKS: usize = 3;

/// So many roles that their marks are more than this many bits count, and as few marks as these bits keep of them; V is over 1.
fn run_over(r: &mut Random, v: usize, bits: u32, case: &mut SheetCase) {
    let all = 1 << bits;
    let roles = (all as u64).div_ceil(v as u64) + r.below(3) as u64;
    case.roles = roles as u32;
    case.marks.resize((roles * v as u64 % all) as usize, UNSET);
}

/// Other marks: one fewer or more, none, or those of a role more or fewer.
fn spoil_length(r: &mut Random, v: usize, marks: &mut Vec<u8>) {
    let length = marks.len();
    let lengths = [length.saturating_sub(1), length + 1, 0, length + v, length.saturating_sub(v)];
    marks.resize_with(r.pick(&lengths), || r.next() as u8 % 3);
}

/// Another number of roles: one fewer or more, none, many more, or as many as there are marks.
fn spoil_roles(r: &mut Random, case: &mut SheetCase) {
    let roles = case.roles;
    let others = [
        roles.saturating_sub(1),
        roles.saturating_add(1),
        0,
        u32::MAX,
        u32::MAX,
        roles.wrapping_add(1 << 16),
        roles.wrapping_add(1 << 16),
        case.marks.len() as u32,
    ];
    case.roles = r.pick(&others);
}

/// Some marks where there is no privilege, sometimes as many as there are roles.
fn add_marks(r: &mut Random, case: &mut SheetCase) {
    case.roles = r.pick(&[0, 1, 3, 9, case.roles, u32::MAX]);
    let length = r.pick(&[1, 2, 3, case.roles.clamp(1, 9)]);
    case.marks = vec![UNSET; length as usize];
}

/// Marks and roles that are not in keeping.
fn spoil_marks(r: &mut Random, base: &Month, case: &mut SheetCase) {
    match (base.v, r.below(10)) {
        (0, _) => add_marks(r, case),
        (v, 0..=3) => spoil_length(r, v, &mut case.marks),
        (1, _) | (_, 4..=6) => spoil_roles(r, case),
        (v, 7) => run_over(r, v, 16, case),
        (v, _) => run_over(r, v, 32, case),
    }
}

/// Fewer counts than there must be.
fn spoil_counts(r: &mut Random, v: usize, case: &mut SheetCase) {
    let all = COUNTS * v;
    let lengths = [
        all.saturating_sub(1),
        all.saturating_sub(2),
        all.saturating_sub(COUNTS),
        v,
        2 * v,
        0,
        r.below(all + 1),
    ];
    let length = r.pick(&lengths);
    case.counts = numbers(r, length);
}

/// A fault that the check of this rank finds, as a rule.
fn spoil_at(r: &mut Random, rank: usize, base: &Month, case: &mut SheetCase) {
    match rank {
        0 => spoil_table(r, &base.schema, &mut case.words),
        1 => spoil_marks(r, base, case),
        _ => spoil_counts(r, base.v, case),
    }
}

/// A fault of one rank, and of later ranks none or one in two; sometimes a mark above 2 besides.
pub fn spoil(r: &mut Random, base: &Month, case: &mut SheetCase) {
    let (first, more) = (r.below(RANKS), r.one_in(2));
    if r.one_in(4) {
        bend(r, &mut case.marks);
    }
    for rank in first..RANKS {
        if rank == first || more && r.one_in(2) {
            spoil_at(r, rank, base, case);
        }
    }
}
