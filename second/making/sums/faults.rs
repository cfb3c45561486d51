// Faults of a call that adds two sheets, by the rank of the check that finds them.

use super::super::chance::Random;
use super::super::damage::spoil_table;
use super::Sheets;
use crate::sheet::COUNTS;
use crate::situations::sum::Pair;
use crate::sum_case::SumCase;

const RANKS: usize = 4;

/// The numbers of a refused sheet.
const NUMBERS: [usize; 19] =
    [1, 2, 3, 4, 5, 6, 7, 19, 8, 9, 10, 10, 12, 12, 29, 30, 256, 65_536, 4_294_967_295];

/// Two numbers whose sum 32 bits do not hold: by as little as can be, by as much, or by any.
fn over(r: &mut Random) -> Pair {
    let [any, other] = [(); 2].map(|_| r.next() as u32 | 1 << 31);
    r.pick(&[[u32::MAX, 1], [1, u32::MAX], [any, any.wrapping_neg()], [u32::MAX, u32::MAX], [any, other]])
}

/// Fewer counts than there must be in one run or in both.
fn spoil_room(r: &mut Random, v: usize, case: &mut SumCase) {
    let all = COUNTS * v;
    let lengths =
        [all.saturating_sub(1), all.saturating_sub(1), all.saturating_sub(COUNTS), v, 0, r.below(all + 1)];
    let (way, one, other) = (r.below(3), r.pick(&lengths), r.pick(&lengths));
    if way != 1 {
        case.counts.truncate(one);
    }
    if way != 0 {
        case.more_counts.truncate(if r.one_in(2) { one } else { other });
    }
}

/// One of the sheets refused, or both.
fn spoil_numbers(r: &mut Random, case: &mut SumCase) {
    let way = r.below(3);
    if way != 1 {
        case.sheet.number = r.pick(&NUMBERS);
    }
    if way != 0 {
        case.more.number = r.pick(&NUMBERS);
    }
}

fn put_count(r: &mut Random, case: &mut SumCase, k: usize) {
    let [one, other] = over(r);
    if let (Some(count), Some(more)) = (case.counts.get_mut(k), case.more_counts.get_mut(k)) {
        (*count, *more) = (one, other);
    }
}

fn put_figure(r: &mut Random, case: &mut SumCase, k: usize) {
    [case.sheet.figures[k], case.more.figures[k]] = over(r);
}

/// A count of one privilege or of two, or all three of one; the first, the last, or any.
fn spoil_counts(r: &mut Random, v: usize, case: &mut SumCase) {
    let any = r.below(v);
    let privilege = r.pick(&[0, 1, v - 1, any, any]).min(v - 1);
    let other = r.below(v);
    match r.below(6) {
        0 => (0..COUNTS).for_each(|k| put_count(r, case, COUNTS * privilege + k)),
        1 | 2 => {
            for p in [privilege, other] {
                let k = r.below(COUNTS);
                put_count(r, case, COUNTS * p + k);
            }
        }
        3 => put_count(r, case, COUNTS * v - 1),
        _ => {
            let k = r.below(COUNTS);
            put_count(r, case, COUNTS * privilege + k)
        }
    }
}

/// Sums that run over: of counts, of figures, or of both.
fn spoil_sums(r: &mut Random, v: usize, case: &mut SumCase) {
    let way = r.below(5);
    if way < 3 && v > 0 {
        spoil_counts(r, v, case);
    }
    if way > 1 || v == 0 {
        for _ in 0..r.pick(&[1, 1, 1, 2]) {
            let k = r.below(5);
            put_figure(r, case, k);
        }
    }
}

/// A fault that the check of this rank finds, as a rule.
fn spoil_at(r: &mut Random, rank: usize, base: &Sheets, case: &mut SumCase) {
    match rank {
        0 => spoil_table(r, &base.schema, &mut case.words),
        1 => spoil_room(r, base.v, case),
        2 => spoil_numbers(r, case),
        _ => spoil_sums(r, base.v, case),
    }
}

/// A fault of one rank, and of later ranks none or one in two. The last one comes first, so that a run is bent before it gets shorter.
pub fn spoil(r: &mut Random, base: &Sheets, case: &mut SumCase) {
    let (first, more) = (r.pick(&[0, 1, 2, 3, 3]), r.one_in(2));
    for rank in (first..RANKS).rev() {
        if rank == first || more && r.one_in(2) {
            spoil_at(r, rank, base, case);
        }
    }
}
