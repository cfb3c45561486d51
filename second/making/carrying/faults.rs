// Faults of a call that carries marks, by the rank of the check that finds them.

use super::super::chance::Random;
use super::super::damage::spoil_table;
use super::Base;
use crate::carry_case::CarryCase;
use crate::carrying::GONE;

const RANKS: usize = 7;

/// Other marks: one fewer or more, none, or as many as the new table needs.
fn spoil_length(r: &mut Random, base: &Base, marks: &mut Vec<u8>) {
    let length = r.pick(&[base.old_v.saturating_sub(1), base.old_v + 1, 0, base.new_v]);
    marks.resize_with(length, || r.next() as u8 % 3);
}

/// One mark or more above 2: the first, the last, or any.
fn bend_marks(r: &mut Random, marks: &mut [u8]) {
    for _ in 0..r.pick(&[1, 1, 2, 3]) {
        if let Some(last) = marks.len().checked_sub(1) {
            let any = r.below(last + 1);
            marks[r.pick(&[0, last, any])] = r.pick(&[3, 4, 255]);
        }
    }
}

/// Another list: one entry fewer or more, none, or as many as the new table has types.
fn spoil_list(r: &mut Random, base: &Base, numbers: &mut Vec<u16>) {
    let (old_e, new_e) = (base.old.types.len(), base.new.types.len());
    let entry = r.pick(&[GONE, 0, new_e as u16]);
    numbers.resize(r.pick(&[old_e - 1, old_e - 1, old_e + 1, old_e + 1, 0, new_e]), entry);
}

/// A number that the new table does not have.
fn put_over(r: &mut Random, base: &Base, numbers: &mut [u16]) {
    let new_e = base.new.types.len();
    let (last, any) = (numbers.len() - 1, r.below(numbers.len()));
    let over =
        [new_e, new_e, new_e + 1, base.old.types.len().max(new_e + 1) - 1, new_e + r.below(300), 65_534];
    numbers[r.pick(&[0, last, any, any])] = r.pick(&over) as u16;
}

/// The number of another type, in the place before or behind it or anywhere.
fn put_twice(r: &mut Random, numbers: &mut [u16]) {
    let from = r.below(numbers.len());
    let (next, any, last) = ((from + 1) % numbers.len(), r.below(numbers.len()), numbers.len() - 1);
    numbers[r.pick(&[next, any, last])] = numbers[from];
}

fn bend_list(r: &mut Random, base: &Base, numbers: &mut [u16]) {
    if numbers.len() > 2 && r.one_in(3) {
        let (one, other) = (r.below(numbers.len()), r.below(numbers.len()));
        [one, other].iter().for_each(|&t| numbers[t] = GONE);
    }
    for _ in 0..r.pick(&[1, 1, 2, 3]) {
        if r.one_in(2) {
            put_over(r, base, numbers);
        } else {
            put_twice(r, numbers);
        }
    }
}

fn shorten(r: &mut Random, run: &mut Vec<u8>, v: usize, other_v: usize) {
    let length = r.pick(&[v.saturating_sub(1), v.saturating_sub(1), 0, other_v.min(v.saturating_sub(1))]);
    run.resize_with(length, || r.next() as u8);
}

/// One result too short, or both.
fn spoil_room(r: &mut Random, base: &Base, case: &mut CarryCase) {
    let way = r.below(3);
    if way != 1 {
        shorten(r, &mut case.out, base.new_v, base.old_v);
    }
    if way != 0 {
        shorten(r, &mut case.lost, base.old_v, base.new_v);
    }
}

/// A fault that the check of this rank finds, as a rule.
fn spoil_at(r: &mut Random, rank: usize, base: &Base, case: &mut CarryCase) {
    match rank {
        0 => spoil_table(r, &base.old, &mut case.old_words),
        1 => spoil_length(r, base, &mut case.old_marks),
        2 => bend_marks(r, &mut case.old_marks),
        3 => spoil_table(r, &base.new, &mut case.new_words),
        4 => spoil_list(r, base, &mut case.new_numbers),
        5 => bend_list(r, base, &mut case.new_numbers),
        _ => spoil_room(r, base, case),
    }
}

/// A fault of one rank, and of later ranks none, one in four or three in four. The last one comes first, so that a run is bent before it gets
/// another length.
pub fn spoil(r: &mut Random, base: &Base, case: &mut CarryCase) {
    let (first, share) = (r.below(RANKS), r.pick(&[0, 0, 1, 3]));
    for rank in (first..RANKS).rev() {
        if rank == first || r.below(4) < share {
            spoil_at(r, rank, base, case);
        }
    }
}
