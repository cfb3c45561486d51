// Cases with as many privileges or types as there may be.

use super::super::chance::Random;
use super::super::policies::mixed;
use super::super::schemas::{chance_numbers, Schema};
use super::super::shapes::{fill, full_ladder, grown_to};
use super::revisions::revised;
use super::{Base, FORMATS};
use crate::carry_case::CarryCase;
use crate::carrying::GONE;
use crate::format::Format;
use crate::table::{total, MOST_PRIVILEGES, MOST_TYPES};

/// Two schemas, and the number in the second of each type of the first.
struct Two {
    old: Schema,
    new: Schema,
    new_numbers: Vec<u16>,
}

impl Two {
    /// A revision, with numbers by chance.
    fn of(r: &mut Random, old: Schema, format: Format, count: usize) -> Two {
        let (new, numbers) = revised(r, &old, format, count);
        let order = chance_numbers(r, new.types.len());
        let moved = |&number: &u16| order.get(number as usize).map_or(GONE, |&number| number as u16);
        let new_numbers = numbers.iter().map(moved).collect();
        Two { old, new: new.renumbered(&order), new_numbers }
    }

    /// The way back: the new schema is the old one.
    fn back(self) -> Two {
        let place = |n: usize| self.new_numbers.iter().position(|&number| number as usize == n);
        let number = |n: usize| place(n).map_or(GONE, |t| t as u16);
        let new_numbers = (0..self.new.types.len()).map(number).collect();
        Two { old: self.new, new: self.old, new_numbers }
    }
}

/// 4,096 privileges, with numbers by chance.
fn full(r: &mut Random, format: Format) -> Schema {
    let mut types = full_ladder(r, format);
    fill(format, &mut types, MOST_PRIVILEGES);
    Schema::of(format, types).by_chance(r)
}

/// 256 types, with numbers by chance.
fn many(r: &mut Random, format: Format) -> Schema {
    Schema::of(format, grown_to(r, MOST_TYPES, 8, 0)).by_chance(r)
}

/// The same schema with other orders of some children and other numbers.
fn reordered(r: &mut Random, schema: &Schema) -> Two {
    let mut two = Two::of(r, Schema { types: schema.types.clone(), ..*schema }, schema.format, 0);
    for it in two.new.types.iter_mut() {
        if r.one_in(2) {
            r.shuffle(&mut it.children);
        }
    }
    two
}

/// A revision of which that is known, and which is no larger than a table may be.
fn found(r: &mut Random, old: impl Fn(&mut Random) -> Schema, known: impl Fn(&Schema) -> bool) -> Two {
    loop {
        let (old, format) = (old(r), r.pick(&FORMATS));
        let two = Two::of(r, old, format, 4);
        let most = two.new.types.len() <= MOST_TYPES && total(format, &two.new.types) <= MOST_PRIVILEGES;
        if most && known(&two.new) {
            return two;
        }
    }
}

fn tables(r: &mut Random, format: Format, way: usize) -> Two {
    let is_full = |schema: &Schema| total(schema.format, &schema.types) == MOST_PRIVILEGES;
    let has_most = |schema: &Schema| schema.types.len() == MOST_TYPES;
    match way {
        0 | 1 => {
            let schema = full(r, format);
            reordered(r, &schema)
        }
        2 => found(r, |r| full(r, format), |schema| !is_full(schema)),
        3 => found(r, |r| full(r, format), |schema| !is_full(schema)).back(),
        4 => found(r, |r| many(r, format), |schema| !has_most(schema)),
        5 => found(r, |r| many(r, format), |schema| !has_most(schema)).back(),
        _ => {
            let schema = many(r, format);
            reordered(r, &schema)
        }
    }
}

/// The number of one of the first types again at one of the last.
fn put_twice(r: &mut Random, numbers: &mut [u16]) {
    let half = numbers.len() / 2;
    let (from, to) = (r.below(half), half + r.below(half));
    numbers[to] = numbers[from];
}

/// In turn for 4,096 privileges in both tables, of each format, in the old one and in the new one, for 256 types in the old one, in the new one
/// and in both, and for 18 by a repeated number and by 256.
pub fn large_case(r: &mut Random, turn: usize) -> CarryCase {
    let (way, format) = (turn % 9, FORMATS[turn % 2]);
    let Two { old, new, new_numbers } = tables(r, format, way);
    let mut base = Base::with(r, old, new, new_numbers);
    base.old_marks = mixed(r, base.old_v, [1, 2, 2]);
    let mut case = base.sound_case(r);
    match way {
        7 => put_twice(r, &mut case.new_numbers),
        8 => case.new_numbers[r.below(MOST_TYPES)] = MOST_TYPES as u16,
        _ => (),
    }
    case
}
