// Cases of marks that are carried to a new table (request 1): the new table is a revision of the old one. Made in turn for each number of the
// old table and of the new one, and for the situation that came least often so far.

mod faults;
mod large;
mod lists;
mod revisions;
mod rules;

use super::aims::Aims;
use super::chance::Random;
use super::damage::refused_words;
use super::files::bare;
use super::policies::mixed;
use super::schemas::{numbered, Schema};
use super::shapes::{usual_shape, wide_of};
use crate::calls::TABLE;
use crate::carry_case::{CarryCase, CALLS};
use crate::carrying::RAISED;
use crate::format::Format;
use crate::situations::carrying::{is_in, is_of_faults, USUAL};
use crate::table::{check_table, total, MOST_CHILDREN};
use faults::spoil;
use large::large_case;
use revisions::revised;

const FORMATS: [Format; 2] = [Format::One, Format::Two];

/// How many in turn are unset, allowed, forbidden.
const MIXES: [[usize; 3]; 8] =
    [[1, 0, 0], [4, 1, 1], [1, 1, 1], [1, 2, 2], [0, 1, 1], [0, 2, 1], [0, 1, 0], [0, 0, 1]];

/// A small schema, sometimes with a choice of 16 kinds.
fn small_schema(r: &mut Random, format: Format) -> Schema {
    if r.one_in(20) {
        let types = wide_of(r, MOST_CHILDREN);
        return numbered(r, format, types);
    }
    loop {
        let types = usual_shape(r, format);
        if types.len() <= 16 {
            return numbered(r, format, types);
        }
    }
}

/// What a case is made of: an old table with its marks, a new one, and the list of new numbers.
pub struct Base {
    pub old: Schema,
    pub old_v: usize,
    pub old_marks: Vec<u8>,
    pub new: Schema,
    pub new_v: usize,
    pub new_numbers: Vec<u16>,
}

impl Base {
    /// A schema and a revision of it, each small and of these formats; sometimes without a privilege.
    pub fn of(r: &mut Random, formats: [Format; 2]) -> Base {
        loop {
            let mut old = small_schema(r, formats[0]);
            let count = r.pick(&[0, 1, 1, 1, 1, 2, 2, 3]);
            let (mut new, mut new_numbers) = revised(r, &old, formats[1], count);
            let without = r.below(24);
            if [0, 2].contains(&without) {
                old.types = bare(old.types);
            }
            if [1, 2].contains(&without) {
                new.types = bare(new.types);
            }
            lists::bend(r, &new, &mut new_numbers);
            if new.types.len() <= 40 && total(new.format, &new.types) <= 400 {
                return Base::with(r, old, new, new_numbers);
            }
        }
    }

    /// These tables with marks by chance.
    fn with(r: &mut Random, old: Schema, new: Schema, new_numbers: Vec<u16>) -> Base {
        let table = check_table(&old.words()).expect("a shape is accepted in every numbering");
        let new_v = check_table(&new.words()).expect("a revision is accepted").v();
        let mix = r.pick(&MIXES);
        Base { old, old_v: table.v(), old_marks: mixed(r, table.v(), mix), new, new_v, new_numbers }
    }

    /// With results as lent: as a rule just as long as they must be, sometimes as the other one must be, and sometimes longer.
    fn sound_case(&self, r: &mut Random) -> CarryCase {
        let lengths =
            [[self.new_v, self.old_v], [self.old_v, self.new_v]].map(|[v, other]| match r.below(8) {
                0 => v.max(other),
                1 | 2 => v + 1 + r.below(6),
                _ => v,
            });
        let [out, lost] = lengths.map(|length| (0..length).map(|_| r.next() as u8).collect());
        CarryCase {
            old_words: self.old.words(),
            old_marks: self.old_marks.clone(),
            new_words: self.new.words(),
            new_numbers: self.new_numbers.clone(),
            out,
            lost,
        }
    }

    /// With faults, or without.
    pub fn case(&self, r: &mut Random, is_spoilt: bool) -> CarryCase {
        let mut case = self.sound_case(r);
        if is_spoilt {
            spoil(r, self, &mut case);
        }
        case
    }
}

fn number_of(case: &CarryCase) -> usize {
    (CALLS[0].make)(case).answer.number
}

fn any_base(r: &mut Random) -> Base {
    let formats = [r.pick(&FORMATS), r.pick(&FORMATS)];
    Base::of(r, formats)
}

/// An old table of this format that is refused with this number; in some cases with other faults too.
fn refused_old(r: &mut Random, format: Format, number: usize) -> CarryCase {
    loop {
        let formats = [format, r.pick(&FORMATS)];
        let base = Base::of(r, formats);
        if let Some(old_words) = refused_words(r, &base.old, number) {
            let is_spoilt = r.one_in(2);
            return CarryCase { old_words, ..base.case(r, is_spoilt) };
        }
    }
}

/// The same of a new table, where nothing is refused before it.
fn refused_new(r: &mut Random, format: Format, number: usize) -> CarryCase {
    loop {
        let formats = [r.pick(&FORMATS), format];
        let base = Base::of(r, formats);
        if let Some(new_words) = refused_words(r, &base.new, number) {
            let is_spoilt = r.one_in(2);
            let case = CarryCase { new_words, ..base.case(r, is_spoilt) };
            if number_of(&case) == number + RAISED {
                return case;
            }
        }
    }
}

/// A small case in this situation: of each base some faults are tried, where it is one of faults.
fn aimed_case(r: &mut Random, situation: &str) -> CarryCase {
    let is_spoilt = is_of_faults(situation);
    let (tries, meets) = (if is_spoilt { 4 } else { 1 }, is_in(situation));
    loop {
        let base = any_base(r);
        if let Some(case) = (0..tries).map(|_| base.case(r, is_spoilt)).find(&meets) {
            return case;
        }
    }
}

/// Of eight cases two have a refused table, the old one and the new one, all numbers in turn and the formats in turn; the last of 32 is a large
/// one, and each of the others is made for the situation that came least often so far.
pub fn cases(seed: u64, count: usize) -> impl Iterator<Item = CarryCase> {
    let mut r = Random(seed);
    let refusals = &TABLE[1..];
    let mut aims = Aims::new(USUAL);
    (0..count).map(move |k| {
        let turn = k / 8;
        let (number, format) = (refusals[turn % refusals.len()], FORMATS[turn / refusals.len() % 2]);
        let case = match k % 8 {
            0 => refused_old(&mut r, format, number),
            1 => refused_new(&mut r, format, number),
            _ if k % 32 == 31 => large_case(&mut r, k / 32),
            _ => aimed_case(&mut r, aims.least()),
        };
        aims.add(&case);
        case
    })
}
