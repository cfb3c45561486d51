// Cases of two bit maps (request 7): made in turn for each number of a table, and for the situation that came least often so far.

mod faults;
mod large;

use super::aims::Aims;
use super::chance::Random;
use super::damage::spoil_table;
use super::files::bare;
use super::policies::{policy, proposal};
use super::schemas::{numbered, Schema};
use super::shapes::usual_shape;
use crate::answers::answer;
use crate::calls::TABLE;
use crate::format::Format;
use crate::maps::map_length;
use crate::maps_case::{Maps, MapsCase};
use crate::situations::maps::{is_in, USUAL};
use crate::table::{check, check_table, total};
use faults::spoil;
use large::large_case;
use std::ops::RangeInclusive;

const FORMATS: [Format; 2] = [Format::One, Format::Two];

/// How many privileges a small schema may have: none, as many as a byte holds, or more.
fn privileges(r: &mut Random) -> RangeInclusive<usize> {
    match r.below(6) {
        0 => 0..=0,
        1 => 1..=8,
        2 => 9..=20,
        3 | 4 => 9..=40,
        _ => 9..=300,
    }
}

fn small_schema(r: &mut Random, format: Format) -> Schema {
    let wanted = privileges(r);
    loop {
        let types = usual_shape(r, format);
        let types = if wanted == (0..=0) { bare(types) } else { types };
        if wanted.contains(&total(format, &types)) {
            return numbered(r, format, types);
        }
    }
}

/// A length near that of a map: none, one byte less, up to three more, or the same.
fn near(r: &mut Random, length: usize) -> usize {
    match r.below(12) {
        0 => 0,
        1 => length.saturating_sub(1),
        2..=5 => length + 1 + r.below(3),
        _ => length,
    }
}

/// Results for maps so long: as a rule long enough, and in one of four cases alike.
fn lent(r: &mut Random, length: usize) -> Maps {
    let (one, other) = (near(r, length), near(r, length));
    let lengths = if r.one_in(4) { [one, one] } else { [one, other] };
    let [allowed, forbidden] = lengths.map(|length| (0..length).map(|_| r.next() as u8).collect());
    Maps { allowed, forbidden }
}

fn change_last(r: &mut Random, marks: &mut [u8]) {
    if let Some(mark) = marks.last_mut() {
        *mark = (*mark + 1 + r.below(2) as u8) % 3;
    }
}

/// Whether the policy has faults, and whether the proposed mend has.
const FAULTS: [(bool, bool); 8] = [
    (false, false),
    (false, false),
    (false, false),
    (false, true),
    (false, true),
    (true, false),
    (true, false),
    (true, true),
];

/// What a case is made of: a table, a policy and a proposed mend of it.
struct Base {
    schema: Schema,
    v: usize,
    own: Maps,
    proposed: Maps,
}

impl Base {
    fn of(r: &mut Random, schema: Schema) -> Base {
        let table = check_table(&schema.words()).expect("a shape is accepted in every numbering");
        let marks = policy(r, &table);
        let mut proposed = proposal(r, &table, &marks);
        if r.one_in(8) {
            change_last(r, &mut proposed);
        }
        Base { schema, v: table.v(), own: Maps::of(&marks), proposed: Maps::of(&proposed) }
    }

    /// With results as lent, and as a rule with faults: of the policy, of the proposed mend, or of both; seldom of the table.
    fn case(&self, r: &mut Random) -> MapsCase {
        let out = lent(r, map_length(self.v));
        let (own, proposed) = (self.own.clone(), self.proposed.clone());
        let mut case = MapsCase { words: self.schema.words(), own, out, proposed };
        let (own, proposed) = r.pick(&FAULTS);
        if own {
            spoil(r, self.v, &mut case.own);
        }
        if proposed {
            spoil(r, self.v, &mut case.proposed);
        }
        if r.one_in(16) {
            spoil_table(r, &self.schema, &mut case.words);
        }
        case
    }
}

/// A table of this format that is refused with this number; in some cases with other faults too.
fn refused_case(r: &mut Random, format: Format, number: usize) -> MapsCase {
    loop {
        let schema = small_schema(r, format);
        let mut words = schema.words();
        spoil_table(r, &schema, &mut words);
        if words.first() == Some(&format.word()) && answer(check(&words)).number == number {
            return MapsCase { words, ..Base::of(r, schema).case(r) };
        }
    }
}

/// A small case in this situation: of each base some are tried.
fn aimed_case(r: &mut Random, situation: &str) -> MapsCase {
    loop {
        let format = r.pick(&FORMATS);
        let schema = small_schema(r, format);
        let base = Base::of(r, schema);
        let tried = (0..8).map(|_| base.case(r)).find(|case| is_in(case, situation));
        if let Some(case) = tried {
            return case;
        }
    }
}

/// Of eight cases two have a refused table, one in each format, all numbers in turn; the last of 40 is a large one, and each of the others is
/// made for the situation that came least often so far.
pub fn cases(seed: u64, count: usize) -> impl Iterator<Item = MapsCase> {
    let mut r = Random(seed);
    let refusals = &TABLE[1..];
    let mut aims = Aims::new(USUAL);
    (0..count).map(move |k| {
        let case = match k % 8 {
            n @ 0..=1 => refused_case(&mut r, FORMATS[n], refusals[k / 8 % refusals.len()]),
            _ if k % 40 == 39 => large_case(&mut r, FORMATS[k / 40 % 2], k / 80),
            _ => aimed_case(&mut r, aims.least()),
        };
        aims.add(&case);
        case
    })
}
