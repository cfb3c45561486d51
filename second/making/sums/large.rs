// Cases with as many privileges as there may be, and with more than a byte numbers.

use super::super::bases::{Base, FORMATS};
use super::super::chance::Random;
use super::super::roles::table_of;
use super::super::schemas::Schema;
use super::super::shapes::wide_of;
use super::super::sheets::large::{full, HIGH};
use super::{Numbers, Sheets};
use crate::format::Format;
use crate::sheet::COUNTS;
use crate::sum_case::SumCase;
use crate::table::{total, MOST_CHILDREN};

/// Small numbers, smaller ones below privilege 256; the last privilege leads.
fn numbers(r: &mut Random, v: usize) -> Numbers {
    let most = |k: usize| if k / COUNTS < HIGH { 1 } else { 3 };
    let mut counts: Vec<[u32; 2]> =
        (0..COUNTS * v).map(|k| [(); 2].map(|_| r.below(most(k)) as u32)).collect();
    counts[COUNTS * (v - 1)] = [3, 2];
    Numbers { figures: [(); 5].map(|_| [(); 2].map(|_| r.below(9) as u32)), counts }
}

/// V is 258 to 270.
fn medium(r: &mut Random) -> Schema {
    loop {
        let types = wide_of(r, MOST_CHILDREN);
        if (HIGH + 2..=270).contains(&total(Format::Two, &types)) {
            return Schema::of(Format::Two, types).by_chance(r);
        }
    }
}

fn base(r: &mut Random, schema: Schema) -> Sheets {
    let v = table_of(&schema).v();
    let numbers = numbers(r, v);
    Sheets { schema, v, numbers }
}

/// In turn for 4,096 privileges, for 30 at a privilege over 255 and at place V, and for a full table without counts.
pub fn large_case(r: &mut Random, turn: usize) -> SumCase {
    let (way, round) = (turn % 4, turn / 4);
    let schema = if [0, 3].contains(&way) { full(r, FORMATS[round % 2]) } else { medium(r) };
    let base = base(r, schema);
    let mut case = base.sound_case(r);
    match way {
        1 => {
            let k = COUNTS * HIGH + r.below(COUNTS * (base.v - HIGH));
            (case.counts[k], case.more_counts[k]) = (u32::MAX, 1);
        }
        2 => (case.sheet.figures[round % 5], case.more.figures[round % 5]) = (1, u32::MAX),
        3 => (case.counts, case.more_counts) = (Vec::new(), Vec::new()),
        _ => (),
    }
    case
}
