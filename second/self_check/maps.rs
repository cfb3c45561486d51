// Marks as two bit maps: calls worked out by hand, calls by chance against those on mark bytes, and how often what can come does in the cases
// for a stream.

mod by_chance;
mod by_hand;
mod every_bit;

use super::{expect, OFTEN};
use crate::answers::{Answer, Outcome};
use crate::cases::Case;
use crate::counting::Overview;
use crate::format::Format;
use crate::making::maps::cases;
use crate::maps_case::MapsCase;

/// As many as are stored for the gate.
const COUNT: usize = 1600;

/// How often at least each situation is to come that has as many privileges as there may be, or nearly.
const SOMETIMES: usize = 5;

/// A call that writes maps.
type OnMaps = fn(&[u16], &[u8], &[u8], &mut [u8], &mut [u8]) -> Outcome;

fn done(count: usize) -> Outcome {
    Ok(Answer { count, ..Answer::default() })
}

fn refused([number, place]: [usize; 2]) -> Outcome {
    Err(Answer { number, place, ..Answer::default() })
}

/// The fewest of the numbers and conditions in the cases of a format.
fn fewest_of(format: Format, cases: &[MapsCase]) -> usize {
    let own = cases.iter().filter(|case| case.has(format)).cloned();
    Overview::of(own.map(Case::Maps)).fewest_of_answers()
}

fn self_stored(seed: u64) -> String {
    let cases: Vec<MapsCase> = cases(seed, COUNT).collect();
    let of_answers = fewest_of(Format::One, &cases).min(fewest_of(Format::Two, &cases));
    let overview = Overview::of(cases.into_iter().map(Case::Maps));
    let (usual, large) = (overview.fewest_of_maps(), overview.fewest_of_large_maps());
    expect(of_answers >= OFTEN, "how often each number and condition of maps comes in each format");
    expect(usual >= OFTEN, "how often each situation of maps comes");
    expect(large >= SOMETIMES, "how often each situation of maps of 512 bytes comes");
    let fewest = of_answers.min(usual);
    format!("{} cases (fewest of what can come: {}, with maps of 512 bytes: {})", COUNT, fewest, large)
}

pub fn self_maps(seed: u64, count: usize) -> String {
    by_hand::self_by_hand();
    every_bit::self_every_bit();
    let (by_chance, stored) = (by_chance::self_by_chance(seed, count), self_stored(seed));
    format!("self: maps: known calls, each bit of up to 16 privileges, {} and {} hold\n", by_chance, stored)
}
