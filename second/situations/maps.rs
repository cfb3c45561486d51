// Situations of calls on two bit maps (request 7).

mod large;
mod lengths;
mod policies;
mod proposals;
mod results;
mod sizes;

use super::bits::{Bits, Situation};
use super::Situations;
use crate::maps_case::MapsCase;

const SITUATIONS: [&[Situation]; 5] = [
    sizes::SITUATIONS,
    lengths::SITUATIONS,
    policies::SITUATIONS,
    results::SITUATIONS,
    proposals::SITUATIONS,
];

pub const USUAL: Situations<MapsCase> = Situations {
    of: "maps",
    names: || names_of(&SITUATIONS.concat()),
    found: |case| found_in(case, &SITUATIONS.concat()),
};

/// Of as many privileges as there may be, or nearly.
pub const LARGE: Situations<MapsCase> = Situations {
    of: "maps of 512 bytes",
    names: || names_of(large::SITUATIONS),
    found: |case| found_in(case, large::SITUATIONS),
};

fn names_of(situations: &[Situation]) -> Vec<&'static str> {
    situations.iter().map(|situation| situation.0).collect()
}

fn found_in(case: &MapsCase, situations: &[Situation]) -> Vec<&'static str> {
    let bits = Bits::of(case);
    situations.iter().filter(|situation| (situation.1)(&bits)).map(|situation| situation.0).collect()
}

pub fn is_in(case: &MapsCase, name: &str) -> bool {
    let situation = SITUATIONS.concat().into_iter().find(|situation| situation.0 == name);
    (situation.expect("a situation of that name").1)(&Bits::of(case))
}
