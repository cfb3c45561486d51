// Situations of calls that carry marks to a new table (request 1).

mod choices;
mod faults;
mod large;
mod lists;
mod orders;
mod results;
mod rules;
mod stars;

use super::moves::{Move, Situation};
use super::Situations;
use crate::carry_case::CarryCase;

/// Of calls that are done.
const OF_MOVES: [&[Situation]; 5] =
    [lists::SITUATIONS, rules::SITUATIONS, stars::SITUATIONS, choices::SITUATIONS, results::SITUATIONS];

const OF_FAULTS: [&[Situation]; 2] = [faults::SITUATIONS, orders::SITUATIONS];

fn situations() -> Vec<Situation> {
    [OF_MOVES.concat(), OF_FAULTS.concat()].concat()
}

pub const USUAL: Situations<CarryCase> = Situations {
    of: "carrying",
    names: || names_of(&situations()),
    found: |case| found_in(case, &situations()),
};

/// Of as many privileges or types as there may be.
pub const LARGE: Situations<CarryCase> = Situations {
    of: "carrying with large tables",
    names: || names_of(large::SITUATIONS),
    found: |case| found_in(case, large::SITUATIONS),
};

fn names_of(situations: &[Situation]) -> Vec<&'static str> {
    situations.iter().map(|situation| situation.0).collect()
}

fn found_in(case: &CarryCase, situations: &[Situation]) -> Vec<&'static str> {
    let moved = Move::of(case);
    situations.iter().filter(|situation| (situation.1)(&moved)).map(|situation| situation.0).collect()
}

/// Whether this situation is one of faults.
pub fn is_of_faults(name: &str) -> bool {
    names_of(&OF_FAULTS.concat()).contains(&name)
}

/// Whether a case is in the situation of this name.
pub fn is_in(name: &str) -> impl Fn(&CarryCase) -> bool {
    let situation = situations().into_iter().find(|situation| situation.0 == name);
    let holds = situation.expect("a situation of that name").1;
    move |case| holds(&Move::of(case))
}
