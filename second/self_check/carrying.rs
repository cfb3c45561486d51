// Carrying marks to a new table: moves worked out by hand, each refusal in its order, moves by chance against the edits as lines of text, and
// how often what can come does in the cases for a stream.

mod by_chance;
mod by_hand;
mod refusals;
mod spelled;

use super::{expect, OFTEN};
use crate::cases::Case;
use crate::counting::Overview;
use crate::making::carrying::cases;

/// As many as are stored for the gate.
const COUNT: usize = 1800;

/// How often at least each situation is to come that has as many privileges or types as there may be.
const SOMETIMES: usize = 5;

fn self_stored(seed: u64) -> String {
    let overview = Overview::of(cases(seed, COUNT).map(Case::Carry));
    let of_answers = overview.fewest_of_answers();
    let (usual, large) = (overview.fewest_of_carrying(), overview.fewest_of_large_carrying());
    expect(of_answers >= OFTEN, "how often each number of carrying comes");
    expect(usual >= OFTEN, "how often each situation of carrying comes");
    expect(large >= SOMETIMES, "how often each situation of carrying with large tables comes");
    let fewest = of_answers.min(usual);
    format!("{} cases (fewest of what can come: {}, with large tables: {})", COUNT, fewest, large)
}

pub fn self_carrying(seed: u64, count: usize) -> String {
    by_hand::self_by_hand();
    let orders = refusals::self_refusals();
    let (by_chance, stored) = (by_chance::self_by_chance(seed, count), self_stored(seed));
    format!("self: carrying: known moves, {} orders of faults, {} and {} hold\n", orders, by_chance, stored)
}
