// The cases of format 2 that are made for a stream: how often each number, each condition and each situation comes.

use super::{expect, OFTEN};
use crate::cases::Case;
use crate::counting::Overview;
use crate::making::second_format::cases;

/// As many as are stored for the gate.
const COUNT: usize = 1500;

pub fn self_second_format(seed: u64) -> String {
    let fewest = Overview::of(cases(seed, COUNT).map(Case::Policy)).fewest_of_two();
    expect(fewest >= OFTEN, "how often each answer and each situation of format 2 comes");
    format!("self: {} cases of format 2 (fewest of what can come: {}) hold\n", COUNT, fewest)
}
