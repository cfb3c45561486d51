// The policies that are made for a stream: how often each situation of requests 6 and 8 comes.

use super::{expect, OFTEN};
use crate::counting::Overview;
use crate::making::cases;

/// As many of format 1 and of format 2 as are stored for the gate.
const COUNTS: [usize; 2] = [3000, 1500];

pub fn self_counts(seed: u64) -> String {
    let [of_one, of_two] = COUNTS;
    let overview = Overview::of(cases(seed, [of_one, 0, of_two, 0, 0, 0, 0, 0, 0, 0, 0]));
    let (of_counts, of_chains) = (overview.fewest_of_counts(), overview.fewest_of_chains());
    expect(of_counts >= OFTEN, "how often each situation of request 8 comes");
    expect(of_chains >= OFTEN, "how often each situation of request 6 comes");
    let count: usize = COUNTS.iter().sum();
    let fewest = format!("of the count: {}, of the chain: {}", of_counts, of_chains);
    format!("self: {} policies (fewest of the situations {}) hold\n", count, fewest)
}
