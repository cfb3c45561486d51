// The check of reading DTD text.

mod coverage;
mod grammar;
pub mod known;
mod languages;
mod numbering;
mod texts;

use super::{expect, OFTEN};
use crate::making::chance::Random;
use grammar::self_grammar;
use known::self_known;
use languages::{self_all_models, self_any_model};
use texts::covered;

/// The models that are all tried have so many bytes at most.
const LONGEST: usize = 10;

pub fn self_dtds(seed: u64, count: usize) -> String {
    let known = self_known();
    let runs = self_grammar();
    let mut r = Random(seed);
    let models = self_all_models(&mut r, LONGEST) + count / 5;
    (0..count / 5).for_each(|_| self_any_model(&mut r));
    let coverage = covered(seed, count);
    let (what, fewest) = coverage.rarest();
    expect(fewest >= OFTEN, &format!("how often this comes: {}", what));
    expect(coverage.strange() == 0, "what comes of texts and should not");
    [
        format!("self: DTD texts: {} by hand, what can stand in {} runs, ", known, runs),
        format!("the languages of {} models, {} texts ", models, count),
        format!("(fewest of what can come: {}) hold\n", fewest),
    ]
    .concat()
}

/// How often what came.
pub fn count_dtds(seed: u64, count: usize) -> String {
    covered(seed, count).text()
}
