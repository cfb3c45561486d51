// Listings: such as were worked out by hand, in both directions, as bytes of a stream too, each refusal in its order, listings by chance against
// another reading, and how often what can come does in the cases for a stream.

mod by_chance;
mod by_hand;
mod refusals;
mod streamed;
mod tokens;

use super::{expect, OFTEN};
use crate::cases::Case;
use crate::counting::Overview;
use crate::listing_case::ListingCase;
use crate::making::bases::cases;
use crate::making::listings::reading::Reading;
use crate::making::listings::writing::Writing;

/// As many as are stored for the gate: listings that are written, and listings that are read.
const COUNTS: [usize; 2] = [1100, 2450];

/// How often at least each situation is to come of long listings or of as many privileges or types as there may be.
const SOMETIMES: usize = 5;

/// Whether the program cases of the proved code has room for these: a text, marks, and a listing or a result.
fn has_room(case: &ListingCase, most_given: usize) -> bool {
    case.text.len() <= 66_560 && case.given.len() <= most_given && case.out.len() <= 98_304
}

fn self_stored(seed: u64) -> String {
    let [writes, reads] = COUNTS;
    let all: [Vec<ListingCase>; 2] =
        [cases::<Writing>(seed, writes).collect(), cases::<Reading>(seed, reads).collect()];
    for (cases, most_given) in all.iter().zip([8_192, 98_304]) {
        expect(cases.iter().all(|case| has_room(case, most_given)), "room for each case");
    }
    let [writing, reading] = all;
    let cases = writing.into_iter().map(Case::Write).chain(reading.into_iter().map(Case::Read));
    let overview = Overview::of(cases);
    let of_answers = overview.fewest_of_answers();
    let (usual, large) = (overview.fewest_of_listings(), overview.fewest_of_large_listings());
    expect(of_answers >= OFTEN, "how often each number of listings comes");
    expect(usual >= OFTEN, "how often each situation of listings comes");
    expect(large >= SOMETIMES, "how often each situation of large listings comes");
    let fewest = of_answers.min(usual);
    format!("{} and {} cases (fewest of what can come: {}, of large ones: {})", writes, reads, fewest, large)
}

pub fn self_listings(seed: u64, count: usize) -> String {
    let known = by_hand::self_by_hand();
    streamed::self_streamed();
    let (orders, refused) = refusals::self_refusals();
    let (by_chance, stored) = (by_chance::self_by_chance(seed, count), self_stored(seed));
    [
        format!(
            "self: listings: {} by hand, {} refused ones and {} orders of faults, ",
            known, refused, orders
        ),
        format!("{} and {} hold\n", by_chance, stored),
    ]
    .concat()
}
