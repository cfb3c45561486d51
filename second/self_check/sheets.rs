// The monthly sheet: sheets and sums worked out by hand, as bytes of a stream too, each refusal in its order, sheets and sums by chance against
// the single calls and against another reading, and how often what can come does in the cases for a stream.

mod by_chance;
mod by_hand;
mod refusals;
mod streamed;

use super::{expect, OFTEN};
use crate::cases::Case;
use crate::counting::Overview;
use crate::making::bases::cases;
use crate::making::sheets::Month;
use crate::making::sums::Sheets;

/// As many sheets and sums as are stored for the gate.
const COUNTS: [usize; 2] = [1200, 1100];

/// How often at least each situation is to come that has large tables or more roles than a byte counts.
const SOMETIMES: usize = 5;

fn self_stored(seed: u64) -> String {
    let [sheets, sums] = COUNTS;
    let cases = cases::<Month>(seed, sheets).map(Case::Sheet).chain(cases::<Sheets>(seed, sums).map(Case::Sum));
    let overview = Overview::of(cases);
    let of_answers = overview.fewest_of_answers();
    let (usual, large) = (overview.fewest_of_sheets(), overview.fewest_of_large_sheets());
    expect(of_answers >= OFTEN, "how often each number of sheets and sums comes");
    expect(usual >= OFTEN, "how often each situation of sheets and sums comes");
    expect(large >= SOMETIMES, "how often each situation of sheets and sums with large tables comes");
    let fewest = of_answers.min(usual);
    format!(
        "{} and {} cases (fewest of what can come: {}, with large tables: {})",
        sheets, sums, fewest, large
    )
}

/// A third as many sheets and sums by chance as of other calls, since each is judged role by role.
pub fn self_sheets(seed: u64, count: usize) -> String {
    by_hand::self_by_hand();
    streamed::self_streamed();
    let orders = refusals::self_refusals();
    let (by_chance, stored) = (by_chance::self_by_chance(seed, count / 3), self_stored(seed));
    format!(
        "self: sheets: known sheets and sums, {} orders of faults, {} and {} hold\n",
        orders, by_chance, stored
    )
}
