// Editing one mark: sequences worked out by hand, edit by edit, as bytes of a stream too, each refusal in its order, sequences by chance against
// all that is worked out anew and against another reading, and how often what can come does in the cases for a stream.

mod by_chance;
mod by_hand;
mod kept;
mod refusals;
mod streamed;

use super::{expect, OFTEN};
use crate::cases::Case;
use crate::counting::Overview;
use crate::edit_case::EditCase;
use crate::making::bases::cases;
use crate::making::edits::Editing;

/// As many as are stored for the gate.
const COUNT: usize = 1400;

/// How often at least each situation is to come of as many privileges, types or children as there may be.
const SOMETIMES: usize = 5;

/// Whether the program cases of the proved code has room for the runs.
fn has_room(case: &EditCase) -> bool {
    let EditCase { words, marks, kept, edits } = case;
    words.len() <= 4096 && marks.len() <= 8192 && kept.len() <= 2048 && 2 * edits.len() <= 1024
}

fn self_stored(seed: u64) -> String {
    let all: Vec<EditCase> = cases::<Editing>(seed, COUNT).collect();
    expect(all.iter().all(has_room), "room for each case");
    let edits: usize = all.iter().map(|case| case.edits.len()).sum();
    let overview = Overview::of(all.into_iter().map(Case::Edit));
    let of_answers = overview.fewest_of_answers();
    let (usual, large) = (overview.fewest_of_edits(), overview.fewest_of_large_edits());
    expect(of_answers >= OFTEN, "how often each number of edits comes");
    expect(usual >= OFTEN, "how often each situation of edits comes");
    expect(large >= SOMETIMES, "how often each situation of edits with large tables comes");
    let fewest = of_answers.min(usual);
    format!(
        "{} cases of {} edits (fewest of what can come: {}, with large tables: {})",
        COUNT, edits, fewest, large
    )
}

pub fn self_edits(seed: u64, count: usize) -> String {
    let known = by_hand::self_by_hand();
    streamed::self_streamed();
    let orders = refusals::self_refusals();
    let (by_chance, stored) = (by_chance::self_by_chance(seed, count / 2), self_stored(seed));
    format!(
        "self: edits: {} by hand, {} orders of faults, {} and {} hold\n",
        known, orders, by_chance, stored
    )
}
