// Situations of calls that write a listing (request 10).

mod faults;
mod large;
mod results;

use super::listing::{Listing, Numbered, Situation};
use super::listings::OfListings;
use crate::listing_case::ListingCase;

pub struct OfWriting;

impl OfListings for OfWriting {
    const OF: [&'static str; 2] = ["writing", "writing with large texts"];

    const OF_RESULTS: &'static [Situation] = results::SITUATIONS;

    const OF_FAULTS: &'static [Numbered] = faults::SITUATIONS;

    const OF_LINES: &'static [&'static [Situation]] = &[];

    const OF_LARGE: &'static [Situation] = large::SITUATIONS;

    fn call(case: &ListingCase) -> Listing<'_> {
        Listing::writing(case)
    }
}
