// Situations of calls that read a listing (request 10).

mod bytes;
mod edits;
mod faults;
mod large;
mod line;
mod names;
mod orders;
mod results;

use super::listing::{Listing, Numbered, Situation};
use super::listings::OfListings;
use crate::listing_case::ListingCase;

pub struct OfReading;

impl OfListings for OfReading {
    const OF: [&'static str; 2] = ["reading", "reading with large texts"];

    const OF_RESULTS: &'static [Situation] = results::SITUATIONS;

    const OF_FAULTS: &'static [Numbered] = faults::SITUATIONS;

    /// First of lines that are not one of these.
    const OF_LINES: &'static [&'static [Situation]] =
        &[bytes::SITUATIONS, names::SITUATIONS, edits::SITUATIONS, orders::SITUATIONS];

    const OF_LARGE: &'static [Situation] = large::SITUATIONS;

    fn call(case: &ListingCase) -> Listing<'_> {
        Listing::reading(case)
    }
}
