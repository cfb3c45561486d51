// What the situations of calls that write a listing and those of calls that read one share (request 10).

use super::listing::{Listing, Numbered, Situation};
use super::{listed, texts, Aimed, Situations};
use crate::listing_case::ListingCase;

/// The calls of one of the two kinds, and what is theirs alone.
pub trait OfListings {
    /// Of what the situations are, the usual ones and those of large cases.
    const OF: [&'static str; 2];

    const OF_RESULTS: &'static [Situation];

    /// Of what is given and of the result as a whole.
    const OF_FAULTS: &'static [Numbered];

    /// Of faults of a line.
    const OF_LINES: &'static [&'static [Situation]];

    /// Of long listings, or of as many privileges or types as there may be.
    const OF_LARGE: &'static [Situation];

    fn call(case: &ListingCase) -> Listing<'_>;

    /// Of the format and the text too.
    fn numbered() -> Vec<Numbered> {
        [texts::SITUATIONS, Self::OF_FAULTS].concat()
    }

    fn of_faults() -> Vec<Situation> {
        let numbered = Self::numbered().into_iter().map(|own| own.1).collect();
        [numbered, Self::OF_LINES.concat()].concat()
    }

    fn situations() -> Vec<Situation> {
        [listed::SITUATIONS, Self::OF_RESULTS, &Self::of_faults()].concat()
    }

    /// The number that the situation of this name comes with, where it is not one of done calls or of a line.
    fn number_of(name: &str) -> Option<usize> {
        Self::numbered().iter().find(|(_, situation)| situation.0 == name).map(|own| own.0)
    }
}

fn names_of(situations: &[Situation]) -> Vec<&'static str> {
    situations.iter().map(|situation| situation.0).collect()
}

fn found_in(it: &Listing, situations: &[Situation]) -> Vec<&'static str> {
    situations.iter().filter(|situation| (situation.1)(it)).map(|situation| situation.0).collect()
}

impl<C: OfListings> Aimed for C {
    type Case = ListingCase;

    const USUAL: Situations<ListingCase> = Situations {
        of: C::OF[0],
        names: || names_of(&C::situations()),
        found: |case| found_in(&C::call(case), &C::situations()),
    };

    const LARGE: Situations<ListingCase> = Situations {
        of: C::OF[1],
        names: || names_of(C::OF_LARGE),
        found: |case| found_in(&C::call(case), C::OF_LARGE),
    };

    fn is_of_faults(name: &str) -> bool {
        names_of(&C::of_faults()).contains(&name)
    }

    fn is_in(name: &'static str) -> impl Fn(&ListingCase) -> bool {
        let situation = C::situations().into_iter().find(|situation| situation.0 == name);
        let holds = situation.expect("a situation of that name").1;
        move |case| holds(&C::call(case))
    }
}
