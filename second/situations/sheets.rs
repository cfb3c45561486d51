// Situations of calls that count the roles of a month (request 12).

mod conditions;
mod counts;
mod faults;
mod large;
mod refused;
mod sizes;

use super::leading;
use super::month::{Month, Situation};
use super::{Aimed, Situations};
use crate::sheet_case::SheetCase;

/// Of calls that are done.
const OF_ROLES: [&[Situation]; 4] =
    [sizes::SITUATIONS, refused::SITUATIONS, conditions::SITUATIONS, counts::SITUATIONS];

fn situations() -> Vec<Situation> {
    [&OF_ROLES.concat(), faults::SITUATIONS].concat()
}

fn names_of(situations: &[Situation]) -> Vec<&'static str> {
    situations.iter().map(|situation| situation.0).collect()
}

fn found_in(month: &Month, situations: &[Situation]) -> Vec<&'static str> {
    situations.iter().filter(|situation| (situation.1)(month)).map(|situation| situation.0).collect()
}

pub struct OfSheets;

impl Aimed for OfSheets {
    type Case = SheetCase;

    const USUAL: Situations<SheetCase> = Situations {
        of: "sheets",
        names: || [names_of(&situations()), leading::names()].concat(),
        found: |case| {
            let month = Month::of(case);
            [found_in(&month, &situations()), leading::found(&month.leading())].concat()
        },
    };

    /// Of as many privileges as there may be, or of more than a byte counts.
    const LARGE: Situations<SheetCase> = Situations {
        of: "sheets with large tables",
        names: || names_of(large::SITUATIONS),
        found: |case| found_in(&Month::of(case), large::SITUATIONS),
    };

    fn is_of_faults(name: &str) -> bool {
        names_of(faults::SITUATIONS).contains(&name)
    }

    fn is_in(name: &'static str) -> impl Fn(&SheetCase) -> bool {
        let situation = situations().into_iter().find(|situation| situation.0 == name);
        move |case| {
            let month = Month::of(case);
            situation.map_or_else(|| leading::found(&month.leading()).contains(&name), |it| (it.1)(&month))
        }
    }
}
