// Situations of calls that add two sheets (request 12).

mod faults;
mod large;
mod over;
mod summed;

use super::leading;
use super::sum::{sum_of, Situation, Sum};
use super::{Aimed, Situations};
use crate::sum_case::SumCase;

const OF_FAULTS: [&[Situation]; 2] = [over::SITUATIONS, faults::SITUATIONS];

fn situations() -> Vec<Situation> {
    [summed::SITUATIONS, &OF_FAULTS.concat()].concat()
}

fn names_of(situations: &[Situation]) -> Vec<&'static str> {
    situations.iter().map(|situation| situation.0).collect()
}

fn found_in(sum: &Sum, situations: &[Situation]) -> Vec<&'static str> {
    situations.iter().filter(|situation| (situation.1)(sum)).map(|situation| situation.0).collect()
}

pub struct OfSums;

impl Aimed for OfSums {
    type Case = SumCase;

    const USUAL: Situations<SumCase> = Situations {
        of: "sums",
        names: || [names_of(&situations()), leading::names()].concat(),
        found: |case| {
            let sum = sum_of(case);
            [found_in(&sum, &situations()), leading::found(&sum.leading())].concat()
        },
    };

    /// Of as many privileges as there may be, or of more than a byte counts.
    const LARGE: Situations<SumCase> = Situations {
        of: "sums with large tables",
        names: || names_of(large::SITUATIONS),
        found: |case| found_in(&sum_of(case), large::SITUATIONS),
    };

    fn is_of_faults(name: &str) -> bool {
        names_of(&OF_FAULTS.concat()).contains(&name)
    }

    fn is_in(name: &'static str) -> impl Fn(&SumCase) -> bool {
        let situation = situations().into_iter().find(|situation| situation.0 == name);
        move |case| {
            let sum = sum_of(case);
            situation.map_or_else(|| leading::found(&sum.leading()).contains(&name), |it| (it.1)(&sum))
        }
    }
}
