// Situations of edits of one mark (request 11).

mod entries;
mod faults;
mod kept;
mod large;
mod sequences;
mod together;
mod verdicts;
mod wrong;

use super::edited::{Edited, Situation};
use super::{Aimed, Situations};
use crate::edit_case::EditCase;

const OF_FAULTS: [&[Situation]; 2] = [faults::SITUATIONS, together::SITUATIONS];

fn situations() -> Vec<Situation> {
    let of_edits = [
        sequences::SITUATIONS,
        entries::SITUATIONS,
        kept::SITUATIONS,
        verdicts::SITUATIONS,
        wrong::SITUATIONS,
    ];
    [of_edits.concat(), OF_FAULTS.concat()].concat()
}

fn names_of(situations: &[Situation]) -> Vec<&'static str> {
    situations.iter().map(|situation| situation.0).collect()
}

fn found_in(edited: &Edited, situations: &[Situation]) -> Vec<&'static str> {
    situations.iter().filter(|situation| (situation.1)(edited)).map(|situation| situation.0).collect()
}

pub struct OfEdits;

impl Aimed for OfEdits {
    type Case = EditCase;

    const USUAL: Situations<EditCase> = Situations {
        of: "edits",
        names: || names_of(&situations()),
        found: |case| found_in(&Edited::of(case), &situations()),
    };

    /// Of as many privileges, types or children as there may be.
    const LARGE: Situations<EditCase> = Situations {
        of: "edits with large tables",
        names: || names_of(large::SITUATIONS),
        found: |case| found_in(&Edited::of(case), large::SITUATIONS),
    };

    fn is_of_faults(name: &str) -> bool {
        names_of(&OF_FAULTS.concat()).contains(&name)
    }

    fn is_in(name: &'static str) -> impl Fn(&EditCase) -> bool {
        let situation = situations().into_iter().find(|situation| situation.0 == name);
        let holds = situation.expect("a situation of that name").1;
        move |case| holds(&Edited::of(case))
    }
}
