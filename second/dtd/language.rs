// The language of a declared type in a table: the runs of declared types that it takes, a made type standing for what it holds.

use super::Declared;
use crate::table::{CHOICE, SEQUENCE, STAR};
use std::collections::BTreeSet;

pub type Runs = BTreeSet<Vec<usize>>;

/// Each of some runs with each of others behind it, as far as they are not too long.
fn joined(runs: &Runs, behind: &Runs, longest: usize) -> Runs {
    let join =
        |run: &Vec<usize>| behind.iter().map(move |other| [&run[..], other].concat()).collect::<Vec<_>>();
    runs.iter().flat_map(join).filter(|run| run.len() <= longest).collect()
}

/// None or more of them, one behind another.
fn repeated(runs: &Runs, longest: usize) -> Runs {
    let mut found = Runs::from([Vec::new()]);
    loop {
        let more = &found | &joined(&found, runs, longest);
        if more == found {
            return found;
        }
        found = more;
    }
}

/// The runs, up to a length, that a type takes.
pub fn taken_by(declared: &Declared, of: usize, longest: usize) -> Runs {
    let held = |&child: &usize| match child < declared.count() {
        true if longest > 0 => Runs::from([vec![child]]),
        true => Runs::new(),
        false => taken_by(declared, child, longest),
    };
    let it = &declared.types[of];
    let mut parts = it.children.iter().map(held);
    let none = Runs::from([Vec::new()]);
    match it.kind {
        SEQUENCE => parts.fold(none, |runs, part| joined(&runs, &part, longest)),
        CHOICE => parts.fold(Runs::new(), |runs, part| &runs | &part),
        STAR => repeated(&parts.next().expect("a star has a child"), longest),
        _ => none,
    }
}
