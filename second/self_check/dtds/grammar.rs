// Which bytes can stand, from the productions alone: all runs of a few bytes, up to a length, that each takes or that begin one it takes.

use crate::dtd::notation::{read_productions, Form};
use crate::dtd::productions::PRODUCTIONS;
use crate::dtd::standing::Standing;
use crate::self_check::expect;
use std::collections::{BTreeMap, BTreeSet};

type Runs = BTreeSet<Vec<u8>>;

/// The runs that are taken, and those that begin one.
#[derive(Clone, PartialEq)]
struct Known {
    whole: Runs,
    begun: Runs,
}

/// Some bytes, a length, and what is known of each production so far.
struct Search {
    bytes: &'static [u8],
    longest: usize,
    known: BTreeMap<String, Known>,
}

fn empty_run() -> Runs {
    Runs::from([Vec::new()])
}

/// Takes the empty run only.
fn empty() -> Known {
    Known { whole: empty_run(), begun: empty_run() }
}

/// Takes nothing so far; every production takes something, which the empty run begins.
fn nothing() -> Known {
    Known { whole: Runs::new(), begun: empty_run() }
}

fn either(one: &Known, other: &Known) -> Known {
    Known { whole: &one.whole | &other.whole, begun: &one.begun | &other.begun }
}

fn joined(runs: &Runs, behind: &Runs, longest: usize) -> Runs {
    let mut found = Runs::new();
    for run in runs {
        let fits = |other: &&Vec<u8>| run.len() + other.len() <= longest;
        found.extend(behind.iter().filter(fits).map(|other| [&run[..], other].concat()));
    }
    found
}

fn row(one: &Known, next: &Known, longest: usize) -> Known {
    let begun = &one.begun | &joined(&one.whole, &next.begun, longest);
    Known { whole: joined(&one.whole, &next.whole, longest), begun }
}

fn any_number(of: &Known, longest: usize) -> Known {
    let mut found = empty();
    loop {
        let more = either(&found, &row(&found, of, longest));
        if more == found {
            return found;
        }
        found = more;
    }
}

impl Search {
    /// What stands behind a part has only the room that the shortest run of that part leaves.
    fn of_row(&self, parts: &[Form], longest: usize) -> Known {
        let mut found = empty();
        for part in parts {
            let shortest = found.whole.iter().map(Vec::len).min();
            let next = shortest.map_or(nothing(), |shortest| self.of(part, longest - shortest));
            found = row(&found, &next, longest);
        }
        found
    }

    fn of(&self, form: &Form, longest: usize) -> Known {
        match form {
            Form::Byte(set) => {
                let taken = self.bytes.iter().filter(|&&byte| longest > 0 && set[byte as usize]);
                let whole: Runs = taken.map(|&byte| vec![byte]).collect();
                Known { begun: &whole | &empty_run(), whole }
            }
            Form::Production(name) => self.known[name].clone(),
            Form::Row(parts) => self.of_row(parts, longest),
            Form::Either(ways) => {
                ways.iter().fold(nothing(), |found, way| either(&found, &self.of(way, longest)))
            }
            Form::Optional(form) => either(&empty(), &self.of(form, longest)),
            Form::AnyNumber(form) => any_number(&self.of(form, longest), longest),
            Form::OneOrMore(form) => {
                let one = self.of(form, longest);
                row(&one, &any_number(&one, longest), longest)
            }
        }
    }

    /// Goes over the productions until nothing new is found.
    fn new(bytes: &'static [u8], longest: usize) -> Search {
        let productions = read_productions(PRODUCTIONS);
        let known = productions.iter().map(|(name, _)| (name.clone(), nothing())).collect();
        let mut search = Search { bytes, longest, known };
        loop {
            let of = |(name, form): &(String, Form)| (name.clone(), search.of(form, longest));
            let known: BTreeMap<String, Known> = productions.iter().map(of).collect();
            if known == search.known {
                return search;
            }
            search.known = known;
        }
    }

    /// A byte behind a run that begins one can stand exactly if it begins one with it.
    fn check(&self, name: &str) -> usize {
        let Known { whole, begun } = &self.known[name];
        for run in begun {
            let is_whole = Standing::of_production(name, run).is_whole();
            expect(is_whole == whole.contains(run), &format!("what {} takes", name));
        }
        for run in begun.iter().filter(|run| run.len() < self.longest) {
            for &byte in self.bytes {
                let longer = [&run[..], &[byte]].concat();
                let stands = Standing::of_production(name, &longer).bytes();
                let expected = run.len() + begun.contains(&longer) as usize;
                expect(stands == expected, &format!("what can stand in {}", name));
            }
        }
        begun.len()
    }
}

/// Gives the number of runs that were looked at.
pub fn self_grammar() -> usize {
    let groups = Search::new(b"a(|,)? ", 7);
    let comments = Search::new(b"<!->a", 9);
    let of_groups = ["S", "Name", "cp", "choice", "seq", "children", "contentspec", "Mixed"];
    let of_comments = ["Comment", "text"];
    of_groups.iter().map(|name| groups.check(name)).sum::<usize>()
        + of_comments.iter().map(|name| comments.check(name)).sum::<usize>()
}
