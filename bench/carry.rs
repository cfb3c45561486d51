// Measures `carry_marks`.

use crate::calls::{Make, Outcome, MAKES};
use crate::revisions::{growing, refused, revisions, Revision};
use crate::rounds::rounds;
use crate::stack::stack_of;
use crate::{compare, fail, make_of, row, times_of};
use second::carry_case::CarryCase;
use std::hint::black_box;
use std::time::Duration;

pub const NAME: &str = "carry_marks";

fn run(make: &Make, case: &mut CarryCase) -> Outcome {
    let CarryCase { old_words, old_marks, new_words, new_numbers, out, lost } = case;
    (make.carry_marks)(old_words, old_marks, new_words, new_numbers, out, lost)
}

fn run_each(make: &Make, cases: &mut [CarryCase]) {
    for case in cases {
        black_box(run(make, case));
    }
}

fn compare_on(case: &CarryCase, at: &str) {
    let told = |make: &Make| {
        let mut lent = case.clone();
        (run(make, &mut lent), lent.out, lent.lost)
    };
    compare(&MAKES[..2], told, NAME, at);
}

/// All makes tell the same on cases and on what is measured, of which there are so many calls: the outcome, and both results as they are left.
pub fn check(cases: &[CarryCase]) -> usize {
    for (k, case) in cases.iter().enumerate() {
        compare_on(case, &format!("case {} of moves", k));
    }
    let refused = Revision { name: "refused".to_string(), cases: refused() };
    let mut own = 0;
    for Revision { name, cases } in revisions().into_iter().chain(growing()).chain([refused]) {
        cases.iter().for_each(|case| compare_on(case, &name));
        own += cases.len();
    }
    own
}

/// Nanoseconds a call of some makes, the least and the median of the rounds.
fn measure(makes: &[Make], revision: &Revision, budget: Duration) -> Vec<(f64, f64)> {
    let mut cases = revision.cases.clone();
    let each = cases.len() as f64;
    let found = rounds(makes.len(), |m| run_each(&makes[m], &mut cases), budget);
    found.into_iter().map(|(least, median)| (least / each, median / each)).collect()
}

/// A row for each revision.
pub fn time() {
    for revision in revisions() {
        let ours = measure(&MAKES[..2], &revision, Duration::from_millis(600));
        let second = measure(&MAKES[2..], &revision, Duration::from_millis(100));
        println!("{}", row(NAME, &revision.name, [ours[0], ours[1], second[0]]));
    }
}

/// The cells of the call in the table of growth.
pub fn growth(size: usize) -> String {
    let found = measure(&MAKES[..2], &growing()[size], Duration::from_millis(100));
    format!(" {:.0}, {:.0} |", found[0].0, found[1].0)
}

fn nothing(_: &[u16], _: &[u8], _: &[u16], _: &[u16], _: &mut [u8], _: &mut [u8]) -> Outcome {
    Outcome::default()
}

/// The bytes of stack, the most of all revisions, and of tables that are refused.
pub fn most_stack(make: &Make) -> String {
    let empty = Make { name: "", carry_marks: nothing, ..*make };
    let on = |make| move |case: &mut CarryCase| run(make, case);
    let cases = revisions().into_iter().flat_map(|revision| revision.cases).chain(refused());
    let stacks = cases.map(|case| stack_of(on(make), on(&empty), &case));
    stacks.max().unwrap_or(0).to_string()
}

pub fn list() {
    for Revision { name, cases } in revisions() {
        println!("{} {} {}", NAME, name, cases.len());
    }
}

pub fn count(make: &str, revision: &str, times: &str) {
    let make = make_of(make);
    let mut all = revisions().into_iter().chain(growing());
    let revision = all.find(|it| it.name == revision).unwrap_or_else(|| fail("no such revision"));
    let mut cases = revision.cases;
    for _ in 0..times_of(times) {
        run_each(make, &mut cases);
    }
}
