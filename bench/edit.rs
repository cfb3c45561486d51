// Measures `edit_mark`, beside the single verdict after each click.

use crate::calls::{Make, Outcome, MAKES};
use crate::edits::{edits, growing, refused, Clicks};
use crate::plain::entries;
use crate::rounds::rounds;
use crate::stack::stack_of;
use crate::{compare, fail, make_of, row, times_of};
use second::edit_case::{Edit, EditCase};
use std::hint::black_box;
use std::time::Duration;

pub const NAME: &str = "edit_mark";

/// The single verdict after each click.
pub const AFTER: &str = "judge_after";

/// Makes all clicks in turn; the last answer.
fn run(make: &Make, case: &mut EditCase) -> Outcome {
    let EditCase { words, marks, kept, edits } = case;
    let mut last = Outcome::default();
    for &Edit { privilege, mark } in edits.iter() {
        last = black_box((make.edit_mark)(words, marks, kept, privilege as usize, mark));
    }
    last
}

/// The marks are given without a call, and judged after each.
fn run_after(make: &Make, case: &mut EditCase) {
    let EditCase { words, marks, edits, .. } = case;
    for &Edit { privilege, mark } in edits.iter() {
        marks[privilege as usize] = mark;
        black_box((make.judge_policy)(words, marks));
    }
}

// ---------------------------------------------------------------- equal answers

fn compare_on(case: &EditCase, at: &str) {
    let told = |make: &Make| {
        let EditCase { words, mut marks, mut kept, edits } = case.clone();
        let edit = |&Edit { privilege, mark }: &Edit| {
            let outcome = (make.edit_mark)(&words, &mut marks, &mut kept, privilege as usize, mark);
            (outcome, marks.clone(), kept.clone())
        };
        edits.iter().map(edit).collect::<Vec<_>>()
    };
    compare(&MAKES[..2], told, NAME, at);
}

/// What is kept is right before all clicks, and after them all is as it was before.
fn check_round(case: &EditCase, at: &str) {
    let mut lent = case.clone();
    run(&MAKES[2], &mut lent);
    if case.kept != entries(&case.words, &case.marks) || lent != *case {
        fail(&format!("{} is not as it should be at {}", NAME, at));
    }
}

/// All makes tell the same on cases, of which there are so many edits, and on what is measured, of which there are so many clicks: the outcome, and
/// the marks and the entries as they are left.
pub fn check(cases: &[EditCase]) -> (usize, usize) {
    for (k, case) in cases.iter().enumerate() {
        compare_on(case, &format!("case {} of edits", k));
    }
    refused().iter().for_each(|clicks| compare_on(&clicks.case(), &clicks.name()));
    let measured: Vec<Clicks> = edits().into_iter().chain(growing()).collect();
    for clicks in &measured {
        compare_on(&clicks.case(), &clicks.name());
        check_round(&clicks.case(), &clicks.name());
    }
    (cases.iter().map(|case| case.edits.len()).sum(), measured.iter().map(Clicks::count).sum())
}

// ---------------------------------------------------------------- time

/// Nanoseconds a click of some makes, the least and the median of the rounds.
fn measure(makes: &[Make], clicks: &Clicks, budget: Duration) -> Vec<(f64, f64)> {
    let (mut case, each) = (clicks.case(), clicks.count() as f64);
    let turn = |m: usize| {
        run(&makes[m], &mut case);
    };
    let found = rounds(makes.len(), turn, budget);
    found.into_iter().map(|(least, median)| (least / each, median / each)).collect()
}

/// A row for each input, a call being one click.
pub fn time() {
    for clicks in edits() {
        let ours = measure(&MAKES[..2], &clicks, Duration::from_millis(600));
        let second = measure(&MAKES[2..], &clicks, Duration::from_millis(100));
        println!("{}", row(NAME, &clicks.input, [ours[0], ours[1], second[0]]));
    }
}

/// The cells of the call in the table of growth.
pub fn growth(size: usize) -> String {
    let found = measure(&MAKES[..2], &growing()[size], Duration::from_millis(100));
    format!(" {:.0}, {:.0} |", found[0].0, found[1].0)
}

/// Nanoseconds, the least of the rounds: of a click, proved and fast, and of a single verdict after each, proved.
fn measure_click(clicks: &Clicks) -> [f64; 3] {
    let (mut case, mut judged) = (clicks.case(), clicks.case());
    let turn = |m: usize| match m {
        2 => run_after(&MAKES[0], &mut judged),
        _ => {
            run(&MAKES[m], &mut case);
        }
    };
    let found = rounds(3, turn, Duration::from_millis(600));
    [0, 1, 2].map(|m| found[m].0 / clicks.count() as f64)
}

pub fn time_clicks() {
    println!("ns, least of the rounds: a click, and a single verdict after each\n");
    println!("| Input | clicks | proved a click | fast a click | verdict | a click / a verdict |");
    println!("|---|---|---|---|---|---|");
    for clicks in edits() {
        let [proved, fast, verdict] = measure_click(&clicks);
        let cells = format!("{:.0} | {:.0} | {:.0} | {:.2}", proved, fast, verdict, proved / verdict);
        println!("| {} | {} | {} |", clicks.input, clicks.count(), cells);
    }
}

// ---------------------------------------------------------------- stack and instructions

fn nothing(_: &[u16], _: &mut [u8], _: &mut [u16], _: usize, _: u8) -> Outcome {
    Outcome::default()
}

/// The bytes of stack, the most of all clicks, and of tables that are refused.
pub fn most_stack(make: &Make) -> String {
    let empty = Make { name: "", edit_mark: nothing, ..*make };
    let on = |make| move |case: &mut EditCase| run(make, case);
    let stacks = edits().into_iter().chain(refused()).map(|clicks| stack_of(on(make), on(&empty), &clicks.case()));
    stacks.max().unwrap_or(0).to_string()
}

pub fn list() {
    edits().iter().for_each(|clicks| println!("{} {}", clicks.input, clicks.count()));
}

fn case_of(name: &str) -> EditCase {
    let mut all = edits().into_iter().chain(growing());
    all.find(|it| it.name() == name).unwrap_or_else(|| fail("no such clicks")).case()
}

pub fn count(make: &str, clicks: &str, times: &str) {
    let (make, mut case) = (make_of(make), case_of(clicks));
    for _ in 0..times_of(times) {
        run(make, &mut case);
    }
}

pub fn count_after(make: &str, clicks: &str, times: &str) {
    let (make, mut case) = (make_of(make), case_of(clicks));
    for _ in 0..times_of(times) {
        run_after(make, &mut case);
    }
}
