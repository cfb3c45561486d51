// Measures the calls over bit maps, beside those on marks: on their inputs, with each policy spelt as two maps beforehand.

use crate::calls::{Call, Case, Make, Outcome, MAKES};
use crate::inputs::{doubling, inputs, Input};
use crate::rounds::rounds;
use crate::stack::stack_of;
use crate::{compare, fail, make_of, row, run_all, times_of};
use second::maps_case::{Maps, MapsCase};
use std::hint::black_box;
use std::time::Duration;

/// The calls on marks that are there over maps too.
pub const CALLS: [Call; 4] = [Call::JudgePolicy, Call::Complete, Call::Mend, Call::JudgeMend];

/// What a call is called over maps; the check of a table is the same.
pub fn name(call: Call) -> &'static str {
    match call {
        Call::CheckTable => call.name(),
        Call::JudgePolicy => "judge_maps",
        Call::Complete => "complete_maps",
        Call::Mend => "mend_maps",
        Call::JudgeMend => "judge_mend_maps",
    }
}

pub fn call_of(named: &str) -> Option<Call> {
    CALLS.into_iter().find(|&call| name(call) == named)
}

/// A bit for each mark, the lowest of a byte first: whether it is this one.
fn map_of(marks: &[u8], mark: u8) -> Vec<u8> {
    let byte = |eight: &[u8]| eight.iter().rev().fold(0, |bits, &it| bits << 1 | (it == mark) as u8);
    marks.chunks(8).map(byte).collect()
}

fn maps_of(marks: &[u8]) -> Maps {
    Maps { allowed: map_of(marks, 1), forbidden: map_of(marks, 2) }
}

fn spelt(Case { words, marks, proposed, .. }: &Case) -> MapsCase {
    let out = maps_of(&vec![0; marks.len()]);
    MapsCase { words: words.clone(), own: maps_of(marks), out, proposed: maps_of(proposed) }
}

fn all_spelt(input: &Input) -> Vec<MapsCase> {
    input.cases.iter().map(spelt).collect()
}

/// The inputs of a call that are measured: maps are read and written alike whatever their bits are.
fn measured(call: Call) -> Vec<Input> {
    let is_measured = |input: &Input| {
        let name = input.name.trim_end_matches("-2");
        ["sample", "ordinary", "largest"].contains(&name)
    };
    inputs(call).into_iter().filter(is_measured).collect()
}

fn run(make: &Make, call: Call, case: &mut MapsCase) -> Outcome {
    let MapsCase { words, own: Maps { allowed, forbidden }, out, proposed } = case;
    match call {
        Call::CheckTable => (make.check_table)(words),
        Call::JudgePolicy => (make.judge_maps)(words, allowed, forbidden),
        Call::Complete => (make.complete_maps)(words, allowed, forbidden, &mut out.allowed, &mut out.forbidden),
        Call::Mend => (make.mend_maps)(words, allowed, forbidden, &mut out.allowed, &mut out.forbidden),
        Call::JudgeMend => {
            (make.judge_mend_maps)(words, allowed, forbidden, &proposed.allowed, &proposed.forbidden)
        }
    }
}

fn run_each(make: &Make, call: Call, cases: &mut [MapsCase]) {
    for case in cases {
        black_box(run(make, call, case));
    }
}

fn compare_on(case: &MapsCase, call: Call, at: &str) {
    let told = |make: &Make| {
        let mut lent = case.clone();
        (run(make, call, &mut lent), lent.out.allowed, lent.out.forbidden)
    };
    compare(&MAKES[..2], told, name(call), at);
}

/// All makes tell the same on cases and on all inputs, of which there are so many calls: the outcome, and both maps of the result.
pub fn check(cases: &[MapsCase]) -> usize {
    for (k, case) in cases.iter().enumerate() {
        CALLS.iter().for_each(|&call| compare_on(case, call, &format!("case {} of maps", k)));
    }
    let mut own = 0;
    for call in CALLS {
        for input in inputs(call).iter().chain(&doubling(call)) {
            all_spelt(input).iter().for_each(|case| compare_on(case, call, &input.name));
            own += input.cases.len();
        }
    }
    own
}

/// Nanoseconds a call of some makes, the least and the median of the rounds.
fn measure(makes: &[Make], call: Call, input: &Input, budget: Duration) -> Vec<(f64, f64)> {
    let mut cases = all_spelt(input);
    let each = cases.len() as f64;
    let found = rounds(makes.len(), |m| run_each(&makes[m], call, &mut cases), budget);
    found.into_iter().map(|(least, median)| (least / each, median / each)).collect()
}

/// A row for each call and input.
pub fn time() {
    for call in CALLS {
        for input in measured(call) {
            let ours = measure(&MAKES[..2], call, &input, Duration::from_millis(600));
            let second = measure(&MAKES[2..], call, &input, Duration::from_millis(100));
            println!("{}", row(name(call), &input.name, [ours[0], ours[1], second[0]]));
        }
    }
}

/// The cells of a call in the table of growth.
pub fn growth(call: Call, size: usize) -> String {
    let found = measure(&MAKES[..2], call, &doubling(call)[size], Duration::from_millis(100));
    format!(" {:.0}, {:.0} |", found[0].0, found[1].0)
}

/// Nanoseconds a call, the least of the rounds: over maps, proved and fast, and on marks, proved and fast.
fn measure_both(call: Call, input: &Input) -> [f64; 4] {
    let (mut maps, mut marks) = (all_spelt(input), input.cases.clone());
    let turn = |m: usize| match m {
        0 | 1 => run_each(&MAKES[m], call, &mut maps),
        _ => run_all(&MAKES[m - 2], call, &mut marks),
    };
    let found = rounds(4, turn, Duration::from_millis(600));
    [0, 1, 2, 3].map(|m| found[m].0 / input.cases.len() as f64)
}

pub fn time_maps() {
    println!("ns a call, least of the rounds: over maps, and on the marks that they spell\n");
    println!("| Call | Input | proved | on marks | maps / marks | fast | on marks | maps / marks |");
    println!("|---|---|---|---|---|---|---|---|");
    for call in CALLS {
        for input in measured(call) {
            let [proved, fast, proved_marks, fast_marks] = measure_both(call, &input);
            let cells = |maps, marks| format!("{:.0} | {:.0} | {:.2}", maps, marks, maps / marks);
            let cells = [cells(proved, proved_marks), cells(fast, fast_marks)].join(" | ");
            println!("| {} | {} | {} |", name(call), input.name, cells);
        }
    }
}

fn nothing(_: &[u16]) -> Outcome {
    Outcome::default()
}

/// The bytes of stack, the most of all inputs, those of the check of a table among them: the marks are on the stack while a table is searched.
pub fn most_stack(make: &Make, call: Call) -> String {
    let empty = Make { name: "", check_table: nothing, ..*make };
    let on = |make, call| move |case: &mut MapsCase| run(make, call, case);
    let tables = inputs(call).into_iter().chain(inputs(Call::CheckTable));
    let cases = tables.flat_map(|input| all_spelt(&input));
    let stacks = cases.map(|case| stack_of(on(make, call), on(&empty, Call::CheckTable), &case));
    stacks.max().unwrap_or(0).to_string()
}

pub fn list() {
    for call in CALLS {
        for input in measured(call) {
            println!("{} {} {}", name(call), input.name, input.cases.len());
        }
    }
}

pub fn count(make: &str, call: Call, input: &str, times: &str) {
    let make = make_of(make);
    let mut all = inputs(call).into_iter().chain(doubling(call));
    let input = all.find(|it| it.name == input).unwrap_or_else(|| fail("no such input"));
    let mut cases = all_spelt(&input);
    for _ in 0..times_of(times) {
        run_each(make, call, &mut cases);
    }
}
