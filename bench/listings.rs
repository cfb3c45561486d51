// Measures `write_listing` and `read_listing`, beside `read_dtd` on the same text, which is the first part of both.

use crate::calls::{Listing, Make, Outcome, MAKES};
use crate::listed::{growing, inputs, of_texts, Input, Listed};
use crate::rounds::rounds;
use crate::stack::stack_of;
use crate::{compare, fail, make_of, proved, row, times_of};
use second::listing_case::ListingCase;
use std::hint::black_box;
use std::time::Duration;

/// The two calls.
#[derive(Clone, Copy)]
pub enum Way {
    Write,
    Read,
}

pub const WAYS: [Way; 2] = [Way::Write, Way::Read];

impl Way {
    pub fn name(self) -> &'static str {
        match self {
            Way::Write => "write_listing",
            Way::Read => "read_listing",
        }
    }

    fn call(self, make: &Make) -> Listing {
        match self {
            Way::Write => make.write_listing,
            Way::Read => make.read_listing,
        }
    }

    fn case(self, listed: &Listed) -> ListingCase {
        match self {
            Way::Write => listed.written(),
            Way::Read => listed.read(),
        }
    }
}

pub fn way_of(named: &str) -> Option<Way> {
    WAYS.into_iter().find(|way| way.name() == named)
}

fn run(call: Listing, case: &mut ListingCase) -> Outcome {
    let ListingCase { text, format, given, out } = case;
    call(text, *format, given, out)
}

// ---------------------------------------------------------------- equal answers

fn compare_on(way: Way, case: &ListingCase, at: &str) {
    let told = |make: &Make| {
        let mut lent = case.clone();
        (run(way.call(make), &mut lent), lent.out)
    };
    compare(&MAKES[..2], told, way.name(), at);
}

/// All makes tell the same on cases of both calls and on what is measured, of which there are so many calls: the outcome, and the whole result.
pub fn check(writes: &[ListingCase], reads: &[ListingCase]) -> usize {
    for (way, cases) in WAYS.into_iter().zip([writes, reads]) {
        for (k, case) in cases.iter().enumerate() {
            compare_on(way, case, &format!("case {} of listings", k));
        }
    }
    let measured = inputs().into_iter().chain(growing().into_iter().flatten()).chain(of_texts());
    let mut own = 0;
    for input in measured {
        let listed = input.listed();
        WAYS.iter().for_each(|&way| compare_on(way, &way.case(&listed), &listed.name));
        own += WAYS.len();
    }
    own
}

// ---------------------------------------------------------------- time

/// Nanoseconds a call of some makes, the least and the median of the rounds.
fn measure(makes: &[Make], way: Way, listed: &Listed, budget: Duration) -> Vec<(f64, f64)> {
    let mut case = way.case(listed);
    let turn = |m: usize| {
        black_box(run(way.call(&makes[m]), &mut case));
    };
    rounds(makes.len(), turn, budget)
}

/// A row for each call and input.
pub fn time() {
    for way in WAYS {
        for input in inputs() {
            let listed = input.listed();
            let ours = measure(&MAKES[..2], way, &listed, Duration::from_millis(600));
            let second = measure(&MAKES[2..], way, &listed, Duration::from_millis(100));
            println!("{}", row(way.name(), &listed.name, [ours[0], ours[1], second[0]]));
        }
    }
}

/// Nanoseconds a call of the proved make, the least of the rounds: of writing, of reading, and of `read_dtd` on the same text.
fn measure_parts(listed: &Listed) -> [f64; 3] {
    let mut cases = WAYS.map(|way| way.case(listed));
    let mut table = vec![0; 1800];
    let turn = |m: usize| {
        let told = match WAYS.get(m) {
            Some(way) => run(way.call(&MAKES[0]), &mut cases[m]),
            None => proved::read_dtd(&listed.text, &mut table),
        };
        black_box(told);
    };
    let found = rounds(3, turn, Duration::from_millis(600));
    [0, 1, 2].map(|m| found[m].0)
}

/// A table with a line for each input.
pub fn time_listings() {
    println!("ns a call, proved, least of the rounds: of the listing, and of its text's table alone\n");
    println!("| Input | bytes of text | bytes | lines | write_listing | read_listing | read_dtd | write / dtd | read / dtd |");
    println!("|---|---|---|---|---|---|---|---|---|");
    for input in inputs() {
        let listed = input.listed();
        let [write, read, dtd] = measure_parts(&listed);
        let sizes = [listed.text.len(), listed.listing.len(), listed.lines()].map(|size| size.to_string());
        let cells = format!("{:.0} | {:.0} | {:.0} | {:.2} | {:.2}", write, read, dtd, write / dtd, read / dtd);
        println!("| {} | {} | {} |", listed.name, sizes.join(" | "), cells);
    }
}

/// The cells of a call on a listing: nanoseconds a call, and a line, less the call without a line; proved and fast. They take turns.
fn growth_of(way: Way, listed: &Listed, without: &Listed) -> String {
    let mut cases = [way.case(listed), way.case(without)];
    let turn = |m: usize| {
        black_box(run(way.call(&MAKES[m / 2]), &mut cases[m % 2]));
    };
    let found = rounds(4, turn, Duration::from_millis(400));
    let lines = listed.lines() as f64;
    let call = |make: usize| format!("{:.0}", found[2 * make].0);
    let line = |make: usize| match listed.lines() {
        0 => "-".to_string(),
        _ => format!("{:.1}", (found[2 * make].0 - found[2 * make + 1].0) / lines),
    };
    format!("{} | {}", [0, 1].map(call).join(", "), [0, 1].map(line).join(", "))
}

/// A table with a line for each listing that doubles.
pub fn growth() {
    println!("ns, proved and fast, least of the rounds: a call, and a line of it, less the call without a line\n");
    println!("| Listing | bytes | write_listing | a line | read_listing | a line |");
    println!("|---|---|---|---|---|---|");
    for all in growing() {
        let all: Vec<Listed> = all.iter().map(Input::listed).collect();
        for listed in &all {
            let cells = WAYS.map(|way| growth_of(way, listed, &all[0])).join(" | ");
            println!("| {} | {} | {} |", listed.name, listed.listing.len(), cells);
        }
    }
}

// ---------------------------------------------------------------- stack and instructions

fn nothing(_: &[u8], _: u16, _: &[u8], _: &mut [u8]) -> Outcome {
    Outcome::default()
}

/// The bytes of stack, the most of all inputs and of all texts that `read_dtd` is measured on.
pub fn most_stack(make: &Make, way: Way) -> String {
    let on = |call| move |case: &mut ListingCase| run(call, case);
    let cases = inputs().into_iter().chain(of_texts()).map(|input| way.case(&input.listed()));
    let stacks = cases.map(|case| stack_of(on(way.call(make)), on(nothing), &case));
    stacks.max().unwrap_or(0).to_string()
}

pub fn list() {
    for way in WAYS {
        inputs().iter().for_each(|input| println!("{} {} 1", way.name(), input.name));
    }
}

/// The listings that double, and how many lines each has.
pub fn list_growing() {
    growing().iter().flatten().for_each(|input| println!("{} {}", input.name, input.listed().lines()));
}

pub fn count(make: &str, way: Way, input: &str, times: &str) {
    let call = way.call(make_of(make));
    let mut all = inputs().into_iter().chain(growing().into_iter().flatten());
    let input = all.find(|it| it.name == input).unwrap_or_else(|| fail("no such input"));
    let mut case = way.case(&input.listed());
    for _ in 0..times_of(times) {
        black_box(run(call, &mut case));
    }
}
