// Measures `complete_roles`, beside the single call on each role.

use crate::calls::{Call, Case, Make, Outcome, MAKES};
use crate::inputs::{input_of, inputs, Input};
use crate::rounds::rounds;
use crate::stack::stack_of;
use crate::{compare, fail, make_of, row, times_of};
use second::roles_case::RolesCase;
use std::hint::black_box;
use std::time::Duration;

pub const NAME: &str = "complete_roles";

/// The single call on each role of a show in turn.
pub const EACH: &str = "complete_each";

/// Roles of one table, with what is lent for all at once and for each by itself.
struct Show {
    input: String,
    roles: Vec<Case>,
    case: RolesCase,
}

impl Show {
    /// So many roles, which have the marks of an input's cases in turn.
    fn of(input: &Input, count: usize) -> Show {
        let roles: Vec<Case> = input.cases.iter().cycle().take(count).cloned().collect();
        let words = input.cases[0].words.clone();
        let marks: Vec<u8> = roles.iter().flat_map(|role| role.marks.clone()).collect();
        let (numbers, out) = (vec![u16::MAX; count], vec![0; marks.len()]);
        let case = RolesCase { words, marks, numbers, out };
        Show { input: input.name.clone(), roles, case }
    }

    fn count(&self) -> usize {
        self.roles.len()
    }

    fn name(&self) -> String {
        format!("{}/{}", self.input, self.count())
    }
}

/// How many roles a show of each of some inputs of `complete` has.
const COUNTS: [(&str, &[usize]); 6] = [
    ("sample", &[1, 40, 1000]),
    ("ordinary", &[1, 40, 1000]),
    ("largest", &[1, 40]),
    ("sample-2", &[1, 40, 1000]),
    ("ordinary-2", &[1, 40, 1000]),
    ("largest-2", &[1, 40]),
];

fn shows() -> Vec<Show> {
    let inputs = inputs(Call::Complete);
    let of = |(name, counts): &(&str, &[usize])| -> Vec<Show> {
        let input = input_of(&inputs, name);
        counts.iter().map(|&count| Show::of(input, count)).collect()
    };
    COUNTS.iter().flat_map(of).collect()
}

fn run(make: &Make, case: &mut RolesCase) -> Outcome {
    let RolesCase { words, marks, numbers, out } = case;
    (make.complete_roles)(words, marks, numbers, out)
}

fn run_each(make: &Make, roles: &mut [Case]) {
    for Case { words, marks, out, .. } in roles {
        black_box((make.complete)(words, marks, out));
    }
}

fn compare_on(case: &RolesCase, at: &str) {
    let told = |make: &Make| {
        let mut lent = case.clone();
        (run(make, &mut lent), lent.numbers, lent.out)
    };
    compare(&MAKES[..2], told, NAME, at);
}

/// All makes tell the same on cases and on what is measured, of which there are so many shows: the outcome, all numbers and the whole result.
pub fn check(cases: &[RolesCase]) -> usize {
    for (k, case) in cases.iter().enumerate() {
        compare_on(case, &format!("case {} of roles", k));
    }
    let measured = shows();
    measured.iter().for_each(|show| compare_on(&show.case, &show.name()));
    measured.len()
}

/// Nanoseconds a call of some makes, the least and the median of the rounds.
fn measure(makes: &[Make], show: &Show, budget: Duration) -> Vec<(f64, f64)> {
    let mut case = show.case.clone();
    let turn = |m: usize| {
        black_box(run(&makes[m], &mut case));
    };
    rounds(makes.len(), turn, budget)
}

/// A row for each show, a call being one on all roles.
pub fn time() {
    for show in shows() {
        let ours = measure(&MAKES[..2], &show, Duration::from_millis(600));
        let second = measure(&MAKES[2..], &show, Duration::from_millis(100));
        println!("{}", row(NAME, &show.name(), [ours[0], ours[1], second[0]]));
    }
}

/// Nanoseconds, the least of the rounds: of a role among all at once, proved and fast, and of a single call on each, proved.
fn measure_role(show: &Show) -> [f64; 3] {
    let (mut case, mut roles) = (show.case.clone(), show.roles.clone());
    let turn = |m: usize| match m {
        2 => run_each(&MAKES[0], &mut roles),
        _ => {
            black_box(run(&MAKES[m], &mut case));
        }
    };
    let found = rounds(3, turn, Duration::from_millis(600));
    [0, 1, 2].map(|m| found[m].0 / show.count() as f64)
}

pub fn time_roles() {
    println!("ns, least of the rounds: a role among all at once, and a single call on each\n");
    println!("| Input | roles | proved a role | fast a role | single call | a role / a single call |");
    println!("|---|---|---|---|---|---|");
    for show in shows() {
        let [proved, fast, single] = measure_role(&show);
        let cells = format!("{:.0} | {:.0} | {:.0} | {:.2}", proved, fast, single, proved / single);
        println!("| {} | {} | {} |", show.input, show.count(), cells);
    }
}

fn nothing(_: &[u16], _: &[u8], _: &mut [u16], _: &mut [u8]) -> Outcome {
    Outcome::default()
}

/// The bytes of stack, the most of all shows.
pub fn most_stack(make: &Make) -> String {
    let empty = Make { name: "", complete_roles: nothing, ..*make };
    let on = |make| move |case: &mut RolesCase| run(make, case);
    let stacks = shows().into_iter().map(|show| stack_of(on(make), on(&empty), &show.case));
    stacks.max().unwrap_or(0).to_string()
}

pub fn list() {
    shows().iter().for_each(|show| println!("{} {}", show.input, show.count()));
}

fn show_of(name: &str) -> Show {
    shows().into_iter().find(|it| it.name() == name).unwrap_or_else(|| fail("no such show"))
}

pub fn count(make: &str, show: &str, times: &str) {
    let make = make_of(make);
    let mut case = show_of(show).case;
    for _ in 0..times_of(times) {
        black_box(run(make, &mut case));
    }
}

pub fn count_each(make: &str, show: &str, times: &str) {
    let make = make_of(make);
    let mut roles = show_of(show).roles;
    for _ in 0..times_of(times) {
        run_each(make, &mut roles);
    }
}
