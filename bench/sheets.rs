// Measures `month_sheet`, beside the single verdict on each role, and `add_sheets`.

use crate::calls::{Call, Case, Make, Sheet, MAKES};
use crate::inputs::{
    by_chance, cyclic, doubling, input_of, inputs, largest_table, named, ordinary, unreached, v_of, Input, ALLOWED, FORBIDDEN, ONE,
    TWO, UNSET,
};
use crate::plain::sheet_of;
use crate::rounds::rounds;
use crate::stack::stack_of;
use crate::{compare, fail, fast, make_of, row, times_of};
use second::sheet_case::SheetCase;
use second::sum_case::SumCase;
use std::hint::black_box;
use std::time::Duration;

pub const MONTH: &str = "month_sheet";
pub const ADD: &str = "add_sheets";

/// The single verdict on each role of a month in turn.
pub const EACH: &str = "judge_each";

// ---------------------------------------------------------------- months

/// A month of roles of one table.
struct Month {
    input: String,
    case: SheetCase,
}

impl Month {
    /// So many roles, which have the marks of an input's cases in turn.
    fn of(input: &Input, roles: u32) -> Month {
        let words = input.cases[0].words.clone();
        let marks = input.cases.iter().cycle().take(roles as usize).flat_map(|case| case.marks.clone()).collect();
        let counts = vec![u32::MAX; 3 * v_of(&words)];
        Month { input: input.name.clone(), case: SheetCase { words, roles, marks, counts } }
    }

    fn roles(&self) -> u32 {
        self.case.roles
    }

    fn name(&self) -> String {
        format!("{}/{}", self.input, self.roles())
    }
}

/// Eight policies of a table, a third of the marks each unset, allowed and forbidden by chance: broken in many places.
fn broken(name: &str, words: Vec<u16>) -> Input {
    let marks = |seed| by_chance(v_of(&words), &[UNSET, ALLOWED, FORBIDDEN], seed);
    let case = |seed| Case { words: words.clone(), marks: marks(seed), out: Vec::new(), proposed: Vec::new() };
    Input { name: named(name, words[0]), cases: (1..=8).map(case).collect() }
}

/// The inputs whose marks roles can have: the verdict's, and broken ones.
fn inputs_of_roles() -> Vec<Input> {
    let mut all = inputs(Call::JudgePolicy);
    for format in [ONE, TWO] {
        all.extend([broken("ordinary-broken", ordinary(format)), broken("largest-broken", largest_table(format))]);
    }
    all
}

/// How many roles a month of each of these inputs has, in both formats.
const ROLES: [(&str, &[u32]); 6] = [
    ("sample", &[1, 40, 10_000]),
    ("ordinary", &[1, 40, 10_000]),
    ("ordinary-broken", &[40]),
    ("largest", &[1, 40, 400]),
    ("scattered", &[40]),
    ("largest-broken", &[40]),
];

fn months() -> Vec<Month> {
    let inputs = inputs_of_roles();
    let mut all = Vec::new();
    for format in [ONE, TWO] {
        for (name, roles) in ROLES {
            let input = input_of(&inputs, &named(name, format));
            all.extend(roles.iter().map(|&roles| Month::of(input, roles)));
        }
    }
    all
}

/// A month by its name.
fn month_of(name: &str) -> Month {
    let (input, roles) = name.split_once('/').unwrap_or_else(|| fail("a month is INPUT/ROLES"));
    let inputs: Vec<Input> = inputs_of_roles().into_iter().chain(doubling(Call::JudgePolicy)).collect();
    Month::of(input_of(&inputs, input), times_of(roles) as u32)
}

/// A role of each table that doubles.
fn growing() -> Vec<Month> {
    doubling(Call::JudgePolicy).iter().map(|input| Month::of(input, 1)).collect()
}

fn run(make: &Make, case: &mut SheetCase) -> Sheet {
    let SheetCase { words, roles, marks, counts } = case;
    (make.month_sheet)(words, *roles, marks, counts)
}

fn run_each(make: &Make, case: &SheetCase) {
    for role in case.marks.chunks(v_of(&case.words)) {
        black_box((make.judge_policy)(&case.words, role));
    }
}

// ---------------------------------------------------------------- sums

/// Two sheets over one table, with their counts.
#[derive(Clone)]
struct Sheets {
    words: Vec<u16>,
    sheet: Sheet,
    counts: Vec<u32>,
    more: Sheet,
    more_counts: Vec<u32>,
}

impl Sheets {
    fn of(case: &SumCase) -> Sheets {
        let SumCase { words, sheet, counts, more, more_counts } = case.clone();
        Sheets { words, sheet: sheet_of(sheet), counts, more: sheet_of(more), more_counts }
    }
}

/// Sheets that are added. The other one is that of no role: a sum leaves the counts as they were, and can be made again and again.
struct Sum {
    name: String,
    case: Sheets,
}

impl Sum {
    fn of(name: String, words: &[u16], sheet: Sheet, counts: Vec<u32>) -> Sum {
        let more_counts = vec![0; counts.len()];
        Sum { name, case: Sheets { words: words.to_vec(), sheet, counts, more: Sheet::default(), more_counts } }
    }

    /// The sheet of a month, which is counted before.
    fn of_month(month: Month) -> Sum {
        let SheetCase { words, roles, marks, mut counts } = month.case;
        let sheet = fast::month_sheet(&words, roles, &marks, &mut counts);
        Sum::of(month.input, &words, sheet, counts)
    }

    /// Each privilege of a largest table is allowed in one role more than that before it, so that each leads in turn.
    fn rising(format: u16) -> Sum {
        let words = largest_table(format);
        let v = v_of(&words) as u32;
        let counts = (0..v).flat_map(|p| [p, 0, v - p]).collect();
        Sum::of(named("largest-rising", format), &words, Sheet { clean: v, ..Sheet::default() }, counts)
    }
}

/// The sheets of forty roles of some inputs, and one in which each privilege leads in turn, in both formats.
fn sums() -> Vec<Sum> {
    let inputs = inputs(Call::JudgePolicy);
    let mut all = Vec::new();
    for format in [ONE, TWO] {
        let of_forty = |name| Sum::of_month(Month::of(input_of(&inputs, &named(name, format)), 40));
        all.extend(["sample", "ordinary", "largest"].map(of_forty));
        all.push(Sum::rising(format));
    }
    all
}

fn growing_sums() -> Vec<Sum> {
    growing().into_iter().map(Sum::of_month).collect()
}

fn add(make: &Make, case: &mut Sheets) -> Sheet {
    let Sheets { words, sheet, counts, more, more_counts } = case;
    (make.add_sheets)(words, *sheet, counts, *more, more_counts)
}

// ---------------------------------------------------------------- equal answers

fn compare_month(case: &SheetCase, at: &str) {
    let told = |make: &Make| {
        let mut lent = case.clone();
        (run(make, &mut lent), lent.counts)
    };
    compare(&MAKES[..2], told, MONTH, at);
}

fn compare_sum(case: &Sheets, at: &str) {
    let told = |make: &Make| {
        let mut lent = case.clone();
        (add(make, &mut lent), lent.counts)
    };
    compare(&MAKES[..2], told, ADD, at);
}

/// All makes tell the same on cases and on what is measured, of which there are so many months and sums: the whole sheet, and all counts as they
/// are left.
pub fn check(cases: &[SheetCase], sum_cases: &[SumCase]) -> (usize, usize) {
    for (k, case) in cases.iter().enumerate() {
        compare_month(case, &format!("case {} of months", k));
    }
    for (k, case) in sum_cases.iter().enumerate() {
        compare_sum(&Sheets::of(case), &format!("case {} of sums", k));
    }
    let months: Vec<Month> = months().into_iter().chain(growing()).collect();
    months.iter().for_each(|month| compare_month(&month.case, &month.name()));
    let sums: Vec<Sum> = sums().into_iter().chain(growing_sums()).collect();
    sums.iter().for_each(|sum| compare_sum(&sum.case, &sum.name));
    (months.len(), sums.len())
}

// ---------------------------------------------------------------- time

/// Nanoseconds a call of some makes, the least and the median of the rounds.
fn measure<C: Clone>(makes: &[Make], call: fn(&Make, &mut C) -> Sheet, case: &C, budget: Duration) -> Vec<(f64, f64)> {
    let mut case = case.clone();
    let turn = |m: usize| {
        black_box(call(&makes[m], &mut case));
    };
    rounds(makes.len(), turn, budget)
}

fn time_row<C: Clone>(name: &str, input: &str, call: fn(&Make, &mut C) -> Sheet, case: &C) {
    let ours = measure(&MAKES[..2], call, case, Duration::from_millis(600));
    let second = measure(&MAKES[2..], call, case, Duration::from_millis(100));
    println!("{}", row(name, input, [ours[0], ours[1], second[0]]));
}

/// A row for each month, a call being one on all roles, and for each sum.
pub fn time() {
    months().iter().for_each(|month| time_row(MONTH, &month.name(), run, &month.case));
    sums().iter().for_each(|sum| time_row(ADD, &sum.name, add, &sum.case));
}

/// The cells of both calls in the table of growth.
pub fn growth(size: usize) -> String {
    let budget = Duration::from_millis(100);
    let month = measure(&MAKES[..2], run, &growing()[size].case, budget);
    let sum = measure(&MAKES[..2], add, &growing_sums()[size].case, budget);
    [month, sum].map(|found| format!(" {:.0}, {:.0} |", found[0].0, found[1].0)).concat()
}

/// Nanoseconds, the least of the rounds: of a role among a month's, proved and fast, and of a single verdict on each, proved.
fn measure_role(month: &Month) -> [f64; 3] {
    let mut case = month.case.clone();
    let turn = |m: usize| match m {
        2 => run_each(&MAKES[0], &month.case),
        _ => {
            black_box(run(&MAKES[m], &mut case));
        }
    };
    let found = rounds(3, turn, Duration::from_millis(600));
    [0, 1, 2].map(|m| found[m].0 / month.roles() as f64)
}

pub fn time_roles() {
    println!("ns, least of the rounds: a role among a month's, and a single verdict on each\n");
    println!("| Input | roles | proved a role | fast a role | verdict | a role / a verdict |");
    println!("|---|---|---|---|---|---|");
    for month in months() {
        let [proved, fast, verdict] = measure_role(&month);
        let cells = format!("{:.0} | {:.0} | {:.0} | {:.2}", proved, fast, verdict, proved / verdict);
        println!("| {} | {} | {} |", month.input, month.roles(), cells);
    }
}

// ---------------------------------------------------------------- stack and instructions

fn no_month(_: &[u16], _: u32, _: &[u8], _: &mut [u32]) -> Sheet {
    Sheet::default()
}

fn no_sum(_: &[u16], _: Sheet, _: &mut [u32], _: Sheet, _: &[u32]) -> Sheet {
    Sheet::default()
}

/// Tables that are searched before they are refused.
fn refused() -> Vec<Month> {
    let input = |words: Vec<u16>| broken("refused", words);
    [cyclic(), unreached()].map(|words| Month::of(&input(words), 1)).into()
}

/// The bytes of stack, the most of all months, and of tables that are refused.
pub fn most_stack(make: &Make) -> String {
    let empty = Make { name: "", month_sheet: no_month, ..*make };
    let on = |make| move |case: &mut SheetCase| run(make, case);
    let stacks = months().into_iter().chain(refused()).map(|month| stack_of(on(make), on(&empty), &month.case));
    stacks.max().unwrap_or(0).to_string()
}

/// The same of all sums.
pub fn most_stack_of_sums(make: &Make) -> String {
    let empty = Make { name: "", add_sheets: no_sum, ..*make };
    let on = |make| move |case: &mut Sheets| add(make, case);
    let refused = refused().into_iter().map(Sum::of_month);
    let stacks = sums().into_iter().chain(refused).map(|sum| stack_of(on(make), on(&empty), &sum.case));
    stacks.max().unwrap_or(0).to_string()
}

pub fn list() {
    sums().iter().for_each(|sum| println!("{} {} 1", ADD, sum.name));
}

pub fn list_months() {
    months().iter().for_each(|month| println!("{} {}", month.input, month.roles()));
}

pub fn count(make: &str, month: &str, times: &str) {
    let make = make_of(make);
    let mut case = month_of(month).case;
    for _ in 0..times_of(times) {
        black_box(run(make, &mut case));
    }
}

pub fn count_each(make: &str, month: &str, times: &str) {
    let make = make_of(make);
    let case = month_of(month).case;
    for _ in 0..times_of(times) {
        run_each(make, &case);
    }
}

pub fn count_sums(make: &str, sum: &str, times: &str) {
    let make = make_of(make);
    let mut all = sums().into_iter().chain(growing_sums());
    let mut case = all.find(|it| it.name == sum).unwrap_or_else(|| fail("no such sum")).case;
    for _ in 0..times_of(times) {
        black_box(add(make, &mut case));
    }
}
