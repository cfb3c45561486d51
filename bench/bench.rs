// Measures the seventeen calls of the proved library, all but `read_dtd` against the second program and `fast`. bench/run builds and runs it; modes:
//   check               reads a stream of cases (second/README.md) and compares all makes
//   time                nanoseconds a call
//   growth              the same for tables that double
//   stack               bytes of stack
//   roles               nanoseconds a role of complete_roles, and a single call on each role
//   maps                nanoseconds a call over bit maps, and on the marks that they spell
//   sheets              nanoseconds a role of month_sheet, and a single verdict on each role
//   edits               nanoseconds a click of edit_mark, and a single verdict after each click
//   listings            nanoseconds a call of write_listing, of read_listing, and of read_dtd on the same text
//   lines               nanoseconds a line of listings that double
//   texts               nanoseconds a call of read_dtd, a line for each text
//   lengths             nanoseconds a byte of texts that double
//   documents FOLDER    writes a document for each text, for another parser
//   list                what is measured: CALL INPUT and the number of its cases
//   shows               what is measured of complete_roles: an input of complete, and the number of roles
//   months              what is measured of month_sheet: the input whose marks the roles have, and the number of roles
//   clicks              what is measured of edit_mark: an input, and the number of its clicks
//   tables              the inputs of `growth`
//   lists               the inputs of `lines`, each with the number of its lines
//   count MAKE CALL INPUT TIMES   makes a call on an input so many times, to be counted from outside; of complete_roles and month_sheet an input is
//                       INPUT/ROLES, and CALL may be complete_each or judge_each, the single call on each of the roles; of edit_mark it is
//                       INPUT/CLICKS, and CALL may be judge_after, the verdict after each click

mod calls;
mod carry;
mod dtd;
mod edit;
mod edits;
mod fast;
mod inputs;
mod listed;
mod listings;
mod maps;
mod plain;
#[path = "../bindings/rust/src/border.rs"]
mod proved;
mod revisions;
mod roles;
mod rounds;
mod sheets;
mod stack;
mod texts;

use calls::{run, Call, Case, Make, Outcome, CALLS, MAKES};
use inputs::{doubling, inputs, Input};
use rounds::rounds;
use stack::stack_of;
use std::fmt::Debug;
use std::io::Read;
use std::time::Duration;

fn fail(what: &str) -> ! {
    eprintln!("bench: {}", what);
    std::process::exit(1)
}

// ---------------------------------------------------------------- equal answers

/// The makes tell the same as the second program.
fn compare<T: Debug + PartialEq>(makes: &[Make], told: impl Fn(&Make) -> T, call: &str, at: &str) {
    let second = told(&MAKES[2]);
    for make in makes {
        let other = told(make);
        if other != second {
            eprintln!("second {:?}\n{} {:?}", second, make.name, other);
            fail(&format!("{} of {} differs at {}", call, make.name, at));
        }
    }
}

/// All makes give the same outcome and leave the same result.
fn compare_on(case: &Case, call: Call, at: &str) {
    let told = |make: &Make| {
        let mut lent = case.clone();
        (run(make, call, &mut lent), lent.out)
    };
    compare(&MAKES[..2], told, call.name(), at);
}

fn check() {
    let mut stream = Vec::new();
    std::io::stdin().read_to_end(&mut stream).unwrap_or_else(|_| fail("cannot read the input"));
    let plain::Cases { policies, texts, shows, maps, moves, months, sums, edits, writes, reads } = plain::cases_of(&stream);
    for (k, case) in policies.iter().enumerate() {
        CALLS.iter().for_each(|&call| compare_on(case, call, &format!("case {}", k)));
    }
    let mut own = 0;
    for call in CALLS {
        for input in inputs(call).iter().chain(&doubling(call)) {
            input.cases.iter().for_each(|case| compare_on(case, call, &input.name));
            own += input.cases.len();
        }
    }
    println!("equal: {} policies with five calls each, and {} measured calls", policies.len(), own);
    let own = maps::check(&maps);
    println!("equal: {} policies as bit maps with four calls each, and {} measured calls", maps.len(), own);
    println!("equal: {} moves to a revised schema, and {} measured ones", moves.len(), carry::check(&moves));
    println!("equal: {} shows of several roles, and {} measured ones", shows.len(), roles::check(&shows));
    println!("equal: {} DTD texts, and {} measured ones", texts.len(), dtd::check(&texts));
    let (own_months, own_sums) = sheets::check(&months, &sums);
    println!("equal: {} months of roles, and {} measured ones", months.len(), own_months);
    println!("equal: {} sums of sheets, and {} measured ones", sums.len(), own_sums);
    let (clicks, own) = edit::check(&edits);
    println!("equal: {} cases of {} edits, and {} measured clicks", edits.len(), clicks, own);
    let own = listings::check(&writes, &reads);
    println!("equal: {} listings written, {} read, and {} measured calls", writes.len(), reads.len(), own);
}

// ---------------------------------------------------------------- time

fn run_all(make: &Make, call: Call, cases: &mut [Case]) {
    for case in cases {
        std::hint::black_box(run(make, call, case));
    }
}

/// The least and the median of the rounds, for each make, in nanoseconds a call.
fn measure(makes: &[Make], call: Call, input: &Input, budget: Duration) -> Vec<(f64, f64)> {
    let mut cases = input.cases.clone();
    let each = cases.len() as f64;
    let found = rounds(makes.len(), |m| run_all(&makes[m], call, &mut cases), budget);
    found.into_iter().map(|(least, median)| (least / each, median / each)).collect()
}

/// The least and the median of the rounds of proved, fast and second, and two quotients of them.
fn row(call: &str, input: &str, makes: [(f64, f64); 3]) -> String {
    let [proved, fast, second] = makes.map(|(least, _)| least);
    let cells = makes.map(|(least, median)| format!("{:.0} ({:.0})", least, median)).join(" | ");
    format!("| {} | {} | {} | {:.2} | {:.1} |", call, input, cells, proved / fast, second / proved)
}

fn time() {
    println!("ns a call, least of the rounds (median of the rounds)\n");
    println!("| Call | Input | proved | fast | second | proved / fast | second / proved |");
    println!("|---|---|---|---|---|---|---|");
    for call in CALLS {
        for input in inputs(call) {
            let ours = measure(&MAKES[..2], call, &input, Duration::from_millis(600));
            let second = measure(&MAKES[2..], call, &input, Duration::from_millis(100))[0];
            println!("{}", row(call.name(), &input.name, [ours[0], ours[1], second]));
        }
    }
    roles::time();
    maps::time();
    carry::time();
    sheets::time();
    edit::time();
    listings::time();
}

fn growth() {
    println!("ns a call, proved and fast, least of the rounds\n");
    let others = [carry::NAME, sheets::MONTH, sheets::ADD, edit::NAME];
    let names = CALLS.map(Call::name).into_iter().chain(maps::CALLS.map(maps::name)).chain(others);
    let names: Vec<&str> = names.collect();
    println!("| Table | {} |", names.join(" | "));
    println!("|---|{}", "---|".repeat(names.len()));
    for size in 0..doubling(Call::Mend).len() {
        let mut line = String::new();
        for call in CALLS {
            let input = &doubling(call)[size];
            let found = measure(&MAKES[..2], call, input, Duration::from_millis(100));
            line += &format!(" {:.0}, {:.0} |", found[0].0, found[1].0);
        }
        maps::CALLS.iter().for_each(|&call| line += &maps::growth(call, size));
        line += &carry::growth(size);
        line += &sheets::growth(size);
        line += &edit::growth(size);
        println!("| {} |{}", doubling(Call::Mend)[size].name, line);
    }
}

// ---------------------------------------------------------------- stack and instructions

fn nothing(_: &[u16]) -> Outcome {
    Outcome::default()
}

fn most_stack(make: &Make, call: Call) -> usize {
    let empty = Make { name: "", check_table: nothing, ..*make };
    let on = |make, call| move |case: &mut Case| run(make, call, case);
    let cases = |input: Input| input.cases;
    inputs(call)
        .into_iter()
        .flat_map(cases)
        .map(|case| stack_of(on(make, call), on(&empty, Call::CheckTable), &case))
        .max()
        .unwrap_or(0)
}

fn stacks() {
    println!("bytes of stack, the most of all inputs\n");
    println!("| Call | proved | fast | second |");
    println!("|---|---|---|---|");
    for call in CALLS {
        let found: Vec<String> =
            MAKES.iter().map(|make| most_stack(make, call).to_string()).collect();
        println!("| {} | {} |", call.name(), found.join(" | "));
    }
    println!("| {} | {} |", roles::NAME, MAKES.each_ref().map(roles::most_stack).join(" | "));
    for call in maps::CALLS {
        let found = MAKES.each_ref().map(|make| maps::most_stack(make, call));
        println!("| {} | {} |", maps::name(call), found.join(" | "));
    }
    println!("| {} | {} |", carry::NAME, MAKES.each_ref().map(carry::most_stack).join(" | "));
    println!("| {} | {} |", sheets::MONTH, MAKES.each_ref().map(sheets::most_stack).join(" | "));
    println!("| {} | {} |", sheets::ADD, MAKES.each_ref().map(sheets::most_stack_of_sums).join(" | "));
    println!("| {} | {} |", edit::NAME, MAKES.each_ref().map(edit::most_stack).join(" | "));
    for way in listings::WAYS {
        let found = MAKES.each_ref().map(|make| listings::most_stack(make, way));
        println!("| {} | {} |", way.name(), found.join(" | "));
    }
    println!("| {} | {} |", dtd::NAME, MAKES.each_ref().map(dtd::most_stack).join(" | "));
}

fn list() {
    for call in CALLS {
        for input in inputs(call) {
            println!("{} {} {}", call.name(), input.name, input.cases.len());
        }
    }
    maps::list();
    carry::list();
    sheets::list();
    listings::list();
    dtd::list();
}

fn tables() {
    doubling(Call::CheckTable).iter().for_each(|input| println!("{}", input.name));
}

// Never a part of `main`, so that its loop is compiled alike whatever modes there are.
#[inline(never)]
fn count(make: &str, call: &str, input: &str, times: &str) {
    let make = make_of(make);
    let call = CALLS.into_iter().find(|it| it.name() == call).unwrap_or_else(|| fail("no such call"));
    let mut all = inputs(call).into_iter().chain(doubling(call));
    let input = all.find(|it| it.name == input).unwrap_or_else(|| fail("no such input"));
    let mut cases = input.cases;
    for _ in 0..times_of(times) {
        run_all(make, call, &mut cases);
    }
}

fn make_of(name: &str) -> &'static Make {
    MAKES.iter().find(|it| it.name == name).unwrap_or_else(|| fail("no such make"))
}

fn times_of(text: &str) -> usize {
    text.parse().unwrap_or_else(|_| fail("TIMES and ROLES are numbers"))
}

fn main() {
    let arguments: Vec<String> = std::env::args().skip(1).collect();
    let arguments: Vec<&str> = arguments.iter().map(String::as_str).collect();
    match arguments[..] {
        ["check"] => check(),
        ["time"] => time(),
        ["growth"] => growth(),
        ["stack"] => stacks(),
        ["roles"] => roles::time_roles(),
        ["maps"] => maps::time_maps(),
        ["sheets"] => sheets::time_roles(),
        ["edits"] => edit::time_clicks(),
        ["listings"] => listings::time_listings(),
        ["lines"] => listings::growth(),
        ["texts"] => dtd::time(),
        ["lengths"] => dtd::growth(),
        ["documents", folder] => dtd::documents(folder),
        ["list"] => list(),
        ["shows"] => roles::list(),
        ["months"] => sheets::list_months(),
        ["clicks"] => edit::list(),
        ["tables"] => tables(),
        ["lists"] => listings::list_growing(),
        ["count", make, dtd::NAME, text, times] => dtd::count(make, text, times),
        ["count", make, carry::NAME, revision, times] => carry::count(make, revision, times),
        ["count", make, roles::NAME, show, times] => roles::count(make, show, times),
        ["count", make, roles::EACH, show, times] => roles::count_each(make, show, times),
        ["count", make, sheets::MONTH, month, times] => sheets::count(make, month, times),
        ["count", make, sheets::EACH, month, times] => sheets::count_each(make, month, times),
        ["count", make, sheets::ADD, sum, times] => sheets::count_sums(make, sum, times),
        ["count", make, edit::NAME, clicks, times] => edit::count(make, clicks, times),
        ["count", make, edit::AFTER, clicks, times] => edit::count_after(make, clicks, times),
        ["count", make, call, input, times] => match (maps::call_of(call), listings::way_of(call)) {
            (Some(call), _) => maps::count(make, call, input, times),
            (_, Some(way)) => listings::count(make, way, input, times),
            _ => count(make, call, input, times),
        },
        _ => fail(
            "modes: check | time | growth | stack | roles | maps | sheets | edits | listings | lines | texts | lengths | documents FOLDER | \
             list | shows | months | clicks | tables | lists | count MAKE CALL INPUT TIMES",
        ),
    }
}
