// Holds the exported library to the second program on fresh cases: each call, all of its answer, and every lent run afterwards.
// second/soak builds it and runs it with SEED, COUNT, DTDS, SECOND_FORMAT, ROLES, MAPS, CARRY, SHEETS, SUMS, WRITES, READS, EDITS and the folder
// where a case that differs is kept.

#[path = "../bindings/rust/src/border.rs"]
mod border;

use second::answers::{Answer, Breach, Outcome};
use second::calls::{Call, Told};
use second::carry_case::{self, CarryCase};
use second::cases::{write_cases, Case};
use second::chain::Chain;
use second::counting::Counts;
use second::dtd_case::{self, DtdCase};
use second::edit_case::{self, Step};
use second::listing_case::{self, ListingCase};
use second::making;
use second::maps_case::{self, MapsCase};
use second::policy_case::{self, PolicyCase};
use second::roles_case::{self, RolesCase};
use second::sheet::{Sheet, SheetOutcome};
use second::sheet_case::{self, SheetCase};
use second::sum_case::{self, SumCase};
use std::hint::black_box;

fn outcome_of(told: border::Outcome) -> Outcome {
    let border::Outcome { number, place, count, condition, element, i, j, privilege, forbidden, .. } = told;
    let chain = Chain { length: told.chain_length, places: told.chain };
    let breach = Breach { condition, of: element, i, j, privilege, forbidden, chain };
    let answer = Answer { number, place, count, breach };
    if number == 0 {
        Ok(answer)
    } else {
        Err(answer)
    }
}

fn sheet_outcome_of(told: border::Sheet) -> SheetOutcome {
    let border::Sheet { number, place, clean, insert_delete, chain, cycle, refused, leader_count, leaders } = told;
    let figures = [clean, insert_delete, chain, cycle, refused];
    let sheet = Sheet { number, place, figures, leader_count, leaders };
    if number == 0 {
        Ok(sheet)
    } else {
        Err(sheet)
    }
}

/// A sheet as it is given to the library.
fn given(sheet: Sheet) -> border::Sheet {
    let Sheet { number, place, figures, leader_count, leaders } = sheet;
    let [clean, insert_delete, chain, cycle, refused] = figures;
    border::Sheet { number, place, clean, insert_delete, chain, cycle, refused, leader_count, leaders }
}

/// The library's calls on cases of kind 0, in the order of the second program's.
const POLICY: [fn(&PolicyCase) -> Told; policy_case::CALLS.len()] = [
    |case| Told::reading(outcome_of(border::check_table(&case.words))),
    |case| Told::reading(outcome_of(border::judge_policy(&case.words, &case.marks))),
    |case| case.writing(|words, marks, out| outcome_of(border::complete(words, marks, out))),
    |case| case.writing(|words, marks, out| outcome_of(border::mend(words, marks, out))),
    |case| Told::reading(outcome_of(border::judge_mend(&case.words, &case.marks, &case.proposed))),
];

/// The same on cases of kind 1.
const DTD: [fn(&DtdCase) -> Told; dtd_case::CALLS.len()] =
    [|case| case.writing(|text, out| outcome_of(border::read_dtd(text, out)))];

/// The same on cases of kind 2.
const ROLES: [fn(&RolesCase) -> Told; roles_case::CALLS.len()] = [|case| {
    case.writing(|words, marks, numbers, out| outcome_of(border::complete_roles(words, marks, numbers, out)))
}];

/// The same on cases of kind 3.
const MAPS: [fn(&MapsCase) -> Told; maps_case::CALLS.len()] = [
    |case| case.judging(|words, allowed, forbidden| outcome_of(border::judge_maps(words, allowed, forbidden))),
    |case| {
        case.writing(|words, allowed, forbidden, out_allowed, out_forbidden| {
            outcome_of(border::complete_maps(words, allowed, forbidden, out_allowed, out_forbidden))
        })
    },
    |case| {
        case.writing(|words, allowed, forbidden, out_allowed, out_forbidden| {
            outcome_of(border::mend_maps(words, allowed, forbidden, out_allowed, out_forbidden))
        })
    },
    |case| {
        case.proposing(|words, allowed, forbidden, proposed_allowed, proposed_forbidden| {
            outcome_of(border::judge_mend_maps(words, allowed, forbidden, proposed_allowed, proposed_forbidden))
        })
    },
];

/// The same on cases of kind 4.
const CARRY: [fn(&CarryCase) -> Told; carry_case::CALLS.len()] = [|case| {
    case.writing(|old_words, old_marks, new_words, new_numbers, out, lost| {
        outcome_of(border::carry_marks(old_words, old_marks, new_words, new_numbers, out, lost))
    })
}];

/// The same on cases of kind 5.
const SHEETS: [fn(&SheetCase) -> Told; sheet_case::CALLS.len()] = [|case| {
    case.writing(|words, roles, marks, counts| {
        sheet_outcome_of(border::month_sheet(words, roles, marks, counts))
    })
}];

/// The same on cases of kind 6.
const SUMS: [fn(&SumCase) -> Told; sum_case::CALLS.len()] = [|case| {
    case.writing(|words, sheet, counts, more, more_counts| {
        sheet_outcome_of(border::add_sheets(words, given(sheet), counts, given(more), more_counts))
    })
}];

/// The same on cases of kind 7.
const WRITES: [fn(&ListingCase) -> Told; listing_case::WRITING.len()] = [|case| {
    case.writing(|text, format, marks, out| outcome_of(border::write_listing(text, format, marks, out)))
}];

/// The same on cases of kind 8.
const READS: [fn(&ListingCase) -> Told; listing_case::READING.len()] = [|case| {
    case.writing(|text, format, listing, out| outcome_of(border::read_listing(text, format, listing, out)))
}];

/// The same on each edit of a case of kind 9.
const EDITS: [fn(&Step) -> Told; edit_case::CALLS.len()] = [|step| {
    step.writing(|words, marks, kept, privilege, mark| {
        outcome_of(border::edit_mark(words, marks, kept, privilege, mark))
    })
}];

/// Makes each call on a case by both and counts the answers, up to the first difference.
fn compare<C: Clone + PartialEq>(
    calls: &[Call<C>],
    of_library: &[fn(&C) -> Told],
    case: &C,
    counts: &mut Counts,
) -> Result<(), String> {
    for (call, make) in calls.iter().zip(of_library) {
        let mut lent = case.clone();
        let (second, library) = ((call.make)(case), make(&lent));
        if library != second {
            return Err(format!("{}\nlibrary {}\nsecond  {}", call.name, library.text(), second.text()));
        }
        if *black_box(&mut lent) != *case {
            return Err(format!("{}: the library changed a run that it only reads", call.name));
        }
        counts.add(call.name, &second);
    }
    Ok(())
}

fn compare_case(case: &Case, counts: &mut Counts) -> Result<(), String> {
    match case {
        Case::Policy(case) => compare(&policy_case::CALLS, &POLICY, case, counts),
        Case::Dtd(case) => compare(&dtd_case::CALLS, &DTD, case, counts),
        Case::Roles(case) => compare(&roles_case::CALLS, &ROLES, case, counts),
        Case::Maps(case) => compare(&maps_case::CALLS, &MAPS, case, counts),
        Case::Carry(case) => compare(&carry_case::CALLS, &CARRY, case, counts),
        Case::Sheet(case) => compare(&sheet_case::CALLS, &SHEETS, case, counts),
        Case::Sum(case) => compare(&sum_case::CALLS, &SUMS, case, counts),
        Case::Write(case) => compare(&listing_case::WRITING, &WRITES, case, counts),
        Case::Read(case) => compare(&listing_case::READING, &READS, case, counts),
        Case::Edit(case) => {
            case.steps().iter().try_for_each(|(step, _)| compare(&edit_case::CALLS, &EDITS, step, counts))
        }
    }
}

fn fail(what: &str) -> ! {
    println!("{}", what);
    std::process::exit(1)
}

fn number(text: &str) -> u64 {
    text.parse().unwrap_or_else(|_| fail("all but the folder are numbers"))
}

/// Keeps a case as a stream, and says where.
fn keep(case: Case, path: &str) -> String {
    match std::fs::write(path, write_cases([case].into_iter())) {
        Ok(()) => format!("kept as {}", path),
        Err(_) => format!("which cannot be kept as {}", path),
    }
}

fn soak(seed: u64, sizes: [usize; 11], folder: &str) {
    let mut counts = Counts::new();
    for (k, case) in making::cases(seed, sizes).enumerate() {
        if let Err(difference) = compare_case(&case, &mut counts) {
            let kept = keep(case, &format!("{}/differs.{}.{}", folder, seed, k));
            let alike = counts.total();
            fail(&format!("{alike} calls alike, then a difference: case {k} of seed {seed}, {kept}\n{difference}"));
        }
    }
    let (cases, calls) = (sizes.iter().sum::<usize>(), counts.total());
    print!("{} cases of seed {}, {} calls, no difference\n{}", cases, seed, calls, counts.text());
}

fn main() {
    let arguments: Vec<String> = std::env::args().skip(1).collect();
    let arguments: Vec<&str> = arguments.iter().map(String::as_str).collect();
    match arguments[..] {
        [seed, count, dtds, second_format, roles, maps, carry, sheets, sums, writes, reads, edits, folder] => {
            let sizes = [count, dtds, second_format, roles, maps, carry, sheets, sums, writes, reads, edits];
            soak(number(seed), sizes.map(|text| number(text) as usize), folder)
        }
        _ => fail("soak SEED COUNT DTDS SECOND_FORMAT ROLES MAPS CARRY SHEETS SUMS WRITES READS EDITS FOLDER"),
    }
}
