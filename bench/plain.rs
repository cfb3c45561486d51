// The calls of the second program in the form of `calls`.

use crate::calls::{Case, Outcome, Sheet};
use second::answers::{answer, Answer, Breach};
use second::carry_case::CarryCase;
use second::dtd_case::DtdCase;
use second::edit_case::EditCase;
use second::listing_case::ListingCase;
use second::maps_case::MapsCase;
use second::roles_case::RolesCase;
use second::sheet_case::SheetCase;
use second::sum_case::SumCase;
use second::{carrying, cases, completing, conditions, dtd, editing, listing, maps, mending, roles, sheet, table};

fn outcome_of(outcome: second::answers::Outcome) -> Outcome {
    let Answer { number, place, count, breach } = answer(outcome);
    let Breach { condition, of: element, i, j, privilege, forbidden, chain } = breach;
    let told = Outcome { chain_length: chain.length, chain: chain.places, ..Outcome::default() };
    Outcome { number, place, count, condition, element, i, j, privilege, forbidden, ..told }
}

pub fn check_table(words: &[u16]) -> Outcome {
    outcome_of(table::check(words))
}

pub fn judge_policy(words: &[u16], marks: &[u8]) -> Outcome {
    outcome_of(conditions::verdict(words, marks))
}

pub fn complete(words: &[u16], marks: &[u8], out: &mut [u8]) -> Outcome {
    outcome_of(completing::complete(words, marks, out))
}

pub fn complete_roles(words: &[u16], marks: &[u8], numbers: &mut [u16], out: &mut [u8]) -> Outcome {
    outcome_of(roles::complete_roles(words, marks, numbers, out))
}

pub fn mend(words: &[u16], marks: &[u8], out: &mut [u8]) -> Outcome {
    outcome_of(mending::mend(words, marks, out))
}

pub fn judge_mend(words: &[u16], marks: &[u8], proposed: &[u8]) -> Outcome {
    outcome_of(mending::judge_mend(words, marks, proposed))
}

pub fn judge_maps(words: &[u16], allowed: &[u8], forbidden: &[u8]) -> Outcome {
    outcome_of(maps::judge_maps(words, allowed, forbidden))
}

pub fn complete_maps(
    words: &[u16],
    allowed: &[u8],
    forbidden: &[u8],
    out_allowed: &mut [u8],
    out_forbidden: &mut [u8],
) -> Outcome {
    outcome_of(maps::complete_maps(words, allowed, forbidden, out_allowed, out_forbidden))
}

pub fn mend_maps(
    words: &[u16],
    allowed: &[u8],
    forbidden: &[u8],
    out_allowed: &mut [u8],
    out_forbidden: &mut [u8],
) -> Outcome {
    outcome_of(maps::mend_maps(words, allowed, forbidden, out_allowed, out_forbidden))
}

pub fn judge_mend_maps(
    words: &[u16],
    allowed: &[u8],
    forbidden: &[u8],
    proposed_allowed: &[u8],
    proposed_forbidden: &[u8],
) -> Outcome {
    outcome_of(maps::judge_mend_maps(words, allowed, forbidden, proposed_allowed, proposed_forbidden))
}

pub fn carry_marks(
    old_words: &[u16],
    old_marks: &[u8],
    new_words: &[u16],
    new_numbers: &[u16],
    out: &mut [u8],
    lost: &mut [u8],
) -> Outcome {
    outcome_of(carrying::carry_marks(old_words, old_marks, new_words, new_numbers, out, lost))
}

/// A sheet of the second program.
pub fn sheet_of(sheet: sheet::Sheet) -> Sheet {
    let sheet::Sheet { number, place, figures, leader_count, leaders } = sheet;
    let [clean, insert_delete, chain, cycle, refused] = figures;
    Sheet { number, place, clean, insert_delete, chain, cycle, refused, leader_count, leaders }
}

/// A sheet for the second program.
fn lent(sheet: Sheet) -> sheet::Sheet {
    let Sheet { number, place, clean, insert_delete, chain, cycle, refused, leader_count, leaders } = sheet;
    let figures = [clean, insert_delete, chain, cycle, refused];
    sheet::Sheet { number, place, figures, leader_count, leaders }
}

pub fn month_sheet(words: &[u16], roles: u32, marks: &[u8], counts: &mut [u32]) -> Sheet {
    sheet_of(sheet::month_sheet(words, roles, marks, counts).unwrap_or_else(|refused| refused))
}

pub fn add_sheets(
    words: &[u16],
    sheet: Sheet,
    counts: &mut [u32],
    more: Sheet,
    more_counts: &[u32],
) -> Sheet {
    let told = sheet::add_sheets(words, lent(sheet), counts, lent(more), more_counts);
    sheet_of(told.unwrap_or_else(|refused| refused))
}

pub fn edit_mark(words: &[u16], marks: &mut [u8], kept: &mut [u16], privilege: usize, mark: u8) -> Outcome {
    outcome_of(editing::edit_mark(words, marks, kept, privilege, mark))
}

/// What is to be kept of a policy; nothing of one that is refused.
pub fn entries(words: &[u16], marks: &[u8]) -> Vec<u16> {
    let Ok(table) = conditions::check_policy(words, marks) else {
        return Vec::new();
    };
    (0..table.types.len()).flat_map(|t| editing::entry(&table, marks, t)).collect()
}

pub fn write_listing(text: &[u8], format: u16, marks: &[u8], out: &mut [u8]) -> Outcome {
    outcome_of(listing::write_listing(text, format, marks, out))
}

pub fn read_listing(text: &[u8], format: u16, listing: &[u8], out: &mut [u8]) -> Outcome {
    outcome_of(listing::read_listing(text, format, listing, out))
}

pub fn read_dtd(text: &[u8], out: &mut [u16]) -> Outcome {
    outcome_of(dtd::read_dtd(text, out))
}

/// The cases of a stream (second/README.md has its form) by their kind.
#[derive(Default)]
pub struct Cases {
    pub policies: Vec<Case>,
    pub texts: Vec<DtdCase>,
    pub shows: Vec<RolesCase>,
    pub maps: Vec<MapsCase>,
    pub moves: Vec<CarryCase>,
    pub months: Vec<SheetCase>,
    pub sums: Vec<SumCase>,
    pub edits: Vec<EditCase>,
    pub writes: Vec<ListingCase>,
    pub reads: Vec<ListingCase>,
}

pub fn cases_of(stream: &[u8]) -> Cases {
    let mut all = Cases::default();
    for case in cases::read_cases(stream) {
        match case {
            cases::Case::Policy(case) => all.policies.push(case),
            cases::Case::Dtd(case) => all.texts.push(case),
            cases::Case::Roles(case) => all.shows.push(case),
            cases::Case::Maps(case) => all.maps.push(case),
            cases::Case::Carry(case) => all.moves.push(case),
            cases::Case::Sheet(case) => all.months.push(case),
            cases::Case::Sum(case) => all.sums.push(case),
            cases::Case::Edit(case) => all.edits.push(case),
            cases::Case::Write(case) => all.writes.push(case),
            cases::Case::Read(case) => all.reads.push(case),
        }
    }
    all
}
