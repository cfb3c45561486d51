// Cases as a stream, and what the calls answer to them: a case is its kind, one byte, and then the runs of that kind.

use crate::calls::{Call, Told};
use crate::carry_case::{self, CarryCase};
use crate::dtd_case::{self, DtdCase};
use crate::edit_case::{self, EditCase};
use crate::fail;
use crate::format::Format;
use crate::listing_case::{self, ListingCase};
use crate::maps_case::{self, MapsCase};
use crate::policy_case::{self, PolicyCase};
use crate::roles_case::{self, RolesCase};
use crate::sheet_case::{self, SheetCase};
use crate::stream::take;
use crate::sum_case::{self, SumCase};

pub enum Case {
    Policy(PolicyCase),
    Dtd(DtdCase),
    Roles(RolesCase),
    Maps(MapsCase),
    Carry(CarryCase),
    Sheet(SheetCase),
    Sum(SumCase),
    Write(ListingCase),
    Read(ListingCase),
    Edit(EditCase),
}

impl Case {
    fn read(stream: &mut &[u8]) -> Case {
        match take(stream, 1)[0] {
            policy_case::KIND => Case::Policy(PolicyCase::read(stream)),
            dtd_case::KIND => Case::Dtd(DtdCase::read(stream)),
            roles_case::KIND => Case::Roles(RolesCase::read(stream)),
            maps_case::KIND => Case::Maps(MapsCase::read(stream)),
            carry_case::KIND => Case::Carry(CarryCase::read(stream)),
            sheet_case::KIND => Case::Sheet(SheetCase::read(stream)),
            sum_case::KIND => Case::Sum(SumCase::read(stream)),
            listing_case::WRITE => Case::Write(ListingCase::read(stream)),
            listing_case::READ => Case::Read(ListingCase::read(stream)),
            edit_case::KIND => Case::Edit(EditCase::read(stream)),
            kind => fail(&format!("there is no kind {}", kind)),
        }
    }

    pub fn write(&self, stream: &mut Vec<u8>) {
        match self {
            Case::Policy(case) => {
                stream.push(policy_case::KIND);
                case.write(stream);
            }
            Case::Dtd(case) => {
                stream.push(dtd_case::KIND);
                case.write(stream);
            }
            Case::Roles(case) => {
                stream.push(roles_case::KIND);
                case.write(stream);
            }
            Case::Maps(case) => {
                stream.push(maps_case::KIND);
                case.write(stream);
            }
            Case::Carry(case) => {
                stream.push(carry_case::KIND);
                case.write(stream);
            }
            Case::Sheet(case) => {
                stream.push(sheet_case::KIND);
                case.write(stream);
            }
            Case::Sum(case) => {
                stream.push(sum_case::KIND);
                case.write(stream);
            }
            Case::Write(case) => {
                stream.push(listing_case::WRITE);
                case.write(stream);
            }
            Case::Read(case) => {
                stream.push(listing_case::READ);
                case.write(stream);
            }
            Case::Edit(case) => {
                stream.push(edit_case::KIND);
                case.write(stream);
            }
        }
    }

    /// Whether it has a table, of two the old one, whose word 0 is that of this format.
    pub fn has(&self, format: Format) -> bool {
        match self {
            Case::Policy(case) => case.has(format),
            Case::Dtd(_) | Case::Write(_) | Case::Read(_) => false,
            Case::Roles(case) => case.has(format),
            Case::Maps(case) => case.has(format),
            Case::Carry(case) => case.has(format),
            Case::Sheet(case) => case.has(format),
            Case::Sum(case) => case.has(format),
            Case::Edit(case) => case.has(format),
        }
    }

    /// The case as a file for the program judge, where it is a policy.
    pub fn file(&self) -> Option<Vec<u8>> {
        match self {
            Case::Policy(case) => Some(case.file()),
            _ => None,
        }
    }

    /// The name of each call on such a case, and what it tells; of edits, one after another.
    pub fn tell(&self) -> Vec<(&'static str, Told)> {
        match self {
            Case::Policy(case) => tell(&policy_case::CALLS, case),
            Case::Dtd(case) => tell(&dtd_case::CALLS, case),
            Case::Roles(case) => tell(&roles_case::CALLS, case),
            Case::Maps(case) => tell(&maps_case::CALLS, case),
            Case::Carry(case) => tell(&carry_case::CALLS, case),
            Case::Sheet(case) => tell(&sheet_case::CALLS, case),
            Case::Sum(case) => tell(&sum_case::CALLS, case),
            Case::Write(case) => tell(&listing_case::WRITING, case),
            Case::Read(case) => tell(&listing_case::READING, case),
            Case::Edit(case) => {
                case.steps().into_iter().map(|(_, told)| (edit_case::CALLS[0].name, told)).collect()
            }
        }
    }
}

fn tell<C>(calls: &[Call<C>], case: &C) -> Vec<(&'static str, Told)> {
    calls.iter().map(|call| (call.name, (call.make)(case))).collect()
}

pub fn read_cases(mut stream: &[u8]) -> Vec<Case> {
    let mut cases = Vec::new();
    while !stream.is_empty() {
        cases.push(Case::read(&mut stream));
    }
    cases
}

pub fn write_cases(cases: impl Iterator<Item = Case>) -> Vec<u8> {
    let mut stream = Vec::new();
    cases.for_each(|case| case.write(&mut stream));
    stream
}

fn lines(number: usize, case: &Case) -> String {
    case.tell().iter().map(|(name, told)| format!("{} {} {}\n", number, name, told.text())).collect()
}

pub fn answers(stream: &[u8]) -> String {
    read_cases(stream).iter().enumerate().map(|(number, case)| lines(number, case)).collect()
}
