// The calls, of three makes: proved, fast and second. Five take a table and a policy, four of these also a policy as two bit maps, one a table and
// the policies of all roles, one a policy and a revised table, one a table and the policies of a month's roles, one a table and two sheets, and one a
// policy, what is kept of it and a mark; two take DTD text and a policy, or its listing; the last reads DTD text, and has no fast make.

use crate::{fast, plain, proved};

/// What a call answers; a table's answer has zeros behind its place.
pub use crate::proved::Outcome;

impl Outcome {
    pub fn refusal(number: usize, place: usize) -> Outcome {
        Outcome { number, place, ..Outcome::default() }
    }
}

/// What a call on sheets answers.
pub use crate::proved::Sheet;

pub type CompleteRoles = fn(&[u16], &[u8], &mut [u16], &mut [u8]) -> Outcome;
pub type JudgeMaps = fn(&[u16], &[u8], &[u8]) -> Outcome;
pub type WriteMaps = fn(&[u16], &[u8], &[u8], &mut [u8], &mut [u8]) -> Outcome;
pub type JudgeMendMaps = fn(&[u16], &[u8], &[u8], &[u8], &[u8]) -> Outcome;
pub type CarryMarks = fn(&[u16], &[u8], &[u16], &[u16], &mut [u8], &mut [u8]) -> Outcome;
pub type MonthSheet = fn(&[u16], u32, &[u8], &mut [u32]) -> Sheet;
pub type AddSheets = fn(&[u16], Sheet, &mut [u32], Sheet, &[u32]) -> Sheet;
pub type EditMark = fn(&[u16], &mut [u8], &mut [u16], usize, u8) -> Outcome;
pub type Listing = fn(&[u8], u16, &[u8], &mut [u8]) -> Outcome;
pub type ReadDtd = fn(&[u8], &mut [u16]) -> Outcome;

pub struct Make {
    pub name: &'static str,
    pub check_table: fn(&[u16]) -> Outcome,
    pub judge_policy: fn(&[u16], &[u8]) -> Outcome,
    pub complete: fn(&[u16], &[u8], &mut [u8]) -> Outcome,
    pub complete_roles: CompleteRoles,
    pub mend: fn(&[u16], &[u8], &mut [u8]) -> Outcome,
    pub judge_mend: fn(&[u16], &[u8], &[u8]) -> Outcome,
    pub judge_maps: JudgeMaps,
    pub complete_maps: WriteMaps,
    pub mend_maps: WriteMaps,
    pub judge_mend_maps: JudgeMendMaps,
    pub carry_marks: CarryMarks,
    pub month_sheet: MonthSheet,
    pub add_sheets: AddSheets,
    pub edit_mark: EditMark,
    pub write_listing: Listing,
    pub read_listing: Listing,
    pub read_dtd: Option<ReadDtd>,
}

pub const MAKES: [Make; 3] = [
    Make {
        name: "proved",
        check_table: proved::check_table,
        judge_policy: proved::judge_policy,
        complete: proved::complete,
        complete_roles: proved::complete_roles,
        mend: proved::mend,
        judge_mend: proved::judge_mend,
        judge_maps: proved::judge_maps,
        complete_maps: proved::complete_maps,
        mend_maps: proved::mend_maps,
        judge_mend_maps: proved::judge_mend_maps,
        carry_marks: proved::carry_marks,
        month_sheet: proved::month_sheet,
        add_sheets: proved::add_sheets,
        edit_mark: proved::edit_mark,
        write_listing: proved::write_listing,
        read_listing: proved::read_listing,
        read_dtd: Some(proved::read_dtd),
    },
    Make {
        name: "fast",
        check_table: fast::check_table,
        judge_policy: fast::judge_policy,
        complete: fast::complete,
        complete_roles: fast::complete_roles,
        mend: fast::mend,
        judge_mend: fast::judge_mend,
        judge_maps: fast::judge_maps,
        complete_maps: fast::complete_maps,
        mend_maps: fast::mend_maps,
        judge_mend_maps: fast::judge_mend_maps,
        carry_marks: fast::carry_marks,
        month_sheet: fast::month_sheet,
        add_sheets: fast::add_sheets,
        edit_mark: fast::edit_mark,
        write_listing: fast::write_listing,
        read_listing: fast::read_listing,
        read_dtd: None,
    },
    Make {
        name: "second",
        check_table: plain::check_table,
        judge_policy: plain::judge_policy,
        complete: plain::complete,
        complete_roles: plain::complete_roles,
        mend: plain::mend,
        judge_mend: plain::judge_mend,
        judge_maps: plain::judge_maps,
        complete_maps: plain::complete_maps,
        mend_maps: plain::mend_maps,
        judge_mend_maps: plain::judge_mend_maps,
        carry_marks: plain::carry_marks,
        month_sheet: plain::month_sheet,
        add_sheets: plain::add_sheets,
        edit_mark: plain::edit_mark,
        write_listing: plain::write_listing,
        read_listing: plain::read_listing,
        read_dtd: Some(plain::read_dtd),
    },
];

#[derive(Clone, Copy, PartialEq)]
pub enum Call {
    CheckTable,
    JudgePolicy,
    Complete,
    Mend,
    JudgeMend,
}

/// The calls that take a table and a policy.
pub const CALLS: [Call; 5] =
    [Call::CheckTable, Call::JudgePolicy, Call::Complete, Call::Mend, Call::JudgeMend];

impl Call {
    pub fn name(self) -> &'static str {
        match self {
            Call::CheckTable => "check_table",
            Call::JudgePolicy => "judge_policy",
            Call::Complete => "complete",
            Call::Mend => "mend",
            Call::JudgeMend => "judge_mend",
        }
    }
}

/// What a call is lent; a call takes what it needs of it.
pub use second::policy_case::PolicyCase as Case;

/// Makes one call on a case; a result is written into the case's `out`.
pub fn run(make: &Make, call: Call, case: &mut Case) -> Outcome {
    let Case { words, marks, out, proposed } = case;
    match call {
        Call::CheckTable => (make.check_table)(words),
        Call::JudgePolicy => (make.judge_policy)(words, marks),
        Call::Complete => (make.complete)(words, marks, out),
        Call::Mend => (make.mend)(words, marks, out),
        Call::JudgeMend => (make.judge_mend)(words, marks, proposed),
    }
}
