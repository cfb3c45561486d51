// What every call on cases has: a name, the numbers that it can give, how it is made, and what it tells.

use crate::answers::{answer, answer_text, hex, Answer, Outcome};
use crate::sheet::{Sheet, SheetOutcome};
use crate::stream::of_numbers;

/// The numbers of the table's checks in their order, done among them.
pub const TABLE: &[usize] = &[0, 1, 2, 3, 4, 5, 6, 7, 19, 8, 9];

/// The numbers of the policy's own checks.
pub const POLICY: &[usize] = &[10, 11];

/// The same of a policy in two bit maps.
pub const MAPS: &[usize] = &[10, 23, 24];

/// The numbers of the new table's checks (request 1) in their order.
pub const NEW_TABLE: &[usize] = &[101, 102, 103, 104, 105, 106, 107, 119, 108, 109];

/// A call on cases of one kind.
pub struct Call<C: 'static> {
    pub name: &'static str,
    /// The numbers that it can give.
    pub numbers: &'static [&'static [usize]],
    /// Whether its answer can hold a breach.
    pub breaches: bool,
    pub make: fn(&C) -> Told,
}

/// A call's answer, and each run that it may write, as it is afterwards.
#[derive(PartialEq)]
pub struct Told {
    /// Where it answers a sheet, this has the sheet's number and place.
    pub answer: Answer,
    pub sheet: Option<Sheet>,
    pub written: Vec<Vec<u8>>,
}

impl Told {
    pub fn reading(outcome: Outcome) -> Told {
        Told::writing(outcome, Vec::new())
    }

    pub fn writing(outcome: Outcome, written: Vec<Vec<u8>>) -> Told {
        Told { answer: answer(outcome), sheet: None, written }
    }

    /// The same of a call that answers a sheet and may write its counts.
    pub fn counting(outcome: SheetOutcome, counts: Vec<u32>) -> Told {
        let sheet = outcome.unwrap_or_else(|refusal| refusal);
        let answer = Answer { number: sheet.number, place: sheet.place, ..Answer::default() };
        Told { answer, sheet: Some(sheet), written: vec![of_numbers(&counts)] }
    }

    /// The answer or the sheet, and each run, two hexadecimal digits a byte.
    pub fn text(&self) -> String {
        let answer = self.sheet.as_ref().map_or_else(|| answer_text(&self.answer), Sheet::text);
        let run = |bytes: &Vec<u8>| format!(" {}", hex(bytes));
        answer + &self.written.iter().map(run).collect::<String>()
    }
}
