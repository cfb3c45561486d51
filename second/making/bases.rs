// Cases that are made of a schema and what belongs to it (requests 10 to 12): in turn for each number of a schema, with a large one, and for
// the situation that came least often so far.

use super::aims::Aims;
use super::chance::Random;
use super::damage::refused_words;
use super::schemas::Schema;
use crate::calls::TABLE;
use crate::format::Format;
use crate::situations::Aimed;

pub const FORMATS: [Format; 2] = [Format::One, Format::Two];

/// The most words of a small table that is refused; longer ones are left to the other kinds of cases.
const MOST_WORDS: usize = 128;

/// What cases of a kind are made of.
pub trait Base: Sized {
    type Case: 'static;

    /// Of the situations that they are made for.
    type Aimed: Aimed<Case = Self::Case>;

    /// One of so many cases is a large one.
    const TURN: usize;

    fn of(r: &mut Random, format: Format) -> Self;

    fn sound_case(&self, r: &mut Random) -> Self::Case;

    fn spoil(&self, r: &mut Random, case: &mut Self::Case);

    /// One with a refused schema, all numbers and both formats in turn.
    fn refused_case(r: &mut Random, turn: usize) -> Self::Case;

    fn large_case(r: &mut Random, turn: usize) -> Self::Case;

    /// With faults, or without.
    fn case(&self, r: &mut Random, is_spoilt: bool) -> Self::Case {
        let mut case = self.sound_case(r);
        if is_spoilt {
            self.spoil(r, &mut case);
        }
        case
    }

    /// One that may be in this situation.
    fn case_for(&self, r: &mut Random, situation: &'static str) -> Self::Case {
        self.case(r, Self::Aimed::is_of_faults(situation))
    }
}

/// Where the schema is a table.
pub trait OfTable: Base {
    fn schema(&self) -> &Schema;

    fn with_words(case: Self::Case, words: Vec<u16>) -> Self::Case;
}

/// A small case, with faults or without.
pub fn any_case<B: Base>(r: &mut Random, is_spoilt: bool) -> B::Case {
    let format = r.pick(&FORMATS);
    B::of(r, format).case(r, is_spoilt)
}

/// The number and the format of a turn.
pub fn refusal_at(turn: usize, numbers: &[usize]) -> (usize, Format) {
    (numbers[turn % numbers.len()], FORMATS[turn / numbers.len() % 2])
}

/// A table that is refused with the number of this turn; in some cases with other faults too.
pub fn refused_table_case<B: OfTable>(r: &mut Random, turn: usize) -> B::Case {
    let (number, format) = refusal_at(turn, &TABLE[1..]);
    loop {
        let base = B::of(r, format);
        let words = refused_words(r, base.schema(), number).filter(|words| words.len() <= MOST_WORDS);
        if let Some(words) = words {
            let is_spoilt = r.one_in(2);
            return B::with_words(base.case(r, is_spoilt), words);
        }
    }
}

/// A small case in this situation: of each base some faults are tried, where it is one of faults.
fn aimed_case<B: Base>(r: &mut Random, situation: &'static str) -> B::Case {
    let tries = if B::Aimed::is_of_faults(situation) { 4 } else { 1 };
    let meets = B::Aimed::is_in(situation);
    loop {
        let format = r.pick(&FORMATS);
        let base = B::of(r, format);
        if let Some(case) = (0..tries).map(|_| base.case_for(r, situation)).find(&meets) {
            return case;
        }
    }
}

/// Of five cases one has a refused schema; the last of each turn is a large one, and each of the others is made for the situation that came
/// least often so far.
pub fn cases<B: Base>(seed: u64, count: usize) -> impl Iterator<Item = B::Case> {
    let mut r = Random(seed);
    let mut aims = Aims::new(B::Aimed::USUAL);
    (0..count).map(move |k| {
        let case = match k % 5 {
            _ if k % B::TURN == B::TURN - 1 => B::large_case(&mut r, k / B::TURN),
            0 => B::refused_case(&mut r, k / 5),
            _ => aimed_case::<B>(&mut r, aims.least()),
        };
        aims.add(&case);
        case
    })
}
