// A call that writes or reads a listing (request 10), and what is asked of it.

use crate::answers::{answer, Answer, Outcome};
use crate::carrying::{edits, Edit};
use crate::format::Format;
use crate::listing::{lines, Listed};
use crate::listing_case::ListingCase;
use crate::table::{total, UNSET};
use std::cell::OnceCell;
use std::collections::HashMap;

pub struct Listing<'a> {
    pub case: &'a ListingCase,
    /// Where the format and the text are accepted.
    pub listed: Option<Listed>,
    pub answer: Answer,
    /// The result afterwards.
    pub out: Vec<u8>,
    /// Where the call is done, the marks and their listing.
    pub marks: Vec<u8>,
    pub listing: Vec<u8>,
    /// Each line that there can be, once it is asked.
    entries: OnceCell<HashMap<Vec<u8>, (usize, u8)>>,
}

/// A situation of such a call: its name, and whether a case is in it.
pub type Situation = (&'static str, fn(&Listing) -> bool);

/// A situation with the number that it comes with, or one of them.
pub type Numbered = (usize, Situation);

fn of(case: &ListingCase, call: fn(&Listed, &[u8], &mut [u8]) -> Outcome) -> Listing<'_> {
    let mut out = case.out.clone();
    let (listed, outcome) = match Listed::of(&case.text, case.format) {
        Ok(listed) => {
            let outcome = call(&listed, &case.given, &mut out);
            (Some(listed), outcome)
        }
        Err(refusal) => (None, Err(refusal)),
    };
    let (marks, listing, entries) = (Vec::new(), Vec::new(), OnceCell::new());
    Listing { case, listed, answer: answer(outcome), out, marks, listing, entries }
}

impl Listing<'_> {
    pub fn writing(case: &ListingCase) -> Listing<'_> {
        let mut it = of(case, Listed::write);
        if it.is_done() {
            it.marks = case.given.clone();
            it.listing = it.out[..it.answer.place].to_vec();
        }
        it
    }

    pub fn reading(case: &ListingCase) -> Listing<'_> {
        let mut it = of(case, Listed::read);
        if it.is_done() {
            it.marks = it.out[..it.v()].to_vec();
            it.listing = case.given.clone();
        }
        it
    }

    pub fn number(&self) -> usize {
        self.answer.number
    }

    pub fn is_done(&self) -> bool {
        self.number() == 0
    }

    /// Whether the call is refused with this number.
    pub fn is_refused(&self, number: usize) -> bool {
        number != 0 && self.number() == number
    }

    /// The same in this format.
    pub fn is_refused_in(&self, format: Format, number: usize) -> bool {
        self.has(format) && self.is_refused(number)
    }

    pub fn has(&self, format: Format) -> bool {
        self.case.format == format.word()
    }

    /// 0 where the text is refused.
    pub fn v(&self) -> usize {
        self.listed.as_ref().map_or(0, Listed::v)
    }

    /// The number of privileges if the format were the other one.
    pub fn other_v(&self) -> usize {
        let other = if self.has(Format::One) { Format::Two } else { Format::One };
        self.listed.as_ref().map_or(0, |listed| total(other, &listed.table.types))
    }

    /// The edits of the privileges that are set, where the call is done.
    pub fn edits(&self) -> Vec<Edit> {
        let all = self.listed.as_ref().map_or(Vec::new(), |listed| edits(&listed.table));
        let set = all.into_iter().zip(&self.marks).filter(|(_, &mark)| mark != UNSET);
        set.map(|(edit, _)| edit).collect()
    }

    /// Whether the call is done, and that is known of the edit of a set privilege.
    pub fn any(&self, known: impl Fn(&Listed, &Edit) -> bool) -> bool {
        self.listed.as_ref().is_some_and(|listed| self.edits().iter().any(|edit| known(listed, edit)))
    }

    /// Whether these bytes are a line of a privilege.
    pub fn is_line(&self, bytes: &[u8]) -> bool {
        self.entry(bytes).is_some()
    }

    /// What a line tells.
    pub fn entry(&self, line: &[u8]) -> Option<(usize, u8)> {
        let entries =
            self.entries.get_or_init(|| self.listed.as_ref().map_or_else(HashMap::new, Listed::entries));
        entries.get(line).copied()
    }

    /// The lines of the listing that is read.
    pub fn lines(&self) -> Vec<&[u8]> {
        lines(&self.case.given).collect()
    }

    /// Which of the lines is refused, and how many there are.
    pub fn at(&self) -> (usize, usize) {
        (lines(&self.case.given[..self.answer.place]).count(), self.lines().len())
    }
}
