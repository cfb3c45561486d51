// A call on the roles of a month (request 12), and what is asked of it.

use super::counted::Counted;
use super::leading::Leading;
use crate::conditions::first_breach;
use crate::sheet::{breaks, COUNTED, COUNTS};
use crate::sheet_case::{SheetCase, CALLS};
use crate::table::{Table, FORBIDDEN, UNSET};
use std::cell::OnceCell;
use std::ops::Deref;

/// A role of a call that is done.
pub struct Role<'a> {
    pub marks: &'a [u8],
    pub is_refused: bool,
    /// The condition of its first breach, 0 where there is none; a mark above 2 counts as unset.
    pub first: usize,
    /// Whether it breaks each of the three conditions somewhere.
    pub broken: [bool; 3],
}

pub struct Month<'a> {
    call: Counted<'a, SheetCase>,
    /// Where the call is done and there is a privilege, once they are asked.
    roles: OnceCell<Vec<Role<'a>>>,
}

impl<'a> Deref for Month<'a> {
    type Target = Counted<'a, SheetCase>;

    fn deref(&self) -> &Counted<'a, SheetCase> {
        &self.call
    }
}

/// A situation of such a call: its name, and whether a case is in it.
pub type Situation = (&'static str, fn(&Month) -> bool);

fn role<'a>(table: &Table, marks: &'a [u8]) -> Role<'a> {
    let set: Vec<u8> = marks.iter().map(|&mark| if mark > FORBIDDEN { UNSET } else { mark }).collect();
    Role {
        marks,
        is_refused: set != marks,
        first: first_breach(table, &set).map_or(0, |breach| breach.condition),
        broken: [1, 2, 3].map(|condition| breaks(table, &set, condition)),
    }
}

impl Role<'_> {
    pub fn is_counted(&self) -> bool {
        !self.is_refused
    }

    pub fn is_clean(&self) -> bool {
        self.is_counted() && self.first == 0
    }

    /// Whether it is counted, and breaks this condition somewhere.
    pub fn breaks(&self, condition: usize) -> bool {
        self.is_counted() && self.broken[condition - 1]
    }

    /// The privileges whose marks are above 2.
    pub fn bent(&self) -> Vec<usize> {
        (0..self.marks.len()).filter(|&privilege| self.marks[privilege] > FORBIDDEN).collect()
    }
}

impl<'a> Month<'a> {
    pub fn of(case: &'a SheetCase) -> Month<'a> {
        Month { call: Counted::of(case, &case.words, (CALLS[0].make)(case)), roles: OnceCell::new() }
    }

    /// How many marks there should be.
    pub fn all_marks(&self) -> u64 {
        self.case.roles as u64 * self.v() as u64
    }

    pub fn roles(&self) -> &[Role<'a>] {
        self.roles.get_or_init(|| match &self.table {
            Some(table) if self.is_done() && table.v() > 0 => {
                self.case.marks.chunks(table.v()).map(|marks| role(table, marks)).collect()
            }
            _ => Vec::new(),
        })
    }

    pub fn any(&self, known: impl Fn(&Role) -> bool) -> bool {
        self.roles().iter().any(known)
    }

    /// Whether there are two roles or more, and all of them are such.
    pub fn all(&self, known: impl Fn(&Role) -> bool) -> bool {
        self.roles().len() > 1 && self.roles().iter().all(known)
    }

    pub fn counted(&self) -> impl Iterator<Item = &Role<'a>> {
        self.roles().iter().filter(|role| role.is_counted())
    }

    /// The three counts of each privilege, where the call is done.
    pub fn threes(&self) -> impl Iterator<Item = &[u32]> {
        let written = if self.is_done() { self.all_counts() } else { 0 };
        self.counts[..written].chunks(COUNTS)
    }

    pub fn figure(&self, k: usize) -> u32 {
        self.sheet.figures[k]
    }

    /// Where a role is counted.
    pub fn leading(&self) -> Option<Leading> {
        self.counted().next().map(|_| Leading::of(&self.counts[..self.all_counts()]))
    }

    /// The leaders of other counts for the same privileges.
    pub fn leaders_by(&self, count: impl Fn(usize) -> u32) -> Vec<usize> {
        let counts: Vec<u32> = (0..self.v()).flat_map(|privilege| [count(privilege), 0, 0]).collect();
        Leading::of(&counts).leaders().to_vec()
    }

    /// The leaders if the mark that has this place among the three were counted as allowed is.
    pub fn leaders_of(&self, place: usize) -> Vec<usize> {
        self.leaders_by(|privilege| self.counts[COUNTS * privilege + place])
    }

    /// The leaders if refused roles were counted too.
    pub fn leaders_with_refused(&self) -> Vec<usize> {
        let allows = |role: &&Role, privilege: usize| role.marks[privilege] == COUNTED[0];
        self.leaders_by(|privilege| self.roles().iter().filter(|role| allows(role, privilege)).count() as u32)
    }

    /// Whether one of all marks is above 2.
    pub fn has_bent_mark(&self) -> bool {
        self.case.marks.iter().any(|&mark| mark > FORBIDDEN)
    }

    pub fn lacks_room(&self) -> bool {
        self.case.counts.len() < self.all_counts()
    }
}
