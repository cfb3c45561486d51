// A case of edits (request 11), and what is asked of it.

use crate::answers::{Answer, Breach};
use crate::conditions::{first_breach, first_breach_by};
use crate::edit_case::{written, EditCase, Step};
use crate::editing::{above, below_as_kept, entry, kept_entry, KEPT};
use crate::table::{check_table, Table, FORBIDDEN};

/// A situation of such a case: its name, and whether a case is in it.
pub type Situation = (&'static str, fn(&Edited) -> bool);

pub type Entry = [u16; KEPT];

/// One edit, and how marks and entries were before it and are afterwards.
pub struct Click {
    pub before: Step,
    pub answer: Answer,
    pub marks: Vec<u8>,
    pub kept: Vec<u16>,
    pub done: Option<Done>,
}

/// What is known besides of an edit that is done.
pub struct Done {
    pub privilege: usize,
    /// The types that the privilege is below.
    pub above: Vec<usize>,
    /// The right entries of the old marks and of the new ones.
    pub right_before: Vec<Entry>,
    pub right: Vec<Entry>,
    /// The entries as they were and are.
    pub entries_before: Vec<Entry>,
    pub entries: Vec<Entry>,
    /// The first breach of the old marks and of the new ones by right entries, and of the new ones by the entries before the edit.
    pub first_before: Option<Breach>,
    pub first: Option<Breach>,
    pub first_as_before: Option<Breach>,
    /// The breach that is told.
    pub told: Option<Breach>,
}

pub struct Edited<'a> {
    pub case: &'a EditCase,
    /// Where it is accepted.
    pub table: Option<Table>,
    pub clicks: Vec<Click>,
}

fn is_forbidden(mark: u8) -> bool {
    mark == FORBIDDEN
}

fn done(table: &Table, before: &Step, answer: &Answer, marks: &[u8], kept: &[u16]) -> Done {
    let (e, privilege) = (table.types.len(), before.edit.privilege as usize);
    let right = |marks: &[u8]| (0..e).map(|t| entry(table, marks, t)).collect();
    let entries = |kept: &[u16]| (0..e).map(|t| kept_entry(kept, t)).collect();
    Done {
        privilege,
        above: above(table, privilege),
        right_before: right(&before.marks),
        right: right(marks),
        entries_before: entries(&before.kept),
        entries: entries(kept),
        first_before: first_breach(table, &before.marks),
        first: first_breach(table, marks),
        first_as_before: first_breach_by(table, marks, |y| below_as_kept(&before.kept, y)),
        told: Some(answer.breach).filter(|breach| breach.condition != 0),
    }
}

impl Click {
    pub fn number(&self) -> usize {
        self.answer.number
    }

    pub fn is_done(&self) -> bool {
        self.number() == 0
    }

    pub fn forbidden_before(&self) -> usize {
        self.before.marks.iter().filter(|&&mark| is_forbidden(mark)).count()
    }

    pub fn forbidden(&self) -> usize {
        self.marks.iter().filter(|&&mark| is_forbidden(mark)).count()
    }
}

impl Done {
    /// The types whose entries are not those of the old marks.
    pub fn wrong_before(&self) -> Vec<usize> {
        (0..self.right.len()).filter(|&t| self.entries_before[t] != self.right_before[t]).collect()
    }

    /// The types whose entries are not those of the new marks.
    pub fn wrong(&self) -> Vec<usize> {
        (0..self.right.len()).filter(|&t| self.entries[t] != self.right[t]).collect()
    }

    pub fn was_right(&self) -> bool {
        self.entries_before == self.right_before
    }

    pub fn is_right(&self) -> bool {
        self.entries == self.right
    }

    pub fn is_above(&self, t: usize) -> bool {
        self.above.contains(&t)
    }
}

impl<'a> Edited<'a> {
    pub fn of(case: &'a EditCase) -> Edited<'a> {
        let table = check_table(&case.words).ok();
        let click = |(before, told)| {
            let (marks, kept) = written(&told);
            let answer = told.answer;
            let accepted = table.as_ref().filter(|_| answer.number == 0);
            let done = accepted.map(|table| done(table, &before, &answer, &marks, &kept));
            Click { before, answer, marks, kept, done }
        };
        let clicks = case.steps().into_iter().map(click).collect();
        Edited { case, table, clicks }
    }

    /// 0 where the table is refused.
    pub fn v(&self) -> usize {
        self.table.as_ref().map_or(0, Table::v)
    }

    /// 0 where the table is refused.
    pub fn e(&self) -> usize {
        self.table.as_ref().map_or(0, |table| table.types.len())
    }

    /// How many words are needed.
    pub fn all_words(&self) -> usize {
        KEPT * self.e()
    }

    /// Whether one of the edits that are done is such.
    pub fn any(&self, known: impl Fn(&Table, &Click, &Done) -> bool) -> bool {
        let is_such = |table: &Table, click: &Click| {
            click.done.as_ref().map_or(false, |done| known(table, click, done))
        };
        self.table.as_ref().map_or(false, |table| self.clicks.iter().any(|click| is_such(table, click)))
    }

    /// The same where the entries were right.
    pub fn any_right(&self, known: impl Fn(&Table, &Click, &Done) -> bool) -> bool {
        self.any(|table, click, done| done.was_right() && known(table, click, done))
    }

    /// The same where some of the entries are still wrong.
    pub fn any_wrong(&self, known: impl Fn(&Table, &Click, &Done) -> bool) -> bool {
        self.any(|table, click, done| !done.is_right() && known(table, click, done))
    }
}
