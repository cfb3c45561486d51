// A call that carries marks to a new table, and what is asked of it.

use crate::answers::Answer;
use crate::calls::Told;
use crate::carry_case::{CarryCase, CALLS};
use crate::carrying::{homes, GONE};
use crate::conditions::first_breach;
use crate::format::Format;
use crate::table::{check_table, Table, Type, FORBIDDEN, UNSET};
use std::cell::OnceCell;
use std::ops::Range;

pub struct Move<'a> {
    pub case: &'a CarryCase,
    /// Where they are accepted.
    pub old: Option<Table>,
    pub new: Option<Table>,
    told: Told,
    /// Where the call is done, the new privilege that each old one corresponds to, once it is asked.
    homes: OnceCell<Vec<Option<usize>>>,
}

/// A situation of such a call: its name, and whether a case is in it.
pub type Situation = (&'static str, fn(&Move) -> bool);

fn e(table: &Option<Table>) -> usize {
    table.as_ref().map_or(0, |table| table.types.len())
}

fn v(table: &Option<Table>) -> usize {
    table.as_ref().map_or(0, Table::v)
}

impl Move<'_> {
    pub fn of(case: &CarryCase) -> Move<'_> {
        let (old, new) = (check_table(&case.old_words).ok(), check_table(&case.new_words).ok());
        Move { case, old, new, told: (CALLS[0].make)(case), homes: OnceCell::new() }
    }

    fn homes(&self) -> &[Option<usize>] {
        self.homes.get_or_init(|| match (&self.old, &self.new) {
            (Some(old), Some(new)) if self.is_done() => homes(old, new, &self.case.new_numbers),
            _ => Vec::new(),
        })
    }

    pub fn answer(&self) -> &Answer {
        &self.told.answer
    }

    pub fn is_done(&self) -> bool {
        self.answer().number == 0
    }

    /// How many types and privileges each table has, 0 where it is refused.
    pub fn old_e(&self) -> usize {
        e(&self.old)
    }

    pub fn new_e(&self) -> usize {
        e(&self.new)
    }

    pub fn old_v(&self) -> usize {
        v(&self.old)
    }

    pub fn new_v(&self) -> usize {
        v(&self.new)
    }

    /// Whether the call is done from a table of the first format to one of the second.
    pub fn is_done_from(&self, formats: [Format; 2]) -> bool {
        let own = [&self.old, &self.new].map(|table| table.as_ref().map(|table| table.format));
        self.is_done() && own == formats.map(Some)
    }

    /// The new number of an old type, if it is not gone.
    pub fn number(&self, t: usize) -> Option<usize> {
        Some(self.case.new_numbers[t]).filter(|&number| number != GONE).map(usize::from)
    }

    pub fn is_set(&self, privilege: usize) -> bool {
        self.case.old_marks[privilege] != UNSET
    }

    /// The new privilege that an old one corresponds to.
    pub fn home(&self, privilege: usize) -> Option<usize> {
        self.homes()[privilege]
    }

    /// Whether no old privilege corresponds to a new one.
    pub fn is_fresh(&self, privilege: usize) -> bool {
        !self.homes().contains(&Some(privilege))
    }

    /// Whether a set mark is carried.
    pub fn carries(&self, privilege: usize) -> bool {
        self.is_set(privilege) && self.home(privilege).is_some()
    }

    /// Whether a set mark is lost.
    pub fn loses(&self, privilege: usize) -> bool {
        self.is_set(privilege) && self.home(privilege).is_none()
    }

    /// Of a call that is done: whether that is known of some old privilege, of all of them, or of some new one.
    pub fn any_old(&self, known: impl Fn(usize) -> bool) -> bool {
        self.is_done() && (0..self.old_v()).any(known)
    }

    pub fn all_old(&self, known: impl Fn(usize) -> bool) -> bool {
        self.is_done() && (0..self.old_v()).all(known)
    }

    pub fn any_new(&self, known: impl Fn(usize) -> bool) -> bool {
        self.is_done() && (0..self.new_v()).any(known)
    }

    /// Whether some set mark is carried, or lost.
    pub fn carries_any(&self) -> bool {
        self.any_old(|privilege| self.carries(privilege))
    }

    pub fn loses_any(&self) -> bool {
        self.any_old(|privilege| self.loses(privilege))
    }

    /// The types that a call that is done finds in both tables.
    pub fn kept(&self) -> Vec<Kept<'_>> {
        match (&self.old, &self.new) {
            (Some(old), Some(new)) if self.is_done() => {
                let kept = |t| self.number(t).map(|n| Kept { by: self, old, new, t, n });
                (0..old.types.len()).filter_map(kept).collect()
            }
            _ => Vec::new(),
        }
    }

    /// Whether that is known of a type in both tables.
    pub fn any_kept(&self, known: impl Fn(&Kept) -> bool) -> bool {
        self.kept().iter().any(known)
    }

    /// Whether that is known of two types in both tables, the first before the second.
    pub fn two_kept(&self, known: impl Fn(&Kept, &Kept) -> bool) -> bool {
        let kept = self.kept();
        kept.iter().enumerate().any(|(k, one)| kept[k + 1..].iter().any(|other| known(one, other)))
    }

    /// Whether that is known of an old type of this kind that is gone, a mark of which was set.
    pub fn loses_type(&self, kind: u16, known: impl Fn(&Type) -> bool) -> bool {
        let fits = |old: &Table, t: usize| old.types[t].kind == kind && known(&old.types[t]);
        let gone = |t: &usize| self.number(*t).is_none();
        let is_set = |old: &Table, t: usize| privileges(old, t).any(|privilege| self.is_set(privilege));
        let old = self.old.as_ref().filter(|_| self.is_done());
        old.map_or(false, |old| (0..old.types.len()).filter(gone).any(|t| fits(old, t) && is_set(old, t)))
    }

    /// Whether the old marks, V of them and none above 2, have a breach.
    pub fn is_broken(&self) -> bool {
        let is_known = self.case.old_marks.iter().all(|&mark| mark <= FORBIDDEN);
        let old = self.old.as_ref().filter(|old| is_known && self.case.old_marks.len() == old.v());
        old.map_or(false, |old| first_breach(old, &self.case.old_marks).is_some())
    }

    /// Whether the number of an old type is one that the new table does not have.
    pub fn is_over(&self, t: usize) -> bool {
        self.number(t).map_or(false, |number| number >= self.new_e())
    }

    /// Whether the number of an old type is that of an earlier one.
    pub fn is_repeated(&self, t: usize) -> bool {
        let number = self.number(t);
        number.is_some() && (0..t).any(|earlier| self.number(earlier) == number)
    }

    /// Whether the list is not as long as the old table has types.
    pub fn has_other_length(&self) -> bool {
        self.case.new_numbers.len() != self.old_e()
    }

    /// Whether an entry of the list is over what the new table has, or repeated.
    pub fn has_misfit(&self) -> bool {
        (0..self.case.new_numbers.len()).any(|t| self.is_over(t) || self.is_repeated(t))
    }

    pub fn has_repetition(&self) -> bool {
        (0..self.case.new_numbers.len()).any(|t| self.is_repeated(t))
    }

    /// Whether a mark is above 2.
    pub fn is_bent(&self) -> bool {
        self.case.old_marks.iter().any(|&mark| mark > FORBIDDEN)
    }

    /// By how many bytes the result and the lost run are longer than they must be.
    pub fn over(&self) -> [isize; 2] {
        let CarryCase { out, lost, .. } = self.case;
        [out.len() as isize - self.new_v() as isize, lost.len() as isize - self.old_v() as isize]
    }

    /// Whether the result or the lost run is short.
    pub fn lacks_room(&self) -> bool {
        self.over().iter().any(|&over| over < 0)
    }
}

fn privileges(table: &Table, t: usize) -> Range<usize> {
    let behind = table.first.get(t + 1).copied();
    table.first[t]..behind.unwrap_or(table.v())
}

/// A type that is t in the old table and n in the new one.
pub struct Kept<'a> {
    by: &'a Move<'a>,
    old: &'a Table,
    new: &'a Table,
    pub t: usize,
    pub n: usize,
}

impl Kept<'_> {
    pub fn was(&self) -> &Type {
        &self.old.types[self.t]
    }

    pub fn is(&self) -> &Type {
        &self.new.types[self.n]
    }

    /// The new numbers of the children that it had.
    pub fn moved(&self) -> Vec<Option<usize>> {
        self.was().children.iter().map(|&child| self.by.number(child)).collect()
    }

    /// Whether it was of this kind and is of this one.
    pub fn becomes(&self, was: u16, is: u16) -> bool {
        (self.was().kind, self.is().kind) == (was, is)
    }

    /// Its old privileges, and its new ones.
    pub fn privileges(&self) -> Range<usize> {
        privileges(self.old, self.t)
    }

    pub fn new_privileges(&self) -> Range<usize> {
        privileges(self.new, self.n)
    }

    /// Whether one of its marks was set.
    pub fn is_set(&self) -> bool {
        self.privileges().any(|privilege| self.by.is_set(privilege))
    }

    /// Whether one of its set marks is carried, or lost.
    pub fn carries(&self) -> bool {
        self.privileges().any(|privilege| self.by.carries(privilege))
    }

    pub fn loses(&self) -> bool {
        self.privileges().any(|privilege| self.by.loses(privilege))
    }

    /// The same of a replacement by the same kind.
    pub fn carries_same_kind(&self) -> bool {
        self.privileges().any(|privilege| self.old.is_same_kind(privilege) && self.by.carries(privilege))
    }

    pub fn loses_same_kind(&self) -> bool {
        self.privileges().any(|privilege| self.old.is_same_kind(privilege) && self.by.loses(privilege))
    }

    /// Whether a new replacement by the same kind has no old privilege.
    pub fn has_fresh_same_kind(&self) -> bool {
        self.new_privileges().any(|privilege| self.new.is_same_kind(privilege) && self.by.is_fresh(privilege))
    }

    /// Whether one of its new privileges has no old one.
    pub fn has_fresh(&self) -> bool {
        self.new_privileges().any(|privilege| self.by.is_fresh(privilege))
    }

    /// Whether a carried mark is not the one that stands as far behind the type's first.
    pub fn is_elsewhere(&self) -> bool {
        let marks = &self.by.case.old_marks[self.privileges()];
        let first = self.new_privileges().start;
        marks.iter().enumerate().any(|(k, &mark)| {
            let home = self.by.home(self.privileges().start + k);
            home.map_or(false, |home| marks.get(home - first) != Some(&mark))
        })
    }
}
