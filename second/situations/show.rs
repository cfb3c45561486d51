// A call on all roles of a show, and what is asked of it.

use crate::answers::{answer, Answer};
use crate::completing::complete;
use crate::conditions::first_breach;
use crate::roles_case::{RolesCase, CALLS};
use crate::table::{check_table, Table, FORBIDDEN, UNSET};

/// A role of a call that is done, with what the single call gives.
pub struct Role<'a> {
    pub marks: &'a [u8],
    pub answer: Answer,
    pub stretch: Vec<u8>,
    /// Its number and its stretch as lent.
    pub number_lent: u16,
    pub stretch_lent: &'a [u8],
}

pub struct Show<'a> {
    pub case: &'a RolesCase,
    /// Where it is accepted.
    table: Option<Table>,
    /// The number of the call.
    pub number: usize,
    /// Where the call is done.
    pub roles: Vec<Role<'a>>,
}

fn role(case: &RolesCase, v: usize, r: usize) -> Role<'_> {
    let own = r * v..(r + 1) * v;
    let (marks, stretch_lent) = (&case.marks[own.clone()], &case.out[own]);
    let mut stretch = stretch_lent.to_vec();
    let answer = answer(complete(&case.words, marks, &mut stretch));
    Role { marks, answer, stretch, number_lent: case.numbers[r], stretch_lent }
}

pub fn done(role: &Role) -> bool {
    role.answer.number == 0
}

pub fn refused(role: &Role) -> bool {
    !done(role)
}

impl Role<'_> {
    /// Whether it is refused with this number, and keeps a stretch that nothing would write: neither zeros nor its own marks.
    pub fn keeps_with(&self, number: usize) -> bool {
        let zeros = self.stretch_lent.iter().all(|&byte| byte == 0);
        self.answer.number == number && !zeros && self.stretch_lent != self.marks
    }

    /// Whether it gets this number, and another one was lent.
    pub fn is_renumbered(&self, number: usize) -> bool {
        self.answer.number == number && self.number_lent as usize != number
    }
}

impl Show<'_> {
    pub fn of(case: &RolesCase) -> Show<'_> {
        let number = (CALLS[0].make)(case).answer.number;
        let mut show = Show { case, table: check_table(&case.words).ok(), number, roles: Vec::new() };
        if show.is_done() {
            show.roles = (0..show.count()).map(|r| role(case, show.v(), r)).collect();
        }
        show
    }

    pub fn is_done(&self) -> bool {
        self.number == 0
    }

    pub fn has_table(&self) -> bool {
        self.table.is_some()
    }

    /// 0 where the table is refused.
    pub fn v(&self) -> usize {
        self.table.as_ref().map_or(0, Table::v)
    }

    /// How many roles there are.
    pub fn count(&self) -> usize {
        self.case.numbers.len()
    }

    /// V for each role.
    pub fn all(&self) -> usize {
        self.count() * self.v()
    }

    /// The numbers of the roles.
    pub fn numbers(&self) -> Vec<usize> {
        self.roles.iter().map(|role| role.answer.number).collect()
    }

    /// The bytes behind the last stretch.
    pub fn behind(&self) -> &[u8] {
        self.case.out.get(self.all()..).unwrap_or(&[])
    }

    /// Whether one of all marks is above 2.
    pub fn has_bent_mark(&self) -> bool {
        self.case.marks.iter().any(|&mark| mark > FORBIDDEN)
    }

    /// Whether marks, V of them, have a breach if those above 2 are unset.
    pub fn is_broken(&self, marks: &[u8]) -> bool {
        let set: Vec<u8> = marks.iter().map(|&mark| if mark > FORBIDDEN { UNSET } else { mark }).collect();
        self.table.as_ref().map_or(false, |table| first_breach(table, &set).is_some())
    }

    /// Whether one of those roles has a breach that have V marks.
    pub fn has_breach(&self) -> bool {
        self.v() > 0 && self.case.marks.chunks_exact(self.v()).any(|marks| self.is_broken(marks))
    }
}
