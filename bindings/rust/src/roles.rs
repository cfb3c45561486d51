//! The roles of a show as a done call leaves them: for each a number, and a stretch of the result.

use std::error::Error;
use std::fmt;
use std::iter::FusedIterator;
use std::slice::Iter;

/// The roles of a show in their order, as [`complete_roles`](crate::complete_roles) gives them: the completed marks of each, or why it is refused.
#[derive(Clone, Debug)]
pub struct Roles<'a> {
    numbers: Iter<'a, u16>,
    privileges: usize,
    stretches: &'a [u8],
}

impl<'a> Roles<'a> {
    /// The stretches are as many bytes for each number as there are privileges.
    pub(crate) fn new(privileges: usize, numbers: &'a [u16], stretches: &'a [u8]) -> Roles<'a> {
        Roles { numbers: numbers.iter(), privileges, stretches }
    }
}

impl<'a> Iterator for Roles<'a> {
    type Item = Result<&'a [u8], RoleRefusal>;

    fn next(&mut self) -> Option<Self::Item> {
        let number = self.numbers.next()?;
        let (own, behind) = self.stretches.split_at(self.privileges);
        self.stretches = behind;
        Some(told(*number, own))
    }

    fn size_hint(&self) -> (usize, Option<usize>) {
        self.numbers.size_hint()
    }
}

impl DoubleEndedIterator for Roles<'_> {
    fn next_back(&mut self) -> Option<Self::Item> {
        let number = self.numbers.next_back()?;
        let (before, own) = self.stretches.split_at(self.stretches.len() - self.privileges);
        self.stretches = before;
        Some(told(*number, own))
    }
}

impl ExactSizeIterator for Roles<'_> {}

impl FusedIterator for Roles<'_> {}

fn told(number: u16, completed: &[u8]) -> Result<&[u8], RoleRefusal> {
    match number {
        0 => Ok(completed),
        number => Err(RoleRefusal { number: number.into() }),
    }
}

/// Why one role of a show is refused. [`complete`](crate::complete) on the role's own marks tells the place or the breach too.
#[derive(Clone, Copy, Debug, PartialEq, Eq)]
pub struct RoleRefusal {
    /// 11, a mark above 2, or 16, a breach.
    pub number: usize,
}

impl fmt::Display for RoleRefusal {
    fn fmt(&self, f: &mut fmt::Formatter) -> fmt::Result {
        let number = self.number;
        match number {
            11 => write!(f, "refused with number {number}: a mark above 2"),
            _ => write!(f, "refused with number {number}: a breach"),
        }
    }
}

impl Error for RoleRefusal {}
