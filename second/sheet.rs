// The monthly sheet (request 12 of document 02): what is counted over the roles of one table, and the call `month_sheet`. And the sum of two
// sheets, which the document does not have, for whoever counts on many machines: the call `add_sheets`.

use crate::answers::{refuse_at, refuse_if, Answer};
use crate::conditions::{check_policy, forced};
use crate::table::{check_table, Table, ALLOWED, FORBIDDEN, UNSET};
use std::cmp::Reverse;

/// How many counts a privilege has: in how many roles it is allowed, forbidden and unset.
pub const COUNTS: usize = 3;

/// The marks that they are counts of, in their order.
pub const COUNTED: [u8; COUNTS] = [ALLOWED, FORBIDDEN, UNSET];

/// How many privileges a sheet names at most.
pub const MOST_LEADERS: usize = 3;

#[derive(Clone, Copy, Debug, Default, PartialEq)]
pub struct Sheet {
    pub number: usize,
    pub place: usize,
    /// How many roles are clean, how many break condition 1, 2 and 3 somewhere, and how many are refused.
    pub figures: [u32; 5],
    /// How many leaders there are; these, and 0 in the places behind them.
    pub leader_count: u32,
    pub leaders: [usize; MOST_LEADERS],
}

impl Sheet {
    /// All its numbers.
    pub fn text(&self) -> String {
        let Sheet { number, place, figures, leader_count, leaders } = self;
        let figures: String = figures.iter().map(|figure| format!(" {}", figure)).collect();
        let leaders: String = leaders.iter().map(|leader| format!(" {}", leader)).collect();
        format!("{} {}{} {}{}", number, place, figures, leader_count, leaders)
    }
}

/// A call's outcome: done, or refused.
pub type SheetOutcome = Result<Sheet, Sheet>;

/// Of a refusal a sheet has the number and the place.
impl From<Answer> for Sheet {
    fn from(refusal: Answer) -> Sheet {
        Sheet { number: refusal.number, place: refusal.place, ..Sheet::default() }
    }
}

/// The privileges by how often they are allowed, most first, and of equals the lower one first.
pub fn ranked(counts: &[u32]) -> Vec<usize> {
    let mut all: Vec<usize> = (0..counts.len() / COUNTS).collect();
    all.sort_by_key(|&privilege| (Reverse(counts[COUNTS * privilege]), privilege));
    all
}

/// The sheet of a call that is done, with the first of those as its leaders.
pub fn done(figures: [u32; 5], counts: &[u32]) -> Sheet {
    let mut leading = ranked(counts);
    leading.truncate(MOST_LEADERS);
    let mut leaders = [0; MOST_LEADERS];
    leaders[..leading.len()].copy_from_slice(&leading);
    Sheet { number: 0, place: 0, figures, leader_count: leading.len() as u32, leaders }
}

/// Whether a role breaks a condition anywhere: a privilege that it forces is forbidden.
pub fn breaks(table: &Table, role: &[u8], condition: usize) -> bool {
    forced(table, role).any(|it| it.condition == condition && role[it.privilege] == FORBIDDEN)
}

fn is_clean(table: &Table, role: &[u8]) -> bool {
    [1, 2, 3].iter().all(|&condition| !breaks(table, role, condition))
}

/// How many of the roles are such.
fn count(roles: &[&[u8]], known: impl Fn(&[u8]) -> bool) -> u32 {
    roles.iter().filter(|role| known(role)).count() as u32
}

/// How many marks there are in all is counted so wide that no product runs over. Without a privilege every role is the same, and clean.
pub fn month_sheet(words: &[u16], roles: u32, marks: &[u8], counts: &mut [u32]) -> SheetOutcome {
    let table = check_table(words)?;
    let v = table.v();
    refuse_if(10, marks.len() as u128 != roles as u128 * v as u128)?;
    refuse_if(12, counts.len() < COUNTS * v)?;
    if v == 0 {
        return Ok(done([roles, 0, 0, 0, 0], &[]));
    }
    let (counted, refused): (Vec<&[u8]>, Vec<&[u8]>) =
        marks.chunks(v).partition(|role| check_policy(words, role).is_ok());
    let written = &mut counts[..COUNTS * v];
    for (privilege, three) in written.chunks_mut(COUNTS).enumerate() {
        three.copy_from_slice(&COUNTED.map(|mark| count(&counted, |role| role[privilege] == mark)));
    }
    let clean = count(&counted, |role| is_clean(&table, role));
    let [one, two, three] =
        [1, 2, 3].map(|condition| count(&counted, |role| breaks(&table, role, condition)));
    Ok(done([clean, one, two, three, refused.len() as u32], written))
}

/// The sums of two runs as long as the first, so wide that none runs over.
fn sums(one: &[u32], other: &[u32]) -> Vec<u64> {
    one.iter().zip(other).map(|(&one, &other)| one as u64 + other as u64).collect()
}

fn runs_over(sums: &[u64]) -> bool {
    sums.iter().any(|&sum| sum > u32::MAX as u64)
}

/// Of the two sheets only the number and the figures are looked at.
pub fn add_sheets(
    words: &[u16],
    sheet: Sheet,
    counts: &mut [u32],
    more: Sheet,
    more_counts: &[u32],
) -> SheetOutcome {
    let all = COUNTS * check_table(words)?.v();
    refuse_if(12, counts.len() < all || more_counts.len() < all)?;
    refuse_at(29, [sheet, more].iter().position(|given| given.number != 0))?;
    let written = &mut counts[..all];
    let (counted, figures) = (sums(written, more_counts), sums(&sheet.figures, &more.figures));
    // Behind the privileges, at place V, stand the figures.
    refuse_at(30, counted.chunks(COUNTS).chain([&figures[..]]).position(runs_over))?;
    written.iter_mut().zip(&counted).for_each(|(count, &sum)| *count = sum as u32);
    let figures = [0, 1, 2, 3, 4].map(|k| figures[k] as u32);
    Ok(done(figures, written))
}
