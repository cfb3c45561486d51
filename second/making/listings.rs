// Cases of listings (request 10): the schemas, marks and results that they are made of.

mod edits;
mod large;
mod lines;
mod names;
mod orders;
pub mod reading;
mod refused;
mod schemas;
pub mod writing;

use super::chance::Random;
use super::policies::mixed;
use crate::format::Format;
use crate::listing::Listed;
use crate::table::{ALLOWED, FORBIDDEN, UNSET};

/// A DTD text that is taken in this format, and what it gives.
pub struct Mailed {
    pub format: Format,
    pub text: Vec<u8>,
    pub listed: Listed,
}

/// How many in turn are unset, allowed, forbidden.
const MIXES: [[usize; 3]; 8] =
    [[0, 1, 1], [0, 1, 0], [0, 0, 1], [1, 4, 4], [1, 1, 1], [1, 2, 0], [4, 1, 1], [12, 1, 1]];

/// Marks of V privileges: none set, one of them, or some.
fn marks(r: &mut Random, v: usize) -> Vec<u8> {
    let mix = r.pick(&MIXES);
    let mut marks = mixed(r, v, mix);
    if v > 0 && r.one_in(4) {
        let any = r.below(v);
        let (one, mark) = (r.pick(&[0, v - 1, any]), r.pick(&[UNSET, ALLOWED, FORBIDDEN]));
        marks.fill(UNSET);
        marks[one] = mark;
    }
    marks
}

/// A result of so many bytes.
fn bytes(r: &mut Random, length: usize) -> Vec<u8> {
    (0..length).map(|_| r.next() as u8).collect()
}

/// A result as long as it must be, or longer.
fn lent(r: &mut Random, needed: usize) -> Vec<u8> {
    let more = r.pick(&[0, 0, 0, 0, 1, 1, 2, 9]);
    bytes(r, needed + more)
}
