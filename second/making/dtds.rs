// Making DTD texts: sound ones and nearly sound ones, half of them damaged by a byte, and texts that are made for an answer.

pub mod aimed;
mod cuts;
mod damage;
pub mod documents;
mod likes;
pub mod limits;
pub mod pieces;
pub mod sound;
pub mod tables;
pub mod written;

use super::chance::Random;
use crate::dtd::declared;
use crate::dtd_case::DtdCase;
use crate::format::Format;
use aimed::{large_ways, ways, ways_by_bytes, ways_by_whole, Aimed, Way};
use damage::damaged;
use pieces::{pieces, text_of, Piece};
use sound::sound;
use tables::{declare_again, leave_out};
use written::{Base, Content, Particle};

/// What is known of a text that was made.
pub enum Known {
    /// Its pieces: it is one of the grammar, and within the limits.
    Pieces(Vec<Piece>),
    /// Up to this byte it is as such a text.
    Damaged(usize),
    /// The way in which it was made for an answer, its number, and its place where that is known.
    Aimed(usize, usize, Option<usize>),
}

/// Gives one of the names in a particle another number.
fn rename(r: &mut Random, particle: &mut Particle, names: usize) {
    match &mut particle.base {
        Base::Name(name) => *name = r.below(names),
        Base::Group(_, parts) => {
            let k = r.below(parts.len());
            rename(r, &mut parts[k], names);
        }
    }
}

/// A sound text, or one with names declared again, never declared, or others used.
fn loose(r: &mut Random) -> Vec<Piece> {
    let mut dtd = sound(r);
    let names = dtd.names.len();
    match r.below(8) {
        0 => declare_again(r, &mut dtd),
        1 if names > 1 => leave_out(r, &mut dtd),
        2 | 3 => {
            for (_, content) in dtd.declarations.iter_mut() {
                if let Content::Children(particle) = content {
                    rename(r, particle, names);
                }
            }
        }
        _ => (),
    }
    pieces(r, &dtd)
}

fn lent_of(r: &mut Random, length: usize) -> Vec<u16> {
    (0..length).map(|_| r.next() as u16).collect()
}

/// How many words the table of a text has; none where it is refused before.
fn words_of(text: &[u8]) -> usize {
    declared(text).map_or(0, |declared| declared.words(Format::One).len())
}

/// A result with room for so many words, as a rule.
fn lent(r: &mut Random, words: usize) -> Vec<u16> {
    let more = 1 + r.below(12);
    let length = r.pick(&[words, words, words, words + more, words + more, words.saturating_sub(1), 0]);
    lent_of(r, length)
}

/// A result that the answer needs: long enough, or short.
fn lent_for(r: &mut Random, aimed: &Aimed) -> Vec<u16> {
    let more = r.pick(&[0, 0, 1, 12]);
    let words = if [0, 12].contains(&aimed.number) { words_of(&aimed.text) } else { 10 * more };
    let length = match aimed.number {
        12 => r.pick(&[words - 1, words - 1, words / 2, 0]),
        _ => words + more,
    };
    lent_of(r, length)
}

fn any_case(r: &mut Random) -> (DtdCase, Known) {
    let pieces = loose(r);
    let text = text_of(&pieces);
    let (text, known) = match r.below(2) {
        0 => (text, Known::Pieces(pieces)),
        _ => {
            let (text, place) = damaged(r, text);
            (text, Known::Damaged(place))
        }
    };
    let words = words_of(&text);
    (DtdCase { out: lent(r, words), text }, known)
}

fn aimed_case(r: &mut Random, ways: &[Way], turn: usize) -> (DtdCase, Known) {
    let way = turn % ways.len();
    let aimed = ways[way].make(r);
    let out = lent_for(r, &aimed);
    (DtdCase { text: aimed.text, out }, Known::Aimed(way, aimed.number, aimed.place))
}

/// Cases with what is known of them: in turn any one, and one that is made for an answer, all ways in turn.
pub fn known_cases(seed: u64, count: usize) -> impl Iterator<Item = (DtdCase, Known)> {
    let mut r = Random(seed);
    let ways = ways();
    (0..count).map(move |k| match k % 2 {
        0 => any_case(&mut r),
        _ => aimed_case(&mut r, &ways, k / 2),
    })
}

/// Cases for a stream: of seven two are made for an answer that a few bytes give, and two for a limit or an answer of the table, all
/// ways in turn; the last of 119 is a large one.
pub fn cases(seed: u64, count: usize) -> impl Iterator<Item = DtdCase> {
    let mut r = Random(seed);
    let (by_bytes, by_whole, large) = (ways_by_bytes(), ways_by_whole(), large_ways());
    (0..count).map(move |k| {
        let turn = 2 * (k / 7) + k % 7 / 3;
        let (case, _) = match k % 119 {
            118 => aimed_case(&mut r, &large, k / 119),
            n => match n % 7 {
                1 | 4 => aimed_case(&mut r, &by_bytes, turn),
                2 | 5 => aimed_case(&mut r, &by_whole, turn),
                _ => any_case(&mut r),
            },
        };
        case
    })
}
