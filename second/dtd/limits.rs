// Number 21: what the grammar has and the reader does not take.

use super::faults::{Fault, Reason};
use super::standing::{Item, Standing};
use super::steps::grammar;

pub const MOST_BYTES: usize = 65_536;
pub const MOST_NAME_BYTES: usize = 32;
pub const MOST_DEPTH: usize = 16;

/// The fault of a byte by an item that takes it, but for a group that is too deep.
fn fault_of(text: &[u8], k: usize, item: Item) -> Option<Fault> {
    match grammar().name(item.step) {
        "Name" if k - item.from == MOST_NAME_BYTES => Some(Fault { place: k, reason: Reason::LongName }),
        "Mixed" if text[k] == b'|' => Some(Fault { place: k, reason: Reason::Mixed }),
        "contentspec" if text[item.from..=k] == *b"ANY" => {
            Some(Fault { place: item.from, reason: Reason::Any })
        }
        _ => None,
    }
}

/// Whether a byte stands in a group as a whole, and not in a particle of it. What opens Mixed is
/// counted too; no group stands in it.
fn is_of_group(standing: &Standing, k: usize) -> bool {
    standing.takers(k).any(|item| ["choice", "seq", "Mixed"].contains(&grammar().name(item.step)))
}

/// The parentheses that are too deep.
fn too_deep(text: &[u8], standing: &Standing) -> Vec<Fault> {
    let mut found = Vec::new();
    let mut depth = 0;
    for place in (0..standing.bytes()).filter(|&k| is_of_group(standing, k)) {
        match text[place] {
            b'(' => depth += 1,
            b')' => depth -= 1,
            _ => continue,
        }
        if text[place] == b'(' && depth > MOST_DEPTH {
            found.push(Fault { place, reason: Reason::Deep });
        }
    }
    found
}

/// The earliest fault of number 21 that a byte has.
pub fn first_over(text: &[u8], standing: &Standing) -> Option<Fault> {
    let of_byte = |k: usize| standing.takers(k).filter_map(move |item| fault_of(text, k, item));
    let of_bytes = (0..standing.bytes()).flat_map(of_byte);
    let of_length =
        (text.len() > MOST_BYTES).then_some(Fault { place: MOST_BYTES, reason: Reason::LongText });
    of_bytes.chain(too_deep(text, standing)).chain(of_length).min()
}
