// Texts damaged by one byte.

use crate::making::chance::Random;

/// Bytes of the grammar, and a few others.
const BYTES: &[u8] = b"<!ELEMENT-> (#PCDATA)|,?*+aZ_:.0\n\t\x00\x7F\x80\xFF%&;[]";

/// A text with a byte changed, put in, left out, or cut off there; and its place: what stands before it is as it was.
pub fn damaged(r: &mut Random, mut text: Vec<u8>) -> (Vec<u8>, usize) {
    let place = r.below(text.len());
    let byte = r.pick(BYTES);
    match r.below(8) {
        0..=2 => text[place] = byte,
        3 | 4 => text.insert(place, byte),
        5 | 6 => drop(text.remove(place)),
        _ => text.truncate(place),
    }
    (text, place)
}
