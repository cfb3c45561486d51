// Schemas as DTD text: small ones with names of many kinds.

use super::super::chance::Random;
use super::super::dtds::pieces::{pieces, text_of};
use super::super::dtds::sound::{distinct, name_of, sound_of};
use super::super::dtds::written::{Base, Content, Dtd, Particle};
use super::Mailed;
use crate::dtd::limits::MOST_NAME_BYTES;
use crate::format::Format;
use crate::listing::Listed;

/// The most bytes and privileges of a small text.
const MOST_BYTES: usize = 420;
const MOST: usize = 36;

/// Names that begin others.
const BEGINNINGS: [&str; 10] =
    ["l", "lay", "layer", "layer2", "layer20", "layers", "layer-", "layer.b", "la", "layer_"];

/// Names that are verbs, or nearly.
const VERBS: [&str; 8] = ["text", "insert", "delete", "replace", "tex", "inserts", "Delete", "replace-"];

/// Names that differ in case only.
const CASES: [&str; 10] = ["job", "Job", "JOB", "a", "A", "joB", "layer", "Layer", "LAYER", "b"];

/// So many of these names, and others where they do not suffice.
fn some_of(r: &mut Random, pool: &[&str], count: usize) -> Vec<Vec<u8>> {
    let mut names: Vec<Vec<u8>> = pool.iter().map(|name| name.as_bytes().to_vec()).collect();
    r.shuffle(&mut names);
    names.truncate(count);
    while names.len() < count {
        let other = distinct(r, 1).remove(0);
        if !names.contains(&other) {
            names.push(other);
        }
    }
    names
}

/// Names of 32 bytes that differ in the last ones.
fn long_names(r: &mut Random, count: usize) -> Vec<Vec<u8>> {
    let start = name_of(r, MOST_NAME_BYTES - 2);
    let ends = (0..count).map(|k| format!("{}{}", (b'a' + k as u8 / 8) as char, k % 8));
    ends.map(|end| [&start[..], end.as_bytes()].concat()).collect()
}

fn names(r: &mut Random, count: usize) -> Vec<Vec<u8>> {
    match r.below(12) {
        0..=3 => some_of(r, &BEGINNINGS, count),
        4 | 5 => some_of(r, &VERBS, count),
        6 | 7 => some_of(r, &CASES, count),
        8 => long_names(r, count),
        _ => distinct(r, count),
    }
}

/// The same particle without marks, and with sequences only.
fn bare_particle(particle: &Particle) -> Particle {
    match &particle.base {
        Base::Name(name) => Particle::name(*name),
        Base::Group(_, parts) => Particle::group(b',', parts.iter().map(bare_particle).collect()),
    }
}

/// The same declarations without a privilege.
fn bare(dtd: Dtd) -> Dtd {
    let content = |content: &Content| match content {
        Content::Children(particle) => Content::Children(bare_particle(particle)),
        _ => Content::Empty,
    };
    let declarations = dtd.declarations.iter().map(|(name, own)| (*name, content(own))).collect();
    Dtd { declarations, ..dtd }
}

fn dtd(r: &mut Random) -> Dtd {
    let e = r.pick(&[1, 2, 2, 3, 3, 3, 4, 4, 5, 6]);
    let dtd = sound_of(r, e);
    let dtd = Dtd { names: names(r, e), ..dtd };
    if r.one_in(10) {
        bare(dtd)
    } else {
        dtd
    }
}

/// A small text that is taken.
pub fn small(r: &mut Random, format: Format) -> Mailed {
    loop {
        let dtd = dtd(r);
        let text = text_of(&pieces(r, &dtd));
        if text.len() > MOST_BYTES {
            continue;
        }
        match Listed::of(&text, format.word()) {
            Ok(listed) if listed.v() <= MOST => return Mailed { format, text, listed },
            _ => continue,
        }
    }
}
