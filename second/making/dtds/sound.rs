// Declarations by chance that are taken: each name is declared once and reached from the first, and none is below itself.

use super::written::{Base, Content, Dtd, Particle};
use crate::dtd::limits::MOST_NAME_BYTES;
use crate::making::chance::Random;

pub const MARKS: [&str; 4] = ["", "?", "*", "+"];

const STARTS: &[u8] = b"abcdefgxyzABEZ_:";
const OTHERS: &[u8] = b"abcdefgxyzABEZ_:0123456789-.";

/// Names that are keywords elsewhere.
const KEYWORDS: [&str; 5] = ["EMPTY", "ANY", "ANYX", "PCDATA", "ELEMENT"];

pub fn name_of(r: &mut Random, length: usize) -> Vec<u8> {
    let mut name = vec![r.pick(STARTS)];
    name.extend((1..length).map(|_| r.pick(OTHERS)));
    name
}

fn name(r: &mut Random) -> Vec<u8> {
    let short = 1 + r.below(4);
    match r.below(24) {
        0 => r.pick(&KEYWORDS).as_bytes().to_vec(),
        1 => name_of(r, MOST_NAME_BYTES),
        2 => name_of(r, 4 * short),
        _ => name_of(r, short),
    }
}

/// So many names, all different.
pub fn distinct(r: &mut Random, count: usize) -> Vec<Vec<u8>> {
    let mut names: Vec<Vec<u8>> = Vec::new();
    while names.len() < count {
        let name = name(r);
        if !names.contains(&name) {
            names.push(name);
        }
    }
    names
}

fn mark(r: &mut Random) -> &'static str {
    if r.one_in(2) {
        ""
    } else {
        r.pick(&MARKS)
    }
}

/// A run in at least two parts, none of them empty.
fn parts(r: &mut Random, names: &[usize]) -> Vec<Vec<usize>> {
    let cut = 1 + r.below(names.len() - 1);
    let (mut parts, mut part) = (Vec::new(), Vec::new());
    for (k, &name) in names.iter().enumerate() {
        if k > 0 && (k == cut || r.one_in(2)) {
            parts.push(std::mem::take(&mut part));
        }
        part.push(name);
    }
    parts.push(part);
    parts
}

/// A particle of these names, each of them once; sometimes in a group of its own.
pub fn particle(r: &mut Random, names: &[usize]) -> Particle {
    let base = match names {
        [name] => Base::Name(*name),
        _ => {
            let parts = parts(r, names);
            Base::Group(r.pick(b"|,"), parts.iter().map(|part| particle(r, part)).collect())
        }
    };
    let inner = Particle { base, mark: mark(r) };
    let wraps = r.pick(&[0, 0, 0, 0, 0, 1, 1, 2]);
    (0..wraps).fold(inner, |inner, _| Particle::group(b',', vec![inner]).marked(mark(r)))
}

/// The particle of a declaration is a group.
pub fn children(r: &mut Random, names: &[usize]) -> Content {
    let whole = particle(r, names);
    Content::Children(match whole.base {
        Base::Name(_) => Particle::group(b',', vec![whole]).marked(mark(r)),
        Base::Group(..) => whole,
    })
}

pub fn childless(r: &mut Random) -> Content {
    match r.below(3) {
        0 => Content::Empty,
        1 => Content::Text(""),
        _ => Content::Text("*"),
    }
}

/// For each of e names the names that it uses, all of them later ones, each of which is used.
fn uses(r: &mut Random, e: usize) -> Vec<Vec<usize>> {
    let mut uses = vec![Vec::new(); e];
    for later in 1..e {
        uses[r.below(later)].push(later);
    }
    for _ in 0..r.pick(&[0, 0, 1, 2, 3]) {
        let user = r.below(e);
        let used = user + r.below(e - user);
        if used > user && !uses[user].contains(&used) {
            uses[user].push(used);
        }
    }
    uses.iter_mut().for_each(|used| r.shuffle(used));
    uses
}

/// Declarations of so many names, the first in its place and the others in any order.
pub fn sound_of(r: &mut Random, e: usize) -> Dtd {
    let names = distinct(r, e);
    let mut declarations = Vec::new();
    for (name, used) in uses(r, e).iter().enumerate() {
        let content = if used.is_empty() { childless(r) } else { children(r, used) };
        declarations.push((name, content));
    }
    r.shuffle(&mut declarations[1..]);
    Dtd { names, declarations }
}

pub fn sound(r: &mut Random) -> Dtd {
    let e = r.pick(&[1, 2, 2, 3, 3, 3, 4, 4, 4, 5, 6, 8, 12]);
    sound_of(r, e)
}
