// Numbers 22 and 12, and those of the table's own check.

use super::aimed::{Aimed, Maker};
use super::pieces::{pieces, start_of, text_of, Piece, Token};
use super::sound::{childless, children, distinct, sound, sound_of};
use super::written::{names, Content, Dtd, Particle};
use crate::making::chance::Random;
use crate::table::MOST_CHILDREN;

pub const TABLES: &[(&str, Maker)] = &[
    ("a name declared before", declared_before),
    ("a name never declared", never_declared),
    ("names declared before and never declared", both),
    ("a group of over 16", wide),
    ("a group of 16", full_group),
    ("the same child twice", twice),
    ("recursive", recursive),
    ("not reached from the root", unused),
    ("over 4,096 privileges", many_privileges),
    ("4,096 privileges", full_privileges),
    ("a short result", short),
    ("done", taken),
];

fn aimed(r: &mut Random, dtd: &Dtd, number: usize, place: Option<usize>) -> Aimed {
    Aimed { text: text_of(&pieces(r, dtd)), number, place }
}

/// The earliest name of pieces that is declared before, or used and never declared.
pub fn first_wrong_name(pieces: &[Piece]) -> Option<usize> {
    let among = |pieces: &[Piece], name: &[u8]| {
        pieces.iter().any(|piece| piece.token == Token::Declared && piece.bytes == name)
    };
    let wrong = |k: &usize| match pieces[*k].token {
        Token::Declared => among(&pieces[..*k], &pieces[*k].bytes),
        Token::Used => !among(pieces, &pieces[*k].bytes),
        _ => false,
    };
    (0..pieces.len()).find(wrong).map(|k| start_of(pieces, k))
}

fn wrong_name(r: &mut Random, dtd: &Dtd) -> Aimed {
    let pieces = pieces(r, dtd);
    Aimed { text: text_of(&pieces), number: 22, place: first_wrong_name(&pieces) }
}

/// One name is declared once more, somewhere.
pub fn declare_again(r: &mut Random, dtd: &mut Dtd) {
    let (name, content) = dtd.declarations[r.below(dtd.declarations.len())].clone();
    let content = if r.one_in(2) { childless(r) } else { content };
    dtd.declarations.insert(r.below(dtd.declarations.len() + 1), (name, content));
}

/// A declaration is left out, but for the first.
pub fn leave_out(r: &mut Random, dtd: &mut Dtd) {
    let k = 1 + r.below(dtd.declarations.len() - 1);
    dtd.declarations.remove(k);
}

fn some(r: &mut Random) -> Dtd {
    let e = r.pick(&[2, 2, 3, 4, 5, 6]);
    sound_of(r, e)
}

fn declared_before(r: &mut Random) -> Aimed {
    let mut dtd = sound(r);
    declare_again(r, &mut dtd);
    wrong_name(r, &dtd)
}

fn never_declared(r: &mut Random) -> Aimed {
    let mut dtd = some(r);
    leave_out(r, &mut dtd);
    wrong_name(r, &dtd)
}

fn both(r: &mut Random) -> Aimed {
    let mut dtd = some(r);
    leave_out(r, &mut dtd);
    declare_again(r, &mut dtd);
    wrong_name(r, &dtd)
}

/// A text whose first type is a group of these names, or has it as its first made type; the place is
/// that of the group. Some of the names stand in groups of one.
fn grouped(r: &mut Random, entries: &[usize]) -> (Dtd, usize) {
    let entry = |name: usize, r: &mut Random| match r.below(8) {
        0 => names(b',', [name]),
        _ => Particle::name(name),
    };
    let particles = entries.iter().map(|&name| entry(name, r)).collect();
    let group = Particle::group(r.pick(b"|,"), particles);
    let last = entries.iter().copied().max().unwrap_or(0);
    let (whole, count, place) = match r.below(2) {
        0 => (group, last + 1, 0),
        _ => (Particle::group(b',', vec![Particle::name(last + 1), group]), last + 2, last + 2),
    };
    let mut declarations = vec![(0, Content::Children(whole))];
    declarations.extend((1..count).map(|name| (name, childless(r))));
    (Dtd { names: distinct(r, count), declarations }, place)
}

fn wide(r: &mut Random) -> Aimed {
    let count = MOST_CHILDREN + r.pick(&[1, 1, 2, 9]);
    let (dtd, place) = grouped(r, &Vec::from_iter(1..=count));
    aimed(r, &dtd, 4, Some(place))
}

fn full_group(r: &mut Random) -> Aimed {
    let (dtd, _) = grouped(r, &Vec::from_iter(1..=MOST_CHILDREN));
    aimed(r, &dtd, 0, None)
}

fn twice(r: &mut Random) -> Aimed {
    let count = r.pick(&[1, 2, 2, 3, 6, 15]);
    let mut entries = Vec::from_iter(1..=count);
    let again = r.pick(&entries);
    entries.insert(r.below(count + 1), again);
    let (dtd, place) = grouped(r, &entries);
    aimed(r, &dtd, 7, Some(place))
}

/// A childless type gets itself or the root as a child.
fn recursive(r: &mut Random) -> Aimed {
    let mut dtd = sound(r);
    let is_childless = |k: &usize| !matches!(dtd.declarations[*k].1, Content::Children(_));
    let such: Vec<usize> = (0..dtd.declarations.len()).filter(is_childless).collect();
    let k = r.pick(&such);
    let place = r.pick(&[0, k]);
    let child = dtd.declarations[place].0;
    dtd.declarations[k].1 = children(r, &[child]);
    aimed(r, &dtd, 19, Some(place))
}

/// One more declaration, of a name that is not used.
fn unused(r: &mut Random) -> Aimed {
    let mut dtd = sound(r);
    let name = dtd.names.len();
    let other = r.below(name);
    dtd.names = distinct(r, name + 1);
    let content = if r.one_in(2) { childless(r) } else { children(r, &[other]) };
    let place = 1 + r.below(dtd.declarations.len());
    dtd.declarations.insert(place, (name, content));
    aimed(r, &dtd, 8, Some(place))
}

/// So many choices, each of the next 16 names, and 16 texts.
pub fn ladder(r: &mut Random, choices: usize) -> Dtd {
    let below = |name: usize| Content::Children(names(b'|', name + 1..=name + MOST_CHILDREN));
    let mut declarations: Vec<(usize, Content)> = (0..choices).map(|name| (name, below(name))).collect();
    declarations.extend((choices..choices + MOST_CHILDREN).map(|name| (name, Content::Text(""))));
    Dtd { names: distinct(r, choices + MOST_CHILDREN + 1), declarations }
}

/// 17 choices and 16 texts have 4,096 privileges.
fn full_privileges(r: &mut Random) -> Aimed {
    let dtd = ladder(r, 17);
    aimed(r, &dtd, 0, Some(4096))
}

/// A text becomes a star, or there is one choice more.
fn many_privileges(r: &mut Random) -> Aimed {
    let mut dtd = ladder(r, 17);
    if r.one_in(2) {
        dtd = ladder(r, 18);
    } else {
        let last = dtd.names.len() - 1;
        let k = dtd.declarations.len() - 1 - r.below(MOST_CHILDREN);
        dtd.declarations[k].1 = Content::Children(names(b',', [last]).marked("*"));
        dtd.declarations.push((last, Content::Empty));
    }
    aimed(r, &dtd, 9, Some(0))
}

fn short(r: &mut Random) -> Aimed {
    let dtd = sound(r);
    aimed(r, &dtd, 12, Some(0))
}

fn taken(r: &mut Random) -> Aimed {
    let dtd = sound(r);
    aimed(r, &dtd, 0, None)
}
