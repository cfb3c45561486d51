// Number 21 and its borders: names, depth, length, types and entries.

use super::aimed::{Aimed, Maker};
use super::cuts::foreign_byte;
use super::likes::{before, behind, like, LIKES};
use super::pieces::{pieces, start_of, text_of, Piece, Token};
use super::sound::{childless, distinct, name_of, sound, MARKS};
use super::written::{names, Content, Dtd, Particle};
use crate::dtd::limits::{MOST_BYTES, MOST_DEPTH, MOST_NAME_BYTES};
use crate::making::chance::Random;
use crate::table::{MOST_CHILDREN, MOST_ENTRIES, MOST_TYPES};

pub const LIMITS: &[(&str, Maker)] = &[
    ("21 for ANY", any),
    ("21 for mixed content", mixed),
    ("a long name declared", long_name_declared),
    ("a long name used", long_name_used),
    ("names as long as may be", full_names),
    ("too deep", too_deep),
    ("as deep as may be", full_depth),
    ("over 256 types made", many_made),
    ("256 types", full_types),
    ("over 1,024 entries", many_entries),
    ("an early end and over 256 types", many_and_early_end),
];

/// Those whose texts are long.
pub const LARGE: &[(&str, Maker)] = &[
    ("65,536 bytes", full_length),
    ("over 65,536 bytes", too_long),
    ("not the grammar at byte 65,536", wrong_at_border),
    ("ANY just before byte 65,536", any_at_border),
    ("over 65,536 bytes, and not the grammar before", wrong_before_border),
    ("one group of over 16,000 names", crowded),
    ("groups over 32,000 deep", very_deep),
    ("over 256 types declared", many_declared),
    ("one name declared 257 times", many_times),
    ("1,024 entries", full_entries),
];

fn over(text: Vec<u8>, place: usize) -> Aimed {
    Aimed { text, number: 21, place: Some(place) }
}

/// A text that is over what may be as a whole.
fn over_at_length(text: Vec<u8>) -> Aimed {
    let place = text.len();
    over(text, place)
}

fn done(text: Vec<u8>) -> Aimed {
    Aimed { text, number: 0, place: None }
}

fn written(r: &mut Random, dtd: &Dtd) -> Vec<u8> {
    text_of(&pieces(r, dtd))
}

/// One of the texts like which a text is over, with this in it.
fn like_one_with(r: &mut Random, what: &str) -> Aimed {
    let texts = LIKES.into_iter().filter(|(number, text)| *number == 21 && text.contains(what));
    let (number, text) = r.pick(&Vec::from_iter(texts));
    like(r, number, text)
}

fn any(r: &mut Random) -> Aimed {
    like_one_with(r, "ANY")
}

fn mixed(r: &mut Random) -> Aimed {
    like_one_with(r, "#PCDATA")
}

/// What stands before, a long name, and what follows.
fn long_name(r: &mut Random, start: &str) -> Aimed {
    let mut text = before(r);
    text.extend(start.bytes());
    let place = text.len() + MOST_NAME_BYTES;
    let length = MOST_NAME_BYTES + r.pick(&[1, 1, 2, 40]);
    text.extend(name_of(r, length));
    text.extend(behind(r));
    over(text, place)
}

fn long_name_declared(r: &mut Random) -> Aimed {
    long_name(r, "<!ELEMENT ")
}

fn long_name_used(r: &mut Random) -> Aimed {
    let start = r.pick(&["<!ELEMENT a (", "<!ELEMENT a (b,(c*|", "<!ELEMENT a ((b)+ , "]);
    long_name(r, start)
}

fn full_names(r: &mut Random) -> Aimed {
    let mut dtd = sound(r);
    dtd.names.iter_mut().for_each(|name| *name = name_of(r, MOST_NAME_BYTES));
    done(written(r, &dtd))
}

fn too_deep(r: &mut Random) -> Aimed {
    let mut text = before(r);
    text.extend(b"<!ELEMENT a ");
    let mut place = 0;
    let levels = MOST_DEPTH + r.pick(&[1, 1, 2, 30]);
    for level in 1..=levels {
        place = if level == MOST_DEPTH + 1 { text.len() } else { place };
        text.push(b'(');
        // A group that is closed before counts no more.
        let beside = if level + 2 <= MOST_DEPTH { "((b)?|c)," } else { "b|" };
        text.extend(r.pick(&["", "", "b?,", " ", beside]).bytes());
    }
    text.extend(behind(r));
    over(text, place)
}

fn full_depth(r: &mut Random) -> Aimed {
    let deep = |inner: Particle, r: &mut Random| Particle::group(b',', vec![inner]).marked(r.pick(&MARKS));
    let whole = (0..MOST_DEPTH).fold(Particle::name(1), |inner, _| deep(inner, r));
    let declarations = vec![(0, Content::Children(whole)), (1, childless(r))];
    let dtd = Dtd { names: distinct(r, 2), declarations };
    done(written(r, &dtd))
}

/// Pieces of a text with so many bytes more in blanks or in a comment.
fn stretched(r: &mut Random, pieces: &mut [Piece], more: usize) {
    let stretches = |k: &usize| [Token::Space, Token::Blank, Token::Comment].contains(&pieces[*k].token);
    let such: Vec<usize> = (0..pieces.len()).filter(stretches).collect();
    let piece = &mut pieces[r.pick(&such)];
    let at = if piece.token == Token::Comment { 4 } else { 0 };
    let blank = r.pick(b" \n\t\r");
    piece.bytes.splice(at..at, vec![blank; more]);
}

/// A sound text of so many bytes.
fn long(r: &mut Random, length: usize) -> Vec<u8> {
    let dtd = sound(r);
    let mut pieces = pieces(r, &dtd);
    let more = length - text_of(&pieces).len();
    stretched(r, &mut pieces, more);
    text_of(&pieces)
}

fn full_length(r: &mut Random) -> Aimed {
    done(long(r, MOST_BYTES))
}

fn too_long(r: &mut Random) -> Aimed {
    let length = MOST_BYTES + r.pick(&[1, 1, 1, 2, 50]);
    over(long(r, length), MOST_BYTES)
}

/// A text where what stands before such a piece is stretched to so many bytes, and the rest of it.
fn split(r: &mut Random, dtd: &Dtd, token: Token, length: usize) -> (Vec<u8>, Vec<u8>) {
    let mut pieces = pieces(r, dtd);
    let k = pieces.iter().position(|piece| piece.token == token).expect("a piece of the text");
    let more = length - start_of(&pieces, k);
    stretched(r, &mut pieces[..k], more);
    (text_of(&pieces[..k]), text_of(&pieces[k..]))
}

fn wrong_at_border(r: &mut Random) -> Aimed {
    let dtd = sound(r);
    let token = r.pick(&[Token::Declared, Token::End]);
    let (mut text, rest) = split(r, &dtd, token, MOST_BYTES);
    text.push(foreign_byte(r));
    text.extend(rest);
    Aimed { text, number: 20, place: Some(MOST_BYTES) }
}

/// ANY at the border, some of it behind it or nothing.
fn any_at_border(r: &mut Random) -> Aimed {
    let mut dtd = sound(r);
    dtd.declarations[0].1 = Content::Any;
    let place = MOST_BYTES - r.pick(&[1, 2, 3]);
    let (text, rest) = split(r, &dtd, Token::Any, place);
    over([text, rest].concat(), place)
}

/// A text that is too long, and whose fault is an earlier one.
fn wrong_before_border(r: &mut Random) -> Aimed {
    let text = b"<!ELEMENT a EMPTY^ ".to_vec();
    let place = text.len() - 2;
    let rest = long(r, MOST_BYTES);
    Aimed { text: [text, rest].concat(), number: 20, place: Some(place) }
}

/// One group with so many names that there is room for no more.
fn crowded(r: &mut Random) -> Aimed {
    let names = vec![r.pick(&["a", "a?", "a+"]); MOST_BYTES / 4].join(r.pick(&["|", ","]));
    over_at_length(format!("<!ELEMENT a ({})>", names).into_bytes())
}

/// Groups in groups up to the border, all of them closed or none.
fn very_deep(r: &mut Random) -> Aimed {
    let depth = (MOST_BYTES - 20) / 2;
    let text = b"<!ELEMENT a ".to_vec();
    let place = text.len() + MOST_DEPTH;
    let closed = [vec![b'a'], vec![b')'; depth], vec![b'>']].concat();
    let rest = if r.one_in(2) { closed } else { Vec::new() };
    over([text, vec![b'('; depth], rest].concat(), place)
}

fn many_declared(r: &mut Random) -> Aimed {
    let count = MOST_TYPES + r.pick(&[1, 1, 2]);
    let declarations = (0..count).map(|name| (name, Content::Empty)).collect();
    let dtd = Dtd { names: distinct(r, count), declarations };
    over_at_length(written(r, &dtd))
}

fn many_times(r: &mut Random) -> Aimed {
    let declarations = (0..MOST_TYPES + 1).map(|_| (0, childless(r))).collect();
    let dtd = Dtd { names: distinct(r, 1), declarations };
    over_at_length(written(r, &dtd))
}

/// So many types, few of them declared: 16 names with marks, in groups of one with marks, and so on.
pub fn made(r: &mut Random, types: usize) -> Dtd {
    let mut particles: Vec<Particle> = (1..=MOST_CHILDREN).map(Particle::name).collect();
    let mut left = types - 1 - MOST_CHILDREN;
    for turn in 0.. {
        if left == 0 {
            break;
        }
        let mark = if left == 1 { "*" } else { r.pick(&["?", "+", "?", "+", "*"]) };
        left -= if mark == "*" { 1 } else { 2 };
        let inner = particles.remove(0);
        let is_name = turn < MOST_CHILDREN;
        particles.push(if is_name { inner } else { Particle::group(b',', vec![inner]) }.marked(mark));
    }
    let mut declarations = vec![(0, Content::Children(Particle::group(b',', particles)))];
    declarations.extend((1..=MOST_CHILDREN).map(|name| (name, Content::Empty)));
    Dtd { names: distinct(r, 1 + MOST_CHILDREN), declarations }
}

fn many_made(r: &mut Random) -> Aimed {
    let types = MOST_TYPES + r.pick(&[1, 1, 2, 40]);
    let dtd = made(r, types);
    over_at_length(written(r, &dtd))
}

/// A chain of sequences of one.
fn chain(r: &mut Random) -> Dtd {
    let mut declarations: Vec<(usize, Content)> =
        (1..MOST_TYPES).map(|next| (next - 1, Content::Children(names(b',', [next])))).collect();
    declarations.push((MOST_TYPES - 1, Content::Empty));
    Dtd { names: distinct(r, MOST_TYPES), declarations }
}

fn full_types(r: &mut Random) -> Aimed {
    let dtd = if r.one_in(4) { chain(r) } else { made(r, MOST_TYPES) };
    done(written(r, &dtd))
}

/// One group with all entries, few of them different.
fn many_entries(r: &mut Random) -> Aimed {
    let count = MOST_ENTRIES + r.pick(&[1, 1, 2]);
    let whole = names(r.pick(b"|,"), (0..count).map(|k| 1 + k % 3));
    let declarations = vec![(0, Content::Children(whole)), (1, Content::Empty), (2, Content::Empty)];
    let dtd = Dtd { names: distinct(r, 4), declarations };
    over_at_length(written(r, &dtd))
}

/// 64 sequences, each of the next 16 names.
fn full_entries(r: &mut Random) -> Aimed {
    let count = MOST_ENTRIES / MOST_CHILDREN;
    let below = |name: usize| Content::Children(names(b',', name + 1..name + 1 + MOST_CHILDREN));
    let mut declarations: Vec<(usize, Content)> = (0..count).map(|name| (name, below(name))).collect();
    declarations.extend((count..count + MOST_CHILDREN).map(|name| (name, Content::Empty)));
    let dtd = Dtd { names: distinct(r, count + MOST_CHILDREN), declarations };
    done(written(r, &dtd))
}

fn many_and_early_end(r: &mut Random) -> Aimed {
    let mut text = many_made(r).text;
    text.extend(b"<!ELEMENT a EMPTY");
    let place = text.len();
    Aimed { text, number: 20, place: Some(place) }
}
