// Situations of lines that are not one of these (25) by their bytes: blanks, newlines, signs, verbs and parts.

use super::super::listing::{Listing, Situation};
use super::line::{line, parts, Line};

const VERBS: [&str; 4] = ["text", "insert", "delete", "replace"];

/// Whether the line is one without one of its bytes, and that byte is such where it stands.
fn without(it: &Listing, known: impl Fn(&Line, usize) -> bool) -> bool {
    let is = |line: &Line, at: usize| {
        known(line, at) && line.is(&[&line.bytes[..at], &line.bytes[at + 1..]].concat())
    };
    line(it, |line| line.is_ended && (0..line.bytes.len()).any(|at| is(line, at)))
}

/// Whether the line is one with another byte in place of one, and both are such.
fn instead(it: &Listing, known: impl Fn(u8, u8) -> bool) -> bool {
    let is = |line: &Line, at: usize, other: u8| {
        let mut bytes = line.bytes.to_vec();
        bytes[at] = other;
        known(line.bytes[at], other) && line.is(&bytes)
    };
    line(it, |line| {
        line.is_ended && (0..line.bytes.len()).any(|at| (0..128).any(|other| is(line, at, other)))
    })
}

/// Whether the line is one with a sign and a blank in front of this.
fn signed(line: &Line, bytes: &[u8]) -> bool {
    line.is(&[b"+ ", bytes].concat())
}

/// Whether the first part is such, and with a sign in its place the line is one.
fn sign(it: &Listing, known: impl Fn(&str) -> bool) -> bool {
    parts(it, |line, parts| known(parts[0]) && line.is_with(parts, 0, "+"))
}

/// Whether a part is no verb, and with a verb in its place, of which that is known besides, the line is one.
fn verb(it: &Listing, known: impl Fn(&str, &str) -> bool) -> bool {
    parts(it, |line, parts| {
        let is = |verb: &str| known(parts[2], verb) && line.is_with(parts, 2, verb);
        parts.len() > 2 && !VERBS.contains(&parts[2]) && VERBS.iter().any(|verb| is(verb))
    })
}

fn newline_missing(it: &Listing, known: impl Fn(&Line) -> bool) -> bool {
    line(it, |line| !line.is_ended && known(line))
}

fn is_in_two(line: &Line) -> bool {
    (1..line.bytes.len()).any(|at| line.is(&line.bytes[..at]) && line.is(&line.bytes[at..]))
}

pub const SITUATIONS: &[Situation] = &[
    ("25: the last line without its newline", |it| newline_missing(it, |line| line.is(line.bytes))),
    ("25: the last line cut", |it| newline_missing(it, |line| !line.is(line.bytes))),
    ("25: one line alone, without its newline", |it| {
        it.answer.place == 0 && newline_missing(it, |line| line.is(line.bytes))
    }),
    ("25: two lines without the newline between them", |it| line(it, is_in_two)),
    ("25: a newline in place of a blank", |it| {
        line(it, |line| {
            let next = line.rest.split(|&byte| byte == b'\n').next().unwrap_or(b"");
            line.is_ended && line.is(&[line.bytes, b" ", next].concat())
        })
    }),
    ("25: an empty line in front", |it| {
        line(it, |line| {
            line.is_ended && line.bytes.is_empty() && it.answer.place == 0 && !line.rest.is_empty()
        })
    }),
    ("25: an empty line between two lines", |it| {
        line(it, |line| line.bytes.is_empty() && it.answer.place > 0 && !line.rest.is_empty())
    }),
    ("25: an empty line at the end", |it| {
        line(it, |line| line.bytes.is_empty() && it.answer.place > 0 && line.rest.is_empty())
    }),
    ("25: a newline alone", |it| it.is_refused(25) && it.case.given == b"\n"),
    ("25: a blank doubled", |it| without(it, |line, at| at > 0 && line.bytes[at - 1..].starts_with(b"  "))),
    ("25: a blank in front", |it| without(it, |line, at| at == 0 && line.bytes[0] == b' ')),
    ("25: a blank at the end", |it| {
        without(it, |line, at| at + 1 == line.bytes.len() && line.bytes[at] == b' ')
    }),
    ("25: a tab in place of a blank", |it| instead(it, |byte, other| byte == b'\t' && other == b' ')),
    ("25: a carriage return before the newline", |it| {
        without(it, |line, at| at + 1 == line.bytes.len() && line.bytes[at] == b'\r')
    }),
    ("25: no blank behind the sign", |it| {
        line(it, |line| line.bytes.len() > 1 && line.is(&[&line.bytes[..1], b" ", &line.bytes[1..]].concat()))
    }),
    ("25: a blank missing between two parts", |it| {
        line(it, |line| {
            let with = |at: usize| [&line.bytes[..at], b" ", &line.bytes[at..]].concat();
            line.is_ended && (2..line.bytes.len()).any(|at| line.is(&with(at)))
        })
    }),
    ("25: a byte 0 in the line", |it| without(it, |line, at| line.bytes[at] == 0)),
    ("25: a byte from 128 on in the line", |it| without(it, |line, at| line.bytes[at] > 127)),
    ("25: a byte of the line with 128 more", |it| instead(it, |byte, other| byte == other + 128)),
    ("25: the sign missing", |it| line(it, |line| line.is_ended && signed(line, line.bytes))),
    ("25: the sign missing, its blank left", |it| {
        line(it, |line| line.is_ended && line.is(&[b"+", line.bytes].concat()))
    }),
    ("25: the sign doubled", |it| sign(it, |sign| ["++", "--"].contains(&sign))),
    ("25: both signs", |it| sign(it, |sign| ["+-", "-+"].contains(&sign))),
    ("25: a second sign, apart", |it| {
        line(it, |line| line.bytes.len() > 2 && b"+-".contains(&line.bytes[0]) && line.is(&line.bytes[2..]))
    }),
    ("25: another sign", |it| sign(it, |sign| sign.len() == 1 && !["+", "-"].contains(&sign))),
    ("25: a mark's digit as the sign", |it| sign(it, |sign| ["1", "2"].contains(&sign))),
    ("25: a line for an unset mark", |it| sign(it, |sign| ["0", "?"].contains(&sign))),
    ("25: a verb cut", |it| verb(it, |part, verb| part.len() < verb.len() && verb.starts_with(part))),
    ("25: a verb lengthened", |it| verb(it, |part, verb| part.len() > verb.len() && part.starts_with(verb))),
    ("25: a verb in other case", |it| verb(it, |part, verb| part.eq_ignore_ascii_case(verb))),
    ("25: another verb", |it| {
        verb(it, |part, verb| part.bytes().next().is_some_and(|first| first != verb.as_bytes()[0]))
    }),
    ("25: no verb", |it| {
        parts(it, |line, parts| {
            let is = |verb: &str| line.is_of(&[&parts[..2], &[verb], &parts[2..]].concat());
            parts.len() > 1 && VERBS.iter().any(|verb| is(verb))
        })
    }),
    ("25: a part too many", |it| {
        parts(it, |line, parts| {
            parts.len() > 2 && line.is_of(&parts[..parts.len() - 1]) && !parts[parts.len() - 1].is_empty()
        })
    }),
    ("25: a part too few", |it| {
        parts(it, |line, parts| {
            let is = |name: &str| line.is_of(&[parts, &[name]].concat());
            parts.len() > 2 && line.names().iter().any(|name| is(name))
        })
    }),
    ("25: the sign and the type alone", |it| {
        parts(it, |line, parts| {
            parts.len() == 2 && ["+", "-"].contains(&parts[0]) && line.type_of(parts[1]).is_some()
        })
    }),
    ("25: the sign alone", |it| line(it, |line| line.is_ended && (line.bytes == b"+" || line.bytes == b"-"))),
    ("25: the type and the verb exchanged", |it| {
        parts(it, |line, parts| {
            parts.len() > 2
                && parts[1] != parts[2]
                && line.is_of(&[&[parts[0], parts[2], parts[1]], &parts[3..]].concat())
        })
    }),
];
