// Situations of lines that are not one of these (25) by their names.

use super::super::listing::{Listing, Situation};
use super::line::{parts, Line};

/// Where the type stands, and where a child may.
const TYPE: &[usize] = &[1];
const CHILD: &[usize] = &[3, 4];
const ANY: &[usize] = &[1, 3, 4];

/// Whether a part at one of these places is such, and with another in its place, of which that is known besides, the line is one.
fn instead(it: &Listing, places: &[usize], known: impl Fn(&Line, &str, &str) -> bool) -> bool {
    parts(it, |line, parts| {
        let is = |at: usize, name: &str| known(line, parts[at], name) && line.is_with(parts, at, name);
        places.iter().any(|&at| at < parts.len() && line.names().iter().any(|name| is(at, name)))
    })
}

fn is_name(part: &str) -> bool {
    let rest = |byte: u8| byte.is_ascii_alphanumeric() || b":_-.".contains(&byte);
    let is_first = |byte: &u8| rest(*byte) && !byte.is_ascii_digit() && !b"-.".contains(byte);
    part.as_bytes().first().is_some_and(is_first) && part.bytes().all(rest)
}

/// Whether a name is that of no type.
fn is_unknown(line: &Line, part: &str) -> bool {
    is_name(part) && line.type_of(part).is_none()
}

fn is_longer(name: &str, part: &str) -> bool {
    name.len() > part.len() && name.starts_with(part)
}

/// The number behind `#`, with or without zeros in front.
fn number(part: &str) -> Option<usize> {
    part.strip_prefix('#').and_then(|digits| digits.parse().ok())
}

/// Whether a part is `#` and a number that is by so many from a made type's.
fn is_off(part: &str, name: &str, by: isize) -> bool {
    let (told, own) = (number(part), number(name));
    told.zip(own).is_some_and(|(told, own)| told as isize == own as isize + by)
}

/// Whether a part is `#` and a number that has more than these bits, and the same ones as a made type's.
fn is_over(part: &str, name: &str, bits: u32) -> bool {
    let (told, own) = (number(part), number(name));
    told.zip(own).is_some_and(|(told, own)| told != own && told % (1 << bits) == own)
}

fn is_zeroed(part: &str, name: &str) -> bool {
    part.starts_with("#0") && number(part) == number(name)
}

/// Whether a part is `#` and the number of a declared type.
fn is_declared(line: &Line, part: &str, name: &str) -> bool {
    number(part).is_some_and(|of| of < line.declared() && line.type_of(name) == Some(of))
}

/// Whether a part is `#` and a number that is none of a type.
fn is_no_type(line: &Line, part: &str) -> bool {
    number(part).is_some_and(|of| of >= line.names().len())
}

fn is_made(name: &str) -> bool {
    name.starts_with('#')
}

pub const SITUATIONS: &[Situation] = &[
    ("25: an unknown type", |it| instead(it, TYPE, |line, part, _| is_unknown(line, part))),
    ("25: an unknown child", |it| instead(it, CHILD, |line, part, _| is_unknown(line, part))),
    ("25: a name cut", |it| {
        instead(it, ANY, |line, part, name| is_unknown(line, part) && is_longer(name, part))
    }),
    ("25: a name lengthened", |it| {
        instead(it, ANY, |line, part, name| is_unknown(line, part) && is_longer(part, name))
    }),
    ("25: another type's name, which begins the right one", |it| {
        instead(it, TYPE, |line, part, name| line.type_of(part).is_some() && is_longer(name, part))
    }),
    ("25: another type's name, which the right one begins", |it| {
        instead(it, TYPE, |line, part, name| line.type_of(part).is_some() && is_longer(part, name))
    }),
    ("25: another child's name, which begins the right one", |it| {
        instead(it, CHILD, |line, part, name| line.type_of(part).is_some() && is_longer(name, part))
    }),
    ("25: another child's name, which the right one begins", |it| {
        instead(it, CHILD, |line, part, name| line.type_of(part).is_some() && is_longer(part, name))
    }),
    ("25: a name in other case", |it| {
        instead(it, ANY, |line, part, name| is_unknown(line, part) && part.eq_ignore_ascii_case(name))
    }),
    ("25: a name in other case, which is another's", |it| {
        instead(it, ANY, |line, part, name| {
            line.type_of(part).is_some() && part != name && part.eq_ignore_ascii_case(name)
        })
    }),
    ("25: no name", |it| instead(it, ANY, |_, part, _| part.is_empty())),
    ("25: a zero in front of a made type's number", |it| {
        instead(it, TYPE, |_, part, name| is_zeroed(part, name))
    }),
    ("25: a zero in front of a made child's number", |it| {
        instead(it, CHILD, |_, part, name| is_zeroed(part, name))
    }),
    ("25: # alone", |it| instead(it, ANY, |_, part, name| part == "#" && is_made(name))),
    ("25: ## in place of #", |it| {
        instead(it, ANY, |_, part, name| is_made(name) && part[..] == *format!("#{}", name))
    }),
    ("25: a made type's number without #", |it| {
        instead(it, ANY, |_, part, name| is_made(name) && part == &name[1..])
    }),
    ("25: a sign in front of a made type's number", |it| {
        instead(it, ANY, |_, part, name| is_made(name) && part[..] == *format!("#+{}", &name[1..]))
    }),
    ("25: a declared type by # and its number", |it| instead(it, TYPE, is_declared)),
    ("25: a declared child by # and its number", |it| instead(it, CHILD, is_declared)),
    ("25: a made type's number one higher", |it| instead(it, ANY, |_, part, name| is_off(part, name, 1))),
    ("25: a made type's number one lower", |it| instead(it, ANY, |_, part, name| is_off(part, name, -1))),
    ("25: the number of no type", |it| instead(it, ANY, |line, part, _| is_no_type(line, part))),
    ("25: as many as the types are as a number", |it| {
        instead(it, ANY, |line, part, _| number(part) == Some(line.names().len()))
    }),
    ("25: a made type's number with 256 more", |it| {
        instead(it, ANY, |_, part, name| is_off(part, name, 256))
    }),
    ("25: a made type's number in its lower 16 bits", |it| {
        instead(it, ANY, |_, part, name| is_over(part, name, 16))
    }),
    ("25: a made type's number in its lower 32 bits", |it| {
        instead(it, ANY, |_, part, name| is_over(part, name, 32))
    }),
    ("25: a made type's number with a digit more", |it| {
        instead(it, ANY, |_, part, name| is_made(name) && is_longer(part, name))
    }),
];
