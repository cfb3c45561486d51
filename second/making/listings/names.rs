// Ways to put another name into a line. Each has the name of the situation that it is for.

use super::super::chance::Random;
use super::super::dtds::sound::distinct;
use super::lines::{line_of, parts, Lines, Way};
use super::Mailed;

/// Where the type stands, and where a child may.
const TYPE: &[usize] = &[1];
const CHILD: &[usize] = &[3, 4];
const ANY: &[usize] = &[1, 3, 4];

/// Gives a name at one of these places another one, where that is to be had.
fn rename(
    r: &mut Random,
    lines: &mut Lines,
    places: &[usize],
    other: impl Fn(&mut Random, &str) -> Option<String>,
) {
    let mut spots: Vec<(usize, usize)> =
        (0..lines.len()).flat_map(|k| places.iter().map(move |&at| (k, at))).collect();
    r.shuffle(&mut spots);
    for (k, at) in spots {
        let mut parts = parts(&lines[k]);
        if let Some(other) = parts.get(at).and_then(|name| other(r, name)) {
            parts[at] = other;
            lines[k] = line_of(&parts);
            return;
        }
    }
}

fn is_known(base: &Mailed, name: &str) -> bool {
    base.listed.names.iter().any(|own| own == name)
}

/// A name that no type has.
fn unknown(r: &mut Random, base: &Mailed) -> Option<String> {
    let name = String::from_utf8(distinct(r, 1).remove(0)).ok()?;
    Some(name).filter(|name| !is_known(base, name))
}

/// One of the types' names of which that is known.
fn another(r: &mut Random, base: &Mailed, known: impl Fn(&str) -> bool) -> Option<String> {
    let names: Vec<&String> = base.listed.names.iter().filter(|name| known(name)).collect();
    if names.is_empty() {
        return None;
    }
    Some(r.pick(&names).clone())
}

fn is_longer(name: &str, other: &str) -> bool {
    name.len() > other.len() && name.starts_with(other)
}

/// The number of a made type.
fn number(name: &str) -> Option<usize> {
    name.strip_prefix('#').and_then(|digits| digits.parse().ok())
}

/// A made type's number by another number.
fn renumber(r: &mut Random, lines: &mut Lines, other: impl Fn(&mut Random, usize) -> usize) {
    rename(r, lines, ANY, |r, name| number(name).map(|own| format!("#{}", other(r, own))))
}

/// A made type by other bytes.
fn respell(r: &mut Random, lines: &mut Lines, places: &[usize], other: impl Fn(usize) -> String) {
    rename(r, lines, places, |_, name| number(name).map(&other))
}

/// The other case, of one letter or of all.
fn other_case(r: &mut Random, name: &str) -> String {
    let at = r.below(name.len());
    let all = r.one_in(2);
    let turn = |letter: char| match letter.is_ascii_uppercase() {
        true => letter.to_ascii_lowercase(),
        false => letter.to_ascii_uppercase(),
    };
    name.char_indices().map(|(k, letter)| if all || k == at { turn(letter) } else { letter }).collect()
}

/// A declared type by its number.
fn by_number(base: &Mailed, name: &str) -> Option<String> {
    let of = base.listed.names.iter().position(|own| own == name)?;
    Some(format!("#{}", of)).filter(|_| of < base.listed.declared)
}

pub const WAYS: &[Way] = &[
    ("25: an unknown type", |r, base, lines| rename(r, lines, TYPE, |r, _| unknown(r, base))),
    ("25: an unknown child", |r, base, lines| rename(r, lines, CHILD, |r, _| unknown(r, base))),
    ("25: a name cut", |r, base, lines| {
        rename(r, lines, ANY, |_, name| {
            let cut = &name[..name.len() - 1];
            Some(cut.to_string()).filter(|cut| !cut.is_empty() && cut != "#" && !is_known(base, cut))
        })
    }),
    ("25: a name lengthened", |r, base, lines| {
        rename(r, lines, ANY, |r, name| {
            let longer = format!("{}{}", name, r.pick(&["a", "2", "-", "s"]));
            Some(longer).filter(|longer| number(name).is_none() && !is_known(base, longer))
        })
    }),
    ("25: another type's name, which begins the right one", |r, base, lines| {
        rename(r, lines, TYPE, |r, name| another(r, base, |other| is_longer(name, other)))
    }),
    ("25: another type's name, which the right one begins", |r, base, lines| {
        rename(r, lines, TYPE, |r, name| another(r, base, |other| is_longer(other, name)))
    }),
    ("25: another child's name, which begins the right one", |r, base, lines| {
        rename(r, lines, CHILD, |r, name| another(r, base, |other| is_longer(name, other)))
    }),
    ("25: another child's name, which the right one begins", |r, base, lines| {
        rename(r, lines, CHILD, |r, name| another(r, base, |other| is_longer(other, name)))
    }),
    ("25: a name in other case", |r, base, lines| {
        rename(r, lines, ANY, |r, name| {
            let other = other_case(r, name);
            Some(other).filter(|other| other != name && !is_known(base, other))
        })
    }),
    ("25: a name in other case, which is another's", |r, base, lines| {
        rename(r, lines, ANY, |r, name| {
            another(r, base, |other| other != name && other.eq_ignore_ascii_case(name))
        })
    }),
    ("25: no name", |r, _, lines| rename(r, lines, ANY, |_, _| Some(String::new()))),
    ("25: a zero in front of a made type's number", |r, _, lines| {
        let zeros = r.pick(&["0", "0", "00", "000000"]);
        respell(r, lines, TYPE, |own| format!("#{}{}", zeros, own))
    }),
    ("25: a zero in front of a made child's number", |r, _, lines| {
        let zeros = r.pick(&["0", "0", "00", "000000"]);
        respell(r, lines, CHILD, |own| format!("#{}{}", zeros, own))
    }),
    ("25: # alone", |r, _, lines| respell(r, lines, ANY, |_| "#".to_string())),
    ("25: ## in place of #", |r, _, lines| respell(r, lines, ANY, |own| format!("##{}", own))),
    ("25: a made type's number without #", |r, _, lines| respell(r, lines, ANY, |own| own.to_string())),
    ("25: a sign in front of a made type's number", |r, _, lines| {
        respell(r, lines, ANY, |own| format!("#+{}", own))
    }),
    ("25: a declared type by # and its number", |r, base, lines| {
        rename(r, lines, TYPE, |_, name| by_number(base, name))
    }),
    ("25: a declared child by # and its number", |r, base, lines| {
        rename(r, lines, CHILD, |_, name| by_number(base, name))
    }),
    ("25: a made type's number one higher", |r, _, lines| renumber(r, lines, |_, own| own + 1)),
    ("25: a made type's number one lower", |r, _, lines| renumber(r, lines, |_, own| own - 1)),
    ("25: the number of no type", |r, base, lines| {
        renumber(r, lines, |r, _| base.listed.names.len() + r.pick(&[1, 2, 90, 900]))
    }),
    ("25: as many as the types are as a number", |r, base, lines| {
        renumber(r, lines, |_, _| base.listed.names.len())
    }),
    ("25: a made type's number with 256 more", |r, _, lines| renumber(r, lines, |_, own| own + 256)),
    ("25: a made type's number in its lower 16 bits", |r, _, lines| {
        renumber(r, lines, |r, own| own + r.pick(&[1, 1, 2, 65_535]) * 65_536)
    }),
    ("25: a made type's number in its lower 32 bits", |r, _, lines| {
        renumber(r, lines, |r, own| own + r.pick(&[1, 1, 16, 4_294_967_295]) * 4_294_967_296)
    }),
    ("25: a made type's number with a digit more", |r, _, lines| {
        renumber(r, lines, |r, own| 10 * own + r.below(10))
    }),
];
