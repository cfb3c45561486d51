// Another reading of a listing: byte by byte, by sign, names and verb, with the privilege counted from its type's first.

use crate::format::Format;
use crate::listing::Listed;
use crate::table::{CHOICE, STAR, TEXT};

/// What is left of a listing.
struct Tokens<'a>(&'a [u8]);

impl<'a> Tokens<'a> {
    fn byte(&mut self, wanted: u8) -> Option<()> {
        let (&first, rest) = self.0.split_first()?;
        self.0 = rest;
        (first == wanted).then_some(())
    }

    /// The mark that a sign stands for.
    fn sign(&mut self) -> Option<u8> {
        let (&first, rest) = self.0.split_first()?;
        self.0 = rest;
        match first {
            b'+' => Some(1),
            b'-' => Some(2),
            _ => None,
        }
    }

    /// A blank and what stands up to the next blank or newline.
    fn word(&mut self) -> Option<&'a [u8]> {
        self.byte(b' ')?;
        let length = self.0.iter().position(|byte| b" \n".contains(byte))?;
        let (word, rest) = self.0.split_at(length);
        self.0 = rest;
        Some(word)
    }
}

/// A decimal number without a zero in front.
fn decimal(digits: &[u8]) -> Option<usize> {
    if digits.is_empty() || digits.len() > 1 && digits[0] == b'0' {
        return None;
    }
    digits.iter().try_fold(0, |number: usize, digit| match digit {
        b'0'..=b'9' => number.checked_mul(10)?.checked_add((digit - b'0') as usize),
        _ => None,
    })
}

/// The type that a word names.
fn type_of(listed: &Listed, word: &[u8]) -> Option<usize> {
    match word.split_first()? {
        (b'#', digits) => {
            let number = decimal(digits)?;
            (listed.declared..listed.table.types.len()).contains(&number).then_some(number)
        }
        _ => listed.names[..listed.declared].iter().position(|name| name.as_bytes() == word),
    }
}

/// The next word as the position of one of these types.
fn position(listed: &Listed, tokens: &mut Tokens, children: &[usize]) -> Option<usize> {
    let child = type_of(listed, tokens.word()?)?;
    children.iter().position(|&own| own == child)
}

/// How many privileges of a type stand before the one that its verb and its children tell.
fn offset(listed: &Listed, tokens: &mut Tokens, of: usize) -> Option<usize> {
    let (kind, children) = (listed.table.types[of].kind, &listed.table.types[of].children[..]);
    let (format, n) = (listed.table.format, children.len());
    let verb = tokens.word()?;
    let mut child = || position(listed, tokens, children);
    match (kind, verb, format) {
        (TEXT, b"text", _) => Some(0),
        (STAR, b"insert", _) => child().map(|_| 0),
        (STAR, b"delete", _) => child().map(|_| 1),
        (STAR, b"replace", Format::Two) => child().and(child()).map(|_| 2),
        (CHOICE, b"replace", Format::Two) => Some(n * child()? + child()?),
        (CHOICE, b"replace", Format::One) => match (child()?, child()?) {
            (i, j) if j < i => Some((n - 1) * i + j),
            (i, j) if j > i => Some((n - 1) * i + j - 1),
            _ => None,
        },
        _ => None,
    }
}

/// A privilege and its mark.
fn line(listed: &Listed, tokens: &mut Tokens) -> Option<(usize, u8)> {
    let mark = tokens.sign()?;
    let of = type_of(listed, tokens.word()?)?;
    let privilege = listed.table.first[of] + offset(listed, tokens, of)?;
    tokens.byte(b'\n')?;
    Some((privilege, mark))
}

/// The marks, or a number and a place.
pub fn marks(listed: &Listed, listing: &[u8]) -> Result<Vec<u8>, [usize; 2]> {
    let mut marks = vec![0; listed.v()];
    let mut last = None;
    let mut tokens = Tokens(listing);
    while !tokens.0.is_empty() {
        let place = listing.len() - tokens.0.len();
        let (privilege, mark) = line(listed, &mut tokens).ok_or([25, place])?;
        if last >= Some(privilege) {
            return Err([26, place]);
        }
        marks[privilege] = mark;
        last = Some(privilege);
    }
    Ok(marks)
}
