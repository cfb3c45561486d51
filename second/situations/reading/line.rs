// A line that is not one of a privilege, and what it would have to be.

use super::super::listing::Listing;
use crate::listing::lines;

/// The line that is refused with 25, without its newline; it may have none.
pub struct Line<'a> {
    of: &'a Listing<'a>,
    pub bytes: &'a [u8],
    pub is_ended: bool,
    /// What follows it.
    pub rest: &'a [u8],
}

/// Whether the call is refused with 25, and that is known of the line.
pub fn line(it: &Listing, known: impl Fn(&Line) -> bool) -> bool {
    it.is_refused(25) && {
        let (all, place) = (&it.case.given[..], it.answer.place);
        let line = lines(&all[place..]).next().expect("a line that is refused");
        let bytes = line.strip_suffix(b"\n").unwrap_or(line);
        known(&Line { of: it, bytes, is_ended: bytes != line, rest: &all[place + line.len()..] })
    }
}

/// The same of its parts: what stands between blanks. The line has a newline, and all bytes are ASCII.
pub fn parts(it: &Listing, known: impl Fn(&Line, &[&str]) -> bool) -> bool {
    line(it, |line| {
        let text = std::str::from_utf8(line.bytes).unwrap_or("");
        line.is_ended && known(line, &text.split(' ').collect::<Vec<&str>>())
    })
}

impl Line<'_> {
    /// Whether these bytes, with a newline, are the line of a privilege.
    pub fn is(&self, bytes: &[u8]) -> bool {
        self.of.is_line(&[bytes, b"\n"].concat())
    }

    pub fn is_of(&self, parts: &[&str]) -> bool {
        self.is(parts.join(" ").as_bytes())
    }

    /// Whether the line is one if a part is another.
    pub fn is_with(&self, parts: &[&str], at: usize, part: &str) -> bool {
        let mut parts = parts.to_vec();
        parts[at] = part;
        self.is_of(&parts)
    }

    /// The names of all types.
    pub fn names(&self) -> &[String] {
        self.of.listed.as_ref().map_or(&[], |listed| &listed.names)
    }

    pub fn declared(&self) -> usize {
        self.of.listed.as_ref().map_or(0, |listed| listed.declared)
    }

    /// Which type has this name.
    pub fn type_of(&self, name: &str) -> Option<usize> {
        self.names().iter().position(|own| own == name)
    }

    /// The rule and the children of a type.
    pub fn rule(&self, of: usize) -> (u16, &[usize]) {
        let table = &self.of.listed.as_ref().expect("a line of a schema").table;
        (table.types[of].kind, &table.types[of].children)
    }
}
