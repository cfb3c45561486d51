// A listing people can mail (request 10 of document 02): the line of each privilege, and the calls `write_listing` and `read_listing`.

use crate::answers::{refuse_at, refuse_if, Answer, Outcome};
use crate::carrying::{edits, Edit, Kind};
use crate::dtd::check_text;
use crate::format::Format;
use crate::table::{check_table, Table, ALLOWED, FORBIDDEN, UNSET};
use std::collections::HashMap;

/// The marks that a line can tell, each with its sign.
const SIGNS: [(u8, &str); 2] = [(ALLOWED, "+"), (FORBIDDEN, "-")];

/// A schema by its DTD text and a format: its table, the names of its types, and the lines of its privileges, without their signs.
pub struct Listed {
    pub table: Table,
    /// How many types are declared; the others are made.
    pub declared: usize,
    pub names: Vec<String>,
    pub lines: Vec<String>,
}

/// A privilege and its mark.
type Entry = (usize, u8);

/// A declared type has the name that it is declared with, a made one its number.
fn names_of(declared: &[Vec<u8>], types: usize) -> Vec<String> {
    let name = |of: usize| match declared.get(of) {
        Some(name) => String::from_utf8(name.clone()).expect("names are ASCII"),
        None => format!("#{}", of),
    };
    (0..types).map(name).collect()
}

fn line_of(names: &[String], edit: &Edit) -> String {
    let verb = match edit.kind {
        Kind::Text => "text",
        Kind::Insert => "insert",
        Kind::Delete => "delete",
        Kind::Replace => "replace",
    };
    let mut parts = vec![names[edit.of].as_str(), verb];
    parts.extend(edit.children.iter().map(|&child| names[child].as_str()));
    parts.join(" ")
}

impl Listed {
    /// 1, then 20 to 22, then the table's own numbers.
    pub fn of(text: &[u8], format: u16) -> Result<Listed, Answer> {
        let format = Format::of(format).ok_or(Answer { number: 1, ..Answer::default() })?;
        let declared = check_text(text)?;
        let table = check_table(&declared.words(format))?;
        let names = names_of(&declared.names, table.types.len());
        let lines = edits(&table).iter().map(|edit| line_of(&names, edit)).collect();
        Ok(Listed { table, declared: declared.count(), names, lines })
    }

    pub fn v(&self) -> usize {
        self.lines.len()
    }

    /// A privilege's line with the sign of its mark, newline ended; nothing where it is unset.
    fn signed(&self, privilege: usize, mark: u8) -> String {
        let sign = SIGNS.iter().find(|sign| sign.0 == mark);
        sign.map_or(String::new(), |sign| format!("{} {}\n", sign.1, self.lines[privilege]))
    }

    /// The listing of marks.
    pub fn listing(&self, marks: &[u8]) -> Vec<u8> {
        let lines = marks.iter().enumerate().map(|(privilege, &mark)| self.signed(privilege, mark));
        lines.collect::<String>().into_bytes()
    }

    /// Each line that there can be, and what it tells.
    pub fn entries(&self) -> HashMap<Vec<u8>, Entry> {
        let entry =
            |privilege: usize, mark: u8| (self.signed(privilege, mark).into_bytes(), (privilege, mark));
        (0..self.v()).flat_map(|privilege| SIGNS.map(|sign| entry(privilege, sign.0))).collect()
    }

    /// The marks that a listing tells: 25 and 26, the earliest line deciding.
    pub fn marks(&self, listing: &[u8]) -> Result<Vec<u8>, Answer> {
        let (entries, mut marks) = (self.entries(), vec![UNSET; self.v()]);
        let (mut start, mut lowest) = (0, 0);
        for line in lines(listing) {
            let refusal = |number: usize| Answer { number, place: start, ..Answer::default() };
            let &(privilege, mark) = entries.get(line).ok_or(refusal(25))?;
            if privilege < lowest {
                return Err(refusal(26));
            }
            marks[privilege] = mark;
            lowest = privilege + 1;
            start += line.len();
        }
        Ok(marks)
    }

    /// 10, 11 and 12; done, the place is the listing's length.
    pub fn write(&self, marks: &[u8], out: &mut [u8]) -> Outcome {
        refuse_if(10, marks.len() != self.v())?;
        refuse_at(11, marks.iter().position(|&mark| mark > FORBIDDEN))?;
        let listing = self.listing(marks);
        refuse_if(12, out.len() < listing.len())?;
        out[..listing.len()].copy_from_slice(&listing);
        Ok(Answer { place: listing.len(), ..Answer::default() })
    }

    /// 25 and 26, then 12.
    pub fn read(&self, listing: &[u8], out: &mut [u8]) -> Outcome {
        let marks = self.marks(listing)?;
        refuse_if(12, out.len() < marks.len())?;
        out[..marks.len()].copy_from_slice(&marks);
        Ok(Answer::default())
    }
}

/// The lines of a listing, each with its newline, which the last one may lack.
pub fn lines(listing: &[u8]) -> impl Iterator<Item = &[u8]> {
    listing.split_inclusive(|&byte| byte == b'\n')
}

pub fn write_listing(text: &[u8], format: u16, marks: &[u8], out: &mut [u8]) -> Outcome {
    Listed::of(text, format)?.write(marks, out)
}

pub fn read_listing(text: &[u8], format: u16, listing: &[u8], out: &mut [u8]) -> Outcome {
    Listed::of(text, format)?.read(listing, out)
}
