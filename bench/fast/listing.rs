// The listing. The schema is read by the proved `read_dtd`, since there is no fast make of that, and what it accepts is trusted here: the names of the
// declared types are found by a scan of the text for `<` and `>`, 32 bytes at a time. A line is a head, which ends with a blank, a last part and a
// newline; the heads of a choice are made once for each row. The length of a listing is summed up before anything is put. Parts are put in pieces
// of one size where there is room for these: what stands behind a part is overwritten by the next one. A line is read where it has to stand, since
// lines ascend: the types, the rows and the kinds in a row are passed once, and each is held against the next line. Only a line that is found nowhere
// is looked for from the first privilege on, to tell 26 from 25. Where privileges are few, room is taken, and filled with zeros, for few.

use super::{
    check_marks, children, positions, privileges_of, read_choice, refused, row_length, Privileges,
    Record, Refusal, ALLOWED, MOST_PRIVILEGES, ONE, PRIVILEGES, STAR, TEXT, TWO,
};
use crate::calls::Outcome;
use crate::proved;

/// How many words a table can have.
const MOST_WORDS: usize = 1800;

/// How many privileges are few, and how many a table can have.
const FEW: usize = 256;
const ALL: usize = MOST_PRIVILEGES;

// ---------------------------------------------------------------- names

/// How many bytes are looked at, and put, at once.
const PIECE: usize = 32;

/// What stands in a line between blanks, a name or a word of the edit: its bytes, and anything behind them.
#[derive(Clone, Copy)]
struct Part {
    bytes: [u8; PIECE],
    length: usize,
}

impl Part {
    const NONE: Part = Part { bytes: [0; PIECE], length: 0 };

    const fn of(word: &[u8]) -> Part {
        let mut part = Part { length: word.len(), ..Part::NONE };
        let mut k = 0;
        while k < word.len() {
            part.bytes[k] = word[k];
            k += 1;
        }
        part
    }

    /// The name of a made type.
    fn made(x: usize) -> Part {
        let [hundreds, tens, ones] = [x / 100, x / 10 % 10, x % 10].map(|digit| b'0' + digit as u8);
        match x {
            0..10 => Part::of(&[b'#', ones]),
            10..100 => Part::of(&[b'#', tens, ones]),
            _ => Part::of(&[b'#', hundreds, tens, ones]),
        }
    }
}

const TEXT_OF: Part = Part::of(b"text");
const INSERT: Part = Part::of(b"insert");
const DELETE: Part = Part::of(b"delete");
const REPLACE: Part = Part::of(b"replace");

/// Where the first such byte stands, from a place on; the text's length if there is none.
fn find(text: &[u8], from: usize, byte: u8) -> usize {
    let (pieces, rest) = text[from..].as_chunks::<PIECE>();
    let has = |piece: &[u8; PIECE]| piece.iter().fold(false, |any, &it| any | (it == byte));
    let place = |piece: &[u8]| piece.iter().position(|&it| it == byte).unwrap_or(piece.len());
    match pieces.iter().position(has) {
        Some(k) => from + PIECE * k + place(&pieces[k]),
        None => from + PIECE * pieces.len() + place(rest),
    }
}

/// The place behind a comment, whose own bytes begin at a place.
fn behind_comment(text: &[u8], start: usize) -> usize {
    let mut at = start + 2;
    loop {
        let end = find(text, at, b'>');
        if end >= text.len() || &text[end - 2..end] == b"--" {
            return end + 1;
        }
        at = end + 1;
    }
}

/// Where a name stands in the text.
#[derive(Clone, Copy, Default)]
struct Span {
    start: u16,
    length: u8,
}

struct Names<'a> {
    text: &'a [u8],
    declared: [Span; 256],
    count: usize,
}

impl<'a> Names<'a> {
    fn of(text: &'a [u8]) -> Names<'a> {
        let mut names = Names { text, declared: [Span::default(); 256], count: 0 };
        let mut at = find(text, 0, b'<');
        while at < text.len() {
            let behind = if text[at + 2] == b'-' {
                behind_comment(text, at + "<!--".len())
            } else {
                let end = names.add(at + "<!ELEMENT".len());
                find(text, end, b'>') + 1
            };
            at = find(text, behind.min(text.len()), b'<');
        }
        names
    }

    /// Adds the name that stands behind some blanks, and gives its end.
    fn add(&mut self, from: usize) -> usize {
        let count = |from: usize, is: fn(&u8) -> bool| {
            self.text[from..].iter().take_while(|byte| is(byte)).count()
        };
        let start = from + count(from, |&byte| byte <= b' ');
        let length = count(start, |&byte| byte > b' ');
        self.declared[self.count & 255] = Span { start: start as u16, length: length as u8 };
        self.count += 1;
        start + length
    }

    fn part(&self, x: usize) -> Part {
        if x >= self.count {
            return Part::made(x);
        }
        let Span { start, length } = self.declared[x & 255];
        let (from, length) = (&self.text[start as usize..], length as usize);
        match from.first_chunk() {
            Some(&bytes) => Part { bytes, length },
            None => Part::of(&from[..length]),
        }
    }
}

// ---------------------------------------------------------------- the schema

struct Schema<'a> {
    is_two: bool,
    privileges: &'static Privileges,
    records: &'a [Record],
    list: &'a [u16],
    v: usize,
    names: Names<'a>,
}

fn read_schema<'a>(
    text: &'a [u8],
    format: u16,
    words: &'a mut [u16; MOST_WORDS],
) -> Result<Schema<'a>, Refusal> {
    let Some(privileges) = PRIVILEGES.get((format as usize).wrapping_sub(1)) else {
        return Err((1, 0));
    };
    let told = proved::read_dtd(text, words);
    if told.number != 0 {
        return Err((told.number, told.place));
    }
    let (records, list) = words[8..].split_at(3 * words[2] as usize);
    let (records, _) = records.as_chunks::<3>();
    let is_two = format == 2;
    let v = if is_two {
        records.iter().map(|it| privileges_of(privileges, it)).sum()
    } else {
        told.place
    };
    if v > MOST_PRIVILEGES {
        return Err((9, 0));
    }
    Ok(Schema { is_two, privileges, records, list, v, names: Names::of(text) })
}

/// A type with privileges.
struct Own<'a> {
    kind: u16,
    name: Part,
    kids: &'a [u16],
    first: usize,
    count: usize,
}

/// The last eight bytes of a name, or all if they are fewer, and how many bits these lack.
#[derive(Clone, Copy)]
struct Tail {
    bytes: u64,
    spare: u32,
}

const EIGHT: usize = 8;

impl Tail {
    fn of(name: &Part) -> Tail {
        let own = name.length.min(EIGHT);
        let spare = 8 * (EIGHT - own) as u32;
        Tail { bytes: before(&name.bytes, name.length.max(EIGHT)) << spare >> spare, spare }
    }
}

/// The eight bytes before a place.
fn before(bytes: &[u8], end: usize) -> u64 {
    bytes[..end].last_chunk().map_or(0, |&eight| u64::from_le_bytes(eight))
}

/// The names of up to 16 kinds.
struct Kids {
    parts: [Part; 16],
    tails: [Tail; 16],
    count: usize,
}

impl Kids {
    fn parts(&self) -> &[Part] {
        &self.parts[..self.count]
    }
}

impl<'a> Schema<'a> {
    /// The types with privileges, ascending.
    fn owns(&self) -> impl Iterator<Item = Own<'a>> + '_ {
        let own = move |first: &mut usize, (x, record): (usize, &Record)| {
            let count = privileges_of(self.privileges, record);
            let own = (count != 0).then(|| Own {
                kind: record[0],
                name: self.names.part(x),
                kids: children(self.list, record),
                first: *first,
                count,
            });
            *first += count;
            Some(own)
        };
        self.records.iter().enumerate().scan(0, own).flatten()
    }

    /// The name of a star's child.
    fn child(&self, own: &Own) -> Part {
        self.names.part(own.kids[0] as usize)
    }

    /// The names of a choice's kinds.
    fn kids(&self, own: &Own) -> Kids {
        let (mut parts, mut tails) = ([Part::NONE; 16], [Tail { bytes: 0, spare: 0 }; 16]);
        for (k, &child) in own.kids.iter().enumerate() {
            parts[k] = self.names.part(child as usize);
            tails[k] = Tail::of(&parts[k]);
        }
        Kids { parts, tails, count: own.kids.len() }
    }
}

// ---------------------------------------------------------------- heads

const MOST_HEAD: usize = 80;

/// What a line begins with: room for its sign, and parts, each with a blank behind it; and anything behind these.
#[derive(Clone, Copy)]
struct Head {
    bytes: [u8; MOST_HEAD],
    length: usize,
}

impl Head {
    fn of(name: &Part) -> Head {
        Head { bytes: [b' '; MOST_HEAD], length: 2 }.and(name)
    }

    fn and(mut self, part: &Part) -> Head {
        let Part { bytes, length } = part;
        match self.bytes[self.length..].first_chunk_mut() {
            Some(piece) => *piece = *bytes,
            None => self.bytes[self.length..][..*length].copy_from_slice(&bytes[..*length]),
        }
        self.length += length + 1;
        self.bytes[self.length - 1] = b' ';
        self
    }
}

/// The signs are two apart, as marks are one: so neither is asked which it is.
const BEFORE_SIGNS: u8 = b'+' - 2;

/// The sign of a mark that is set.
fn sign_of(mark: u8) -> u8 {
    BEFORE_SIGNS + 2 * mark
}

fn mark_of(sign: u8) -> Option<u8> {
    let twice = sign.wrapping_sub(BEFORE_SIGNS);
    matches!(twice, 2 | 4).then_some(twice / 2)
}

/// The kind at which column k of row i stands.
fn column<const IS_TWO: bool>(i: usize, k: usize) -> usize {
    k + (!IS_TWO && k >= i) as usize
}

// ---------------------------------------------------------------- writing

fn is_set(mark: u8) -> usize {
    (mark != 0) as usize
}

/// The lengths of the lines of a star.
fn star_length<const IS_TWO: bool>(name: &Part, child: &Part, marks: &[u8]) -> usize {
    let one = name.length + child.length + "+  insert \n".len();
    let exchange = if IS_TWO { is_set(marks[2]) * (one + child.length + "e ".len()) } else { 0 };
    (is_set(marks[0]) + is_set(marks[1])) * one + exchange
}

/// The bit of each position.
const BITS: [u16; 16] = bits();

const fn bits() -> [u16; 16] {
    let mut bits = [0; 16];
    let mut k = 0;
    while k < 16 {
        bits[k] = 1 << k;
        k += 1;
    }
    bits
}

/// The lengths of the lines of a choice.
fn choice_length<const IS_TWO: bool>(name: &Part, kids: &[Part], marks: &[u8]) -> usize {
    let mut lengths = [0; 16];
    lengths.iter_mut().zip(kids).for_each(|(length, kid)| *length = kid.length as u16);
    let (allowed, forbidden) = read_choice::<IS_TWO>(marks, 0, kids.len());
    let mut sum = 0;
    for (i, from) in kids.iter().enumerate() {
        let set = allowed[i] | forbidden[i];
        let rest = (name.length + from.length + "+  replace  \n".len()) as u16;
        let line = |(bit, length): (&u16, &u16)| if set & bit == 0 { 0 } else { rest + length };
        sum += BITS.iter().zip(&lengths).map(line).sum::<u16>() as usize;
    }
    sum
}

fn length_of<const IS_TWO: bool>(schema: &Schema, marks: &[u8]) -> usize {
    let length = |own: Own| {
        let (name, marks) = (&own.name, &marks[own.first..][..own.count]);
        match own.kind {
            TEXT => is_set(marks[0]) * (name.length + "+  text\n".len()),
            STAR => star_length::<IS_TWO>(name, &schema.child(&own), marks),
            _ => choice_length::<IS_TWO>(name, schema.kids(&own).parts(), marks),
        }
    };
    schema.owns().map(length).sum()
}

/// A listing of which so many bytes are put.
struct Page<'a> {
    bytes: &'a mut [u8],
    length: usize,
}

impl Page<'_> {
    /// Puts the first bytes of a piece, and what is behind them too where there is room for it.
    fn put<const SIZE: usize>(&mut self, piece: &[u8; SIZE], length: usize) {
        let room = &mut self.bytes[self.length..];
        match room.first_chunk_mut() {
            Some(whole) => *whole = *piece,
            None => room[..length].copy_from_slice(&piece[..length]),
        }
        self.length += length;
    }

    /// Puts the line of a mark that is set.
    fn put_line(&mut self, head: &mut Head, mark: u8, last: &Part) {
        head.bytes[0] = sign_of(mark);
        match head.bytes.first_chunk::<PIECE>() {
            Some(piece) if head.length <= PIECE => self.put(piece, head.length),
            _ => self.put(&head.bytes, head.length),
        }
        self.put(&last.bytes, last.length);
        self.put(b"\n", 1);
    }

    fn put_star<const IS_TWO: bool>(&mut self, name: &Part, child: &Part, marks: &[u8]) {
        let head = Head::of(name);
        if marks[0] != 0 {
            self.put_line(&mut head.and(&INSERT), marks[0], child);
        }
        if marks[1] != 0 {
            self.put_line(&mut head.and(&DELETE), marks[1], child);
        }
        if IS_TWO && marks[2] != 0 {
            self.put_line(&mut head.and(&REPLACE).and(child), marks[2], child);
        }
    }

    fn put_choice<const IS_TWO: bool>(&mut self, name: &Part, kids: &[Part], marks: &[u8]) {
        let head = Head::of(name).and(&REPLACE);
        let (allowed, forbidden) = read_choice::<IS_TWO>(marks, 0, kids.len());
        for (i, from) in kids.iter().enumerate() {
            let mut head = head.and(from);
            for j in positions(allowed[i] | forbidden[i]) {
                let mark = ALLOWED + (forbidden[i] >> j & 1) as u8;
                self.put_line(&mut head, mark, &kids[j]);
            }
        }
    }

    fn put_types<const IS_TWO: bool>(&mut self, schema: &Schema, marks: &[u8]) {
        for own in schema.owns() {
            let marks = &marks[own.first..][..own.count];
            if marks.iter().fold(0, |any, mark| any | mark) == 0 {
                continue;
            }
            match own.kind {
                TEXT => self.put_line(&mut Head::of(&own.name), marks[0], &TEXT_OF),
                STAR => self.put_star::<IS_TWO>(&own.name, &schema.child(&own), marks),
                _ => self.put_choice::<IS_TWO>(&own.name, schema.kids(&own).parts(), marks),
            }
        }
    }
}

fn write_as<const IS_TWO: bool>(
    schema: &Schema,
    marks: &[u8],
    out: &mut [u8],
) -> Result<usize, Refusal> {
    let length = length_of::<IS_TWO>(schema, marks);
    let bytes = out.get_mut(..length).ok_or((12, 0))?;
    Page { bytes, length: 0 }.put_types::<IS_TWO>(schema, marks);
    Ok(length)
}

fn write(text: &[u8], format: u16, marks: &[u8], out: &mut [u8]) -> Result<usize, Refusal> {
    let mut words = [0; MOST_WORDS];
    let schema = read_schema(text, format, &mut words)?;
    check_marks(marks, schema.v, 10)?;
    let write = if schema.is_two { write_as::<TWO> } else { write_as::<ONE> };
    write(&schema, marks, out)
}

pub fn write_listing(text: &[u8], format: u16, marks: &[u8], out: &mut [u8]) -> Outcome {
    let told = write(text, format, marks, out);
    told.map_or_else(refused, |place| Outcome { place, ..Outcome::default() })
}

// ---------------------------------------------------------------- reading

/// A listing that is read up to a line's first byte.
struct Lines<'a> {
    listing: &'a [u8],
    at: usize,
}

impl Lines<'_> {
    fn is_done(&self) -> bool {
        self.at == self.listing.len()
    }

    /// Whether the next line begins with a head, its sign apart.
    fn has(&self, head: &Head) -> bool {
        let rest = &self.listing[self.at..];
        rest.len() > head.length && rest[1..head.length] == head.bytes[1..head.length]
    }

    /// Whether the next line, which begins with a head, ends with a part. Its end is asked first, since names may begin alike.
    fn ends(&self, head: &Head, part: &Part, tail: Tail) -> bool {
        let start = self.at + head.length;
        let end = start + part.length;
        self.listing.get(end) == Some(&b'\n')
            && before(self.listing, end) >> tail.spare == tail.bytes
            && (part.length <= EIGHT || self.listing[start..end] == part.bytes[..part.length])
    }

    /// Passes the next line, if it has a sign, and gives the mark of that.
    fn pass(&mut self, head: &Head, last: &Part) -> Option<u8> {
        let mark = mark_of(self.listing[self.at])?;
        self.at += head.length + last.length + 1;
        Some(mark)
    }

    /// Reads a line into its mark, if it is the next one.
    fn read_line(&mut self, head: &Head, last: &Part, mark: &mut u8) {
        if self.has(head) && self.ends(head, last, Tail::of(last)) {
            *mark = self.pass(head, last).unwrap_or(*mark);
        }
    }

    fn read_star<const IS_TWO: bool>(&mut self, head: &Head, child: &Part, marks: &mut [u8]) {
        self.read_line(&head.and(&INSERT), child, &mut marks[0]);
        self.read_line(&head.and(&DELETE), child, &mut marks[1]);
        if IS_TWO {
            self.read_line(&head.and(&REPLACE).and(child), child, &mut marks[2]);
        }
    }

    fn read_choice<const IS_TWO: bool>(&mut self, head: &Head, kids: &Kids, marks: &mut [u8]) {
        let head = head.and(&REPLACE);
        let row = row_length::<IS_TWO>(kids.count);
        for (i, from) in kids.parts().iter().enumerate() {
            let head = head.and(from);
            let mut columns = marks[i * row..][..row].iter_mut().enumerate();
            while self.has(&head) {
                let found = columns.find_map(|(k, mark)| {
                    let j = column::<IS_TWO>(i, k) & 15;
                    self.ends(&head, &kids.parts[j], kids.tails[j]).then_some((j, mark))
                });
                let Some((j, mark)) = found else { return };
                let Some(told) = self.pass(&head, &kids.parts[j]) else { return };
                *mark = told;
            }
        }
    }

    /// Reads the lines of as many types as there are, up to a line that does not stand where it has to.
    fn read_types<const IS_TWO: bool>(&mut self, schema: &Schema, marks: &mut [u8]) {
        for own in schema.owns() {
            if self.is_done() {
                return;
            }
            let head = Head::of(&own.name);
            if !self.has(&head) {
                continue;
            }
            let marks = &mut marks[own.first..][..own.count];
            match own.kind {
                TEXT => self.read_line(&head, &TEXT_OF, &mut marks[0]),
                STAR => self.read_star::<IS_TWO>(&head, &schema.child(&own), marks),
                _ => self.read_choice::<IS_TWO>(&head, &schema.kids(&own), marks),
            }
        }
    }
}

/// Reads a listing into marks that are all unset, up to the first byte of the first line at fault, or up to its end.
fn read_lines(schema: &Schema, listing: &[u8], marks: &mut [u8]) -> usize {
    let mut lines = Lines { listing, at: 0 };
    if schema.is_two {
        lines.read_types::<TWO>(schema, marks);
    } else {
        lines.read_types::<ONE>(schema, marks);
    }
    lines.at
}

fn read_in<const ROOM: usize>(
    schema: &Schema,
    listing: &[u8],
    out: &mut [u8],
) -> Result<(), Refusal> {
    let mut room = [0; ROOM];
    let marks = &mut room[..schema.v];
    let at = read_lines(schema, listing, marks);
    if at < listing.len() {
        let until = find(listing, at, b'\n') + 1;
        let line = &listing[at..until.min(listing.len())];
        let is_line = read_lines(schema, line, marks) == line.len();
        return Err((if is_line { 26 } else { 25 }, at));
    }
    out.get_mut(..schema.v).ok_or((12, 0))?.copy_from_slice(marks);
    Ok(())
}

fn read(text: &[u8], format: u16, listing: &[u8], out: &mut [u8]) -> Result<(), Refusal> {
    let mut words = [0; MOST_WORDS];
    let schema = read_schema(text, format, &mut words)?;
    let read = if schema.v <= FEW { read_in::<FEW> } else { read_in::<ALL> };
    read(&schema, listing, out)
}

pub fn read_listing(text: &[u8], format: u16, listing: &[u8], out: &mut [u8]) -> Outcome {
    let told = read(text, format, listing, out);
    told.map_or_else(refused, |()| Outcome::default())
}
