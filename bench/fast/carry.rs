// Marks carried over to a revised schema. New types are passed in their order, each beside the old type that has become it. A choice that has the
// same kinds in the same order and in the same format is copied as a whole; else its rows are, each as 16 bytes: a row of format 1 gets a gap where
// the kind itself would stand, the bytes are put where their kinds stand now, and the gap is closed. All set marks are lost first, and then those
// that have a new home are not: of a row all at once.

use super::{
    fill_firsts, read_policy, read_table, refused, row_length, Record, Refusal, Table, CHOICE, ONE,
    STAR, TEXT, TWO,
};
use crate::calls::Outcome;

/// What is added to the numbers of the new table.
const NEW_TABLE: usize = 100;

/// The new number of a type that is gone.
const GONE: u16 = u16::MAX;

/// For each new type the old one that has become it, or none.
type Origins = [u16; 256];
const NO_TYPE: u16 = u16::MAX;

/// Checks 17 and 18.
fn read_list(new_numbers: &[u16], old_e: usize, new_e: usize) -> Result<Origins, Refusal> {
    if new_numbers.len() != old_e {
        return Err((17, 0));
    }
    let mut origins = [NO_TYPE; 256];
    for (t, &number) in new_numbers.iter().enumerate() {
        if number == GONE {
            continue;
        }
        let origin = &mut origins[number as usize & 255];
        if number as usize >= new_e || *origin != NO_TYPE {
            return Err((18, t));
        }
        *origin = t as u16;
    }
    Ok(origins)
}

/// What is carried: the marks, those over the new table, and which are lost.
struct Marks<'a> {
    old: &'a [u8],
    out: &'a mut [u8],
    lost: &'a mut [u8],
}

impl<'a> Marks<'a> {
    /// No mark has a new home yet.
    fn new(old: &'a [u8], out: &'a mut [u8], lost: &'a mut [u8]) -> Marks<'a> {
        out.fill(0);
        lost.iter_mut().zip(old).for_each(|(lost, mark)| *lost = (mark | mark >> 1) & 1);
        Marks { old, out, lost }
    }

    /// Some marks from one privilege on become those from a new one on.
    fn carry(&mut self, from: usize, to: usize, count: usize) {
        self.out[to..][..count].copy_from_slice(&self.old[from..][..count]);
        self.lost[from..][..count].fill(0);
    }
}

// ---------------------------------------------------------------- rows

/// The 16 bytes of a row, the first lowest; those behind its own are anything.
type Row = u128;

/// For each number of bytes these.
static BEFORE: [Row; 17] = before();

const fn before() -> [Row; 17] {
    let mut all = [Row::MAX; 17];
    let mut k = 0;
    while k < 16 {
        all[k] = (1 << (8 * k)) - 1;
        k += 1;
    }
    all
}

/// A byte of 1 at each position.
const ONES: Row = u128::from_le_bytes([1; 16]);

/// The bytes with a gap at a position.
fn open(row: Row, k: usize) -> Row {
    let before = BEFORE[k & 15];
    (row & before) | (row & !before) << 8
}

/// The bytes without that at a position.
fn close(row: Row, k: usize) -> Row {
    let before = BEFORE[k & 15];
    (row & before) | (row >> 8 & !before)
}

fn read_row(marks: &[u8], own: usize) -> Row {
    if let Some(whole) = marks.first_chunk::<16>() {
        return u128::from_le_bytes(*whole);
    }
    let mut row = [0; 16];
    row[..own].copy_from_slice(&marks[..own]);
    u128::from_le_bytes(row)
}

/// Writes a row, and zeros behind it as far as 16 bytes go: what stands there is written later, or is 0.
fn write_row(out: &mut [u8], own: usize, row: Row) {
    match out.first_chunk_mut::<16>() {
        Some(whole) => *whole = row.to_le_bytes(),
        None => out[..own].copy_from_slice(&row.to_le_bytes()[..own]),
    }
}

/// Leaves of a row what is in another one, which has all bits behind its own bytes.
fn leave_in_row(lost: &mut [u8], row: Row) {
    match lost.first_chunk_mut::<16>() {
        Some(whole) => *whole = (u128::from_le_bytes(*whole) & row).to_le_bytes(),
        None => lost.iter_mut().zip(row.to_le_bytes()).for_each(|(lost, byte)| *lost &= byte),
    }
}

// ---------------------------------------------------------------- choices

/// A type of a table: its kind, its children, its first privilege, and how many it has.
#[derive(Clone, Copy)]
struct Own<'a> {
    kind: u16,
    kids: &'a [u16],
    first: usize,
    count: usize,
}

impl<'a> Own<'a> {
    fn of(table: &Table<'a>, record: &Record, first: usize) -> Own<'a> {
        let (kids, count) = (table.children(record), table.privileges_of(record));
        Own { kind: record[0], kids, first, count }
    }
}

/// For each position of a new choice that of the same kind at the old one, or none.
struct Places {
    old: [u8; 16],
    /// A byte of 1 at each old position that is not among them, and all bits behind the old positions.
    left: Row,
}

const NO_PLACE: u8 = 16;

/// Room for the position of each old type among some children; what it holds of others does no harm.
type Positions = [u8; 256];

fn places_of(old: Own, new: Own, origins: &Origins, positions: &mut Positions) -> Places {
    for (k, &child) in old.kids.iter().enumerate() {
        positions[child as usize & 255] = k as u8;
    }
    let left = ONES | !BEFORE[old.kids.len()];
    let mut places = Places { old: [NO_PLACE; 16], left };
    for (place, &child) in places.old.iter_mut().zip(new.kids) {
        let origin = origins[child as usize & 255];
        let k = positions[origin as usize & 255];
        if old.kids.get(k as usize) == Some(&origin) {
            *place = k;
            places.left &= !(1 << (8 * (k & 15)));
        }
    }
    places
}

/// Whether the kinds are the same, in the same order.
fn are_same(old: &[u16], new: &[u16], new_numbers: &[u16]) -> bool {
    old.len() == new.len() && old.iter().zip(new).all(|(&a, &b)| new_numbers[a as usize] == b)
}

/// The row of the kind at an old position becomes that of a new one.
fn carry_row<const OLD: bool, const NEW: bool>(
    marks: &mut Marks,
    (old, a): (Own, usize),
    (new, i): (Own, usize),
    places: &Places,
) {
    let own = row_length::<OLD>(old.kids.len());
    let from = old.first + a * own;
    let row = read_row(&marks.old[from..], own);
    let mut bytes = [0; 32];
    let placed = if OLD { row } else { open(row, a) };
    bytes[..16].copy_from_slice(&placed.to_le_bytes());

    let moved = u128::from_le_bytes(places.old.map(|place| bytes[place as usize & 31]));
    let next = row_length::<NEW>(new.kids.len());
    let to = new.first + i * next;
    write_row(&mut marks.out[to..], next, if NEW { moved } else { close(moved, i) });

    // the replacement of a kind by itself has a home in format 2 alone
    let left = match (OLD, NEW) {
        (ONE, _) => close(places.left, a) | !BEFORE[15],
        (TWO, ONE) => places.left | 1 << (8 * a),
        (TWO, TWO) => places.left,
    };
    leave_in_row(&mut marks.lost[from..], left);
}

fn carry_rows<const OLD: bool, const NEW: bool>(
    marks: &mut Marks,
    old: Own,
    new: Own,
    places: &Places,
) {
    for (i, &a) in places.old.iter().take(new.kids.len()).enumerate() {
        if a != NO_PLACE {
            carry_row::<OLD, NEW>(marks, (old, a as usize), (new, i), places);
        }
    }
}

// ---------------------------------------------------------------- types

/// The number of the privilege to replace the kind at k by itself, in format 2.
fn same_kind(own: Own, k: usize) -> usize {
    own.first + k * own.kids.len() + k
}

/// Two tables and the list between them.
struct Revision<'a> {
    old: &'a Table<'a>,
    firsts: &'a [u16; 256],
    new: &'a Table<'a>,
    new_numbers: &'a [u16],
    origins: &'a Origins,
}

impl<'a> Revision<'a> {
    /// The old type that has become a new one.
    fn origin(&self, x: usize) -> Option<Own<'a>> {
        let t = self.origins[x & 255] as usize;
        let record = self.old.records.get(t)?;
        Some(Own::of(self.old, record, self.firsts[t & 255] as usize))
    }

    fn carry<const OLD: bool, const NEW: bool>(&self, marks: &mut Marks) {
        let (mut first, mut positions) = (0, [0; 256]);
        for (x, record) in self.new.records.iter().enumerate() {
            let new = Own::of(self.new, record, first);
            if new.count != 0 {
                if let Some(old) = self.origin(x) {
                    self.carry_type::<OLD, NEW>(marks, old, new, &mut positions);
                }
            }
            first += new.count;
        }
    }

    fn carry_type<const OLD: bool, const NEW: bool>(
        &self,
        marks: &mut Marks,
        old: Own,
        new: Own,
        positions: &mut Positions,
    ) {
        let is_child = |a: u16, b: u16| self.new_numbers[a as usize] == b;
        match (old.kind, new.kind) {
            (TEXT, TEXT) => marks.carry(old.first, new.first, 1),
            (STAR, STAR) if is_child(old.kids[0], new.kids[0]) => {
                marks.carry(old.first, new.first, if OLD && NEW { 3 } else { 2 })
            }
            (CHOICE, CHOICE) if OLD == NEW && are_same(old.kids, new.kids, self.new_numbers) => {
                marks.carry(old.first, new.first, new.count)
            }
            (CHOICE, CHOICE) => {
                let places = places_of(old, new, self.origins, positions);
                carry_rows::<OLD, NEW>(marks, old, new, &places)
            }
            // the exchange of a star is the replacement of a kind by itself
            (STAR, CHOICE) if OLD && NEW => {
                if let Some(i) = new.kids.iter().position(|&b| is_child(old.kids[0], b)) {
                    marks.carry(old.first + 2, same_kind(new, i), 1)
                }
            }
            (CHOICE, STAR) if OLD && NEW => {
                if let Some(a) = old.kids.iter().position(|&a| is_child(a, new.kids[0])) {
                    marks.carry(same_kind(old, a), new.first + 2, 1)
                }
            }
            _ => (),
        }
    }
}

fn carry(
    old_words: &[u16],
    old_marks: &[u8],
    new_words: &[u16],
    new_numbers: &[u16],
    out: &mut [u8],
    lost: &mut [u8],
) -> Result<(), Refusal> {
    let (mut old_order, mut new_order) = ([0; 256], [0; 256]);
    let old = read_policy(old_words, old_marks, &mut old_order)?;
    let raised = |(number, place)| (NEW_TABLE + number, place);
    let new = read_table(new_words, &mut new_order).map_err(raised)?;
    let origins = read_list(new_numbers, old.records.len(), new.records.len())?;
    if out.len() < new.v || lost.len() < old.v {
        return Err((12, 0));
    }
    let mut firsts = [0; 256];
    fill_firsts(&old, &mut firsts);
    let mut marks = Marks::new(old_marks, &mut out[..new.v], &mut lost[..old.v]);
    let revision =
        Revision { old: &old, firsts: &firsts, new: &new, new_numbers, origins: &origins };
    match (old.is_two, new.is_two) {
        (ONE, ONE) => revision.carry::<ONE, ONE>(&mut marks),
        (ONE, TWO) => revision.carry::<ONE, TWO>(&mut marks),
        (TWO, ONE) => revision.carry::<TWO, ONE>(&mut marks),
        (TWO, TWO) => revision.carry::<TWO, TWO>(&mut marks),
    }
    Ok(())
}

pub fn carry_marks(
    old_words: &[u16],
    old_marks: &[u8],
    new_words: &[u16],
    new_numbers: &[u16],
    out: &mut [u8],
    lost: &mut [u8],
) -> Outcome {
    let told = carry(old_words, old_marks, new_words, new_numbers, out, lost);
    told.map_or_else(refused, |()| Outcome::default())
}
