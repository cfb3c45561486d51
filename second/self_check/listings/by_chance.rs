// Listings by chance: written and read, read and written, with a byte changed, added or removed, and with faults, each against another reading.

use super::super::expect;
use super::tokens;
use crate::answers::{answer, Answer};
use crate::listing::{lines, read_listing, write_listing, Listed};
use crate::listing_case::ListingCase;
use crate::making::bases::{Base, FORMATS};
use crate::making::chance::Random;
use crate::making::listings::reading::Reading;
use crate::making::listings::Mailed;

/// Bytes of lines, and a few others.
const BYTES: &[u8] = b"+- \n\n\r\t#0123456789abelrtxyAZ_:.\x00\x80\xff";

/// What a result holds before a call.
const BYTE: u8 = 9;

/// What is told of a listing that may have a fault: as by tokens, and where it is done, it is the listing of the marks.
fn self_read(listed: &Listed, listing: &[u8]) -> usize {
    let told = listed.marks(listing);
    let by_tokens = tokens::marks(listed, listing);
    match (&told, &by_tokens) {
        (Ok(marks), Ok(others)) => {
            expect(marks == others, "the marks by tokens");
            expect(listed.listing(marks) == listing, "a listing that is read is that of its marks");
            0
        }
        (Err(refusal), Err([number, place])) => {
            let told = Answer { number: *number, place: *place, ..Answer::default() };
            expect(*refusal == told, "the refusal by tokens");
            let before = &listing[..*place];
            expect(before.is_empty() || before.ends_with(b"\n"), "a place where a line starts");
            expect(listed.marks(before).is_ok(), "the lines before are taken");
            *number
        }
        _ => {
            expect(false, "done by one reading and refused by the other");
            0
        }
    }
}

/// One byte changed, added or removed.
fn damaged(r: &mut Random, listing: &[u8]) -> Vec<u8> {
    let mut listing = listing.to_vec();
    let (any, known) = (r.next() as u8, r.pick(BYTES));
    let byte = r.pick(&[any, known, known]);
    match (listing.len(), r.below(3)) {
        (0, _) => listing.push(byte),
        (length, 0) => listing[r.below(length)] = byte,
        (length, 1) => listing.insert(r.below(length + 1), byte),
        (length, _) => drop(listing.remove(r.below(length))),
    }
    listing
}

/// Marks by chance, written and read by the calls, with a result just long enough or longer.
fn self_both(r: &mut Random, base: &Mailed, marks: &[u8]) -> Vec<u8> {
    let Mailed { format, text, listed } = base;
    let listing = listed.listing(marks);
    let behind = r.pick(&[0, 0, 1, 7]);
    let mut out = vec![BYTE; listing.len() + behind];
    let told = write_listing(text, format.word(), marks, &mut out);
    expect(told == Ok(Answer { place: listing.len(), ..Answer::default() }), "a listing that is written");
    expect(
        out == [&listing[..], &vec![BYTE; behind]].concat(),
        "a listing that is written, and what is behind",
    );
    let set = marks.iter().filter(|&&mark| mark > 0).count();
    expect(lines(&listing).count() == set, "a line for each set privilege");
    let mut out = vec![BYTE; marks.len() + behind];
    let told = read_listing(text, format.word(), &listing, &mut out);
    expect(told == Ok(Answer::default()), "a listing that is read");
    expect(out == [marks, &vec![BYTE; behind]].concat(), "writing then reading gives the marks back");
    expect(self_read(listed, &listing) == 0, "a listing that is read by tokens too");
    listing
}

/// The number and the place of a call that reads a listing, each check by itself.
fn number_of(listed: &Listed, case: &ListingCase) -> [usize; 2] {
    match tokens::marks(listed, &case.given) {
        Err(refusal) => refusal,
        Ok(marks) if case.out.len() < marks.len() => [12, 0],
        Ok(_) => [0, 0],
    }
}

/// A listing with faults of its lines or of its room; the text is as it was.
fn self_spoilt(r: &mut Random, base: &Reading) -> usize {
    let listed = &base.0.listed;
    let case = base.case(r, true);
    if case.text != base.0.text || case.format != base.0.format.word() {
        return 1;
    }
    let mut out = case.out.clone();
    let Answer { number, place, .. } = answer(listed.read(&case.given, &mut out));
    expect([number, place] == number_of(listed, &case), "number and place of a listing with faults");
    expect(number == 0 || out == case.out, "a refused call leaves its result");
    self_read(listed, &case.given);
    number
}

/// How many of the damaged and of the spoilt listings were read.
pub fn self_by_chance(seed: u64, count: usize) -> String {
    let mut r = Random(seed);
    let (mut damaged_read, mut spoilt_read) = (0, 0);
    for k in 0..count {
        let base = Reading::of(&mut r, FORMATS[k % 2]);
        let marks: Vec<u8> = (0..base.0.listed.v()).map(|_| r.next() as u8 % 3).collect();
        let listing = self_both(&mut r, &base.0, &marks);
        for _ in 0..4 {
            let other = damaged(&mut r, &listing);
            damaged_read += (self_read(&base.0.listed, &other) == 0) as usize;
        }
        spoilt_read += (self_spoilt(&mut r, &base) == 0) as usize;
    }
    format!(
        "{} listings by chance, each with a byte changed, added or removed four times ({} read) and with faults ({} read)",
        count, damaged_read, spoilt_read
    )
}
