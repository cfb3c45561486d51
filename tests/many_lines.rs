//! Writes the largest listing that there is through the safe wrapper, and reads it back, as tests/many_lines.c does, which says what is known of each.

use finnedscarf::{read_listing, write_listing, Refusal, ALLOWED, FORBIDDEN, MOST_LISTING, UNSET};
use std::process::ExitCode;

const PRIVILEGES: usize = 4096;
const FIRST_PRIVILEGES: usize = 3840;
const LINE: usize = 109;
const LENGTH: usize = MOST_LISTING;
const FIRST_LENGTH: usize = FIRST_PRIVILEGES * LINE;
const KEPT: u8 = 7;

/// A group of 16 names that begin with a letter.
fn group(letter: char, between: &str) -> String {
    let names: Vec<String> = (0..16).map(|k| format!("{letter}{k:031}")).collect();
    names.join(between)
}

/// A sequence of 16 choices, each of the same 16 empty types, all but the sequence with names of 32 bytes.
fn text() -> String {
    let mut text = format!("<!ELEMENT all ({})>\n", group('c', ","));
    text.extend((0..16).map(|c| format!("<!ELEMENT c{c:031} ({})>\n", group('k', "|"))));
    text.extend((0..16).map(|k| format!("<!ELEMENT k{k:031} EMPTY>\n")));
    text
}

/// The largest schema: as many types, child entries and bytes of names as there may be, in 64 sequences of 16 and 192 texts.
fn largest() -> String {
    let child = |t: usize, k: usize| if k == 0 && t < 63 { t + 1 } else { 64 + (3 * t + k) % 192 };
    let sequence = |t: usize| {
        let children: Vec<String> = (0..16).map(|k| format!("t{:031}", child(t, k))).collect();
        format!("<!ELEMENT t{t:031} ({})>\n", children.join(","))
    };
    let texts = (64..256).map(|t| format!("<!ELEMENT t{t:031} (#PCDATA)>\n"));
    (0..64).map(sequence).chain(texts).collect()
}

/// The marks and the lines of a format.
fn lines(format: u16) -> (Vec<u8>, Vec<String>) {
    let edits = (0..16).flat_map(|c| (0..16).flat_map(move |i| (0..16).map(move |j| (c, i, j))));
    let line = |(c, i, j): (usize, usize, usize)| {
        let (mark, sign) = if (c + i + j) % 2 == 0 { (ALLOWED, '+') } else { (FORBIDDEN, '-') };
        (mark, format!("{sign} c{c:031} replace k{i:031} k{j:031}\n"))
    };
    edits.filter(|(_, i, j)| i != j || format == 2).map(line).unzip()
}

/// What a result of so many bytes holds afterwards.
fn held(length: usize, written: &[u8]) -> Vec<u8> {
    let mut out = vec![KEPT; length];
    out[..written.len()].copy_from_slice(written);
    out
}

fn refused(number: usize, place: usize) -> Refusal {
    Refusal { number, place, breach: None }
}

/// A format, how long the result is, and the number of the answer.
const WRITINGS: [(u16, usize, usize); 8] = [
    (2, LENGTH, 0),
    (2, LENGTH + 1, 0),
    (2, LENGTH - 1, 12),
    (1, FIRST_LENGTH, 0),
    (1, LENGTH, 0),
    (1, FIRST_LENGTH - 1, 12),
    // 65,536 too few, or as often as that is in it
    (2, LENGTH - 65536, 12),
    (2, LENGTH % 65536, 12),
];

fn is_written(text: &[u8], format: u16, length: usize, number: usize) -> bool {
    let (marks, lines) = lines(format);
    let listing = lines.concat();
    let mut out = vec![KEPT; length];
    match write_listing(text, format, &marks, &mut out) {
        Ok(place) => number == 0 && place == listing.len() && out == held(length, listing.as_bytes()),
        Err(refusal) => refusal == refused(number, 0) && out == held(length, &[]),
    }
}

/// A format, how much of the listing is read, how long the result is, and the number and the place of the answer.
const READINGS: [(u16, usize, usize, usize, usize); 11] = [
    (2, LENGTH, PRIVILEGES, 0, 0),
    (2, LENGTH, PRIVILEGES + 1, 0, 0),
    (2, LENGTH, PRIVILEGES - 1, 12, 0),
    (2, LENGTH - LINE, PRIVILEGES, 0, 0),
    (1, FIRST_LENGTH, FIRST_PRIVILEGES, 0, 0),
    (1, FIRST_LENGTH, FIRST_PRIVILEGES - 1, 12, 0),
    // the last line without its newline; it once more, whole, without its newline, and its first byte
    (2, LENGTH - 1, PRIVILEGES, 25, LENGTH - LINE),
    (2, LENGTH + LINE, PRIVILEGES, 26, LENGTH),
    (2, LENGTH + LINE - 1, PRIVILEGES, 25, LENGTH),
    (2, LENGTH + 1, PRIVILEGES, 25, LENGTH),
    (1, FIRST_LENGTH + LINE, FIRST_PRIVILEGES, 26, FIRST_LENGTH),
];

fn is_read(text: &[u8], format: u16, read: usize, length: usize, number: usize, place: usize) -> bool {
    let (mut marks, mut lines) = lines(format);
    lines.extend(lines.last().cloned());
    let listing = &lines.concat().into_bytes()[..read];
    marks.iter_mut().skip(read / LINE).for_each(|mark| *mark = UNSET);
    let mut out = vec![KEPT; length];
    match read_listing(text, format, listing, &mut out) {
        Ok(()) => number == 0 && out == held(length, &marks),
        Err(refusal) => refusal == refused(number, place) && out == held(length, &[]),
    }
}

fn is_largest_both_ways(text: &[u8], format: u16) -> bool {
    let line = |t: usize| {
        let (mark, sign) = if t % 3 == 0 { (FORBIDDEN, '-') } else { (ALLOWED, '+') };
        (mark, format!("{sign} t{:031} text\n", 64 + t))
    };
    let (marks, lines): (Vec<u8>, Vec<String>) = (0..192).map(line).unzip();
    let listing = lines.concat();
    let (mut out, mut back) = (vec![KEPT; listing.len() + 1], vec![KEPT; 193]);
    let length = write_listing(text, format, &marks, &mut out);
    let read = read_listing(text, format, listing.as_bytes(), &mut back);
    let right = (length, read) == (Ok(listing.len()), Ok(()));
    right && out == held(listing.len() + 1, listing.as_bytes()) && back == held(193, &marks)
}

fn is_no_format(text: &[u8], format: u16) -> bool {
    let mut out = [KEPT; 192];
    let told = (write_listing(text, format, &[UNSET; 192], &mut out), read_listing(text, format, &[], &mut out));
    told == (Err(refused(1, 0)), Err(refused(1, 0))) && out == [KEPT; 192]
}

fn main() -> ExitCode {
    let text = text().into_bytes();
    for (format, length, number) in WRITINGS {
        if !is_written(&text, format, length, number) {
            println!("tests/many_lines: written in format {format}, a result of {length}: not as known");
            return ExitCode::FAILURE;
        }
    }
    for (format, read, length, number, place) in READINGS {
        if !is_read(&text, format, read, length, number, place) {
            println!("tests/many_lines: read in format {format}, {read} bytes, a result of {length}: not as known");
            return ExitCode::FAILURE;
        }
    }
    let text = largest().into_bytes();
    for format in [1, 2] {
        if !is_largest_both_ways(&text, format) {
            println!("tests/many_lines: the largest schema in format {format}: not as known");
            return ExitCode::FAILURE;
        }
    }
    for format in [0, 3, 257, 258, 4097, 4098, 32769, 32770, 65535] {
        if !is_no_format(&text, format) {
            println!("tests/many_lines: format {format} is taken");
            return ExitCode::FAILURE;
        }
    }
    ExitCode::SUCCESS
}
