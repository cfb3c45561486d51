// Cases of both kinds in a stream and their answer lines, byte by byte.

use super::super::expect;
use crate::cases::{answers, read_cases, write_cases};

/// `<!ELEMENT r (#PCDATA)>`, as a run.
const TEXT: [u8; 26] =
    [22, 0, 0, 0, 60, 33, 69, 76, 69, 77, 69, 78, 84, 32, 114, 32, 40, 35, 80, 67, 68, 65, 84, 65, 41, 62];

/// `- r text` and its newline, as a run.
const LISTING: [u8; 13] = [9, 0, 0, 0, 45, 32, 114, 32, 116, 101, 120, 116, 10];

/// In format 2 the text is forbidden, and the result is a byte longer than it must be.
fn write() -> Vec<u8> {
    let (format, marks) = ([2, 0, 0, 0], [1, 0, 0, 0, 2]);
    let out = [10, 0, 0, 0, 1, 2, 3, 4, 5, 6, 7, 8, 9, 255];
    [&[7][..], &TEXT, &format, &marks, &out].concat()
}

/// The same read.
fn read() -> Vec<u8> {
    let (format, out) = ([2, 0, 0, 0], [3, 0, 0, 0, 7, 8, 9]);
    [&[8][..], &TEXT, &format, &LISTING, &out].concat()
}

/// With format 65,535.
fn refused() -> Vec<u8> {
    let (format, out) = ([255, 255, 0, 0], [1, 0, 0, 0, 16]);
    [&[8][..], &TEXT, &format, &LISTING, &out].concat()
}

const LINES: &str = "0 write_listing 0 9 0 0 0 0 0 0 0 0 0000000000000000000000000000000000 2d20722074657874\
    0aff\n1 read_listing 0 0 0 0 0 0 0 0 0 0 0000000000000000000000000000000000 020809\n\
    2 read_listing 1 0 0 0 0 0 0 0 0 0 0000000000000000000000000000000000 10\n";

pub fn self_streamed() {
    let stream = [write(), read(), refused()].concat();
    expect(answers(&stream) == LINES, "the answer lines of listings");
    expect(write_cases(read_cases(&stream).into_iter()) == stream, "listings from a stream");
}
