// Cases of both kinds in a stream and their answer lines, byte by byte.

use super::super::expect;
use crate::cases::{answers, read_cases, write_cases};

/// The words of a lone text, as a run.
const TEXT: [u8; 26] = [11, 0, 0, 0, 1, 0, 11, 0, 1, 0, 0, 0, 8, 0, 0, 0, 11, 0, 1, 0, 1, 0, 0, 0, 0, 0];

/// Three roles, which allow it, forbid it and are refused, and a count more than there must be.
fn month() -> Vec<u8> {
    let (roles, marks) = ([3, 0, 0, 0], [3, 0, 0, 0, 1, 2, 3]);
    let counts = [4, 0, 0, 0, 9, 9, 9, 9, 0, 0, 0, 0, 255, 255, 255, 255, 1, 2, 3, 4];
    [&[5][..], &TEXT, &roles, &marks, &counts].concat()
}

/// Place 5, 258 clean roles, one refused, seven leaders, 1, 2 and 3; and one clean role, four refused.
fn sum() -> Vec<u8> {
    let sheet = [0, 5, 258, 0, 0, 0, 1, 7, 1, 2, 3u32].map(u32::to_le_bytes).concat();
    let more = [0, 0, 1, 0, 0, 0, 4, 0, 0, 0, 0u32].map(u32::to_le_bytes).concat();
    let counts = [3, 0, 0, 0, 1, 0, 0, 0, 255, 0, 0, 0, 0, 1, 0, 0];
    let more_counts = [3, 0, 0, 0, 2, 0, 0, 0, 1, 0, 0, 0, 0, 0, 0, 255];
    [&[6][..], &TEXT, &sheet, &counts, &more, &more_counts].concat()
}

const LINES: &str = "0 sheet 0 0 2 0 0 0 1 1 0 0 0 01000000010000000000000001020304\n\
    1 add_sheets 0 0 259 0 0 0 5 1 0 0 0 0300000000010000000100ff\n";

pub fn self_streamed() {
    let stream = [month(), sum()].concat();
    expect(answers(&stream) == LINES, "the answer lines of a sheet and of a sum");
    expect(write_cases(read_cases(&stream).into_iter()) == stream, "a sheet and a sum from a stream");
}
