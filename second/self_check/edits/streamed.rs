// Cases in a stream and their answer lines, byte by byte.

use super::super::expect;
use crate::cases::{answers, read_cases, write_cases};

/// The words of a lone text, as a run.
const TEXT: [u8; 26] = [11, 0, 0, 0, 1, 0, 11, 0, 1, 0, 0, 0, 8, 0, 0, 0, 11, 0, 1, 0, 1, 0, 0, 0, 0, 0];

/// Those of a star of a text.
const STAR: [u8; 34] =
    [15, 0, 0, 0, 1, 0, 15, 0, 2, 0, 0, 0, 8, 0, 1, 0, 14, 0, 3, 0, 4, 0, 1, 0, 0, 0, 1, 0, 0, 0, 1, 0, 1, 0];

/// The text is forbidden, a privilege is edited that there is not, and the text is allowed; a word more than there must be.
fn three_edits() -> Vec<u8> {
    let (marks, kept) = ([1, 0, 0, 0, 0], [3, 0, 0, 0, 9, 9, 0, 0, 1, 2]);
    let edits = [0, 2, 1, 1, 0, 1u32].map(u32::to_le_bytes).concat();
    [&[9][..], &TEXT, &marks, &kept, &[6, 0, 0, 0], &edits].concat()
}

fn no_edit() -> Vec<u8> {
    [&[9][..], &TEXT, &[0; 4], &[0; 4], &[0; 4]].concat()
}

/// The delete is allowed as the insert is; the text's entry is wrong.
fn one_edit() -> Vec<u8> {
    let (marks, kept) = ([3, 0, 0, 0, 1, 0, 2], [4, 0, 0, 0, 0, 0, 0, 0, 1, 2, 255, 255]);
    let edits = [2, 0, 0, 0, 1, 0, 0, 0, 1, 0, 0, 0];
    [&[9][..], &STAR, &marks, &kept, &edits].concat()
}

const LINES: &str = "0 edit 0 0 0 0 0 0 0 0 0 0 0000000000000000000000000000000000 02 000001000102\n\
    0 edit 10 0 0 0 0 0 0 0 0 0 0000000000000000000000000000000000 02 000001000102\n\
    0 edit 0 0 0 0 0 0 0 0 0 0 0000000000000000000000000000000000 01 000000000102\n\
    2 edit 0 0 0 1 0 0 0 513 65535 0 0000000000000000000000000000000000 010102 020001000102ffff\n";

pub fn self_streamed() {
    let stream = [three_edits(), no_edit(), one_edit()].concat();
    expect(answers(&stream) == LINES, "the answer lines of edits");
    expect(write_cases(read_cases(&stream).into_iter()) == stream, "edits from a stream");
}
