// Moves worked out by hand, each mark and each lost byte written out.

use super::super::expect;
use super::super::roles::NO_PRIVILEGE;
use super::super::samples::{digits, of_two, ALPHABETICAL, ALPHABETICAL_SAMPLES, SAMPLE, SAMPLES};
use crate::answers::Answer;
use crate::carrying::carry_marks;

/// What both results hold before a call.
const BYTE: u8 = 7;

const GONE: u16 = 65_535;

/// A move: the old table and its marks, the new table, the new numbers, and then the new marks and what is lost.
fn self_move(old: (&[u16], &str), new: &[u16], numbers: &[u16], expected: [&str; 2], name: &str) {
    let [marks, after, lost_after] = [old.1, expected[0], expected[1]].map(digits);
    for behind in [0, 1, 5] {
        let (mut out, mut lost) =
            (vec![BYTE; after.len() + behind], vec![BYTE; lost_after.len() + behind / 2]);
        let told = carry_marks(old.0, &marks, new, numbers, &mut out, &mut lost);
        expect(told == Ok(Answer::default()), name);
        expect(out == [&after[..], &vec![BYTE; behind]].concat(), name);
        expect(lost == [&lost_after[..], &vec![BYTE; behind / 2]].concat(), name);
    }
}

/// A revision of the sample: held is gone, review and note are added, and the types have other numbers: final, review, draft, state, layer,
/// job, range, name, note are 0 to 8. State is a choice of final, review, draft; layer is range, name, state, note.
///
/// Privileges: 0 text of final, 1 to 6 final by review, final by draft, review by final, review by draft, draft by final, draft by review,
/// 7 insert layer, 8 delete layer, 9 range, 10 name, 11 note.
pub const REVISED: [u16; 43] = [
    1, 43, 9, 5, 8, 8, 35, 12, 1, 0, 0, 0, 0, 0, 0, 0, 0, 3, 3, 0, 2, 4, 3, 4, 1, 7, 1, 0, 8, 1, 0, 8, 1, 0,
    8, 0, 1, 2, 6, 7, 3, 8, 4,
];

/// Job, layer, name, range, state, draft, held, final.
pub const TO_REVISED: [u16; 8] = [5, 4, 7, 6, 3, 2, GONE, 0];

/// Final, review, draft, state, layer, job, range, name, note.
const FROM_REVISED: [u16; 9] = [7, GONE, 5, 4, 1, 0, 3, 2, GONE];

/// The same in format 2. Privileges: 0 text of final, 1 to 9 final by final, by review, by draft, review by final, by review, by draft, draft
/// by final, by review, by draft, 10 insert layer, 11 delete layer, 12 replace layer, 13 range, 14 name, 15 note.
fn revised_of_two() -> [u16; 43] {
    let mut words = REVISED;
    words[0] = 2;
    words[7] = 16;
    words
}

/// The vendor's marks of samples/, and others.
fn self_revised() {
    let (one, two, to_one, to_two) = (SAMPLE, of_two(&SAMPLE), REVISED, revised_of_two());
    let to = |old: (&[u16], &str), new: &[u16], expected: [&str; 2], name: &str| {
        self_move(old, new, &TO_REVISED, expected, name)
    };
    to((&one, "11021212002"), &to_one, ["200002011200", "00001011000"], "the vendor's marks");
    to((&one, "12121212121"), &to_one, ["101002012210", "00001011010"], "format 1 to 1");
    to((&one, "12121212121"), &to_two, ["1001000200120210", "00001011010"], "format 1 to 2");
    to((&two, "121021021020002"), &to_one, ["200002012200", "001001001010000"], "format 2 to 1, few set");
    to((&two, "121212121212121"), &to_one, ["102002012120", "001001101110110"], "format 2 to 1");
    let vendor = (&two[..], "121020121020002");
    to(vendor, &to_two, ["2000000200121200", "000000101010000"], "the vendor's marks in format 2");
    to((&two, "121212121212121"), &to_two, ["1202000202121120", "000000101110100"], "format 2 to 2");
    to((&one, "00000000000"), &to_one, ["000000000000", "00000000000"], "no mark set");
    to((&one, "00001011010"), &to_one, ["000000000000", "00001011010"], "all that is set is lost");
    let back = (&to_one[..], "121212121212");
    self_move(back, &one, &FROM_REVISED, ["21120200101", "010110100001"], "the revision taken back");
}

/// S1 to S9 to the types in alphabetical order, and back.
fn self_alphabetical() {
    for (sample, other) in SAMPLES.iter().zip(&ALPHABETICAL_SAMPLES) {
        let (marks, moved) = (sample.0, other.0);
        let (to, from) = ([3, 4, 5, 6, 7, 0, 2, 1], [5, 7, 6, 0, 1, 2, 3, 4]);
        self_move((&SAMPLE, marks), &ALPHABETICAL, &to, [moved, "00000000000"], "to alphabetical order");
        self_move((&ALPHABETICAL, moved), &SAMPLE, &from, [marks, "00000000000"], "from alphabetical order");
    }
}

/// Nothing moves, or everything is gone.
fn self_ends() {
    let same = [0, 1, 2, 3, 4, 5, 6, 7];
    let (one, two) = ("12012012012", "120120120120120");
    self_move((&SAMPLE, one), &SAMPLE, &same, [one, "00000000000"], "the identity");
    let same_two = of_two(&SAMPLE);
    self_move((&same_two, two), &same_two, &same, [two, "000000000000000"], "the identity in format 2");
    self_move((&SAMPLE, one), &SAMPLE, &[GONE; 8], ["00000000000", "11011011011"], "all gone");
    self_move((&SAMPLE, one), &NO_PRIVILEGE, &[GONE; 8], ["", "11011011011"], "to no privilege");
    let range_is_left = [GONE, GONE, GONE, 0, GONE, GONE, GONE, GONE];
    self_move((&SAMPLE, one), &NO_PRIVILEGE, &range_is_left, ["", "11011011011"], "a text becomes empty");
    self_move((&NO_PRIVILEGE, ""), &SAMPLE, &[4], ["00000000000", ""], "an empty type becomes a choice");
    self_move((&NO_PRIVILEGE, ""), &NO_PRIVILEGE, &[0], ["", ""], "no privilege to none");
}

/// A star of a text, which is type 1. Privileges: insert, delete, in format 2 replace, and the text.
const STAR_ONE: [u16; 15] = [1, 15, 2, 0, 8, 1, 14, 3, 4, 1, 0, 1, 0, 1, 1];
const STAR_TWO: [u16; 15] = [2, 15, 2, 0, 8, 1, 14, 4, 4, 1, 0, 1, 0, 1, 1];

/// A choice of an empty type, 2, and of that text, 1. Privileges: 2 by 1, 1 by 2, and the text; in format 2 2 by 2, 2 by 1, 1 by 2, 1 by 1,
/// and the text.
const CHOICE_ONE: [u16; 19] = [1, 19, 3, 0, 8, 2, 17, 3, 3, 2, 0, 1, 0, 2, 0, 0, 2, 2, 1];
const CHOICE_TWO: [u16; 19] = [2, 19, 3, 0, 8, 2, 17, 5, 3, 2, 0, 1, 0, 2, 0, 0, 2, 2, 1];

/// A star's replacement and the choice's of the same kind are one edit; the others are not.
fn self_star_and_choice() {
    let to = |old: (&[u16], &str), new: &[u16], expected: [&str; 2]| {
        self_move(old, new, &[0, 1], expected, "a star becomes a choice with its child")
    };
    to((&STAR_TWO, "1212"), &CHOICE_TWO, ["00012", "1100"]);
    to((&STAR_TWO, "0020"), &CHOICE_TWO, ["00020", "0000"]);
    to((&STAR_TWO, "1212"), &CHOICE_ONE, ["002", "1110"]);
    to((&STAR_ONE, "121"), &CHOICE_TWO, ["00001", "110"]);
    to((&STAR_ONE, "121"), &CHOICE_ONE, ["001", "110"]);
    let back = |old: (&[u16], &str), new: &[u16], expected: [&str; 2]| {
        self_move(old, new, &[0, 1, GONE], expected, "a choice becomes a star of one of its kinds")
    };
    back((&CHOICE_TWO, "12121"), &STAR_TWO, ["0021", "11100"]);
    back((&CHOICE_TWO, "00010"), &STAR_TWO, ["0010", "00000"]);
    back((&CHOICE_TWO, "12121"), &STAR_ONE, ["001", "11110"]);
    back((&CHOICE_ONE, "121"), &STAR_TWO, ["0001", "110"]);
    back((&CHOICE_ONE, "121"), &STAR_ONE, ["001", "110"]);
}

/// The star of the other kind: what names the text has no home.
fn self_other_child() {
    let (star, choice) = ((&STAR_TWO[..], "1212"), (&CHOICE_TWO[..], "12121"));
    self_move(star, &STAR_TWO, &[0, GONE], ["0000", "1111"], "a star whose child is gone");
    self_move(star, &STAR_TWO, &[1, 0], ["0000", "1111"], "a star and its child take each other's number");
    self_move(star, &CHOICE_TWO, &[0, 2], ["10000", "1101"], "a star of the first kind, which is empty now");
    self_move(
        choice,
        &STAR_TWO,
        &[0, GONE, 1],
        ["0010", "01111"],
        "a choice becomes a star of the first kind",
    );
    self_move(choice, &CHOICE_TWO, &[0, 2, 1], ["21210", "00001"], "two kinds take each other's number");
    self_move(choice, &CHOICE_TWO, &[0, 1, GONE], ["00021", "11100"], "a kind gone, another in its place");
    self_move(choice, &CHOICE_TWO, &[0, GONE, GONE], ["00000", "11111"], "all kinds gone");
    self_move(choice, &CHOICE_TWO, &[GONE, 1, 2], ["00001", "11110"], "the choice itself gone");
    self_move(choice, &CHOICE_ONE, &[0, 2, 1], ["120", "10011"], "the same from format 2 to 1");
    let of_one = (&CHOICE_ONE[..], "121");
    self_move(of_one, &CHOICE_ONE, &[0, 2, 1], ["210", "001"], "two kinds of format 1");
    self_move(of_one, &CHOICE_TWO, &[0, 2, 1], ["02100", "001"], "the same from format 1 to 2");
}

pub fn self_by_hand() {
    self_revised();
    self_alphabetical();
    self_ends();
    self_star_and_choice();
    self_other_child();
}
