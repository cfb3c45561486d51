// Edits worked out by hand: after each of them the marks, the entries and the breach.

use super::super::every::{schema, Shape};
use super::super::samples::{digits, of_two, SAMPLE};
use super::super::{by_hand, expect, ByHand, CLEAN};
use crate::answers::Answer;
use crate::editing::edit_mark;
use crate::format::Format;
use crate::table::{CHOICE, EMPTY, SEQUENCE, STAR, TEXT};

/// What stands behind the entries.
const BEHIND: [u16; 3] = [9, 0, 65_535];

/// A type, the lowest privilege that is forbidden below it, and how many are.
type Counted = [u16; 3];

/// A privilege and its mark; the marks afterwards, the types below which something is forbidden, and the breach.
type Known = (usize, u8, &'static str, &'static [Counted], ByHand);

/// The words of these entries; those of all other types are 0.
fn words_of(e: usize, entries: &[Counted]) -> Vec<u16> {
    let mut kept = vec![0; 2 * e];
    for &[t, lowest, count] in entries {
        kept[2 * t as usize] = lowest;
        kept[2 * t as usize + 1] = count;
    }
    [&kept[..], &BEHIND].concat()
}

/// Edits of a fresh policy, one after another. Before each of them some are refused, which change nothing.
fn self_sequence(words: &[u16], known: &[Known], name: &str) -> usize {
    let (e, v) = (words[2] as usize, words[7] as usize);
    let (mut marks, mut kept) = (vec![0; v], words_of(e, &[]));
    for (k, &(privilege, mark, after, entries, told)) in known.iter().enumerate() {
        let name = format!("{}, edit {}", name, k);
        let before = (marks.clone(), kept.clone());
        for (privilege, mark, number, place) in
            [(v, mark, 10, 0), (v + k, 3, 10, 0), (privilege, 3, 11, privilege)]
        {
            let refused = edit_mark(words, &mut marks, &mut kept, privilege, mark);
            expect(refused == Err(Answer { number, place, ..Answer::default() }), &name);
        }
        expect((&marks, &kept) == (&before.0, &before.1), &name);
        let done = edit_mark(words, &mut marks, &mut kept, privilege, mark);
        expect(done == Ok(Answer { breach: by_hand(told), ..Answer::default() }), &name);
        expect(marks == digits(after) && kept == words_of(e, entries), &name);
    }
    known.len()
}

/// Privileges of the sample: 0 insert layer, 1 delete layer, 2 name, 3 range, 4 to 9 the replacements (0,1) (0,2) (1,0) (1,2) (2,0) (2,1), 10
/// text of final. 0 and 1 are below type 0; 2 below 0, 1 and 2; 3 below 0, 1 and 3; 4 to 9 below 0, 1 and 4; 10 below 0, 1, 4 and 7.
const OF_ONE: [Known; 17] = [
    (3, 2, "00020000000", &[[0, 3, 1], [1, 3, 1], [3, 3, 1]], CLEAN),
    (0, 1, "10020000000", &[[0, 3, 1], [1, 3, 1], [3, 3, 1]], CLEAN),
    // insert and delete: condition 1
    (1, 1, "11020000000", &[[0, 3, 1], [1, 3, 1], [3, 3, 1]], ([1, 0, 0, 0, 3, 1], &[])),
    (
        10,
        2,
        "11020000002",
        &[[0, 3, 2], [1, 3, 2], [3, 3, 1], [4, 10, 1], [7, 10, 1]],
        ([1, 0, 0, 0, 3, 2], &[]),
    ),
    // the lowest moves down, and up again
    (
        2,
        2,
        "11220000002",
        &[[0, 2, 3], [1, 2, 3], [2, 2, 1], [3, 3, 1], [4, 10, 1], [7, 10, 1]],
        ([1, 0, 0, 0, 2, 3], &[]),
    ),
    (
        2,
        0,
        "11020000002",
        &[[0, 3, 2], [1, 3, 2], [3, 3, 1], [4, 10, 1], [7, 10, 1]],
        ([1, 0, 0, 0, 3, 2], &[]),
    ),
    (3, 1, "11010000002", &[[0, 10, 1], [1, 10, 1], [4, 10, 1], [7, 10, 1]], ([1, 0, 0, 0, 10, 1], &[])),
    // the delete, which is below the root only
    (1, 2, "12010000002", &[[0, 1, 2], [1, 10, 1], [4, 10, 1], [7, 10, 1]], CLEAN),
    (7, 1, "12010001002", &[[0, 1, 2], [1, 10, 1], [4, 10, 1], [7, 10, 1]], CLEAN),
    // held to final and back: condition 3 at final
    (
        9,
        1,
        "12010001012",
        &[[0, 1, 2], [1, 10, 1], [4, 10, 1], [7, 10, 1]],
        ([3, 4, 2, 2, 10, 1], &[2, 1, 2]),
    ),
    // draft to held to final: condition 2 once draft to final is forbidden
    (
        4,
        1,
        "12011001012",
        &[[0, 1, 2], [1, 10, 1], [4, 10, 1], [7, 10, 1]],
        ([3, 4, 2, 2, 10, 1], &[2, 1, 2]),
    ),
    (5, 2, "12011201012", &[[0, 1, 3], [1, 5, 2], [4, 5, 2], [7, 10, 1]], ([2, 4, 0, 2, 5, 1], &[0, 1, 2])),
    (10, 0, "12011201010", &[[0, 1, 2], [1, 5, 1], [4, 5, 1]], ([2, 4, 0, 2, 5, 1], &[0, 1, 2])),
    // the same mark again
    (10, 0, "12011201010", &[[0, 1, 2], [1, 5, 1], [4, 5, 1]], ([2, 4, 0, 2, 5, 1], &[0, 1, 2])),
    (5, 1, "12011101010", &[[0, 1, 1]], CLEAN),
    // privilege 0 forbidden: a lowest of 0 with a count; and the last forbidden ones taken away
    (0, 2, "22011101010", &[[0, 0, 2]], CLEAN),
    (1, 0, "20011101010", &[[0, 0, 1]], CLEAN),
];

/// Of format 2: 0 insert layer, 1 delete layer, 2 exchange layer, 3 name, 4 range, 5 to 13 the replacements (0,0) to (2,2), 14 text of final.
const OF_TWO: [Known; 15] = [
    (2, 1, "001000000000000", &[], CLEAN),
    // the exchange: condition 1
    (4, 2, "001020000000000", &[[0, 4, 1], [1, 4, 1], [3, 4, 1]], ([1, 0, 0, 0, 4, 1], &[])),
    (2, 2, "002020000000000", &[[0, 2, 2], [1, 4, 1], [3, 4, 1]], CLEAN),
    (0, 1, "102020000000000", &[[0, 2, 2], [1, 4, 1], [3, 4, 1]], CLEAN),
    // insert and delete, and the exchange forbidden
    (1, 1, "112020000000000", &[[0, 2, 2], [1, 4, 1], [3, 4, 1]], ([1, 0, 0, 0, 2, 1], &[])),
    (2, 0, "110020000000000", &[[0, 4, 1], [1, 4, 1], [3, 4, 1]], ([1, 0, 0, 0, 4, 1], &[])),
    (1, 0, "100020000000000", &[[0, 4, 1], [1, 4, 1], [3, 4, 1]], CLEAN),
    // final by final: condition 3
    (13, 1, "100020000000010", &[[0, 4, 1], [1, 4, 1], [3, 4, 1]], CLEAN),
    (
        14,
        2,
        "100020000000012",
        &[[0, 4, 2], [1, 4, 2], [3, 4, 1], [4, 14, 1], [7, 14, 1]],
        ([3, 4, 2, 2, 14, 1], &[2, 2]),
    ),
    (13, 2, "100020000000022", &[[0, 4, 3], [1, 4, 3], [3, 4, 1], [4, 13, 2], [7, 14, 1]], CLEAN),
    (10, 1, "100020000010022", &[[0, 4, 3], [1, 4, 3], [3, 4, 1], [4, 13, 2], [7, 14, 1]], CLEAN),
    // held to final and back: condition 2 from final to final
    (
        12,
        1,
        "100020000010122",
        &[[0, 4, 3], [1, 4, 3], [3, 4, 1], [4, 13, 2], [7, 14, 1]],
        ([2, 4, 2, 2, 13, 1], &[2, 1, 2]),
    ),
    (
        13,
        0,
        "100020000010102",
        &[[0, 4, 2], [1, 4, 2], [3, 4, 1], [4, 14, 1], [7, 14, 1]],
        ([3, 4, 2, 2, 14, 1], &[2, 1, 2]),
    ),
    (14, 1, "100020000010101", &[[0, 4, 1], [1, 4, 1], [3, 4, 1]], CLEAN),
    (4, 0, "100000000010101", &[], CLEAN),
];

/// A star above a text to which two paths lead.
const SHARED: Shape = &[(STAR, &[1]), (SEQUENCE, &[2, 3]), (SEQUENCE, &[4]), (STAR, &[4]), (TEXT, &[])];

/// Privileges 0 and 1 of type 0, 2 and 3 of type 3, 4 the text's.
const OF_SHARED: [Known; 5] = [
    (4, 2, "00002", &[[0, 4, 1], [1, 4, 1], [2, 4, 1], [3, 4, 1], [4, 4, 1]], CLEAN),
    (3, 2, "00022", &[[0, 3, 2], [1, 3, 2], [2, 4, 1], [3, 3, 2], [4, 4, 1]], CLEAN),
    (0, 1, "10022", &[[0, 3, 2], [1, 3, 2], [2, 4, 1], [3, 3, 2], [4, 4, 1]], CLEAN),
    (1, 1, "11022", &[[0, 3, 2], [1, 3, 2], [2, 4, 1], [3, 3, 2], [4, 4, 1]], ([1, 0, 0, 0, 3, 2], &[])),
    (4, 0, "11020", &[[0, 3, 1], [1, 3, 1], [3, 3, 1]], ([1, 0, 0, 0, 3, 1], &[])),
];

/// A choice of one kind in format 2, and types whose numbers are not in the order of the tree.
const ROUND: Shape = &[(CHOICE, &[2]), (TEXT, &[]), (SEQUENCE, &[3, 1]), (EMPTY, &[])];

const OF_ROUND: [Known; 3] = [
    (0, 1, "10", &[], CLEAN),
    (1, 2, "12", &[[0, 1, 1], [1, 1, 1], [2, 1, 1]], ([3, 0, 0, 0, 1, 1], &[0, 0])),
    (1, 1, "11", &[], CLEAN),
];

/// Entries before an edit, which may be anything; the edit, the entries afterwards, and the breach.
type Lent = (&'static str, &'static [Counted], usize, u8, &'static [Counted], ByHand);

/// Marks of the sample before the edit, and any entries.
const OF_ANY: [Lent; 9] = [
    // the root's entry is put right, and layer's, of which the star is told, is read as it stands
    ("01000000000", &[[0, 5, 7], [1, 60_000, 7]], 0, 1, &[[1, 60_000, 7]], ([1, 0, 0, 0, 60_000, 7], &[])),
    ("01020000000", &[], 0, 1, &[[0, 3, 1]], CLEAN),
    ("01020000000", &[[1, 9, 0]], 0, 1, &[[0, 3, 1], [1, 9, 0]], CLEAN),
    // an edit below layer puts its entry right
    ("11000000000", &[[1, 60_000, 65_535]], 2, 0, &[], CLEAN),
    (
        "11000000000",
        &[[0, 1, 0], [1, 2, 0], [4, 8, 8]],
        2,
        2,
        &[[0, 2, 1], [1, 2, 1], [2, 2, 1], [4, 8, 8]],
        ([1, 0, 0, 0, 2, 1], &[]),
    ),
    // held to final and back, with entries for held, which has nothing below, and for final
    ("00000001000", &[[6, 0, 65_535]], 9, 1, &[[6, 0, 65_535]], ([3, 4, 1, 1, 0, 65_535], &[1, 2, 1])),
    ("00000001002", &[[7, 10, 0]], 9, 1, &[[0, 10, 1], [1, 10, 1], [4, 10, 1], [7, 10, 0]], CLEAN),
    (
        "00000001000",
        &[[6, 9, 0], [7, 65_535, 1]],
        9,
        1,
        &[[6, 9, 0], [7, 65_535, 1]],
        ([3, 4, 2, 2, 65_535, 1], &[2, 1, 2]),
    ),
    // condition 2 is told whatever is kept
    (
        "00001001000",
        &[[5, 1, 1], [6, 1, 1], [7, 1, 1]],
        5,
        2,
        &[[0, 5, 1], [1, 5, 1], [4, 5, 1], [5, 1, 1], [6, 1, 1], [7, 1, 1]],
        ([2, 4, 0, 2, 5, 1], &[0, 1, 2]),
    ),
];

fn self_lent(k: usize, lent: &Lent) {
    let (before, entries, privilege, mark, after, told) = *lent;
    let name = format!("any entries, edit {}", k);
    let (mut marks, mut kept) = (digits(before), words_of(8, entries));
    let done = edit_mark(&SAMPLE, &mut marks, &mut kept, privilege, mark);
    expect(done == Ok(Answer { breach: by_hand(told), ..Answer::default() }), &name);
    let mut expected = digits(before);
    expected[privilege] = mark;
    expect(marks == expected && kept == words_of(8, after), &name);
}

/// Gives how many edits there are.
pub fn self_by_hand() -> usize {
    for (k, lent) in OF_ANY.iter().enumerate() {
        self_lent(k, lent);
    }
    let (shared, round) = (schema(Format::One, SHARED), schema(Format::Two, ROUND));
    OF_ANY.len()
        + self_sequence(&SAMPLE, &OF_ONE, "the sample")
        + self_sequence(&of_two(&SAMPLE), &OF_TWO, "the sample of format 2")
        + self_sequence(&shared.words(), &OF_SHARED, "a text below two types")
        + self_sequence(&round.words(), &OF_ROUND, "a choice of one kind")
}
