// S1 to S10, in document 01's numbering and with the types in alphabetical order; and samples of both in format 2.

use super::{by_hand, expect, ByHand, CLEAN};
use crate::answers::Answer;
use crate::completing::complete;
use crate::conditions::verdict;
use crate::format::Format;
use crate::judge::judge;
use crate::making::schemas::Schema;
use crate::mending::{judge_mend, mend};
use crate::stream::to_bytes;
use crate::table::check_table;

pub const SAMPLE: [u16; 39] = [
    1, 39, 8, 0, 8, 7, 32, 11, 4, 1, 0, 2, 3, 1, 1, 0, 4, 1, 0, 4, 3, 3, 4, 0, 0, 7, 0, 0, 7, 1, 0, 7, 1, 2,
    3, 4, 5, 6, 7,
];

/// Marks, the verdict's breach, the completion if there is one, count and mend.
pub type Sample = (&'static str, ByHand, Option<&'static str>, usize, &'static str);

/// S1 to S9.
pub const SAMPLES: [Sample; 9] = [
    ("00000000000", CLEAN, Some("22222222222"), 0, "00000000000"),
    ("11020000000", ([1, 0, 0, 0, 3, 1], &[]), None, 1, "12020000000"),
    ("11000000000", CLEAN, Some("11111111111"), 0, "11000000000"),
    ("10020000000", CLEAN, Some("12222222222"), 0, "10020000000"),
    ("00001201000", ([2, 4, 0, 2, 5, 1], &[0, 1, 2]), None, 1, "00002201000"),
    ("00001001000", CLEAN, Some("22221121222"), 0, "00001001000"),
    ("00000001012", ([3, 4, 2, 2, 10, 1], &[2, 1, 2]), None, 1, "00000001022"),
    ("00000001010", CLEAN, Some("22222221211"), 0, "00000001010"),
    ("11021201000", ([1, 0, 0, 0, 3, 2], &[]), None, 2, "12022201000"),
];

const S5_LINES: &str = "table 0 11\nverdict 2 4 0 2 5 0 1 2\ncomplete none\nmended 1 00002201000\n";

/// The same schema with its types in alphabetical order: draft, final, held, job, layer, name,
/// range, state are 0 to 7. Privilege 0 is the text of final; the others follow in their order.
pub const ALPHABETICAL: [u16; 39] = [
    1, 39, 8, 3, 8, 7, 32, 11, 0, 0, 0, 1, 0, 0, 0, 0, 0, 4, 1, 0, 2, 3, 1, 1, 0, 4, 1, 0, 4, 3, 3, 4, 4, 5,
    6, 7, 0, 2, 1,
];

/// S1 to S9 in that order of types.
pub const ALPHABETICAL_SAMPLES: [Sample; 9] = [
    ("00000000000", CLEAN, Some("22222222222"), 0, "00000000000"),
    ("01102000000", ([1, 3, 0, 0, 4, 1], &[]), None, 1, "01202000000"),
    ("01100000000", CLEAN, Some("11111111111"), 0, "01100000000"),
    ("01002000000", CLEAN, Some("21222222222"), 0, "01002000000"),
    ("00000120100", ([2, 7, 0, 2, 6, 1], &[0, 1, 2]), None, 1, "00000220100"),
    ("00000100100", CLEAN, Some("22222112122"), 0, "00000100100"),
    ("20000000101", ([3, 7, 2, 2, 0, 1], &[2, 1, 2]), None, 1, "20000000102"),
    ("00000000101", CLEAN, Some("12222222121"), 0, "00000000101"),
    ("01102120100", ([1, 3, 0, 0, 4, 2], &[]), None, 2, "01202220100"),
];

const ALPHABETICAL_S5_LINES: &str =
    "table 0 11\nverdict 2 7 0 2 6 0 1 2\ncomplete none\nmended 1 00000220100\n";

/// Word 0 and V of both numberings in format 2; the other words are the same.
pub fn of_two(words: &[u16; 39]) -> [u16; 39] {
    let mut words = *words;
    words[0] = 2;
    words[7] = 15;
    words
}

/// Of format 2, worked out by hand. Privileges: 0 insert layer, 1 delete layer, 2 exchange layer, 3 name, 4 range, 5 to 13 the
/// replacements (0,0) (0,1) (0,2) (1,0) (1,1) (1,2) (2,0) (2,1) (2,2), 14 text of final.
pub const SAMPLES_OF_TWO: [Sample; 18] = [
    ("000000000000000", CLEAN, Some("222222222222222"), 0, "000000000000000"),
    // insert and delete: they force the exchange and what is below
    ("110000000000000", CLEAN, Some("111111111111111"), 0, "110000000000000"),
    ("112000000000000", ([1, 0, 0, 0, 2, 1], &[]), None, 1, "122000000000000"),
    ("112020000000000", ([1, 0, 0, 0, 2, 1], &[]), None, 1, "122020000000000"),
    ("110020000000000", ([1, 0, 0, 0, 4, 1], &[]), None, 1, "120020000000000"),
    // the exchange: it forces what is below
    ("001000000000000", CLEAN, Some("221111111111111"), 0, "001000000000000"),
    ("001020000000000", ([1, 0, 0, 0, 4, 1], &[]), None, 1, "002020000000000"),
    ("121020000000000", ([1, 0, 0, 0, 4, 1], &[]), None, 1, "122020000000000"),
    ("111020000000000", ([1, 0, 0, 0, 4, 1], &[]), None, 2, "122020000000000"),
    ("102020000000000", CLEAN, Some("122222222222222"), 0, "102020000000000"),
    // draft to held and back: each is reached from itself
    ("000000101000000", CLEAN, Some("222221121122222"), 0, "000000101000000"),
    ("000002101000000", ([2, 4, 0, 0, 5, 1], &[0, 1, 0]), None, 1, "000002201000000"),
    ("000000101200000", ([2, 4, 1, 1, 9, 1], &[1, 0, 1]), None, 1, "000000102200000"),
    // held to final and back: final has a text
    ("000000000010102", ([3, 4, 2, 2, 14, 1], &[2, 1, 2]), None, 1, "000000000010202"),
    // a same-kind step at final, and one at draft, which has nothing below
    ("000000000000010", CLEAN, Some("222222222222211"), 0, "000000000000010"),
    ("000000000000012", ([3, 4, 2, 2, 14, 1], &[2, 2]), None, 1, "000000000000022"),
    ("000001000000000", CLEAN, Some("222221222222222"), 0, "000001000000000"),
    // draft to held to final with a same-kind step at draft: the lowest k is draft itself, and then held
    ("000001120010000", ([2, 4, 0, 2, 7, 1], &[0, 1, 2]), None, 2, "000002220010000"),
];

/// The same in alphabetical order: privilege 0, the text of final, is lower than the exchange, 3.
const ALPHABETICAL_SAMPLES_OF_TWO: [Sample; 3] = [
    ("211000000000000", ([1, 3, 0, 0, 0, 1], &[]), None, 1, "212000000000000"),
    ("211200000000000", ([1, 3, 0, 0, 3, 1], &[]), None, 1, "212200000000000"),
    ("211100000000000", ([1, 3, 0, 0, 0, 1], &[]), None, 2, "212200000000000"),
];

fn self_of_two() {
    for (k, sample) in SAMPLES_OF_TWO.iter().enumerate() {
        self_sample(&of_two(&SAMPLE), sample, &format!("sample {} of format 2", k));
    }
    for (k, sample) in ALPHABETICAL_SAMPLES_OF_TWO.iter().enumerate() {
        self_sample(&of_two(&ALPHABETICAL), sample, &format!("alphabetical sample {} of format 2", k));
    }
}

pub fn digits(text: &str) -> Vec<u8> {
    text.bytes().map(|byte| byte - b'0').collect()
}

fn self_sample(words: &[u16], sample: &Sample, name: &str) {
    let (marks, told, completed, count, after) = *sample;
    let (marks, breach) = (digits(marks), by_hand(told));
    let mut out = vec![7; marks.len() + 1];
    expect(verdict(words, &marks) == Ok(Answer { breach, ..Answer::default() }), name);
    let done = complete(words, &marks, &mut out);
    match completed {
        Some(text) => expect(done.is_ok() && out == [digits(text), vec![7]].concat(), name),
        None => {
            expect(done == Err(Answer { number: 16, breach, ..Answer::default() }), name);
            expect(out == vec![7; marks.len() + 1], name);
        }
    }
    expect(mend(words, &marks, &mut out) == Ok(Answer { count, ..Answer::default() }), name);
    expect(out == [digits(after), vec![7]].concat(), name);
}

/// S10: from S2's marks one proposal is accepted with one change, the other gives 15 at the place.
fn self_proposals(words: &[u16], from: &str, accepted: &str, refused: &str, place: usize) {
    let taken = judge_mend(words, &digits(from), &digits(accepted));
    expect(taken == Ok(Answer { count: 1, ..Answer::default() }), "sample S10");
    let refusal = judge_mend(words, &digits(from), &digits(refused));
    expect(refusal == Err(Answer { number: 15, place, ..Answer::default() }), "sample S10");
}

fn self_numbering(words: &[u16], samples: &[Sample], s5_lines: &str) {
    for (k, sample) in samples.iter().enumerate() {
        self_sample(words, sample, &format!("sample S{}", k + 1));
    }
    let s5 = [to_bytes(words), digits(samples[4].0)].concat();
    expect(judge(&s5) == s5_lines, "the four lines of S5");
}

pub fn self_samples() {
    self_both_numberings();
    self_of_two();
}

fn self_both_numberings() {
    self_numbering(&SAMPLE, &SAMPLES, S5_LINES);
    self_proposals(&SAMPLE, "11020000000", "12020000000", "11000000000", 3);
    self_numbering(&ALPHABETICAL, &ALPHABETICAL_SAMPLES, ALPHABETICAL_S5_LINES);
    self_proposals(&ALPHABETICAL, "01102000000", "01202000000", "01100000000", 4);
    let sample = check_table(&SAMPLE).expect("the sample schema is accepted");
    let alphabetical = Schema::of(Format::One, sample.types).renumbered(&[3, 4, 5, 6, 7, 0, 2, 1]);
    expect(alphabetical.words() == ALPHABETICAL, "the types in alphabetical order");
}
