// DTD texts by chance: what is known of them, and how often each answer came.

use super::coverage::Coverage;
use crate::answers::Answer;
use crate::dtd::declared;
use crate::dtd::faults::Fault;
use crate::dtd_case::{DtdCase, CALLS, KIND};
use crate::format::Format;
use crate::making::dtds::aimed::ways;
use crate::making::dtds::tables::first_wrong_name;
use crate::making::dtds::{known_cases, Known};
use crate::self_check::expect;
use crate::stream::{take, to_bytes};

/// As what a text was made, and what it is answered with.
fn self_known(known: &Known, answer: &Answer) {
    let (number, place) = (answer.number, answer.place);
    match known {
        Known::Pieces(pieces) => match first_wrong_name(pieces) {
            Some(wrong) => expect((number, place) == (22, wrong), "the earliest wrong name"),
            None => expect(number < 20, "a text within the grammar and the limits"),
        },
        Known::Damaged(whole) => expect(!(20..=21).contains(&number) || place >= *whole, "a damaged byte"),
        Known::Aimed(way, aimed, at) => {
            let way = ways()[*way].name();
            expect(number == *aimed && at.map_or(true, |at| place == at), &format!("made: {}", way));
        }
    }
}

/// A done call writes the words and keeps the rest; a refused one keeps all.
fn self_written(case: &DtdCase, number: usize, words: &[u16], written: &[u8]) {
    let mut expected = case.out.clone();
    if number == 0 {
        expected[..words.len()].copy_from_slice(words);
    }
    expect(*written == to_bytes(&expected), "the result");
}

/// A case comes out of a stream as it went in.
fn self_streamed(case: &DtdCase) {
    let mut stream = vec![KIND];
    case.write(&mut stream);
    let mut rest = &stream[..];
    expect(take(&mut rest, 1) == [KIND] && DtdCase::read(&mut rest) == *case, "a case from a stream");
    expect(rest.is_empty(), "nothing behind a case");
}

fn self_case(case: &DtdCase, known: &Known, coverage: &mut Coverage) {
    let told = (CALLS[0].make)(case);
    let declared = declared(&case.text);
    let words = declared.as_ref().map_or(Vec::new(), |declared| declared.words(Format::One));
    self_known(known, &told.answer);
    self_written(case, told.answer.number, &words, &told.written[0]);
    self_streamed(case);
    coverage.add_answer(case, &told.answer, words.len());
    if let Known::Aimed(way, ..) = known {
        coverage.add_way(*way);
    }
    if let Err(fault) = declared {
        let Fault { place, reason } = fault;
        expect((told.answer.number, told.answer.place) == (reason.number(), place), "number and place");
        coverage.add_fault(&case.text, fault);
    }
}

pub fn covered(seed: u64, count: usize) -> Coverage {
    let mut coverage = Coverage::new();
    for (case, known) in known_cases(seed, count) {
        self_case(&case, &known, &mut coverage);
    }
    coverage
}
