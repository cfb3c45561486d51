// Each refusal worked out by hand, with its place, and before those of all later checks.

use super::super::expect;
use super::super::roles::REFUSED_TABLES;
use super::super::samples::SAMPLE;
use super::by_hand::{REVISED, TO_REVISED};
use crate::answers::{Answer, Outcome};
use crate::carrying::carry_marks;

/// What both results hold before a call.
const BYTE: u8 = 7;

const GONE: u16 = 65_535;

/// A call, with the lengths of its results.
#[derive(Clone)]
struct Call {
    old_words: Vec<u16>,
    old_marks: Vec<u8>,
    new_words: Vec<u16>,
    new_numbers: Vec<u16>,
    lengths: [usize; 2],
}

/// A number and a place.
type Refusal = [usize; 2];

impl Call {
    /// From the sample to its revision, with results just as long as they must be.
    fn sound() -> Call {
        Call {
            old_words: SAMPLE.to_vec(),
            old_marks: vec![1, 1, 0, 2, 1, 2, 1, 2, 0, 0, 2],
            new_words: REVISED.to_vec(),
            new_numbers: TO_REVISED.to_vec(),
            lengths: [12, 11],
        }
    }

    /// What is told, and whether both results are as they were.
    fn made(&self) -> (Outcome, bool) {
        let [mut out, mut lost] = self.lengths.map(|length| vec![BYTE; length]);
        let Call { old_words, old_marks, new_words, new_numbers, lengths } = self;
        let told = carry_marks(old_words, old_marks, new_words, new_numbers, &mut out, &mut lost);
        (told, [out, lost] == lengths.map(|length| vec![BYTE; length]))
    }

    fn is_refused(&self, [number, place]: Refusal, name: &str) {
        let (told, kept) = self.made();
        expect(told == Err(Answer { number, place, ..Answer::default() }) && kept, name);
    }
}

/// A fault of each rank, and what it is refused with where it is the first.
const FAULTS: [(fn(&mut Call), Refusal); 7] = [
    (|call| call.old_words[14] = 5, [3, 2]),
    (|call| call.old_marks.push(0), [10, 0]),
    (|call| call.old_marks[6] = 3, [11, 6]),
    (|call| call.new_words[42] = 9, [106, 5]),
    (|call| call.new_numbers.truncate(7), [17, 0]),
    (|call| call.new_numbers[3] = 7, [18, 3]),
    (|call| call.lengths = [11, 10], [12, 0]),
];

/// Each fault with every choice of later ones; gives how many there are.
fn self_orders() -> usize {
    let mut count = 0;
    for (first, (_, refusal)) in FAULTS.iter().enumerate() {
        let later = FAULTS.len() - 1 - first;
        for chosen in 0..1 << later {
            let mut call = Call::sound();
            // The last fault comes first: an entry is bent before the list gets shorter.
            for rank in (first..FAULTS.len()).rev() {
                if rank == first || chosen >> (rank - first - 1) & 1 == 1 {
                    (FAULTS[rank].0)(&mut call);
                }
            }
            call.is_refused(*refusal, "the first of several faults");
            count += 1;
        }
    }
    count
}

/// Both tables' own numbers: the old one's as they are, the new one's raised.
fn self_tables() {
    for (at, word, [number, place]) in REFUSED_TABLES {
        let mut call = Call::sound();
        call.old_words[at] = word;
        call.is_refused([number, place], "an old table refused");
        let mut call = Call { new_words: SAMPLE.to_vec(), new_numbers: vec![GONE; 8], ..Call::sound() };
        call.new_words[at] = word;
        call.is_refused([number + 100, place], "a new table refused");
    }
    for length in [0, 1, 7] {
        Call { old_words: vec![1; length], ..Call::sound() }.is_refused([1, 0], "an old table too short");
        Call { new_words: vec![1; length], ..Call::sound() }.is_refused([101, 0], "a new table too short");
    }
    Call { old_words: SAMPLE[..38].to_vec(), ..Call::sound() }.is_refused([2, 0], "an old table cut");
    Call { new_words: REVISED[..42].to_vec(), ..Call::sound() }.is_refused([102, 0], "a new table cut");
}

fn self_marks() {
    for length in [0, 1, 10, 12] {
        Call { old_marks: vec![1; length], ..Call::sound() }.is_refused([10, 0], "so many marks");
    }
    for (at, mark) in [(0, 3), (10, 3), (5, 4), (5, 255)] {
        let mut call = Call::sound();
        call.old_marks[at] = mark;
        call.is_refused([11, at], "a mark above 2");
        call.old_marks[10] = 3;
        call.is_refused([11, at], "the first mark above 2");
    }
}

/// Lists that are not as long as the old table has types, the new one has nine, or that have a wrong entry.
fn self_lists() {
    for length in [0, 1, 7, 9, 256] {
        Call { new_numbers: vec![GONE; length], ..Call::sound() }.is_refused([17, 0], "so many entries");
    }
    let lists: [([u16; 8], usize); 14] = [
        ([9, 4, 7, 6, 3, 2, GONE, 0], 0),
        ([5, 4, 7, 6, 3, 2, GONE, 9], 7),
        ([5, 4, 7, 10, 3, 2, GONE, 0], 3),
        ([5, 4, 7, 6, 3, 2, 65_534, 0], 6),
        ([5, 4, 7, 6, 256, 2, GONE, 0], 4),
        ([5, 5, 7, 6, 3, 2, GONE, 0], 1),
        ([5, 4, 7, 6, 3, 2, GONE, 5], 7),
        ([0, 4, 7, 6, 3, 2, GONE, 0], 7),
        ([5, 4, 7, 4, 3, 2, 7, 0], 3),
        ([5, 4, 7, 6, 3, 7, 4, 0], 5),
        ([5, 4, 9, 6, 5, 2, GONE, 0], 2),
        ([5, 4, 7, 7, 3, 9, GONE, 0], 3),
        ([GONE, GONE, GONE, 8, GONE, 8, GONE, GONE], 5),
        ([GONE, GONE, GONE, GONE, GONE, GONE, GONE, 9], 7),
    ];
    for (list, place) in lists {
        Call { new_numbers: list.to_vec(), ..Call::sound() }.is_refused([18, place], "a wrong entry");
    }
}

fn self_room() {
    for lengths in [[11, 11], [12, 10], [11, 10], [0, 11], [12, 0], [0, 0], [11, 12], [100, 10], [11, 100]] {
        Call { lengths, ..Call::sound() }.is_refused([12, 0], "too little room");
    }
}

/// What is near a fault and none: lists of 65,535 alone, the highest new number, longer results.
fn self_sound() {
    let lists: [[u16; 8]; 3] = [[GONE; 8], [8, 7, 6, 5, 4, 3, 2, 1], [GONE, GONE, 8, GONE, 0, GONE, GONE, 1]];
    for list in lists {
        let call = Call { new_numbers: list.to_vec(), ..Call::sound() };
        expect(call.made() == (Ok(Answer::default()), false), "a list without a fault");
    }
    for lengths in [[12, 11], [13, 11], [12, 12], [4096, 4096]] {
        let call = Call { lengths, ..Call::sound() };
        expect(call.made() == (Ok(Answer::default()), false), "room enough");
    }
}

/// Gives how many orders of faults were tried.
pub fn self_refusals() -> usize {
    self_tables();
    self_marks();
    self_lists();
    self_room();
    self_sound();
    self_orders()
}
