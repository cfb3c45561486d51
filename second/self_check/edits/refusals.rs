// Each refusal worked out by hand, with its place, and before those of all later checks.

use super::super::expect;
use super::super::orders::{self_orders, Fault, Refusal};
use super::super::roles::{NO_PRIVILEGE, REFUSED_TABLES};
use super::super::samples::{of_two, SAMPLE};
use crate::answers::{Answer, Outcome};
use crate::editing::edit_mark;

/// What the entries hold before a call.
const WORD: u16 = 7;

/// A call that edits a mark, with so many words for the entries.
#[derive(Clone)]
struct Call {
    words: Vec<u16>,
    marks: Vec<u8>,
    room: usize,
    privilege: usize,
    mark: u8,
}

impl Call {
    /// An edit of the sample, with just as many words as there must be.
    fn sound() -> Call {
        Call { words: SAMPLE.to_vec(), marks: vec![1; 11], room: 16, privilege: 4, mark: 2 }
    }

    /// What is told, and whether marks and entries are as they were.
    fn made(&self) -> (Outcome, bool) {
        let (mut marks, mut kept) = (self.marks.clone(), vec![WORD; self.room]);
        let told = edit_mark(&self.words, &mut marks, &mut kept, self.privilege, self.mark);
        (told, marks == self.marks && kept == vec![WORD; self.room])
    }

    fn is_refused(&self, [number, place]: Refusal, name: &str) {
        expect(self.made() == (Err(Answer { number, place, ..Answer::default() }), true), name);
    }
}

const FAULTS: [Fault<Call>; 6] = [
    (|call| call.words[14] = 5, [3, 2]),
    (|call| call.marks.truncate(10), [10, 0]),
    (|call| call.marks[6] = 3, [11, 6]),
    (|call| call.privilege = 11, [10, 0]),
    (|call| call.mark = 3, [11, 4]),
    (|call| call.room = 15, [12, 0]),
];

fn self_tables() {
    for (at, word, refusal) in REFUSED_TABLES {
        let mut call = Call::sound();
        call.words[at] = word;
        call.is_refused(refusal, "an edit with a refused table");
        Call { marks: Vec::new(), room: 0, privilege: 99, mark: 9, ..call }
            .is_refused(refusal, "and more that is wrong");
    }
    for length in [0, 1, 7] {
        Call { words: vec![1; length], ..Call::sound() }.is_refused([1, 0], "a table too short");
    }
}

fn self_marks() {
    for length in [0, 1, 10, 12, 22] {
        Call { marks: vec![3; length], ..Call::sound() }.is_refused([10, 0], "other marks than V");
    }
    for place in 0..11 {
        for mark in [3, 4, 5, 6, 128, 255] {
            let mut call = Call::sound();
            call.marks[place] = mark;
            call.marks[10] = mark;
            call.is_refused([11, place], "a mark above 2");
            Call { privilege: place, ..call.clone() }.is_refused([11, place], "also where it is edited");
            Call { privilege: 10, mark: 9, ..call }.is_refused([11, place], "and a new mark above 2");
        }
    }
}

fn self_edit() {
    for privilege in [11, 12, 15, 256, 260, 65_535, 65_536, 65_540, 4_294_967_295] {
        Call { privilege, ..Call::sound() }.is_refused([10, 0], "a privilege not below V");
        Call { privilege, mark: 3, ..Call::sound() }.is_refused([10, 0], "the same, and a mark above 2");
    }
    for mark in 3..=255 {
        for privilege in 0..11 {
            Call { privilege, mark, ..Call::sound() }.is_refused([11, privilege], "a new mark above 2");
        }
    }
    let of_two = Call { words: of_two(&SAMPLE).to_vec(), marks: vec![0; 15], ..Call::sound() };
    expect(Call { privilege: 14, ..of_two.clone() }.made().0.is_ok(), "the last privilege of format 2");
    Call { privilege: 15, ..of_two }.is_refused([10, 0], "V of format 2");
    for privilege in [0, 1, 65_536] {
        let (words, marks) = (NO_PRIVILEGE.to_vec(), Vec::new());
        let call = Call { words, marks, room: 2, privilege, mark: 0 };
        call.is_refused([10, 0], "no privilege");
        Call { room: 0, mark: 3, ..call }.is_refused([10, 0], "no privilege, and more that is wrong");
    }
}

fn self_room() {
    for room in [0, 1, 2, 8, 14, 15] {
        for privilege in 0..11 {
            Call { room, privilege, ..Call::sound() }.is_refused([12, 0], "too few words");
        }
    }
    for room in [16, 17, 100] {
        expect(Call { room, ..Call::sound() }.made().0.is_ok(), "words enough");
    }
}

/// Gives how many orders of faults were tried.
pub fn self_refusals() -> usize {
    self_tables();
    self_marks();
    self_edit();
    self_room();
    self_orders(Call::sound, &FAULTS, Call::is_refused)
}
