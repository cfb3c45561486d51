// Each refusal worked out by hand, with its place, and before those of all later checks.

use super::super::expect;
use super::super::orders::{self_orders, Fault, Refusal};
use super::super::roles::{NO_PRIVILEGE, REFUSED_TABLES};
use super::super::samples::SAMPLE;
use crate::sheet::{add_sheets, month_sheet, Sheet};

/// What the counts hold before a call.
const NUMBER: u32 = 7;

const MOST: u32 = 4_294_967_295;

fn refused([number, place]: Refusal) -> Result<Sheet, Sheet> {
    Err(Sheet { number, place, ..Sheet::default() })
}

/// A call that counts so many roles, with so many counts.
#[derive(Clone)]
struct Month {
    words: Vec<u16>,
    roles: u32,
    marks: Vec<u8>,
    room: usize,
}

impl Month {
    /// Two roles of the sample, with just as many counts as there must be.
    fn sound() -> Month {
        Month { words: SAMPLE.to_vec(), roles: 2, marks: vec![1; 22], room: 33 }
    }

    /// What is told, and whether the counts are as they were.
    fn made(&self) -> (Result<Sheet, Sheet>, bool) {
        let mut counts = vec![NUMBER; self.room];
        let told = month_sheet(&self.words, self.roles, &self.marks, &mut counts);
        (told, counts == vec![NUMBER; self.room])
    }

    fn is_refused(&self, refusal: Refusal, name: &str) {
        expect(self.made() == (refused(refusal), true), name);
    }
}

/// A call that adds two sheets with their counts.
#[derive(Clone)]
struct Sum {
    words: Vec<u16>,
    sheets: [Sheet; 2],
    counts: [Vec<u32>; 2],
}

impl Sum {
    /// Two sheets of the sample's privileges, with just as many counts as there must be.
    fn sound() -> Sum {
        let sheet = Sheet { figures: [NUMBER; 5], ..Sheet::default() };
        Sum { words: SAMPLE.to_vec(), sheets: [sheet; 2], counts: [vec![NUMBER; 33], vec![NUMBER; 33]] }
    }

    fn made(&self) -> (Result<Sheet, Sheet>, bool) {
        let ([sheet, more], [counts, more_counts]) = (self.sheets, &self.counts);
        let mut after = counts.clone();
        let told = add_sheets(&self.words, sheet, &mut after, more, more_counts);
        (told, after == *counts)
    }

    fn is_refused(&self, refusal: Refusal, name: &str) {
        expect(self.made() == (refused(refusal), true), name);
    }

    /// With both numbers of these counts, by their places in the run, as much as 32 bits hold.
    fn with_counts(mut self, places: &[usize]) -> Sum {
        places.iter().for_each(|&k| self.counts.iter_mut().for_each(|run| run[k] = MOST));
        self
    }

    /// The same of figures.
    fn with_figures(mut self, places: &[usize]) -> Sum {
        places.iter().for_each(|&k| self.sheets.iter_mut().for_each(|sheet| sheet.figures[k] = MOST));
        self
    }
}

const OF_MONTHS: [Fault<Month>; 3] = [
    (|month| month.words[14] = 5, [3, 2]),
    (|month| month.marks.truncate(21), [10, 0]),
    (|month| month.room = 32, [12, 0]),
];

const OF_SUMS: [Fault<Sum>; 7] = [
    (|sum| sum.words[14] = 5, [3, 2]),
    (|sum| sum.counts[1].truncate(32), [12, 0]),
    (|sum| sum.sheets[0].number = 12, [29, 0]),
    (|sum| sum.sheets[1].number = 10, [29, 1]),
    (|sum| *sum = sum.clone().with_counts(&[5]), [30, 1]),
    (|sum| *sum = sum.clone().with_counts(&[7, 9]), [30, 2]),
    (|sum| *sum = sum.clone().with_figures(&[3]), [30, 11]),
];

fn self_tables() {
    for (at, word, refusal) in REFUSED_TABLES {
        let mut month = Month::sound();
        month.words[at] = word;
        month.is_refused(refusal, "roles of a refused table");
        Month { roles: MOST, marks: Vec::new(), room: 0, ..month }
            .is_refused(refusal, "and more that is wrong");
        let mut sum = Sum::sound();
        sum.words[at] = word;
        sum.is_refused(refusal, "sheets of a refused table");
        sum.sheets[1].number = 1;
        Sum { counts: [Vec::new(), Vec::new()], ..sum }.is_refused(refusal, "and more that is wrong");
    }
    for length in [0, 1, 7] {
        Month { words: vec![1; length], ..Month::sound() }.is_refused([1, 0], "a table too short");
        Sum { words: vec![1; length], ..Sum::sound() }.is_refused([1, 0], "a table too short");
    }
}

/// For so many roles so many marks, V being 11: no product may run over 16 or 32 bits. 11 * 390,451,573 is 2^32 + 7, and 11 * 5,958 is
/// 2^16 + 2.
fn self_marks() {
    for length in [0, 1, 11, 21, 23, 33] {
        Month { marks: vec![3; length], ..Month::sound() }
            .is_refused([10, 0], "other marks than two roles have");
    }
    for roles in [0, 1, 3, 65_538, MOST, 2_147_483_650] {
        Month { roles, ..Month::sound() }.is_refused([10, 0], "another number of roles");
    }
    for (roles, length) in [(390_451_573, 7), (390_451_574, 18), (5_958, 2), (5_959, 13)] {
        let marks = vec![0; length];
        Month { roles, marks, ..Month::sound() }.is_refused([10, 0], "a product that runs over");
    }
    for roles in [0, 1, 2, 22, MOST] {
        let (words, marks) = (NO_PRIVILEGE.to_vec(), vec![0; roles.clamp(1, 22) as usize]);
        Month { words, roles, marks, room: 3 }.is_refused([10, 0], "a mark for no privilege");
    }
}

fn self_room() {
    for room in [0, 1, 11, 22, 30, 31, 32] {
        Month { room, ..Month::sound() }.is_refused([12, 0], "too few counts");
        Month { room, marks: vec![3; 22], ..Month::sound() }
            .is_refused([12, 0], "too few counts, and marks above 2");
        Month { room, roles: 0, marks: Vec::new(), ..Month::sound() }
            .is_refused([12, 0], "too few counts for no role");
        for lengths in [[room, 33], [33, room], [room, room], [room, 40], [40, room]] {
            let counts = lengths.map(|length| vec![NUMBER; length]);
            Sum { counts, ..Sum::sound() }.is_refused([12, 0], "too few counts in one run or in both");
        }
    }
    for room in [33, 34, 100] {
        expect(Month { room, ..Month::sound() }.made().0.is_ok(), "counts enough");
        let counts = [33, room].map(|length| vec![NUMBER; length]);
        expect(Sum { counts, ..Sum::sound() }.made().0.is_ok(), "counts enough");
    }
}

/// A sheet that was refused, by any number.
fn self_given() {
    for number in [1, 2, 9, 10, 12, 19, 29, 30, 256, 65_536, MOST as usize] {
        for (numbers, place) in [([number, 0], 0), ([0, number], 1), ([number, 12], 0), ([12, number], 0)] {
            let sheets = numbers.map(|number| Sheet { number, place: 5, ..Sheet::default() });
            Sum { sheets, ..Sum::sound() }.is_refused([29, place], "a sheet that was refused");
        }
    }
}

fn self_sums() {
    for k in 0..33 {
        Sum::sound().with_counts(&[k]).is_refused([30, k / 3], "a count that runs over");
        Sum::sound().with_counts(&[k, 32]).is_refused([30, k / 3], "the lowest privilege decides");
        Sum::sound()
            .with_counts(&[k])
            .with_figures(&[0, 4])
            .is_refused([30, k / 3], "a count before a figure");
        for (numbers, over) in
            [([MOST - 7, 7], false), ([MOST - 7, 8], true), ([0, MOST], false), ([1, MOST], true)]
        {
            let mut sum = Sum::sound();
            sum.counts.iter_mut().zip(numbers).for_each(|(run, number)| run[k] = number);
            expect((sum.made().0 == refused([30, k / 3])) == over, "a sum near as much as 32 bits hold");
            expect(sum.made().0.is_err() == over, "a sum near as much as 32 bits hold");
        }
    }
    for k in 0..5 {
        Sum::sound().with_figures(&[k]).is_refused([30, 11], "a figure that runs over");
        let mut sum = Sum::sound();
        sum.sheets[0].figures[k] = MOST - NUMBER;
        expect(sum.made().0.map(|told| told.figures[k]) == Ok(MOST), "a figure that 32 bits just hold");
        sum.sheets[0].figures[k] += 1;
        sum.is_refused([30, 11], "a figure that runs over by one");
        let words = NO_PRIVILEGE.to_vec();
        Sum { words, ..sum }.is_refused([30, 0], "a figure that runs over, V 0");
    }
    let behind = [vec![NUMBER; 33], vec![MOST; 3]].concat();
    let sum = Sum { counts: [behind.clone(), behind], ..Sum::sound() };
    expect(sum.made().0.is_ok(), "what is behind the last privilege is not added");
}

/// Gives how many orders of faults were tried.
pub fn self_refusals() -> usize {
    self_tables();
    self_marks();
    self_room();
    self_given();
    self_sums();
    let of_months = self_orders(Month::sound, &OF_MONTHS, Month::is_refused);
    of_months + self_orders(Sum::sound, &OF_SUMS, Sum::is_refused)
}
