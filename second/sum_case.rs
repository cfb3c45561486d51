// Cases of kind 6: a table, a sheet and its counts as lent, and another sheet and its counts; and the call that is made on them.

use crate::calls::{Call, Told, TABLE};
use crate::format::Format;
use crate::sheet::{add_sheets, Sheet, SheetOutcome};
use crate::stream::{put_number, put_numbers, put_words, take_number, take_numbers, take_words};

pub const KIND: u8 = 6;

#[derive(Clone, PartialEq)]
pub struct SumCase {
    pub words: Vec<u16>,
    pub sheet: Sheet,
    pub counts: Vec<u32>,
    pub more: Sheet,
    pub more_counts: Vec<u32>,
}

/// Eleven 32-bit numbers: number, place, the figures, how many leaders, and these.
fn take_sheet(stream: &mut &[u8]) -> Sheet {
    let [number, place, clean, one, two, three, refused, leader_count, first, second, third] =
        [(); 11].map(|_| take_number(stream));
    Sheet {
        number: number as usize,
        place: place as usize,
        figures: [clean, one, two, three, refused],
        leader_count,
        leaders: [first, second, third].map(|leader| leader as usize),
    }
}

fn put_sheet(stream: &mut Vec<u8>, sheet: &Sheet) {
    let Sheet { number, place, figures, leader_count, leaders } = sheet;
    put_number(stream, *number as u32);
    put_number(stream, *place as u32);
    figures.iter().for_each(|&figure| put_number(stream, figure));
    put_number(stream, *leader_count);
    leaders.iter().for_each(|&leader| put_number(stream, leader as u32));
}

impl SumCase {
    pub fn read(stream: &mut &[u8]) -> SumCase {
        SumCase {
            words: take_words(stream),
            sheet: take_sheet(stream),
            counts: take_numbers(stream),
            more: take_sheet(stream),
            more_counts: take_numbers(stream),
        }
    }

    pub fn write(&self, stream: &mut Vec<u8>) {
        put_words(stream, &self.words);
        put_sheet(stream, &self.sheet);
        put_numbers(stream, &self.counts);
        put_sheet(stream, &self.more);
        put_numbers(stream, &self.more_counts);
    }

    /// Whether word 0 is that of this format.
    pub fn has(&self, format: Format) -> bool {
        self.words.first() == Some(&format.word())
    }

    /// A call that may write the counts gets its own copy of them.
    pub fn writing(&self, call: impl Fn(&[u16], Sheet, &mut [u32], Sheet, &[u32]) -> SheetOutcome) -> Told {
        let mut counts = self.counts.clone();
        let outcome = call(&self.words, self.sheet, &mut counts, self.more, &self.more_counts);
        Told::counting(outcome, counts)
    }
}

pub const CALLS: [Call<SumCase>; 1] = [Call {
    name: "add_sheets",
    numbers: &[TABLE, &[12, 29, 30]],
    breaches: false,
    make: |case| case.writing(add_sheets),
}];
