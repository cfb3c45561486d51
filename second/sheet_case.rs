// Cases of kind 5: a table, a number of roles, their marks, and the counts as lent; and the call that is made on them.

use crate::calls::{Call, Told, TABLE};
use crate::format::Format;
use crate::sheet::{month_sheet, SheetOutcome};
use crate::stream::{
    put_bytes, put_number, put_numbers, put_words, take_bytes, take_number, take_numbers, take_words,
};

pub const KIND: u8 = 5;

#[derive(Clone, PartialEq)]
pub struct SheetCase {
    pub words: Vec<u16>,
    pub roles: u32,
    pub marks: Vec<u8>,
    pub counts: Vec<u32>,
}

impl SheetCase {
    pub fn read(stream: &mut &[u8]) -> SheetCase {
        SheetCase {
            words: take_words(stream),
            roles: take_number(stream),
            marks: take_bytes(stream).to_vec(),
            counts: take_numbers(stream),
        }
    }

    pub fn write(&self, stream: &mut Vec<u8>) {
        put_words(stream, &self.words);
        put_number(stream, self.roles);
        put_bytes(stream, &self.marks);
        put_numbers(stream, &self.counts);
    }

    /// Whether word 0 is that of this format.
    pub fn has(&self, format: Format) -> bool {
        self.words.first() == Some(&format.word())
    }

    /// A call that may write the counts gets its own copy of them.
    pub fn writing(&self, call: impl Fn(&[u16], u32, &[u8], &mut [u32]) -> SheetOutcome) -> Told {
        let mut counts = self.counts.clone();
        let outcome = call(&self.words, self.roles, &self.marks, &mut counts);
        Told::counting(outcome, counts)
    }
}

pub const CALLS: [Call<SheetCase>; 1] = [Call {
    name: "sheet",
    numbers: &[TABLE, &[10, 12]],
    breaches: false,
    make: |case| case.writing(month_sheet),
}];
