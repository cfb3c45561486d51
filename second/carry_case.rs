// Cases of kind 4: an old table with its marks, a new table, the list of new numbers, and the result and the lost run as lent; and the call
// that is made on them.

use crate::answers::Outcome;
use crate::calls::{Call, Told, NEW_TABLE, POLICY, TABLE};
use crate::carrying::carry_marks;
use crate::format::Format;
use crate::stream::{put_bytes, put_words, take_bytes, take_words};

pub const KIND: u8 = 4;

#[derive(Clone, PartialEq)]
pub struct CarryCase {
    pub old_words: Vec<u16>,
    pub old_marks: Vec<u8>,
    pub new_words: Vec<u16>,
    pub new_numbers: Vec<u16>,
    pub out: Vec<u8>,
    pub lost: Vec<u8>,
}

impl CarryCase {
    pub fn read(stream: &mut &[u8]) -> CarryCase {
        CarryCase {
            old_words: take_words(stream),
            old_marks: take_bytes(stream).to_vec(),
            new_words: take_words(stream),
            new_numbers: take_words(stream),
            out: take_bytes(stream).to_vec(),
            lost: take_bytes(stream).to_vec(),
        }
    }

    pub fn write(&self, stream: &mut Vec<u8>) {
        put_words(stream, &self.old_words);
        put_bytes(stream, &self.old_marks);
        put_words(stream, &self.new_words);
        put_words(stream, &self.new_numbers);
        put_bytes(stream, &self.out);
        put_bytes(stream, &self.lost);
    }

    /// Whether word 0 of the old table is that of this format.
    pub fn has(&self, format: Format) -> bool {
        self.old_words.first() == Some(&format.word())
    }

    /// A call that may write the result and the lost run gets its own copies of them.
    pub fn writing(
        &self,
        call: impl Fn(&[u16], &[u8], &[u16], &[u16], &mut [u8], &mut [u8]) -> Outcome,
    ) -> Told {
        let (mut out, mut lost) = (self.out.clone(), self.lost.clone());
        let CarryCase { old_words, old_marks, new_words, new_numbers, .. } = self;
        let outcome = call(old_words, old_marks, new_words, new_numbers, &mut out, &mut lost);
        Told::writing(outcome, vec![out, lost])
    }
}

pub const CALLS: [Call<CarryCase>; 1] = [Call {
    name: "carry",
    numbers: &[TABLE, POLICY, NEW_TABLE, &[17, 18, 12]],
    breaches: false,
    make: |case| case.writing(carry_marks),
}];
