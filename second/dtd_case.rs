// Cases of kind 1: a DTD text and a result as lent; and the call that is made on them.

use crate::answers::Outcome;
use crate::calls::{Call, Told};
use crate::dtd::read_dtd;
use crate::stream::{put_bytes, put_words, take_bytes, take_words, to_bytes};

pub const KIND: u8 = 1;

#[derive(Clone, PartialEq)]
pub struct DtdCase {
    pub text: Vec<u8>,
    pub out: Vec<u16>,
}

impl DtdCase {
    pub fn read(stream: &mut &[u8]) -> DtdCase {
        DtdCase { text: take_bytes(stream).to_vec(), out: take_words(stream) }
    }

    pub fn write(&self, stream: &mut Vec<u8>) {
        put_bytes(stream, &self.text);
        put_words(stream, &self.out);
    }

    /// A call that may write the result gets its own copy of it.
    pub fn writing(&self, call: impl Fn(&[u8], &mut [u16]) -> Outcome) -> Told {
        let mut out = self.out.clone();
        let outcome = call(&self.text, &mut out);
        Told::writing(outcome, vec![to_bytes(&out)])
    }
}

/// The numbers of the text's checks in their order, then those that its table can have.
pub const NUMBERS: &[usize] = &[20, 21, 22, 4, 7, 19, 8, 9, 12, 0];

pub const CALLS: [Call<DtdCase>; 1] =
    [Call { name: "dtd", numbers: &[NUMBERS], breaches: false, make: |case| case.writing(read_dtd) }];
