// Cases of kind 2: a table, the marks of all roles, and the roles' numbers and the result as lent; and the call that is made on them.

use crate::answers::Outcome;
use crate::calls::{Call, Told, TABLE};
use crate::format::Format;
use crate::roles::complete_roles;
use crate::stream::{put_bytes, put_words, take_bytes, take_words, to_bytes, to_words};

pub const KIND: u8 = 2;

#[derive(Clone, PartialEq)]
pub struct RolesCase {
    pub words: Vec<u16>,
    pub marks: Vec<u8>,
    pub numbers: Vec<u16>,
    pub out: Vec<u8>,
}

impl RolesCase {
    pub fn read(stream: &mut &[u8]) -> RolesCase {
        RolesCase {
            words: take_words(stream),
            marks: take_bytes(stream).to_vec(),
            numbers: take_words(stream),
            out: take_bytes(stream).to_vec(),
        }
    }

    pub fn write(&self, stream: &mut Vec<u8>) {
        put_words(stream, &self.words);
        put_bytes(stream, &self.marks);
        put_words(stream, &self.numbers);
        put_bytes(stream, &self.out);
    }

    /// Whether word 0 is that of this format.
    pub fn has(&self, format: Format) -> bool {
        self.words.first() == Some(&format.word())
    }

    /// A call that may write the numbers and the result gets its own copies of them.
    pub fn writing(&self, call: impl Fn(&[u16], &[u8], &mut [u16], &mut [u8]) -> Outcome) -> Told {
        let (mut numbers, mut out) = (self.numbers.clone(), self.out.clone());
        let outcome = call(&self.words, &self.marks, &mut numbers, &mut out);
        Told::writing(outcome, vec![to_bytes(&numbers), out])
    }
}

/// The numbers that a role can have.
pub const OF_ROLES: &[usize] = &[0, 11, 16];

/// The number of each role, as a call tells it that was done.
pub fn numbers_told(told: &Told) -> Vec<u16> {
    if told.answer.number == 0 {
        to_words(&told.written[0])
    } else {
        Vec::new()
    }
}

pub const NAME: &str = "roles";

pub const CALLS: [Call<RolesCase>; 1] = [Call {
    name: NAME,
    numbers: &[TABLE, &[10, 12]],
    breaches: false,
    make: |case| case.writing(complete_roles),
}];
