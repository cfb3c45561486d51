// Cases of kind 0: a table, a policy, a result as lent and proposed marks; and the calls that are made on them.

use crate::answers::Outcome;
use crate::calls::{Call, Told, POLICY, TABLE};
use crate::completing::complete;
use crate::conditions::verdict;
use crate::format::Format;
use crate::mending::{judge_mend, mend};
use crate::stream::{put_bytes, put_words, take_bytes, take_words, to_bytes};
use crate::table::check;

pub const KIND: u8 = 0;

#[derive(Clone, PartialEq)]
pub struct PolicyCase {
    pub words: Vec<u16>,
    pub marks: Vec<u8>,
    pub out: Vec<u8>,
    pub proposed: Vec<u8>,
}

impl PolicyCase {
    pub fn read(stream: &mut &[u8]) -> PolicyCase {
        PolicyCase {
            words: take_words(stream),
            marks: take_bytes(stream).to_vec(),
            out: take_bytes(stream).to_vec(),
            proposed: take_bytes(stream).to_vec(),
        }
    }

    pub fn write(&self, stream: &mut Vec<u8>) {
        put_words(stream, &self.words);
        for run in [&self.marks, &self.out, &self.proposed] {
            put_bytes(stream, run);
        }
    }

    /// Whether word 0 is that of this format.
    pub fn has(&self, format: Format) -> bool {
        self.words.first() == Some(&format.word())
    }

    /// The case as a file for the program judge.
    pub fn file(&self) -> Vec<u8> {
        let mut file = to_bytes(&self.words);
        file.extend(&self.marks);
        file
    }

    /// A call that may write the result gets its own copy of it.
    pub fn writing(&self, call: impl Fn(&[u16], &[u8], &mut [u8]) -> Outcome) -> Told {
        let mut out = self.out.clone();
        let outcome = call(&self.words, &self.marks, &mut out);
        Told::writing(outcome, vec![out])
    }
}

pub const CALLS: [Call<PolicyCase>; 5] = [
    Call {
        name: "check",
        numbers: &[TABLE],
        breaches: false,
        make: |case| Told::reading(check(&case.words)),
    },
    Call {
        name: "verdict",
        numbers: &[TABLE, POLICY],
        breaches: true,
        make: |case| Told::reading(verdict(&case.words, &case.marks)),
    },
    Call {
        name: "complete",
        numbers: &[TABLE, POLICY, &[12, 16]],
        breaches: true,
        make: |case| case.writing(complete),
    },
    Call { name: "mend", numbers: &[TABLE, POLICY, &[12]], breaches: false, make: |case| case.writing(mend) },
    Call {
        name: "propose",
        numbers: &[TABLE, POLICY, &[13, 14, 15, 16]],
        breaches: true,
        make: |case| Told::reading(judge_mend(&case.words, &case.marks, &case.proposed)),
    },
];
