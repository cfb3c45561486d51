// Cases of kind 3: a table and three pairs of bit maps, the policy's own, the results as lent and the proposed ones; and the calls that are
// made on them.

use crate::answers::Outcome;
use crate::calls::{Call, Told, MAPS, TABLE};
use crate::format::Format;
use crate::maps::{complete_maps, judge_maps, judge_mend_maps, map_length, mend_maps, write_map, Pair};
use crate::stream::{put_bytes, put_words, take_bytes, take_words};
use crate::table::{ALLOWED, FORBIDDEN};

pub const KIND: u8 = 3;

/// A pair of maps.
#[derive(Clone, PartialEq)]
pub struct Maps {
    pub allowed: Vec<u8>,
    pub forbidden: Vec<u8>,
}

impl Maps {
    /// The maps of these marks, just as long as they must be.
    pub fn of(marks: &[u8]) -> Maps {
        let [allowed, forbidden] = [ALLOWED, FORBIDDEN].map(|mark| {
            let mut map = vec![0; map_length(marks.len())];
            write_map(&mut map, marks, mark);
            map
        });
        Maps { allowed, forbidden }
    }

    pub fn pair(&self) -> Pair<'_> {
        Pair { allowed: &self.allowed, forbidden: &self.forbidden }
    }

    pub fn both(&self) -> [&[u8]; 2] {
        [&self.allowed, &self.forbidden]
    }

    pub fn both_mut(&mut self) -> [&mut Vec<u8>; 2] {
        [&mut self.allowed, &mut self.forbidden]
    }

    fn read(stream: &mut &[u8]) -> Maps {
        Maps { allowed: take_bytes(stream).to_vec(), forbidden: take_bytes(stream).to_vec() }
    }

    fn write(&self, stream: &mut Vec<u8>) {
        self.both().iter().for_each(|map| put_bytes(stream, map));
    }
}

#[derive(Clone, PartialEq)]
pub struct MapsCase {
    pub words: Vec<u16>,
    pub own: Maps,
    pub out: Maps,
    pub proposed: Maps,
}

impl MapsCase {
    pub fn read(stream: &mut &[u8]) -> MapsCase {
        MapsCase {
            words: take_words(stream),
            own: Maps::read(stream),
            out: Maps::read(stream),
            proposed: Maps::read(stream),
        }
    }

    pub fn write(&self, stream: &mut Vec<u8>) {
        put_words(stream, &self.words);
        for maps in [&self.own, &self.out, &self.proposed] {
            maps.write(stream);
        }
    }

    /// Whether word 0 is that of this format.
    pub fn has(&self, format: Format) -> bool {
        self.words.first() == Some(&format.word())
    }

    pub fn judging(&self, call: impl Fn(&[u16], &[u8], &[u8]) -> Outcome) -> Told {
        let [allowed, forbidden] = self.own.both();
        Told::reading(call(&self.words, allowed, forbidden))
    }

    /// A call that may write the results gets its own copies of them.
    pub fn writing(&self, call: impl Fn(&[u16], &[u8], &[u8], &mut [u8], &mut [u8]) -> Outcome) -> Told {
        let [allowed, forbidden] = self.own.both();
        let mut out = self.out.clone();
        let outcome = call(&self.words, allowed, forbidden, &mut out.allowed, &mut out.forbidden);
        Told::writing(outcome, vec![out.allowed, out.forbidden])
    }

    pub fn proposing(&self, call: impl Fn(&[u16], &[u8], &[u8], &[u8], &[u8]) -> Outcome) -> Told {
        let [allowed, forbidden] = self.own.both();
        let [proposed_allowed, proposed_forbidden] = self.proposed.both();
        Told::reading(call(&self.words, allowed, forbidden, proposed_allowed, proposed_forbidden))
    }
}

pub const CALLS: [Call<MapsCase>; 4] = [
    Call {
        name: "verdict_maps",
        numbers: &[TABLE, MAPS],
        breaches: true,
        make: |case| case.judging(judge_maps),
    },
    Call {
        name: "complete_maps",
        numbers: &[TABLE, MAPS, &[12, 16]],
        breaches: true,
        make: |case| case.writing(complete_maps),
    },
    Call {
        name: "mend_maps",
        numbers: &[TABLE, MAPS, &[12]],
        breaches: false,
        make: |case| case.writing(mend_maps),
    },
    Call {
        name: "propose_maps",
        numbers: &[TABLE, MAPS, &[13, 14, 15, 16]],
        breaches: true,
        make: |case| case.proposing(judge_mend_maps),
    },
];
