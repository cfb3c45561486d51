// The calls on two bit maps, and what is asked of them.

use crate::answers::Answer;
use crate::calls::Told;
use crate::conditions::first_breach;
use crate::maps::{has_bit, map_length, spare_bits};
use crate::maps_case::{Maps, MapsCase, CALLS};
use crate::table::{check_table, Table};
use std::cell::OnceCell;

pub struct Bits<'a> {
    pub case: &'a MapsCase,
    /// Where it is accepted.
    table: Option<Table>,
    /// What each call tells, once it is asked.
    told: [OnceCell<Told>; CALLS.len()],
}

/// A call that writes results.
#[derive(Clone, Copy)]
pub enum Writing {
    Completing = 1,
    Mending = 2,
}

/// A situation of such calls: its name, and whether a case is in it.
pub type Situation = (&'static str, fn(&Bits) -> bool);

impl Bits<'_> {
    pub fn of(case: &MapsCase) -> Bits<'_> {
        Bits { case, table: check_table(&case.words).ok(), told: Default::default() }
    }

    fn told(&self, call: usize) -> &Told {
        self.told[call].get_or_init(|| (CALLS[call].make)(self.case))
    }

    pub fn verdict(&self) -> &Answer {
        &self.told(0).answer
    }

    pub fn writes(&self, call: Writing) -> &Answer {
        &self.told(call as usize).answer
    }

    pub fn is_completed(&self) -> bool {
        self.writes(Writing::Completing).number == 0
    }

    /// Whether a mend takes something away.
    pub fn is_changed(&self) -> bool {
        self.writes(Writing::Mending).count > 0
    }

    pub fn proposing(&self) -> &Answer {
        &self.told(3).answer
    }

    /// The results after a call.
    pub fn written(&self, call: Writing) -> [&[u8]; 2] {
        let written = &self.told(call as usize).written;
        [&written[0], &written[1]]
    }

    pub fn has_table(&self) -> bool {
        self.table.is_some()
    }

    /// 0 where the table is refused.
    pub fn v(&self) -> usize {
        self.table.as_ref().map_or(0, Table::v)
    }

    /// By how many bytes each map of a pair is longer than V privileges need.
    pub fn over(&self, maps: &Maps) -> [isize; 2] {
        maps.both().map(|map| map.len() as isize - map_length(self.v()) as isize)
    }

    /// The privileges that have both bits.
    pub fn doubles(&self, maps: &Maps) -> Vec<usize> {
        (0..self.v()).filter(|&privilege| maps.pair().has_both_bits(privilege)).collect()
    }

    /// The spare bits that each map has set.
    pub fn spares(&self, maps: &Maps) -> [Vec<usize>; 2] {
        maps.both().map(|map| spare_bits(self.v()).filter(|&k| has_bit(map, k)).collect())
    }

    pub fn has_spare(&self, maps: &Maps) -> bool {
        self.spares(maps).iter().any(|bits| !bits.is_empty())
    }

    /// Whether a pair has the right lengths, and a privilege with both bits or a spare bit.
    pub fn is_bent(&self, maps: &Maps) -> bool {
        self.over(maps) == [0, 0] && (!self.doubles(maps).is_empty() || self.has_spare(maps))
    }

    /// Whether a result is short.
    pub fn lacks_room(&self) -> bool {
        self.over(&self.case.out).iter().any(|&over| over < 0)
    }

    pub fn marks(&self, maps: &Maps) -> Vec<u8> {
        maps.pair().marks(self.v())
    }

    /// Whether the marks of a pair have a breach.
    pub fn is_broken(&self, maps: &Maps) -> bool {
        self.table.as_ref().map_or(false, |table| first_breach(table, &self.marks(maps)).is_some())
    }
}
