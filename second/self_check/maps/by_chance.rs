// Maps by chance, each read as one number, low byte first, in which privilege p is worth 2 to the power of p: against the calls on mark bytes,
// and against what is refused of such numbers.

use super::super::expect;
use super::super::policies::small_policy;
use super::OnMaps;
use crate::answers::{answer, refuse_at, refuse_if, Answer, Outcome};
use crate::completing::complete;
use crate::conditions::verdict;
use crate::format::Format;
use crate::making::chance::Random;
use crate::making::policies::proposal;
use crate::maps::{complete_maps, judge_maps, judge_mend_maps, mend_maps};
use crate::maps_case::Maps;
use crate::mending::{judge_mend, mend};
use crate::table::{ALLOWED, FORBIDDEN};

/// The number of a map.
fn number(map: &[u8]) -> u128 {
    map.iter().rev().fold(0, |number, &byte| 256 * number + byte as u128)
}

/// The map with this number.
fn map(v: usize, number: u128) -> Vec<u8> {
    number.to_le_bytes()[..(v + 7) / 8].to_vec()
}

/// The maps of marks.
fn maps(marks: &[u8]) -> Maps {
    let worth = |mark: u8| marks.iter().rev().fold(0, |number, &own| 2 * number + (own == mark) as u128);
    let [allowed, forbidden] = [ALLOWED, FORBIDDEN].map(|mark| map(marks.len(), worth(mark)));
    Maps { allowed, forbidden }
}

/// The marks of maps.
fn marks(v: usize, maps: &Maps) -> Vec<u8> {
    let [allowed, forbidden] = maps.both().map(number);
    (0..v).map(|p| (allowed >> p & 1) as u8 * ALLOWED + (forbidden >> p & 1) as u8 * FORBIDDEN).collect()
}

/// Marks to maps and back, and a pair of maps without a fault to marks and back.
fn self_spelling(r: &mut Random) {
    let v = r.below(121);
    let known: Vec<u8> = (0..v).map(|_| r.below(3) as u8).collect();
    expect(Maps::of(&known) == maps(&known), "the maps of marks");
    expect(Maps::of(&known).pair().marks(v) == known, "marks to maps and back");
    let mut any = || ((r.next() as u128) << 64 | r.next() as u128) % (1 << v);
    let (allowed, forbidden) = (any(), any());
    let pair = Maps { allowed: map(v, allowed), forbidden: map(v, forbidden & !allowed) };
    expect(pair.pair().marks(v) == marks(v, &pair), "the marks of maps");
    expect(Maps::of(&pair.pair().marks(v)) == pair, "maps to marks and back");
}

/// Three numbers in their order: for the lengths, for both bits and for a spare bit.
fn check_pair(v: usize, maps: &Maps, numbers: [usize; 3]) -> Result<(), Answer> {
    let [allowed, forbidden] = maps.both().map(number);
    let both = (allowed & forbidden) % (1 << v);
    refuse_if(numbers[0], maps.both().iter().any(|map| 8 * map.len() < v || 8 * map.len() >= v + 8))?;
    refuse_at(numbers[1], Some(both.trailing_zeros() as usize).filter(|_| both > 0))?;
    refuse_if(numbers[2], allowed >> v > 0 || forbidden >> v > 0)
}

/// A policy of V privileges in maps, and a proposed mend of it.
struct Known {
    words: Vec<u16>,
    v: usize,
    own: Maps,
    proposed: Maps,
}

impl Known {
    /// The marks of the policy, where it is not refused.
    fn marks(&self) -> Result<Vec<u8>, Answer> {
        check_pair(self.v, &self.own, [10, 23, 24])?;
        Ok(marks(self.v, &self.own))
    }

    fn verdict(&self) -> Outcome {
        verdict(&self.words, &self.marks()?)
    }

    /// What a call on marks tells and writes; the results as lent are then written over.
    fn writing(&self, call: fn(&[u16], &[u8], &mut [u8]) -> Outcome, out: &mut Maps) -> Outcome {
        let own = self.marks()?;
        refuse_if(12, out.both().iter().any(|map| 8 * map.len() < self.v))?;
        let mut after = own.clone();
        let told = call(&self.words, &own, &mut after)?;
        for (map, written) in out.both_mut().into_iter().zip(maps(&after).both()) {
            map[..written.len()].copy_from_slice(written);
        }
        Ok(told)
    }

    fn proposing(&self) -> Outcome {
        let own = self.marks()?;
        check_pair(self.v, &self.proposed, [13, 14, 14])?;
        judge_mend(&self.words, &own, &marks(self.v, &self.proposed))
    }
}

/// Turns a bit, or takes or adds a byte: of one map, or of both alike.
fn bend(r: &mut Random, maps: &mut Maps) {
    let (left_out, way, at) = (r.below(3), r.below(8), r.next() as usize);
    for (_, map) in maps.both_mut().into_iter().enumerate().filter(|(k, _)| *k != left_out) {
        let bits = 8 * map.len();
        match way {
            0 => drop(map.pop()),
            1 => map.push(at as u8),
            _ if bits > 0 => map[at % bits / 8] ^= 1 << (at % 8),
            _ => (),
        }
    }
}

/// A policy and a proposed mend, in one of three cases each with one fault or two.
fn known(r: &mut Random, format: Format) -> Known {
    let (schema, table, marks) = small_policy(r, format);
    let (mut own, mut proposed) = (maps(&marks), maps(&proposal(r, &table, &marks)));
    for maps in [&mut own, &mut proposed] {
        (0..r.pick(&[0, 0, 0, 0, 1, 2])).for_each(|_| bend(r, maps));
    }
    Known { words: schema.words(), v: marks.len(), own, proposed }
}

/// A result, seldom too short.
fn lent(r: &mut Random, v: usize) -> Vec<u8> {
    let length = v / 8 + r.pick(&[0, 1, 1, 1, 2, 2, 3]);
    (0..length).map(|_| r.next() as u8).collect()
}

/// A call that writes marks.
type OnMarks = fn(&[u16], &[u8], &mut [u8]) -> Outcome;

const WRITING: [(OnMarks, OnMaps); 2] = [(complete, complete_maps), (mend, mend_maps)];

/// All four calls; gives the number of the verdict.
fn self_calls(r: &mut Random, format: Format) -> usize {
    let known = known(r, format);
    let Known { words, own: Maps { allowed, forbidden }, proposed, .. } = &known;
    for (on_marks, on_maps) in WRITING {
        let mut out = Maps { allowed: lent(r, known.v), forbidden: lent(r, known.v) };
        let mut after = out.clone();
        let told = on_maps(words, allowed, forbidden, &mut after.allowed, &mut after.forbidden);
        expect(told == known.writing(on_marks, &mut out), "what a call over maps tells");
        expect(after == out, "what a call over maps writes");
    }
    let judged = judge_mend_maps(words, allowed, forbidden, &proposed.allowed, &proposed.forbidden);
    expect(judged == known.proposing(), "a proposed mend over maps");
    let told = judge_maps(words, allowed, forbidden);
    expect(told == known.verdict(), "a verdict over maps");
    answer(told).number
}

pub fn self_by_chance(seed: u64, count: usize) -> String {
    let mut r = Random(seed);
    (0..count).for_each(|_| self_spelling(&mut r));
    let formats = [Format::One, Format::Two];
    let numbers: Vec<usize> = (0..count).map(|k| self_calls(&mut r, formats[k % 2])).collect();
    let of = |wanted: usize| numbers.iter().filter(|&&number| number == wanted).count();
    let [judged, misfit, both, spare] = [0, 10, 23, 24].map(of);
    let told = format!("{} judged, {} with number 10, {} with 23, {} with 24", judged, misfit, both, spare);
    format!("{} policies by chance ({})", count, told)
}
