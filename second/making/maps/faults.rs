// Faults of a pair of bit maps.

use crate::making::chance::Random;
use crate::maps::{map_length, put_bit, spare_bits};
use crate::maps_case::Maps;

/// Other lengths for maps of V privileges, of one map or of both: one byte less or more, none, or a byte for each privilege.
fn spoil_lengths(r: &mut Random, v: usize, maps: &mut Maps) {
    let length = map_length(v);
    let (less, more, any) = (length.saturating_sub(1), length + 1, r.next() as u8);
    let mut other = || (r.pick(&[less, less, more, more, 0, v]), r.pick(&[0, any]));
    let (one, two) = (other(), other());
    let [allowed, forbidden] = maps.both_mut();
    match r.below(4) {
        0 => allowed.resize(one.0, one.1),
        1 => forbidden.resize(one.0, one.1),
        2 => [allowed, forbidden].into_iter().for_each(|map| map.resize(one.0, one.1)),
        _ => {
            allowed.resize(one.0, one.1);
            forbidden.resize(two.0, two.1);
        }
    }
}

/// Both bits at one privilege or more; V is over 0.
fn set_both(r: &mut Random, v: usize, maps: &mut Maps) {
    for _ in 0..r.pick(&[1, 1, 2, 3]) {
        let any = r.below(v);
        let privilege = r.pick(&[0, 7, 8, v - 1, any, any]).min(v - 1);
        maps.both_mut().into_iter().for_each(|map| put_bit(map, privilege, true));
    }
}

/// A spare bit, where there is one: in one map, the same in both, or one in each.
fn set_spare(r: &mut Random, v: usize, maps: &mut Maps) {
    let spare: Vec<usize> = spare_bits(v).collect();
    if spare.is_empty() {
        return;
    }
    let (one, other) = (r.pick(&spare), r.pick(&spare));
    match r.below(4) {
        0 => put_bit(&mut maps.allowed, one, true),
        1 => put_bit(&mut maps.forbidden, one, true),
        2 => maps.both_mut().into_iter().for_each(|map| put_bit(map, one, true)),
        _ => {
            put_bit(&mut maps.allowed, one, true);
            put_bit(&mut maps.forbidden, other, true);
        }
    }
}

/// One fault or two; of no privilege only other lengths.
pub fn spoil(r: &mut Random, v: usize, maps: &mut Maps) {
    match r.below(12) {
        _ if v == 0 => spoil_lengths(r, v, maps),
        0..=2 => set_both(r, v, maps),
        3..=5 => set_spare(r, v, maps),
        6 => {
            set_both(r, v, maps);
            set_spare(r, v, maps);
        }
        7 => {
            set_both(r, v, maps);
            spoil_lengths(r, v, maps);
        }
        8 => {
            set_spare(r, v, maps);
            spoil_lengths(r, v, maps);
        }
        _ => spoil_lengths(r, v, maps),
    }
}
