// Each bit of the maps of up to sixteen texts, in each map: a privilege's, or a spare one.

use super::super::expect;
use super::{done, refused, OnMaps};
use crate::format::Format;
use crate::making::schemas::Schema;
use crate::maps::{complete_maps, judge_maps, judge_mend_maps, mend_maps};
use crate::table::{Type, EMPTY, SEQUENCE, TEXT};

/// The map with the bits of so many privileges.
const FULL: [&[u8]; 17] = [
    &[],
    &[0x01],
    &[0x03],
    &[0x07],
    &[0x0f],
    &[0x1f],
    &[0x3f],
    &[0x7f],
    &[0xff],
    &[0xff, 0x01],
    &[0xff, 0x03],
    &[0xff, 0x07],
    &[0xff, 0x0f],
    &[0xff, 0x1f],
    &[0xff, 0x3f],
    &[0xff, 0x7f],
    &[0xff, 0xff],
];

/// The bits of a byte.
const BITS: [u8; 8] = [0x01, 0x02, 0x04, 0x08, 0x10, 0x20, 0x40, 0x80];

/// A sequence of so many texts, or an empty type.
fn texts(format: Format, count: usize) -> Vec<u16> {
    let kind = if count == 0 { EMPTY } else { SEQUENCE };
    let mut types = vec![Type { kind, children: (1..=count).collect() }];
    types.resize(count + 1, Type { kind: TEXT, children: Vec::new() });
    Schema::of(format, types).words()
}

/// What both results hold before a call.
const BYTE: u8 = 0xff;

/// Texts are mended to what they were and completed to these maps; the bytes behind them are kept.
fn self_written(words: &[u16], maps: [&[u8]; 2], completed: [&[u8]; 2]) {
    let calls: [(OnMaps, [&[u8]; 2]); 2] = [(mend_maps, maps), (complete_maps, completed)];
    for (call, written) in calls {
        let (mut one, mut other) = (vec![BYTE; maps[0].len() + 1], vec![BYTE; maps[1].len() + 2]);
        expect(call(words, maps[0], maps[1], &mut one, &mut other) == done(0), "texts are clean");
        expect(one == [written[0], &[BYTE]].concat(), "where texts are allowed");
        expect(other == [written[1], &[BYTE; 2]].concat(), "where texts are forbidden");
    }
}

/// All allowed, all forbidden, and none: no condition speaks of texts alone.
fn self_full(words: &[u16], full: &[u8]) {
    let none = &vec![0; full.len()][..];
    let [all_allowed, all_forbidden] = [[full, none], [none, full]];
    self_written(words, all_allowed, all_allowed);
    self_written(words, all_forbidden, all_forbidden);
    self_written(words, [none, none], all_forbidden);
}

/// Maps that are refused with this number and place, and when proposed with 14 and the same place.
fn self_fault(words: &[u16], [allowed, forbidden]: [&[u8]; 2], number: usize, place: usize) {
    let none = vec![0; allowed.len()];
    expect(judge_maps(words, allowed, forbidden) == refused([number, place]), "a bit too many");
    let told = judge_mend_maps(words, &none, &none, allowed, forbidden);
    expect(told == refused([14, place]), "a bit too many, proposed");
}

/// A map with a privilege's bit: it can be taken away and not be added, and in both maps it is a fault.
fn self_privilege(words: &[u16], bit: &[u8], privilege: usize) {
    let none = vec![0; bit.len()];
    expect(judge_maps(words, bit, &none) == done(0), "one text allowed");
    expect(judge_mend_maps(words, bit, &none, &none, bit) == done(1), "one text taken away");
    expect(judge_mend_maps(words, &none, &none, bit, &none) == refused([15, privilege]), "one text more");
    self_fault(words, [bit, bit], 23, privilege);
}

/// A map with a spare bit: in each map it is a fault, and in both.
fn self_spare(words: &[u16], bit: &[u8]) {
    let none = &vec![0; bit.len()][..];
    for maps in [[bit, none], [none, bit], [bit, bit]] {
        self_fault(words, maps, 24, 0);
    }
}

fn self_bit(words: &[u16], v: usize, k: usize) {
    let mut bit = vec![0; FULL[v].len()];
    bit[k / 8] = BITS[k % 8];
    if k < v {
        self_privilege(words, &bit, k);
    } else {
        self_spare(words, &bit);
    }
}

/// Maps, proposed maps and results of every length up to four bytes.
fn self_lengths(words: &[u16], length: usize) {
    let none = vec![0; length];
    for (one, other) in (0..25).map(|n| (n / 5, n % 5)) {
        let (mut allowed, mut forbidden) = (vec![0; one], vec![0; other]);
        let told = |number: usize, holds: bool| if holds { done(0) } else { refused([number, 0]) };
        let fits = one == length && other == length;
        expect(judge_maps(words, &allowed, &forbidden) == told(10, fits), "the lengths of maps");
        let judged = judge_mend_maps(words, &none, &none, &allowed, &forbidden);
        expect(judged == told(13, fits), "the lengths of proposed maps");
        let mended = mend_maps(words, &none, &none, &mut allowed, &mut forbidden);
        expect(mended == told(12, one >= length && other >= length), "the lengths of results");
    }
}

pub fn self_every_bit() {
    for (v, full) in FULL.iter().enumerate() {
        for format in [Format::One, Format::Two] {
            let words = texts(format, v);
            self_full(&words, full);
            self_lengths(&words, full.len());
            (0..8 * full.len()).for_each(|k| self_bit(&words, v, k));
        }
    }
}
