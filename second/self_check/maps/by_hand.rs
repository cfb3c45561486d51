// Calls on maps worked out by hand: S1 to S10 and samples of format 2, each byte written out, no privilege, and each refusal in its order.

use super::super::roles::{NO_PRIVILEGE, REFUSED_TABLES};
use super::super::samples::{of_two, Sample, SAMPLE, SAMPLES, SAMPLES_OF_TWO};
use super::super::{by_hand, expect};
use super::{done, refused, OnMaps};
use crate::answers::{Answer, Breach, Outcome};
use crate::maps::{complete_maps, judge_maps, judge_mend_maps, mend_maps};

/// An allowed map and a forbidden map of 9 to 16 privileges.
type Two = [[u8; 2]; 2];

/// A sample in maps: the policy, its completion if there is one, and its mend.
type InMaps = (Two, Option<Two>, Two);

const NONE: Two = [[0x00, 0x00], [0x00, 0x00]];

/// S1 to S9: eleven privileges, the last in bit 2 of byte 1.
const IN_MAPS: [InMaps; 9] = [
    (NONE, Some([[0x00, 0x00], [0xff, 0x07]]), NONE),
    ([[0x03, 0x00], [0x08, 0x00]], None, [[0x01, 0x00], [0x0a, 0x00]]),
    ([[0x03, 0x00], [0x00, 0x00]], Some([[0xff, 0x07], [0x00, 0x00]]), [[0x03, 0x00], [0x00, 0x00]]),
    ([[0x01, 0x00], [0x08, 0x00]], Some([[0x01, 0x00], [0xfe, 0x07]]), [[0x01, 0x00], [0x08, 0x00]]),
    ([[0x90, 0x00], [0x20, 0x00]], None, [[0x80, 0x00], [0x30, 0x00]]),
    ([[0x90, 0x00], [0x00, 0x00]], Some([[0xb0, 0x00], [0x4f, 0x07]]), [[0x90, 0x00], [0x00, 0x00]]),
    ([[0x80, 0x02], [0x00, 0x04]], None, [[0x80, 0x00], [0x00, 0x06]]),
    ([[0x80, 0x02], [0x00, 0x00]], Some([[0x80, 0x06], [0x7f, 0x01]]), [[0x80, 0x02], [0x00, 0x00]]),
    ([[0x93, 0x00], [0x28, 0x00]], None, [[0x81, 0x00], [0x3a, 0x00]]),
];

/// Some of the samples of format 2, by their number there: fifteen privileges, the last in bit 6 of byte 1.
const IN_MAPS_OF_TWO: [(usize, InMaps); 5] = [
    (0, (NONE, Some([[0x00, 0x00], [0xff, 0x7f]]), NONE)),
    (1, ([[0x03, 0x00], [0x00, 0x00]], Some([[0xff, 0x7f], [0x00, 0x00]]), [[0x03, 0x00], [0x00, 0x00]])),
    (3, ([[0x03, 0x00], [0x14, 0x00]], None, [[0x01, 0x00], [0x16, 0x00]])),
    (10, ([[0x40, 0x01], [0x00, 0x00]], Some([[0x60, 0x03], [0x9f, 0x7c]]), [[0x40, 0x01], [0x00, 0x00]])),
    (17, ([[0x60, 0x04], [0x80, 0x00]], None, [[0x00, 0x04], [0xe0, 0x00]])),
];

/// What the results hold before a call.
const BYTE: u8 = 0xa5;

/// Both maps, each with a byte behind it that is kept.
fn with_byte(maps: Two) -> [Vec<u8>; 2] {
    maps.map(|map| [&map[..], &[BYTE]].concat())
}

fn refused_for(breach: Breach) -> Outcome {
    Err(Answer { number: 16, breach, ..Answer::default() })
}

/// The breach and the count are those of the sample; the bytes are written out.
fn self_sample(words: &[u16], sample: &Sample, (own, completed, mended): InMaps, name: &str) {
    let (breach, count) = (by_hand(sample.1), sample.3);
    let [allowed, forbidden] = &own;
    let lent = || with_byte([[BYTE; 2]; 2]);
    expect(judge_maps(words, allowed, forbidden) == Ok(Answer { breach, ..Answer::default() }), name);
    let [mut out_allowed, mut out_forbidden] = lent();
    let told = complete_maps(words, allowed, forbidden, &mut out_allowed, &mut out_forbidden);
    expect(told == if completed.is_some() { done(0) } else { refused_for(breach) }, name);
    expect([out_allowed, out_forbidden] == completed.map_or(lent(), with_byte), name);
    let [mut out_allowed, mut out_forbidden] = lent();
    let told = mend_maps(words, allowed, forbidden, &mut out_allowed, &mut out_forbidden);
    expect(told == done(count) && [out_allowed, out_forbidden] == with_byte(mended), name);
    expect(judge_mend_maps(words, allowed, forbidden, &mended[0], &mended[1]) == done(count), name);
    let same = judge_mend_maps(words, allowed, forbidden, allowed, forbidden);
    expect(same == if completed.is_some() { done(0) } else { refused_for(breach) }, name);
}

/// S10: from S2 one proposal is accepted, and the other changes a mark from 2 to 0.
fn self_proposals() {
    let judged =
        |proposed: Two| judge_mend_maps(&SAMPLE, &[0x03, 0x00], &[0x08, 0x00], &proposed[0], &proposed[1]);
    expect(judged([[0x01, 0x00], [0x0a, 0x00]]) == done(1), "sample S10 in maps");
    expect(judged([[0x03, 0x00], [0x00, 0x00]]) == refused([15, 3]), "sample S10 in maps");
    expect(judged([[0x03, 0x02], [0x08, 0x00]]) == refused([15, 9]), "a change behind byte 0");
    expect(judged([[0x01, 0x00], [0x0a, 0x04]]) == refused([15, 10]), "a change of the last privilege");
}

fn self_samples() {
    for (k, (sample, in_maps)) in SAMPLES.iter().zip(IN_MAPS).enumerate() {
        self_sample(&SAMPLE, sample, in_maps, &format!("sample S{} in maps", k + 1));
    }
    for (k, in_maps) in IN_MAPS_OF_TWO {
        let name = format!("sample {} of format 2 in maps", k);
        self_sample(&of_two(&SAMPLE), &SAMPLES_OF_TWO[k], in_maps, &name);
    }
}

/// Calls with other results and other proposed maps, which a refusal of the policy comes before.
fn self_policy(words: &[u16], [allowed, forbidden]: [&[u8]; 2], refusal: [usize; 2], name: &str) {
    expect(judge_maps(words, allowed, forbidden) == refused(refusal), name);
    for lengths in [[2, 2], [3, 2], [1, 2], [2, 1], [0, 0]] {
        self_kept(words, [allowed, forbidden], lengths, refused(refusal), name);
    }
    let proposed: [[&[u8]; 2]; 4] = [
        [&[0x03, 0x00], &[0x00, 0x00]],
        [&[0x03], &[]],
        [&[0x03, 0x00], &[0x01, 0x00]],
        [&[0x03, 0x80], &[0x00, 0x00]],
    ];
    for maps in proposed {
        let told = judge_mend_maps(words, allowed, forbidden, maps[0], maps[1]);
        expect(told == refused(refusal), name);
    }
}

/// Completing and mending into results of these lengths tell so, and keep them.
fn self_kept(
    words: &[u16],
    [allowed, forbidden]: [&[u8]; 2],
    lengths: [usize; 2],
    told: Outcome,
    name: &str,
) {
    let calls: [OnMaps; 2] = [complete_maps, mend_maps];
    for call in calls {
        let [mut one, mut other] = lengths.map(|length| vec![BYTE; length]);
        expect(call(words, allowed, forbidden, &mut one, &mut other) == told, name);
        expect([one, other] == lengths.map(|length| vec![BYTE; length]), name);
    }
}

fn self_tables() {
    for (at, word, refusal) in REFUSED_TABLES {
        let mut words = SAMPLE;
        words[at] = word;
        self_policy(&words, [&[0x03, 0x00], &[0x08, 0x00]], refusal, "maps of a refused table");
        self_policy(&words, [&[0x03], &[]], refusal, "a refused table, and short maps");
        self_policy(&words, [&[0x03, 0x00], &[0x01, 0x00]], refusal, "a refused table, and both bits");
        self_policy(&words, [&[0x03, 0x80], &[0x00, 0x00]], refusal, "a refused table, and a spare bit");
    }
}

/// 10, then 23 with the lowest privilege, then 24.
const REFUSED_MAPS: [([&[u8]; 2], [usize; 2]); 22] = [
    ([&[0x03], &[0x08, 0x00]], [10, 0]),
    ([&[0x03, 0x00, 0x00], &[0x08, 0x00]], [10, 0]),
    ([&[0x03, 0x00], &[0x08]], [10, 0]),
    ([&[0x03, 0x00], &[0x08, 0x00, 0x00]], [10, 0]),
    ([&[0x03], &[0x08, 0x00, 0x00]], [10, 0]),
    ([&[], &[]], [10, 0]),
    ([&[1, 1, 0, 0, 0, 0, 0, 0, 0, 0, 0], &[0, 0, 0, 1, 0, 0, 0, 0, 0, 0, 0]], [10, 0]),
    ([&[0xff], &[0xff, 0xff]], [10, 0]),
    ([&[0xff, 0xff, 0xff], &[0xff, 0xff]], [10, 0]),
    ([&[0x01, 0x00], &[0x01, 0x00]], [23, 0]),
    ([&[0x80, 0x00], &[0x80, 0x00]], [23, 7]),
    ([&[0x00, 0x01], &[0x00, 0x01]], [23, 8]),
    ([&[0x00, 0x04], &[0x00, 0x04]], [23, 10]),
    ([&[0x94, 0x02], &[0x88, 0x02]], [23, 7]),
    ([&[0x01, 0x06], &[0x02, 0x06]], [23, 9]),
    ([&[0x04, 0x08], &[0x04, 0x00]], [23, 2]),
    ([&[0x00, 0x0c], &[0x00, 0x0c]], [23, 10]),
    ([&[0xff, 0xff], &[0xff, 0xff]], [23, 0]),
    ([&[0x00, 0x08], &[0x00, 0x00]], [24, 0]),
    ([&[0x03, 0x00], &[0x08, 0x80]], [24, 0]),
    ([&[0x00, 0x08], &[0x00, 0x08]], [24, 0]),
    ([&[0x55, 0x15], &[0xaa, 0x22]], [24, 0]),
];

fn self_policies() {
    for (maps, refusal) in REFUSED_MAPS {
        self_policy(&SAMPLE, maps, refusal, "refused maps");
    }
    for maps in [[&[0x01][..], &[]], [&[], &[0x00]], [&[0x00], &[0x00]]] {
        self_policy(&NO_PRIVILEGE, maps, [10, 0], "a byte for no privilege");
    }
}

/// Without a privilege there is nothing to write.
fn self_without_privileges() {
    expect(judge_maps(&NO_PRIVILEGE, &[], &[]) == done(0), "maps without a privilege");
    for lengths in [[0, 0], [1, 0], [0, 1], [3, 2]] {
        self_kept(&NO_PRIVILEGE, [&[], &[]], lengths, done(0), "maps without a privilege, and results");
    }
    expect(judge_mend_maps(&NO_PRIVILEGE, &[], &[], &[], &[]) == done(0), "no map proposed");
    for proposed in [[&[0x00][..], &[]], [&[], &[0x00]], [&[0x01], &[0x01]]] {
        let told = judge_mend_maps(&NO_PRIVILEGE, &[], &[], proposed[0], proposed[1]);
        expect(told == refused([13, 0]), "a byte proposed for no privilege");
    }
}

/// 12 comes before 16: the first is clean, and the second is not.
fn self_room() {
    for maps in [[&[0x03, 0x00][..], &[0x00, 0x00]], [&[0x03, 0x00], &[0x08, 0x00]]] {
        for lengths in [[1, 2], [2, 1], [1, 1], [0, 2], [2, 0], [0, 0], [1, 11], [11, 1]] {
            self_kept(&SAMPLE, maps, lengths, refused([12, 0]), "too little room for maps");
        }
    }
}

/// 13 for a length, then 14 with the lowest privilege that has both bits, then 14 for a spare bit.
fn self_proposed() {
    for (proposed, [number, place]) in REFUSED_MAPS {
        let number = if number == 10 { 13 } else { 14 };
        let told = judge_mend_maps(&SAMPLE, &[0x03, 0x00], &[0x08, 0x00], proposed[0], proposed[1]);
        expect(told == refused([number, place]), "refused maps, proposed");
    }
}

pub fn self_by_hand() {
    self_samples();
    self_proposals();
    self_tables();
    self_policies();
    self_without_privileges();
    self_room();
    self_proposed();
}
