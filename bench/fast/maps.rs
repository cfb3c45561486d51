// The calls on two bit maps: they are spelt as marks on the stack, the call on marks is made, and its result is put back into maps. Eight marks are
// spelt at a time by looking up each byte, and put back by a multiplication. Where they are few, room is taken, and filled with zeros, for few. A
// schema's table is checked by the call on marks, or, where the maps are refused, by itself; until then word 7 is taken for V.

use super::{
    check_table, complete, judge_mend, judge_policy, mend, refused, Refusal, MOST_PRIVILEGES,
};
use crate::calls::Outcome;

/// How many marks are few, and how many a table can have.
const FEW: usize = 256;
const ALL: usize = MOST_PRIVILEGES;

/// A byte for each bit of a byte, the lowest first.
static SPREAD: [u64; 256] = spread();

const fn spread() -> [u64; 256] {
    let mut all = [0; 256];
    let mut byte = 0;
    while byte < 256 {
        let mut bit = 0;
        while bit < 8 {
            all[byte] |= (byte as u64 >> bit & 1) << (8 * bit);
            bit += 1;
        }
        byte += 1;
    }
    all
}

/// V, if the words are a table.
fn v_of(words: &[u16]) -> usize {
    words.get(7).map_or(0, |&v| v as usize)
}

/// Two maps, with the numbers of a wrong length, of a privilege that is set in both and of a spare bit.
#[derive(Clone, Copy)]
struct Maps<'a> {
    allowed: &'a [u8],
    forbidden: &'a [u8],
    numbers: [usize; 3],
}

impl<'a> Maps<'a> {
    fn own(allowed: &'a [u8], forbidden: &'a [u8]) -> Maps<'a> {
        Maps { allowed, forbidden, numbers: [10, 23, 24] }
    }

    fn proposed(allowed: &'a [u8], forbidden: &'a [u8]) -> Maps<'a> {
        Maps { allowed, forbidden, numbers: [13, 14, 14] }
    }

    /// The marks, V of them, in some room.
    fn spell<'m>(&self, v: usize, room: &'m mut [u8]) -> Result<&'m [u8], Refusal> {
        let Maps { allowed, forbidden, numbers: [length, both, spare] } = *self;
        let bytes = v.div_ceil(8);
        if allowed.len() != bytes || forbidden.len() != bytes || v > room.len() {
            return Err((length, 0));
        }
        let (mut shared, mut last) = (0, 0);
        let (eights, _) = room.as_chunks_mut::<8>();
        for ((eight, &a), &f) in eights.iter_mut().zip(allowed).zip(forbidden) {
            *eight = (SPREAD[a as usize] | SPREAD[f as usize] << 1).to_le_bytes();
            shared |= a & f;
            last = a | f;
        }
        let is_spared = v % 8 != 0 && last >> (v % 8) != 0;
        if shared != 0 || is_spared {
            let lowest = (0..v).find(|p| allowed[p / 8] & forbidden[p / 8] & 1 << (p % 8) != 0);
            return Err(lowest.map_or((spare, 0), |place| (both, place)));
        }
        Ok(&room[..v])
    }
}

/// A bit for each of eight bytes: their lowest.
fn lowest_bits(bytes: u64) -> u8 {
    let bits = bytes & 0x0101_0101_0101_0101;
    (bits.wrapping_mul(0x0102_0408_1020_4080) >> 56) as u8
}

/// Puts marks into two maps, as many as these have bits.
fn put_back(marks: &[u8], allowed: &mut [u8], forbidden: &mut [u8]) {
    let (eights, _) = marks.as_chunks::<8>();
    for ((eight, a), f) in eights.iter().zip(allowed).zip(forbidden) {
        let eight = u64::from_le_bytes(*eight);
        *a = lowest_bits(eight);
        *f = lowest_bits(eight >> 1);
    }
}

/// What a table is refused with, else what the maps are.
fn refused_after_table(words: &[u16], refusal: Refusal) -> Outcome {
    let table = check_table(words);
    if table.number != 0 {
        return table;
    }
    refused(refusal)
}

fn judge_in<const ROOM: usize>(words: &[u16], maps: Maps) -> Outcome {
    let mut room = [0; ROOM];
    match maps.spell(v_of(words), &mut room) {
        Ok(marks) => judge_policy(words, marks),
        Err(refusal) => refused_after_table(words, refusal),
    }
}

type Write = fn(&[u16], &[u8], &mut [u8]) -> Outcome;

fn write_in<const ROOM: usize>(
    words: &[u16],
    maps: Maps,
    [allowed, forbidden]: [&mut [u8]; 2],
    call: Write,
) -> Outcome {
    let (v, mut room) = (v_of(words), [0; ROOM]);
    let marks = match maps.spell(v, &mut room) {
        Ok(marks) => marks,
        Err(refusal) => return refused_after_table(words, refusal),
    };
    let bytes = v.div_ceil(8);
    if allowed.len() < bytes || forbidden.len() < bytes {
        return refused_after_table(words, (12, 0));
    }
    let mut out = [0; ROOM];
    let told = call(words, marks, &mut out[..v]);
    if told.number == 0 {
        put_back(&out, &mut allowed[..bytes], &mut forbidden[..bytes]);
    }
    told
}

fn write(words: &[u16], maps: Maps, out: [&mut [u8]; 2], call: Write) -> Outcome {
    if v_of(words) <= FEW {
        write_in::<FEW>(words, maps, out, call)
    } else {
        write_in::<ALL>(words, maps, out, call)
    }
}

fn judge_mend_in<const ROOM: usize>(words: &[u16], maps: Maps, proposed: Maps) -> Outcome {
    let (v, mut room, mut other) = (v_of(words), [0; ROOM], [0; ROOM]);
    let own = maps.spell(v, &mut room);
    match own.and_then(|own| Ok((own, proposed.spell(v, &mut other)?))) {
        Ok((marks, proposed)) => judge_mend(words, marks, proposed),
        Err(refusal) => refused_after_table(words, refusal),
    }
}

pub fn judge_maps(words: &[u16], allowed: &[u8], forbidden: &[u8]) -> Outcome {
    let maps = Maps::own(allowed, forbidden);
    if v_of(words) <= FEW {
        judge_in::<FEW>(words, maps)
    } else {
        judge_in::<ALL>(words, maps)
    }
}

pub fn complete_maps(
    words: &[u16],
    allowed: &[u8],
    forbidden: &[u8],
    out_allowed: &mut [u8],
    out_forbidden: &mut [u8],
) -> Outcome {
    write(words, Maps::own(allowed, forbidden), [out_allowed, out_forbidden], complete)
}

pub fn mend_maps(
    words: &[u16],
    allowed: &[u8],
    forbidden: &[u8],
    out_allowed: &mut [u8],
    out_forbidden: &mut [u8],
) -> Outcome {
    write(words, Maps::own(allowed, forbidden), [out_allowed, out_forbidden], mend)
}

pub fn judge_mend_maps(
    words: &[u16],
    allowed: &[u8],
    forbidden: &[u8],
    proposed_allowed: &[u8],
    proposed_forbidden: &[u8],
) -> Outcome {
    let maps = Maps::own(allowed, forbidden);
    let proposed = Maps::proposed(proposed_allowed, proposed_forbidden);
    if v_of(words) <= FEW {
        judge_mend_in::<FEW>(words, maps, proposed)
    } else {
        judge_mend_in::<ALL>(words, maps, proposed)
    }
}
