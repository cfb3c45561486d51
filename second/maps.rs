// Marks as two bit maps (request 7 of document 02): one for what is allowed and one for what is forbidden, privilege 0 in the lowest bit of
// byte 0; and the calls over them.

use crate::answers::{refuse_at, refuse_if, Answer, Outcome};
use crate::completing::complete;
use crate::conditions::verdict;
use crate::mending::{judge_mend, mend};
use crate::table::{check_table, ALLOWED, FORBIDDEN, UNSET};

/// How many bytes a map of V privileges has: an eighth of V, rounded up.
pub fn map_length(v: usize) -> usize {
    v.div_ceil(8)
}

/// Whether bit k is set. Behind its end a map has no bit.
pub fn has_bit(map: &[u8], k: usize) -> bool {
    map.get(k / 8).map_or(false, |byte| byte >> (k % 8) & 1 == 1)
}

pub fn put_bit(map: &mut [u8], k: usize, is_set: bool) {
    let bit = 1 << (k % 8);
    map[k / 8] = if is_set { map[k / 8] | bit } else { map[k / 8] & !bit };
}

/// The bits behind those of V privileges, in the last byte that these have.
pub fn spare_bits(v: usize) -> impl Iterator<Item = usize> {
    v..8 * map_length(v)
}

/// Two maps that belong together.
#[derive(Clone, Copy)]
pub struct Pair<'a> {
    pub allowed: &'a [u8],
    pub forbidden: &'a [u8],
}

impl Pair<'_> {
    /// Whether one of the maps is not as long as V privileges need.
    fn is_misfit(self, v: usize) -> bool {
        [self.allowed, self.forbidden].iter().any(|map| map.len() != map_length(v))
    }

    pub fn has_both_bits(self, k: usize) -> bool {
        has_bit(self.allowed, k) && has_bit(self.forbidden, k)
    }

    /// The lowest of V privileges that has both bits.
    fn both_bits(self, v: usize) -> Option<usize> {
        (0..v).find(|&privilege| self.has_both_bits(privilege))
    }

    /// Whether one of the maps has a spare bit set.
    fn has_spare_bit(self, v: usize) -> bool {
        spare_bits(v).any(|k| has_bit(self.allowed, k) || has_bit(self.forbidden, k))
    }

    /// The mark of a privilege; where it has both bits, it is unset here.
    fn mark(self, privilege: usize) -> u8 {
        match [self.allowed, self.forbidden].map(|map| has_bit(map, privilege)) {
            [true, false] => ALLOWED,
            [false, true] => FORBIDDEN,
            _ => UNSET,
        }
    }

    pub fn marks(self, v: usize) -> Vec<u8> {
        (0..v).map(|privilege| self.mark(privilege)).collect()
    }
}

/// Writes where this mark stands: a bit for each privilege, the spare bits 0, the bytes behind them kept.
pub fn write_map(map: &mut [u8], marks: &[u8], mark: u8) {
    for (privilege, &own) in marks.iter().enumerate() {
        put_bit(map, privilege, own == mark);
    }
    for k in spare_bits(marks.len()) {
        put_bit(map, k, false);
    }
}

/// The table's numbers, then 10, 23 and 24; gives the marks.
fn check_maps(words: &[u16], own: Pair) -> Result<Vec<u8>, Answer> {
    let v = check_table(words)?.v();
    refuse_if(10, own.is_misfit(v))?;
    refuse_at(23, own.both_bits(v))?;
    refuse_if(24, own.has_spare_bit(v))?;
    Ok(own.marks(v))
}

/// A call on marks that writes marks, made over maps. It is given a result of its own, so that a refusal leaves the maps as they were.
fn writing(
    call: fn(&[u16], &[u8], &mut [u8]) -> Outcome,
    words: &[u16],
    own: Pair,
    [out_allowed, out_forbidden]: [&mut [u8]; 2],
) -> Outcome {
    let marks = check_maps(words, own)?;
    let length = map_length(marks.len());
    refuse_if(12, out_allowed.len() < length || out_forbidden.len() < length)?;
    let mut after = vec![UNSET; marks.len()];
    let done = call(words, &marks, &mut after)?;
    write_map(out_allowed, &after, ALLOWED);
    write_map(out_forbidden, &after, FORBIDDEN);
    Ok(done)
}

pub fn judge_maps(words: &[u16], allowed: &[u8], forbidden: &[u8]) -> Outcome {
    let marks = check_maps(words, Pair { allowed, forbidden })?;
    verdict(words, &marks)
}

pub fn complete_maps(
    words: &[u16],
    allowed: &[u8],
    forbidden: &[u8],
    out_allowed: &mut [u8],
    out_forbidden: &mut [u8],
) -> Outcome {
    writing(complete, words, Pair { allowed, forbidden }, [out_allowed, out_forbidden])
}

pub fn mend_maps(
    words: &[u16],
    allowed: &[u8],
    forbidden: &[u8],
    out_allowed: &mut [u8],
    out_forbidden: &mut [u8],
) -> Outcome {
    writing(mend, words, Pair { allowed, forbidden }, [out_allowed, out_forbidden])
}

/// Behind the policy's own numbers 13 and 14, the latter for both bits and then for a spare bit.
pub fn judge_mend_maps(
    words: &[u16],
    allowed: &[u8],
    forbidden: &[u8],
    proposed_allowed: &[u8],
    proposed_forbidden: &[u8],
) -> Outcome {
    let marks = check_maps(words, Pair { allowed, forbidden })?;
    let v = marks.len();
    let proposed = Pair { allowed: proposed_allowed, forbidden: proposed_forbidden };
    refuse_if(13, proposed.is_misfit(v))?;
    refuse_at(14, proposed.both_bits(v))?;
    refuse_if(14, proposed.has_spare_bit(v))?;
    judge_mend(words, &marks, &proposed.marks(v))
}
