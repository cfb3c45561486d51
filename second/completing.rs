// The least completion, and the call `complete`.

use crate::answers::{refuse_breach, refuse_if, Answer, Outcome};
use crate::conditions::{check_policy, first_breach, forced};
use crate::table::{Table, ALLOWED, FORBIDDEN, UNSET};

/// The least fixed point of "a forced privilege is allowed", the rest forbidden.
pub fn completion(table: &Table, marks: &[u8]) -> Vec<u8> {
    let only_allowed = |&mark: &u8| if mark == ALLOWED { ALLOWED } else { UNSET };
    let mut now: Vec<u8> = marks.iter().map(only_allowed).collect();
    loop {
        let before = now.clone();
        for it in forced(table, &before) {
            now[it.privilege] = ALLOWED;
        }
        if now == before {
            return now.iter().map(|&mark| if mark == ALLOWED { ALLOWED } else { FORBIDDEN }).collect();
        }
    }
}

pub fn complete(words: &[u16], marks: &[u8], out: &mut [u8]) -> Outcome {
    let table = check_policy(words, marks)?;
    refuse_if(12, out.len() < table.v())?;
    refuse_breach(first_breach(&table, marks))?;
    out[..table.v()].copy_from_slice(&completion(&table, marks));
    Ok(Answer::default())
}
