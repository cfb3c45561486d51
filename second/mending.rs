// The mending rule, and the calls `mend` and `judge_mend`.

use crate::answers::{refuse_at, refuse_breach, refuse_if, Answer, Breach, Outcome};
use crate::conditions::{check_policy, first_breach, reached};
use crate::table::{Table, ALLOWED, FORBIDDEN};

/// The delete if insert and delete are both allowed, otherwise the exchange.
fn taken_from_star(table: &Table, marks: &[u8], star: usize) -> usize {
    match table.exchange(star) {
        Some(exchange) if !table.allows_both(marks, star) => exchange,
        _ => table.delete(star),
    }
}

/// The privilege that the mending rule forbids for a breach.
fn taken_away(table: &Table, marks: &[u8], breach: Breach) -> usize {
    let Breach { condition, of, i, j, .. } = breach;
    if condition == 1 {
        return taken_from_star(table, marks, of);
    }
    let leads = |k: usize| k == j || reached(table, marks, of, k)[j];
    let k = (0..table.types[of].children.len())
        .find(|&k| table.allows(marks, of, i, k) && leads(k))
        .expect("j is reached from i, so an allowed replacement of i leads to it");
    table.replacement(of, i, k)
}

/// Each breach that is mended, in turn, and the privilege that is taken away for it.
pub fn mending_steps(table: &Table, marks: &[u8]) -> Vec<(Breach, usize)> {
    let mut now = marks.to_vec();
    let mut steps = Vec::new();
    while let Some(breach) = first_breach(table, &now) {
        let privilege = taken_away(table, &now, breach);
        now[privilege] = FORBIDDEN;
        steps.push((breach, privilege));
    }
    steps
}

pub fn mended(table: &Table, marks: &[u8]) -> (usize, Vec<u8>) {
    let mut after = marks.to_vec();
    let steps = mending_steps(table, marks);
    steps.iter().for_each(|&(_, privilege)| after[privilege] = FORBIDDEN);
    (steps.len(), after)
}

pub fn mend(words: &[u16], marks: &[u8], out: &mut [u8]) -> Outcome {
    let table = check_policy(words, marks)?;
    refuse_if(12, out.len() < table.v())?;
    let (count, after) = mended(&table, marks);
    out[..table.v()].copy_from_slice(&after);
    Ok(Answer { count, ..Answer::default() })
}

pub fn judge_mend(words: &[u16], marks: &[u8], proposed: &[u8]) -> Outcome {
    let table = check_policy(words, marks)?;
    refuse_if(13, proposed.len() != table.v())?;
    refuse_at(14, proposed.iter().position(|&mark| mark > FORBIDDEN))?;
    let kept = |p: usize| marks[p] == proposed[p];
    let withdrawn = |p: usize| marks[p] == ALLOWED && proposed[p] == FORBIDDEN;
    refuse_at(15, (0..table.v()).find(|&p| !kept(p) && !withdrawn(p)))?;
    refuse_breach(first_breach(&table, proposed))?;
    let count = (0..table.v()).filter(|&p| !kept(p)).count();
    Ok(Answer { count, ..Answer::default() })
}
