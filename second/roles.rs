// All roles of a show at once (request 5 of document 02): the call `complete_roles`.

use crate::answers::{answer, refuse_if, Answer, Outcome};
use crate::completing::complete;
use crate::table::check_table;

/// There are as many roles as answer words. How many marks they have in all is counted so wide that no length runs over.
pub fn complete_roles(words: &[u16], marks: &[u8], numbers: &mut [u16], out: &mut [u8]) -> Outcome {
    let v = check_table(words)?.v();
    let all = numbers.len() as u128 * v as u128;
    refuse_if(10, marks.len() as u128 != all)?;
    refuse_if(12, (out.len() as u128) < all)?;
    for (r, number) in numbers.iter_mut().enumerate() {
        let own = r * v..(r + 1) * v;
        *number = answer(complete(words, &marks[own.clone()], &mut out[own])).number as u16;
    }
    Ok(Answer::default())
}
