// The program judge: what it finds in a file and what it prints.

use crate::answers::{answer, breach_text, Answer};
use crate::calls::{POLICY, TABLE};
use crate::completing::complete;
use crate::conditions::verdict;
use crate::mending::mend;
use crate::stream::to_words;
use crate::table::check;

pub const MOST_BYTES: usize = 8192;

/// The words lent and the marks of a file.
fn split_file(file: &[u8]) -> (Vec<u16>, &[u8]) {
    let mut words = to_words(file);
    if words.len() > 1 {
        let named = words[1] as usize;
        words.truncate(named);
    }
    let marks = &file[2 * words.len()..];
    (words, marks)
}

/// A line that ends with the marks; with V 0 it ends before the marks' space.
fn marks_line(start: &str, marks: &[u8]) -> String {
    let digits: String = marks.iter().map(|mark| mark.to_string()).collect();
    let space = if digits.is_empty() { "" } else { " " };
    format!("{}{}{}\n", start, space, digits)
}

fn policy_lines(words: &[u16], marks: &[u8]) -> String {
    let judged = match verdict(words, marks) {
        Err(refusal) => return format!("marks {} {}\n", refusal.number, refusal.place),
        Ok(done) => done.breach,
    };
    let mut out = vec![0; marks.len()];
    let completed = match complete(words, marks, &mut out) {
        Err(_) => "complete none\n".to_string(),
        Ok(_) => marks_line("complete", &out),
    };
    let count = answer(mend(words, marks, &mut out)).count;
    let mended = marks_line(&format!("mended {}", count), &out);
    format!("verdict {}\n{}{}", breach_text(&judged), completed, mended)
}

pub fn judge(file: &[u8]) -> String {
    if file.len() > MOST_BYTES {
        return "table 2 0\n".to_string();
    }
    let (words, marks) = split_file(file);
    let checked = check(&words);
    let Answer { number, place, .. } = answer(checked);
    let rest = if checked.is_ok() { policy_lines(&words, marks) } else { String::new() };
    format!("table {} {}\n", number, place) + &rest
}

/// What judge finds in a file: the verdict's answer, or the refusal of one that is too long.
pub fn found(file: &[u8]) -> Answer {
    if file.len() > MOST_BYTES {
        return Answer { number: 2, ..Answer::default() };
    }
    let (words, marks) = split_file(file);
    answer(verdict(&words, marks))
}

/// The numbers that judge can find, in the order of the checks.
pub const FOUND: &[&[usize]] = &[TABLE, POLICY];

/// What a file can come to, as number and condition: the refusals, clean, and the three conditions.
pub fn outcomes() -> Vec<(usize, usize)> {
    let refusals = FOUND.concat().into_iter().filter(|&number| number != 0);
    refusals.map(|number| (number, 0)).chain((0..=3).map(|condition| (0, condition))).collect()
}

/// What a file came to, by what was found in it.
pub fn outcome(found: &Answer) -> (usize, usize) {
    (found.number, found.breach.condition)
}
