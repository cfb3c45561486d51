// Files for judge as a stream: what judge prints for each, and how often it found what.

use crate::answers::Answer;
use crate::counting::{table_of, Row};
use crate::judge::{found, judge, outcome, outcomes, FOUND, MOST_BYTES};
use crate::stream::take_bytes;

fn read_files(mut stream: &[u8]) -> Vec<&[u8]> {
    let mut files = Vec::new();
    while !stream.is_empty() {
        files.push(take_bytes(&mut stream));
    }
    files
}

pub fn reports(stream: &[u8]) -> String {
    read_files(stream).into_iter().map(judge).collect()
}

/// How often judge gave each number (before the bar) and each condition (after it).
pub fn count_files(stream: &[u8]) -> String {
    let files = read_files(stream);
    let mut judged = Row::new("judge", FOUND, true);
    let all: Vec<Answer> = files.iter().map(|file| found(file)).collect();
    all.iter().for_each(|answer| judged.add(answer));
    let of = |wanted: &(usize, usize)| all.iter().filter(|answer| outcome(answer) == *wanted).count();
    let fewest = outcomes().iter().map(of).min().unwrap_or(0);
    let bytes: usize = files.iter().map(|file| file.len()).sum();
    let longest = files.iter().map(|file| file.len()).max().unwrap_or(0);
    let long = |length: usize| files.iter().filter(|file| file.len() == length).count();
    [
        table_of(&[judged], FOUND),
        format!("fewest of the refusals, clean and the three conditions: {}\n", fewest),
        format!("{} files, {} bytes, the longest {}; ", files.len(), bytes, longest),
        format!("{} of 8,192 bytes, {} of 8,193\n", long(MOST_BYTES), long(MOST_BYTES + 1)),
    ]
    .concat()
}
