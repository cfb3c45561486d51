// A second policy checker, written from documents 01 and 02 alone, by sets and searches.
// It exists to be compared with the proved one: see README.md for its modes and its files.

pub mod answers;
pub mod calls;
pub mod carry_case;
pub mod carrying;
pub mod cases;
pub mod chain;
pub mod completing;
pub mod conditions;
pub mod counting;
pub mod dtd;
pub mod dtd_case;
pub mod edit_case;
pub mod editing;
mod files;
mod forbidden_below;
pub mod format;
mod judge;
pub mod listing;
pub mod listing_case;
pub mod making;
pub mod maps;
pub mod maps_case;
pub mod mending;
pub mod policy_case;
pub mod roles;
pub mod roles_case;
mod self_check;
pub mod sheet;
pub mod sheet_case;
mod situations;
mod stream;
pub mod sum_case;
pub mod table;

use answers::{answer, Answer};
use cases::{answers, read_cases, write_cases, Case};
use counting::count;
use dtd::read_dtd;
use files::{count_files, reports};
use judge::{judge, MOST_BYTES};
use making::chance::Random;
use making::dtds::documents::{documents, texts, Documents};
use making::files::random;
use self_check::dtds::count_dtds;
use self_check::self_check;
use std::io::{Read, Write};
use table::{HEADER, MOST_ENTRIES, MOST_TYPES, RECORD};

const USAGE: &str =
    "modes: judge | cases SEED COUNT DTDS SECOND_FORMAT ROLES MAPS CARRY SHEETS SUMS WRITES READS EDITS | answers | count \
    | files FOLDER | random SEED COUNT SECOND_FORMAT FILE... | reports | count files | dtd \
    | count dtds SEED COUNT | documents SEED COUNT FOLDER | texts SEED COUNT FOLDER | self";

fn fail(what: &str) -> ! {
    eprintln!("{}", what);
    std::process::exit(1)
}

fn input() -> Vec<u8> {
    let mut bytes = Vec::new();
    std::io::stdin().read_to_end(&mut bytes).unwrap_or_else(|_| fail("cannot read the input"));
    bytes
}

fn write_files(folder: &str, cases: &[Case]) {
    for (k, case) in cases.iter().enumerate() {
        if let Some(file) = case.file() {
            write_file(&format!("{}/{}", folder, k), &file);
        }
    }
}

fn write_file(path: &str, content: &[u8]) {
    std::fs::write(path, content).unwrap_or_else(|_| fail(&format!("cannot write {}", path)));
}

/// Documents for COUNT texts, each in a folder of its own.
fn write_documents(seed: u64, count: usize, folder: &str) {
    let mut r = Random(seed);
    for k in 0..count {
        let folder = format!("{}/{}", folder, k);
        std::fs::create_dir(&folder).unwrap_or_else(|_| fail(&format!("cannot make {}", folder)));
        let Documents { text, right, wrong } = documents(&mut r);
        write_file(&format!("{}/text.dtd", folder), &text);
        for (name, documents) in [("right", right), ("wrong", wrong)] {
            for (j, document) in documents.iter().enumerate() {
                write_file(&format!("{}/{}-{}.xml", folder, name, j), document.as_bytes());
            }
        }
    }
}

fn write_texts(seed: u64, count: usize, folder: &str) {
    for (k, (text, is_whole)) in texts(seed, count).enumerate() {
        let name = if is_whole { "right" } else { "wrong" };
        write_file(&format!("{}/{}-{}.dtd", folder, name, k), &text);
    }
}

fn read_named(path: &&str) -> Vec<u8> {
    let file = std::fs::read(path).unwrap_or_else(|_| fail(&format!("cannot read {}", path)));
    if file.len() > MOST_BYTES + 1 {
        fail(&format!("{} is over {} bytes", path, MOST_BYTES + 1));
    }
    file
}

/// Number and place of a DTD text; where it is done, also the table's words.
fn dtd_text(text: &[u8]) -> String {
    let mut out = vec![0; HEADER + RECORD * MOST_TYPES + MOST_ENTRIES];
    let Answer { number, place, .. } = answer(read_dtd(text, &mut out));
    let words = if number == 0 { &out[..out[1] as usize] } else { &[] };
    let words: String = words.iter().map(|word| format!(" {}", word)).collect();
    format!("dtd {} {}{}\n", number, place, words)
}

fn number(text: &str) -> u64 {
    text.parse().unwrap_or_else(|_| fail(USAGE))
}

fn sizes<const N: usize>(texts: &[&str]) -> [usize; N] {
    let sizes: Vec<usize> = texts.iter().map(|text| number(text) as usize).collect();
    sizes.try_into().unwrap_or_else(|_| fail(USAGE))
}

pub fn main() {
    let arguments: Vec<String> = std::env::args().skip(1).collect();
    let arguments: Vec<&str> = arguments.iter().map(String::as_str).collect();
    let output = match arguments[..] {
        ["judge"] => judge(&input()).into_bytes(),
        ["cases", seed, ref counts @ ..] => write_cases(making::cases(number(seed), sizes(counts))),
        ["answers"] => answers(&input()).into_bytes(),
        ["count"] => count(&input()).into_bytes(),
        ["files", folder] => {
            write_files(folder, &read_cases(&input()));
            Vec::new()
        }
        ["random", seed, count, second_format, ref named @ ..] => {
            let [count, second_format] = sizes(&[count, second_format]);
            random(number(seed), count, second_format, named.iter().map(read_named).collect())
        }
        ["reports"] => reports(&input()).into_bytes(),
        ["count", "files"] => count_files(&input()).into_bytes(),
        ["dtd"] => dtd_text(&input()).into_bytes(),
        ["count", "dtds", seed, count] => count_dtds(number(seed), number(count) as usize).into_bytes(),
        ["documents", seed, count, folder] => {
            write_documents(number(seed), number(count) as usize, folder);
            Vec::new()
        }
        ["texts", seed, count, folder] => {
            write_texts(number(seed), number(count) as usize, folder);
            Vec::new()
        }
        ["self"] => self_check(1, 10_000).into_bytes(),
        _ => fail(USAGE),
    };
    std::io::stdout().write_all(&output).unwrap_or_else(|_| fail("cannot write the output"));
}
