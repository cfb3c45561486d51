// Measures `read_dtd`. There is no fast make of it.

use crate::calls::{Make, Outcome, ReadDtd, MAKES};
use crate::rounds::rounds;
use crate::stack::stack_of;
use crate::texts::{growing, texts, Text};
use crate::{compare, fail, make_of, times_of};
use second::dtd_case::DtdCase;
use std::hint::black_box;
use std::time::Duration;

pub const NAME: &str = "read_dtd";

fn run(read: ReadDtd, case: &mut DtdCase) -> Outcome {
    read(&case.text, &mut case.out)
}

fn reader_of(make: &Make) -> ReadDtd {
    make.read_dtd.unwrap_or_else(|| fail("no such call of this make"))
}

fn compare_on(case: &DtdCase, at: &str) {
    let told = |make: &Make| {
        let mut lent = case.clone();
        (run(reader_of(make), &mut lent), lent.out)
    };
    compare(&MAKES[..1], told, NAME, at);
}

/// The proved make and the second program tell the same on cases and on what is measured, of which there are so many texts.
pub fn check(cases: &[DtdCase]) -> usize {
    for (k, case) in cases.iter().enumerate() {
        compare_on(case, &format!("DTD case {}", k));
    }
    let measured: Vec<Text> = texts().into_iter().chain(growing().into_iter().flatten()).collect();
    measured.iter().for_each(|text| compare_on(&text.case, &text.name));
    measured.len()
}

/// Nanoseconds a call of the proved make, the least and the median of the rounds.
fn measure(text: &Text, budget: Duration) -> (f64, f64) {
    let mut case = text.case.clone();
    let read = reader_of(&MAKES[0]);
    let turn = |_| {
        black_box(run(read, &mut case));
    };
    rounds(1, turn, budget)[0]
}

/// A line for each text, to which bench/run adds what xmllint takes: its name, its bytes, its answer's number, and the time.
pub fn time() {
    for text in texts() {
        let (least, median) = measure(&text, Duration::from_millis(600));
        let number = run(reader_of(&MAKES[0]), &mut text.case.clone()).number;
        let bytes = text.case.text.len();
        println!("{} {} {} {:.0} ({:.0})", text.name, bytes, number, least, median);
    }
}

pub fn growth() {
    println!("ns a byte of {}, proved, least of the rounds\n", NAME);
    println!("| Text | short names | names alike |");
    println!("|---|---|---|");
    for both in growing() {
        let ns_a_byte = |text: &Text| {
            let (least, _) = measure(text, Duration::from_millis(100));
            format!("{:.2}", least / text.case.text.len() as f64)
        };
        println!("| {} | {} |", both[0].name, both.each_ref().map(ns_a_byte).join(" | "));
    }
}

fn nothing(_: &[u8], _: &mut [u16]) -> Outcome {
    Outcome::default()
}

/// The bytes of stack, the most of all texts; '-' where the make has no such call.
pub fn most_stack(make: &Make) -> String {
    let on = |read| move |case: &mut DtdCase| run(read, case);
    let most = |read: ReadDtd| {
        let stacks = texts().into_iter().map(|text| stack_of(on(read), on(nothing), &text.case));
        stacks.max().unwrap_or(0).to_string()
    };
    make.read_dtd.map_or("-".to_string(), most)
}

pub fn list() {
    texts().iter().for_each(|text| println!("{} {} 1", NAME, text.name));
}

pub fn count(make: &str, text: &str, times: &str) {
    let read = reader_of(make_of(make));
    let text = texts().into_iter().find(|it| it.name == text);
    let mut case = text.unwrap_or_else(|| fail("no such text")).case;
    for _ in 0..times_of(times) {
        black_box(run(read, &mut case));
    }
}

/// Writes for each text a document that has it as its DTD, and the first declared name as its root.
pub fn documents(folder: &str) {
    for Text { name, case } in texts() {
        let text = String::from_utf8_lossy(&case.text);
        let behind = text.split("<!ELEMENT ").nth(1).unwrap_or_else(|| fail("nothing is declared"));
        let root = behind.split(' ').next().unwrap_or(behind);
        let path = format!("{}/{}.xml", folder, name);
        std::fs::write(&path, format!("<!DOCTYPE {} [{}]><{}/>\n", root, text, root))
            .unwrap_or_else(|_| fail(&format!("cannot write {}", path)));
    }
}
