//! tests/read_dtd COUNT: reads the DTD text on standard input into COUNT words, each 65535 before, through the safe wrapper, and prints what
//! tests/read_dtd.c prints; the fields that the wrapper has no word for are 0, and a refusal tells no breach.

use finnedscarf::{read_dtd, Refusal, MOST_WORDS};
use std::io::{self, Read};

fn main() -> io::Result<()> {
    let count: usize = std::env::args().nth(1).and_then(|count| count.parse().ok()).expect("COUNT");
    assert!(count <= MOST_WORDS);
    let mut text = Vec::new();
    io::stdin().read_to_end(&mut text)?;
    let mut out = vec![65535; count];
    let (number, place) = match read_dtd(&text, &mut out) {
        Ok(privileges) => (0, privileges),
        Err(Refusal { number, place, breach: None }) => (number, place),
        Err(refusal) => panic!("{refusal}"),
    };
    let words: String = out.iter().map(|word| format!(" {word}")).collect();
    println!("{number} {place} 0 0 0 0 0 0 0 0 {:034}{words}", 0);
    Ok(())
}
