//! Reads a policy from standard input, the table's words (low byte first) and then the marks, and says the verdict. Exits with 0 if the
//! policy is clean, 1 if it has a breach, 2 if it is refused.

use std::io::{self, Read};
use std::process::ExitCode;

fn main() -> io::Result<ExitCode> {
    let mut bytes = Vec::new();
    io::stdin().take(8193).read_to_end(&mut bytes)?;
    if bytes.len() > 8192 {
        println!("over 8,192 bytes");
        return Ok(ExitCode::from(2));
    }

    let mut words: Vec<u16> = bytes.chunks_exact(2).map(|pair| u16::from_le_bytes([pair[0], pair[1]])).collect();
    if let Some(&length) = words.get(1) {
        words.truncate(length.into());
    }
    let marks = &bytes[2 * words.len()..];

    match finnedscarf::judge_policy(&words, marks) {
        Ok(None) => {
            println!("clean");
            Ok(ExitCode::SUCCESS)
        }
        Ok(Some(breach)) => {
            println!("{breach}");
            Ok(ExitCode::from(1))
        }
        Err(refusal) => {
            println!("{refusal}");
            Ok(ExitCode::from(2))
        }
    }
}
