//! roles FILE...: reads a policy from each file, the table's words (low byte first) and then the marks, all of one table, and completes them
//! by one call. Says for each file the completed marks, or the number with which that role is refused. Exits with 0 if no role is refused, 1
//! if one is, 2 if the call is or a file cannot be taken.

mod policy;

use policy::{read_marks, read_policy, Policy};
use std::process::ExitCode;

/// The table of all files, and their marks one after another.
fn read_all(files: &[String]) -> Result<Policy, String> {
    let first = read_policy(files.first().ok_or("usage: roles FILE...")?)?;
    let marks = read_marks(files, &first)?;
    Ok(Policy { words: first.words, marks })
}

fn main() -> ExitCode {
    let files: Vec<String> = std::env::args().skip(1).collect();
    let Policy { words, marks } = match read_all(&files) {
        Ok(policy) => policy,
        Err(what) => {
            eprintln!("{what}");
            return ExitCode::from(2);
        }
    };

    let (mut numbers, mut out) = (vec![0; files.len()], vec![0; marks.len()]);
    let roles = match finnedscarf::complete_roles(&words, &marks, &mut numbers, &mut out) {
        Ok(roles) => roles,
        Err(refusal) => {
            println!("{refusal}");
            return ExitCode::from(2);
        }
    };
    let mut status = ExitCode::SUCCESS;
    for (file, role) in files.iter().zip(roles) {
        match role {
            Ok(marks) => println!("{file}: {}", marks.iter().map(u8::to_string).collect::<String>()),
            Err(refusal) => {
                println!("{file}: refused with number {}", refusal.number);
                status = ExitCode::from(1);
            }
        }
    }
    status
}
