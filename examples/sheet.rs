//! sheet FILE... [+ FILE...]...: reads a policy from each file, the table's words (low byte first) and then the marks, all of one table, and
//! counts them by one call, as the roles of one month. The files behind a `+` are counted by a call of their own, as they would be on another
//! machine, and the sheets are added. Says the sheet, and of each privilege in how many roles it is allowed, forbidden and unset. Exits with 0
//! if all roles are clean, 1 if one is not, 2 if a call is refused or a file cannot be taken.

mod policy;

use finnedscarf::{add_sheets, month_sheet, Refusal, Sheet};
use policy::{read_marks, read_policy, Policy};
use std::process::ExitCode;

/// Files that are counted by one call: how many roles they are, and their marks one after another.
struct Part {
    roles: u32,
    marks: Vec<u8>,
}

fn read_part(files: &[String], first: &Policy) -> Result<Part, String> {
    Ok(Part { roles: files.len() as u32, marks: read_marks(files, first)? })
}

/// The policy in the first file, and all parts; a `+` begins the next one.
fn read_month(arguments: &[String]) -> Result<(Policy, Vec<Part>), String> {
    let first = arguments.iter().find(|argument| *argument != "+").ok_or("usage: sheet FILE... [+ FILE...]...")?;
    let first = read_policy(first)?;
    let parts: Result<_, _> = arguments.split(|argument| argument == "+").map(|files| read_part(files, &first)).collect();
    Ok((first, parts?))
}

/// Counts all parts, each by a call, and adds their sheets.
fn count_month(words: &[u16], parts: &[Part], counts: &mut [u32]) -> Result<Sheet, Refusal> {
    let mut sheet = month_sheet(words, parts[0].roles, &parts[0].marks, counts)?;
    let mut more_counts = vec![0; counts.len()];
    for Part { roles, marks } in &parts[1..] {
        let more = month_sheet(words, *roles, marks, &mut more_counts)?;
        sheet = add_sheets(words, &sheet, counts, &more, &more_counts)?;
    }
    Ok(sheet)
}

fn main() -> ExitCode {
    let arguments: Vec<String> = std::env::args().skip(1).collect();
    let (Policy { words, marks }, parts) = match read_month(&arguments) {
        Ok(month) => month,
        Err(what) => {
            eprintln!("{what}");
            return ExitCode::from(2);
        }
    };

    let mut counts = vec![0; 3 * marks.len()];
    let sheet = match count_month(&words, &parts, &mut counts) {
        Ok(sheet) => sheet,
        Err(refusal) => {
            println!("{refusal}");
            return ExitCode::from(2);
        }
    };
    let roles: u32 = parts.iter().map(|part| part.roles).sum();
    println!("roles: {roles}\n{sheet}");
    for (p, three) in counts.chunks(3).enumerate() {
        println!("privilege {p}: allowed in {}, forbidden in {}, unset in {}", three[0], three[1], three[2]);
    }
    ExitCode::from((sheet.clean != roles) as u8)
}
