//! listing DTD [2] < ROLE: reads a role as it comes by mail, a listing with the names of the DTD, in format 1 or, with a 2, in format 2, and
//! judges it. Says on standard error that it is clean, or which condition is broken and the line of what is forbidden and can be done all the same;
//! then the role is mended, and its listing goes to standard output, to be mailed back. Of a listing that is refused it says the line. Exits with 0
//! if the role is clean, 1 if it was mended, 2 if it is refused or a file cannot be taken.

use finnedscarf::{judge_policy, mend, read_dtd, read_listing, write_listing, Breach, Condition, Refusal};
use finnedscarf::{FORBIDDEN, MOST_LISTING, MOST_WORDS, UNSET};
use std::io::{self, Read, Write};
use std::process::ExitCode;

const MOST_PRIVILEGES: usize = 4096;

/// The kinds of types that have more privileges in format 2.
const CHOICE: u16 = 3;
const STAR: u16 = 4;

/// A schema as DTD text, and its table in a format.
struct Schema {
    text: Vec<u8>,
    format: u16,
    words: Vec<u16>,
}

/// In format 2 each star has one privilege more, and each choice as many as it has children.
fn table(text: &[u8], format: u16) -> Result<Vec<u16>, Refusal> {
    let mut words = vec![0; MOST_WORDS];
    read_dtd(text, &mut words)?;
    words.truncate(words[1].into());
    words[0] = format;
    if format == 2 {
        let records = words[8..words[6].into()].chunks(3);
        words[7] += records.filter(|record| [CHOICE, STAR].contains(&record[0])).map(|record| record[1]).sum::<u16>();
    }
    Ok(words)
}

impl Schema {
    fn write(&self, marks: &[u8]) -> Result<Vec<u8>, Refusal> {
        let mut listing = vec![0; MOST_LISTING];
        let length = write_listing(&self.text, self.format, marks, &mut listing)?;
        listing.truncate(length);
        Ok(listing)
    }

    /// A breach by the line of its privilege: the listing of a role in which that alone is set.
    fn say_breach(&self, breach: &Breach) -> Result<(), Refusal> {
        let mut marks = vec![UNSET; self.words[7].into()];
        marks[breach.privilege] = FORBIDDEN;
        let condition = match breach.condition {
            Condition::InsertDelete => 1,
            Condition::Chain => 2,
            Condition::Cycle => 3,
        };
        let which = match breach.forbidden {
            1 => String::new(),
            all => format!(", the first of {all} such lines"),
        };
        let line = line_text(&self.write(&marks)?);
        eprintln!("condition {condition} is broken: allowed edits come to what this line forbids{which}: {line}");
        Ok(())
    }

    /// Judges a role, and gives what it is mended to if it is not clean.
    fn mended(&self, marks: &[u8]) -> Result<Option<Vec<u8>>, Refusal> {
        let Some(breach) = judge_policy(&self.words, marks)? else {
            eprintln!("clean");
            return Ok(None);
        };
        self.say_breach(&breach)?;
        let mut mended = vec![UNSET; marks.len()];
        eprintln!("mended, {} taken away", mend(&self.words, marks, &mut mended)?);
        self.write(&mended).map(Some)
    }
}

/// A line up to its newline. What cannot be seen is said as a number, such as the `\x0d` of a carriage return.
fn line_text(from: &[u8]) -> String {
    let end = from.iter().position(|&byte| byte == b'\n');
    let seen = |&byte: &u8| match byte {
        b' '..=b'~' => char::from(byte).to_string(),
        _ => format!("\\x{byte:02x}"),
    };
    let text: String = from[..end.unwrap_or(from.len())].iter().map(seen).collect();
    text + if end.is_some() { "" } else { " (without a newline)" }
}

/// Why a listing is refused: of a line its number, counted from 1, and its text.
fn refusal_text(refusal: Refusal, listing: &[u8]) -> String {
    let Refusal { number, place, .. } = refusal;
    if ![25, 26].contains(&number) {
        return refusal.to_string();
    }
    let before = listing[..place].iter().filter(|&&byte| byte == b'\n').count();
    let what = match number {
        25 => "is not the line of an edit".to_string(),
        _ => format!("does not belong behind line {before}"),
    };
    format!("line {} {what}: {}", before + 1, line_text(&listing[place..]))
}

/// The mended listing of a role that is not clean; or what is wrong.
fn answer(text: Vec<u8>, format: u16, listing: &[u8]) -> Result<Option<Vec<u8>>, String> {
    let mut marks = vec![UNSET; MOST_PRIVILEGES];
    let told = read_listing(&text, format, listing, &mut marks).and_then(|()| {
        let words = table(&text, format)?;
        marks.truncate(words[7].into());
        Schema { text, format, words }.mended(&marks)
    });
    told.map_err(|refusal| refusal_text(refusal, listing))
}

fn run(arguments: &[String]) -> Result<Option<Vec<u8>>, String> {
    let (file, format) = match arguments {
        [file] => (file, 1),
        [file, format] if format == "2" => (file, 2),
        _ => return Err("usage: listing DTD [2] < ROLE".to_string()),
    };
    let text = std::fs::read(file).map_err(|_| format!("{file}: cannot be read"))?;
    let mut listing = Vec::new();
    let most = MOST_LISTING as u64;
    io::stdin().take(most + 1).read_to_end(&mut listing).map_err(|_| "standard input: cannot be read")?;
    if listing.len() > MOST_LISTING {
        return Err("standard input: over 446,464 bytes".to_string());
    }
    answer(text, format, &listing)
}

fn main() -> io::Result<ExitCode> {
    let arguments: Vec<String> = std::env::args().skip(1).collect();
    match run(&arguments) {
        Ok(None) => Ok(ExitCode::SUCCESS),
        Ok(Some(mended)) => {
            io::stdout().write_all(&mended)?;
            Ok(ExitCode::from(1))
        }
        Err(what) => {
            eprintln!("{what}");
            Ok(ExitCode::from(2))
        }
    }
}
