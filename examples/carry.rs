//! Carries a role over to a revised schema. Reads from standard input a policy over the schema of samples/show.dtd, such as
//! samples/vendor.policy: the table's words (low byte first) and then the marks. The new schema is that of samples/revised.txt; types of one
//! name are the same type. Says the new marks and then the edits that are set, `+` if allowed and `-` if forbidden; and then, for each old mark,
//! whether it is lost, and the edits of which it is. Exits with 0 if no mark is lost, 1 if one is, 2 if the call is refused.

use finnedscarf::{carry_marks, ALLOWED, GONE};
use std::io::{self, Read};
use std::process::ExitCode;

const OLD_NAMES: [&str; 8] = ["job", "layer", "name", "range", "state", "draft", "held", "final"];
const NEW_NAMES: [&str; 8] = ["draft", "final", "job", "layer", "name", "range", "review", "state"];

const NEW_WORDS: [u16; 39] = [
    1, 39, 8, 2, 8, 7, 32, 12, 0, 0, 0, 1, 0, 0, 4, 1, 0, 2, 3, 1, 1, 0, 4, 1, 0, 4, 1, 0, 4, 3, 3, 4, 3, 4, 5, 7, 0, 6, 1,
];
const NEW_PRIVILEGES: usize = 12;

fn new_number(name: &str) -> u16 {
    NEW_NAMES.iter().position(|&new| new == name).map_or(GONE, |t| t as u16)
}

/// The edits of a table that was accepted, in the order of their privileges, by the names of its types.
fn edits(words: &[u16], names: &[&str]) -> Vec<String> {
    let (records, list) = words[8..].split_at(3 * names.len());
    let mut edits = Vec::new();
    for (record, name) in records.chunks(3).zip(names) {
        let children = &list[record[2].into()..][..record[1].into()];
        let children: Vec<&str> = children.iter().map(|&child| names[usize::from(child)]).collect();
        match (record[0], &children[..]) {
            (1, _) => edits.push(format!("{name} text")),
            (3, kinds) => {
                let pairs = kinds.iter().flat_map(|from| kinds.iter().map(move |to| (from, to)));
                let pairs = pairs.filter(|(from, to)| from != to || words[0] == 2);
                edits.extend(pairs.map(|(from, to)| format!("{name} replace {from} {to}")));
            }
            (4, [child]) => {
                edits.extend([format!("{name} insert {child}"), format!("{name} delete {child}")]);
                if words[0] == 2 {
                    edits.push(format!("{name} replace {child} {child}"));
                }
            }
            _ => (),
        }
    }
    edits
}

/// Says a byte for each privilege, and then the edits whose byte is not 0, by their marks.
fn say(what: &str, bytes: &[u8], marks: &[u8], edits: &[String]) {
    println!("{what} {}", bytes.iter().map(u8::to_string).collect::<String>());
    for ((edit, &mark), _) in edits.iter().zip(marks).zip(bytes).filter(|(_, &byte)| byte != 0) {
        println!("{} {edit}", if mark == ALLOWED { '+' } else { '-' });
    }
}

fn main() -> io::Result<ExitCode> {
    let mut bytes = Vec::new();
    io::stdin().take(8193).read_to_end(&mut bytes)?;
    if bytes.len() > 8192 {
        println!("over 8,192 bytes");
        return Ok(ExitCode::from(2));
    }

    let mut words: Vec<u16> = bytes.chunks_exact(2).map(|pair| u16::from_le_bytes([pair[0], pair[1]])).collect();
    if let Some(&length) = words.get(1) {
        words.truncate(length.into());
    }
    let marks = &bytes[2 * words.len()..];

    let (mut out, mut lost) = ([0; NEW_PRIVILEGES], vec![0; marks.len()]);
    if let Err(refusal) = carry_marks(&words, marks, &NEW_WORDS, &OLD_NAMES.map(new_number), &mut out, &mut lost) {
        println!("{refusal}");
        return Ok(ExitCode::from(2));
    }
    say("carried", &out, &out, &edits(&NEW_WORDS, &NEW_NAMES));
    say("lost", &lost, marks, &edits(&words, &OLD_NAMES));
    Ok(ExitCode::from(lost.contains(&1) as u8))
}
