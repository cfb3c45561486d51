// Ways to spoil the bytes of a line: blanks, newlines, signs, verbs and parts. Each has the name of the situation that it is for.

use super::super::chance::Random;
use super::Mailed;

/// The lines of a listing, each with its newline.
pub type Lines = Vec<Vec<u8>>;

/// A way to spoil a listing; it has a line.
pub type Way = (&'static str, fn(&mut Random, &Mailed, &mut Lines));

/// One of so many: the first, the last, or any.
pub fn place(r: &mut Random, count: usize) -> usize {
    let any = r.below(count);
    r.pick(&[0, count - 1, any, any])
}

/// Changes the bytes of a line, but for its newline.
fn change(r: &mut Random, lines: &mut Lines, how: impl Fn(&mut Random, &mut Vec<u8>)) {
    let k = place(r, lines.len());
    lines[k].pop();
    how(r, &mut lines[k]);
    lines[k].push(b'\n');
}

/// The parts of a line, without its newline.
pub fn parts(line: &[u8]) -> Vec<String> {
    let text = String::from_utf8_lossy(line);
    text.trim_end_matches('\n').split(' ').map(str::to_string).collect()
}

pub fn line_of(parts: &[String]) -> Vec<u8> {
    (parts.join(" ") + "\n").into_bytes()
}

fn change_parts(r: &mut Random, lines: &mut Lines, how: impl Fn(&mut Random, &mut Vec<String>)) {
    let k = place(r, lines.len());
    let mut parts = parts(&lines[k]);
    how(r, &mut parts);
    lines[k] = line_of(&parts);
}

/// Changes the verb.
fn change_verb(r: &mut Random, lines: &mut Lines, how: impl Fn(&mut Random, &str) -> String) {
    change_parts(r, lines, |r, parts| parts[2] = how(r, &parts[2]));
}

/// One of the blanks of a line.
fn blank(r: &mut Random, line: &[u8]) -> usize {
    let blanks: Vec<usize> = (0..line.len()).filter(|&at| line[at] == b' ').collect();
    r.pick(&blanks)
}

/// Puts a byte somewhere in a line.
fn put(r: &mut Random, lines: &mut Lines, byte: u8) {
    change(r, lines, |r, line| {
        let at = place(r, line.len() + 1);
        line.insert(at, byte);
    });
}

fn put_sign(r: &mut Random, lines: &mut Lines, signs: &[u8]) {
    change(r, lines, |r, line| line[0] = r.pick(signs));
}

pub const WAYS: &[Way] = &[
    ("25: the last line without its newline", |_, _, lines| {
        lines.last_mut().and_then(|line| line.pop());
    }),
    ("25: the last line cut", |r, _, lines| {
        let last = lines.len() - 1;
        let length = 1 + r.below(lines[last].len() - 2);
        lines[last].truncate(length);
    }),
    ("25: one line alone, without its newline", |r, _, lines| {
        *lines = vec![lines[r.below(lines.len())].clone()];
        lines[0].pop();
    }),
    ("25: two lines without the newline between them", |r, _, lines| {
        let k = place(r, lines.len());
        lines[k].pop();
    }),
    ("25: a newline in place of a blank", |r, _, lines| {
        change(r, lines, |r, line| {
            let at = blank(r, line);
            line[at] = b'\n';
        })
    }),
    ("25: an empty line in front", |_, _, lines| lines.insert(0, vec![b'\n'])),
    ("25: an empty line between two lines", |r, _, lines| {
        let k = 1 + r.below(lines.len());
        lines.insert(k, vec![b'\n']);
    }),
    ("25: an empty line at the end", |_, _, lines| lines.push(vec![b'\n'])),
    ("25: a newline alone", |_, _, lines| *lines = vec![vec![b'\n']]),
    ("25: a blank doubled", |r, _, lines| {
        change(r, lines, |r, line| {
            let at = blank(r, line);
            line.insert(at, b' ');
        })
    }),
    ("25: a blank in front", |r, _, lines| change(r, lines, |_, line| line.insert(0, b' '))),
    ("25: a blank at the end", |r, _, lines| change(r, lines, |_, line| line.push(b' '))),
    ("25: a tab in place of a blank", |r, _, lines| {
        change(r, lines, |r, line| {
            let at = blank(r, line);
            line[at] = b'\t';
        })
    }),
    ("25: a carriage return before the newline", |r, _, lines| change(r, lines, |_, line| line.push(b'\r'))),
    ("25: no blank behind the sign", |r, _, lines| {
        change(r, lines, |_, line| {
            line.remove(1);
        })
    }),
    ("25: a blank missing between two parts", |r, _, lines| {
        change(r, lines, |r, line| {
            let at = blank(r, line);
            line.remove(at);
        })
    }),
    ("25: a byte 0 in the line", |r, _, lines| put(r, lines, 0)),
    ("25: a byte from 128 on in the line", |r, _, lines| {
        let byte = r.pick(&[128, 160, 195, 255]);
        put(r, lines, byte)
    }),
    ("25: a byte of the line with 128 more", |r, _, lines| {
        change(r, lines, |r, line| {
            let at = place(r, line.len());
            line[at] += 128;
        })
    }),
    ("25: the sign missing", |r, _, lines| change(r, lines, |_, line| drop(line.drain(..2)))),
    ("25: the sign missing, its blank left", |r, _, lines| {
        change(r, lines, |_, line| {
            line.remove(0);
        })
    }),
    ("25: the sign doubled", |r, _, lines| change(r, lines, |_, line| line.insert(0, line[0]))),
    ("25: both signs", |r, _, lines| {
        change(r, lines, |_, line| line.insert(0, if line[0] == b'+' { b'-' } else { b'+' }))
    }),
    ("25: a second sign, apart", |r, _, lines| {
        change(r, lines, |r, line| drop(line.splice(0..0, [r.pick(b"+-"), b' '])))
    }),
    ("25: another sign", |r, _, lines| put_sign(r, lines, b"*=~!_<>|/a#,.")),
    ("25: a mark's digit as the sign", |r, _, lines| put_sign(r, lines, b"12")),
    ("25: a line for an unset mark", |r, _, lines| put_sign(r, lines, b"0?")),
    ("25: a verb cut", |r, _, lines| {
        change_verb(r, lines, |r, verb| verb[..verb.len() - r.pick(&[1, 1, 2])].to_string())
    }),
    ("25: a verb lengthened", |r, _, lines| {
        change_verb(r, lines, |r, verb| format!("{}{}", verb, r.pick(&["s", "ed", "d", "_", "0"])))
    }),
    ("25: a verb in other case", |r, _, lines| {
        change_verb(r, lines, |r, verb| match r.below(2) {
            0 => verb.to_uppercase(),
            _ => verb[..1].to_uppercase() + &verb[1..],
        })
    }),
    ("25: another verb", |r, _, lines| {
        change_verb(r, lines, |r, _| r.pick(&["change", "put", "move", "swap", "add", "#"]).to_string())
    }),
    ("25: no verb", |r, _, lines| change_parts(r, lines, |_, parts| drop(parts.remove(2)))),
    ("25: a part too many", |r, base, lines| {
        let any = base.listed.names[r.below(base.listed.names.len())].clone();
        change_parts(r, lines, |r, parts| {
            let last = parts[parts.len() - 1].clone();
            parts.push(if r.one_in(2) { any.clone() } else { last })
        })
    }),
    ("25: a part too few", |r, _, lines| change_parts(r, lines, |_, parts| drop(parts.pop()))),
    ("25: the sign and the type alone", |r, _, lines| change_parts(r, lines, |_, parts| parts.truncate(2))),
    ("25: the sign alone", |r, _, lines| change_parts(r, lines, |_, parts| parts.truncate(1))),
    ("25: the type and the verb exchanged", |r, _, lines| {
        change_parts(r, lines, |_, parts| parts.swap(1, 2))
    }),
];
