// Edits as lines of text, read from the words of a table by the documents' own formulas: two edits are one if their lines are.

const TEXT: u16 = 1;
const CHOICE: u16 = 3;
const STAR: u16 = 4;

/// The records of a table that is accepted, and its child list.
struct Records<'a> {
    records: Vec<&'a [u16]>,
    list: &'a [u16],
}

fn read(words: &[u16]) -> Records<'_> {
    let (records, list) = words[8..].split_at(3 * words[2] as usize);
    Records { records: records.chunks(3).collect(), list }
}

impl Records<'_> {
    fn children(&self, t: usize) -> Vec<usize> {
        let [_, count, first] = [0, 1, 2].map(|k| self.records[t][k] as usize);
        (0..count).map(|k| self.list[first + k] as usize).collect()
    }
}

/// The privileges of a star, with their lines: insert, delete, and in format 2 replace.
fn star(format: u16, child: &str) -> Vec<(usize, String)> {
    let mut lines = vec![(0, format!("insert {}", child)), (1, format!("delete {}", child))];
    if format == 2 {
        lines.push((2, format!("replace {} {}", child, child)));
    }
    lines
}

/// The privileges of a choice: in format 1 i(n - 1) + j, less 1 if j is greater than i; in format 2 i × n + j.
fn choice(format: u16, kinds: &[&str]) -> Vec<(usize, String)> {
    let n = kinds.len();
    let mut lines = Vec::new();
    for (i, from) in kinds.iter().enumerate() {
        for (j, to) in kinds.iter().enumerate() {
            let place = match format {
                1 if i == j => continue,
                1 if j > i => i * (n - 1) + j - 1,
                1 => i * (n - 1) + j,
                _ => i * n + j,
            };
            lines.push((place, format!("replace {} {}", from, to)));
        }
    }
    lines
}

/// The line of each privilege of a table whose types have these names.
fn lines(words: &[u16], names: &[String]) -> Vec<String> {
    let (format, table) = (words[0], read(words));
    let mut all = vec![String::new(); words[7] as usize];
    let mut first = 0;
    for (t, name) in names.iter().enumerate() {
        let children: Vec<&str> = table.children(t).iter().map(|&child| names[child].as_str()).collect();
        let own = match table.records[t][0] {
            TEXT => vec![(0, "text".to_string())],
            STAR => star(format, children[0]),
            CHOICE => choice(format, &children),
            _ => Vec::new(),
        };
        for (place, line) in &own {
            all[first + place] = format!("{} {}", name, line);
        }
        first += own.len();
    }
    all
}

/// The new marks and what is lost: every pair of lines is compared. A type has one name in both tables; one that is gone or added has a name
/// that the other table does not have.
pub fn carried(old_words: &[u16], marks: &[u8], new_words: &[u16], numbers: &[u16]) -> [Vec<u8>; 2] {
    let old_names: Vec<String> = (0..numbers.len()).map(|t| format!("old-{}", t)).collect();
    let mut new_names: Vec<String> = (0..new_words[2]).map(|n| format!("new-{}", n)).collect();
    for (name, &number) in old_names.iter().zip(numbers) {
        if let Some(own) = new_names.get_mut(number as usize) {
            *own = name.clone();
        }
    }
    let (old, new) = (lines(old_words, &old_names), lines(new_words, &new_names));
    let (mut out, mut lost) = (vec![0; new.len()], vec![0; old.len()]);
    for (p, line) in old.iter().enumerate() {
        let same: Vec<usize> = (0..new.len()).filter(|&q| new[q] == *line).collect();
        same.iter().for_each(|&q| out[q] = marks[p]);
        lost[p] = (same.is_empty() && marks[p] > 0) as u8;
    }
    [out, lost]
}
