//! Edits very many marks through the safe wrapper, as tests/many_edits.c does, which says what is known of each: by the call, and by an editor beside
//! it, which has to come to the same.

use finnedscarf::{edit_mark, judge_policy, Breach, Condition, Editor, Refusal, ALLOWED, FORBIDDEN, UNSET};
use std::process::ExitCode;

const TYPES: usize = 256;
const OPERATORS: usize = 93;
const TEXTS: usize = TYPES - OPERATORS;
const PRIVILEGES: usize = 4096;
const ENTRIES: usize = 2 * TYPES;
const KEPT_WORDS: usize = 70000;
const KEPT: u16 = 7;
const SET_FOR: usize = 400;

/// The kind of a type, how many children it has, and how many privileges: a text, a star, a choice or a sequence.
fn type_of(t: usize) -> (u16, usize, usize) {
    match t {
        OPERATORS.. => (1, 0, 1),
        _ if t % 3 == 0 => (4, 1, 3),
        _ if t % 6 == 5 => (3, 16, 256),
        _ => (2, 16, 0),
    }
}

fn children(t: usize) -> Vec<usize> {
    let child = |k| if k == 0 && t < OPERATORS - 1 { t + 1 } else { OPERATORS + (7 * t + k) % TEXTS };
    (0..type_of(t).1).map(child).collect()
}

fn table() -> Vec<u16> {
    let (mut records, mut list) = (Vec::new(), Vec::new());
    for t in 0..TYPES {
        let (kind, count, _) = type_of(t);
        records.extend([kind, count as u16, list.len() as u16]);
        list.extend(children(t).into_iter().map(|child| child as u16));
    }
    let (first, length) = (8 + records.len(), 8 + records.len() + list.len());
    let header = [2, length, TYPES, 0, 8, list.len(), first, PRIVILEGES].map(|word| word as u16);
    [&header[..], &records, &list].concat()
}

/// For each type itself and all that are reached from it, ascending. Children have greater numbers than their parent.
fn below() -> Vec<Vec<usize>> {
    let mut below = vec![Vec::new(); TYPES];
    for t in (0..TYPES).rev() {
        let mut all: Vec<usize> = children(t).into_iter().flat_map(|child| below[child].clone()).chain([t]).collect();
        all.sort();
        all.dedup();
        below[t] = all;
    }
    below
}

/// The lowest forbidden privilege and how many there are, of each type's own and then of all below it.
fn entries(below: &[Vec<usize>], marks: &[u8]) -> Vec<u16> {
    let (mut own, mut first) = (Vec::new(), 0);
    for t in 0..TYPES {
        let behind = first + type_of(t).2;
        let forbidden: Vec<usize> = (first..behind).filter(|&p| marks[p] == FORBIDDEN).collect();
        own.push((forbidden.first().copied(), forbidden.len()));
        first = behind;
    }
    let entry = |types: &Vec<usize>| {
        let lowest = types.iter().find_map(|&t| own[t].0).unwrap_or(0);
        let count: usize = types.iter().map(|&t| own[t].1).sum();
        [lowest as u16, count as u16]
    };
    below.iter().flat_map(entry).collect()
}

/// The privilege of a turn: each comes once.
fn privilege_of(turn: usize) -> usize {
    17 * turn % PRIVILEGES
}

/// What is edited, and the editor beside it.
struct Edited {
    words: Vec<u16>,
    marks: Vec<u8>,
    kept: Vec<u16>,
    editor: Editor<'static>,
}

impl Edited {
    fn edit(&mut self, privilege: usize, mark: u8, kept: usize) -> Result<Option<Breach>, Refusal> {
        edit_mark(&self.words, &mut self.marks, &mut self.kept[..kept], privilege, mark)
    }

    fn holds(&self, marks: &[u8], kept: &[u16]) -> bool {
        (&self.marks[..], &self.kept[..]) == (marks, kept) && (self.editor.marks(), self.editor.entries()) == (marks, &kept[..ENTRIES])
    }
}

/// What it must be, and how often the policy was clean after an edit, and how often each condition was broken.
struct Right {
    below: Vec<Vec<usize>>,
    marks: Vec<u8>,
    kept: Vec<u16>,
    told_of: [usize; 4],
}

impl Right {
    fn is_edited(&mut self, edited: &mut Edited, privilege: usize, mark: u8, kept: usize) -> bool {
        let told = edited.edit(privilege, mark, kept);
        let editor_told = edited.editor.edit(privilege, mark);
        self.marks[privilege] = mark;
        self.kept[..ENTRIES].copy_from_slice(&entries(&self.below, &self.marks));
        let judged = judge_policy(&edited.words, &self.marks);
        let condition = match judged {
            Ok(Some(breach)) => breach.condition as usize + 1,
            _ => 0,
        };
        self.told_of[condition] += 1;
        (told, editor_told, Ok(edited.editor.verdict())) == (judged, judged, judged) && edited.holds(&self.marks, &self.kept)
    }

    fn is_turn_made(&mut self, edited: &mut Edited, turn: usize) -> bool {
        let mark = if turn % 9 == 0 { FORBIDDEN } else { ALLOWED };
        let made = self.is_edited(edited, privilege_of(turn), mark, KEPT_WORDS);
        made && (turn < SET_FOR || self.is_edited(edited, privilege_of(turn - SET_FOR), UNSET, ENTRIES))
    }

    /// The root's three are allowed, and all others are forbidden.
    fn is_turn_forbidden(&mut self, edited: &mut Edited, turn: usize) -> bool {
        let privilege = privilege_of(turn);
        self.is_edited(edited, privilege, if privilege < 3 { ALLOWED } else { FORBIDDEN }, ENTRIES)
    }

    /// The editor has all its entries, so that it is refused with 10 and 11 alone.
    fn is_refused(&self, edited: &mut Edited, (privilege, mark, kept, number, place): (usize, u8, usize, usize, usize)) -> bool {
        let (before, refusal) = (edited.editor.verdict(), Refusal { number, place, breach: None });
        let told = edited.edit(privilege, mark, kept);
        let editor_told = if number == 12 { told } else { edited.editor.edit(privilege, mark) };
        let is_told = (told, editor_told) == (Err(refusal), Err(refusal)) && edited.editor.verdict() == before;
        is_told && edited.holds(&self.marks, &self.kept)
    }
}

/// Edits that are refused, with so many words of the kept run, and the number and the place of the answer.
const REFUSALS: [(usize, u8, usize, usize, usize); 9] = [
    (PRIVILEGES, FORBIDDEN, KEPT_WORDS, 10, 0),
    (65536, FORBIDDEN, KEPT_WORDS, 10, 0),
    (1 << 32, FORBIDDEN, KEPT_WORDS, 10, 0),
    (usize::MAX, FORBIDDEN, KEPT_WORDS, 10, 0),
    (usize::MAX, 255, 0, 10, 0),
    (PRIVILEGES - 1, 3, KEPT_WORDS, 11, PRIVILEGES - 1),
    (256, 255, ENTRIES - 1, 11, 256),
    (0, FORBIDDEN, ENTRIES - 1, 12, 0),
    (0, FORBIDDEN, 0, 12, 0),
];

/// With 60,000 in all entries but the root's.
fn is_told_as_kept(words: &[u16]) -> bool {
    let (mut marks, mut kept) = (vec![UNSET; PRIVILEGES], vec![60000; ENTRIES]);
    let clean = edit_mark(words, &mut marks, &mut kept, 0, ALLOWED);
    let Ok(Some(breach)) = edit_mark(words, &mut marks, &mut kept, 1, ALLOWED) else {
        return false;
    };
    let is_known = (breach.condition, breach.element, breach.i, breach.j) == (Condition::InsertDelete, 0, 0, 0)
        && (breach.privilege, breach.forbidden, breach.chain.len()) == (60000, 60000, 0);
    // a count of 0 means none, whatever the lowest is
    kept[2 * 1 + 1] = 0;
    let clean_again = edit_mark(words, &mut marks, &mut kept, 1, ALLOWED);

    let (mut right_marks, mut right_kept) = (vec![UNSET; PRIVILEGES], vec![60000; ENTRIES]);
    right_marks[..2].fill(ALLOWED);
    right_kept[..2].fill(0);
    right_kept[2 * 1 + 1] = 0;
    is_known && (clean, clean_again) == (Ok(None), Ok(None)) && (marks, kept) == (right_marks, right_kept)
}

fn main() -> ExitCode {
    let words = table();
    let Ok(editor) = Editor::fresh(words.clone()) else {
        println!("tests/many_edits: the table is refused");
        return ExitCode::FAILURE;
    };
    let (marks, mut kept) = (vec![UNSET; PRIVILEGES], vec![KEPT; KEPT_WORDS]);
    kept[..ENTRIES].fill(0);
    let mut right = Right { below: below(), marks: marks.clone(), kept: kept.clone(), told_of: [0; 4] };
    let mut edited = Edited { words, marks, kept, editor };
    for turn in 0..PRIVILEGES {
        if !right.is_turn_made(&mut edited, turn) {
            println!("tests/many_edits: turn {turn}: not as known");
            return ExitCode::FAILURE;
        }
        let refusal = turn % REFUSALS.len();
        if !right.is_refused(&mut edited, REFUSALS[refusal]) {
            println!("tests/many_edits: refusal {refusal} in turn {turn}: not as known");
            return ExitCode::FAILURE;
        }
    }
    for turn in 0..PRIVILEGES {
        if !right.is_turn_forbidden(&mut edited, turn) {
            println!("tests/many_edits: turn {turn} of forbidding all: not as known");
            return ExitCode::FAILURE;
        }
    }
    if right.told_of.contains(&0) {
        println!("tests/many_edits: verdicts {:?}: not each came", right.told_of);
        return ExitCode::FAILURE;
    }
    if Editor::open(&edited.words[..], &edited.marks).as_ref() != Ok(&edited.editor) {
        println!("tests/many_edits: the policy opened anew: not as known");
        return ExitCode::FAILURE;
    }
    if !is_told_as_kept(&edited.words) {
        println!("tests/many_edits: entries that are none of the marks': not as known");
        return ExitCode::FAILURE;
    }
    ExitCode::SUCCESS
}
