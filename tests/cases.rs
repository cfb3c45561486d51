//! Makes the calls on a stream of cases through the safe wrapper and prints a line for each (second/README.md has the form of both).
//! Conditions and marks are printed by the wrapper's names for them, so that each name is held to its value. A refused sheet is none of the
//! wrapper's, so that adding one is left to the border below it.

#[allow(dead_code)]
#[path = "../bindings/rust/src/border.rs"]
mod border;

use finnedscarf::{add_sheets, carry_marks, check_table, complete, complete_maps, complete_roles, edit_mark, judge_maps, judge_mend};
use finnedscarf::{judge_mend_maps, judge_policy, mend, mend_maps, month_sheet, read_dtd, read_listing, write_listing};
use finnedscarf::{Breach, Condition, Editor, Maps, MapsMut, Refusal, RoleRefusal, Roles, Sheet, ALLOWED, FORBIDDEN, UNSET};
use std::io::{self, BufWriter, Read, Write};

struct Stream(Vec<u8>, usize);

impl Stream {
    fn is_at_end(&self) -> bool {
        self.1 == self.0.len()
    }

    fn byte(&mut self) -> u8 {
        self.1 += 1;
        self.0[self.1 - 1]
    }

    fn word(&mut self) -> u16 {
        u16::from_le_bytes([self.byte(), self.byte()])
    }

    fn number(&mut self) -> u32 {
        u32::from_le_bytes([self.byte(), self.byte(), self.byte(), self.byte()])
    }

    fn words(&mut self) -> Vec<u16> {
        (0..self.number()).map(|_| self.word()).collect()
    }

    fn bytes(&mut self) -> Vec<u8> {
        (0..self.number()).map(|_| self.byte()).collect()
    }

    fn numbers(&mut self) -> Vec<u32> {
        (0..self.number()).map(|_| self.number()).collect()
    }

    fn sheet(&mut self) -> border::Sheet {
        let [number, place] = [(); 2].map(|()| self.number() as usize);
        let [clean, insert_delete, chain, cycle, refused, leader_count] = [(); 6].map(|()| self.number());
        let leaders = [(); 3].map(|()| self.number() as usize);
        border::Sheet { number, place, clean, insert_delete, chain, cycle, refused, leader_count, leaders }
    }

    fn format(&mut self) -> u16 {
        self.number().try_into().expect("a format of at most 65,535")
    }

    fn maps(&mut self) -> TwoMaps {
        TwoMaps { allowed: self.bytes(), forbidden: self.bytes() }
    }
}

/// Two maps, as they are lent together.
struct TwoMaps {
    allowed: Vec<u8>,
    forbidden: Vec<u8>,
}

impl TwoMaps {
    fn lent(&self) -> Maps<'_> {
        Maps { allowed: &self.allowed, forbidden: &self.forbidden }
    }
}

/// The length of a chain, and its positions with zeros behind them.
fn chain_text(chain: &[u8]) -> String {
    let places: String = chain.iter().map(|position| format!("{position:02x}")).collect();
    format!("{} {places:0<34}", chain.len())
}

/// The six numbers of a breach and its chain, zeros where there is none.
fn breach_text(breach: Option<Breach>) -> String {
    let Some(Breach { condition, element, i, j, privilege, forbidden, chain }) = breach else {
        return "0 0 0 0 0 0 ".to_string() + &chain_text(&[]);
    };
    let number = match condition {
        Condition::InsertDelete => 1,
        Condition::Chain => 2,
        Condition::Cycle => 3,
    };
    format!("{number} {element} {i} {j} {privilege} {forbidden} {}", chain_text(&chain))
}

/// What a done call tells; what it has no word for is 0.
#[derive(Default)]
struct Done {
    place: usize,
    count: usize,
    breach: Option<Breach>,
}

fn answer_text(answer: Result<Done, Refusal>) -> String {
    match answer {
        Ok(Done { place, count, breach }) => format!("0 {place} {count} {}", breach_text(breach)),
        Err(Refusal { number, place, breach }) => format!("{number} {place} 0 {}", breach_text(breach)),
    }
}

fn run_text(run: &[u8]) -> String {
    let mark = |byte: &u8| match *byte {
        UNSET => "00".to_string(),
        ALLOWED => "01".to_string(),
        FORBIDDEN => "02".to_string(),
        other => format!("{other:02x}"),
    };
    run.iter().map(mark).collect()
}

/// Words as bytes, the low one of each first.
fn words_text(run: &[u16]) -> String {
    run.iter().flat_map(|word| word.to_le_bytes()).map(|byte| format!("{byte:02x}")).collect()
}

/// The line of a call that only reads, behind the case's number.
fn line(call: &str, answer: Result<Done, Refusal>) -> String {
    format!("{call} {}", answer_text(answer))
}

/// The line of a call that may write the result, of which it gets its own copy.
fn written(call: &str, lent: &[u8], make: impl Fn(&mut [u8]) -> Result<Done, Refusal>) -> String {
    let mut out = lent.to_vec();
    line(call, make(&mut out)) + " " + &run_text(&out)
}

/// Bytes that are no marks.
fn bytes_text(run: &[u8]) -> String {
    run.iter().map(|byte| format!("{byte:02x}")).collect()
}

/// The line of a call that may write two maps, of which it gets its own copies.
fn written_maps(call: &str, lent: &TwoMaps, make: impl Fn(MapsMut) -> Result<Done, Refusal>) -> String {
    let (mut allowed, mut forbidden) = (lent.allowed.clone(), lent.forbidden.clone());
    let answer = make(MapsMut { allowed: &mut allowed, forbidden: &mut forbidden });
    format!("{} {} {}", line(call, answer), bytes_text(&allowed), bytes_text(&forbidden))
}

fn counted(count: usize) -> Done {
    Done { count, ..Done::default() }
}

/// The calls on a case of kind 0.
fn policy_lines(stream: &mut Stream) -> Vec<String> {
    let words = stream.words();
    let marks = stream.bytes();
    let lent = stream.bytes();
    let proposed = stream.bytes();
    vec![
        line("check", check_table(&words).map(|place| Done { place, ..Done::default() })),
        line("verdict", judge_policy(&words, &marks).map(|breach| Done { breach, ..Done::default() })),
        written("complete", &lent, |out| complete(&words, &marks, out).map(|()| Done::default())),
        written("mend", &lent, |out| mend(&words, &marks, out).map(counted)),
        line("propose", judge_mend(&words, &marks, &proposed).map(counted)),
    ]
}

/// The call on a case of kind 1. The result is printed as bytes, the low one of each word first.
fn dtd_lines(stream: &mut Stream) -> Vec<String> {
    let text = stream.bytes();
    let mut out = stream.words();
    let answer = read_dtd(&text, &mut out).map(|place| Done { place, ..Done::default() });
    vec![line("dtd", answer) + " " + &words_text(&out)]
}

/// What is told of each role, from the first to the last; from the last to the first it must be the same.
fn roles_told(roles: Roles) -> Vec<Result<Vec<u8>, usize>> {
    let told = |role: Result<&[u8], RoleRefusal>| role.map(<[u8]>::to_vec).map_err(|refusal| refusal.number);
    let all: Vec<_> = roles.clone().map(told).collect();
    assert_eq!(roles.len(), all.len());
    assert!(roles.rev().map(told).eq(all.iter().rev().cloned()));
    all
}

/// The call on a case of kind 2. Of a call that is done, what is told of each role is put over both runs as lent, which must come to the same.
fn roles_lines(stream: &mut Stream) -> Vec<String> {
    let words = stream.words();
    let marks = stream.bytes();
    let (mut numbers, mut out) = (stream.words(), stream.bytes());
    let (mut numbers_told, mut out_told) = (numbers.clone(), out.clone());
    let answer = complete_roles(&words, &marks, &mut numbers, &mut out).map(roles_told);
    for (r, role) in answer.iter().flatten().enumerate() {
        numbers_told[r] = role.as_ref().map_or_else(|&number| number as u16, |_| 0);
        if let Ok(completed) = role {
            out_told[r * completed.len()..][..completed.len()].copy_from_slice(completed);
        }
    }
    assert_eq!((&numbers_told, &out_told), (&numbers, &out));
    vec![format!("{} {} {}", line("roles", answer.map(|_| Done::default())), words_text(&numbers), run_text(&out))]
}

/// The calls on a case of kind 3.
fn maps_lines(stream: &mut Stream) -> Vec<String> {
    let words = stream.words();
    let (own, lent, proposed) = (stream.maps(), stream.maps(), stream.maps());
    vec![
        line("verdict_maps", judge_maps(&words, own.lent()).map(|breach| Done { breach, ..Done::default() })),
        written_maps("complete_maps", &lent, |out| complete_maps(&words, own.lent(), out).map(|()| Done::default())),
        written_maps("mend_maps", &lent, |out| mend_maps(&words, own.lent(), out).map(counted)),
        line("propose_maps", judge_mend_maps(&words, own.lent(), proposed.lent()).map(counted)),
    ]
}

/// The call on a case of kind 4.
fn carry_lines(stream: &mut Stream) -> Vec<String> {
    let (old_words, old_marks) = (stream.words(), stream.bytes());
    let (new_words, new_numbers) = (stream.words(), stream.words());
    let (mut out, mut lost) = (stream.bytes(), stream.bytes());
    let answer = carry_marks(&old_words, &old_marks, &new_words, &new_numbers, &mut out, &mut lost).map(|()| Done::default());
    vec![format!("{} {} {}", line("carry", answer), run_text(&out), bytes_text(&lost))]
}

/// The sheet that a call tells, and the counts as bytes, the low one of each number first.
fn sheet_text(call: &str, told: border::Sheet, counts: &[u32]) -> String {
    let border::Sheet { number, place, clean, insert_delete, chain, cycle, refused, leader_count, leaders: [a, b, c] } = told;
    let counts: String = counts.iter().flat_map(|count| count.to_le_bytes()).map(|byte| format!("{byte:02x}")).collect();
    format!("{call} {number} {place} {clean} {insert_delete} {chain} {cycle} {refused} {leader_count} {a} {b} {c} {counts}")
}

/// What the wrapper tells, with all that it has no word for.
fn told(answer: Result<Sheet, Refusal>) -> border::Sheet {
    match answer {
        Ok(sheet) => {
            let mut leaders = [0; 3];
            leaders[..sheet.leaders().len()].copy_from_slice(sheet.leaders());
            let leader_count = sheet.leaders().len() as u32;
            let Sheet { clean, insert_delete, chain, cycle, refused, .. } = sheet;
            border::Sheet { number: 0, place: 0, clean, insert_delete, chain, cycle, refused, leader_count, leaders }
        }
        Err(Refusal { number, place, breach }) => {
            assert_eq!(breach, None);
            border::Sheet { number, place, ..border::Sheet::default() }
        }
    }
}

/// The call on a case of kind 5.
fn sheet_lines(stream: &mut Stream) -> Vec<String> {
    let words = stream.words();
    let roles = stream.number();
    let marks = stream.bytes();
    let mut counts = stream.numbers();
    let answer = month_sheet(&words, roles, &marks, &mut counts);
    vec![sheet_text("sheet", told(answer), &counts)]
}

/// A sheet with the figures of another, as one that comes from elsewhere.
fn with_figures(given: border::Sheet) -> Sheet {
    let mut sheet = Sheet::default();
    sheet.clean = given.clean;
    sheet.insert_delete = given.insert_delete;
    sheet.chain = given.chain;
    sheet.cycle = given.cycle;
    sheet.refused = given.refused;
    sheet
}

/// The call on a case of kind 6; through the wrapper, if neither sheet was refused.
fn add_sheets_lines(stream: &mut Stream) -> Vec<String> {
    let words = stream.words();
    let (sheet, mut counts) = (stream.sheet(), stream.numbers());
    let (more, more_counts) = (stream.sheet(), stream.numbers());
    let answer = match (sheet.number, more.number) {
        (0, 0) => told(add_sheets(&words, &with_figures(sheet), &mut counts, &with_figures(more), &more_counts)),
        _ => border::add_sheets(&words, sheet, &mut counts, more, &more_counts),
    };
    vec![sheet_text("add_sheets", answer, &counts)]
}

/// The call on a case of kind 7.
fn write_listing_lines(stream: &mut Stream) -> Vec<String> {
    let (text, format, marks) = (stream.bytes(), stream.format(), stream.bytes());
    let mut out = stream.bytes();
    let answer = write_listing(&text, format, &marks, &mut out).map(|place| Done { place, ..Done::default() });
    vec![line("write_listing", answer) + " " + &bytes_text(&out)]
}

/// The call on a case of kind 8.
fn read_listing_lines(stream: &mut Stream) -> Vec<String> {
    let (text, format, listing) = (stream.bytes(), stream.format(), stream.bytes());
    let mut out = stream.bytes();
    let answer = read_listing(&text, format, &listing, &mut out).map(|()| Done::default());
    vec![line("read_listing", answer) + " " + &run_text(&out)]
}

/// The editor of a case, if the marks and the entries are those of a fresh policy.
fn fresh_editor<'a>(words: &'a [u16], marks: &[u8], kept: &[u16]) -> Option<Editor<'a>> {
    let editor = Editor::fresh(words).ok()?;
    let is_fresh = marks == editor.marks() && kept.starts_with(editor.entries());
    is_fresh.then_some(editor)
}

/// The calls on a case of kind 9, one for each edit. If it begins with a fresh policy, an editor has to come to the same, and one that is opened with
/// the marks afterwards too.
fn edit_lines(stream: &mut Stream) -> Vec<String> {
    let (words, mut marks, mut kept) = (stream.words(), stream.bytes(), stream.words());
    let edits = stream.numbers();
    let mut editor = fresh_editor(&words, &marks, &kept);
    let edits = edits.chunks(2).map(|edit| (edit[0] as usize, edit[1].try_into().expect("a mark of at most 255")));
    let mut edit = |(privilege, mark): (usize, u8)| {
        let answer = edit_mark(&words, &mut marks, &mut kept, privilege, mark);
        if let Some(editor) = &mut editor {
            assert_eq!(editor.edit(privilege, mark), answer);
            assert_eq!((editor.marks(), editor.entries()), (&marks[..], &kept[..2 * usize::from(words[2])]));
        }
        let answer = answer.map(|breach| Done { breach, ..Done::default() });
        format!("{} {} {}", line("edit", answer), run_text(&marks), words_text(&kept))
    };
    let lines = edits.map(&mut edit).collect();
    if let Some(editor) = editor {
        assert_eq!(Editor::open(&words[..], &marks), Ok(editor));
    }
    lines
}

fn main() -> io::Result<()> {
    let mut stream = Stream(Vec::new(), 0);
    io::stdin().read_to_end(&mut stream.0)?;
    let mut to = BufWriter::new(io::stdout().lock());
    let mut case = 0;
    while !stream.is_at_end() {
        let lines = match stream.byte() {
            0 => policy_lines(&mut stream),
            1 => dtd_lines(&mut stream),
            2 => roles_lines(&mut stream),
            3 => maps_lines(&mut stream),
            4 => carry_lines(&mut stream),
            5 => sheet_lines(&mut stream),
            6 => add_sheets_lines(&mut stream),
            7 => write_listing_lines(&mut stream),
            8 => read_listing_lines(&mut stream),
            9 => edit_lines(&mut stream),
            kind => panic!("there is no kind {kind}"),
        };
        for line in lines {
            writeln!(to, "{case} {line}")?;
        }
        case += 1;
    }
    to.flush()
}
