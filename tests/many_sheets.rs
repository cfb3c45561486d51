//! Counts very many roles, and adds sheets, through the safe wrapper, as tests/many_sheets.c does, which says what is known of each.

use finnedscarf::{add_sheets, month_sheet, Refusal, Sheet};
use std::process::ExitCode;

const PRIVILEGES: usize = 11;
const COUNTS: usize = 3 * PRIVILEGES;
const MOST_ROLES: usize = 1048577;
const KEPT: u32 = 7;

/// A lone empty type, and the sample.
const LONE: &[u16] = &[1, 11, 1, 0, 8, 0, 11, 0, 0, 0, 0];
const SAMPLE: &[u16] =
    &[1, 39, 8, 0, 8, 7, 32, 11, 4, 1, 0, 2, 3, 1, 1, 0, 4, 1, 0, 4, 3, 3, 4, 0, 0, 7, 0, 0, 7, 1, 0, 7, 1, 2, 3, 4, 5, 6, 7];

/// Clean, conditions 1 to 3, refused.
type Figures = [u32; 5];

/// The sample's roles, these in turn.
const KINDS: [(&[u8; PRIVILEGES], Figures); 11] = [
    (b"00000000000", [1, 0, 0, 0, 0]),
    (b"11020000000", [0, 1, 0, 0, 0]),
    (b"11000000000", [1, 0, 0, 0, 0]),
    (b"10020000000", [1, 0, 0, 0, 0]),
    (b"00001201000", [0, 0, 1, 0, 0]),
    (b"00001001000", [1, 0, 0, 0, 0]),
    (b"00000001012", [0, 0, 0, 1, 0]),
    (b"00000001010", [1, 0, 0, 0, 0]),
    (b"11021201000", [0, 1, 1, 0, 0]),
    (b"11021212002", [0, 1, 0, 0, 0]),
    (b"11111111113", [0, 0, 0, 0, 1]),
];

/// What a call tells, and the counts that it leaves, with one behind them.
#[derive(PartialEq)]
struct Told {
    answer: Result<(Figures, Vec<usize>), Refusal>,
    counts: [u32; COUNTS + 1],
}

fn told(answer: Result<Sheet, Refusal>, counts: [u32; COUNTS + 1]) -> Told {
    let figures = |sheet: Sheet| [sheet.clean, sheet.insert_delete, sheet.chain, sheet.cycle, sheet.refused];
    Told { answer: answer.map(|sheet| (figures(sheet), sheet.leaders().to_vec())), counts }
}

fn refused(number: usize, place: usize, counts: [u32; COUNTS + 1]) -> Told {
    Told { answer: Err(Refusal { number, place, breach: None }), counts }
}

/// A table, how many roles, marks and counts are lent, and the number of the answer.
struct Month {
    words: &'static [u16],
    roles: u32,
    marks: usize,
    counts: usize,
    number: usize,
}

const fn month(words: &'static [u16], roles: u32, marks: usize, counts: usize, number: usize) -> Month {
    Month { words, roles, marks, counts, number }
}

const MONTHS: [Month; 11] = [
    month(LONE, 0, 0, 0, 0),
    month(LONE, 4294967295, 0, 0, 0),
    month(LONE, 4294967295, 0, 1, 0),
    month(LONE, 4294967295, 1, 1, 10),
    month(SAMPLE, 0, 0, COUNTS, 0),
    month(SAMPLE, 70000, 770000, COUNTS, 0),
    month(SAMPLE, 1048577, 11534347, COUNTS + 1, 0),
    month(SAMPLE, 1048577, 11534347, COUNTS - 1, 12),
    // the marks of 65,536 roles too few, and 65,536 marks too few
    month(SAMPLE, 70000, 49104, COUNTS, 10),
    month(SAMPLE, 70000, 704464, COUNTS, 10),
    // 4,294,967,296 marks too few
    month(SAMPLE, 390451573, 7, COUNTS, 10),
];

/// What is counted of so many roles of the sample.
fn counted(roles: u32) -> Told {
    let (mut figures, mut counts) = ([0; 5], [0; COUNTS + 1]);
    counts[COUNTS] = KEPT;
    for (kind, (marks, own)) in (0..).zip(KINDS) {
        let alike = roles / 11 + (kind < roles % 11) as u32;
        figures.iter_mut().zip(own).for_each(|(figure, one)| *figure += alike * one);
        for (p, mark) in marks.iter().enumerate().filter(|_| own[4] == 0) {
            counts[3 * p + [2, 0, 1][usize::from(mark - b'0')]] += alike;
        }
    }
    let leaders = if roles == 0 { [0, 1, 2] } else { [0, 7, 1] };
    Told { answer: Ok((figures, leaders.to_vec())), counts }
}

impl Month {
    fn count(&self, marks: &[u8]) -> Told {
        let mut counts = [KEPT; COUNTS + 1];
        told(month_sheet(self.words, self.roles, &marks[..self.marks], &mut counts[..self.counts]), counts)
    }

    fn is_counted(&self, marks: &[u8]) -> bool {
        let kept = [KEPT; COUNTS + 1];
        let right = match (self.number, self.words) {
            (0, LONE) => Told { answer: Ok(([self.roles, 0, 0, 0, 0], Vec::new())), counts: kept },
            (0, _) => counted(self.roles),
            (number, _) => refused(number, 0, kept),
        };
        self.count(marks) == right
    }
}

/// Whether so many roles of the sample are counted alike in two parts, of which the first has so many.
fn is_counted_in_two(roles: u32, first: u32, marks: &[u8]) -> Result<bool, Refusal> {
    let (one, two) = marks[..roles as usize * PRIVILEGES].split_at(first as usize * PRIVILEGES);
    let (mut counts, mut more_counts) = ([KEPT; COUNTS + 1], [KEPT; COUNTS]);
    let sheet = month_sheet(SAMPLE, first, one, &mut counts)?;
    let more = month_sheet(SAMPLE, roles - first, two, &mut more_counts)?;
    let sum = add_sheets(SAMPLE, &sheet, &mut counts, &more, &more_counts);
    Ok(told(sum, counts) == counted(roles))
}

/// Two sheets: this figure of each, all others being 1 and 2, and this count of each, to all others nothing being added; and the number and the
/// place of the answer.
struct Sum {
    words: &'static [u16],
    figure: usize,
    roles: [u32; 2],
    at: usize,
    counts: [u32; 2],
    answer: (usize, usize),
}

const fn sum(words: &'static [u16], figure: usize, roles: [u32; 2], at: usize, counts: [u32; 2], answer: (usize, usize)) -> Sum {
    Sum { words, figure, roles, at, counts, answer }
}

const SUMS: [Sum; 16] = [
    sum(LONE, 0, [4294967295, 0], 0, [KEPT, 0], (0, 0)),
    sum(LONE, 4, [2147483647, 2147483648], 0, [KEPT, 0], (0, 0)),
    sum(LONE, 0, [4294967295, 1], 0, [KEPT, 0], (30, 0)),
    sum(LONE, 3, [2147483648, 2147483648], 0, [KEPT, 0], (30, 0)),
    sum(SAMPLE, 0, [4294967295, 0], 0, [0, 4294967295], (0, 0)),
    sum(SAMPLE, 1, [0, 4294967295], 3 * 7, [2147483648, 2147483647], (0, 0)),
    sum(SAMPLE, 2, [1, 4294967294], COUNTS - 1, [4294967295, 0], (0, 0)),
    sum(SAMPLE, 3, [65535, 1], 1, [65535, 65535], (0, 0)),
    sum(SAMPLE, 0, [4294967295, 1], 0, [1, 1], (30, PRIVILEGES)),
    sum(SAMPLE, 1, [1, 4294967295], 0, [1, 1], (30, PRIVILEGES)),
    sum(SAMPLE, 2, [2147483648, 2147483648], 0, [1, 1], (30, PRIVILEGES)),
    sum(SAMPLE, 3, [4294967295, 4294967295], 0, [1, 1], (30, PRIVILEGES)),
    sum(SAMPLE, 4, [4294967295, 2], 0, [1, 1], (30, PRIVILEGES)),
    sum(SAMPLE, 0, [1, 2], 0, [4294967295, 1], (30, 0)),
    sum(SAMPLE, 0, [1, 2], 3 * 7 + 1, [1, 4294967295], (30, 7)),
    sum(SAMPLE, 0, [4294967295, 4294967295], COUNTS - 1, [4294967295, 4294967295], (30, PRIVILEGES - 1)),
];

impl Sum {
    /// A sheet with all figures alike but one.
    fn sheet(&self, others: u32, roles: u32) -> Sheet {
        let mut sheet = Sheet::default();
        let Sheet { clean, insert_delete, chain, cycle, refused, .. } = &mut sheet;
        for (k, figure) in [clean, insert_delete, chain, cycle, refused].into_iter().enumerate() {
            *figure = if k == self.figure { roles } else { others };
        }
        sheet
    }

    /// The privilege that is allowed most often, and behind it the lowest.
    fn leaders(&self) -> Vec<usize> {
        let leader = if self.at % 3 == 0 { self.at / 3 } else { 0 };
        let lowest = (0..PRIVILEGES).filter(|&p| p != leader).take(2);
        [leader].into_iter().chain(lowest).collect()
    }

    fn is_added(&self) -> bool {
        let length = if self.words == LONE { 0 } else { COUNTS };
        let (mut counts, mut more_counts) = ([KEPT; COUNTS + 1], [0; COUNTS]);
        counts[self.at] = self.counts[0];
        more_counts[self.at] = self.counts[1];
        let mut right = refused(self.answer.0, self.answer.1, counts);
        if self.answer.0 == 0 {
            let mut figures = [3; 5];
            figures[self.figure] = self.roles[0] + self.roles[1];
            let leaders = if self.words == LONE { Vec::new() } else { self.leaders() };
            right.answer = Ok((figures, leaders));
            right.counts[self.at] += self.counts[1];
        }

        let (sheet, more) = (self.sheet(1, self.roles[0]), self.sheet(2, self.roles[1]));
        let answer = add_sheets(self.words, &sheet, &mut counts[..length], &more, &more_counts[..length]);
        told(answer, counts) == right
    }
}

fn main() -> ExitCode {
    let roles = KINDS.iter().cycle().take(MOST_ROLES);
    let marks: Vec<u8> = roles.flat_map(|(marks, _)| marks.map(|digit| digit - b'0')).collect();
    for month in MONTHS {
        if !month.is_counted(&marks) {
            let Month { words, roles, marks, counts, .. } = month;
            println!("tests/many_sheets: V {}, {roles} roles, {marks} marks, {counts} counts: not as known", words[7]);
            return ExitCode::FAILURE;
        }
    }
    for (roles, first) in [(70000, 65537), (1048577, 70000)] {
        if is_counted_in_two(roles, first, &marks) != Ok(true) {
            println!("tests/many_sheets: {roles} roles in two parts: not as known");
            return ExitCode::FAILURE;
        }
    }
    for (k, sum) in SUMS.iter().enumerate() {
        if !sum.is_added() {
            println!("tests/many_sheets: sum {k}: not as known");
            return ExitCode::FAILURE;
        }
    }
    ExitCode::SUCCESS
}
