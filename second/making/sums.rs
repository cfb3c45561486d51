// Cases of sheets that are added (request 12).

mod faults;
mod large;

use super::bases::{refused_table_case, Base, OfTable};
use super::chance::Random;
use super::roles::table_of;
use super::schemas::Schema;
use super::sheets::{longer, roles, small_schema};
use crate::format::Format;
use crate::sheet::{done, month_sheet, Sheet, COUNTS};
use crate::situations::sum::Pair;
use crate::situations::sums::OfSums;
use crate::sum_case::SumCase;
use crate::table::Table;
use faults::spoil;
use large::large_case;

/// The most privileges of a small table.
const MOST: usize = 9;

/// Two numbers whose sum 32 bits hold: small ones, any, or such that it is as much as they hold.
fn pair(r: &mut Random, sums: &[u32]) -> Pair {
    let sum = r.pick(sums);
    let part = (r.next() % (sum as u64 + 1)) as u32;
    let one = r.pick(&[part, part, 0, sum]);
    [one, sum - one]
}

/// What is added: the figures of two sheets, and their counts.
struct Numbers {
    figures: [Pair; 5],
    counts: Vec<Pair>,
}

/// Any numbers, of V privileges.
fn any_numbers(r: &mut Random, v: usize) -> Numbers {
    let (small, any) = (1 + r.below(6) as u32, r.next() as u32);
    let choices: [&[u32]; 6] = [
        &[0, 1, 2, 3, small],
        &[small, small, small + 1],
        &[0, small, any, u32::MAX],
        &[any, any / 2, any / 3, any / 5, any / 7],
        &[u32::MAX],
        &[u32::MAX - 1, u32::MAX],
    ];
    let sums = r.pick(&choices);
    let figures = [(); 5].map(|_| pair(r, sums));
    Numbers { figures, counts: (0..COUNTS * v).map(|_| pair(r, sums)).collect() }
}

/// The sheet of some roles and its counts.
fn sheet_of_roles(r: &mut Random, words: &[u16], table: &Table) -> ([u32; 5], Vec<u32>) {
    let count = r.pick(&[0, 1, 2, 3, 5, 8, 12]);
    let (marks, mut counts) = (roles(r, table, count).concat(), vec![0; COUNTS * table.v()]);
    let told = month_sheet(words, count as u32, &marks, &mut counts).expect("roles of a table");
    (told.figures, counts)
}

/// The numbers of two sheets of roles.
fn numbers_of_roles(r: &mut Random, words: &[u16], table: &Table) -> Numbers {
    let [(one, counts), (more, more_counts)] = [(); 2].map(|_| sheet_of_roles(r, words, table));
    Numbers {
        figures: [0, 1, 2, 3, 4].map(|k| [one[k], more[k]]),
        counts: counts.into_iter().zip(more_counts).map(|(one, more)| [one, more]).collect(),
    }
}

/// What a case is made of: a table, and numbers for two sheets that can be added.
pub struct Sheets {
    schema: Schema,
    v: usize,
    numbers: Numbers,
}

/// A done sheet with these figures and counts; in half of the cases what is not looked at stands there by chance.
fn sheet(r: &mut Random, figures: [u32; 5], counts: &[u32]) -> Sheet {
    let own = done(figures, counts);
    if r.one_in(2) {
        return own;
    }
    let (v, any) = (counts.len() / COUNTS, r.next() as u32);
    let leaders = [(); 3].map(|_| r.pick(&[0, v / 2, v.saturating_sub(1), v, v + 1, any as usize]));
    let place = r.pick(&[0, 0, 1, 2, v, any as usize]);
    Sheet { place, leader_count: r.pick(&[0, 1, 2, 3, 4, any]), leaders, ..own }
}

impl Sheets {
    /// One of the two sheets and its counts: just as many as there must be, or more.
    fn given(&self, r: &mut Random, of: usize) -> (Sheet, Vec<u32>) {
        let mut counts: Vec<u32> = self.numbers.counts.iter().map(|pair| pair[of]).collect();
        let sheet = sheet(r, self.numbers.figures.map(|pair| pair[of]), &counts);
        (0..longer(r)).for_each(|_| counts.push(r.pick(&[0, 1, u32::MAX, u32::MAX])));
        (sheet, counts)
    }
}

impl Base for Sheets {
    type Case = SumCase;

    type Aimed = OfSums;

    const TURN: usize = 55;

    fn of(r: &mut Random, format: Format) -> Sheets {
        let schema = small_schema(r, format, MOST);
        let (words, table) = (schema.words(), table_of(&schema));
        let numbers = match r.one_in(3) {
            true if table.v() > 0 => numbers_of_roles(r, &words, &table),
            _ => any_numbers(r, table.v()),
        };
        Sheets { schema, v: table.v(), numbers }
    }

    fn sound_case(&self, r: &mut Random) -> SumCase {
        let [(sheet, counts), (more, more_counts)] = [0, 1].map(|of| self.given(r, of));
        SumCase { words: self.schema.words(), sheet, counts, more, more_counts }
    }

    fn spoil(&self, r: &mut Random, case: &mut SumCase) {
        spoil(r, self, case);
    }

    fn refused_case(r: &mut Random, turn: usize) -> SumCase {
        refused_table_case::<Sheets>(r, turn)
    }

    fn large_case(r: &mut Random, turn: usize) -> SumCase {
        large_case(r, turn)
    }
}

impl OfTable for Sheets {
    fn schema(&self) -> &Schema {
        &self.schema
    }

    fn with_words(case: SumCase, words: Vec<u16>) -> SumCase {
        SumCase { words, ..case }
    }
}
