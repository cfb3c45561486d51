// How often each call gave each number and each condition, and how often each situation of requests 1 and 5 to 12 came.

use crate::answers::Answer;
use crate::calls::{Call, Told, NEW_TABLE, POLICY, TABLE};
use crate::carry_case::{self, CarryCase};
use crate::cases::{read_cases, Case};
use crate::dtd_case;
use crate::edit_case::{self, EditCase};
use crate::format::Format;
use crate::listing_case::{self, ListingCase};
use crate::maps_case::{self, MapsCase};
use crate::policy_case::{self, PolicyCase};
use crate::roles_case::{self, RolesCase};
use crate::sheet_case::{self, SheetCase};
use crate::situations::edits::OfEdits;
use crate::situations::reading::OfReading;
use crate::situations::sheets::OfSheets;
use crate::situations::sums::OfSums;
use crate::situations::writing::OfWriting;
use crate::situations::{carrying, maps, Aimed, Situations, OF_CHAINS, OF_COUNTS, OF_FORMAT_TWO, OF_ROLES};
use crate::sum_case::{self, SumCase};
use std::collections::BTreeMap;

/// The numbers in the order of the checks.
const NUMBERS: &[&[usize]] =
    &[&[20, 21, 22], TABLE, POLICY, &[23, 24, 25, 26], NEW_TABLE, &[17, 18], &[12, 13, 14, 15, 16, 29, 30]];

const CONDITIONS: [usize; 3] = [1, 2, 3];

/// How often each of some numbers came.
#[derive(Default)]
struct Tally(BTreeMap<usize, usize>);

impl Tally {
    fn add(&mut self, number: usize) {
        *self.0.entry(number).or_default() += 1;
    }

    fn of(&self, numbers: &[usize]) -> Vec<usize> {
        numbers.iter().map(|number| self.0.get(number).copied().unwrap_or(0)).collect()
    }

    fn total(&self) -> usize {
        self.0.values().sum()
    }

    fn most(&self) -> usize {
        self.0.values().copied().max().unwrap_or(0)
    }
}

/// What came of one call.
pub struct Row {
    name: &'static str,
    possible: Vec<usize>,
    breaches: bool,
    numbers: Tally,
    conditions: Tally,
}

impl Row {
    pub fn new(name: &'static str, possible: &[&[usize]], breaches: bool) -> Row {
        Row {
            name,
            possible: possible.concat(),
            breaches,
            numbers: Tally::default(),
            conditions: Tally::default(),
        }
    }

    fn of<C>(call: &Call<C>) -> Row {
        Row::new(call.name, call.numbers, call.breaches)
    }

    pub fn add(&mut self, answer: &Answer) {
        self.numbers.add(answer.number);
        self.conditions.add(answer.breach.condition);
    }

    /// How often that came which came least, of what the call can give.
    fn fewest(&self) -> usize {
        let conditions: &[usize] = if self.breaches { &CONDITIONS } else { &[] };
        let counts = [self.numbers.of(&self.possible), self.conditions.of(conditions)].concat();
        counts.into_iter().min().unwrap_or(0)
    }
}

fn line(name: &str, numbers: &[usize], conditions: &[usize], width: usize) -> String {
    let cells = |counts: &[usize]| counts.iter().map(|n| format!("{:>width$}", n)).collect::<String>();
    format!("{:<13}{} |{}\n", name, cells(numbers), cells(conditions))
}

/// A line for each row: how often each number came (before the bar) and each condition (after it).
pub fn table_of(rows: &[Row], numbers: &[&[usize]]) -> String {
    let numbers = numbers.concat();
    let most = rows.iter().map(|row| row.numbers.most()).max().unwrap_or(0);
    let width = (most.to_string().len() + 1).max(5);
    let mut text = line("", &numbers, &CONDITIONS, width);
    for row in rows {
        text += &line(row.name, &row.numbers.of(&numbers), &row.conditions.of(&CONDITIONS), width);
    }
    text
}

/// What came of all calls, and of the roles within them.
pub struct Counts {
    rows: Vec<Row>,
    total: usize,
}

/// The row of the roles.
const A_ROLE: &str = "a role";

impl Counts {
    pub fn new() -> Counts {
        let mut rows: Vec<Row> = policy_case::CALLS.iter().map(Row::of).collect();
        rows.extend(dtd_case::CALLS.iter().map(Row::of));
        rows.extend(roles_case::CALLS.iter().map(Row::of));
        rows.push(Row::new(A_ROLE, &[roles_case::OF_ROLES], false));
        rows.extend(maps_case::CALLS.iter().map(Row::of));
        rows.extend(carry_case::CALLS.iter().map(Row::of));
        rows.extend(sheet_case::CALLS.iter().map(Row::of));
        rows.extend(sum_case::CALLS.iter().map(Row::of));
        rows.extend(listing_case::WRITING.iter().chain(&listing_case::READING).map(Row::of));
        rows.extend(edit_case::CALLS.iter().map(Row::of));
        Counts { rows, total: 0 }
    }

    pub fn add(&mut self, name: &str, told: &Told) {
        self.total += 1;
        self.add_to(name, &told.answer);
        if name == roles_case::NAME {
            for number in roles_case::numbers_told(told) {
                self.add_to(A_ROLE, &Answer { number: number as usize, ..Answer::default() });
            }
        }
    }

    fn add_to(&mut self, name: &str, answer: &Answer) {
        self.rows.iter_mut().filter(|row| row.name == name).for_each(|row| row.add(answer));
    }

    /// How many calls were counted.
    pub fn total(&self) -> usize {
        self.total
    }

    /// The fewest of those calls that were made.
    fn fewest(&self) -> usize {
        let made = self.rows.iter().filter(|row| row.numbers.total() > 0);
        made.map(Row::fewest).min().unwrap_or(0)
    }

    pub fn text(&self) -> String {
        table_of(&self.rows, NUMBERS) + &format!("fewest of what a call can give: {}\n", self.fewest())
    }
}

/// How often each situation of a request came.
struct Found<C: 'static> {
    situations: Situations<C>,
    rows: Vec<(&'static str, usize)>,
}

impl<C> Found<C> {
    fn new(situations: Situations<C>) -> Found<C> {
        let rows = (situations.names)().into_iter().map(|name| (name, 0)).collect();
        Found { situations, rows }
    }

    fn add(&mut self, case: &C) {
        let found = (self.situations.found)(case);
        self.rows.iter_mut().filter(|row| found.contains(&row.0)).for_each(|row| row.1 += 1);
    }

    fn fewest(&self) -> usize {
        self.rows.iter().map(|row| row.1).min().unwrap_or(0)
    }

    fn text(&self) -> String {
        let line = |(name, count): &(&str, usize)| format!("{:>6}  {}\n", count, name);
        let lines: String = self.rows.iter().map(line).collect();
        lines + &format!("fewest of the situations of {}: {}\n", self.situations.of, self.fewest())
    }
}

/// What came of cases, of those with format 2 apart, and of the situations of each request.
pub struct Overview {
    all: Counts,
    of_two: Counts,
    format_two: Found<PolicyCase>,
    counts: Found<PolicyCase>,
    chains: Found<PolicyCase>,
    roles: Found<RolesCase>,
    maps: Found<MapsCase>,
    large_maps: Found<MapsCase>,
    carrying: Found<CarryCase>,
    large_carrying: Found<CarryCase>,
    sheets: Found<SheetCase>,
    large_sheets: Found<SheetCase>,
    sums: Found<SumCase>,
    large_sums: Found<SumCase>,
    writing: Found<ListingCase>,
    large_writing: Found<ListingCase>,
    reading: Found<ListingCase>,
    large_reading: Found<ListingCase>,
    edits: Found<EditCase>,
    large_edits: Found<EditCase>,
}

impl Overview {
    pub fn of(cases: impl Iterator<Item = Case>) -> Overview {
        let (all, of_two) = (Counts::new(), Counts::new());
        let [format_two, counts, chains] = [OF_FORMAT_TWO, OF_COUNTS, OF_CHAINS].map(Found::new);
        let roles = Found::new(OF_ROLES);
        let [maps, large_maps] = [maps::USUAL, maps::LARGE].map(Found::new);
        let [carrying, large_carrying] = [carrying::USUAL, carrying::LARGE].map(Found::new);
        let [sheets, large_sheets] = [OfSheets::USUAL, OfSheets::LARGE].map(Found::new);
        let [sums, large_sums] = [OfSums::USUAL, OfSums::LARGE].map(Found::new);
        let [writing, large_writing] = [OfWriting::USUAL, OfWriting::LARGE].map(Found::new);
        let [reading, large_reading] = [OfReading::USUAL, OfReading::LARGE].map(Found::new);
        let [edits, large_edits] = [OfEdits::USUAL, OfEdits::LARGE].map(Found::new);
        let mut overview = Overview {
            all,
            of_two,
            format_two,
            counts,
            chains,
            roles,
            maps,
            large_maps,
            carrying,
            large_carrying,
            sheets,
            large_sheets,
            sums,
            large_sums,
            writing,
            large_writing,
            reading,
            large_reading,
            edits,
            large_edits,
        };
        cases.for_each(|case| overview.add(&case));
        overview
    }

    fn add(&mut self, case: &Case) {
        for (name, told) in case.tell() {
            self.all.add(name, &told);
            if case.has(Format::Two) {
                self.of_two.add(name, &told);
            }
        }
        match case {
            Case::Policy(policy) => self.add_policy(policy),
            Case::Dtd(_) => (),
            Case::Roles(roles) => self.roles.add(roles),
            Case::Maps(maps) => self.add_maps(maps),
            Case::Carry(carry) => self.add_carry(carry),
            Case::Sheet(sheet) => self.add_sheet(sheet),
            Case::Sum(sum) => self.add_sum(sum),
            Case::Write(write) => self.add_write(write),
            Case::Read(read) => self.add_read(read),
            Case::Edit(edit) => self.add_edit(edit),
        }
    }

    fn add_policy(&mut self, policy: &PolicyCase) {
        self.format_two.add(policy);
        self.counts.add(policy);
        self.chains.add(policy);
    }

    fn add_maps(&mut self, maps: &MapsCase) {
        self.maps.add(maps);
        self.large_maps.add(maps);
    }

    fn add_carry(&mut self, carry: &CarryCase) {
        self.carrying.add(carry);
        self.large_carrying.add(carry);
    }

    fn add_sheet(&mut self, sheet: &SheetCase) {
        self.sheets.add(sheet);
        self.large_sheets.add(sheet);
    }

    fn add_sum(&mut self, sum: &SumCase) {
        self.sums.add(sum);
        self.large_sums.add(sum);
    }

    fn add_write(&mut self, write: &ListingCase) {
        self.writing.add(write);
        self.large_writing.add(write);
    }

    fn add_read(&mut self, read: &ListingCase) {
        self.reading.add(read);
        self.large_reading.add(read);
    }

    fn add_edit(&mut self, edit: &EditCase) {
        self.edits.add(edit);
        self.large_edits.add(edit);
    }

    /// The fewest of the numbers and conditions that the calls made can give.
    pub fn fewest_of_answers(&self) -> usize {
        self.all.fewest()
    }

    /// The fewest of what can come of format 2: a number, a condition, a situation.
    pub fn fewest_of_two(&self) -> usize {
        self.of_two.fewest().min(self.format_two.fewest())
    }

    /// The fewest of the situations of request 8.
    pub fn fewest_of_counts(&self) -> usize {
        self.counts.fewest()
    }

    /// The fewest of the situations of request 6.
    pub fn fewest_of_chains(&self) -> usize {
        self.chains.fewest()
    }

    /// The fewest of the situations of request 5.
    pub fn fewest_of_roles(&self) -> usize {
        self.roles.fewest()
    }

    /// The fewest of the situations of request 7.
    pub fn fewest_of_maps(&self) -> usize {
        self.maps.fewest()
    }

    /// The fewest of those with maps as long as there may be.
    pub fn fewest_of_large_maps(&self) -> usize {
        self.large_maps.fewest()
    }

    /// The fewest of the situations of request 1.
    pub fn fewest_of_carrying(&self) -> usize {
        self.carrying.fewest()
    }

    /// The fewest of those with tables as large as there may be.
    pub fn fewest_of_large_carrying(&self) -> usize {
        self.large_carrying.fewest()
    }

    /// The fewest of the situations of request 12: of sheets and of sums.
    pub fn fewest_of_sheets(&self) -> usize {
        self.sheets.fewest().min(self.sums.fewest())
    }

    /// The fewest of those with tables as large as there may be, or with more roles than a byte counts.
    pub fn fewest_of_large_sheets(&self) -> usize {
        self.large_sheets.fewest().min(self.large_sums.fewest())
    }

    /// The fewest of the situations of request 10: of writing and of reading.
    pub fn fewest_of_listings(&self) -> usize {
        self.writing.fewest().min(self.reading.fewest())
    }

    /// The fewest of those with long listings or with texts as large as there may be.
    pub fn fewest_of_large_listings(&self) -> usize {
        self.large_writing.fewest().min(self.large_reading.fewest())
    }

    /// The fewest of the situations of request 11.
    pub fn fewest_of_edits(&self) -> usize {
        self.edits.fewest()
    }

    /// The fewest of those with as many privileges, types or children as there may be.
    pub fn fewest_of_large_edits(&self) -> usize {
        self.large_edits.fewest()
    }

    fn text(&self) -> String {
        let tables = format!("{}\nof format 2\n{}", self.all.text(), self.of_two.text());
        let of_policies = [&self.format_two, &self.counts, &self.chains].map(Found::text);
        let of_maps = [&self.maps, &self.large_maps].map(Found::text);
        let of_carrying = [&self.carrying, &self.large_carrying].map(Found::text);
        let of_sheets = [&self.sheets, &self.large_sheets].map(Found::text);
        let of_sums = [&self.sums, &self.large_sums].map(Found::text);
        let of_listings =
            [&self.writing, &self.large_writing, &self.reading, &self.large_reading].map(Found::text);
        let of_tables = [&of_maps[..], &of_carrying, &of_sheets, &of_sums].concat();
        let of_edits = [&self.edits, &self.large_edits].map(Found::text);
        let all = [&of_policies[..], &[self.roles.text()], &of_tables, &of_listings, &of_edits];
        format!("{}\n{}", tables, all.concat().join("\n"))
    }
}

pub fn count(stream: &[u8]) -> String {
    Overview::of(read_cases(stream).into_iter()).text()
}
