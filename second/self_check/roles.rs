// All roles at once: calls worked out by hand, calls by chance against the single call, and how often what can come does in the cases for a stream.

use super::policies::small_policy;
use super::samples::{digits, of_two, Sample, SAMPLE, SAMPLES, SAMPLES_OF_TWO};
use super::{expect, OFTEN};
use crate::answers::{answer, Answer};
use crate::cases::Case;
use crate::completing::complete;
use crate::counting::Overview;
use crate::format::Format;
use crate::making::chance::Random;
use crate::making::policies::policy;
use crate::making::roles::cases;
use crate::roles::complete_roles;
use crate::roles_case::RolesCase;
use crate::table::Table;

/// As many as are stored for the gate.
const COUNT: usize = 1320;

/// What the numbers and the result hold before a call by hand.
const NUMBER: u16 = 65535;
const BYTE: u8 = 7;

/// A role worked out by hand: its marks, and its completed marks or its number.
type Known = (&'static str, Result<&'static str, u16>);

fn of_sample((marks, _, completed, _, _): &Sample) -> Known {
    (marks, completed.ok_or(16))
}

fn number_of(role: &Known) -> u16 {
    role.1.err().unwrap_or(0)
}

fn stretch_of(role: &Known) -> Vec<u8> {
    role.1.map_or(vec![BYTE; role.0.len()], digits)
}

/// A call that is done, with so many bytes behind the last stretch.
fn self_done(words: &[u16], roles: &[Known], behind: usize, name: &str) {
    let marks: Vec<u8> = roles.iter().flat_map(|role| digits(role.0)).collect();
    let (mut numbers, mut out) = (vec![NUMBER; roles.len()], vec![BYTE; marks.len() + behind]);
    let done = complete_roles(words, &marks, &mut numbers, &mut out);
    expect(done == Ok(Answer::default()), name);
    expect(numbers == roles.iter().map(number_of).collect::<Vec<u16>>(), name);
    let stretches: Vec<u8> = roles.iter().flat_map(stretch_of).collect();
    expect(out == [stretches, vec![BYTE; behind]].concat(), name);
}

/// A call on so many roles with a result so long that is refused with a number at a place.
fn self_refused(words: &[u16], marks: &[u8], lent: [usize; 2], [number, place]: [usize; 2], name: &str) {
    let [count, length] = lent;
    let (mut numbers, mut out) = (vec![NUMBER; count], vec![BYTE; length]);
    let refusal = complete_roles(words, marks, &mut numbers, &mut out);
    expect(refusal == Err(Answer { number, place, ..Answer::default() }), name);
    expect(numbers == vec![NUMBER; count] && out == vec![BYTE; length], name);
}

/// The first so many roles of some, begun anew at their end.
fn in_turn(samples: &[Sample], count: usize) -> Vec<Known> {
    samples.iter().map(of_sample).cycle().take(count).collect()
}

fn self_samples() {
    self_done(&SAMPLE, &in_turn(&SAMPLES, 40), 0, "the sample's forty roles");
    self_done(&SAMPLE, &in_turn(&SAMPLES, 40), 5, "the sample's forty roles, and more room");
    self_done(&of_two(&SAMPLE), &in_turn(&SAMPLES_OF_TWO, 40), 1, "forty roles in format 2");
    self_done(&SAMPLE, &in_turn(&SAMPLES, 1), 0, "one role");
    self_done(&SAMPLE, &[], 0, "no role");
    self_done(&SAMPLE, &[], 3, "no role, and a result");
}

const DONE: Known = ("11000000000", Ok("11111111111"));
const BROKEN: Known = ("11020000000", Err(16));
const BENT_FIRST: Known = ("31000000000", Err(11));
const BENT_LAST: Known = ("11000000009", Err(11));
const BENT_AND_BROKEN: Known = ("11020000003", Err(11));

fn self_arrangements() {
    self_done(&SAMPLE, &[BROKEN, DONE, DONE], 1, "the first role refused");
    self_done(&SAMPLE, &[DONE, BENT_FIRST, DONE], 1, "a first mark above 2");
    self_done(&SAMPLE, &[DONE, BENT_LAST, DONE], 1, "a last mark above 2");
    self_done(&SAMPLE, &[DONE, DONE, BROKEN], 1, "the last role refused");
    self_done(&SAMPLE, &[BENT_LAST, BENT_FIRST, BROKEN], 1, "all roles refused");
    self_done(&SAMPLE, &[BENT_AND_BROKEN, DONE, BROKEN], 1, "11 before 16");
}

/// A lone empty type.
pub const NO_PRIVILEGE: [u16; 11] = [1, 11, 1, 0, 8, 0, 11, 0, 0, 0, 0];

fn self_without_privileges() {
    for count in [0, 1, 1000, 65_536] {
        self_done(&NO_PRIVILEGE, &vec![("", Ok("")); count], 0, "roles without a privilege");
        self_done(&NO_PRIVILEGE, &vec![("", Ok("")); count], 3, "roles without a privilege, and a result");
        self_refused(&NO_PRIVILEGE, &[0], [count, 3], [10, 0], "a mark for no privilege");
    }
}

/// The sample with another word, and the number and the place of its refusal.
pub const REFUSED_TABLES: [(usize, u16, [usize; 2]); 10] = [
    (0, 3, [1, 0]),
    (3, 8, [2, 0]),
    (14, 5, [3, 2]),
    (9, 2, [4, 0]),
    (10, 1, [5, 0]),
    (32, 8, [6, 0]),
    (34, 2, [7, 1]),
    (32, 0, [19, 0]),
    (3, 1, [8, 0]),
    (7, 12, [9, 0]),
];

/// The table's numbers come before 10 and 12.
fn self_tables() {
    for (at, word, refusal) in REFUSED_TABLES {
        let mut words = SAMPLE;
        words[at] = word;
        self_refused(&words, &[0; 22], [2, 22], refusal, "roles of a refused table");
        self_refused(&words, &[0; 21], [2, 0], refusal, "a refused table, and more that is wrong");
    }
}

/// For two roles: 10 comes before 12, and both before what is wrong within a role.
fn self_lengths() {
    for count in [0, 1, 11, 21, 23, 33] {
        self_refused(&SAMPLE, &vec![3; count], [2, 22], [10, 0], "other marks than two roles have");
        self_refused(&SAMPLE, &vec![3; count], [2, 0], [10, 0], "other marks, and no room");
    }
    self_refused(&SAMPLE, &[0; 11], [0, 11], [10, 0], "marks of no role");
    for length in [0, 11, 21] {
        self_refused(&SAMPLE, &[0; 22], [2, length], [12, 0], "too little room for two roles");
        self_refused(&SAMPLE, &[3; 22], [2, length], [12, 0], "too little room, and marks above 2");
    }
}

/// The roles of a show: for each its marks, and its stretch as lent.
type Roles = Vec<(Vec<u8>, Vec<u8>)>;

fn role(r: &mut Random, table: &Table) -> (Vec<u8>, Vec<u8>) {
    let mut marks = policy(r, table);
    if r.one_in(4) {
        let p = r.below(marks.len());
        marks[p] = 3;
    }
    let stretch = marks.iter().map(|_| r.next() as u8).collect();
    (marks, stretch)
}

/// For each role its number and its stretch afterwards.
fn all_at_once(words: &[u16], roles: &Roles) -> Vec<(usize, Vec<u8>)> {
    let marks: Vec<u8> = roles.iter().flat_map(|role| role.0.clone()).collect();
    let mut out: Vec<u8> = roles.iter().flat_map(|role| role.1.clone()).collect();
    let mut numbers = vec![NUMBER; roles.len()];
    let done = complete_roles(words, &marks, &mut numbers, &mut out);
    expect(done == Ok(Answer::default()), "roles are completed");
    let mut rest = &out[..];
    let mut after = Vec::new();
    for (number, role) in numbers.into_iter().zip(roles) {
        let (stretch, behind) = rest.split_at(role.0.len());
        after.push((number as usize, stretch.to_vec()));
        rest = behind;
    }
    after
}

fn alone(words: &[u16], (marks, stretch): &(Vec<u8>, Vec<u8>)) -> (usize, Vec<u8>) {
    let mut out = stretch.clone();
    let told = answer(complete(words, marks, &mut out));
    (told.number, out)
}

/// Exchanging two roles exchanges what comes of them.
fn self_exchanged(r: &mut Random, words: &[u16], mut roles: Roles, mut after: Vec<(usize, Vec<u8>)>) {
    let (a, b) = (r.below(roles.len()), r.below(roles.len()));
    roles.swap(a, b);
    after.swap(a, b);
    expect(all_at_once(words, &roles) == after, "two roles exchanged");
}

/// A further role leaves the others as they were.
fn self_added(r: &mut Random, words: &[u16], table: &Table, mut roles: Roles, after: &[(usize, Vec<u8>)]) {
    let at = r.below(roles.len() + 1);
    roles.insert(at, role(r, table));
    let mut others = all_at_once(words, &roles);
    others.remove(at);
    expect(others == after, "a further role");
}

/// The numbers of the roles of a small table.
fn self_show(r: &mut Random, format: Format) -> Vec<usize> {
    let (schema, table, _) = small_policy(r, format);
    let words = schema.words();
    let roles: Roles = (0..r.below(6)).map(|_| role(r, &table)).collect();
    let after = all_at_once(&words, &roles);
    let each: Vec<(usize, Vec<u8>)> = roles.iter().map(|role| alone(&words, role)).collect();
    expect(after == each, "each role is what the single call gives");
    if !roles.is_empty() {
        self_exchanged(r, &words, roles.clone(), after.clone());
    }
    self_added(r, &words, &table, roles, &after);
    after.iter().map(|role| role.0).collect()
}

fn self_by_chance(seed: u64, count: usize) -> String {
    let mut r = Random(seed);
    let formats = [Format::One, Format::Two];
    let numbers: Vec<usize> = (0..count).flat_map(|k| self_show(&mut r, formats[k % 2])).collect();
    let of = |wanted: usize| numbers.iter().filter(|&&number| number == wanted).count();
    let [done, bent, broken] = [0, 11, 16].map(of);
    format!("{} calls by chance ({} roles done, {} with number 11, {} with 16)", count, done, bent, broken)
}

/// The fewest of the numbers, of the call and of a role, in the cases of a format.
fn fewest_of(format: Format, cases: &[RolesCase]) -> usize {
    let own = cases.iter().filter(|case| case.has(format)).cloned();
    Overview::of(own.map(Case::Roles)).fewest_of_answers()
}

fn self_stored(seed: u64) -> String {
    let cases: Vec<RolesCase> = cases(seed, COUNT).collect();
    let of_answers = fewest_of(Format::One, &cases).min(fewest_of(Format::Two, &cases));
    let of_situations = Overview::of(cases.into_iter().map(Case::Roles)).fewest_of_roles();
    expect(of_answers >= OFTEN, "how often each number of roles comes in each format");
    expect(of_situations >= OFTEN, "how often each situation of roles comes");
    format!("{} cases (fewest of what can come: {})", COUNT, of_answers.min(of_situations))
}

pub fn self_roles(seed: u64, count: usize) -> String {
    self_samples();
    self_arrangements();
    self_without_privileges();
    self_tables();
    self_lengths();
    let (by_chance, stored) = (self_by_chance(seed, count), self_stored(seed));
    format!("self: roles: known calls, {} and {} hold\n", by_chance, stored)
}
