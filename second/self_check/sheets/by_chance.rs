// Sheets and sums by chance: each figure and each count against the single calls, role by role, with what holds of every sheet, and with faults
// against another reading of the refusals.

use super::super::expect;
use super::super::literal;
use crate::answers::{answer, Answer, Breach};
use crate::conditions::verdict;
use crate::making::bases::any_case;
use crate::making::chance::Random;
use crate::making::sheets::Month;
use crate::making::sums::Sheets;
use crate::sheet::{add_sheets, month_sheet, Sheet};
use crate::sheet_case::SheetCase;
use crate::sum_case::SumCase;
use crate::table::{check, check_table, Table};

/// A sheet with its counts.
type Counted = (Sheet, Vec<u32>);

/// The sheet of roles without a fault.
fn counted(words: &[u16], roles: &[Vec<u8>]) -> Counted {
    let mut counts = vec![9; 3 * words[7] as usize];
    let told = month_sheet(words, roles.len() as u32, &roles.concat(), &mut counts);
    (told.expect("roles without a fault"), counts)
}

/// The sum of two sheets that are sheets of roles.
fn added(words: &[u16], one: &Counted, more: &Counted) -> Counted {
    let mut counts = one.1.clone();
    let told = add_sheets(words, one.0, &mut counts, more.0, &more.1);
    (told.expect("two sheets of roles"), counts)
}

/// Whether a privilege is the k-th of all: so many are allowed more often, or as often and lower.
fn has_rank(counts: &[u32], privilege: usize, k: usize) -> bool {
    let times = |p: usize| counts[3 * p];
    let is_before = |&p: &usize| times(p) > times(privilege) || times(p) == times(privilege) && p < privilege;
    (0..counts.len() / 3).filter(is_before).count() == k
}

fn self_leaders(sheet: &Sheet, counts: &[u32]) {
    let (v, count) = (counts.len() / 3, sheet.leader_count as usize);
    expect(count == v.min(3), "three leaders, or all privileges");
    expect((0..count).all(|k| has_rank(counts, sheet.leaders[k], k)), "each leader in its place");
    expect(sheet.leaders[count..].iter().all(|&leader| leader == 0), "0 in the places behind the leaders");
}

/// The figures by the single call and by the conditions read literally.
fn self_figures(words: &[u16], table: &Table, roles: &[Vec<u8>], figures: [u32; 5]) {
    let told: Vec<Answer> = roles.iter().map(|role| answer(verdict(words, role))).collect();
    let count = |known: fn(&&Answer) -> bool| told.iter().filter(known).count();
    let refused = count(|told| told.number == 11);
    let clean = count(|told| told.number == 0 && told.breach == Breach::default());
    let broken = count(|told| told.number == 0 && told.breach != Breach::default());
    let breaks =
        |role: &[u8], condition| literal::breaches(table, role).iter().any(|breach| breach[1] == condition);
    let breaking = [1, 2, 3].map(|condition| {
        let both = roles.iter().zip(&told).filter(|(role, told)| told.number == 0 && breaks(role, condition));
        both.count() as u32
    });
    expect(figures[0] as usize == clean && figures[4] as usize == refused, "clean and refused roles");
    expect(figures[1..4] == breaking, "roles that break each condition somewhere");
    expect(clean + broken + refused == roles.len(), "each role is clean, broken or refused");
    expect(breaking.iter().all(|&count| count as usize <= broken), "no condition more often than a breach");
    expect(breaking.iter().sum::<u32>() as usize >= broken, "each broken role breaks a condition");
}

/// The counts role by role, and that they come to the roles that are not refused.
fn self_counts(roles: &[Vec<u8>], (sheet, counts): &Counted) {
    let mut expected = vec![0; counts.len()];
    for role in roles.iter().filter(|role| role.iter().all(|&mark| mark < 3)) {
        for (privilege, &mark) in role.iter().enumerate() {
            expected[3 * privilege + [2, 0, 1][mark as usize]] += 1;
        }
    }
    expect(*counts == expected, "how often each privilege is allowed, forbidden and unset");
    let all = roles.len() as u32 - sheet.figures[4];
    expect(counts.chunks(3).all(|three| three.iter().sum::<u32>() == all), "the three counts of a privilege");
}

/// Two roles exchanged change nothing; and the sheets of the roles up to any one and behind it come to the whole.
fn self_parted(r: &mut Random, words: &[u16], roles: &[Vec<u8>], whole: &Counted) {
    if !roles.is_empty() {
        let mut others = roles.to_vec();
        let (one, other) = (r.below(roles.len()), r.below(roles.len()));
        others.swap(one, other);
        expect(counted(words, &others) == *whole, "two roles exchanged");
    }
    let (one, more) = roles.split_at(r.below(roles.len() + 1));
    let [one, more] = [one, more].map(|roles| counted(words, roles));
    expect(added(words, &one, &more) == *whole, "the sheets of two runs of roles");
    expect(added(words, &more, &one) == *whole, "the same in the other order");
    expect(added(words, whole, &counted(words, &[])) == *whole, "the sheet of no role adds nothing");
}

/// The number and the place of a call that counts roles, each check by itself.
fn number_of_month(case: &SheetCase) -> [usize; 2] {
    let told = answer(check(&case.words));
    if told.number != 0 {
        return [told.number, told.place];
    }
    let is_in_keeping = match (told.place, case.roles) {
        (0, _) | (_, 0) => case.marks.is_empty(),
        (v, roles) => case.marks.len() % v == 0 && case.marks.len() / v == roles as usize,
    };
    match (is_in_keeping, case.counts.len() / 3 >= told.place) {
        (false, _) => [10, 0],
        (true, false) => [12, 0],
        _ => [0, 0],
    }
}

/// A call by chance, with faults or without; tells its number.
fn self_month(r: &mut Random, is_spoilt: bool) -> usize {
    let case = any_case::<Month>(r, is_spoilt);
    let mut counts = case.counts.clone();
    let told = month_sheet(&case.words, case.roles, &case.marks, &mut counts);
    let [number, place] = number_of_month(&case);
    let sheet = match told {
        Err(refusal) => {
            expect(refusal == Sheet { number, place, ..Sheet::default() }, "a refused sheet");
            expect(number != 0 && counts == case.counts, "a refused sheet keeps its counts");
            return number;
        }
        Ok(sheet) => sheet,
    };
    expect((number, sheet.number, sheet.place) == (0, 0, 0), "a sheet that is done");
    let table = check_table(&case.words).expect("a done call's table");
    let all = 3 * table.v();
    expect(counts[all..] == case.counts[all..], "what is behind the last privilege is kept");
    self_leaders(&sheet, &counts[..all]);
    if table.v() == 0 {
        expect(sheet.figures == [case.roles, 0, 0, 0, 0], "roles without a privilege");
        return 0;
    }
    let roles: Vec<Vec<u8>> = case.marks.chunks(table.v()).map(<[u8]>::to_vec).collect();
    let whole = (sheet, counts[..all].to_vec());
    expect(counted(&case.words, &roles) == whole, "whatever is lent");
    self_figures(&case.words, &table, &roles, sheet.figures);
    self_counts(&roles, &whole);
    self_parted(r, &case.words, &roles, &whole);
    0
}

/// Where a sum first runs over: a privilege, or V for a figure.
fn place_over(case: &SumCase, v: usize) -> Option<usize> {
    let is_over = |one: u32, other: u32| u32::MAX - one < other;
    let of_count = (0..3 * v).find(|&k| is_over(case.counts[k], case.more_counts[k]));
    let of_figure = (0..5).find(|&k| is_over(case.sheet.figures[k], case.more.figures[k]));
    of_count.map(|k| k / 3).or(of_figure.map(|_| v))
}

/// The number and the place of a call that adds sheets, each check by itself.
fn number_of_sum(case: &SumCase) -> [usize; 2] {
    let Answer { number, place: v, .. } = answer(check(&case.words));
    let is_short = |run: &[u32]| run.len() / 3 < v;
    match (case.sheet.number, case.more.number) {
        _ if number != 0 => [number, v],
        _ if is_short(&case.counts) || is_short(&case.more_counts) => [12, 0],
        (0, 0) => place_over(case, v).map_or([0, 0], |place| [30, place]),
        (0, _) => [29, 1],
        _ => [29, 0],
    }
}

/// The same sheets in the other order, and each with other numbers where nothing is looked at.
fn turned(r: &mut Random, case: &SumCase) -> SumCase {
    let mut other = case.clone();
    let all = case.counts.len().min(case.more_counts.len());
    std::mem::swap(&mut other.sheet, &mut other.more);
    other.counts[..all].copy_from_slice(&case.more_counts[..all]);
    other.more_counts[..all].copy_from_slice(&case.counts[..all]);
    for sheet in [&mut other.sheet, &mut other.more] {
        sheet.place = r.below(9);
        sheet.leaders = [r.below(9); 3];
        sheet.leader_count = r.below(9) as u32;
    }
    other
}

/// A sum by chance, with faults or without; tells its number.
fn self_sum(r: &mut Random, is_spoilt: bool) -> usize {
    let case = any_case::<Sheets>(r, is_spoilt);
    let make = |case: &SumCase| {
        let mut counts = case.counts.clone();
        (add_sheets(&case.words, case.sheet, &mut counts, case.more, &case.more_counts), counts)
    };
    let (told, counts) = make(&case);
    let [number, place] = number_of_sum(&case);
    let sheet = match told {
        Err(refusal) => {
            expect(refusal == Sheet { number, place, ..Sheet::default() }, "a refused sum");
            expect(number != 0 && counts == case.counts, "a refused sum keeps its counts");
            return number;
        }
        Ok(sheet) => sheet,
    };
    expect((number, sheet.number, sheet.place) == (0, 0, 0), "a sum that is done");
    let all = 3 * case.words[7] as usize;
    expect(counts[all..] == case.counts[all..], "what is behind the last privilege is kept");
    let back = |sum: u32, more: u32| sum.wrapping_sub(more);
    let less = counts[..all].iter().zip(&case.more_counts).map(|(&sum, &more)| back(sum, more));
    expect(less.eq(case.counts[..all].iter().copied()), "the counts, taken away again");
    let less = [0, 1, 2, 3, 4].map(|k| back(sheet.figures[k], case.more.figures[k]));
    expect(less == case.sheet.figures, "the figures, taken away again");
    self_leaders(&sheet, &counts[..all]);
    let (other, other_counts) = make(&turned(r, &case));
    expect(other == Ok(sheet) && other_counts[..all] == counts[..all], "the sum in the other order");
    0
}

/// Half of the calls have faults.
pub fn self_by_chance(seed: u64, count: usize) -> String {
    let mut r = Random(seed);
    let mut done = [0, 0];
    for k in 0..count {
        done[0] += (self_month(&mut r, k % 2 == 1) == 0) as usize;
        done[1] += (self_sum(&mut r, k % 2 == 1) == 0) as usize;
    }
    format!("{} sheets and as many sums by chance ({} and {} done)", count, done[0], done[1])
}
