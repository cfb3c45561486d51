// The calls but `read_dtd` written by hand for speed, in plain Rust: what the proved code is measured against. fast/roles.rs has that on all roles,
// fast/maps.rs those on bit maps, fast/carry.rs that on a revised schema, fast/sheet.rs those on sheets, fast/listing.rs those on listings, and
// fast/edit.rs that on one mark.
// The steps are those of the proved code: a table check that puts the types in order, one bottom-up pass for whether something is forbidden below
// each type, Warshall's closure for each choice, the chain of the first breach and a count of what is forbidden below its child, a completion that
// opens downwards, a mend in ascending order with the closure made anew for each mark taken. What is done by hand: a table is accepted by a pass over
// its records that is not left early and looks rules up, one over its child list, and one over the types in their order, which is made meanwhile,
// without a branch; only a refused one is searched for the first failing check, and for a cycle in one walk; a row of a choice is 16 bits; marks are
// checked and compared many at a time, read 16 at a time, each mark's bit gathered by a multiplication, and written eight at a time; the format is
// asked once a call, and what goes by it is compiled for each. Nothing is allocated, and nothing is unsafe.

mod carry;
mod edit;
mod listing;
mod maps;
mod roles;
mod sheet;

use crate::calls::Outcome;
pub use carry::carry_marks;
pub use edit::edit_mark;
pub use listing::{read_listing, write_listing};
pub use maps::{complete_maps, judge_maps, judge_mend_maps, mend_maps};
pub use roles::complete_roles;
pub use sheet::{add_sheets, month_sheet};
use std::mem::replace;

const EMPTY: u16 = 0;
const TEXT: u16 = 1;
const SEQUENCE: u16 = 2;
const CHOICE: u16 = 3;
const STAR: u16 = 4;

const ALLOWED: u8 = 1;
const FORBIDDEN: u8 = 2;

/// Whether a table is of format 2; each function that goes by the format is made for both.
const ONE: bool = false;
const TWO: bool = true;

const MOST_CHILDREN: u16 = 16;
const MOST_PRIVILEGES: usize = 4096;

/// Kind, number of children, index of the first child.
type Record = [u16; 3];

/// A number and a place.
type Refusal = (usize, usize);

// ---------------------------------------------------------------- the table

/// An accepted table.
struct Table<'a> {
    is_two: bool,
    privileges: &'static Privileges,
    records: &'a [Record],
    list: &'a [u16],
    v: usize,
    /// The root and the other types with children, each after its parents.
    order: &'a [u8],
}

impl<'a> Table<'a> {
    fn children(&self, record: &Record) -> &'a [u16] {
        children(self.list, record)
    }

    fn privileges_of(&self, record: &Record) -> usize {
        privileges_of(self.privileges, record)
    }
}

/// Room for an order of types.
type Order = [u8; 256];

fn children<'a>(list: &'a [u16], record: &Record) -> &'a [u16] {
    &list[record[2] as usize..][..record[1] as usize]
}

/// The privileges of each rule; too many, where the number of children does not fit the kind.
type Privileges = [u16; 256];

/// Those of both formats.
static PRIVILEGES: [Privileges; 2] = [privileges(ONE), privileges(TWO)];

const fn privileges(is_two: bool) -> Privileges {
    let mut all = [MISFIT; 256];
    all[rule(EMPTY, 0)] = 0;
    all[rule(TEXT, 0)] = 1;
    all[rule(STAR, 1)] = if is_two { 3 } else { 2 };
    let mut n = 1;
    while n <= MOST_CHILDREN {
        all[rule(SEQUENCE, n)] = 0;
        all[rule(CHOICE, n)] = if is_two { n * n } else { n * n - n };
        n += 1;
    }
    all
}

const MISFIT: u16 = MOST_PRIVILEGES as u16 + 1;

/// Where a rule is found: it has a kind below 8 and fewer than 32 children.
const fn rule(kind: u16, count: u16) -> usize {
    (kind << 5 | count) as u8 as usize
}

fn privileges_of(privileges: &Privileges, &[kind, count, _]: &Record) -> usize {
    privileges[rule(kind, count)] as usize
}

fn read_table<'a>(words: &'a [u16], order: &'a mut Order) -> Result<Table<'a>, Refusal> {
    let Some((header, rest)) = words.split_first_chunk::<8>() else {
        return Err((1, 0));
    };
    let [format, size, e, root, at, c, list_at, v] = header.map(usize::from);
    let Some(privileges) = PRIVILEGES.get(format.wrapping_sub(1)) else {
        return Err((1, 0));
    };
    let counts = (1..=256).contains(&e) && c <= 1024 && root < e;
    let offsets = at == 8 && list_at == 8 + 3 * e && size == 8 + 3 * e + c;
    if !counts || !offsets || words.len() != size {
        return Err((2, 0));
    }
    let (records, list) = rest.split_at(3 * e);
    let (records, _) = records.as_chunks::<3>();
    match accepted(privileges, records, list, root, order) {
        Some((total, n)) if total == v => {
            Ok(Table { is_two: format == 2, privileges, records, list, v, order: &order[..n] })
        }
        _ => Err(first_failing(records, list, root)),
    }
}

/// V and the length of the order, if checks 3 to 8 and 19 pass and V is not too large.
fn accepted(
    privileges: &Privileges,
    records: &[Record],
    list: &[u16],
    root: usize,
    order: &mut Order,
) -> Option<(usize, usize)> {
    let mut untaken = [0; 256];
    let total = fitting(privileges, records, list, &mut untaken)?;
    count_entries(list, &mut untaken);
    let length = put_in_order(records, list, root, &mut untaken, order)?;
    Some((total, length))
}

/// V, if checks 3 to 6 pass and it is not too large. The counts of entries begin at 0, or, for types without children, at 1: those never come to 0.
fn fitting(
    privileges: &Privileges,
    records: &[Record],
    list: &[u16],
    untaken: &mut [u8; 256],
) -> Option<usize> {
    let (mut odd, mut astray) = (0, 0);
    let (mut running, mut total) = (0u16, 0);
    for (record, untaken) in records.iter().zip(untaken) {
        let &[kind, count, first] = record;
        odd |= kind | count >> 2;
        astray |= first ^ running;
        running = running.wrapping_add(count);
        total += privileges_of(privileges, record);
        *untaken = (count == 0) as u8;
    }
    let rules = (odd < 8) & (total <= MOST_PRIVILEGES);
    let stretches = (astray == 0) & (running as usize == list.len());
    let highest = list.iter().fold(0, |most, &child| child.max(most)) as usize;
    (rules & stretches & (highest < records.len())).then_some(total)
}

/// Counts for each type the entries that name it.
fn count_entries(list: &[u16], untaken: &mut [u8; 256]) {
    let mut count = |&child: &u16| {
        let entries = &mut untaken[child as usize & 255];
        *entries = entries.wrapping_add(1);
    };
    let (fours, rest) = list.as_chunks::<4>();
    fours.iter().for_each(|four| four.iter().for_each(&mut count));
    rest.iter().for_each(count);
}

/// The length of the order, if checks 7, 19 and 8 pass. The root is first, if no entry names it. Then types are passed in their order: the entries of
/// each are taken, and a type is appended as the last entry that names it is. Each child is stamped with its parent's place, from 1, which tells
/// one that stands twice. If all entries are taken there is no cycle, and each type with a stamp is reached. Counts that run over do no harm: a
/// type with children is named over 255 times only if it is a child twice or its own, and then some entry is not taken, or one twice.
fn put_in_order(
    records: &[Record],
    list: &[u16],
    root: usize,
    untaken: &mut [u8; 256],
    order: &mut Order,
) -> Option<usize> {
    if untaken[root & 255] != (records[root][1] == 0) as u8 {
        return None;
    }
    let mut stamps = [0; 256];
    stamps[root & 255] = u8::MAX;
    order[0] = root as u8;
    let (mut passed, mut length, mut taken) = (0, 1, 0);
    while passed < length {
        let kids = children(list, &records[order[passed & 255] as usize]);
        passed += 1;
        taken += kids.len();
        for &child in kids {
            let x = child as usize & 255;
            if stamps[x] == passed as u8 {
                return None;
            }
            stamps[x] = passed as u8;
            let left = (untaken[x] as usize).wrapping_sub(1);
            untaken[x] = left as u8;
            order[length & 255] = child as u8;
            length += (left == 0) as usize;
        }
    }
    let unreached = stamps[..records.len()].iter().fold(false, |any, &stamp| any | (stamp == 0));
    (!unreached & (taken == list.len())).then_some(length)
}

// ---------------------------------------------------------------- the checks by number

/// The first of the checks 3 to 9 that fails, and the lowest place at which it does.
#[cold]
fn first_failing(records: &[Record], list: &[u16], root: usize) -> Refusal {
    if let Some(t) = records.iter().position(|record| record[0] > STAR) {
        return (3, t);
    }
    // a rule that does not fit one format does not fit the other
    let misfit =
        |it: &Record| it[1] > MOST_CHILDREN || privileges_of(&PRIVILEGES[0], it) == MISFIT as usize;
    if let Some(t) = records.iter().position(misfit) {
        return (4, t);
    }
    let mut running = 0;
    for (t, record) in records.iter().enumerate() {
        if record[2] as usize != running {
            return (5, t);
        }
        running += record[1] as usize;
    }
    if running != list.len() {
        return (5, records.len());
    }
    first_failing_child(records, list, root)
}

/// The same for the checks 6, 7, 19, 8 and 9.
fn first_failing_child(records: &[Record], list: &[u16], root: usize) -> Refusal {
    let e = records.len();
    let kids = |t: usize| children(list, &records[t]).iter();
    if let Some(t) = (0..e).find(|&t| kids(t).any(|&x| x as usize >= e)) {
        return (6, t);
    }
    let mut stamps = [0; 256];
    let mut stamp = |x: u16, t: usize| replace(&mut stamps[x as usize & 255], t as u16 + 1);
    if let Some(t) = (0..e).find(|&t| kids(t).any(|&x| stamp(x, t) == t as u16 + 1)) {
        return (7, t);
    }
    if let Some(t) = lowest_on_cycle(records, list) {
        return (19, t);
    }
    if let Some(t) = lowest_unreached(records, list, root) {
        return (8, t);
    }
    (9, 0)
}

fn lowest_on_cycle(records: &[Record], list: &[u16]) -> Option<usize> {
    let mut walk = Walk::new(records, list);
    for t in 0..records.len() {
        if !walk.is_met(t) {
            walk.go_from(t);
        }
    }
    walk.lowest
}

fn lowest_unreached(records: &[Record], list: &[u16], root: usize) -> Option<usize> {
    let mut walk = Walk::new(records, list);
    walk.go_from(root);
    (0..records.len()).find(|&t| !walk.is_met(t))
}

/// The rank of a type that was not met, and of one that leads to no type of the path.
const UNMET: u16 = 0;
const CLOSED: u16 = u16::MAX;

/// A walk from types to their children that finds the types on a cycle (Tarjan's). A type that was met is open until it is closed.
struct Walk<'a> {
    records: &'a [Record],
    list: &'a [u16],
    /// For each type its place among the open ones, from 1.
    rank: [u16; 256],
    /// For each type the lowest rank to which it is known to lead.
    least: [u16; 256],
    /// For each type how many of its children were passed.
    passed: [u8; 256],
    open: Stack,
    /// The open types from the start to where the walk is, each a child of the one before.
    path: Stack,
    /// The lowest type found on a cycle.
    lowest: Option<usize>,
}

impl Walk<'_> {
    fn new<'a>(records: &'a [Record], list: &'a [u16]) -> Walk<'a> {
        let (rank, least, passed) = ([UNMET; 256], [CLOSED; 256], [0; 256]);
        let (open, path) = (Stack::EMPTY, Stack::EMPTY);
        Walk { records, list, rank, least, passed, open, path, lowest: None }
    }

    fn is_met(&self, t: usize) -> bool {
        self.rank[t & 255] != UNMET
    }

    /// Goes to all types below one that were not met before.
    fn go_from(&mut self, start: usize) {
        self.meet(start);
        while let Some(t) = self.path.last() {
            match self.next_unmet(t) {
                Some(child) => self.meet(child),
                None => self.leave(t),
            }
        }
    }

    /// Passes the children of a type up to one that was not met before.
    fn next_unmet(&mut self, t: usize) -> Option<usize> {
        let kids = children(self.list, &self.records[t]);
        for &child in &kids[self.passed[t] as usize..] {
            self.passed[t] += 1;
            if !self.is_met(child as usize) {
                return Some(child as usize);
            }
            self.least[t] = self.least[t].min(self.rank[child as usize & 255]);
        }
        None
    }

    fn meet(&mut self, t: usize) {
        self.open.push(t);
        self.path.push(t);
        self.rank[t & 255] = self.open.size as u16;
    }

    /// Leaves a type whose children were all passed. It is on a cycle if it leads to itself or to an open type before it; if to none before it, it
    /// is closed, and with it all types met since.
    fn leave(&mut self, t: usize) {
        let (rank, least) = (self.rank[t], self.least[t]);
        if least <= rank {
            self.lowest = Some(self.lowest.map_or(t, |lowest| lowest.min(t)));
        }
        if least >= rank {
            let since = rank as usize - 1..self.open.size;
            self.open.size = since.start;
            self.open.types[since].iter().for_each(|&x| self.rank[x as usize] = CLOSED);
        }
        self.path.size -= 1;
        if let Some(parent) = self.path.last() {
            self.least[parent] = self.least[parent].min(least);
        }
    }
}

struct Stack {
    types: [u8; 256],
    size: usize,
}

impl Stack {
    const EMPTY: Stack = Stack { types: [0; 256], size: 0 };

    fn push(&mut self, t: usize) {
        self.types[self.size] = t as u8;
        self.size += 1;
    }

    fn last(&self) -> Option<usize> {
        self.types[..self.size].last().map(|&t| t as usize)
    }
}

// ---------------------------------------------------------------- marks

/// Checks 10 and 11, or 13 and 14.
fn check_marks(marks: &[u8], v: usize, number: usize) -> Result<(), Refusal> {
    if marks.len() != v {
        return Err((number, 0));
    }
    if marks.iter().fold(0, |most, &mark| mark.max(most)) <= FORBIDDEN {
        return Ok(());
    }
    let place = marks.iter().position(|&mark| mark > FORBIDDEN).unwrap_or(0);
    Err((number + 1, place))
}

fn read_policy<'a>(
    words: &'a [u16],
    marks: &[u8],
    order: &'a mut Order,
) -> Result<Table<'a>, Refusal> {
    let table = read_table(words, order)?;
    check_marks(marks, table.v, 10)?;
    Ok(table)
}

/// A bit for each of 16 bytes: their lowest.
fn lowest_bits(bytes: u128) -> u16 {
    let eight = |half: u64| {
        let bits = half & 0x0101_0101_0101_0101;
        (bits.wrapping_mul(0x0102_0408_1020_4080) >> 56) as u16
    };
    eight(bytes as u64) | eight((bytes >> 64) as u64) << 8
}

/// Whether one of some marks is forbidden: a mark's second bit tells.
fn any_forbidden(marks: &[u8]) -> bool {
    marks.iter().fold(0, |all, mark| all | mark) & FORBIDDEN != 0
}

// ---------------------------------------------------------------- the verdict

/// A breach, with the type's own privilege that is forbidden; none where what is forbidden is below the child at i.
struct Breach {
    condition: usize,
    element: usize,
    i: usize,
    j: usize,
    own: Option<usize>,
    chain: Chain,
}

/// The steps of a breach: how many positions there are, both ends among them, and these; 0 behind them.
struct Chain {
    length: usize,
    places: [u8; 17],
}

const NO_CHAIN: Chain = Chain { length: 0, places: [0; 17] };

/// What is forbidden at a breach: the lowest privilege, and how many there are.
struct Tally {
    lowest: usize,
    count: usize,
}

/// A type is spoilt if something is forbidden below it: first by its own privileges, then, from children to parents, by its children.
fn fill_spoilt(table: &Table, marks: &[u8], spoilt: &mut [bool; 256]) {
    let mut first = 0;
    for (record, own) in table.records.iter().zip(&mut *spoilt) {
        let until = first + table.privileges_of(record);
        *own = any_forbidden(&marks[first..until]);
        first = until;
    }
    for &x in table.order.iter().rev() {
        let kids = table.children(&table.records[x as usize]);
        let join = |any: bool, &child: &u16| any | spoilt[child as usize & 255];
        spoilt[x as usize] = kids.iter().fold(spoilt[x as usize], join);
    }
}

/// How many of some marks are forbidden: a mark's second bit tells.
fn count_forbidden(marks: &[u8]) -> usize {
    let count = |some: &[u8]| some.iter().map(|mark| mark >> 1).sum::<u8>() as usize;
    marks.chunks(128).map(count).sum()
}

/// What is forbidden below a type that is spoilt. Parents come before their children, so that one pass finds the types below.
fn tally_below(table: &Table, marks: &[u8], spoilt: &[bool; 256], top: u16) -> Tally {
    let mut below = [false; 256];
    below[top as usize & 255] = true;
    for &x in table.order {
        if below[x as usize] {
            let kids = table.children(&table.records[x as usize]);
            kids.iter().for_each(|&child| below[child as usize & 255] = true);
        }
    }
    let (mut first, mut tally) = (0, Tally { lowest: 0, count: 0 });
    for (x, record) in table.records.iter().enumerate() {
        let until = first + table.privileges_of(record);
        if below[x & 255] & spoilt[x & 255] {
            let own = &marks[first..until];
            if tally.count == 0 {
                tally.lowest = first + own.iter().position(|&mark| mark == FORBIDDEN).unwrap_or(0);
            }
            tally.count += count_forbidden(own);
        }
        first = until;
    }
    tally
}

/// The replacements of a choice as 16 rows of 16 bits: row i, bit j.
type Rows = [u16; 16];

/// How many privileges a row of a choice of n has: in format 1 that of i by i is left out.
fn row_length<const IS_TWO: bool>(n: usize) -> usize {
    if IS_TWO {
        n
    } else {
        n - 1
    }
}

/// The number of the privilege to replace i by j, at a choice of n.
fn replacement<const IS_TWO: bool>(first: usize, n: usize, i: usize, j: usize) -> usize {
    first + i * row_length::<IS_TWO>(n) + j - (!IS_TWO & (j > i)) as usize
}

/// What is allowed and what is forbidden among the marks of a row: a bit for each.
fn read_row(marks: &[u8], at: usize, own: usize) -> (u16, u16) {
    if let Some(whole) = marks[at..].first_chunk::<16>() {
        let row = u128::from_le_bytes(*whole);
        let mask = ((1u32 << own) - 1) as u16;
        return (lowest_bits(row) & mask, lowest_bits(row >> 1) & mask);
    }
    let (mut steps, mut bans) = (0, 0);
    for (k, &mark) in marks[at..at + own].iter().enumerate() {
        steps |= ((mark == ALLOWED) as u16) << (k & 15);
        bans |= ((mark == FORBIDDEN) as u16) << (k & 15);
    }
    (steps, bans)
}

/// What is allowed and what is forbidden at a choice of n.
fn read_choice<const IS_TWO: bool>(marks: &[u8], first: usize, n: usize) -> (Rows, Rows) {
    let (mut allowed, mut forbidden) = ([0; 16], [0; 16]);
    let own = row_length::<IS_TWO>(n);
    for i in 0..n.min(16) {
        let (steps, bans) = read_row(marks, first + i * own, own);
        // bit j of the marks is position j, or, in format 1, j + 1 from i on
        let before = (1u16 << i) - 1;
        let placed = |bits: u16| if IS_TWO { bits } else { bits + (bits & !before) };
        allowed[i] = placed(steps);
        forbidden[i] = placed(bans);
    }
    (allowed, forbidden)
}

/// What is reached by one or more steps: Warshall's closure, a row at a time.
fn reach(steps: &Rows, n: usize) -> Rows {
    let mut reached = *steps;
    for k in 0..n.min(16) {
        let through = reached[k];
        for row in reached.iter_mut() {
            *row |= through & (*row >> k & 1).wrapping_neg();
        }
    }
    reached
}

/// The first forbidden replacement that is reached: the lowest i, then the lowest j.
fn first_chain(reached: &Rows, forbidden: &Rows) -> Option<(usize, usize)> {
    let broken = |i: usize| reached[i] & forbidden[i];
    let i = (0..16).find(|&i| broken(i) != 0)?;
    Some((i, broken(i).trailing_zeros() as usize))
}

/// The lowest of some positions from which a way leads back to it.
fn first_cycle(reached: &Rows, spoilt: u16) -> Option<usize> {
    (0..16).find(|&i| spoilt & reached[i] & 1 << i != 0)
}

/// The positions of a row, ascending.
fn positions(mut row: u16) -> impl Iterator<Item = usize> {
    std::iter::from_fn(move || {
        let lowest = row.trailing_zeros() as usize;
        row &= row.wrapping_sub(1);
        (lowest < 16).then_some(lowest)
    })
}

/// The positions that are met first after each number of steps from i, up to j, which is reached; and how many steps that takes.
fn met_by_steps(allowed: &Rows, i: usize, j: usize) -> ([u16; 17], usize) {
    let mut met = [0; 17];
    let mut unmet = !(1u16 << i) | 1 << j;
    let (mut here, mut last) = (1u16 << i, 0);
    while last == 0 || here >> j & 1 == 0 {
        here = positions(here).fold(0, |all, k| all | allowed[k]) & unmet;
        unmet &= !here;
        last += 1;
        met[last] = here;
    }
    (met, last)
}

/// Leaves of what is met by each number of steps only what leads to what is left of the next, the last being j.
fn leave_leading(allowed: &Rows, met: &mut [u16; 17], last: usize, j: usize) {
    met[last] = 1 << j;
    for at in (1..last).rev() {
        let next = met[at + 1];
        let leading = positions(met[at]).filter(|&k| allowed[k] & next != 0);
        met[at] = leading.fold(0, |all, k| all | 1 << k);
    }
}

/// The fewest steps from i to j, which is reached; of equally few those with the lowest position at the first difference.
fn chain(allowed: &Rows, i: usize, j: usize) -> Chain {
    let (mut met, last) = met_by_steps(allowed, i, j);
    leave_leading(allowed, &mut met, last, j);
    let mut places = [0; 17];
    places[0] = i as u8;
    for at in 1..=last {
        let from = places[at - 1] as usize;
        places[at] = (allowed[from & 15] & met[at]).trailing_zeros() as u8;
    }
    Chain { length: last + 1, places }
}

/// A bit for each child that has something forbidden below it.
fn spoilt_in(kids: &[u16], spoilt: &[bool; 256]) -> u16 {
    let bit = |(i, &child): (usize, &u16)| (spoilt[child as usize & 255] as u16) << (i & 15);
    kids.iter().enumerate().map(bit).fold(0, |all, one| all | one)
}

fn choice_breach<const IS_TWO: bool>(
    marks: &[u8],
    spoilt: &[bool; 256],
    element: usize,
    kids: &[u16],
    first: usize,
) -> Option<Breach> {
    let n = kids.len();
    let (allowed, forbidden) = read_choice::<IS_TWO>(marks, first, n);
    let reached = reach(&allowed, n);
    if let Some((i, j)) = first_chain(&reached, &forbidden) {
        let own = Some(replacement::<IS_TWO>(first, n, i, j));
        return Some(Breach { condition: 2, element, i, j, own, chain: chain(&allowed, i, j) });
    }
    let i = first_cycle(&reached, spoilt_in(kids, spoilt))?;
    Some(Breach { condition: 3, element, i, j: i, own: None, chain: chain(&allowed, i, i) })
}

fn both_allowed(marks: &[u8], first: usize) -> bool {
    marks[first..first + 2] == [ALLOWED, ALLOWED]
}

/// Whether the exchange, which format 2 has, has a mark.
fn exchange_is<const IS_TWO: bool>(marks: &[u8], first: usize, mark: u8) -> bool {
    IS_TWO && marks[first + 2] == mark
}

fn star_breach<const IS_TWO: bool>(
    marks: &[u8],
    spoilt: &[bool; 256],
    element: usize,
    kids: &[u16],
    first: usize,
) -> Option<Breach> {
    let at = |own| Some(Breach { condition: 1, element, i: 0, j: 0, own, chain: NO_CHAIN });
    if exchange_is::<IS_TWO>(marks, first, FORBIDDEN) && both_allowed(marks, first) {
        return at(Some(first + 2));
    }
    if !spoilt[kids[0] as usize & 255] {
        return None;
    }
    if both_allowed(marks, first) || exchange_is::<IS_TWO>(marks, first, ALLOWED) {
        return at(None);
    }
    None
}

/// What is forbidden at a breach.
fn tally_at(table: &Table, marks: &[u8], spoilt: &[bool; 256], at: &Breach) -> Tally {
    match at.own {
        Some(lowest) => Tally { lowest, count: 1 },
        None => tally_below(table, marks, spoilt, table.children(&table.records[at.element])[at.i]),
    }
}

/// The first breach, and what is forbidden there.
fn first_breach(table: &Table, marks: &[u8]) -> Option<(Breach, Tally)> {
    if table.is_two {
        first_breach_in::<TWO>(table, marks)
    } else {
        first_breach_in::<ONE>(table, marks)
    }
}

fn first_breach_in<const IS_TWO: bool>(table: &Table, marks: &[u8]) -> Option<(Breach, Tally)> {
    let mut spoilt = [false; 256];
    fill_spoilt(table, marks, &mut spoilt);
    let breach = first_breach_by::<IS_TWO>(table, marks, &spoilt)?;
    let tally = tally_at(table, marks, &spoilt, &breach);
    Some((breach, tally))
}

/// The first breach by what is said to be spoilt.
fn first_breach_by<const IS_TWO: bool>(
    table: &Table,
    marks: &[u8],
    spoilt: &[bool; 256],
) -> Option<Breach> {
    let mut first = 0;
    for (x, record) in table.records.iter().enumerate() {
        let breach = match record[0] {
            CHOICE => choice_breach::<IS_TWO>(marks, spoilt, x, table.children(record), first),
            STAR => star_breach::<IS_TWO>(marks, spoilt, x, table.children(record), first),
            _ => None,
        };
        if let Some(breach) = breach {
            return Some(breach);
        }
        first += table.privileges_of(record);
    }
    None
}

// ---------------------------------------------------------------- completing

fn decided(allowed: bool) -> u8 {
    if allowed {
        ALLOWED
    } else {
        FORBIDDEN
    }
}

/// Eight marks, decided by the lowest eight bits: 1 where a bit is 1, else 2.
fn eight_decided(bits: u16) -> [u8; 8] {
    let apart = (bits as u64 & 255).wrapping_mul(0x0101_0101_0101_0101) & 0x8040_2010_0804_0201;
    let ones = (apart + 0x7f7f_7f7f_7f7f_7f7f) >> 7 & 0x0101_0101_0101_0101;
    (0x0202_0202_0202_0202 - ones).to_le_bytes()
}

/// Writes the decided marks of a choice: of a row of eight or more the first eight and the last eight.
fn write_choice<const IS_TWO: bool>(reached: &Rows, n: usize, first: usize, out: &mut [u8]) {
    let own = row_length::<IS_TWO>(n);
    for i in 0..n.min(16) {
        let before = (1u16 << i) - 1;
        let without = (reached[i] & before) | (reached[i] >> 1 & !before);
        let bits = if IS_TWO { reached[i] } else { without };
        let row = &mut out[first + i * own..][..own];
        match row.first_chunk_mut::<8>() {
            Some(eight) => {
                *eight = eight_decided(bits);
                row[own - 8..].copy_from_slice(&eight_decided(bits >> (own - 8)));
            }
            None => row.copy_from_slice(&eight_decided(bits)[..own]),
        }
    }
}

fn complete_choice<const IS_TWO: bool>(
    marks: &[u8],
    kids: &[u16],
    first: usize,
    opened: &mut [bool; 256],
    out: &mut [u8],
) {
    let n = kids.len();
    let (allowed, _) = read_choice::<IS_TWO>(marks, first, n);
    let reached = reach(&allowed, n);
    for (i, &child) in kids.iter().enumerate() {
        opened[child as usize & 255] |= reached[i & 15] >> i & 1 == 1;
    }
    write_choice::<IS_TWO>(&reached, n, first, out);
}

/// Tells whether what is below the child is opened.
fn complete_star<const IS_TWO: bool>(marks: &[u8], first: usize, out: &mut [u8]) -> bool {
    let [insert, delete] = [first, first + 1].map(|p| marks[p] == ALLOWED);
    let opened = insert & delete | exchange_is::<IS_TWO>(marks, first, ALLOWED);
    out[first] = decided(insert);
    out[first + 1] = decided(delete);
    if IS_TWO {
        out[first + 2] = decided(opened);
    }
    opened
}

/// Fills in for each type its first privilege.
fn fill_firsts(table: &Table, firsts: &mut [u16; 256]) {
    let mut total = 0;
    for (record, first) in table.records.iter().zip(firsts) {
        *first = total;
        total += table.privileges_of(record) as u16;
    }
}

fn complete_all(table: &Table, marks: &[u8], out: &mut [u8]) {
    let mut firsts = [0; 256];
    fill_firsts(table, &mut firsts);
    if table.is_two {
        complete_all_in::<TWO>(table, &firsts, marks, out)
    } else {
        complete_all_in::<ONE>(table, &firsts, marks, out)
    }
}

/// Parents come before their children: each type is known to be opened or not when its turn comes, and the texts when all others had theirs.
fn complete_all_in<const IS_TWO: bool>(
    table: &Table,
    firsts: &[u16; 256],
    marks: &[u8],
    out: &mut [u8],
) {
    let mut opened = [false; 256];
    for &x in table.order {
        let record = &table.records[x as usize];
        let kids = table.children(record);
        let first = firsts[x as usize] as usize;
        let own = first..first + table.privileges_of(record);
        match record[0] {
            _ if opened[x as usize] => {
                kids.iter().for_each(|&child| opened[child as usize & 255] = true);
                out[own].fill(ALLOWED);
            }
            CHOICE => complete_choice::<IS_TWO>(marks, kids, first, &mut opened, out),
            STAR => opened[kids[0] as usize & 255] |= complete_star::<IS_TWO>(marks, first, out),
            _ => (),
        }
    }
    for (x, record) in table.records.iter().enumerate() {
        if record[0] == TEXT {
            let first = firsts[x & 255] as usize;
            out[first] = decided(opened[x & 255] | (marks[first] == ALLOWED));
        }
    }
}

// ---------------------------------------------------------------- mending

/// The lowest allowed k that leads from i to j.
fn lowest_lead(allowed: &Rows, reached: &Rows, i: usize, j: usize) -> usize {
    let mut left = allowed[i];
    loop {
        let k = left.trailing_zeros() as usize & 15;
        if k == j || reached[k] >> j & 1 == 1 || left == 0 {
            return k;
        }
        left &= left - 1;
    }
}

fn mend_choice<const IS_TWO: bool>(
    m: &mut [u8],
    spoilt: &[bool; 256],
    kids: &[u16],
    first: usize,
) -> usize {
    let n = kids.len();
    let (mut allowed, mut forbidden) = read_choice::<IS_TWO>(m, first, n);
    let spoilt = spoilt_in(kids, spoilt);
    let mut count = 0;
    loop {
        let reached = reach(&allowed, n);
        let chain = first_chain(&reached, &forbidden);
        let Some((i, j)) = chain.or_else(|| first_cycle(&reached, spoilt).map(|i| (i, i))) else {
            return count;
        };
        let k = lowest_lead(&allowed, &reached, i, j);
        allowed[i] &= !(1 << k);
        forbidden[i] |= 1 << k;
        m[replacement::<IS_TWO>(first, n, i, k)] = FORBIDDEN;
        count += 1;
    }
}

/// First the delete, for insert and delete; then the exchange.
fn mend_star<const IS_TWO: bool>(
    m: &mut [u8],
    spoilt: &[bool; 256],
    kids: &[u16],
    first: usize,
) -> usize {
    let spoilt = spoilt[kids[0] as usize & 255];
    let mut count = 0;
    if (spoilt || exchange_is::<IS_TWO>(m, first, FORBIDDEN)) && both_allowed(m, first) {
        m[first + 1] = FORBIDDEN;
        count += 1;
    }
    if spoilt && exchange_is::<IS_TWO>(m, first, ALLOWED) {
        m[first + 2] = FORBIDDEN;
        count += 1;
    }
    count
}

fn mend_all(table: &Table, m: &mut [u8]) -> usize {
    if table.is_two {
        mend_all_in::<TWO>(table, m)
    } else {
        mend_all_in::<ONE>(table, m)
    }
}

fn mend_all_in<const IS_TWO: bool>(table: &Table, m: &mut [u8]) -> usize {
    let mut spoilt = [false; 256];
    fill_spoilt(table, m, &mut spoilt);
    let (mut first, mut count) = (0, 0);
    for record in table.records {
        let kids = table.children(record);
        match record[0] {
            CHOICE => count += mend_choice::<IS_TWO>(m, &spoilt, kids, first),
            STAR => count += mend_star::<IS_TWO>(m, &spoilt, kids, first),
            _ => (),
        }
        first += table.privileges_of(record);
    }
    count
}

// ---------------------------------------------------------------- proposals

fn is_other_change(old: u8, new: u8) -> bool {
    (old != new) & !((old == ALLOWED) & (new == FORBIDDEN))
}

/// The lowest change other than 1 to 2.
fn lowest_change(marks: &[u8], proposed: &[u8]) -> Option<usize> {
    let both = || marks.iter().zip(proposed);
    let any = both().fold(0u8, |any, (&old, &new)| any | is_other_change(old, new) as u8);
    if any == 0 {
        return None;
    }
    both().position(|(&old, &new)| is_other_change(old, new))
}

fn count_changes(marks: &[u8], proposed: &[u8]) -> usize {
    let changed = |(old, new): (&[u8], &[u8])| {
        old.iter().zip(new).map(|(a, b)| (a != b) as u8).sum::<u8>() as usize
    };
    marks.chunks(128).zip(proposed.chunks(128)).map(changed).sum()
}

// ---------------------------------------------------------------- the five calls

fn refused((number, place): Refusal) -> Outcome {
    Outcome::refusal(number, place)
}

fn with_breach(number: usize, breach: Option<(Breach, Tally)>) -> Outcome {
    let Some((Breach { condition, element, i, j, chain, .. }, tally)) = breach else {
        return Outcome::default();
    };
    let Tally { lowest: privilege, count: forbidden } = tally;
    let told = Outcome { chain_length: chain.length, chain: chain.places, ..Outcome::default() };
    Outcome { number, condition, element, i, j, privilege, forbidden, ..told }
}

pub fn check_table(words: &[u16]) -> Outcome {
    let mut order = [0; 256];
    read_table(words, &mut order).map_or_else(refused, |table| Outcome::refusal(0, table.v))
}

pub fn judge_policy(words: &[u16], marks: &[u8]) -> Outcome {
    let mut order = [0; 256];
    let judge = |table| with_breach(0, first_breach(&table, marks));
    read_policy(words, marks, &mut order).map_or_else(refused, judge)
}

pub fn complete(words: &[u16], marks: &[u8], out: &mut [u8]) -> Outcome {
    let mut order = [0; 256];
    let table = match read_policy(words, marks, &mut order) {
        Ok(table) if table.v <= out.len() => table,
        Ok(_) => return Outcome::refusal(12, 0),
        Err(refusal) => return refused(refusal),
    };
    let breach = first_breach(&table, marks);
    if breach.is_none() {
        complete_all(&table, marks, &mut out[..table.v]);
    }
    with_breach(16, breach)
}

pub fn mend(words: &[u16], marks: &[u8], out: &mut [u8]) -> Outcome {
    let mut order = [0; 256];
    let table = match read_policy(words, marks, &mut order) {
        Ok(table) if table.v <= out.len() => table,
        Ok(_) => return Outcome::refusal(12, 0),
        Err(refusal) => return refused(refusal),
    };
    let m = &mut out[..table.v];
    m.copy_from_slice(marks);
    Outcome { count: mend_all(&table, m), ..Outcome::default() }
}

fn judge_proposal(words: &[u16], marks: &[u8], proposed: &[u8]) -> Result<Outcome, Refusal> {
    let mut order = [0; 256];
    let table = read_policy(words, marks, &mut order)?;
    check_marks(proposed, table.v, 13)?;
    if let Some(place) = lowest_change(marks, proposed) {
        return Err((15, place));
    }
    let breach = first_breach(&table, proposed);
    if breach.is_some() {
        return Ok(with_breach(16, breach));
    }
    Ok(Outcome { count: count_changes(marks, proposed), ..Outcome::default() })
}

pub fn judge_mend(words: &[u16], marks: &[u8], proposed: &[u8]) -> Outcome {
    judge_proposal(words, marks, proposed).unwrap_or_else(refused)
}
