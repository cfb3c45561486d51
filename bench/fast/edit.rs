// One mark edited, with what is forbidden below each type kept. Where nothing is forbidden and nothing is kept, nothing is written. The root's entry
// is the count over all marks. The other types that the privilege is below are passed from children to parents: what is below one is walked, and
// what is forbidden there counted, on from what is below the one before where that is its child, else anew. Where much is walked anew, sets take
// over: what is below a type is then 256 bits, joined from its children's, and what is forbidden there is what is forbidden below the child with the
// most, and of the types that this child has not below it. The verdict is asked of the kept counts.

use super::{
    count_forbidden, fill_firsts, first_breach_by, read_policy, refused, with_breach, Breach,
    Refusal, Table, Tally, FORBIDDEN, ONE, TWO,
};
use crate::calls::Outcome;

/// How many words are kept for each type: the lowest privilege that is forbidden below it, and how many are.
const KEPT: usize = 2;

/// How many types are walked to no further use before sets take over.
const MOST_WALKED: usize = 64;

/// How many marks are too few to be counted many at a time.
const FEW: usize = 16;

// ---------------------------------------------------------------- what is forbidden

/// What is kept for a type; with a count of 0 the lowest is over all privileges.
#[derive(Clone, Copy)]
struct Entry {
    lowest: u16,
    count: u16,
}

impl Entry {
    const NONE: Entry = Entry { lowest: u16::MAX, count: 0 };

    /// What is forbidden among some privileges, of which the first has a number.
    fn of(own: &[u8], first: usize) -> Entry {
        match count_forbidden(own) {
            0 => Entry::NONE,
            count => Entry { lowest: (first + lowest_forbidden(own)) as u16, count: count as u16 },
        }
    }

    /// The same, one by one from the last.
    fn of_few(own: &[u8], first: usize) -> Entry {
        let mut entry = Entry::NONE;
        for (k, &mark) in own.iter().enumerate().rev() {
            if mark == FORBIDDEN {
                entry = Entry { lowest: (first + k) as u16, count: entry.count + 1 };
            }
        }
        entry
    }

    /// With what is forbidden elsewhere.
    fn and(self, other: Entry) -> Entry {
        Entry { lowest: self.lowest.min(other.lowest), count: self.count + other.count }
    }

    fn put(self, kept: &mut [u16], t: usize) {
        let lowest = if self.count == 0 { 0 } else { self.lowest };
        kept[KEPT * t..][..KEPT].copy_from_slice(&[lowest, self.count]);
    }
}

/// The second bit of 16 marks.
const SECOND_BITS: u128 = u128::from_le_bytes([FORBIDDEN; 16]);

/// The lowest of some marks that is forbidden, where one is.
fn lowest_forbidden(marks: &[u8]) -> usize {
    let (sixteens, _) = marks.as_chunks::<16>();
    let any = |some: &[u8; 16]| u128::from_le_bytes(*some) & SECOND_BITS != 0;
    let passed = 16 * sixteens.iter().position(any).unwrap_or(sixteens.len());
    passed + marks[passed..].iter().position(|&mark| mark == FORBIDDEN).unwrap_or(0)
}

/// A policy with its types' first privileges.
struct Policy<'a> {
    table: &'a Table<'a>,
    marks: &'a [u8],
    firsts: &'a [u16; 256],
}

impl<'a> Policy<'a> {
    /// The type of a privilege.
    fn owner(&self, privilege: usize) -> usize {
        let firsts = &self.firsts[..self.table.records.len()];
        firsts.partition_point(|&first| first as usize <= privilege) - 1
    }

    /// What is forbidden of a type's own.
    #[inline(always)]
    fn own(&self, t: usize) -> Entry {
        let first = self.firsts[t & 255] as usize;
        let own = &self.marks[first..][..self.table.privileges_of(&self.table.records[t])];
        if own.len() < FEW {
            Entry::of_few(own, first)
        } else {
            Entry::of(own, first)
        }
    }

    fn kids(&self, t: usize) -> &'a [u16] {
        self.table.children(&self.table.records[t])
    }
}

// ---------------------------------------------------------------- by a walk

/// The types below one, and what is forbidden there.
struct Walk {
    is_listed: [bool; 256],
    list: [u8; 256],
    count: usize,
    entry: Entry,
}

impl Walk {
    const EMPTY: Walk = Walk { is_listed: [false; 256], list: [0; 256], count: 0, entry: Entry::NONE };

    fn has(&self, t: u16) -> bool {
        self.is_listed[t as usize & 255]
    }

    fn add(&mut self, t: u16) {
        if !self.has(t) {
            self.is_listed[t as usize & 255] = true;
            self.list[self.count & 255] = t as u8;
            self.count += 1;
        }
    }

    fn clear(&mut self) {
        self.is_listed = [false; 256];
        (self.count, self.entry) = (0, Entry::NONE);
    }

    /// Goes on to all types below one.
    fn grow(&mut self, policy: &Policy, t: u16) {
        let mut head = self.count;
        self.add(t);
        while head < self.count {
            let y = self.list[head & 255] as usize;
            self.entry = self.entry.and(policy.own(y));
            policy.kids(y).iter().for_each(|&child| self.add(child));
            head += 1;
        }
    }

    /// The same where all types below it but itself are known.
    fn top(&mut self, policy: &Policy, t: u16) {
        self.add(t);
        self.entry = self.entry.and(policy.own(t as usize));
    }
}

/// The part of the order in which types above one can be, the root left out.
fn part_above<'a>(table: &Table<'a>, x: usize) -> &'a [u8] {
    let place = || table.order.iter().position(|&t| t as usize == x);
    let own = if table.records[x][1] == 0 { None } else { place() };
    table.order.get(1..own.unwrap_or(table.order.len())).unwrap_or(&[])
}

/// Writes the entries of a type and of those above it, the root left out.
fn write_by_walk(policy: &Policy, x: usize, kept: &mut [u16]) {
    let mut walk = Walk::EMPTY;
    walk.grow(policy, x as u16);
    walk.entry.put(kept, x);
    let mut above = [false; 256];
    above[x & 255] = true;
    let part = part_above(policy.table, x);
    let (mut last, mut walked) = (x as u16, 0);
    for (place, &t) in part.iter().enumerate().rev() {
        let kids = policy.kids(t as usize);
        if !kids.iter().fold(false, |any, &child| any | above[child as usize & 255]) {
            continue;
        }
        above[t as usize] = true;
        let (mut is_on, mut is_known) = (false, true);
        for &child in kids {
            is_on |= child == last;
            is_known &= walk.has(child);
        }
        if !is_on {
            walked += walk.count;
            if walked > MOST_WALKED {
                return write_by_sets(policy, &part[..=place], &mut above, kept);
            }
            walk.clear();
        }
        last = t as u16;
        if is_on & is_known {
            walk.top(policy, last);
        } else {
            walk.grow(policy, last);
        }
        walk.entry.put(kept, t as usize);
    }
}

// ---------------------------------------------------------------- by sets

/// A set of types: a bit for each.
#[derive(Clone, Copy)]
struct Set([u64; 4]);

impl Set {
    const NONE: Set = Set([0; 4]);

    fn add(&mut self, t: usize) {
        self.0[t / 64 & 3] |= 1 << (t & 63);
    }

    fn join(&mut self, other: &Set) {
        self.0.iter_mut().zip(other.0).for_each(|(word, more)| *word |= more);
    }

    /// The types of the set that are in one and not in another.
    fn each(&self, within: &Set, without: &Set, mut take: impl FnMut(usize)) {
        for k in 0..4 {
            let mut left = self.0[k] & within.0[k] & !without.0[k];
            while left != 0 {
                take(64 * k + left.trailing_zeros() as usize);
                left &= left - 1;
            }
        }
    }
}

/// For each needed type those below it, what is forbidden of its own, and what is forbidden below it; and the types with something of their own.
struct Sets {
    sets: [Set; 256],
    own: [Entry; 256],
    below: [Entry; 256],
    spoilt: Set,
}

impl Sets {
    const FRESH: Sets = Sets {
        sets: [Set::NONE; 256],
        own: [Entry { lowest: 0, count: 0 }; 256],
        below: [Entry { lowest: 0, count: 0 }; 256],
        spoilt: Set::NONE,
    };

    /// A type by itself.
    fn put(&mut self, t: usize, own: Entry) {
        self.sets[t & 255].add(t);
        (self.own[t & 255], self.below[t & 255]) = (own, own);
        if own.count != 0 {
            self.spoilt.add(t);
        }
    }

    /// A type whose children are known.
    fn grow(&mut self, t: usize, kids: &[u16]) {
        let (mut set, mut most) = (self.sets[t & 255], kids[0] as usize);
        for &child in kids {
            let y = child as usize;
            set.join(&self.sets[y & 255]);
            if self.below[y & 255].count > self.below[most & 255].count {
                most = y;
            }
        }
        let mut entry = self.below[most & 255];
        set.each(&self.spoilt, &self.sets[most & 255], |y| entry = entry.and(self.own[y & 255]));
        (self.sets[t & 255], self.below[t & 255]) = (set, entry);
    }
}

/// Writes the entries of the types above in a part of the order, those behind it being flagged.
#[cold]
fn write_by_sets(policy: &Policy, part: &[u8], above: &mut [bool; 256], kept: &mut [u16]) {
    for &t in part.iter().rev() {
        let join = |any: bool, &child: &u16| any | above[child as usize & 255];
        above[t as usize] = policy.kids(t as usize).iter().fold(false, join);
    }
    let mut needed = [false; 256];
    part.iter().for_each(|&t| needed[t as usize] = above[t as usize]);
    let order = &policy.table.order[1..];
    for &t in order {
        if needed[t as usize] {
            let kids = policy.kids(t as usize);
            kids.iter().for_each(|&child| needed[child as usize & 255] = true);
        }
    }
    let mut sets = Sets::FRESH;
    let types = 0..policy.table.records.len();
    types.filter(|&t| needed[t & 255]).for_each(|t| sets.put(t, policy.own(t)));
    for &t in order.iter().rev() {
        if needed[t as usize] {
            sets.grow(t as usize, policy.kids(t as usize));
        }
    }
    for &t in part {
        if above[t as usize] {
            sets.below[t as usize].put(kept, t as usize);
        }
    }
}

// ---------------------------------------------------------------- the call

fn renew_entries(table: &Table, marks: &[u8], privilege: usize, kept: &mut [u16]) {
    let all = Entry::of(marks, 0);
    if all.count == 0 && kept.iter().fold(0, |any, word| any | word) == 0 {
        return;
    }
    let mut firsts = [0; 256];
    fill_firsts(table, &mut firsts);
    let policy = Policy { table, marks, firsts: &firsts };
    let (root, x) = (table.order[0] as usize, policy.owner(privilege));
    if x != root {
        write_by_walk(&policy, x, kept);
    }
    all.put(kept, root);
}

/// What is forbidden at a breach, by what is kept.
fn kept_at(table: &Table, kept: &[u16], at: &Breach) -> Tally {
    match at.own {
        Some(lowest) => Tally { lowest, count: 1 },
        None => {
            let child = table.children(&table.records[at.element])[at.i] as usize;
            let [lowest, count] = [0, 1].map(|k| kept[KEPT * child + k] as usize);
            Tally { lowest, count }
        }
    }
}

fn kept_breach(table: &Table, marks: &[u8], kept: &[u16]) -> Option<(Breach, Tally)> {
    let mut spoilt = [false; 256];
    let (entries, _) = kept.as_chunks::<KEPT>();
    spoilt.iter_mut().zip(entries).for_each(|(is_spoilt, &[_, count])| *is_spoilt = count != 0);
    let first = if table.is_two { first_breach_by::<TWO> } else { first_breach_by::<ONE> };
    let breach = first(table, marks, &spoilt)?;
    let tally = kept_at(table, kept, &breach);
    Some((breach, tally))
}

fn edit(
    words: &[u16],
    marks: &mut [u8],
    kept: &mut [u16],
    privilege: usize,
    mark: u8,
) -> Result<Outcome, Refusal> {
    let mut order = [0; 256];
    let table = read_policy(words, marks, &mut order)?;
    if privilege >= table.v {
        return Err((10, 0));
    }
    if mark > FORBIDDEN {
        return Err((11, privilege));
    }
    let kept = kept.get_mut(..KEPT * table.records.len()).ok_or((12, 0))?;
    marks[privilege] = mark;
    renew_entries(&table, marks, privilege, kept);
    Ok(with_breach(0, kept_breach(&table, marks, kept)))
}

pub fn edit_mark(
    words: &[u16],
    marks: &mut [u8],
    kept: &mut [u16],
    privilege: usize,
    mark: u8,
) -> Outcome {
    edit(words, marks, kept, privilege, mark).unwrap_or_else(refused)
}
