// Which bytes can stand, and number 20: Earley's recogniser, which keeps for each byte all that is possible before it.

use super::faults::{Fault, Reason};
use super::productions::TEXT;
use super::steps::{grammar, Step};
use std::ops::Range;

/// A production that was begun at a byte and has come to a step: a call, a byte to take, or its end.
#[derive(Clone, Copy, PartialEq)]
pub struct Item {
    pub step: usize,
    pub from: usize,
}

fn is_done(item: &Item) -> bool {
    matches!(grammar().steps[item.step], Step::Done)
}

/// What is possible before each byte that can stand, and behind the last of them.
pub struct Standing<'a> {
    text: &'a [u8],
    start: usize,
    items: Vec<Item>,
    /// Where in the items those of each byte begin, and behind them.
    bounds: Vec<usize>,
}

impl<'a> Standing<'a> {
    /// Byte k can stand if some text of the grammar begins with the first k + 1 bytes.
    pub fn of(text: &'a [u8]) -> Standing<'a> {
        Standing::of_production(TEXT, text)
    }

    /// The same for what a production takes.
    pub fn of_production(name: &str, text: &'a [u8]) -> Standing<'a> {
        let start = grammar().production(name);
        let mut standing = Standing { text, start, items: Vec::new(), bounds: vec![0] };
        standing.add(grammar().first[start], 0);
        while standing.items.len() > standing.bounds[standing.bounds.len() - 1] {
            standing.close();
            standing.bounds.push(standing.items.len());
            standing.take(standing.bytes());
        }
        standing
    }

    /// The items of one byte.
    fn range(&self, k: usize) -> Range<usize> {
        self.bounds[k]..self.bounds.get(k + 1).copied().unwrap_or(self.items.len())
    }

    fn possible(&self, k: usize) -> &[Item] {
        &self.items[self.range(k)]
    }

    /// Forks and goes are followed at once.
    fn add(&mut self, step: usize, from: usize) {
        match grammar().steps[step] {
            Step::Go(next) => self.add(next, from),
            Step::Fork(one, other) => {
                self.add(one, from);
                self.add(other, from);
            }
            _ if self.possible(self.bounds.len() - 1).contains(&Item { step, from }) => (),
            _ => self.items.push(Item { step, from }),
        }
    }

    /// Adds what the last items lead to without a byte: productions begin here, and those that end go on
    /// where they were called. That was before this byte, since no production takes the empty run.
    fn close(&mut self) {
        let here = self.bounds.len() - 1;
        let mut next = self.bounds[here];
        while next < self.items.len() {
            let Item { step, from } = self.items[next];
            match grammar().steps[step] {
                Step::Call(production) => self.add(grammar().first[production], here),
                Step::Done => self.go_on(grammar().of[step], from),
                _ => (),
            }
            next += 1;
        }
    }

    /// A production that was begun at a byte has ended.
    fn go_on(&mut self, ended: usize, from: usize) {
        for k in self.range(from) {
            let caller = self.items[k];
            if matches!(grammar().steps[caller.step], Step::Call(production) if production == ended) {
                self.add(caller.step + 1, caller.from);
            }
        }
    }

    /// Adds what is possible behind a byte, if there is one.
    fn take(&mut self, k: usize) {
        for item in self.takers(k).collect::<Vec<Item>>() {
            self.add(item.step + 1, item.from);
        }
    }

    /// The items before byte k that take it.
    pub fn takers(&self, k: usize) -> impl Iterator<Item = Item> + '_ {
        let takes = move |item: &&Item| k < self.text.len() && grammar().takes(item.step, self.text[k]);
        self.possible(k).iter().filter(takes).copied()
    }

    /// How many bytes can stand.
    pub fn bytes(&self) -> usize {
        self.bounds.len() - 2
    }

    /// What is possible behind the last byte that can stand.
    pub fn last(&self) -> &[Item] {
        self.possible(self.bytes())
    }

    /// Whether the text is one of the grammar.
    pub fn is_whole(&self) -> bool {
        let ends = |item: &Item| item.from == 0 && is_done(item) && grammar().of[item.step] == self.start;
        self.bytes() == self.text.len() && self.last().iter().any(ends)
    }

    /// Whether a production within the text was begun and may go on, and so has to.
    fn is_within(&self) -> bool {
        let goes_on = |item: &Item| item.from < self.bytes() && !is_done(item);
        self.last().iter().any(|item| goes_on(item) && grammar().of[item.step] != self.start)
    }

    /// Number 20: the first byte that cannot stand, or the length.
    pub fn fault(&self) -> Option<Fault> {
        let place = self.bytes();
        if self.is_whole() {
            None
        } else if place < self.text.len() {
            Some(Fault { place, reason: Reason::Byte })
        } else if self.is_within() {
            Some(Fault { place, reason: Reason::EarlyEnd })
        } else {
            Some(Fault { place, reason: Reason::NoDeclaration })
        }
    }
}
