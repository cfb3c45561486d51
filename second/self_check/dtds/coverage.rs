// How often each answer to a DTD text came, by which rule, and where in the grammar.

use crate::answers::Answer;
use crate::dtd::faults::{Fault, Reason};
use crate::dtd::standing::Standing;
use crate::dtd::steps::{grammar, Step};
use crate::dtd_case::{DtdCase, NUMBERS};
use crate::making::dtds::aimed::ways;
use std::collections::BTreeMap;

/// How often each of all that should come came.
pub struct Coverage(BTreeMap<String, usize>);

const REASONS: [Reason; 12] = [
    Reason::Byte,
    Reason::EarlyEnd,
    Reason::NoDeclaration,
    Reason::Any,
    Reason::Mixed,
    Reason::LongName,
    Reason::LongText,
    Reason::Deep,
    Reason::ManyTypes,
    Reason::ManyEntries,
    Reason::DeclaredBefore,
    Reason::NeverDeclared,
];

const RESULTS: [&str; 4] =
    ["done, no word more", "done, the rest of the result kept", "short by a word", "no result"];

/// The steps that take a byte, each with its production and its place among those of the production.
fn takes() -> Vec<(usize, &'static str, usize)> {
    let mut found: Vec<(usize, &str, usize)> = Vec::new();
    for step in (0..grammar().steps.len()).filter(|&step| matches!(grammar().steps[step], Step::Take(_))) {
        let name = grammar().name(step);
        let before = found.iter().filter(|take| take.1 == name).count();
        found.push((step, name, before));
    }
    found
}

fn refused_at(name: &str, k: usize) -> String {
    format!("20, a byte where byte {} of {} is awaited", k, name)
}

fn ended_at(name: &str, k: usize) -> String {
    format!("20, an end where byte {} of {} is awaited", k, name)
}

fn by_reason(reason: Reason) -> String {
    format!("{} by {:?}", reason.number(), reason)
}

fn by_number(number: usize) -> String {
    format!("number {:2}", number)
}

/// What should come. Within a comment any byte can stand, and behind a declaration a text may end.
fn wanted() -> Vec<String> {
    let can_refuse = |take: &&(usize, &str, usize)| take.1 != "Comment" || !(4..9).contains(&take.2);
    let can_end = |take: &&(usize, &str, usize)| take.1 != "text" || take.2 == 0;
    let takes = takes();
    let mut wanted: Vec<String> = NUMBERS.iter().map(|&number| by_number(number)).collect();
    wanted.extend(REASONS.map(by_reason));
    wanted.extend(RESULTS.map(str::to_string));
    wanted.extend(takes.iter().filter(can_refuse).map(|&(_, name, k)| refused_at(name, k)));
    wanted.extend(takes.iter().filter(can_end).map(|&(_, name, k)| ended_at(name, k)));
    wanted.extend(ways().iter().map(|way| format!("made: {}", way.name())));
    wanted
}

impl Coverage {
    pub fn new() -> Coverage {
        Coverage(wanted().into_iter().map(|what| (what, 0)).collect())
    }

    fn add(&mut self, what: String) {
        *self.0.entry(what).or_default() += 1;
    }

    pub fn add_way(&mut self, way: usize) {
        self.add(format!("made: {}", ways()[way].name()));
    }

    pub fn add_answer(&mut self, case: &DtdCase, answer: &Answer, words: usize) {
        self.add(by_number(answer.number));
        match answer.number {
            0 => self.add(RESULTS[(case.out.len() > words) as usize].to_string()),
            12 if case.out.is_empty() => self.add(RESULTS[3].to_string()),
            12 if case.out.len() + 1 == words => self.add(RESULTS[2].to_string()),
            _ => (),
        }
    }

    /// The fault, and for number 20 each step that awaited another byte there.
    pub fn add_fault(&mut self, text: &[u8], fault: Fault) {
        self.add(by_reason(fault.reason));
        if fault.reason.number() != 20 {
            return;
        }
        let standing = Standing::of(text);
        let awaited = |step: usize| standing.last().iter().any(|item| item.step == step);
        for (_, name, k) in takes().into_iter().filter(|take| awaited(take.0)) {
            self.add(if fault.place < text.len() { refused_at(name, k) } else { ended_at(name, k) });
        }
    }

    /// What came least, and how often.
    pub fn rarest(&self) -> (&str, usize) {
        let (what, count) = self.0.iter().min_by_key(|(_, &count)| count).expect("something should come");
        (what, *count)
    }

    /// How many things came that should not.
    pub fn strange(&self) -> usize {
        self.0.len() - Coverage::new().0.len()
    }

    pub fn text(&self) -> String {
        self.0.iter().map(|(what, count)| format!("{:>6}  {}\n", count, what)).collect()
    }
}
