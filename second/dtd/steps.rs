// The productions as steps, one after another.

use super::notation::{read_productions, Bytes, Form};
use super::productions::PRODUCTIONS;
use std::sync::OnceLock;

pub enum Step {
    /// Take one byte of these.
    Take(Bytes),
    /// Take what a production takes.
    Call(usize),
    Go(usize),
    /// Go on at either.
    Fork(usize, usize),
    /// The production ends.
    Done,
}

/// All productions: their names, the first step of each, the steps, and the production of each step.
pub struct Grammar {
    names: Vec<String>,
    pub first: Vec<usize>,
    pub steps: Vec<Step>,
    pub of: Vec<usize>,
}

impl Grammar {
    fn read(text: &str) -> Grammar {
        let productions = read_productions(text);
        let names = productions.iter().map(|(name, _)| name.clone()).collect();
        let mut grammar = Grammar { names, first: Vec::new(), steps: Vec::new(), of: Vec::new() };
        for (production, (_, form)) in productions.iter().enumerate() {
            grammar.first.push(grammar.steps.len());
            grammar.put_form(form);
            grammar.put(Step::Done);
            grammar.of.resize(grammar.steps.len(), production);
        }
        grammar
    }

    pub fn production(&self, name: &str) -> usize {
        self.names.iter().position(|known| known == name).expect("a production of the grammar")
    }

    pub fn name(&self, step: usize) -> &str {
        &self.names[self.of[step]]
    }

    pub fn takes(&self, step: usize, byte: u8) -> bool {
        matches!(&self.steps[step], Step::Take(bytes) if bytes[byte as usize])
    }

    fn put(&mut self, step: Step) -> usize {
        self.steps.push(step);
        self.steps.len() - 1
    }

    /// A step that is filled in later.
    fn leave(&mut self) -> usize {
        self.put(Step::Done)
    }

    fn put_form(&mut self, form: &Form) {
        match form {
            Form::Byte(bytes) => drop(self.put(Step::Take(*bytes))),
            Form::Production(name) => {
                let production = self.production(name);
                self.put(Step::Call(production));
            }
            Form::Row(parts) => parts.iter().for_each(|part| self.put_form(part)),
            Form::Either(ways) => self.put_either(ways),
            Form::Optional(form) => {
                let fork = self.leave();
                self.put_form(form);
                self.steps[fork] = Step::Fork(fork + 1, self.steps.len());
            }
            Form::AnyNumber(form) => {
                let fork = self.leave();
                self.put_form(form);
                self.put(Step::Go(fork));
                self.steps[fork] = Step::Fork(fork + 1, self.steps.len());
            }
            Form::OneOrMore(form) => {
                let start = self.steps.len();
                self.put_form(form);
                self.put(Step::Fork(start, self.steps.len() + 1));
            }
        }
    }

    fn put_either(&mut self, ways: &[Form]) {
        let (way, others) = ways.split_first().expect("there are two ways");
        if others.is_empty() {
            return self.put_form(way);
        }
        let fork = self.leave();
        self.put_form(way);
        let go = self.leave();
        self.steps[fork] = Step::Fork(fork + 1, self.steps.len());
        self.put_either(others);
        self.steps[go] = Step::Go(self.steps.len());
    }
}

/// The grammar, read once.
pub fn grammar() -> &'static Grammar {
    static GRAMMAR: OnceLock<Grammar> = OnceLock::new();
    GRAMMAR.get_or_init(|| Grammar::read(PRODUCTIONS))
}
