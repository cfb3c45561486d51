// The types of a text: a rule for each declaration, then those that its particles make.

use super::trees::{Content, Declaration, Name, Particle};
use crate::table::{Type, CHOICE, EMPTY, SEQUENCE, STAR, TEXT};

/// A child of a type: what a name stands for, or a made type by its number.
#[derive(Clone)]
enum Child<'a> {
    Named(&'a Name),
    Made(usize),
}

/// A type whose children are not all numbers yet.
struct Rule<'a> {
    kind: u16,
    children: Vec<Child<'a>>,
}

/// The rules of a text in the order of their numbers.
pub struct Rules<'a>(Vec<Rule<'a>>);

impl<'a> Rules<'a> {
    pub fn of(declarations: &'a [Declaration]) -> Rules<'a> {
        let mut rules = Rules(Vec::new());
        for _ in declarations {
            rules.next(EMPTY);
        }
        for (number, declaration) in declarations.iter().enumerate() {
            match &declaration.content {
                Content::Empty => rules.set(number, EMPTY, Vec::new()),
                Content::Text => rules.set(number, TEXT, Vec::new()),
                Content::Particle(particle) => rules.fill(number, particle),
            }
        }
        rules
    }

    /// The next number, with no children yet.
    fn next(&mut self, kind: u16) -> usize {
        self.0.push(Rule { kind, children: Vec::new() });
        self.0.len() - 1
    }

    fn set(&mut self, number: usize, kind: u16, children: Vec<Child<'a>>) {
        self.0[number] = Rule { kind, children };
    }

    /// Gives a type the rule of a particle's outermost operator. What the operator makes gets its
    /// numbers in this order: a mark's empty or star, then what the operands make.
    fn fill(&mut self, number: usize, particle: &'a Particle) {
        match particle {
            Particle::Name(name) => self.set(number, SEQUENCE, vec![Child::Named(name)]),
            Particle::Choice(particles) => {
                let children = particles.iter().map(|one| self.made(one)).collect();
                self.set(number, CHOICE, children);
            }
            Particle::Sequence(particles) => {
                let children = particles.iter().map(|one| self.made(one)).collect();
                self.set(number, SEQUENCE, children);
            }
            Particle::Star(operand) => {
                let child = self.made(operand);
                self.set(number, STAR, vec![child]);
            }
            Particle::Optional(operand) => {
                let empty = self.next(EMPTY);
                let child = self.made(operand);
                self.set(number, CHOICE, vec![child, Child::Made(empty)]);
            }
            Particle::Plus(operand) => {
                let star = self.next(STAR);
                let child = self.made(operand);
                self.set(star, STAR, vec![child.clone()]);
                self.set(number, SEQUENCE, vec![child, Child::Made(star)]);
            }
        }
    }

    /// What a particle stands for within another.
    fn made(&mut self, particle: &'a Particle) -> Child<'a> {
        if let Particle::Name(name) = particle {
            return Child::Named(name);
        }
        let number = self.next(EMPTY);
        self.fill(number, particle);
        Child::Made(number)
    }

    pub fn count(&self) -> usize {
        self.0.len()
    }

    pub fn entries(&self) -> usize {
        self.0.iter().map(|rule| rule.children.len()).sum()
    }

    /// The names that are used, each as often as it is.
    pub fn used(&self) -> Vec<&'a Name> {
        let named = |child: &Child<'a>| match child {
            Child::Named(name) => Some(*name),
            Child::Made(_) => None,
        };
        self.0.iter().flat_map(|rule| rule.children.iter().filter_map(named)).collect()
    }

    /// The types, where each name that is used is declared.
    pub fn types(&self, declarations: &[Declaration]) -> Vec<Type> {
        let declared = |name: &Name| declarations.iter().position(|of| of.name.bytes == name.bytes);
        let number = |child: &Child| match child {
            Child::Named(name) => declared(name).expect("a name that is used is declared"),
            Child::Made(number) => *number,
        };
        let of = |rule: &Rule| Type { kind: rule.kind, children: rule.children.iter().map(number).collect() };
        self.0.iter().map(of).collect()
    }
}
