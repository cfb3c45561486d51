// The formats of a table: which privileges a star and a choice have, and how they are numbered.

#[derive(Clone, Copy, Debug, PartialEq)]
pub enum Format {
    One,
    /// With same-kind replacement: a star has an exchange, and a choice replacements of i by i.
    Two,
}

impl Format {
    /// Word 0.
    pub fn word(self) -> u16 {
        match self {
            Format::One => 1,
            Format::Two => 2,
        }
    }

    pub fn of(word: u16) -> Option<Format> {
        [Format::One, Format::Two].into_iter().find(|format| format.word() == word)
    }

    /// Insert and delete, and in format 2 the exchange.
    pub fn privileges_of_star(self) -> usize {
        match self {
            Format::One => 2,
            Format::Two => 3,
        }
    }

    pub fn privileges_of_choice(self, n: usize) -> usize {
        match self {
            Format::One => n * n - n,
            Format::Two => n * n,
        }
    }

    /// Whether there is a privilege to replace the child at i by the kind at j.
    pub fn is_replaceable(self, i: usize, j: usize) -> bool {
        i != j || self == Format::Two
    }

    /// Which of the privileges of a choice of n this one is.
    pub fn replacement(self, n: usize, i: usize, j: usize) -> usize {
        let less = if j > i { 1 } else { 0 };
        match self {
            Format::One => i * (n - 1) + j - less,
            Format::Two => i * n + j,
        }
    }
}
