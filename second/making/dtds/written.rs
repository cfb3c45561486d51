// Declarations as they are written, with every parenthesis.

#[derive(Clone)]
pub enum Base {
    /// A name by its number.
    Name(usize),
    /// Particles and the sign between them.
    Group(u8, Vec<Particle>),
}

#[derive(Clone)]
pub struct Particle {
    pub base: Base,
    pub mark: &'static str,
}

#[derive(Clone)]
pub enum Content {
    Empty,
    Any,
    /// With or without the star.
    Text(&'static str),
    Children(Particle),
}

/// Names, and what is declared of them in the order of the text.
#[derive(Clone)]
pub struct Dtd {
    pub names: Vec<Vec<u8>>,
    pub declarations: Vec<(usize, Content)>,
}

impl Particle {
    pub fn name(name: usize) -> Particle {
        Particle { base: Base::Name(name), mark: "" }
    }

    pub fn group(sign: u8, parts: Vec<Particle>) -> Particle {
        Particle { base: Base::Group(sign, parts), mark: "" }
    }

    pub fn marked(self, mark: &'static str) -> Particle {
        Particle { base: self.base, mark }
    }
}

/// A group of names.
pub fn names(sign: u8, names: impl IntoIterator<Item = usize>) -> Particle {
    Particle::group(sign, names.into_iter().map(Particle::name).collect())
}
