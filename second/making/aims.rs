// The situations that cases are made for: the one that came least often so far comes next.

use crate::situations::Situations;

pub struct Aims<C: 'static> {
    situations: Situations<C>,
    /// How often each came so far.
    came: Vec<(&'static str, usize)>,
}

impl<C> Aims<C> {
    pub fn new(situations: Situations<C>) -> Aims<C> {
        let came = (situations.names)().into_iter().map(|name| (name, 0)).collect();
        Aims { situations, came }
    }

    /// The first of those that came least often.
    pub fn least(&self) -> &'static str {
        self.came.iter().min_by_key(|aim| aim.1).expect("there are situations").0
    }

    pub fn add(&mut self, case: &C) {
        let found = (self.situations.found)(case);
        self.came.iter_mut().filter(|aim| found.contains(&aim.0)).for_each(|aim| aim.1 += 1);
    }
}
