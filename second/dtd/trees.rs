// The declarations of a text of the grammar, as trees.

/// A name where it stands in the text.
#[derive(Clone)]
pub struct Name {
    pub start: usize,
    pub bytes: Vec<u8>,
}

/// A particle, where a group of one, its mark apart, is that one.
pub enum Particle {
    Name(Name),
    Choice(Vec<Particle>),
    Sequence(Vec<Particle>),
    Optional(Box<Particle>),
    Star(Box<Particle>),
    Plus(Box<Particle>),
}

pub enum Content {
    Empty,
    Text,
    Particle(Particle),
}

pub struct Declaration {
    pub name: Name,
    pub content: Content,
}

fn is_blank(byte: u8) -> bool {
    b" \t\r\n".contains(&byte)
}

/// Names and keywords are runs of these; `<!ELEMENT` is one too.
fn is_of_word(byte: u8) -> bool {
    byte.is_ascii_alphanumeric() || b":_-.#<!".contains(&byte)
}

/// How long a comment is, with its ends.
fn comment(rest: &[u8]) -> usize {
    let end = (4..rest.len()).find(|&k| rest[k..].starts_with(b"-->"));
    end.expect("a comment of a text of the grammar ends") + 3
}

/// The words and the single signs of a text of the grammar, without blanks and comments.
fn tokens(text: &[u8]) -> Vec<Name> {
    let mut found = Vec::new();
    let mut start = 0;
    while start < text.len() {
        let rest = &text[start..];
        let word = rest.iter().take_while(|&&byte| is_of_word(byte)).count();
        let length = if rest.starts_with(b"<!--") { comment(rest) } else { word.max(1) };
        if !rest.starts_with(b"<!--") && !is_blank(rest[0]) {
            found.push(Name { start, bytes: rest[..length].to_vec() });
        }
        start += length;
    }
    found
}

/// A group that was opened: its particles so far, and whether they are a choice.
#[derive(Default)]
struct Group {
    particles: Vec<Particle>,
    is_choice: bool,
}

impl Group {
    fn close(mut self) -> Particle {
        match self.particles.len() {
            1 => self.particles.remove(0),
            _ if self.is_choice => Particle::Choice(self.particles),
            _ => Particle::Sequence(self.particles),
        }
    }

    fn mark(&mut self, with: fn(Box<Particle>) -> Particle) {
        let last = self.particles.pop().expect("a mark stands behind a particle");
        self.particles.push(with(Box::new(last)));
    }
}

/// The particle of a content, by the groups that are open; all stands in one that nothing opens.
fn particle(tokens: &[Name]) -> Particle {
    let mut open = vec![Group::default()];
    for token in tokens {
        let innermost = open.last_mut().expect("as many are closed as were opened");
        match token.bytes[..] {
            [b'('] => open.push(Group::default()),
            [b')'] => {
                let closed = open.pop().expect("as many are closed as were opened").close();
                open.last_mut().expect("as many are closed as were opened").particles.push(closed);
            }
            [b'|'] => innermost.is_choice = true,
            [b','] => (),
            [b'?'] => innermost.mark(Particle::Optional),
            [b'*'] => innermost.mark(Particle::Star),
            [b'+'] => innermost.mark(Particle::Plus),
            _ => innermost.particles.push(Particle::Name(token.clone())),
        }
    }
    open.remove(0).close()
}

fn content(tokens: &[Name]) -> Content {
    if tokens[0].bytes == b"EMPTY" {
        Content::Empty
    } else if tokens[1].bytes == b"#PCDATA" {
        Content::Text
    } else {
        Content::Particle(particle(tokens))
    }
}

/// The declarations of a text of the grammar that has neither ANY nor names in mixed content.
pub fn declarations(text: &[u8]) -> Vec<Declaration> {
    let tokens = tokens(text);
    let of = |tokens: &[Name]| Declaration { name: tokens[1].clone(), content: content(&tokens[2..]) };
    // Each ends with a `>`, behind which stands nothing.
    tokens.split(|token| token.bytes == b">").filter(|tokens| !tokens.is_empty()).map(of).collect()
}
