// What a call answers, and how it is refused.

use crate::chain::Chain;

#[derive(Clone, Copy, Debug, Default, PartialEq)]
pub struct Breach {
    pub condition: usize,
    pub of: usize,
    pub i: usize,
    pub j: usize,
    pub privilege: usize,
    /// How many privileges are forbidden there (request 8).
    pub forbidden: usize,
    /// The steps from i to j (request 6).
    pub chain: Chain,
}

#[derive(Clone, Copy, Debug, Default, PartialEq)]
pub struct Answer {
    pub number: usize,
    pub place: usize,
    pub count: usize,
    pub breach: Breach,
}

/// A call's outcome: done, or refused.
pub type Outcome = Result<Answer, Answer>;

pub fn answer(outcome: Outcome) -> Answer {
    outcome.unwrap_or_else(|refusal| refusal)
}

pub fn refuse_at(number: usize, place: Option<usize>) -> Result<(), Answer> {
    match place {
        None => Ok(()),
        Some(place) => Err(Answer { number, place, ..Answer::default() }),
    }
}

pub fn refuse_if(number: usize, failed: bool) -> Result<(), Answer> {
    refuse_at(number, if failed { Some(0) } else { None })
}

pub fn refuse_breach(breach: Option<Breach>) -> Result<(), Answer> {
    match breach {
        None => Ok(()),
        Some(breach) => Err(Answer { number: 16, breach, ..Answer::default() }),
    }
}

fn spot_text(breach: &Breach) -> String {
    let Breach { condition, of, i, j, privilege, .. } = breach;
    format!("{} {} {} {} {}", condition, of, i, j, privilege)
}

/// What the program judge prints of a breach: all but its count, and of the chain the positions.
pub fn breach_text(breach: &Breach) -> String {
    let positions = breach.chain.positions().iter();
    spot_text(breach) + &positions.map(|position| format!(" {}", position)).collect::<String>()
}

/// All numbers of an answer, the chain's length last, and then its places.
pub fn answer_text(answer: &Answer) -> String {
    let Answer { number, place, count, breach } = answer;
    let Breach { forbidden, chain, .. } = breach;
    let breach = format!("{} {} {} {}", spot_text(breach), forbidden, chain.length, hex(&chain.places));
    format!("{} {} {} {}", number, place, count, breach)
}

/// Two hexadecimal digits a byte.
pub fn hex(bytes: &[u8]) -> String {
    bytes.iter().map(|byte| format!("{:02x}", byte)).collect()
}
