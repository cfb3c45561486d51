// The three conditions: what they force, the first breach, and the call `verdict`.

use crate::answers::{refuse_at, refuse_if, Answer, Breach, Outcome};
use crate::chain::{chain, Chain};
use crate::forbidden_below::{forbidden_below, ForbiddenBelow};
use crate::table::{check_table, Table, ALLOWED, CHOICE, FORBIDDEN, STAR};

/// The positions reached from i by one or more allowed replacements, breadth first.
pub fn reached(table: &Table, marks: &[u8], choice: usize, i: usize) -> Vec<bool> {
    let n = table.types[choice].children.len();
    let mut found = vec![false; n];
    let mut queue = vec![i];
    let mut next = 0;
    while next < queue.len() {
        for j in 0..n {
            if !found[j] && table.allows(marks, choice, queue[next], j) {
                found[j] = true;
                queue.push(j);
            }
        }
        next += 1;
    }
    found
}

/// What must not be forbidden: one privilege, or all that are below a type.
enum Demanded {
    Privilege(usize),
    Below(usize),
}

/// What must not be forbidden, and where a condition says so.
struct Demand {
    condition: usize,
    of: usize,
    i: usize,
    j: usize,
    demanded: Demanded,
}

/// Insert and delete force the exchange, where there is one; these two, or the exchange, force what is below the child.
fn demands_of_star(table: &Table, marks: &[u8], of: usize) -> Vec<Demand> {
    let child = table.types[of].children[0];
    let exchange = table.exchange(of);
    let both = table.allows_both(marks, of);
    let mut all = Vec::new();
    if both {
        all.extend(exchange.map(Demanded::Privilege));
    }
    if both || exchange.map_or(false, |privilege| marks[privilege] == ALLOWED) {
        all.push(Demanded::Below(child));
    }
    all.into_iter().map(|demanded| Demand { condition: 1, of, i: 0, j: 0, demanded }).collect()
}

fn demands_of_choice(table: &Table, marks: &[u8], of: usize) -> Vec<Demand> {
    let children = &table.types[of].children;
    let n = children.len();
    let reach: Vec<Vec<bool>> = (0..n).map(|i| reached(table, marks, of, i)).collect();
    let mut demands = Vec::new();
    for i in 0..n {
        for j in (0..n).filter(|&j| table.format.is_replaceable(i, j) && reach[i][j]) {
            let demanded = Demanded::Privilege(table.replacement(of, i, j));
            demands.push(Demand { condition: 2, of, i, j, demanded });
        }
    }
    for i in (0..n).filter(|&i| reach[i][i]) {
        demands.push(Demand { condition: 3, of, i, j: i, demanded: Demanded::Below(children[i]) });
    }
    demands
}

/// What the three conditions say of one type, in the stated order of the breaches that there would be.
fn demands_at(table: &Table, marks: &[u8], of: usize) -> Vec<Demand> {
    match table.types[of].kind {
        STAR => demands_of_star(table, marks, of),
        CHOICE => demands_of_choice(table, marks, of),
        _ => Vec::new(),
    }
}

fn demands<'a>(table: &'a Table, marks: &'a [u8]) -> impl Iterator<Item = Demand> + 'a {
    (0..table.types.len()).flat_map(move |of| demands_at(table, marks, of))
}

/// A privilege that must not be forbidden, and where a condition says so.
pub struct Forced {
    pub condition: usize,
    pub of: usize,
    pub i: usize,
    pub j: usize,
    pub privilege: usize,
}

fn forced_by(table: &Table, demand: Demand) -> Vec<Forced> {
    let Demand { condition, of, i, j, demanded } = demand;
    let privileges = match demanded {
        Demanded::Privilege(privilege) => vec![privilege],
        Demanded::Below(y) => table.below[y].clone(),
    };
    privileges.into_iter().map(|privilege| Forced { condition, of, i, j, privilege }).collect()
}

pub fn forced<'a>(table: &'a Table, marks: &'a [u8]) -> impl Iterator<Item = Forced> + 'a {
    demands(table, marks).flat_map(move |demand| forced_by(table, demand))
}

/// The steps of conditions 2 and 3; condition 1 has none.
fn chain_at(table: &Table, marks: &[u8], at: &Demand) -> Chain {
    match at.condition {
        1 => Chain::default(),
        _ => chain(table, marks, at.of, at.i, at.j),
    }
}

/// The first breach, where `below` answers what is forbidden below a type.
pub fn first_breach_by(
    table: &Table,
    marks: &[u8],
    below: impl Fn(usize) -> ForbiddenBelow,
) -> Option<Breach> {
    let breach = |at: Demand| {
        let found = match at.demanded {
            Demanded::Privilege(p) => ForbiddenBelow { lowest: p, count: (marks[p] == FORBIDDEN) as usize },
            Demanded::Below(y) => below(y),
        };
        let ForbiddenBelow { lowest: privilege, count: forbidden } = found;
        let Demand { condition, of, i, j, .. } = at;
        (forbidden > 0).then(|| {
            let chain = chain_at(table, marks, &at);
            Breach { condition, of, i, j, privilege, forbidden, chain }
        })
    };
    demands(table, marks).find_map(breach)
}

pub fn first_breach(table: &Table, marks: &[u8]) -> Option<Breach> {
    first_breach_by(table, marks, |y| forbidden_below(table, marks, y))
}

/// The table's numbers, then 10 and 11.
pub fn check_policy(words: &[u16], marks: &[u8]) -> Result<Table, Answer> {
    let table = check_table(words)?;
    refuse_if(10, marks.len() != table.v())?;
    refuse_at(11, marks.iter().position(|&mark| mark > FORBIDDEN))?;
    Ok(table)
}

pub fn verdict(words: &[u16], marks: &[u8]) -> Outcome {
    let table = check_policy(words, marks)?;
    let breach = first_breach(&table, marks).unwrap_or_default();
    Ok(Answer { breach, ..Answer::default() })
}
