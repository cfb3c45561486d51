// What is measured: the sample, a table of ordinary size, the largest tables with the worst marks for each call, the last two also with their types
// renumbered; the sample, the ordinary and a largest table in format 2; the ordinary and the largest tables below a star that breaks condition 1, so that
// much is counted; the same tables by themselves with a long chain at their last choice; tables that are refused for a cycle or a type that is not
// reached; and tables that double, by themselves and below such a star.

use crate::calls::{Call, Case};
use crate::{fail, fast};

pub const EMPTY: u16 = 0;
pub const TEXT: u16 = 1;
pub const SEQUENCE: u16 = 2;
pub const CHOICE: u16 = 3;
pub const STAR: u16 = 4;

pub const UNSET: u8 = 0;
pub const ALLOWED: u8 = 1;
pub const FORBIDDEN: u8 = 2;

/// Cases that are run in turn; a time is the mean of one call on them.
pub struct Input {
    pub name: String,
    pub cases: Vec<Case>,
}

// ---------------------------------------------------------------- tables

pub struct Type {
    pub kind: u16,
    pub children: Vec<u16>,
}

/// A format is the word 0 that names it.
pub const ONE: u16 = 1;
pub const TWO: u16 = 2;

pub fn privileges_of(format: u16, it: &Type) -> usize {
    let n = it.children.len();
    match (it.kind, format) {
        (TEXT, _) => 1,
        (STAR, ONE) => 2,
        (STAR, _) => 3,
        (CHOICE, ONE) => n * n - n,
        (CHOICE, _) => n * n,
        _ => 0,
    }
}

pub fn encode(format: u16, types: &[Type], root: usize) -> Vec<u16> {
    let (e, c) = (types.len(), types.iter().map(|it| it.children.len()).sum::<usize>());
    let v: usize = types.iter().map(|it| privileges_of(format, it)).sum();
    let header = [format as usize, 8 + 3 * e + c, e, root, 8, c, 8 + 3 * e, v];
    let mut words: Vec<u16> = header.iter().map(|&word| word as u16).collect();
    let mut first = 0;
    for it in types {
        words.extend([it.kind, it.children.len() as u16, first]);
        first += it.children.len() as u16;
    }
    words.extend(types.iter().flat_map(|it| &it.children));
    words
}

pub fn decode(words: &[u16]) -> Vec<Type> {
    let (records, list) = words[8..].split_at(3 * words[2] as usize);
    let children = |record: &[u16]| list[record[2] as usize..][..record[1] as usize].to_vec();
    let read = |record: &[u16]| Type { kind: record[0], children: children(record) };
    records.chunks(3).map(read).collect()
}

/// E 40, C 39, V 200, in format 2 229: choices of 6, 10 and 8, five stars, fourteen texts.
pub fn ordinary(format: u16) -> Vec<u16> {
    let mut types = Vec::new();
    let mut add = |kind, children| types.push(Type { kind, children });
    add(SEQUENCE, (1..=8).chain(38..=39).collect());
    add(CHOICE, (9..=14).collect());
    add(CHOICE, (15..=24).collect());
    add(CHOICE, (25..=32).collect());
    (33..=37).for_each(|child| add(STAR, vec![child]));
    (9..=39).for_each(|leaf| add(if leaf < 23 { TEXT } else { EMPTY }, Vec::new()));
    encode(format, &types, 0)
}

/// Types below a star, which is their last type and the root.
fn starred(format: u16, mut types: Vec<Type>) -> Vec<u16> {
    types.push(Type { kind: STAR, children: vec![0] });
    encode(format, &types, types.len() - 1)
}

/// A table of e types and c child entries, whose last `choices` types with children are choices and the others sequences. A type with children
/// has 16. No choice is below another; each has the last 16 types as its children, which are text, or, in format 2, empty. So V is 240 for each
/// choice, and 16, or, in format 2, 256 for each choice.
pub fn sized(format: u16, e: usize, c: usize, choices: usize) -> Vec<u16> {
    let parents = c / 16;
    let mut types = Vec::new();
    for t in 0..e {
        let chosen = t < parents && t + choices >= parents;
        let children = if t < parents { children_of(e, parents, t) } else { Vec::new() };
        let kind = if chosen { CHOICE } else { SEQUENCE };
        let leaf = if t + 16 >= e && format == ONE { TEXT } else { EMPTY };
        types.push(Type { kind: if t < parents { kind } else { leaf }, children });
    }
    encode(format, &types, 0)
}

/// The children of type t: the next 16 that have no parent yet, and after those types without children, the last ones.
fn children_of(e: usize, parents: usize, t: usize) -> Vec<u16> {
    let mut children: Vec<u16> = (16 * t + 1..=16 * t + 16).filter(|&x| x < e).map(|x| x as u16).collect();
    let leaves = (parents..e).rev().map(|x| x as u16);
    for leaf in leaves {
        if children.len() < 16 && !children.contains(&leaf) {
            children.push(leaf);
        }
    }
    children.sort();
    children
}

/// A largest table in which the search for a type on a cycle is longest, E 256, C 1,024. Only the root, 255, and type 254, which is below all others,
/// are on one: each is its own child. Types 0 to 253 stand between the two, each above the next, and those with the most children come last, so
/// that most entries are below each of them.
pub fn cyclic() -> Vec<u16> {
    let sequence = |children| Type { kind: SEQUENCE, children };
    let mut types: Vec<Type> = (0..254).map(|t| sequence(next_ones(t))).collect();
    types.extend([sequence(vec![254]), sequence(vec![0, 255])]);
    encode(ONE, &types, 255)
}

/// The children of type t: the next one; the next three, of type 194; the next 16, as far as there are any up to 254, from 195 on.
fn next_ones(t: u16) -> Vec<u16> {
    let count = match t {
        0..=193 => 1,
        194 => 3,
        _ => 16,
    };
    (t + 1..=254).take(count).collect()
}

/// A largest table, E 256, C 1,024, V 4,096, with two types that are not reached: 255, which is nobody's child, and its child 254.
pub fn unreached() -> Vec<u16> {
    let mut types = decode(&sized(ONE, 254, 1008, 17));
    types.push(Type { kind: EMPTY, children: Vec::new() });
    types.push(Type { kind: SEQUENCE, children: (239..=254).collect() });
    encode(ONE, &types, 0)
}

// ---------------------------------------------------------------- marks

pub fn v_of(words: &[u16]) -> usize {
    words[7] as usize
}

/// The marks of a choice of 16, the same at each choice of a table of `sized`, and those of its texts, which are the children of each choice; in format 2
/// there are none.
fn at_each_choice(words: &[u16], square: impl Fn(usize, usize) -> u8, texts: [u8; 16]) -> Vec<u8> {
    let choice = choice_of(words[0], 16, square);
    let texts = if words[0] == ONE { &texts[..] } else { &[] };
    let mut marks: Vec<u8> = choice.repeat((v_of(words) - texts.len()) / choice.len());
    marks.extend(texts);
    marks
}

/// The marks of a choice of n.
fn choice_of(format: u16, n: usize, square: impl Fn(usize, usize) -> u8) -> Vec<u8> {
    let positions = (0..n).flat_map(|i| (0..n).map(move |j| (i, j)));
    let positions = positions.filter(|(i, j)| i != j || format != ONE);
    positions.map(|(i, j)| square(i, j)).collect()
}

/// Numbers by chance; the same ones for the same seed.
fn chance(seed: u64) -> impl FnMut() -> usize {
    let mut state = seed;
    move || {
        state = state.wrapping_mul(6364136223846793005).wrapping_add(1442695040888963407);
        (state >> 33) as usize
    }
}

/// Marks by chance, out of an urn.
pub fn by_chance(v: usize, urn: &[u8], seed: u64) -> Vec<u8> {
    let mut next = chance(seed);
    (0..v).map(|_| urn[next() % urn.len()]).collect()
}

fn mended(words: &[u16], marks: &[u8]) -> Vec<u8> {
    let mut out = marks.to_vec();
    fast::mend(words, marks, &mut out);
    out
}

fn case(words: Vec<u16>, marks: Vec<u8>, proposed: Vec<u8>) -> Case {
    let out = vec![UNSET; marks.len()];
    Case { words, marks, out, proposed }
}

// ---------------------------------------------------------------- renumbering

/// The numbers below e in an order by chance.
pub fn shuffled(e: usize, seed: u64) -> Vec<usize> {
    let mut next = chance(seed);
    let mut order: Vec<usize> = (0..e).collect();
    (1..e).rev().for_each(|k| order.swap(k, next() % (k + 1)));
    order
}

/// Marks as they stand when the types stand in an order.
fn reordered(format: u16, types: &[Type], order: &[usize], marks: &[u8]) -> Vec<u8> {
    let count = |it: &Type| privileges_of(format, it);
    let first = |t: usize| types[..t].iter().map(count).sum::<usize>();
    let own = |&t: &usize| &marks[first(t)..][..count(&types[t])];
    order.iter().flat_map(own).copied().collect()
}

/// Types as they stand in an order, each with its rule and the order of its children; and the new number of each.
pub fn in_order(types: &[Type], order: &[usize]) -> (Vec<Type>, Vec<u16>) {
    let number = |old: usize| order.iter().position(|&t| t == old).unwrap_or(0) as u16;
    let numbers: Vec<u16> = (0..types.len()).map(number).collect();
    let children = |t: usize| types[t].children.iter().map(|&x| numbers[x as usize]).collect();
    let moved = |&t: &usize| Type { kind: types[t].kind, children: children(t) };
    (order.iter().map(moved).collect(), numbers)
}

/// A case with its types renumbered by chance, the root among them; each keeps its rule, the order of its children, and its marks.
fn renumbered(Case { words, marks, proposed, .. }: Case) -> Case {
    let types = decode(&words);
    let order = shuffled(types.len(), 2);
    let (moved, numbers) = in_order(&types, &order);
    let kept = |marks: &[u8]| reordered(words[0], &types, &order, marks);
    let root = numbers[words[3] as usize] as usize;
    case(encode(words[0], &moved, root), kept(&marks), kept(&proposed))
}

fn renumbered_input(Input { name, cases }: Input) -> Input {
    let name = format!("{}-renumbered", name);
    Input { name, cases: cases.into_iter().map(renumbered).collect() }
}

// ---------------------------------------------------------------- inputs

pub const SAMPLE: [u16; 39] = [
    1, 39, 8, 0, 8, 7, 32, 11, 4, 1, 0, 2, 3, 1, 1, 0, 4, 1, 0, 4, 3, 3, 4, 0, 0, 7, 0, 0, 7, 1, 0,
    7, 1, 2, 3, 4, 5, 6, 7,
];

/// S1 to S9.
pub const SAMPLES: [&str; 9] = [
    "00000000000",
    "11020000000",
    "11000000000",
    "10020000000",
    "00001201000",
    "00001001000",
    "00000001012",
    "00000001010",
    "11021201000",
];

/// Policies of the sample schema in format 2; six are broken in a way that format 1 does not have.
pub const SAMPLES_OF_TWO: [&str; 9] = [
    "112000000000000",
    "001020000000000",
    "111020000000000",
    "110000000000000",
    "001000000000000",
    "000002101000000",
    "000000000000012",
    "000000000010100",
    "000001120010000",
];

/// The name of an input, by the format of its table.
pub fn named(name: &str, format: u16) -> String {
    match format {
        ONE => name.to_string(),
        _ => format!("{}-{}", name, format),
    }
}

pub fn digits(text: &str) -> Vec<u8> {
    text.bytes().map(|byte| byte - b'0').collect()
}

/// The sample schema with these marks in turn; the proposed marks are those of the mend.
fn sample(format: u16, samples: &[&str]) -> Input {
    let words = encode(format, &decode(&SAMPLE), 0);
    let one = |text: &&str| {
        let marks = digits(text);
        let proposed = mended(&words, &marks);
        case(words.clone(), marks, proposed)
    };
    Input { name: named("sample", format), cases: samples.iter().map(one).collect() }
}

/// A third of the marks each unset, allowed and forbidden; for the verdict and the completion as mended, since those are the clean ones.
fn ordinary_input(call: Call, format: u16) -> Input {
    let words = ordinary(format);
    let marks = by_chance(v_of(&words), &[UNSET, ALLOWED, FORBIDDEN], 1);
    let proposed = mended(&words, &marks);
    let broken = matches!(call, Call::Mend | Call::JudgeMend);
    let marks = if broken { marks } else { proposed.clone() };
    Input { name: named("ordinary", format), cases: vec![case(words, marks, proposed)] }
}

/// The marks of a choice of 16 of which the mend takes most, of those that a search by chance and improvement found: 198 of 216 allowed ones. If all
/// are allowed it takes 120. Row i, column j: the mark of the replacement of i by j.
const MOST_TAKEN: [&[u8; 16]; 16] = [
    b".111211111111111",
    b"1.11111111111121",
    b"11.1121111111111",
    b"112.111111111111",
    b"1211.11111111111",
    b"12111.1111111111",
    b"121111.111111111",
    b"1211211.11111111",
    b"12112111.1111111",
    b"211111111.111111",
    b"2111111111.11111",
    b"21111111101.1111",
    b"211111111121.111",
    b"2111111112111.11",
    b"21111111121111.1",
    b"211111111211121.",
];

/// The marks of the children's texts that go with it.
const MOST_TAKEN_TEXTS: &[u8; 16] = b"2212122222222221";

/// The same in format 2, where the children are empty: 212 of 231.
const MOST_TAKEN_OF_TWO: [&[u8; 16]; 16] = [
    b"1111111111111121",
    b"1211111111111111",
    b"1111111111211111",
    b"1011111111111121",
    b"1121111111111111",
    b"0121111111111111",
    b"1211111111111111",
    b"1211111111111111",
    b"1211112111111111",
    b"1211112111111111",
    b"2111111111111111",
    b"2111111111111111",
    b"2111111111121111",
    b"2111111111211111",
    b"2111111111211111",
    b"2111111111211211",
];

fn most_taken(words: &[u16]) -> Vec<u8> {
    let texts = MOST_TAKEN_TEXTS.map(|digit| digit - b'0');
    let square = if words[0] == ONE { &MOST_TAKEN } else { &MOST_TAKEN_OF_TWO };
    at_each_choice(words, |i, j| square[i][j] - b'0', texts)
}

/// The worst marks for a call on a table of `sized`.
fn worst(call: Call, words: Vec<u16>) -> Case {
    let marks = match call {
        Call::Mend => most_taken(&words),
        // Clean, so that all is visited; each choice fully connected, so that each row joins each row; no choice is opened by another. A
        // proposal of the same marks is accepted.
        _ => at_each_choice(&words, |_, _| ALLOWED, [ALLOWED; 16]),
    };
    case(words, marks.clone(), marks)
}

/// Accepted, with half of the marks changed: only replacements by an earlier kind are left.
fn half_changed(words: Vec<u16>) -> Case {
    let full = at_each_choice(&words, |_, _| ALLOWED, [ALLOWED; 16]);
    let down = |i, j| if j < i { ALLOWED } else { FORBIDDEN };
    let proposed = at_each_choice(&words, down, [FORBIDDEN; 16]);
    case(words, full, proposed)
}

/// Clean, with a fifth of the marks allowed by chance and the others unset: what is reached can be foretold least.
fn scattered(words: Vec<u16>, seed: u64) -> Case {
    let marks = by_chance(v_of(&words), &[ALLOWED, UNSET, UNSET, UNSET, UNSET], seed);
    case(words, marks.clone(), marks)
}

/// A largest table, V 4,096: as many choices of 16 as there may be.
pub fn largest_table(format: u16) -> Vec<u16> {
    sized(format, 256, 1024, if format == ONE { 17 } else { 16 })
}

fn largest(call: Call, format: u16) -> Input {
    Input { name: named("largest", format), cases: vec![worst(call, largest_table(format))] }
}

/// Whether a call judges marks: what is reached is asked of clean ones, and what is forbidden is counted of broken ones.
fn judges(call: Call) -> bool {
    matches!(call, Call::JudgePolicy | Call::Complete | Call::JudgeMend)
}

/// Broken at the root alone, a star above all other types, so that all is visited and then counted.
fn counted(format: u16, types: Vec<Type>, mut marks: Vec<u8>) -> Case {
    marks.extend([ALLOWED, ALLOWED]);
    if format == TWO {
        marks.push(UNSET);
    }
    case(starred(format, types), marks.clone(), marks)
}

/// The ordinary table below a star, its marks by chance and mended.
fn ordinary_counted(format: u16) -> Input {
    let words = ordinary(format);
    let marks = by_chance(v_of(&words), &[UNSET, ALLOWED, FORBIDDEN], 1);
    let marks = mended(&words, &marks);
    let cases = vec![counted(format, decode(&words), marks)];
    Input { name: named("ordinary-counted", format), cases }
}

/// A largest table below a star, with all else forbidden: E 256, C 1,009, and V 4,096 with two texts fewer, or, in format 2, 3,843 with a choice fewer.
fn largest_counted(format: u16) -> Input {
    let mut types = decode(&sized(format, 255, 1008, if format == ONE { 17 } else { 15 }));
    types.iter_mut().filter(|it| it.kind == TEXT).take(2).for_each(|it| it.kind = EMPTY);
    let v = types.iter().map(|it| privileges_of(format, it)).sum();
    let cases = vec![counted(format, types, vec![FORBIDDEN; v])];
    Input { name: named("largest-counted", format), cases }
}

/// Marks in which the last choice is a round, each kind to be replaced by the next and the last by the first; a replacement is forbidden, if it is one of
/// the format.
fn with_round(words: &[u16], mut marks: Vec<u8>, forbidden: (usize, usize)) -> Case {
    let (format, types) = (words[0], decode(words));
    let last = types.iter().rposition(|it| it.kind == CHOICE).unwrap_or(0);
    let n = types[last].children.len();
    let round = choice_of(format, n, |i, j| match (i, j) {
        _ if (i, j) == forbidden => FORBIDDEN,
        _ if (i + 1) % n == j => ALLOWED,
        _ => UNSET,
    });
    let first = types[..last].iter().map(|it| privileges_of(format, it)).sum::<usize>();
    marks[first..first + round.len()].copy_from_slice(&round);
    case(words.to_vec(), marks.clone(), marks)
}

/// The ordinary table, its marks by chance and mended, broken at its last choice, of 8: a chain of 8, or, in format 2, of 9.
fn ordinary_chain(format: u16) -> Input {
    let words = ordinary(format);
    let marks = by_chance(v_of(&words), &[UNSET, ALLOWED, FORBIDDEN], 1);
    let forbidden = if format == ONE { (0, 7) } else { (0, 0) };
    let cases = vec![with_round(&words, mended(&words, &marks), forbidden)];
    Input { name: named("ordinary-chain", format), cases }
}

/// A largest table, broken at its last choice, with a chain of 17. In format 1 the text of the first kind is forbidden, and no other choice has a way back
/// to it; in format 2 the first kind by itself is, and the other choices are fully connected.
fn largest_chain(format: u16) -> Input {
    let words = largest_table(format);
    let mut texts = [ALLOWED; 16];
    texts[0] = FORBIDDEN;
    let down = |i, j| if j < i || format == TWO { ALLOWED } else { UNSET };
    let marks = at_each_choice(&words, down, texts);
    let cases = vec![with_round(&words, marks, (0, 0))];
    Input { name: named("largest-chain", format), cases }
}

fn scattered_input(format: u16) -> Input {
    let cases = (1..=8).map(|seed| scattered(largest_table(format), seed)).collect();
    Input { name: named("scattered", format), cases }
}

fn half_changed_input() -> Input {
    let cases = vec![half_changed(largest_table(ONE))];
    Input { name: "half-changed".to_string(), cases }
}

/// Tables that pass every check before the one that refuses them.
fn refused() -> Vec<Input> {
    let input = |name: &str, words| Input {
        name: name.to_string(),
        cases: vec![case(words, Vec::new(), Vec::new())],
    };
    vec![input("cyclic", cyclic()), input("unreached", unreached())]
}

/// The inputs of a call in format 1.
fn inputs_of_one(call: Call) -> Vec<Input> {
    let ordinary = || ordinary_input(call, ONE);
    let mut all =
        vec![sample(ONE, &SAMPLES), ordinary(), renumbered_input(ordinary()), largest(call, ONE)];
    if judges(call) {
        all.extend([scattered_input(ONE), ordinary_counted(ONE), largest_counted(ONE)]);
        all.extend([ordinary_chain(ONE), largest_chain(ONE)]);
    }
    if call == Call::JudgeMend {
        all.push(half_changed_input());
    }
    all.push(renumbered_input(largest(call, ONE)));
    if call == Call::CheckTable {
        all.extend(refused());
    }
    all
}

fn inputs_of_two(call: Call) -> Vec<Input> {
    let mut all = vec![sample(TWO, &SAMPLES_OF_TWO), ordinary_input(call, TWO), largest(call, TWO)];
    if judges(call) {
        all.extend([scattered_input(TWO), ordinary_counted(TWO), largest_counted(TWO)]);
        all.extend([ordinary_chain(TWO), largest_chain(TWO)]);
    }
    all
}

/// The inputs of a call.
pub fn inputs(call: Call) -> Vec<Input> {
    let mut all = inputs_of_one(call);
    all.extend(inputs_of_two(call));
    all
}

/// An input by its name.
pub fn input_of<'a>(inputs: &'a [Input], name: &str) -> &'a Input {
    inputs.iter().find(|it| it.name == name).unwrap_or_else(|| fail("no such input"))
}

/// E, C and how many types are choices: E doubles, then C, then V.
const DOUBLING: [(usize, usize, usize); 10] = [
    (32, 256, 1),
    (64, 256, 1),
    (128, 256, 1),
    (256, 256, 1),
    (256, 512, 1),
    (256, 1024, 1),
    (256, 1024, 2),
    (256, 1024, 4),
    (256, 1024, 8),
    (256, 1024, 16),
];

/// Tables that double, with the worst marks for a call; then such tables below a star that is broken.
pub fn doubling(call: Call) -> Vec<Input> {
    let input = |(e, c, choices)| Input {
        name: format!("E{}-C{}-V{}", e, c, 240 * choices + 16),
        cases: vec![worst(call, sized(ONE, e, c, choices))],
    };
    DOUBLING.into_iter().map(input).chain(doubling_counted()).collect()
}

/// All but the star's insert and delete are forbidden, and counted. The star is a type and has a child, so that the largest
/// tables below it are smaller by a type and 16 children.
fn doubling_counted() -> Vec<Input> {
    let input = |(e, c, choices): (usize, usize, usize)| {
        let below = sized(ONE, e.min(255), c.min(1008), choices);
        let marks = vec![FORBIDDEN; v_of(&below)];
        let case = counted(ONE, decode(&below), marks);
        let [e, c, v] = [2, 5, 7].map(|word| case.words[word]);
        Input { name: format!("star-E{}-C{}-V{}", e, c, v), cases: vec![case] }
    };
    DOUBLING.into_iter().map(input).collect()
}
