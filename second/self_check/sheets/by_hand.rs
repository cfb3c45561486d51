// Sheets and sums worked out by hand, each figure and each count written out.

use super::super::expect;
use super::super::roles::NO_PRIVILEGE;
use super::super::samples::{
    digits, of_two, Sample, ALPHABETICAL, ALPHABETICAL_SAMPLES, SAMPLE, SAMPLES, SAMPLES_OF_TWO,
};
use crate::sheet::{add_sheets, month_sheet, Sheet};

/// What the counts hold before a call, and behind the last privilege afterwards.
const NUMBER: u32 = 4_294_967_295;

/// What is known of a sheet: its figures, its leaders, and for each privilege in how many roles it is allowed, forbidden and unset.
struct Known {
    figures: [u32; 5],
    leaders: &'static [usize],
    counts: Vec<[u32; 3]>,
}

impl Known {
    fn sheet(&self) -> Sheet {
        let mut leaders = [0; 3];
        leaders[..self.leaders.len()].copy_from_slice(self.leaders);
        Sheet { number: 0, place: 0, figures: self.figures, leader_count: self.leaders.len() as u32, leaders }
    }
}

/// A month that is counted, with room behind the last privilege or without.
fn self_counted(words: &[u16], roles: u32, marks: &[u8], known: &Known, name: &str) {
    for behind in [0, 1, 5] {
        let mut counts = vec![NUMBER; 3 * known.counts.len() + behind];
        expect(month_sheet(words, roles, marks, &mut counts) == Ok(known.sheet()), name);
        expect(counts == [known.counts.concat(), vec![NUMBER; behind]].concat(), name);
    }
}

fn self_month(words: &[u16], roles: &[&str], known: &Known, name: &str) {
    let marks: Vec<u8> = roles.iter().flat_map(|role| digits(role)).collect();
    self_counted(words, roles.len() as u32, &marks, known, name);
}

fn marks_of(samples: &[Sample]) -> Vec<&'static str> {
    samples.iter().map(|sample| sample.0).collect()
}

/// S1 to S9. S1, S3, S4, S6 and S8 are clean; S2 and S9 break condition 1, S5 and S9 condition 2, S7 condition 3. Privileges 1 and 4 are
/// allowed three times each.
fn nine() -> Known {
    Known {
        figures: [5, 2, 2, 1, 0],
        leaders: &[7, 0, 1],
        counts: vec![
            [4, 0, 5],
            [3, 0, 6],
            [0, 0, 9],
            [0, 3, 6],
            [3, 0, 6],
            [0, 2, 7],
            [0, 0, 9],
            [5, 0, 4],
            [0, 0, 9],
            [2, 0, 7],
            [0, 1, 8],
        ],
    }
}

/// The same in alphabetical order: privilege 0 is the text of final, and the others follow in their order.
fn nine_alphabetical() -> Known {
    let Known { figures, mut counts, .. } = nine();
    counts.rotate_right(1);
    Known { figures, leaders: &[8, 1, 2], counts }
}

/// Forty roles: S1 to S9 four times, and S1 to S4.
fn forty() -> Known {
    Known {
        figures: [23, 9, 8, 4, 0],
        leaders: &[7, 0, 1],
        counts: vec![
            [19, 0, 21],
            [14, 0, 26],
            [0, 0, 40],
            [0, 14, 26],
            [12, 0, 28],
            [0, 8, 32],
            [0, 0, 40],
            [20, 0, 20],
            [0, 0, 40],
            [8, 0, 32],
            [0, 4, 36],
        ],
    }
}

/// The eighteen samples of format 2: seven are clean, six break condition 1, three condition 2 and two condition 3. Privileges 2 and 6 are
/// allowed four times each.
fn eighteen_of_two() -> Known {
    Known {
        figures: [7, 6, 3, 2, 0],
        leaders: &[0, 1, 2],
        counts: vec![
            [7, 0, 11],
            [5, 1, 12],
            [4, 3, 11],
            [0, 0, 18],
            [0, 6, 12],
            [2, 1, 15],
            [4, 0, 14],
            [0, 1, 17],
            [3, 0, 15],
            [0, 1, 17],
            [2, 0, 16],
            [0, 0, 18],
            [1, 0, 17],
            [2, 0, 16],
            [0, 2, 16],
        ],
    }
}

fn self_samples() {
    let samples = marks_of(&SAMPLES);
    self_month(&SAMPLE, &samples, &nine(), "S1 to S9");
    let alphabetical = marks_of(&ALPHABETICAL_SAMPLES);
    self_month(&ALPHABETICAL, &alphabetical, &nine_alphabetical(), "S1 to S9 in alphabetical order");
    let in_turn: Vec<&str> = samples.iter().copied().cycle().take(40).collect();
    self_month(&SAMPLE, &in_turn, &forty(), "the sample's forty roles");
    self_month(&of_two(&SAMPLE), &marks_of(&SAMPLES_OF_TWO), &eighteen_of_two(), "the samples of format 2");
}

/// Roles with a mark above 2, the first, the last and one in between, some of them with allowed marks and with breaches besides.
fn self_refused() {
    let bent = ["31020000000", "11021201003", "00009000000", "11111111119"];
    for at in [0, 4, 9] {
        let mut roles = marks_of(&SAMPLES);
        bent.iter().for_each(|role| roles.insert(at, role));
        let known = Known { figures: [5, 2, 2, 1, 4], ..nine() };
        self_month(&SAMPLE, &roles, &known, "S1 to S9 and four refused roles");
    }
    let none = Known { figures: [0, 0, 0, 0, 4], leaders: &[0, 1, 2], counts: vec![[0; 3]; 11] };
    self_month(&SAMPLE, &bent, &none, "refused roles alone");
}

/// One role with each choice of conditions. Insert and delete and what is below; a chain from draft to final; from held to final and back.
fn self_conditions() {
    let roles = [
        ("11000000000", [1, 0, 0, 0, 0]),
        ("11020000000", [0, 1, 0, 0, 0]),
        ("00001201000", [0, 0, 1, 0, 0]),
        ("00000001012", [0, 0, 0, 1, 0]),
        ("11021201000", [0, 1, 1, 0, 0]),
        ("11000001012", [0, 1, 0, 1, 0]),
        ("00001201012", [0, 0, 1, 1, 0]),
        ("11001201012", [0, 1, 1, 1, 0]),
        ("11001201013", [0, 0, 0, 0, 1]),
    ];
    for (role, figures) in roles {
        let mut counts = vec![NUMBER; 33];
        let told = month_sheet(&SAMPLE, 1, &digits(role), &mut counts);
        expect(told.map(|sheet| sheet.figures) == Ok(figures), "one role");
    }
    let all: Vec<&str> = roles.iter().map(|role| role.0).collect();
    let known = Known {
        figures: [1, 4, 4, 4, 1],
        leaders: &[7, 0, 1],
        counts: vec![
            [5, 0, 3],
            [5, 0, 3],
            [0, 0, 8],
            [0, 2, 6],
            [4, 0, 4],
            [0, 4, 4],
            [0, 0, 8],
            [6, 0, 2],
            [0, 0, 8],
            [4, 0, 4],
            [0, 4, 4],
        ],
    };
    self_month(&SAMPLE, &all, &known, "every choice of conditions");
}

/// No role: nothing is counted, and the lowest privileges lead.
fn self_no_role() {
    let none =
        |v: usize, leaders: &'static [usize]| Known { figures: [0; 5], leaders, counts: vec![[0; 3]; v] };
    self_month(&SAMPLE, &[], &none(11, &[0, 1, 2]), "no role");
    self_month(&STAR, &[], &none(2, &[0, 1]), "no role, V 2");
    self_month(&TEXT, &[], &none(1, &[0]), "no role, V 1");
}

/// Without a privilege every role is clean, however many there are.
fn self_without_privileges() {
    for roles in [0, 1, 1000, 65_535, 65_536, 65_537, 2_147_483_648, 4_294_967_295] {
        let known = Known { figures: [roles, 0, 0, 0, 0], leaders: &[], counts: Vec::new() };
        self_counted(&NO_PRIVILEGE, roles, &[], &known, "roles without a privilege");
    }
}

/// A lone text; a star of an empty type; and a star of a text.
const TEXT: [u16; 11] = [1, 11, 1, 0, 8, 0, 11, 1, 1, 0, 0];
const STAR: [u16; 15] = [1, 15, 2, 0, 8, 1, 14, 2, 4, 1, 0, 0, 0, 1, 1];
const STAR_OF_TEXT: [u16; 15] = [1, 15, 2, 0, 8, 1, 14, 3, 4, 1, 0, 1, 0, 1, 1];

fn self_few_privileges() {
    let month = |words: &[u16], roles: &[&str], figures, leaders, counts: &[[u32; 3]]| {
        self_month(words, roles, &Known { figures, leaders, counts: counts.to_vec() }, "few privileges")
    };
    month(&TEXT, &["1", "2", "0", "1"], [4, 0, 0, 0, 0], &[0], &[[2, 1, 1]]);
    month(&TEXT, &["3", "2", "2"], [2, 0, 0, 0, 1], &[0], &[[0, 2, 0]]);
    month(&STAR, &["12", "02"], [2, 0, 0, 0, 0], &[0, 1], &[[1, 0, 1], [0, 2, 0]]);
    month(&STAR, &["01", "11", "21"], [3, 0, 0, 0, 0], &[1, 0], &[[1, 1, 1], [3, 0, 0]]);
    month(
        &STAR_OF_TEXT,
        &["112", "011", "111"],
        [2, 1, 0, 0, 0],
        &[1, 0, 2],
        &[[2, 0, 1], [3, 0, 0], [2, 1, 0]],
    );
    month(
        &STAR_OF_TEXT,
        &["001", "121", "131"],
        [2, 0, 0, 0, 1],
        &[2, 0, 1],
        &[[1, 0, 1], [0, 1, 1], [2, 0, 0]],
    );
}

/// Two sheets and their sum, whatever place and leaders they are given with, and with numbers behind each run or without.
fn self_added(words: &[u16], one: &Known, more: &Known, sum: &Known, name: &str) {
    for (behind, more_behind) in [(0, 0), (1, 0), (0, 1), (4, 2)] {
        let mut counts = [one.counts.concat(), vec![NUMBER; behind]].concat();
        let more_counts = [more.counts.concat(), vec![NUMBER; more_behind]].concat();
        let bent = |sheet: Sheet| Sheet { place: behind, leader_count: 9, leaders: [4096, 0, 7], ..sheet };
        let told = add_sheets(words, bent(one.sheet()), &mut counts, bent(more.sheet()), &more_counts);
        expect(told == Ok(sum.sheet()), name);
        expect(counts == [sum.counts.concat(), vec![NUMBER; behind]].concat(), name);
    }
}

/// S1 to S4 and S5 to S9 come to S1 to S9.
fn self_sums() {
    let first = Known {
        figures: [3, 1, 0, 0, 0],
        leaders: &[0, 1, 2],
        counts: vec![
            [3, 0, 1],
            [2, 0, 2],
            [0, 0, 4],
            [0, 2, 2],
            [0, 0, 4],
            [0, 0, 4],
            [0, 0, 4],
            [0, 0, 4],
            [0, 0, 4],
            [0, 0, 4],
            [0, 0, 4],
        ],
    };
    let last = Known {
        figures: [2, 1, 2, 1, 0],
        leaders: &[7, 4, 9],
        counts: vec![
            [1, 0, 4],
            [1, 0, 4],
            [0, 0, 5],
            [0, 1, 4],
            [3, 0, 2],
            [0, 2, 3],
            [0, 0, 5],
            [5, 0, 0],
            [0, 0, 5],
            [2, 0, 3],
            [0, 1, 4],
        ],
    };
    let samples = marks_of(&SAMPLES);
    self_month(&SAMPLE, &samples[..4], &first, "S1 to S4");
    self_month(&SAMPLE, &samples[4..], &last, "S5 to S9");
    self_added(&SAMPLE, &first, &last, &nine(), "S1 to S4 and S5 to S9");
    self_added(&SAMPLE, &last, &first, &nine(), "S5 to S9 and S1 to S4");
    let none = Known { figures: [0; 5], leaders: &[0, 1, 2], counts: vec![[0; 3]; 11] };
    self_added(&SAMPLE, &nine(), &none, &nine(), "S1 to S9 and no role");
    self_added(&SAMPLE, &none, &nine(), &nine(), "no role and S1 to S9");
}

/// Sums that are just as much as 32 bits hold, and leaders that neither sheet has.
fn self_large_sums() {
    let known = |figures, leaders, counts: [[u32; 3]; 3]| Known { figures, leaders, counts: counts.to_vec() };
    let most = NUMBER;
    let one = known([most, 0, 1, most - 2, 9], &[0, 1, 2], [[4, most, 0], [3, 0, most], [3, 5, 1]]);
    let more = known([0, most, most - 1, 2, 9], &[2, 1, 0], [[0, 0, most], [3, most, 0], [4, 5, 2]]);
    let sum = known([most, most, most, most, 18], &[2, 1, 0], [[4, most, most], [6, most, most], [7, 10, 3]]);
    self_added(&STAR_OF_TEXT, &one, &more, &sum, "sums of 4,294,967,295");
    let one = known([1, 2, 3, 4, 5], &[0, 1, 2], [[9, 0, 0], [5, 0, 0], [0, 0, 0]]);
    let more = known([1, 1, 1, 1, 1], &[2, 1, 0], [[0, 0, 0], [5, 0, 0], [9, 0, 0]]);
    let sum = known([2, 3, 4, 5, 6], &[1, 0, 2], [[9, 0, 0], [10, 0, 0], [9, 0, 0]]);
    self_added(&STAR_OF_TEXT, &one, &more, &sum, "a leader by the sum");
    let none = |figures| Known { figures, leaders: &[], counts: Vec::new() };
    self_added(
        &NO_PRIVILEGE,
        &none([7, 0, 0, 0, 0]),
        &none([most - 7, 0, 0, 0, 0]),
        &none([most, 0, 0, 0, 0]),
        "V 0",
    );
}

pub fn self_by_hand() {
    self_samples();
    self_refused();
    self_conditions();
    self_no_role();
    self_without_privileges();
    self_few_privileges();
    self_sums();
    self_large_sums();
}
