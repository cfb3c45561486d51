// Situations by what a proposed mend changes.

use super::policy::Policy;
use super::Situation;
use crate::answers::answer;
use crate::mending::judge_mend;

/// Whether it is answered with this number.
fn answered(policy: &Policy, number: usize) -> bool {
    let case = policy.case;
    answer(judge_mend(&case.words, &case.marks, &case.proposed)).number == number
}

/// Whether a mark of a replacement by the same kind is changed.
fn changes_same_kind(policy: &Policy) -> bool {
    let changed = |p: &usize| policy.mark(*p) != policy.case.proposed[*p];
    (0..policy.table.v()).filter(changed).any(|p| policy.table.is_same_kind(p))
}

/// Whether the first change other than 1 to 2 is one of such a mark.
fn refused_at_same_kind(policy: &Policy) -> bool {
    let case = policy.case;
    let refusal = answer(judge_mend(&case.words, &case.marks, &case.proposed));
    refusal.number == 15 && policy.table.is_same_kind(refusal.place)
}

pub const SITUATIONS: &[Situation] = &[
    ("proposing: accepted with a same-kind replacement taken away", |it| {
        answered(it, 0) && changes_same_kind(it)
    }),
    ("proposing: 15 at a same-kind replacement", refused_at_same_kind),
    ("proposing: 16 with a same-kind replacement taken away", |it| answered(it, 16) && changes_same_kind(it)),
];
