// What requests 1 and 5 to 12 bring besides numbers and conditions: the situations that a case can be in, by name.

mod bits;
mod breaches;
pub mod carrying;
mod chains;
mod completions;
mod counted;
mod counts;
mod edited;
pub mod edits;
mod leading;
mod listed;
pub mod listing;
pub mod listings;
pub mod maps;
mod mends;
mod month;
mod moves;
mod policy;
mod proposals;
pub mod reading;
pub mod roles;
pub mod sheets;
mod show;
pub mod sum;
pub mod sums;
mod tables;
mod texts;
pub mod writing;

use crate::policy_case::PolicyCase;
use crate::roles_case::RolesCase;
use policy::Policy;

/// A situation of a policy that is not refused: its name, and whether a policy is in it.
type Situation = (&'static str, fn(&Policy) -> bool);

/// The situations that a request brings to cases of a kind: of what they are, their names, and those that a case is in.
pub struct Situations<C: 'static> {
    pub of: &'static str,
    pub names: fn() -> Vec<&'static str>,
    pub found: fn(&C) -> Vec<&'static str>,
}

/// The situations of cases that are made for them.
pub trait Aimed {
    type Case: 'static;

    const USUAL: Situations<Self::Case>;

    /// Of large cases.
    const LARGE: Situations<Self::Case>;

    /// Whether this situation is one of faults.
    fn is_of_faults(name: &str) -> bool;

    /// Whether a case is in the situation of this name.
    fn is_in(name: &'static str) -> impl Fn(&Self::Case) -> bool;
}

/// Request 5: of calls on all roles.
pub const OF_ROLES: Situations<RolesCase> =
    Situations { of: "roles", names: roles::names, found: roles::found };

/// Request 6: in both formats.
pub const OF_CHAINS: Situations<PolicyCase> = Situations {
    of: "the chain",
    names: || names_of(chains::SITUATIONS),
    found: |case| Policy::of(case).map_or(Vec::new(), |policy| found_in(&policy, chains::SITUATIONS)),
};

/// Request 8: in both formats.
pub const OF_COUNTS: Situations<PolicyCase> = Situations {
    of: "the count",
    names: || names_of(counts::SITUATIONS),
    found: |case| Policy::of(case).map_or(Vec::new(), |policy| found_in(&policy, counts::SITUATIONS)),
};

/// Request 9: first those that a table brings, then those of a policy of format 2.
pub const OF_FORMAT_TWO: Situations<PolicyCase> = Situations {
    of: "format 2",
    names: || [tables::SITUATIONS.iter().map(|situation| situation.0).collect(), of_policies()].concat(),
    found: |case| [tables_in(case), policies_in(case)].concat(),
};

const OF_POLICIES: [&[Situation]; 4] =
    [breaches::SITUATIONS, mends::SITUATIONS, completions::SITUATIONS, proposals::SITUATIONS];

fn names_of(situations: &[Situation]) -> Vec<&'static str> {
    situations.iter().map(|situation| situation.0).collect()
}

fn found_in(policy: &Policy, situations: &[Situation]) -> Vec<&'static str> {
    situations.iter().filter(|situation| (situation.1)(policy)).map(|situation| situation.0).collect()
}

/// The names of the situations that a policy of format 2 brings.
pub fn of_policies() -> Vec<&'static str> {
    names_of(&OF_POLICIES.concat())
}

fn tables_in(case: &PolicyCase) -> Vec<&'static str> {
    let found = tables::SITUATIONS.iter().filter(|situation| (situation.1)(&case.words));
    found.map(|situation| situation.0).collect()
}

fn policies_in(case: &PolicyCase) -> Vec<&'static str> {
    Policy::of_two(case).map_or(Vec::new(), |policy| found_in(&policy, &OF_POLICIES.concat()))
}

/// Whether a case is in this situation of a policy: of a chain, or of format 2, which is then the case's own.
pub fn is_in(case: &PolicyCase, name: &str) -> bool {
    let all = [OF_POLICIES.concat(), chains::SITUATIONS.to_vec()].concat();
    let situation = all.into_iter().find(|situation| situation.0 == name);
    let holds = situation.expect("a situation of that name").1;
    Policy::of(case).map_or(false, |policy| holds(&policy))
}
