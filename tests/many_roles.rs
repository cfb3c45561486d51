//! Completes very many roles by one call through the safe wrapper, as tests/many_roles.c does, which says what is known of each.

use finnedscarf::{complete_roles, Refusal, RoleRefusal, ALLOWED, FORBIDDEN, UNSET};
use std::process::ExitCode;

const KEPT: u8 = 7;
const NUMBER_KEPT: u16 = 65535;

/// V and what is lent, as lengths, and the number of the answer.
struct Call {
    v: usize,
    roles: usize,
    marks: usize,
    out: usize,
    number: usize,
}

const fn call(v: usize, roles: usize, marks: usize, out: usize, number: usize) -> Call {
    Call { v, roles, marks, out, number }
}

const CALLS: [Call; 13] = [
    call(0, 1048577, 0, 0, 0),
    call(0, 1048577, 0, 3, 0),
    call(0, 1048577, 1, 3, 10),
    call(1, 70000, 70000, 70000, 0),
    call(1, 70000, 70000, 70005, 0),
    call(4096, 17, 69632, 69632, 0),
    // 65,536 too few
    call(1, 70000, 4464, 70000, 10),
    call(1, 70000, 70000, 4464, 12),
    call(4096, 16, 0, 0, 10),
    call(4096, 17, 4096, 4096, 10),
    call(4096, 17, 69632, 4096, 12),
    // 4,294,967,296 too few
    call(4096, 1048576, 0, 0, 10),
    call(4096, 1048577, 4096, 4096, 10),
];

/// A lone empty type, a lone text, or, in format 2, a sequence of 16 choices, each of the same 16 empty types.
fn table(v: usize) -> Vec<u16> {
    if v < 2 {
        let v = v as u16;
        return vec![1, 11, 1, 0, 8, 0, 11, v, v, 0, 0];
    }
    let mut words = vec![2, 379, 33, 0, 8, 272, 107, 4096, 2, 16, 0];
    words.extend((1..17).flat_map(|t| [3, 16, 16 * t]));
    words.extend((17..33).flat_map(|_| [0, 0, 272]));
    words.extend(1..17);
    words.extend((1..17).flat_map(|_| 17..33));
    words
}

impl Call {
    /// What all marks of a role are.
    fn mark(&self, role: usize) -> u8 {
        [UNSET, ALLOWED, FORBIDDEN, 3, 4][role % 5]
    }

    /// What comes of a role, if the call is done.
    fn role(&self, role: usize) -> Result<Vec<u8>, RoleRefusal> {
        match self.mark(role) {
            3 | 4 if self.v > 0 => Err(RoleRefusal { number: 11 }),
            ALLOWED => Ok(vec![ALLOWED; self.v]),
            _ => Ok(vec![FORBIDDEN; self.v]),
        }
    }

    fn is_done(&self) -> bool {
        self.number == 0
    }

    /// The numbers and the result afterwards.
    fn lent_then(&self) -> (Vec<u16>, Vec<u8>) {
        let (mut numbers, mut out) = (vec![NUMBER_KEPT; self.roles], vec![KEPT; self.out]);
        for (r, number) in numbers.iter_mut().enumerate().filter(|_| self.is_done()) {
            let role = self.role(r);
            *number = role.as_ref().map_or_else(|refusal| refusal.number as u16, |_| 0);
            if let Ok(completed) = role {
                out[r * self.v..(r + 1) * self.v].copy_from_slice(&completed);
            }
        }
        (numbers, out)
    }

    fn is_right(&self) -> bool {
        let marks: Vec<u8> = (0..self.marks).map(|k| k.checked_div(self.v).map_or(UNSET, |role| self.mark(role))).collect();
        let (mut numbers, mut out) = (vec![NUMBER_KEPT; self.roles], vec![KEPT; self.out]);
        let told = match complete_roles(&table(self.v), &marks, &mut numbers, &mut out) {
            Ok(roles) => self.is_done() && roles.map(|role| role.map(<[u8]>::to_vec)).eq((0..self.roles).map(|r| self.role(r))),
            Err(refusal) => refusal == Refusal { number: self.number, place: 0, breach: None },
        };
        told && (numbers, out) == self.lent_then()
    }
}

fn main() -> ExitCode {
    for call in CALLS {
        if !call.is_right() {
            let Call { v, roles, marks, out, .. } = call;
            println!("tests/many_roles: V {v}, {roles} roles, {marks} marks, a result of {out}: not as known");
            return ExitCode::FAILURE;
        }
    }
    ExitCode::SUCCESS
}
