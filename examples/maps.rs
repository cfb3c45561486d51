//! The vendor's role of samples/vendor.txt, as a store keeps it that has an allowed map and a forbidden map: mends it, completes the mended
//! role, and says both maps of each, the bit of privilege 0 first. Exits with 0, or with 2 if a call is refused.

use finnedscarf::{complete_maps, mend_maps, Maps, MapsMut, Refusal};
use std::process::ExitCode;

const PRIVILEGES: usize = 11;
const BYTES: usize = PRIVILEGES.div_ceil(8);

/// The schema, as it stands in samples/vendor.txt.
const WORDS: [u16; 39] = [
    1, 39, 8, 0, 8, 7, 32, 11, 4, 1, 0, 2, 3, 1, 1, 0, 4, 1, 0, 4, 3, 3, 4, 0, 0, 7, 0, 0, 7, 1, 0, 7, 1, 2, 3, 4, 5, 6, 7,
];

/// The marks there: 0, 1, 4 and 6 are allowed, and 3, 5, 7 and 10 are forbidden. Privilege 8 has the lowest bit of byte 1.
const ROLE: Maps = Maps { allowed: &[1 << 0 | 1 << 1 | 1 << 4 | 1 << 6, 0], forbidden: &[1 << 3 | 1 << 5 | 1 << 7, 1 << (10 - 8)] };

fn bits(map: &[u8]) -> String {
    (0..PRIVILEGES).map(|p| (map[p / 8] >> (p % 8) & 1).to_string()).collect()
}

fn say(maps: Maps) {
    println!("allowed   {}\nforbidden {}", bits(maps.allowed), bits(maps.forbidden));
}

fn mend_and_complete() -> Result<(), Refusal> {
    let (mut allowed, mut forbidden) = ([0; BYTES], [0; BYTES]);
    let count = mend_maps(&WORDS, ROLE, MapsMut { allowed: &mut allowed, forbidden: &mut forbidden })?;
    let mended = Maps { allowed: &allowed, forbidden: &forbidden };
    println!("mended, {count} taken away");
    say(mended);

    let (mut allowed, mut forbidden) = ([0; BYTES], [0; BYTES]);
    complete_maps(&WORDS, mended, MapsMut { allowed: &mut allowed, forbidden: &mut forbidden })?;
    println!("completed");
    say(Maps { allowed: &allowed, forbidden: &forbidden });
    Ok(())
}

fn main() -> ExitCode {
    match mend_and_complete() {
        Ok(()) => ExitCode::SUCCESS,
        Err(refusal) => {
            println!("{refusal}");
            ExitCode::from(2)
        }
    }
}
