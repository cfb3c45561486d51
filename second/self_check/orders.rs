// Several faults of one call at once: the first in the order of the checks decides.

/// A number and a place.
pub type Refusal = [usize; 2];

/// A fault of each rank, and what it is refused with where it is the first.
pub type Fault<C> = (fn(&mut C), Refusal);

/// Each fault with every choice of later ones; gives how many there are. The last fault comes first: a count is bent before its run gets
/// shorter.
pub fn self_orders<C>(sound: fn() -> C, faults: &[Fault<C>], is_refused: fn(&C, Refusal, &str)) -> usize {
    let mut count = 0;
    for (first, (_, refusal)) in faults.iter().enumerate() {
        let later = faults.len() - 1 - first;
        for chosen in 0..1 << later {
            let mut call = sound();
            for rank in (first..faults.len()).rev() {
                if rank == first || chosen >> (rank - first - 1) & 1 == 1 {
                    (faults[rank].0)(&mut call);
                }
            }
            is_refused(&call, *refusal, "the first of several faults");
            count += 1;
        }
    }
    count
}
