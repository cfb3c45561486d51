// How much stack a call uses: it is run on a stack of its own that was painted before, and the paint is looked at afterwards.

use std::arch::asm;

const SIZE: usize = 1 << 20;

struct Job<'a, C, T, F> {
    call: &'a F,
    case: C,
    told: T,
}

extern "C" fn work<C, T, F: Fn(&mut C) -> T>(job: *mut Job<C, T, F>) {
    // The job lives in `used`, which waits for this function to return.
    let job = unsafe { &mut *job };
    job.told = (job.call)(&mut job.case);
}

/// Runs the job on another stack, whose end is given.
fn on_stack<C, T, F: Fn(&mut C) -> T>(end: *mut u8, job: &mut Job<C, T, F>) {
    // The end is aligned to 16 bytes, and r12 keeps the old stack pointer, since the callee preserves it.
    unsafe {
        asm!(
            "mov r12, rsp",
            "mov rsp, {end}",
            "call {work}",
            "mov rsp, r12",
            end = in(reg) end,
            work = sym work::<C, T, F>,
            in("rdi") job as *mut Job<C, T, F>,
            out("r12") _,
            clobber_abi("C"),
        );
    }
}

/// The bytes from the lowest one that was written to the end of the stack.
fn used<C: Clone, T: Default>(call: &impl Fn(&mut C) -> T, case: &C, paint: u8) -> usize {
    let mut stack = vec![u128::from_ne_bytes([paint; 16]); SIZE / 16];
    let end = stack.as_mut_ptr_range().end;
    on_stack(end.cast(), &mut Job { call, case: case.clone(), told: T::default() });
    let bytes = stack.iter().flat_map(|painted| painted.to_ne_bytes());
    SIZE - bytes.take_while(|&byte| byte == paint).count()
}

/// The bytes that the call itself uses, with its return address and the arguments that it is handed on the stack: what a call that does nothing uses
/// is taken off. Both are of one type, so that the same function makes them. Two paints, since a call may write the bytes of one.
pub fn stack_of<C: Clone, T: Default, F: Fn(&mut C) -> T>(call: F, nothing: F, case: &C) -> usize {
    let most = |call| used(call, case, 0xa5).max(used(call, case, 0x5a));
    most(&call) - most(&nothing)
}
