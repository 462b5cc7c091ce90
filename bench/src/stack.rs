//! How much stack a work takes: it runs on a painted stack, and the paint
//! that is left tells how deep it went (x86-64).

use std::arch::asm;

const WORDS: usize = 1 << 20;
/// Two paints, so that a word written with a paint's own value is seen.
const PAINTS: [u64; 2] = [0xA5A5_A5A5_A5A5_A5A5, 0x5A5A_5A5A_5A5A_5A5A];

/// Bytes of stack that a work takes, beyond those of an empty one.
pub fn depth(work: &mut dyn FnMut()) -> usize {
    used(work) - used(&mut || {})
}

fn used(work: &mut dyn FnMut()) -> usize {
    let mut deepest = 0;
    for paint in PAINTS {
        let mut stack = vec![paint; WORDS];
        call_on(&mut stack, work);
        let left = stack.iter().take_while(|&&word| word == paint).count();
        assert!(left > WORDS / 2, "the stack is large enough");
        deepest = deepest.max(8 * (WORDS - left));
    }
    deepest
}

extern "C" fn call(work: &mut &mut dyn FnMut()) {
    work()
}

/// Calls the work with the stack pointer at the end of `stack`.
fn call_on(stack: &mut [u64], mut work: &mut dyn FnMut()) {
    let end = stack.as_mut_ptr_range().end as usize & !15;
    // Safety: `stack` is writable, belongs to nobody else during the call and
    // is far larger than any work here needs; its end is aligned as a call
    // asks for. `call` unwinds for nothing: a panic in it ends the program.
    // r12 keeps the old stack pointer, as a callee restores it.
    unsafe {
        asm!(
            "mov r12, rsp",
            "mov rsp, {end}",
            "call {call}",
            "mov rsp, r12",
            end = in(reg) end,
            call = sym call,
            in("rdi") &mut work,
            out("r12") _,
            clobber_abi("C"),
        );
    }
}
