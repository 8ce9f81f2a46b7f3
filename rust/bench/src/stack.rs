//! The stack that a call uses: it runs on a painted stack, and all from the lowest place that lost its paint upwards was used.

use std::arch::asm;

/// Far more than any call takes: a call that ran beyond it would be seen by its lowest word, or fault.
const WORDS: usize = (16 << 20) / 16;
const PAINT: u128 = 0x243f6a88_85a308d3_13198a2e_03707344;

extern "C" fn enter(call: &mut &mut dyn FnMut()) {
    call()
}

/// Runs a call with the stack pointer at the end of `stack`, which is aligned as the calling convention wants it.
fn run_on(stack: &mut [u128], mut call: &mut dyn FnMut()) {
    let top = stack.as_mut_ptr_range().end;
    unsafe {
        asm!(
            "mov r12, rsp",
            "mov rsp, {top}",
            "call {enter}",
            "mov rsp, r12",
            top = in(reg) top,
            enter = sym enter,
            in("rdi") &mut call,
            out("r12") _,
            clobber_abi("C"),
        );
    }
}

/// The stack as a call leaves it.
fn after(call: &mut dyn FnMut()) -> Vec<u128> {
    let mut stack = vec![PAINT; WORDS];
    run_on(&mut stack, call);
    assert!(stack[0] == PAINT, "the call needs more stack");
    stack
}

fn depth(call: &mut dyn FnMut()) -> usize {
    16 * (WORDS - after(call).iter().take_while(|word| **word == PAINT).count())
}

/// The bytes of stack below the caller's frame, to 16.
pub fn used(call: &mut dyn FnMut()) -> usize {
    depth(call) - depth(&mut || ())
}

/// The bytes of stack that a call wrote to, to 16 each.
pub fn written(call: &mut dyn FnMut()) -> usize {
    16 * after(call).iter().filter(|word| **word != PAINT).count()
}

#[cfg(test)]
mod tests {
    use super::*;
    use std::hint::black_box;
    use std::mem::MaybeUninit;

    /// An array of which nearly nothing is written.
    #[inline(never)]
    fn hole() {
        black_box(&mut MaybeUninit::<[u8; 100_000]>::uninit());
    }

    #[inline(never)]
    fn array<const BYTES: usize>() -> u8 {
        black_box([1u8; BYTES])[BYTES / 2]
    }

    #[inline(never)]
    fn nested(levels: usize) -> u8 {
        if levels == 0 { 0 } else { black_box([levels as u8; 1_000])[7].wrapping_add(nested(levels - 1)) }
    }

    fn of<T>(mut call: impl FnMut() -> T) -> usize {
        used(&mut || { black_box(call()); })
    }

    #[test]
    fn an_array_is_seen_whole() {
        assert_eq!(of(|| ()), 0);
        let (small, large) = (of(array::<10_000>), of(array::<1_000_000>));
        assert!(of(hole) >= 100_000);
        assert!((10_000..30_000).contains(&small), "{small}");
        assert!((1_000_000..2_100_000).contains(&large), "{large}");
    }

    #[test]
    fn a_hole_is_not_written_to() {
        assert!(written(&mut || hole()) < 10_000);
        assert!(written(&mut || { array::<1_000_000>(); }) >= 1_000_000);
    }

    #[test]
    fn each_frame_is_seen() {
        let (few, many) = (of(|| nested(10)), of(|| nested(110)));
        assert!(many - few >= 100_000, "{few} {many}");
    }
}
