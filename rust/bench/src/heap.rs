//! The most heap that a call has at one time, by an allocator that counts the bytes asked for.

use std::alloc::{GlobalAlloc, Layout, System};
use std::cell::Cell;

#[derive(Clone, Copy, Default)]
struct Count {
    live: isize,
    peak: isize,
}

thread_local! {
    /// None while nothing is counted, so that times are those of the system's allocator.
    static COUNT: Cell<Option<Count>> = const { Cell::new(None) };
}

fn change(bytes: isize) {
    if let Some(Count { live, peak }) = COUNT.get() {
        let live = live + bytes;
        COUNT.set(Some(Count { live, peak: peak.max(live) }));
    }
}

struct Counting;

#[global_allocator]
static COUNTING: Counting = Counting;

unsafe impl GlobalAlloc for Counting {
    unsafe fn alloc(&self, layout: Layout) -> *mut u8 {
        change(layout.size() as isize);
        System.alloc(layout)
    }

    unsafe fn alloc_zeroed(&self, layout: Layout) -> *mut u8 {
        change(layout.size() as isize);
        System.alloc_zeroed(layout)
    }

    unsafe fn realloc(&self, bytes: *mut u8, layout: Layout, size: usize) -> *mut u8 {
        change(size as isize - layout.size() as isize);
        System.realloc(bytes, layout, size)
    }

    unsafe fn dealloc(&self, bytes: *mut u8, layout: Layout) {
        change(-(layout.size() as isize));
        System.dealloc(bytes, layout)
    }
}

/// The most bytes that the call had from the heap at one time.
pub fn peak(call: impl FnOnce()) -> usize {
    COUNT.set(Some(Count::default()));
    call();
    COUNT.take().expect("the count begun above").peak as usize
}

#[cfg(test)]
mod tests {
    use super::*;
    use std::hint::black_box;

    fn take(bytes: usize) -> Vec<u8> {
        black_box(Vec::with_capacity(bytes))
    }

    #[test]
    fn what_is_held_at_once_adds_up_and_what_follows_does_not() {
        assert_eq!(peak(|| ()), 0);
        assert_eq!(peak(|| drop((take(1_000), take(500)))), 1_500);
        assert_eq!(peak(|| { take(1_000); take(500); }), 1_000);
        assert_eq!(peak(|| { take(500); take(1_000); }), 1_000);
    }

    #[test]
    fn zeroed_and_grown_memory_counts() {
        assert_eq!(peak(|| { black_box(vec![0u8; 300]); }), 300);
        assert_eq!(peak(|| { take(300).reserve_exact(700); take(600); }), 700);
        assert_eq!(peak(|| { let mut bytes = vec![1u8; 300]; bytes.truncate(10); bytes.shrink_to_fit(); drop((bytes, take(200))); }), 300);
    }

    /// Memory of another thread, or from before, is not the call's.
    #[test]
    fn only_the_call_counts() {
        let before = take(5_000);
        let other = || { std::thread::spawn(|| { take(1 << 20); }).join().expect("no panic") };
        assert!(peak(|| { drop(before); other(); }) < 5_000);
    }
}
