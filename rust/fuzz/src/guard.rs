//! Memory beside pages that may not be touched, so that a read or a write outside of what is lent is a fault; and a word of which case
//! met the fault. This module is all of the package's unsafe code.

use std::ffi::c_int;
use std::io::Write;
use std::sync::atomic::{AtomicU64, Ordering::Relaxed};

#[cfg(not(target_os = "linux"))]
compile_error!("guard pages are made by Linux's mmap and mprotect");

/// What is used of the C library, with Linux's numbers.
mod libc {
    use std::ffi::{c_int, c_void};

    pub const READ: c_int = 1;
    pub const WRITE: c_int = 2;
    pub const PRIVATE_ANONYMOUS: c_int = 0x22;
    /// Signals: illegal instruction, bus error, arithmetic error, forbidden address.
    pub const FAULTS: [c_int; 4] = [4, 7, 8, 11];
    pub const DEFAULT_ACTION: usize = 0;
    pub const STANDARD_ERROR: c_int = 2;

    extern "C" {
        pub fn getpagesize() -> c_int;
        pub fn mmap(at: *mut c_void, length: usize, access: c_int, flags: c_int, file: c_int, offset: i64) -> *mut c_void;
        pub fn mprotect(at: *mut c_void, length: usize, access: c_int) -> c_int;
        pub fn munmap(at: *mut c_void, length: usize) -> c_int;
        pub fn signal(number: c_int, action: usize) -> usize;
        pub fn write(file: c_int, bytes: *const c_void, length: usize) -> isize;
    }
}

/// Which end of the lent bytes stands at a forbidden page.
#[derive(Clone, Copy, Debug, PartialEq, Eq)]
pub enum Edge {
    Start,
    End,
}

/// What the bytes of a page hold that are not lent.
const REST: u8 = 0x5a;

/// A mapping: a page that may not be touched, the fewest pages that hold the lent bytes (none for no byte), and another such page.
struct Pages {
    mapping: *mut u8,
    page: usize,
    /// Bytes between the two forbidden pages.
    inner: usize,
    /// Where the lent bytes start, counted from there, and how many there are.
    start: usize,
    length: usize,
}

impl Pages {
    /// A mapping that holds these bytes, and `REST` around them.
    fn new(bytes: &[u8], edge: Edge) -> Self {
        // sound: it has no precondition
        let page = unsafe { libc::getpagesize() } as usize;
        let (length, inner) = (bytes.len(), bytes.len().next_multiple_of(page));
        // sound: a new mapping at a place that the system chooses overlaps nothing
        let mapping = unsafe { libc::mmap(std::ptr::null_mut(), inner + 2 * page, 0, libc::PRIVATE_ANONYMOUS, -1, 0) };
        assert!(mapping as isize != -1, "no memory");
        let start = if edge == Edge::Start { 0 } else { inner - length };
        let mut pages = Pages { mapping: mapping.cast(), page, inner, start, length };
        pages.protect(libc::READ | libc::WRITE);
        pages.all_mut().fill(REST);
        pages.all_mut()[start..start + length].copy_from_slice(bytes);
        pages
    }

    /// Sets what may be done with the inner pages.
    fn protect(&mut self, access: c_int) {
        if self.inner > 0 {
            // sound: these whole pages are part of the mapping, and `&mut` says that nothing borrows them
            let status = unsafe { libc::mprotect(self.mapping.add(self.page).cast(), self.inner, access) };
            assert_eq!(status, 0, "the pages' access cannot be set");
        }
    }

    fn all(&self) -> &[u8] {
        // sound: the inner pages are readable from `new` on, zero at first, and unmapped only by `drop`
        unsafe { std::slice::from_raw_parts(self.mapping.add(self.page), self.inner) }
    }

    /// For pages that may be written, which is so in `new` and for an `Area`.
    fn all_mut(&mut self) -> &mut [u8] {
        // sound: as `all`, and `&mut` says that nothing else borrows them
        unsafe { std::slice::from_raw_parts_mut(self.mapping.add(self.page), self.inner) }
    }

    fn lent(&self) -> &[u8] {
        &self.all()[self.start..self.start + self.length]
    }
}

impl Drop for Pages {
    fn drop(&mut self) {
        // sound: this is the whole mapping, and no borrow of it outlives `self`
        let status = unsafe { libc::munmap(self.mapping.cast(), self.inner + 2 * self.page) };
        assert_eq!(status, 0, "the pages cannot be given back");
    }
}

/// Bytes to read, in pages that may not be written.
pub struct Input(Pages);

impl Input {
    pub fn new(bytes: &[u8], edge: Edge) -> Self {
        let mut pages = Pages::new(bytes, edge);
        pages.protect(libc::READ);
        Input(pages)
    }

    pub fn bytes(&self) -> &[u8] {
        self.0.lent()
    }
}

/// Bytes to read and write.
pub struct Area(Pages);

impl Area {
    pub fn new(bytes: &[u8], edge: Edge) -> Self {
        Area(Pages::new(bytes, edge))
    }

    pub fn bytes(&self) -> &[u8] {
        self.0.lent()
    }

    pub fn bytes_mut(&mut self) -> &mut [u8] {
        let lent = self.0.start..self.0.start + self.0.length;
        &mut self.0.all_mut()[lent]
    }

    /// The bytes beside the lent ones, up to the forbidden pages, are as they were.
    pub fn rest_is_kept(&self) -> bool {
        let Pages { start, length, .. } = self.0;
        let all = self.0.all();
        all[..start].iter().chain(&all[start + length..]).all(|byte| *byte == REST)
    }
}

static SEED: AtomicU64 = AtomicU64::new(0);
static INDEX: AtomicU64 = AtomicU64::new(0);

/// From now on a fault says the case that was announced last, and the process then dies of it as before.
pub fn name_faults() {
    for number in libc::FAULTS {
        // sound: the handler does only what a handler may do
        unsafe { libc::signal(number, on_fault as extern "C" fn(c_int) as usize) };
    }
}

/// Announces the case that is about to run.
pub fn announce(seed: u64, index: u64) {
    SEED.store(seed, Relaxed);
    INDEX.store(index, Relaxed);
}

/// Writes the case's number without taking memory or a lock, then lets the same instruction fault again, with the usual end.
extern "C" fn on_fault(number: c_int) {
    let mut text = [b' '; 100];
    let mut rest = &mut text[..];
    let (seed, index) = (SEED.load(Relaxed), INDEX.load(Relaxed));
    let _ = write!(rest, "signal {number} in case {index}: fuzz/run --seed {seed} --case {index}");
    text[99] = b'\n';
    // sound: the text has that many bytes, and both functions may be called in a handler
    unsafe {
        libc::write(libc::STANDARD_ERROR, text.as_ptr().cast(), text.len());
        libc::signal(number, libc::DEFAULT_ACTION);
    }
}

#[cfg(test)]
mod tests {
    use super::*;

    #[test]
    fn lent_bytes_stand_at_the_edge() {
        for length in [0, 1, 32, 4095, 4096, 4097, 9000] {
            let bytes: Vec<u8> = (0..length).map(|n| n as u8).collect();
            for edge in [Edge::Start, Edge::End] {
                let (input, area) = (Input::new(&bytes, edge), Area::new(&bytes, edge));
                assert_eq!((input.bytes(), area.bytes()), (&bytes[..], &bytes[..]));
                for pages in [&input.0, &area.0] {
                    let at = if edge == Edge::Start { pages.start } else { pages.start + length };
                    assert_eq!(at, if edge == Edge::Start { 0 } else { pages.inner });
                }
            }
        }
    }

    #[test]
    fn a_write_beside_the_lent_bytes_is_seen() {
        for edge in [Edge::Start, Edge::End] {
            let mut area = Area::new(&[7; 32], edge);
            area.bytes_mut().fill(8);
            assert!(area.rest_is_kept());
            let beside = if edge == Edge::Start { 32 } else { area.0.start - 1 };
            area.0.all_mut()[beside] = 0;
            assert!(!area.rest_is_kept());
        }
    }
}
