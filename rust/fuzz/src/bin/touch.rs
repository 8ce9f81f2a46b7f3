//! For the tests of the guard pages: runs cases with a library that also touches what it was not lent, and is to die of it.

use calls::{proved, Fields, Memory, Name};
use fuzz::case::Case;
use fuzz::guard::name_faults;
use fuzz::tally::Tally;
use reference::Question;

fn main() {
    let wanted = std::env::args().nth(1).expect("what to touch");
    name_faults();
    let wanted = wanted.as_str();
    let wrong = |name: Name, question: &Question, memory: Memory| -> Fields {
        touch(wanted, &memory);
        proved(name, question, memory)
    };
    for index in 0..1_000 {
        // a write beside the lent bytes, but in their page, is told by the comparison; a later case has the other edge there
        let _ = Case { seed: 1, index }.run(wrong, &mut Tally::default());
    }
}

/// Reads or writes a byte beside what is lent, or writes what is lent for reading.
fn touch(wanted: &str, memory: &Memory) {
    let [input, work, out] = [memory.input, &*memory.work, &*memory.out].map(|lent| lent.as_ptr().cast_mut());
    // not sound, on purpose: this is what a library must not do
    unsafe {
        match wanted {
            "read after" => drop(input.wrapping_add(memory.input.len()).read_volatile()),
            "read before" => drop(input.wrapping_sub(1).read_volatile()),
            "write after" => work.wrapping_add(memory.work.len()).write_volatile(1),
            "write before" => work.wrapping_sub(1).write_volatile(1),
            "write after the output" => out.wrapping_add(memory.out.len()).write_volatile(1),
            "write before the output" => out.wrapping_sub(1).write_volatile(1),
            "write input" if !memory.input.is_empty() => input.write_volatile(1),
            _ => {}
        }
    }
}
