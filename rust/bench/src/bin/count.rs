//! One call of the proved library, or the last takes of a recorder, to be run under an instruction counter.

use bench::case::{proved, Case};
use bench::recorder::Recorded;

fn main() {
    let (words, input) = bench::instructions::given();
    if let Some(mut recorded) = Recorded::from_words(&words, &input) {
        recorded.run_proved();
        return;
    }
    let case = Case::from_words(&words, input).unwrap_or_else(|| panic!("no case: {words:?}"));
    let mut lent = case.lent();
    proved(&case, &mut lent);
    std::hint::black_box(lent.result);
}
