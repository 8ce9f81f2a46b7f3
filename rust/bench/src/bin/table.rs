//! The table: each exported call beside the Rust version and OpenSSL, in one run; and that of a running recorder, which `recorder` prints alone.

use bench::case::{one_by_one, plain_rust, proved, Case, Lent};
use bench::measure::{measure, Measured, Way, TURNS};
use bench::openssl::{OpenSsl, Strings};
use bench::table::{headings, subjects, Row, Subject};
use bench::{heap, instructions, plain, recorder, stack};
use calls::Name;
use std::hint::black_box;

fn main() {
    if std::env::args().nth(1).as_deref() == Some("recorder") {
        return recorder::print();
    }
    let openssl = OpenSsl::load();
    notes(&openssl);
    println!("{}", headings());
    let mut rows = Vec::new();
    for subject in subjects() {
        let row = measured(subject, &openssl);
        println!("{}", row.line(&rows));
        rows.push(row);
    }
    println!();
    recorder::print();
}

fn notes(openssl: &Option<OpenSsl>) {
    println!("no buffer is cleared before a call; the library clears the work area at its end, the Rust version at its start: timed");
    println!("ns, instructions, input, work, output and Rust heap are by record, of `hash` by byte; `listing` ends at 512 records");
    println!("to Rust: speed, more is faster; one by one: the same, if the Rust version hashes each string by itself, not eight side by side");
    println!("to OpenSSL: time, by that for the call's strings; all three are medians of {TURNS} interleaved turns");
    match openssl {
        None => println!("libcrypto.so.3 is not there"),
        Some(found) if found.masked => println!("{}, this processor's SHA instructions masked", found.version),
        Some(found) => println!("{}, this processor has no SHA instructions", found.version),
    }
}

/// The Rust version's call: for hash the version that the row names, of which the plain one gives the output alone.
fn rust(subject: &Subject, case: &Case, lent: &mut Lent) {
    if (subject.call, subject.shape) == (Name::Hash, "plain") {
        lent.out.copy_from_slice(&plain::sha256(&case.input));
    } else {
        plain_rust(case, lent);
    }
}

/// The memory that each side is lent.
struct Sides {
    own: Lent,
    other: Lent,
    /// Of the Rust version with every string hashed by itself, if it has the call.
    alone: Option<Lent>,
}

impl Sides {
    /// All sides give the same, and the case is not turned away.
    fn compared(subject: &Subject, case: &Case) -> Self {
        let (mut own, mut other, mut alone) = (case.lent(), case.lent(), case.lent());
        proved(case, &mut own);
        rust(subject, case, &mut other);
        let alone = one_by_one(case, &mut alone).then_some(alone);
        assert_eq!(own.result.get("number"), 0, "{subject:?}");
        assert!(subject.shape == "plain" || own.result == other.result, "{subject:?}");
        assert_eq!(own.out, other.out, "{subject:?}");
        assert!(alone.iter().all(|alone| (alone.result, &alone.out) == (own.result, &own.out)), "{subject:?}");
        Sides { own, other, alone }
    }
}

/// The proved library's time, the Rust version's, that with every string hashed by itself, if it has the call, and OpenSSL's, if there is one.
fn times(subject: &Subject, case: &Case, openssl: &Option<OpenSsl>, sides: &mut Sides) -> Vec<Measured> {
    let strings = Strings::new(&case.strings());
    let Sides { own, other, alone } = sides;
    let mut ways: Vec<Way> = vec![
        Box::new(|| proved(black_box(case), own)),
        Box::new(|| rust(subject, black_box(case), other)),
    ];
    if let Some(alone) = alone {
        ways.push(Box::new(|| { one_by_one(black_box(case), alone); }));
    }
    if let Some(found) = openssl.as_ref().filter(|_| !strings.is_empty()) {
        ways.push(Box::new(|| found.hash_all(black_box(&strings))));
    }
    measure(&mut ways)
}

fn measured(subject: Subject, openssl: &Option<OpenSsl>) -> Row {
    let case = Case::new(&subject);
    let mut sides = Sides::compared(&subject, &case);
    let times = times(&subject, &case, openssl, &mut sides);
    let mut ratios = times.iter().skip(1).map(|measured| measured.ratio);
    Row {
        subject,
        seconds: times[0].seconds,
        to_rust: ratios.next().expect("the Rust version's"),
        to_one_by_one: if sides.alone.is_some() { ratios.next() } else { None },
        to_openssl: ratios.next().map(|ratio| 1.0 / ratio),
        instructions: instructions::count(&case),
        lent: [case.input.len(), case.work, case.out],
        stack: stack::used(&mut || proved(&case, &mut sides.own)),
        heap: heap::peak(|| rust(&subject, &case, &mut sides.other)),
    }
}
