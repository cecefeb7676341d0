//! Measures how long a question takes through the library for C: sent with all that it is asked about,
//! or asked of a session that was fed that once. A question is whether an instance of COUNT functions
//! fits where an equal one of another collection is asked for.
//!
//!     tools/c-library/build OUT
//!     rustc --edition 2024 -O tools/c-library/speed.rs -Lnative=OUT -lstatic=wac_c -lstatic=libc_c
//!     ./speed [COUNT]...
//!
//! Prints a line for each COUNT, with nanoseconds a question: the least of many short samples.

#[allow(dead_code)]
#[path = "../../examples/rust/wac.rs"]
mod wac;

use std::fmt::Write;
use std::time::{Duration, Instant};

const QUESTION: &str = "subtype 1 I:i0 2 I:i0 co\n";
const SAMPLES: usize = 50;

// Two collections, each with an instance of so many functions.
fn collections(count: usize) -> String {
    let mut script = String::new();
    for number in 1..=2 {
        writeln!(script, "coll {number}\ndef list u8").expect("a text grows");
        for _ in 0..count {
            writeln!(script, "func sync d0 a=d0 b=u32").expect("a text grows");
        }
        write!(script, "iface -").expect("a text grows");
        for at in 0..count {
            write!(script, " e:f{at}=F:fn{at}").expect("a text grows");
        }
        writeln!(script).expect("a text grows");
    }
    script
}

// Nanoseconds a call, of calls that fill two milliseconds at least.
fn least(mut call: impl FnMut()) -> f64 {
    let mut calls = 1u32;
    let mut best = f64::INFINITY;
    let mut samples = 0;
    while samples < SAMPLES {
        let start = Instant::now();
        (0..calls).for_each(|_| call());
        let taken = start.elapsed();
        if taken < Duration::from_millis(2) && calls < 1 << 20 {
            calls *= 2;
            continue;
        }
        best = best.min(taken.as_nanos() as f64 / f64::from(calls));
        samples += 1;
    }
    best
}

fn main() {
    let words: Vec<String> = std::env::args().skip(1).collect();
    let counts: Vec<usize> = words.iter().map(|it| it.parse().expect("a count")).collect();
    let counts = if counts.is_empty() { vec![1, 10, 100, 1000] } else { counts };
    for count in counts {
        let script = collections(count);
        let whole = format!("{script}{QUESTION}");
        assert_eq!(wac::answer_script(&whole).expect("memory"), "1 yes\n");
        let sent = least(|| drop(wac::answer_script(&whole).expect("memory")));
        let mut session = wac::Session::new().expect("memory");
        session.ask(&script).expect("memory");
        let asked = least(|| assert!(session.ask(QUESTION).expect("memory").ends_with(" yes\n")));
        println!("{count} functions: {sent:.0} ns with all of it, {asked:.0} ns of a session");
    }
}
