//! Prints the list of calls with the Rust's answers, one a line: `answers` those that it answers, `panics` those at which it panics.

use oracle::calls::{Answer, Numbers};
use oracle::extension::HasFrobenius;
use oracle::samples::{self, Draw};
use oracle::systems::*;
use std::collections::HashSet;
use std::env;
use std::panic;
use std::process::ExitCode;

// Any number would do; another one makes another list.
const SEED: u64 = 20_261_118;

fn main() -> ExitCode {
    let panics = match env::args().nth(1).as_deref() {
        Some("answers") => false,
        Some("panics") => true,
        _ => {
            eprintln!("usage: oracle answers | oracle panics");
            return ExitCode::from(2);
        }
    };
    // a panic is an answer here, and not news
    panic::set_hook(Box::new(|_| {}));
    let draw = &mut Draw::new(SEED);
    print::<KoalaBear, System1>(1, draw, panics);
    print::<KoalaBear, System2>(2, draw, panics);
    print::<KoalaBear, System3>(3, draw, panics);
    print::<Mersenne31, System4>(4, draw, panics);
    print::<Complex, System5>(5, draw, panics);
    print::<BabyBear, System6>(6, draw, panics);
    print::<Bit, System7>(7, draw, panics);
    print::<Eleven, System8>(8, draw, panics);
    print::<Eleven, System9>(9, draw, panics);
    ExitCode::SUCCESS
}

fn print<B: Numbers, E: Numbers + HasFrobenius<B>>(system: u32, draw: &mut Draw, panics: bool) {
    // a small system meets a call twice
    let mut printed = HashSet::new();
    // X² − 1 splits: system 9 has no conjugates
    for call in samples::calls::<B, E>(draw, system != 9) {
        let answer = call.ask();
        let line = format!("system {system} {call} = {answer}");
        if (answer == Answer::Panic) == panics && printed.insert(line.clone()) {
            println!("{line}");
        }
    }
}
