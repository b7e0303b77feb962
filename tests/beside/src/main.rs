//! The proved library beside the plain player: plans, requests and noting, on the same numbers.

use std::time::Instant;

use beside::proved;
use plain::clock::own;
use plain::compare::{self, Size};

fn main() {
    let args: Vec<String> = std::env::args().skip(1).collect();
    let number = |i: usize, or: u64| args.get(i).and_then(|a| a.parse().ok()).unwrap_or(or);
    let (size, events, plans, seed) = match args.first().map(String::as_str) {
        Some("long") => (Size::LONG, 10_000_000, 1_000_000, number(1, 1)),
        _ => (Size::LARGE, number(0, 200_000) as usize, 0, number(1, 1)),
    };
    let start = (Instant::now(), own());
    match compare::run_sized(&mut proved::Proved, events, plans, seed, size) {
        Ok(tally) => println!("{tally:?}, no difference, {:.0} s, of them {:.0} s spent in the program", start.0.elapsed().as_secs_f64(), own() - start.1),
        Err(difference) => {
            print!("{difference}");
            std::process::exit(1);
        }
    }
}
