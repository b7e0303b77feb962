use std::time::Instant;

use plain::compare::{run, Plain};

/// The self test of the comparison: this implementation beside itself.
fn main() {
    let args: Vec<u64> = std::env::args().skip(1).filter_map(|a| a.parse().ok()).collect();
    let start = Instant::now();
    match run(&mut Plain, args.first().copied().unwrap_or(20_000) as usize, args.get(1).copied().unwrap_or(1)) {
        Ok(t) => println!("{t:?}, no difference, {:.1} s", start.elapsed().as_secs_f64()),
        Err(d) => {
            print!("{d}");
            std::process::exit(1);
        }
    }
}
