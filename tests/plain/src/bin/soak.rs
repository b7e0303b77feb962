use std::time::Instant;

use plain::soak::{print, run, Length};

/// `soak N SEED` for N events, `soak plans N SEED` for short rows over N plans.
fn main() {
    let mut args: Vec<String> = std::env::args().skip(1).collect();
    let plans = args.first().is_some_and(|a| a == "plans");
    if plans {
        args.remove(0);
    }
    let n = args.first().and_then(|a| a.parse().ok()).unwrap_or(1_000_000);
    let seed = args.get(1).and_then(|a| a.parse().ok()).unwrap_or(1);
    let start = Instant::now();
    match run(if plans { Length::Plans(n) } else { Length::Events(n) }, seed) {
        Ok(s) => {
            println!(
                "{} events over {} plans, {} done, {} of them trains going on, up to {} trains at once, {} pairs of routes in either order",
                s.events, s.plans, s.done, s.entered, s.most_trains, s.pairs
            );
            let names = ["ask", "clear", "back", "free", "tick", "turns", "comes", "goes", "draws", "reverses", "leaves"];
            let kinds: Vec<String> = names.iter().zip(s.kinds).map(|(n, k)| format!("{n} {k}")).collect();
            println!("done: {}", kinds.join(", "));
            println!("all promises kept, {:.1} s", start.elapsed().as_secs_f64());
        }
        Err(f) => {
            print(&f);
            std::process::exit(1);
        }
    }
}
