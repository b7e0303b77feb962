//! For each rule, plans that break it alone: how many rows break which promise.

use plain::gen::{plan_breaking, Rng};
use plain::soak::{row, Fault, Stats};

fn main() {
    let n: usize = std::env::args().nth(1).and_then(|a| a.parse().ok()).unwrap_or(500);
    let only: Option<u16> = std::env::args().nth(2).and_then(|a| a.parse().ok());
    for rule in (1..=12).filter(|&r| only.map_or(true, |o| o == r)) {
        let mut rng = Rng::new(rule as u64);
        let mut counts = [0; 12];
        let mut other = 0;
        for _ in 0..n {
            let mut plan = plan_breaking(&mut rng, rule);
            plan.time = rng.below(2) as u16;
            if let Err(f) = row(&mut rng, &plan, 200, &mut Stats::default()) {
                match f.fault {
                    Fault::Promise(b) => counts[b.number() as usize] += 1,
                    _ => other += 1,
                }
            }
        }
        let list: Vec<String> =
            (1..12).filter(|&i| counts[i] > 0).map(|i| format!("promise {i}: {}", counts[i])).collect();
        println!("rule {rule} broken in {n} plans: {} order: {other}", list.join(", "));
    }
}
