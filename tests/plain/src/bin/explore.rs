use plain::clock::own;
use plain::explore::explore;
use plain::gen::{small_plan, Rng};

/// `explore` goes through the loop, `explore fixed TRAINS LIMIT` through all fixed plans, `explore plans N SEED LIMIT` through N small random sound plans.
fn main() {
    let args: Vec<String> = std::env::args().skip(1).collect();
    let number = |i: usize, or: usize| args.get(i).and_then(|a| a.parse().ok()).unwrap_or(or);
    if args.first().map(String::as_str) == Some("plans") {
        let mut rng = Rng::new(number(2, 1) as u64);
        let (mut plans, mut worlds, mut cut) = (0, 0, 0);
        while plans < number(1, 100) {
            let mut plan = small_plan(&mut rng, 8, 10);
            plan.time = rng.below(2) as u16;
            match explore(&plan, rng.between(2, 3), number(3, 20_000)) {
                None => {}
                Some(Ok(f)) => {
                    plans += 1;
                    worlds += f.worlds;
                    cut += f.cut as usize;
                }
                Some(Err(bad)) => {
                    println!("FAILS: {:?}\nplan: {:?}\nworld: {:?}", bad.broken, plan.to_numbers(), bad.world);
                    std::process::exit(1);
                }
            }
        }
        println!("{plans} plans, {worlds} worlds, {cut} plans cut short, {:.2} s", own());
        return;
    }
    let mut todo = Vec::new();
    let mut limit = usize::MAX;
    if args.first().map(String::as_str) == Some("fixed") {
        todo.extend(plain::fixed::all(0).into_iter().map(|(name, plan)| (name, plan, number(1, 2))));
        limit = number(2, 1_000_000);
    } else {
        for (trains, time) in [(2, 0), (2, 1), (3, 0), (3, 1)] {
            todo.push(("loop", plain::fixed::the_loop(time), trains));
        }
    }
    for (name, plan, trains) in todo {
        let start = own();
        let time = plan.time;
        let Some(result) = explore(&plan, trains, limit) else {
            println!("{name}: too large to be packed");
            continue;
        };
        match result {
            Ok(f) => println!(
                "{name}, {trains} trains, time {time}: {} worlds ({} with named trains), {} steps, depth {}{}, {:.2} s",
                f.worlds,
                f.named,
                f.steps,
                f.depth,
                if f.cut { ", cut short" } else { "" },
                own() - start
            ),
            Err(bad) => {
                println!("FAILS: {:?}\nworld: {:?}", bad.broken, bad.world);
                std::process::exit(1);
            }
        }
    }
}
