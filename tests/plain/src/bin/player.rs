//! `player PLAN EVENTS` reads and prints what the proved `player` does, for good texts.

use std::io::{BufWriter, Write};

use plain::text;
use plain::world::World;

fn main() -> Result<(), Box<dyn std::error::Error>> {
    let names: Vec<String> = std::env::args().skip(1).collect();
    let [plan, events] = names.as_slice() else { return Err("usage: player PLAN EVENTS".into()) };
    let plan = text::plan(&std::fs::read_to_string(plan)?).map_err(|line| format!("{plan}: line {line}"))?;
    let (lie, events) = text::events(&std::fs::read_to_string(events)?).map_err(|line| format!("{events}: line {line}"))?;
    let mut out = BufWriter::new(std::io::stdout().lock());
    let mut world = World { lie, ..World::new() };
    for event in events {
        if world.step(&plan, event) {
            writeln!(out, "{event}")?;
        } else {
            writeln!(out, "can't")?;
        }
    }
    Ok(out.flush()?)
}
