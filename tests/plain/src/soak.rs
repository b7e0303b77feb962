//! Random rows of events over random sound plans, with the promises looked at after each event.

use crate::gen::{event, habits, sound_plan, Rng};
use crate::plan::Plan;
use crate::promises::{check, either_order, share, Broken};
use crate::world::{Event, World};

#[derive(Clone, Debug, PartialEq, Eq)]
pub enum Fault {
    Promise(Broken),
    /// something that can't be done changed something
    ChangedNothing,
    /// two routes with nothing in common, asked for in either order
    Order(u16, u16),
}

#[derive(Debug)]
pub struct Failure {
    pub plan: Plan,
    pub events: Vec<Event>,
    pub fault: Fault,
}

#[derive(Clone, Copy, Debug, Default)]
pub struct Stats {
    pub plans: usize,
    pub events: usize,
    pub done: usize,
    /// Done, by kind of event.
    pub kinds: [usize; 11],
    pub entered: usize,
    pub most_trains: usize,
    pub pairs: usize,
}

/// What is looked at after one event.
pub fn look(plan: &Plan, before: &World, after: &World, done: bool) -> Result<(), Fault> {
    if !done && before != after {
        return Err(Fault::ChangedNothing);
    }
    check(plan, after).map_err(Fault::Promise)
}

/// The fault that a row leads to, if any.
pub fn replay(plan: &Plan, events: &[Event]) -> Option<Fault> {
    let mut world = World::new();
    for &e in events {
        let before = world.clone();
        let done = world.step(plan, e);
        if let Err(fault) = look(plan, &before, &world, done) {
            return Some(fault);
        }
    }
    let n = plan.routes.len() as u16;
    for r in 0..n {
        for s in 0..r {
            if !share(plan, r, s) && !either_order(plan, &world, r, s) {
                return Some(Fault::Order(r, s));
            }
        }
    }
    None
}

/// Drops as many as possible while `bad` holds.
pub fn shrink<T: Clone>(row: &[T], mut bad: impl FnMut(&[T]) -> bool) -> Vec<T> {
    let mut row = row.to_vec();
    let mut size = row.len().max(1);
    loop {
        let mut i = 0;
        let mut dropped = false;
        while i < row.len() {
            let mut fewer = row[..i].to_vec();
            fewer.extend_from_slice(&row[(i + size).min(row.len())..]);
            if bad(&fewer) {
                row = fewer;
                dropped = true;
            } else {
                i += size;
            }
        }
        if size == 1 && !dropped {
            return row;
        }
        if size > 1 {
            size /= 2;
        }
    }
}

/// After so many events in which no train moves a row ends: all may stand before each other.
const STILL: usize = 80;

/// One row over one plan.
pub fn row(rng: &mut Rng, plan: &Plan, length: usize, stats: &mut Stats) -> Result<(), Failure> {
    let habits = habits(rng, plan);
    let mut world = World::new();
    let mut events = Vec::new();
    let mut still = 0;
    stats.plans += 1;
    for i in 0..length {
        let e = event(rng, plan, &world, habits);
        events.push(e);
        let before = world.clone();
        let done = world.step(plan, e);
        stats.events += 1;
        stats.done += done as usize;
        stats.kinds[e.to_numbers()[0] as usize] += done as usize;
        stats.entered += (done && matches!(e, Event::Goes(_))) as usize;
        stats.most_trains = stats.most_trains.max(world.trains.iter().filter(|t| !t.cars.is_empty()).count());
        still = if done && before.trains != world.trains { 0 } else { still + 1 };
        let mut found = look(plan, &before, &world, done);
        if found.is_ok() && i % 4 == 0 {
            let (r, s) = (rng.below(plan.routes.len()) as u16, rng.below(plan.routes.len()) as u16);
            if r != s && !share(plan, r, s) {
                stats.pairs += 1;
                if !either_order(plan, &world, r, s) {
                    found = Err(Fault::Order(r, s));
                }
            }
        }
        if let Err(fault) = found {
            return Err(smallest(plan, &events, fault));
        }
        if still > STILL {
            break;
        }
    }
    Ok(())
}

/// The smallest row, and then the fewest routes from the end, with some fault.
pub fn smallest(plan: &Plan, events: &[Event], fault: Fault) -> Failure {
    let mut plan = plan.clone();
    let mut events = shrink(events, |row| replay(&plan, row).is_some());
    while !plan.routes.is_empty() {
        let mut fewer = plan.clone();
        fewer.routes.pop();
        fewer.settle();
        if replay(&fewer, &events).is_none() {
            break;
        }
        plan = fewer;
    }
    events = shrink(&events, |row| replay(&plan, row).is_some());
    let fault = replay(&plan, &events).unwrap_or(fault);
    Failure { plan, events, fault }
}

/// How long a run is: until there were so many events, or so many plans.
#[derive(Clone, Copy, Debug)]
pub enum Length {
    Events(usize),
    /// Short rows, so that there are many plans.
    Plans(usize),
}

pub fn run(length: Length, seed: u64) -> Result<Stats, Failure> {
    let mut rng = Rng::new(seed);
    let mut stats = Stats::default();
    loop {
        let (left, longest) = match length {
            Length::Events(n) => (n.saturating_sub(stats.events), 600),
            Length::Plans(n) => (n.saturating_sub(stats.plans) * 50, 50),
        };
        if left == 0 {
            return Ok(stats);
        }
        let plan = if rng.chance(10) {
            let time = rng.below(3) as u16;
            let mut all = crate::fixed::all(time);
            let i = rng.below(all.len());
            all.swap_remove(i).1
        } else {
            sound_plan(&mut rng)
        };
        let length = rng.between(longest / 12, longest).min(left);
        row(&mut rng, &plan, length, &mut stats)?;
    }
}

pub fn print(failure: &Failure) {
    println!("FAILS: {:?}", failure.fault);
    println!("plan: {:?}", failure.plan.to_numbers());
    for e in &failure.events {
        println!("  {e}");
    }
}
