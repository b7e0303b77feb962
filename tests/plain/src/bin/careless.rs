//! The first incident again, in an interlocking that clears a route when its points are wanted right, wherever they lie.
//! Prints each event, the first promise that each leaves broken, and ends with 1 if the train was not torn.

use plain::fixed;
use plain::interlocking::Request;
use plain::promises::{check, Broken};
use plain::world::{Event, World};

/// One event, where clearing does not look at how the points lie.
fn step(world: &mut World, plan: &plain::plan::Plan, event: Event) -> bool {
    match event {
        Event::Asked(Request::Clear(r)) => {
            let seen = world.seen();
            let wanted = world.interlocking.wanted.clone();
            world.interlocking.act(plan, &seen, &wanted, Request::Clear(r))
        }
        _ => world.step(plan, event),
    }
}

fn main() {
    let plan = fixed::the_loop(2);
    let mut world = World::new();
    let tick = Event::Asked(Request::Tick);
    let row = [
        Event::Comes(0, false, 5),
        Event::Asked(Request::Ask(4)),
        Event::Asked(Request::Clear(4)),
        Event::Asked(Request::Back(4)),
        tick,
        tick,
        tick,
        Event::Asked(Request::Ask(5)),
        Event::Asked(Request::Clear(5)),
        Event::Goes(0),
        Event::Goes(0),
        Event::Turns(1),
    ];
    let mut torn = false;
    for event in row {
        let done = step(&mut world, &plan, event);
        let broken = check(&plan, &world).err();
        torn |= matches!(broken, Some(Broken::TornTrain { .. }));
        let said = broken.map_or(String::new(), |b| format!("   broken: {b:?}"));
        println!("{}{said}", if done { event.to_string() } else { "can't".to_string() });
    }
    std::process::exit(if torn { 0 } else { 1 });
}
