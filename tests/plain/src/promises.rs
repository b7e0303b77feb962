//! What must hold in every world that a sound plan can reach.

use crate::interlocking::{Request, Stage};
use crate::plan::Plan;
use crate::world::{Event, World};

/// A promise that fails, and the section, train or route where it does.
#[derive(Clone, Copy, PartialEq, Eq, Debug, Hash)]
pub enum Broken {
    /// 1: a section with two trains
    TwoTrains { section: u16 },
    /// 2: a train whose sections don't hang together
    TornTrain { train: u16 },
    /// 3: a point that may turn under a train
    LoosePoint { section: u16, point: u16 },
    /// 4: a signal that may be passed with its path not locked, not free or its points not right
    NotLocked { route: u16, section: u16 },
    NotFree { route: u16, section: u16 },
    NotRight { route: u16, point: u16 },
    /// 5: a train with no signal before it and no free section before it
    NothingAhead { train: u16, section: u16 },
    /// 6: a route that is granted, or could be, and can't come to be shown
    NeverShown { route: u16 },
    /// 7: a used route with no train in its path that can't be let go
    NeverLetGo { route: u16 },
    /// an idle route with a lock
    LockLeft { section: u16, route: u16 },
    /// a train with a section twice
    Twice { train: u16, section: u16 },
    /// noting again changes something
    NotedLate,
    /// without trains not all can be made idle
    Stuck { route: u16 },
}

impl Broken {
    /// The number of the statement, 8 and above for the further ones.
    pub fn number(self) -> u16 {
        match self {
            Broken::TwoTrains { .. } => 1,
            Broken::TornTrain { .. } => 2,
            Broken::LoosePoint { .. } => 3,
            Broken::NotLocked { .. } | Broken::NotFree { .. } | Broken::NotRight { .. } => 4,
            Broken::NothingAhead { .. } => 5,
            Broken::NeverShown { .. } => 6,
            Broken::NeverLetGo { .. } => 7,
            Broken::LockLeft { .. } => 8,
            Broken::Twice { .. } => 9,
            Broken::NotedLate => 10,
            Broken::Stuck { .. } => 11,
        }
    }
}

/// The first promise that fails in a world.
pub fn check(plan: &Plan, world: &World) -> Result<(), Broken> {
    standing(plan, world)?;
    signals(plan, world)?;
    ahead(plan, world)?;
    reachable(plan, world)?;
    further(plan, world)
}

fn standing(plan: &Plan, world: &World) -> Result<(), Broken> {
    let mut holder = [usize::MAX; 64];
    for (t, train) in world.trains.iter().enumerate() {
        for &x in &train.cars {
            let Some(h) = holder.get_mut(x as usize) else { continue };
            if *h != usize::MAX && *h != t {
                return Err(Broken::TwoTrains { section: x });
            }
            *h = t;
        }
    }
    for (t, train) in world.trains.iter().enumerate() {
        for w in train.cars.windows(2) {
            if !plan.hang(train.up, w[1], w[0], |q| world.lie.left(q)) {
                return Err(Broken::TornTrain { train: t as u16 });
            }
        }
    }
    for (q, &x) in plan.places.iter().enumerate() {
        let taken = holder.get(x as usize).map_or(false, |&h| h != usize::MAX);
        if taken && world.lie.0[q] != world.interlocking.wanted.0[q] {
            return Err(Broken::LoosePoint { section: x, point: q as u16 });
        }
    }
    Ok(())
}

fn signals(plan: &Plan, world: &World) -> Result<(), Broken> {
    let seen = world.seen();
    for (r, route) in plan.routes.iter().enumerate() {
        if !world.interlocking.stage[r].passable() {
            continue;
        }
        let r = r as u16;
        for &section in &route.path {
            if world.interlocking.lock_of(section) as u16 != r + 1 {
                return Err(Broken::NotLocked { route: r, section });
            }
            if seen.taken(section) {
                return Err(Broken::NotFree { route: r, section });
            }
        }
        for n in &route.needs {
            if world.lie.left(n.point) != n.left {
                return Err(Broken::NotRight { route: r, point: n.point });
            }
        }
    }
    Ok(())
}

fn ahead(plan: &Plan, world: &World) -> Result<(), Broken> {
    let seen = world.seen();
    for (t, train) in world.trains.iter().enumerate() {
        let Some(front) = train.front() else { continue };
        if plan.signal(train.up, front) {
            continue;
        }
        let next = world.beyond(plan, train.up, front);
        // outside only beyond an edge, where the train can leave
        let fine = if plan.has(next) { !seen.taken(next) } else { plan.edge(front) };
        if !fine {
            return Err(Broken::NothingAhead { train: t as u16, section: front });
        }
    }
    Ok(())
}

fn reachable(plan: &Plan, world: &World) -> Result<(), Broken> {
    let seen = world.seen();
    for (r, route) in plan.routes.iter().enumerate() {
        let which = r as u16;
        match world.interlocking.stage[r] {
            Stage::Idle | Stage::Set => {
                let mut then = World { interlocking: world.interlocking.clone(), lie: world.lie, trains: Vec::new() };
                if world.interlocking.stage[r] == Stage::Idle
                    && !then.interlocking.act(plan, &seen, &world.lie, Request::Ask(which))
                {
                    continue;
                }
                for n in &route.needs {
                    then.step(plan, Event::Turns(n.point));
                }
                let lie = then.lie;
                if !then.interlocking.act(plan, &seen, &lie, Request::Clear(which)) || then.interlocking.stage[r] != Stage::Shown {
                    return Err(Broken::NeverShown { route: which });
                }
            }
            Stage::Used if route.path.iter().all(|&x| !seen.taken(x)) => {
                let mut interlocking = world.interlocking.clone();
                let done = interlocking.act(plan, &seen, &world.lie, Request::Back(which));
                if !done || interlocking.stage[r] != Stage::Idle || interlocking.lock.iter().any(|&l| l as usize == r + 1) {
                    return Err(Broken::NeverLetGo { route: which });
                }
            }
            _ => {}
        }
    }
    Ok(())
}

fn further(plan: &Plan, world: &World) -> Result<(), Broken> {
    for (x, &lock) in world.interlocking.lock.iter().enumerate() {
        if lock != 0 && world.interlocking.stage[lock as usize - 1] == Stage::Idle {
            return Err(Broken::LockLeft { section: x as u16, route: lock as u16 - 1 });
        }
    }
    for (t, train) in world.trains.iter().enumerate() {
        for (i, &x) in train.cars.iter().enumerate() {
            if train.cars[..i].contains(&x) {
                return Err(Broken::Twice { train: t as u16, section: x });
            }
        }
    }
    let mut again = world.interlocking.clone();
    again.note(plan, &world.seen());
    if again != world.interlocking {
        return Err(Broken::NotedLate);
    }
    if world.trains.iter().all(|t| t.cars.is_empty()) {
        all_idle(plan, world)?;
    }
    Ok(())
}

/// Without trains, taking back and ticking lead to all routes idle and nothing locked.
fn all_idle(plan: &Plan, world: &World) -> Result<(), Broken> {
    let mut interlocking = world.interlocking.clone();
    let seen = world.seen();
    let mut ticks = 0;
    for r in 0..plan.routes.len() {
        interlocking.act(plan, &seen, &world.lie, Request::Back(r as u16));
        if let Stage::Falling(n) = interlocking.stage[r] {
            ticks = ticks.max(n + 1);
        }
    }
    for _ in 0..ticks {
        interlocking.act(plan, &seen, &world.lie, Request::Tick);
    }
    if let Some(r) = interlocking.stage.iter().position(|&s| s != Stage::Idle) {
        return Err(Broken::Stuck { route: r as u16 });
    }
    if let Some(&lock) = interlocking.lock.iter().find(|&&l| l != 0) {
        return Err(Broken::Stuck { route: lock as u16 - 1 });
    }
    Ok(())
}

/// Whether two routes share a section of their paths or a point that they need.
pub fn share(plan: &Plan, r: u16, s: u16) -> bool {
    let (a, b) = (&plan.routes[r as usize], &plan.routes[s as usize]);
    a.path.iter().any(|x| b.path.contains(x))
        || a.needs.iter().any(|n| b.needs.iter().any(|m| m.point == n.point))
}

/// Whether asking for two routes in either order gives the same answers and the same state.
pub fn either_order(plan: &Plan, world: &World, r: u16, s: u16) -> bool {
    let seen = world.seen();
    let ask = |first: u16, second: u16| {
        let mut interlocking = world.interlocking.clone();
        let a = interlocking.act(plan, &seen, &world.lie, Request::Ask(first));
        let b = interlocking.act(plan, &seen, &world.lie, Request::Ask(second));
        (a, b, interlocking)
    };
    let (a, b, one) = ask(r, s);
    let (d, c, other) = ask(s, r);
    a == c && b == d && one == other
}
