//! All worlds of a small plan, breadth first, with the promises looked at in each.

use std::collections::HashSet;
use std::hash::{BuildHasherDefault, Hasher};

use crate::interlocking::{Request, Stage};
use crate::plan::Plan;
use crate::promises::{check, Broken};
use crate::world::{Event, Train, World};

#[derive(Default)]
pub struct Quick(u64);

impl Hasher for Quick {
    fn finish(&self) -> u64 {
        self.0
    }

    fn write(&mut self, bytes: &[u8]) {
        for &b in bytes {
            self.write_u64(b as u64);
        }
    }

    fn write_u64(&mut self, x: u64) {
        let y = (self.0 ^ x).wrapping_mul(0x9E37_79B9_7F4A_7C15);
        self.0 = y ^ (y >> 29);
    }

    fn write_u128(&mut self, x: u128) {
        self.write_u64(x as u64);
        self.write_u64((x >> 64) as u64);
    }
}

type Keys = HashSet<u128, BuildHasherDefault<Quick>>;

#[derive(Clone, Copy, Debug, Default, PartialEq, Eq)]
pub struct Found {
    /// Worlds in which trains have no names.
    pub worlds: usize,
    /// Worlds in which they have.
    pub named: usize,
    /// Events that were done.
    pub steps: usize,
    pub depth: usize,
    pub cut: bool,
}

#[derive(Debug)]
pub struct Bad {
    pub broken: Broken,
    pub world: World,
    pub found: Found,
}

/// A world as one number, digit by digit: sections, routes, points, trains.
struct Coder<'a> {
    plan: &'a Plan,
    trains: usize,
    lock: u128,
    stage: u128,
    train: u128,
}

impl Coder<'_> {
    fn new(plan: &Plan, trains: usize) -> Option<Coder<'_>> {
        let n = plan.sections.len() as u128;
        let c = Coder {
            plan,
            trains,
            lock: 2 * plan.routes.len() as u128 + 1,
            stage: 5 + plan.time as u128,
            train: 2 * n * n + 1,
        };
        let digits = [
            (plan.sections.len(), c.lock),
            (plan.routes.len(), c.stage),
            (plan.places.len(), 4),
            (trains, c.train),
        ];
        let mut all: u128 = 1;
        for (times, base) in digits {
            for _ in 0..times {
                all = all.checked_mul(base)?;
            }
        }
        Some(c)
    }

    /// A train by its front, its length and its way; how the points lie gives the rest.
    fn train(&self, w: &World, t: &Train) -> Option<u128> {
        let Some(front) = t.front() else { return Some(0) };
        let n = self.plan.sections.len();
        if t.cars.len() > n || self.cars(w, front, t.cars.len(), t.up) != t.cars {
            return None;
        }
        Some(((front as usize * n + t.cars.len() - 1) * 2 + t.up as usize) as u128 + 1)
    }

    fn cars(&self, w: &World, front: u16, length: usize, up: bool) -> Vec<u16> {
        let mut cars = vec![front];
        while cars.len() < length {
            cars.push(w.beyond(self.plan, !up, cars[cars.len() - 1]));
        }
        cars
    }

    /// Nothing if a train's sections don't hang together, or something is passed that isn't locked.
    fn encode(&self, w: &World) -> Option<u128> {
        let mut key: u128 = 0;
        for x in 0..self.plan.sections.len() {
            let digit = match (w.interlocking.lock[x] as u128, w.interlocking.passed[x]) {
                (0, true) => return None,
                (0, false) => 0,
                (l, passed) => 2 * l - 1 + passed as u128,
            };
            key = key * self.lock + digit;
        }
        for r in 0..self.plan.routes.len() {
            key = key * self.stage + w.interlocking.stage[r].to_number() as u128;
        }
        for q in 0..self.plan.places.len() {
            key = key * 4 + 2 * w.interlocking.wanted.0[q] as u128 + w.lie.0[q] as u128;
        }
        let mut trains = Vec::with_capacity(self.trains);
        for t in &w.trains {
            trains.push(self.train(w, t)?);
        }
        trains.sort();
        for t in trains {
            key = key * self.train + t;
        }
        Some(key)
    }

    fn decode(&self, mut key: u128) -> World {
        let mut take = |base: u128| {
            let digit = (key % base) as usize;
            key /= base;
            digit
        };
        let mut w = World::with_trains(self.trains);
        let trains: Vec<usize> = (0..self.trains).map(|_| take(self.train)).collect();
        for q in (0..self.plan.places.len()).rev() {
            let digit = take(4);
            w.interlocking.wanted.0[q] = digit >= 2;
            w.lie.0[q] = digit % 2 == 1;
        }
        for r in (0..self.plan.routes.len()).rev() {
            w.interlocking.stage[r] = Stage::from_number(take(self.stage) as u16);
        }
        for x in (0..self.plan.sections.len()).rev() {
            let digit = take(self.lock);
            w.interlocking.lock[x] = digit.div_ceil(2) as u8;
            w.interlocking.passed[x] = digit > 0 && digit % 2 == 0;
        }
        let n = self.plan.sections.len();
        for (t, &digit) in trains.iter().enumerate() {
            if digit > 0 {
                let (rest, up) = ((digit - 1) / 2, (digit - 1) % 2 == 1);
                w.trains[t] = Train { cars: self.cars(&w, (rest / n) as u16, rest % n + 1, up), up };
            }
        }
        w
    }
}

/// All events that may do something; of trains that are nowhere one comes.
fn events(plan: &Plan, world: &World) -> Vec<Event> {
    let mut out = vec![Event::Asked(Request::Tick)];
    for r in 0..plan.routes.len() as u16 {
        match world.interlocking.stage[r as usize] {
            Stage::Idle => out.push(Event::Asked(Request::Ask(r))),
            Stage::Set => out.extend([Event::Asked(Request::Clear(r)), Event::Asked(Request::Back(r))]),
            _ => out.push(Event::Asked(Request::Back(r))),
        }
    }
    for x in 0..plan.sections.len() as u16 {
        if world.interlocking.lock_of(x) != 0 {
            out.push(Event::Asked(Request::Free(x)));
        }
    }
    for q in 0..plan.places.len() as u16 {
        out.push(Event::Turns(q));
    }
    for t in 0..world.trains.len() as u16 {
        if !world.trains[t as usize].cars.is_empty() {
            out.extend([Event::Goes(t), Event::Draws(t), Event::Reverses(t), Event::Leaves(t)]);
        }
    }
    if let Some(t) = world.trains.iter().position(|t| t.cars.is_empty()) {
        for x in 0..plan.sections.len() as u16 {
            for up in [true, false] {
                if plan.edge(x) {
                    out.push(Event::Comes(t as u16, up, x));
                }
            }
        }
    }
    out
}

fn names(world: &World) -> usize {
    let n = world.trains.len();
    let nowhere = world.trains.iter().filter(|t| t.cars.is_empty()).count();
    (nowhere + 1..=n).product()
}

/// Goes through all worlds, or the first `limit` of them; nothing if the plan is too large to be packed.
pub fn explore(plan: &Plan, trains: usize, limit: usize) -> Option<Result<Found, Bad>> {
    let coder = Coder::new(plan, trains)?;
    let mut found = Found::default();
    let mut known = Keys::default();
    let start = World::with_trains(trains);
    let first = coder.encode(&start)?;
    known.insert(first);
    let mut layer = vec![first];
    while !layer.is_empty() {
        let mut next = Vec::new();
        for key in layer {
            let world = coder.decode(key);
            found.worlds += 1;
            found.named += names(&world);
            if let Err(broken) = check(plan, &world) {
                return Some(Err(Bad { broken, world, found }));
            }
            for e in events(plan, &world) {
                let mut then = world.clone();
                if !then.step(plan, e) {
                    continue;
                }
                found.steps += 1;
                let Some(key) = coder.encode(&then) else {
                    let broken = check(plan, &then).err().unwrap_or(Broken::NotedLate);
                    return Some(Err(Bad { broken, world: then, found }));
                };
                if known.insert(key) {
                    next.push(key);
                }
            }
            if found.worlds >= limit {
                found.cut = true;
                return Some(Ok(found));
            }
        }
        layer = next;
        found.depth += 1;
    }
    Some(Ok(found))
}

/// Whether the key of a world leads back to it.
pub fn packs(plan: &Plan, world: &World) -> bool {
    match Coder::new(plan, world.trains.len()) {
        Some(c) => {
            let mut sorted = world.clone();
            sorted.trains.sort_by_key(|t| std::cmp::Reverse(c.train(world, t)));
            c.encode(world).map(|key| c.decode(key)) == Some(sorted)
        }
        None => true,
    }
}
