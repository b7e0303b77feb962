//! Trains, points and the interlocking together, and what can happen.

use crate::interlocking::{Lie, Request, Seen, State};
use crate::plan::{Plan, POINTS, SECTIONS};

pub const TRAINS: usize = 16;

/// A train: its sections, front first; none when it is nowhere.
#[derive(Clone, PartialEq, Eq, Debug, Default, PartialOrd, Ord)]
pub struct Train {
    pub cars: Vec<u16>,
    pub up: bool,
}

impl Train {
    pub fn front(&self) -> Option<u16> {
        self.cars.first().copied()
    }
}

#[derive(Clone, Copy, PartialEq, Eq, Debug, Hash)]
pub enum Event {
    Asked(Request),
    Turns(u16),
    Comes(u16, bool, u16),
    Goes(u16),
    Draws(u16),
    Reverses(u16),
    Leaves(u16),
}

impl Event {
    /// Kind and up to three numbers: 0 to 4 the requests, 5 turns, 6 comes (train, 1 for up, section), 7 goes, 8 draws, 9 reverses, 10 leaves.
    pub fn to_numbers(self) -> [u16; 4] {
        match self {
            Event::Asked(Request::Ask(r)) => [0, r, 0, 0],
            Event::Asked(Request::Clear(r)) => [1, r, 0, 0],
            Event::Asked(Request::Back(r)) => [2, r, 0, 0],
            Event::Asked(Request::Free(x)) => [3, x, 0, 0],
            Event::Asked(Request::Tick) => [4, 0, 0, 0],
            Event::Turns(q) => [5, q, 0, 0],
            Event::Comes(t, up, x) => [6, t, up as u16, x],
            Event::Goes(t) => [7, t, 0, 0],
            Event::Draws(t) => [8, t, 0, 0],
            Event::Reverses(t) => [9, t, 0, 0],
            Event::Leaves(t) => [10, t, 0, 0],
        }
    }

    pub fn from_numbers(n: [u16; 4]) -> Event {
        match n[0] {
            0..=4 => Event::Asked(Request::from_numbers(n[0], n[1])),
            5 => Event::Turns(n[1]),
            6 => Event::Comes(n[1], n[2] == 1, n[3]),
            7 => Event::Goes(n[1]),
            8 => Event::Draws(n[1]),
            9 => Event::Reverses(n[1]),
            _ => Event::Leaves(n[1]),
        }
    }
}

impl std::fmt::Display for Event {
    fn fmt(&self, f: &mut std::fmt::Formatter) -> std::fmt::Result {
        match self {
            Event::Asked(Request::Ask(r)) => write!(f, "ask {r}"),
            Event::Asked(Request::Clear(r)) => write!(f, "clear {r}"),
            Event::Asked(Request::Back(r)) => write!(f, "back {r}"),
            Event::Asked(Request::Free(x)) => write!(f, "free {x}"),
            Event::Asked(Request::Tick) => write!(f, "tick"),
            Event::Turns(q) => write!(f, "turns {q}"),
            Event::Comes(t, up, x) => write!(f, "comes {t} {} {x}", if *up { "up" } else { "down" }),
            Event::Goes(t) => write!(f, "goes {t}"),
            Event::Draws(t) => write!(f, "draws {t}"),
            Event::Reverses(t) => write!(f, "reverses {t}"),
            Event::Leaves(t) => write!(f, "leaves {t}"),
        }
    }
}

#[derive(Clone, PartialEq, Eq, Debug)]
pub struct World {
    pub interlocking: State,
    pub lie: Lie,
    pub trains: Vec<Train>,
}

impl World {
    pub fn new() -> World {
        World { interlocking: State::new(), lie: Lie([true; POINTS]), trains: vec![Train::default(); TRAINS] }
    }

    pub fn with_trains(n: usize) -> World {
        World { trains: vec![Train::default(); n], ..World::new() }
    }

    pub fn seen(&self) -> Seen {
        let mut seen = Seen::nothing();
        for t in &self.trains {
            for &x in &t.cars {
                if (x as usize) < SECTIONS {
                    seen.0[x as usize] = true;
                }
            }
        }
        seen
    }

    fn train(&self, t: u16) -> Option<&Train> {
        self.trains.get(t as usize).filter(|t| !t.cars.is_empty())
    }

    /// What lies beyond a section, as the points lie.
    pub fn beyond(&self, plan: &Plan, up: bool, section: u16) -> u16 {
        plan.beyond(up, section, |q| self.lie.left(q))
    }

    pub fn can(&self, plan: &Plan, event: Event) -> bool {
        match event {
            Event::Asked(request) => self.interlocking.clone().act(plan, &self.seen(), &self.lie, request),
            Event::Turns(q) => (q as usize) < plan.places.len(),
            Event::Comes(t, up, x) => {
                self.trains.get(t as usize).map_or(false, |t| t.cars.is_empty())
                    && plan.edge(x)
                    && plan.signal(up, x)
                    && !self.seen().taken(x)
                    && self.interlocking.lock_of(x) == 0
            }
            Event::Goes(t) => self.train(t).map_or(false, |t| {
                let front = t.cars[0];
                plan.has(self.beyond(plan, t.up, front))
                    && (!plan.signal(t.up, front)
                        || plan.routes.iter().zip(&self.interlocking.stage).any(|(route, stage)| {
                            route.begin == front && route.up == t.up && stage.passable()
                        }))
            }),
            Event::Draws(t) => self.train(t).map_or(false, |t| t.cars.len() > 1),
            Event::Reverses(t) => self.train(t).map_or(false, |t| plan.signal(!t.up, t.cars[t.cars.len() - 1])),
            Event::Leaves(t) => {
                self.train(t).map_or(false, |t| t.cars.len() == 1 && !plan.has(self.beyond(plan, t.up, t.cars[0])))
            }
        }
    }

    /// Lets an event happen if it can; says whether it did.
    pub fn step(&mut self, plan: &Plan, event: Event) -> bool {
        if let Event::Asked(request) = event {
            let seen = self.seen();
            return self.interlocking.act(plan, &seen, &self.lie, request);
        }
        if !self.can(plan, event) {
            return false;
        }
        match event {
            Event::Asked(_) => {}
            Event::Turns(q) => self.lie.0[q as usize] = self.interlocking.wanted.left(q),
            Event::Comes(t, up, x) => self.trains[t as usize] = Train { cars: vec![x], up },
            Event::Goes(t) => {
                let train = &self.trains[t as usize];
                let next = self.beyond(plan, train.up, train.cars[0]);
                self.trains[t as usize].cars.insert(0, next);
                self.note(plan);
            }
            Event::Draws(t) => {
                self.trains[t as usize].cars.pop();
                self.note(plan);
            }
            Event::Reverses(t) => {
                let train = &mut self.trains[t as usize];
                train.cars.reverse();
                train.up = !train.up;
            }
            Event::Leaves(t) => self.trains[t as usize] = Train::default(),
        }
        true
    }

    pub fn note(&mut self, plan: &Plan) {
        let seen = self.seen();
        self.interlocking.note(plan, &seen);
    }

    /// The world in numbers: memory, how points lie, and for each train 1 for up, how many sections, and the sections.
    pub fn to_numbers(&self) -> Vec<u16> {
        let mut xs = self.interlocking.to_memory();
        xs.extend(self.lie.0.iter().map(|&l| l as u16));
        for t in &self.trains {
            xs.push(t.up as u16);
            xs.push(t.cars.len() as u16);
            xs.extend(&t.cars);
        }
        xs
    }
}

impl Default for World {
    fn default() -> World {
        World::new()
    }
}
