//! Random plans, rows of events, memories and malformed numbers, all from a seed.

use crate::interlocking::{empty_memory, Request, Stage};
use crate::judge::{broken, judge, Verdict};
use crate::plan::{length_of, End, Need, Plan, Refusal, Route, Section, LARGEST, LONGEST, POINTS, ROUTES, SECTIONS};
use crate::world::{Event, World, TRAINS};

/// A small xorshift generator.
#[derive(Clone, Debug)]
pub struct Rng(u64);

impl Rng {
    pub fn new(seed: u64) -> Rng {
        let mut rng = Rng(seed.wrapping_mul(0x9E37_79B9_7F4A_7C15) ^ 0x2545_F491_4F6C_DD1D);
        if rng.0 == 0 {
            rng.0 = 1;
        }
        for _ in 0..8 {
            rng.next();
        }
        rng
    }

    pub fn next(&mut self) -> u64 {
        self.0 ^= self.0 << 13;
        self.0 ^= self.0 >> 7;
        self.0 ^= self.0 << 17;
        self.0.wrapping_mul(0x2545_F491_4F6C_DD1D)
    }

    /// A number below n.
    pub fn below(&mut self, n: usize) -> usize {
        ((self.next() >> 33) as usize) % n.max(1)
    }

    pub fn between(&mut self, low: usize, high: usize) -> usize {
        low + self.below(high - low + 1)
    }

    /// True so many times of a hundred.
    pub fn chance(&mut self, percent: usize) -> bool {
        self.below(100) < percent
    }

    pub fn pick<'a, T>(&mut self, xs: &'a [T]) -> &'a T {
        &xs[self.below(xs.len())]
    }

    pub fn shuffle<T>(&mut self, xs: &mut [T]) {
        for i in (1..xs.len()).rev() {
            xs.swap(i, self.below(i + 1));
        }
    }
}

// Routes

const MANY_ROUTES: usize = 200;

/// All routes from each signal to the next, or to an edge. Points on the path that move nothing on it are needed left, or at random.
pub fn derive_routes(plan: &Plan, mut rng: Option<&mut Rng>) -> Vec<Route> {
    let mut out = Vec::new();
    for up in [true, false] {
        for x in 0..plan.sections.len() as u16 {
            if plan.signal(up, x) {
                let mut route = Route { begin: x, up, path: Vec::new(), needs: Vec::new() };
                go_on(plan, &mut route, x, &mut rng, &mut out);
            }
        }
    }
    out
}

fn ways(end: &End, needs: &[Need]) -> Vec<(u16, Option<Need>)> {
    if !end.moves {
        return vec![(end.left, None)];
    }
    let known = needs.iter().find(|n| n.point == end.point);
    [true, false]
        .into_iter()
        .filter(|&left| known.map_or(true, |n| n.left == left))
        .map(|left| {
            let need = if known.is_none() { Some(Need { point: end.point, left }) } else { None };
            (if left { end.left } else { end.right }, need)
        })
        .collect()
}

fn go_on(plan: &Plan, route: &mut Route, from: u16, rng: &mut Option<&mut Rng>, out: &mut Vec<Route>) {
    if route.path.len() == LONGEST || out.len() >= MANY_ROUTES {
        return;
    }
    for (next, need) in ways(plan.sections[from as usize].end(route.up), &route.needs) {
        if !plan.has(next) || next == route.begin || route.path.contains(&next) {
            continue;
        }
        let kept = route.needs.len();
        route.needs.extend(need);
        for (behind, need) in ways(plan.sections[next as usize].end(!route.up), &route.needs) {
            if behind != from {
                continue;
            }
            let kept = route.needs.len();
            route.needs.extend(need);
            route.path.push(next);
            if plan.signal(route.up, next) || plan.edge(next) {
                finish(plan, route, rng, out);
            } else {
                go_on(plan, route, next, rng, out);
            }
            route.path.pop();
            route.needs.truncate(kept);
        }
        route.needs.truncate(kept);
    }
}

fn finish(plan: &Plan, route: &Route, rng: &mut Option<&mut Rng>, out: &mut Vec<Route>) {
    let mut route = route.clone();
    for (q, place) in plan.places.iter().enumerate() {
        let q = q as u16;
        if route.path.contains(place) && !route.needs.iter().any(|n| n.point == q) {
            let left = rng.as_mut().map_or(true, |r| r.chance(50));
            route.needs.push(Need { point: q, left });
        }
    }
    if route.needs.len() <= LONGEST {
        out.push(route);
    }
}

// Layouts

/// An end of track that leads nowhere yet: a section, and which leg of its point.
#[derive(Clone, Copy)]
struct Loose {
    section: u16,
    leg: Option<bool>,
}

struct Layout {
    sections: Vec<Section>,
    places: Vec<u16>,
    loose: Vec<Loose>,
    outside: u16,
}

impl Layout {
    fn add(&mut self) -> u16 {
        self.sections.push(Section::new(End::fixed(self.outside), End::fixed(self.outside)));
        self.sections.len() as u16 - 1
    }

    fn point(&mut self, place: u16) -> u16 {
        self.places.push(place);
        self.places.len() as u16 - 1
    }

    fn lead(&mut self, l: Loose, to: u16) {
        let end = &mut self.sections[l.section as usize].upper;
        match l.leg {
            Some(false) => end.right = to,
            _ => end.left = to,
        }
    }

    fn take(&mut self, rng: &mut Rng) -> Loose {
        let i = rng.below(self.loose.len());
        self.loose.swap_remove(i)
    }

    /// One more section beyond a loose end.
    fn extend(&mut self, l: Loose) -> u16 {
        let n = self.add();
        self.lead(l, n);
        self.sections[n as usize].lower = End::fixed(l.section);
        n
    }

    fn fork(&mut self, n: u16, q: u16) {
        self.sections[n as usize].upper = End::moved(q, self.outside, self.outside);
        self.loose.push(Loose { section: n, leg: Some(true) });
        self.loose.push(Loose { section: n, leg: Some(false) });
    }

    fn merge(&mut self, a: Loose, b: Loose) -> (u16, u16) {
        let n = self.add();
        let q = self.point(n);
        self.lead(a, n);
        self.lead(b, n);
        self.sections[n as usize].lower = End::moved(q, a.section, b.section);
        (n, q)
    }

    fn both_signals(&mut self, n: u16) {
        self.sections[n as usize].signal_up = true;
        self.sections[n as usize].signal_down = true;
    }

    fn room(&self, sections: usize, points: usize) -> bool {
        self.sections.len() + sections + self.loose.len() <= SECTIONS && self.places.len() + points <= POINTS
    }
}

/// A layout grown from below: lines, passing loops, crossovers, slips, platforms, sidings and rings.
fn layout(rng: &mut Rng) -> Layout {
    let mut y = Layout { sections: Vec::new(), places: Vec::new(), loose: Vec::new(), outside: 0 };
    y.outside = if rng.chance(50) { 1000 } else { rng.between(64, 1000) as u16 };
    let mut bases = Vec::new();
    for _ in 0..rng.between(1, 3) {
        let n = y.add();
        y.loose.push(Loose { section: n, leg: None });
        if rng.chance(75) {
            y.sections[n as usize].edge = true;
            y.sections[n as usize].signal_up = true;
        } else {
            y.both_signals(n);
            bases.push(n);
        }
    }
    let size = match rng.below(10) {
        0 => rng.between(50, 64),
        1 | 2 => rng.between(15, 30),
        3..=5 => rng.between(6, 14),
        _ => rng.between(2, 6),
    };
    while y.sections.len() < size {
        match rng.below(7) {
            0 | 1 if y.room(1, 0) => {
                let l = y.take(rng);
                let n = y.extend(l);
                y.loose.push(Loose { section: n, leg: None });
            }
            2 if y.room(3, 1) => {
                let l = y.take(rng);
                let n = y.extend(l);
                let q = y.point(n);
                y.fork(n, q);
            }
            3 if y.room(6, 2) => {
                // a passing loop
                let l = y.take(rng);
                let n = y.extend(l);
                let q = y.point(n);
                y.fork(n, q);
                let (b, a) = (y.loose.pop().unwrap(), y.loose.pop().unwrap());
                let (a, b) = (y.extend(a), y.extend(b));
                for x in [a, b] {
                    if rng.chance(80) {
                        y.both_signals(x);
                    }
                }
                let leg = |section| Loose { section, leg: None };
                let (n, _) = y.merge(leg(a), leg(b));
                y.loose.push(leg(n));
            }
            4 | 5 if y.loose.len() > 1 && y.room(2, 1) => {
                let (a, b) = (y.take(rng), y.take(rng));
                let (n, _) = y.merge(a, b);
                y.loose.push(Loose { section: n, leg: None });
            }
            6 if y.loose.len() > 1 && y.room(4, 2) => {
                // one point for both ends, or one for each
                let (a, b) = (y.take(rng), y.take(rng));
                let (n, q) = y.merge(a, b);
                let p = if rng.chance(50) { q } else { y.point(n) };
                y.fork(n, p);
            }
            _ if !y.room(1, 0) => break,
            _ => {}
        }
    }
    while let Some(l) = y.loose.pop() {
        if !bases.is_empty() && rng.chance(30) {
            // back to a base from above: a ring
            let n = bases.pop().unwrap();
            y.lead(l, n);
            y.sections[n as usize].lower = End::fixed(l.section);
            if rng.chance(50) {
                y.sections[n as usize].signal_down = rng.chance(50);
                y.sections[n as usize].signal_up = rng.chance(70);
            }
            continue;
        }
        if y.sections.len() >= SECTIONS {
            continue;
        }
        let n = y.extend(l);
        if rng.chance(65) {
            y.sections[n as usize].edge = true;
            y.sections[n as usize].signal_down = true;
            y.sections[n as usize].signal_up = rng.chance(15);
        } else {
            y.both_signals(n);
        }
    }
    let share = rng.below(50);
    for s in &mut y.sections {
        if !s.edge {
            s.signal_up |= rng.chance(share);
            s.signal_down |= rng.chance(share);
        }
    }
    y
}

/// Few sections with ends that lead anywhere, some of them to each other.
fn strange_layout(rng: &mut Rng) -> Layout {
    let n = rng.between(2, 8);
    let mut y = Layout { sections: Vec::new(), places: Vec::new(), loose: Vec::new(), outside: n as u16 };
    for _ in 0..n {
        let x = y.add();
        y.sections[x as usize].edge = rng.chance(35);
    }
    for x in 0..n as u16 {
        if !y.sections[x as usize].edge {
            for _ in 0..rng.below(3) {
                let q = y.point(x);
                for up in [true, false] {
                    if rng.chance(60) {
                        let outside = y.outside;
                        *y.sections[x as usize].end_mut(up) = End::moved(q, outside, outside);
                    }
                }
            }
        }
    }
    for _ in 0..rng.between(n, 4 * n) {
        let (a, b) = (rng.below(n), rng.below(n));
        for (x, y_, up) in [(a, b, true), (b, a, false)] {
            if rng.chance(95) {
                let end = y.sections[x].end_mut(up);
                if end.moves && rng.chance(50) {
                    end.right = y_ as u16;
                } else {
                    end.left = y_ as u16;
                }
            }
        }
    }
    let share = rng.between(20, 80);
    for x in 0..n {
        for up in [true, false] {
            let s = &mut y.sections[x];
            let inside = s.end(up).left < n as u16 || (s.end(up).moves && s.end(up).right < n as u16);
            let there = rng.chance(share) || (s.edge && inside);
            s.set_signal(up, there);
        }
    }
    y
}

fn relabel(plan: &mut Plan, rng: &mut Rng) {
    let n = plan.sections.len();
    let mut new: Vec<usize> = (0..n).collect();
    rng.shuffle(&mut new);
    let mut new_point: Vec<usize> = (0..plan.places.len()).collect();
    rng.shuffle(&mut new_point);
    let name = |x: u16| if (x as usize) < n { new[x as usize] as u16 } else { x };
    let mut sections = plan.sections.clone();
    for (x, s) in plan.sections.iter().enumerate() {
        let mut s = *s;
        for up in [true, false] {
            let e = s.end_mut(up);
            e.left = name(e.left);
            e.right = name(e.right);
            if e.moves {
                e.point = new_point[e.point as usize] as u16;
            }
        }
        sections[new[x]] = s;
    }
    let mut places = plan.places.clone();
    for (q, &x) in plan.places.iter().enumerate() {
        places[new_point[q]] = name(x);
    }
    plan.sections = sections;
    plan.places = places;
}

/// Makes a plan of a layout; it is sound in nearly all cases.
fn plan_of(y: Layout, rng: &mut Rng) -> Plan {
    let time = *rng.pick(&[0, 0, 1, 2, 3, 1000]);
    let mut plan = Plan::new(y.sections, y.places, Vec::new(), time);
    if rng.chance(20) && plan.places.len() < POINTS {
        // a point that moves nothing
        let free: Vec<u16> = (0..plan.sections.len() as u16).filter(|&x| !plan.edge(x)).collect();
        if !free.is_empty() {
            plan.places.push(*rng.pick(&free));
        }
    }
    relabel(&mut plan, rng);
    let mut routes = derive_routes(&plan, Some(rng));
    rng.shuffle(&mut routes);
    let most = if rng.chance(30) { rng.between(1, ROUTES) } else { ROUTES };
    routes.truncate(most);
    for r in &mut routes {
        if rng.chance(8) && !plan.places.is_empty() && r.needs.len() < LONGEST {
            // a point beside the path
            let q = rng.below(plan.places.len()) as u16;
            if !r.needs.iter().any(|n| n.point == q) {
                r.needs.push(Need { point: q, left: rng.chance(50) });
            }
        }
        if rng.chance(3) && !r.needs.is_empty() && r.needs.len() < LONGEST {
            let n = *rng.pick(&r.needs);
            r.needs.push(n);
        }
    }
    if rng.chance(10) && !routes.is_empty() && routes.len() < ROUTES {
        let again = rng.pick(&routes).clone();
        routes.push(again);
    }
    plan.routes = routes;
    plan.settle();
    plan
}

/// A random sound plan with at least one route.
pub fn sound_plan(rng: &mut Rng) -> Plan {
    loop {
        let y = if rng.chance(75) { layout(rng) } else { strange_layout(rng) };
        let plan = plan_of(y, rng);
        let comes = plan.routes.iter().any(|r| plan.edge(r.begin));
        if (comes || rng.chance(3)) && !plan.routes.is_empty() && judge(&plan) == Verdict::Sound {
            return plan;
        }
    }
}

/// A small sound plan, for going through all worlds.
pub fn small_plan(rng: &mut Rng, sections: usize, routes: usize) -> Plan {
    loop {
        let plan = sound_plan(rng);
        if plan.sections.len() <= sections && plan.routes.len() <= routes && plan.places.len() <= 4 {
            return plan;
        }
    }
}

// Unsound plans

fn set_signal(plan: &mut Plan, section: u16, up: bool, there: bool) {
    if let Some(s) = plan.sections.get_mut(section as usize) {
        s.set_signal(up, there);
    }
}

fn mutate(plan: &mut Plan, rule: u16, rng: &mut Rng) {
    let n = plan.sections.len();
    if plan.routes.is_empty() {
        return;
    }
    let r = rng.below(plan.routes.len());
    let any_section = |rng: &mut Rng| if rng.chance(90) { rng.below(n) } else { rng.between(n, 1000) } as u16;
    match rule {
        1 => {
            let route = &mut plan.routes[r];
            if rng.chance(70) {
                let (up, x) = (route.up, route.begin);
                set_signal(plan, x, up, false);
            } else {
                route.begin = any_section(rng);
            }
        }
        2 => plan.routes[r].path.clear(),
        3 => {
            // to be found on a ring: the path goes on to where it begins
            let begin = plan.routes[r].begin;
            if plan.routes[r].path.len() < LONGEST {
                if let Some(&last) = plan.routes[r].path.last() {
                    let up = plan.routes[r].up;
                    set_signal(plan, last, up, false);
                }
                plan.routes[r].path.push(begin);
                for q in 0..plan.places.len() {
                    let route = &mut plan.routes[r];
                    if plan.places[q] == begin && route.needs.len() < LONGEST && !route.needs.iter().any(|n| n.point as usize == q) {
                        route.needs.push(Need { point: q as u16, left: rng.chance(50) });
                    }
                }
            }
        }
        4 => {
            let route = &mut plan.routes[r];
            if !route.needs.is_empty() && route.needs.len() < LONGEST {
                let n = *rng.pick(&route.needs);
                let at = rng.below(route.needs.len() + 1);
                route.needs.insert(at, Need { point: n.point, left: !n.left });
            }
        }
        5 => {
            let point = rng.between(plan.places.len(), plan.places.len() + rng.clone().below(60)) as u16;
            let route = &mut plan.routes[r];
            if route.needs.len() < LONGEST {
                route.needs.push(Need { point, left: rng.chance(50) });
            }
        }
        6 => {
            let route = &mut plan.routes[r];
            match rng.below(3) {
                0 if !route.needs.is_empty() => {
                    let i = rng.below(route.needs.len());
                    route.needs[i].left ^= true;
                }
                1 if !route.path.is_empty() => {
                    let i = rng.below(route.path.len());
                    route.path[i] = any_section(rng);
                }
                _ => {
                    let x = rng.below(n);
                    let up = rng.chance(50);
                    let to = any_section(rng);
                    plan.sections[x].end_mut(up).left = to;
                }
            }
        }
        7 => {
            let route = plan.routes[r].clone();
            if route.path.len() > 1 {
                let x = route.path[rng.below(route.path.len() - 1)];
                set_signal(plan, x, route.up, true);
            }
        }
        8 => {
            let route = plan.routes[r].clone();
            if rng.chance(70) {
                if route.path.len() > 1 {
                    let keep = rng.between(1, route.path.len() - 1);
                    plan.routes[r].path.truncate(keep);
                }
            } else if let Some(&x) = route.path.last() {
                set_signal(plan, x, route.up, false);
                if let Some(s) = plan.sections.get_mut(x as usize) {
                    s.edge = false;
                }
            }
        }
        9 => {
            let route = &mut plan.routes[r];
            if !route.needs.is_empty() {
                let i = rng.below(route.needs.len());
                let point = route.needs[i].point;
                route.needs.retain(|n| n.point != point);
            }
        }
        10 => match rng.below(3) {
            0 if !plan.places.is_empty() => {
                // elsewhere, and without the routes that would have to need it now
                let q = rng.below(plan.places.len());
                let x = any_section(rng);
                plan.places[q] = x;
                plan.routes.retain(|r| !r.path.contains(&x) || r.needs.iter().any(|n| n.point as usize == q));
            }
            1 => {
                let x = rng.below(n);
                let end = *plan.sections[x].end(rng.clone().chance(50));
                let q = rng.between(0, plan.places.len()) as u16;
                *plan.sections[x].end_mut(rng.chance(50)) = End::moved(q, end.left, end.left);
            }
            _ => {
                if plan.places.len() < POINTS {
                    plan.places.push(any_section(rng));
                }
            }
        },
        11 => {
            let x = rng.below(n);
            if rng.chance(50) && plan.places.len() < POINTS && plan.sections[x].edge {
                plan.places.push(x as u16);
                let q = plan.places.len() as u16 - 1;
                for route in &mut plan.routes {
                    if route.path.contains(&(x as u16)) && route.needs.len() < LONGEST {
                        route.needs.push(Need { point: q, left: rng.chance(50) });
                    }
                }
            } else {
                plan.sections[x].edge = true;
            }
        }
        _ => {
            let x = rng.below(n);
            match rng.below(3) {
                0 => plan.sections[x].edge = true,
                1 => plan.sections[x].set_signal(rng.clone().chance(50), false),
                _ => {
                    if plan.sections[x].edge {
                        let to = any_section(rng);
                        *plan.sections[x].end_mut(rng.chance(50)) = End::fixed(to);
                    }
                }
            }
        }
    }
}

/// A plan that breaks this one rule and no other.
pub fn plan_breaking(rng: &mut Rng, rule: u16) -> Plan {
    loop {
        let mut plan = sound_plan(rng);
        if rng.chance(40) {
            plan.routes.truncate(2);
        }
        for _ in 0..4 {
            let mut m = plan.clone();
            mutate(&mut m, rule, rng);
            m.settle();
            if broken(&m) == [rule] {
                return m;
            }
        }
    }
}

/// A plan changed in a few places, sound or not.
pub fn any_plan(rng: &mut Rng) -> Plan {
    let mut plan = sound_plan(rng);
    for _ in 0..rng.below(4) {
        let rule = rng.between(1, 12) as u16;
        mutate(&mut plan, rule, rng);
    }
    plan.settle();
    plan
}

/// Well-formed numbers, with anything in them.
pub fn any_numbers(rng: &mut Rng) -> Vec<u16> {
    let plan = any_plan(rng);
    let mut xs = plan.to_numbers();
    let (sections, points, routes) = (plan.sections.len(), plan.places.len(), plan.routes.len());
    let first = length_of(sections, points, 0);
    let changes = if rng.chance(50) { rng.below(3) } else { rng.below(40) };
    for _ in 0..changes {
        let i = rng.between(4, xs.len() - 1);
        let counts = i >= first && matches!((i - first) % 52, 2 | 3);
        let most = match rng.below(6) {
            0 | 1 => 2,
            2 => sections + 1,
            3 => 35.max(points),
            4 => 70,
            _ => LARGEST as usize,
        };
        xs[i] = rng.between(0, if counts { most.min(LONGEST) } else { most }) as u16;
    }
    if routes > 0 && rng.chance(30) {
        // points and sections above all ranges in a route
        let k = first + 52 * rng.below(routes);
        xs[k + 4 + rng.below(16)] = *rng.pick(&[63, 64, 65, 128, 255, 256, 999, 1000]);
        xs[k + 20 + 2 * rng.below(16)] = *rng.pick(&[31, 32, 33, 64, 255, 256, 999, 1000]);
    }
    xs
}

// Rows of events

/// How a row goes: how many trains there are, and whether points turn late.
#[derive(Clone, Copy, Debug)]
pub struct Habits {
    pub trains: usize,
    pub late: bool,
}

/// Habits for a plan, mostly such that not all trains stand before each other too soon.
pub fn habits(rng: &mut Rng, plan: &Plan) -> Habits {
    let most = if rng.chance(75) { 1 + plan.sections.len() / 3 } else { TRAINS };
    Habits { trains: rng.between(1, most.min(TRAINS)), late: rng.chance(40) }
}

/// The next event, mostly one that can happen.
pub fn event(rng: &mut Rng, plan: &Plan, world: &World, habits: Habits) -> Event {
    if rng.chance(4) {
        return wild_event(rng, plan);
    }
    let running: Vec<u16> =
        (0..world.trains.len() as u16).filter(|&t| !world.trains[t as usize].cars.is_empty()).collect();
    let mut last = Event::Asked(Request::Tick);
    for _ in 0..24 {
        last = guess(rng, plan, world, habits.trains, &running);
        if habits.late && matches!(last, Event::Turns(_)) && rng.chance(85) {
            continue;
        }
        if world.can(plan, last) && (useful(world, last) || rng.chance(5)) {
            return last;
        }
    }
    last
}

/// Whether an event that can always be done does anything.
fn useful(world: &World, event: Event) -> bool {
    match event {
        Event::Turns(q) => world.lie.left(q) != world.interlocking.wanted.left(q),
        Event::Asked(Request::Tick) => world.interlocking.stage.iter().any(|s| matches!(s, Stage::Falling(_))),
        _ => true,
    }
}

fn route_in(rng: &mut Rng, plan: &Plan, world: &World, is: impl Fn(Stage) -> bool) -> u16 {
    let fit: Vec<u16> = (0..plan.routes.len() as u16).filter(|&r| is(world.interlocking.stage[r as usize])).collect();
    if fit.is_empty() {
        rng.below(plan.routes.len() + 1) as u16
    } else {
        *rng.pick(&fit)
    }
}

fn guess(rng: &mut Rng, plan: &Plan, world: &World, trains: usize, running: &[u16]) -> Event {
    let train = |rng: &mut Rng| if running.is_empty() { rng.below(trains) as u16 } else { *rng.pick(running) };
    match rng.below(100) {
        0..=21 => Event::Goes(train(rng)),
        22..=37 => Event::Draws(train(rng)),
        38..=51 => {
            if rng.chance(70) && !running.is_empty() {
                // a route for a train that waits
                let t = &world.trains[train(rng) as usize];
                let front = t.cars[0];
                let fit: Vec<u16> = (0..plan.routes.len() as u16)
                    .filter(|&r| {
                        let route = &plan.routes[r as usize];
                        route.begin == front && route.up == t.up
                    })
                    .collect();
                if !fit.is_empty() {
                    return Event::Asked(Request::Ask(*rng.pick(&fit)));
                }
            }
            Event::Asked(Request::Ask(route_in(rng, plan, world, |s| s == Stage::Idle)))
        }
        52..=63 => Event::Asked(Request::Clear(route_in(rng, plan, world, |s| s == Stage::Set))),
        64..=75 => {
            let fit: Vec<u16> = (0..plan.sections.len() as u16).filter(|&x| world.interlocking.passed[x as usize]).collect();
            let x = if fit.is_empty() { rng.below(plan.sections.len()) as u16 } else { *rng.pick(&fit) };
            Event::Asked(Request::Free(x))
        }
        76..=83 => {
            let n = plan.places.len();
            let fit: Vec<u16> = (0..n as u16).filter(|&q| world.lie.left(q) != world.interlocking.wanted.left(q)).collect();
            Event::Turns(if fit.is_empty() { rng.below(n + 1) as u16 } else { *rng.pick(&fit) })
        }
        84..=88 => {
            let edges: Vec<u16> = (0..plan.sections.len() as u16).filter(|&x| plan.edge(x)).collect();
            let x = if edges.is_empty() { 0 } else { *rng.pick(&edges) };
            Event::Comes(rng.below(trains) as u16, rng.chance(50), x)
        }
        89..=91 => Event::Asked(Request::Back(route_in(rng, plan, world, |s| s != Stage::Idle))),
        92..=93 => Event::Asked(Request::Tick),
        94..=96 => Event::Reverses(train(rng)),
        _ => Event::Leaves(train(rng)),
    }
}

/// Any event, in range or not.
pub fn wild_event(rng: &mut Rng, plan: &Plan) -> Event {
    let kind = rng.below(11) as u16;
    let most = match kind {
        0..=2 => plan.routes.len() + 2,
        3 => plan.sections.len() + 2,
        5 => plan.places.len() + 2,
        _ => TRAINS + 1,
    };
    let most = if rng.chance(3) { 1000 } else { most };
    Event::from_numbers([kind, rng.below(most) as u16, rng.below(2) as u16, rng.below(plan.sections.len() + 1) as u16])
}

// Memories

/// A memory as no run may reach it; locks within the number of routes.
pub fn memory(rng: &mut Rng, plan: &Plan) -> Vec<u16> {
    let mut m = empty_memory();
    let full = *rng.pick(&[5, 20, 60]);
    let routes = plan.routes.len();
    for r in 0..ROUTES {
        if rng.chance(full) {
            m[128 + r] = match rng.below(12) {
                0..=7 => rng.below(5) as u16,
                8 | 9 => rng.between(4, 8) as u16,
                10 => plan.time + 4,
                _ => *rng.pick(&[1003, 1004, 1005, 256, 65535]),
            };
        }
    }
    if rng.chance(70) {
        // locks that fit the stages
        for (r, route) in plan.routes.iter().enumerate() {
            if m[128 + r] != 0 {
                for &x in &route.path {
                    if (x as usize) < SECTIONS && rng.chance(85) {
                        m[x as usize] = r as u16 + 1;
                    }
                }
            }
        }
    }
    for x in 0..SECTIONS {
        if rng.chance(full / 4) {
            m[x] = rng.between(0, routes) as u16;
        }
        if rng.chance(full) {
            m[64 + x] = if rng.chance(90) { rng.below(2) as u16 } else { *rng.pick(&[2, 3, 255, 256, 257, 65535]) };
        }
    }
    for q in 0..POINTS {
        if rng.chance(50) {
            m[192 + q] = if rng.chance(90) { rng.below(2) as u16 } else { *rng.pick(&[2, 3, 255, 256, 257, 65535]) };
        }
    }
    m
}

/// Marks, mostly 0 and 1.
pub fn marks(rng: &mut Rng, n: usize, percent: usize) -> Vec<u16> {
    (0..n)
        .map(|_| if rng.chance(2) { *rng.pick(&[2, 7, 256, 257, 65535]) } else { rng.chance(percent) as u16 })
        .collect()
}

// Malformed numbers

/// Numbers of a plan with one fault, and the refusal that is due.
pub fn malformed(rng: &mut Rng, kind: usize) -> (Vec<u16>, Refusal) {
    let plan = any_plan(rng);
    let mut xs = plan.to_numbers();
    let first = length_of(plan.sections.len(), plan.places.len(), 0);
    let above = |rng: &mut Rng, n: usize| if rng.chance(50) { n as u16 + 1 } else { rng.between(n + 1, 65535) as u16 };
    match kind % 10 {
        0 => {
            xs.truncate(rng.below(4));
            (xs, Refusal::new(1, 0))
        }
        1 => {
            xs[0] = if rng.chance(50) { 0 } else { above(rng, SECTIONS) };
            if rng.chance(50) {
                xs[1] = above(rng, POINTS);
            }
            (xs, Refusal::new(1, 0))
        }
        2 => {
            xs[1] = above(rng, POINTS);
            if rng.chance(50) {
                xs[3] = above(rng, ROUTES);
            }
            (xs, Refusal::new(1, 1))
        }
        3 => {
            xs[3] = above(rng, ROUTES);
            if rng.chance(50) {
                xs[2] = above(rng, 1000);
            }
            (xs, Refusal::new(1, 2))
        }
        4 => {
            xs[2] = above(rng, 1000);
            if rng.chance(50) {
                xs.truncate(rng.between(4, xs.len()));
            }
            (xs, Refusal::new(1, 3))
        }
        5 => {
            let due = xs.len();
            let keep = rng.between(4, due - 1);
            xs.truncate(keep);
            if rng.chance(30) && keep > 4 {
                xs[keep - 1] = 2000;
            }
            (xs, Refusal::new(2, due))
        }
        6 => {
            let due = xs.len();
            for _ in 0..rng.between(1, 60) {
                xs.push(rng.below(3) as u16);
            }
            (xs, Refusal::new(2, due))
        }
        7 => {
            let i = rng.between(4, xs.len() - 1);
            xs[i] = above(rng, 1000);
            for _ in 0..rng.below(3) {
                let j = rng.between(i, xs.len() - 1);
                xs[j] = above(rng, 1000);
            }
            (xs, Refusal::new(3, i))
        }
        k => {
            let routes = plan.routes.len();
            if routes == 0 {
                return malformed(rng, 7);
            }
            let r = rng.below(routes);
            let i = first + 52 * r + if k == 8 { 2 } else { 3 };
            xs[i] = if rng.chance(60) { rng.between(17, 20) as u16 } else { above(rng, LONGEST) };
            if i + 1 < xs.len() && rng.chance(50) {
                let j = rng.between(i + 1, xs.len() - 1);
                xs[j] = 1001;
            }
            (xs, Refusal::new(3, i))
        }
    }
}
