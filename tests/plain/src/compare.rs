//! Runs a second implementation beside this one and finds the smallest case in which they differ.

use std::fmt;

use crate::gen::{any_numbers, event, habits, malformed, marks, memory, plan_breaking, sound_plan, Rng};
use crate::interlocking::{self, empty_memory};
use crate::judge::{broken, judge_numbers, Verdict};
use crate::plan::{from_numbers, Plan, Refusal};
use crate::promises::check;
use crate::soak::shrink;
use crate::world::{Event, World};

/// An answer: what, and two numbers.
/// Of the judge: 0 sound; 1 unsound, the rule, the route or 64 for the whole plan.
/// Of a request: 0 not done; 1 done. Of noting: 1.
/// Of all: 2 refused, its number, its place.
pub type Code = (u16, u16, u16);

/// What a row of events leads to: for each event whether it was done, and the world in numbers.
#[derive(Clone, PartialEq, Eq, Debug)]
pub struct Ran {
    pub done: Vec<bool>,
    pub world: Vec<u16>,
}

/// A second implementation, such as a library with C functions behind a thin wrapper.
pub trait Other {
    fn judge(&mut self, plan: &[u16]) -> Code;

    fn act(&mut self, plan: &[u16], memory: &mut [u16], seen: &[u16], turned: &[u16], kind: u16, which: u16) -> Code;

    /// Nothing if it has no such entry.
    fn note(&mut self, plan: &[u16], memory: &mut [u16], seen: &[u16]) -> Option<Code>;

    /// A row from the first world on; nothing if it has no trains.
    fn run(&mut self, plan: &[u16], events: &[[u16; 4]]) -> Option<Ran>;

    /// Whether two answers say the same; to be replaced if the second one says less.
    fn same(&self, plain: Code, other: Code) -> bool {
        plain == other
    }
}

/// This implementation itself.
pub struct Plain;

fn refused(r: Refusal) -> Code {
    (2, r.number, r.place)
}

impl Other for Plain {
    fn judge(&mut self, plan: &[u16]) -> Code {
        match judge_numbers(plan) {
            Ok(Verdict::Sound) => (0, 0, 0),
            Ok(Verdict::Route(r, rule)) => (1, rule, r),
            Ok(Verdict::Whole(rule)) => (1, rule, 64),
            Err(r) => refused(r),
        }
    }

    fn act(&mut self, plan: &[u16], memory: &mut [u16], seen: &[u16], turned: &[u16], kind: u16, which: u16) -> Code {
        match interlocking::act(plan, memory, seen, turned, kind, which) {
            Ok(done) => (done as u16, 0, 0),
            Err(r) => refused(r),
        }
    }

    fn note(&mut self, plan: &[u16], memory: &mut [u16], seen: &[u16]) -> Option<Code> {
        Some(match interlocking::note(plan, memory, seen) {
            Ok(()) => (1, 0, 0),
            Err(r) => refused(r),
        })
    }

    fn run(&mut self, plan: &[u16], events: &[[u16; 4]]) -> Option<Ran> {
        let plan = from_numbers(plan).ok()?;
        let mut world = World::new();
        let done = events.iter().map(|&e| world.step(&plan, Event::from_numbers(e))).collect();
        Some(Ran { done, world: world.to_numbers() })
    }
}

#[derive(Clone, Debug)]
pub enum Case {
    Judge(Vec<u16>),
    Act { plan: Vec<u16>, memory: Vec<u16>, seen: Vec<u16>, turned: Vec<u16>, kind: u16, which: u16 },
    Note { plan: Vec<u16>, memory: Vec<u16>, seen: Vec<u16> },
    Row { plan: Vec<u16>, events: Vec<Event> },
}

#[derive(Clone, Copy, Debug, Default)]
pub struct Tally {
    pub plans: usize,
    pub events: usize,
    pub judged: usize,
    pub acts: usize,
    /// Done over random memories, by kind of request.
    pub acted: [usize; 5],
    pub notes: usize,
    pub refusals: usize,
    pub done: usize,
}

#[derive(Debug)]
pub struct Difference {
    pub case: Case,
    pub what: String,
}

fn first_difference(a: &[u16], b: &[u16]) -> String {
    match a.iter().zip(b).position(|(x, y)| x != y) {
        Some(i) => format!("number {i}: {} and {}", a[i], b[i]),
        None => format!("lengths {} and {}", a.len(), b.len()),
    }
}

/// How both differ in a case, this one's answer first.
pub fn differs(other: &mut impl Other, case: &Case) -> Option<String> {
    match case {
        Case::Judge(plan) => {
            let (a, b) = (Plain.judge(plan), other.judge(plan));
            (!other.same(a, b)).then(|| format!("judged {a:?} and {b:?}"))
        }
        Case::Act { plan, memory, seen, turned, kind, which } => {
            let (mut m, mut n) = (memory.clone(), memory.clone());
            let a = Plain.act(plan, &mut m, seen, turned, *kind, *which);
            let b = other.act(plan, &mut n, seen, turned, *kind, *which);
            if a.0 != 1 && m != *memory {
                return Some("not done, but changed".to_string());
            }
            after(other, a, b, &m, &n)
        }
        Case::Note { plan, memory, seen } => {
            let (mut m, mut n) = (memory.clone(), memory.clone());
            let a = Plain.note(plan, &mut m, seen)?;
            let b = other.note(plan, &mut n, seen)?;
            after(other, a, b, &m, &n)
        }
        Case::Row { plan, events } => row_differs(other, plan, events),
    }
}

fn after(other: &impl Other, a: Code, b: Code, m: &[u16], n: &[u16]) -> Option<String> {
    if !other.same(a, b) {
        Some(format!("answers {a:?} and {b:?}"))
    } else if m != n {
        Some(format!("memory, {}", first_difference(m, n)))
    } else {
        None
    }
}

fn row_differs(other: &mut impl Other, numbers: &[u16], events: &[Event]) -> Option<String> {
    let plan = from_numbers(numbers).ok()?;
    let mut world = World::new();
    let mut theirs = empty_memory();
    let mut done = Vec::new();
    for (i, &e) in events.iter().enumerate() {
        let seen: Vec<u16> = world.seen().0.iter().map(|&t| t as u16).collect();
        let turned: Vec<u16> = world.lie.0.iter().map(|&t| t as u16).collect();
        let did = world.step(&plan, e);
        done.push(did);
        let [kind, which, ..] = e.to_numbers();
        if kind <= 4 && which <= 63 {
            let b = other.act(numbers, &mut theirs, &seen, &turned, kind, which);
            if !other.same((did as u16, 0, 0), b) {
                return Some(format!("event {i}, {e}: done {did} and {b:?}"));
            }
        }
        if did && matches!(e, Event::Goes(_) | Event::Draws(_)) {
            let now: Vec<u16> = world.seen().0.iter().map(|&t| t as u16).collect();
            match other.note(numbers, &mut theirs, &now) {
                Some(b) if !other.same((1, 0, 0), b) => return Some(format!("event {i}, {e}: noting gives {b:?}")),
                Some(_) => {}
                None => theirs = world.interlocking.to_memory(),
            }
        }
        let ours = world.interlocking.to_memory();
        if ours != theirs {
            return Some(format!("event {i}, {e}: memory, {}", first_difference(&ours, &theirs)));
        }
        if let Err(broken) = check(&plan, &world) {
            return Some(format!("event {i}, {e}: promise {} fails: {broken:?}", broken.number()));
        }
    }
    let row: Vec<[u16; 4]> = events.iter().map(|e| e.to_numbers()).collect();
    let theirs = other.run(numbers, &row)?;
    let ours = Ran { done, world: world.to_numbers() };
    if ours.done != theirs.done {
        let i = ours.done.iter().zip(&theirs.done).position(|(a, b)| a != b);
        return Some(format!("run: done differs at event {i:?}"));
    }
    (ours != theirs).then(|| format!("run: world, {}", first_difference(&ours.world, &theirs.world)))
}

/// Sets as many numbers to what is usual as possible.
fn plain_down(xs: &[u16], usual: impl Fn(usize) -> u16, mut bad: impl FnMut(&[u16]) -> bool) -> Vec<u16> {
    let mut xs = xs.to_vec();
    for i in 0..xs.len() {
        let old = xs[i];
        if old != usual(i) {
            xs[i] = usual(i);
            if !bad(&xs) {
                xs[i] = old;
            }
        }
    }
    xs
}

/// Drops routes while the numbers still make a plan and `bad` holds.
fn fewer_routes(xs: &[u16], mut bad: impl FnMut(&[u16]) -> bool) -> Vec<u16> {
    let mut xs = xs.to_vec();
    while let Ok(plan) = from_numbers(&xs) {
        if plan.routes.is_empty() {
            break;
        }
        let mut fewer = xs[..xs.len() - 52].to_vec();
        fewer[3] -= 1;
        if !bad(&fewer) {
            break;
        }
        xs = fewer;
    }
    xs
}

/// Drops any routes; only for judging, since what is asked names routes by their numbers.
fn any_fewer_routes(xs: &[u16], mut bad: impl FnMut(&[u16]) -> bool) -> Vec<u16> {
    if from_numbers(xs).is_err() {
        return xs.to_vec();
    }
    let (head, routes) = xs.split_at(xs.len() - 52 * xs[3] as usize);
    let with = |routes: &[&[u16]]| {
        let mut xs = [head, &routes.concat()].concat();
        xs[3] = routes.len() as u16;
        xs
    };
    let routes: Vec<&[u16]> = routes.chunks(52).collect();
    with(&shrink(&routes, |few| bad(&with(few))))
}

/// A smaller case with a difference.
pub fn smallest(other: &mut impl Other, case: &Case) -> Case {
    let empty = empty_memory();
    match case.clone() {
        Case::Judge(plan) => {
            let mut bad = |xs: &[u16]| differs(other, &Case::Judge(xs.to_vec())).is_some();
            let plan = any_fewer_routes(&plan, &mut bad);
            Case::Judge(plain_down(&plan, |i| if i < 4 { plan[i] } else { 0 }, &mut bad))
        }
        Case::Act { plan, memory, seen, turned, kind, which } => {
            let (mut plan, mut memory, mut seen, mut turned) = (plan, memory, seen, turned);
            let make = |plan: &[u16], memory: &[u16], seen: &[u16], turned: &[u16]| Case::Act {
                plan: plan.to_vec(),
                memory: memory.to_vec(),
                seen: seen.to_vec(),
                turned: turned.to_vec(),
                kind,
                which,
            };
            memory = plain_down(&memory, |i| empty[i.min(223)], |m| differs(other, &make(&plan, m, &seen, &turned)).is_some());
            seen = plain_down(&seen, |_| 0, |s| differs(other, &make(&plan, &memory, s, &turned)).is_some());
            turned = plain_down(&turned, |_| 1, |t| differs(other, &make(&plan, &memory, &seen, t)).is_some());
            plan = fewer_routes(&plan, |p| differs(other, &make(p, &memory, &seen, &turned)).is_some());
            let head = plan.clone();
            plan = plain_down(
                &plan,
                |i| if i < 4 { head[i] } else { 0 },
                |p| differs(other, &make(p, &memory, &seen, &turned)).is_some(),
            );
            make(&plan, &memory, &seen, &turned)
        }
        Case::Note { plan, memory, seen } => {
            let (mut plan, mut memory, mut seen) = (plan, memory, seen);
            let make = |plan: &[u16], memory: &[u16], seen: &[u16]| Case::Note {
                plan: plan.to_vec(),
                memory: memory.to_vec(),
                seen: seen.to_vec(),
            };
            memory = plain_down(&memory, |i| empty[i.min(223)], |m| differs(other, &make(&plan, m, &seen)).is_some());
            seen = plain_down(&seen, |_| 0, |s| differs(other, &make(&plan, &memory, s)).is_some());
            plan = fewer_routes(&plan, |p| differs(other, &make(p, &memory, &seen)).is_some());
            make(&plan, &memory, &seen)
        }
        Case::Row { plan, events } => {
            let make = |plan: &[u16], events: &[Event]| Case::Row { plan: plan.to_vec(), events: events.to_vec() };
            let events = shrink(&events, |e| differs(other, &make(&plan, e)).is_some());
            let plan = fewer_routes(&plan, |p| differs(other, &make(p, &events)).is_some());
            let events = shrink(&events, |e| differs(other, &make(&plan, e)).is_some());
            make(&plan, &events)
        }
    }
}

fn found(other: &mut impl Other, case: Case) -> Result<(), Difference> {
    match differs(other, &case) {
        None => Ok(()),
        Some(_) => {
            let case = smallest(other, &case);
            let what = differs(other, &case).unwrap_or_else(|| "differs only at times".to_string());
            Err(Difference { case, what })
        }
    }
}

/// What is lent for a request, beside the plan.
struct Lent {
    memory: Vec<u16>,
    seen: Vec<u16>,
    turned: Vec<u16>,
}

fn random_lent(rng: &mut Rng, plan: &Plan) -> Lent {
    let memory = memory(rng, plan);
    let share = *rng.pick(&[0, 5, 30]);
    let seen = marks(rng, 64, share);
    // mostly points lie as they are wanted
    let turned = if rng.chance(60) { memory[192..].to_vec() } else { marks(rng, 32, 50) };
    Lent { memory, seen, turned }
}

/// A request that can mostly be done, for which what is lent may be changed; now and then one that is refused.
fn random_act(rng: &mut Rng, numbers: &[u16], plan: &Plan, lent: &mut Lent, tally: &mut Tally) -> Case {
    let kind = rng.below(5) as u16;
    let most = if kind == 3 { plan.sections.len() } else { plan.routes.len() };
    let mut which = rng.below(64.min(most + 2)) as u16;
    if kind == 3 && rng.chance(70) {
        // a section that is locked
        let locked: Vec<u16> = (0..64).filter(|&x| lent.memory[x as usize] != 0).collect();
        if !locked.is_empty() {
            which = *rng.pick(&locked);
        }
    }
    if kind < 4 && !plan.routes.is_empty() && rng.chance(70) {
        which = nearly(rng, plan, kind, &mut lent.memory, &mut lent.seen, &mut lent.turned);
    }
    let Lent { memory, seen, turned } = lent;
    let mut case = Case::Act {
        plan: numbers.to_vec(),
        memory: memory.clone(),
        seen: seen.clone(),
        turned: turned.clone(),
        kind,
        which,
    };
    if rng.chance(12) {
        tally.refusals += 1;
        for _ in 0..rng.between(1, 2) {
            spoil(rng, &mut case, plan.routes.len() as u16);
        }
    }
    case
}

/// Makes a request one that is refused.
fn spoil(rng: &mut Rng, case: &mut Case, routes: u16) {
    let Case::Act { plan, memory, seen, turned, kind, which } = case else { return };
    match rng.below(7) {
        0 => change_length(rng, memory),
        1 => change_length(rng, seen),
        2 => change_length(rng, turned),
        3 => {
            let x = rng.below(64);
            if let Some(lock) = memory.get_mut(x) {
                *lock = routes + 1 + *rng.pick(&[0, 0, 1, 255, 1000]);
            }
        }
        4 => *kind = *rng.pick(&[5, 6, 255, 256, 65535]),
        5 => *which = *rng.pick(&[64, 65, 255, 256, 65535]),
        _ => *plan = malformed(rng, rng.clone().below(10)).0,
    }
}

/// Changes a memory and what is seen so that a request can nearly always be done; says for which route or section.
fn nearly(rng: &mut Rng, plan: &Plan, kind: u16, m: &mut [u16], seen: &mut [u16], turned: &mut [u16]) -> u16 {
    let r = rng.below(plan.routes.len());
    let route = &plan.routes[r];
    let path: Vec<usize> = route.path.iter().map(|&x| x as usize).filter(|&x| x < 64).collect();
    let needs = route.needs.iter().filter(|n| n.point < 32);
    match kind {
        0 => {
            m[128 + r] = 0;
            for &x in &path {
                if rng.chance(97) {
                    m[x] = 0;
                    seen[x] = 0;
                }
            }
            for n in needs {
                if rng.chance(60) {
                    m[192 + n.point as usize] = n.left as u16;
                }
            }
        }
        1 => {
            m[128 + r] = 1;
            for n in needs {
                let q = n.point as usize;
                if rng.chance(95) {
                    m[192 + q] = n.left as u16;
                }
                if rng.chance(95) {
                    turned[q] = n.left as u16;
                }
            }
        }
        2 => {
            m[128 + r] = *rng.pick(&[0, 1, 1, 2, 2, 3, 3, 3, 4, 5]);
            for &x in &path {
                if rng.chance(95) {
                    seen[x] = 0;
                }
            }
        }
        _ => {
            m[128 + r] = 3;
            if path.is_empty() {
                return rng.below(64) as u16;
            }
            let i = rng.below(path.len());
            for &x in &path[..i] {
                if m[x] as usize == r + 1 && rng.chance(90) {
                    m[x] = 0;
                }
            }
            m[path[i]] = r as u16 + 1;
            if rng.chance(90) {
                m[64 + path[i]] = 1;
            }
            if rng.chance(60) {
                seen[path[i]] = 0;
            }
            return path[i] as u16;
        }
    }
    r as u16
}

fn change_length(rng: &mut Rng, xs: &mut Vec<u16>) {
    if rng.chance(50) {
        let keep = if rng.chance(50) { xs.len().max(1) - 1 } else { rng.below(xs.len() + 1) };
        xs.truncate(keep);
    } else {
        xs.push(0);
    }
}

/// How large a turn of the comparison is.
#[derive(Clone, Copy, Debug)]
pub struct Size {
    /// Events in a row, at most.
    pub row: usize,
    /// Plans with a number or two changed.
    pub near: usize,
    /// Plans over which requests are made.
    pub plans: usize,
    /// Memories for each of these.
    pub memories: usize,
    /// Requests one after the other from a memory on.
    pub requests: usize,
    /// All plans but the first have mostly few routes.
    pub short: bool,
}

impl Size {
    pub const LARGE: Size = Size { row: 300, near: 30, plans: 8, memories: 4, requests: 4, short: false };
    /// With longer rows.
    pub const LONG: Size = Size { row: 1000, ..Size::LARGE };
    pub const SMALL: Size = Size { row: 60, near: 40, plans: 4, memories: 2, requests: 8, short: true };
    pub const MANY: Size = Size { row: 300, near: 200, plans: 5, memories: 5, requests: 20, short: true };
}

/// One turn of the comparison: a row, judgements, requests and noting.
pub fn turn(other: &mut impl Other, rng: &mut Rng, nth: usize, size: Size, tally: &mut Tally) -> Result<(), Difference> {
    let plan = row_over_sound_plan(other, rng, nth, size, tally)?;
    near_plans(other, rng, &plan, size.near, tally)?;
    let rule = (nth % 12 + 1) as u16;
    let mut unsound = plan_breaking(rng, rule);
    if size.short {
        fewer(rng, &mut unsound);
    }
    judged(other, unsound.to_numbers(), tally)?;
    malformed_plans(other, rng, tally)?;
    for _ in 0..size.plans {
        let mut plan = any_numbers(rng);
        if size.short && rng.chance(90) {
            plan = fewer_numbers(&plan, rng.between(0, 4) as u16);
        }
        judged(other, plan.clone(), tally)?;
        requests(other, rng, &plan, size, tally)?;
    }
    Ok(())
}

fn judged(other: &mut impl Other, plan: Vec<u16>, tally: &mut Tally) -> Result<(), Difference> {
    tally.judged += 1;
    found(other, Case::Judge(plan))
}

/// Drops routes from the end if the rule that is broken stays the only one.
fn fewer(rng: &mut Rng, plan: &mut Plan) {
    let was = broken(plan);
    let mut few = plan.clone();
    few.routes.truncate(rng.between(1, 4));
    few.settle();
    if broken(&few) == was {
        *plan = few;
    }
}

/// The numbers of a plan with at most so many routes.
fn fewer_numbers(plan: &[u16], routes: u16) -> Vec<u16> {
    let mut plan = plan.to_vec();
    let drop = plan[3].saturating_sub(routes);
    plan[3] -= drop;
    plan.truncate(plan.len() - 52 * drop as usize);
    plan
}

/// The fixed plans come first, and then now and then.
fn row_over_sound_plan(
    other: &mut impl Other,
    rng: &mut Rng,
    nth: usize,
    size: Size,
    tally: &mut Tally,
) -> Result<Vec<u16>, Difference> {
    let mut fixed = crate::fixed::all(rng.below(3) as u16);
    let plan = if nth < fixed.len() {
        fixed.swap_remove(nth).1
    } else if rng.chance(15) {
        let i = rng.below(fixed.len());
        fixed.swap_remove(i).1
    } else {
        sound_plan(rng)
    };
    let numbers = plan.to_numbers();
    tally.plans += 1;
    judged(other, numbers.clone(), tally)?;
    let habits = habits(rng, &plan);
    let mut world = World::new();
    let mut row = Vec::new();
    for _ in 0..rng.between(size.row.min(20), size.row) {
        let e = event(rng, &plan, &world, habits);
        tally.done += world.step(&plan, e) as usize;
        row.push(e);
    }
    tally.events += row.len();
    found(other, Case::Row { plan: numbers.clone(), events: row })?;
    Ok(numbers)
}

/// A sound plan with a number or two changed: mostly unsound, still sound at times, or malformed.
fn near_plans(other: &mut impl Other, rng: &mut Rng, plan: &[u16], n: usize, tally: &mut Tally) -> Result<(), Difference> {
    for _ in 0..n {
        let mut near = plan.to_vec();
        for _ in 0..rng.between(1, 2) {
            let i = rng.below(near.len());
            near[i] = match rng.below(8) {
                0..=2 => near[i] ^ 1,
                3 | 4 => *rng.pick(plan),
                5 => rng.below(near[0] as usize + 2) as u16,
                6 => *rng.pick(&[16, 17, 32, 33, 64, 65]),
                _ => *rng.pick(&[999, 1000, 1001, 65535]),
            };
        }
        judged(other, near, tally)?;
    }
    Ok(())
}

fn malformed_plans(other: &mut impl Other, rng: &mut Rng, tally: &mut Tally) -> Result<(), Difference> {
    for kind in 0..10 {
        let (numbers, due) = malformed(rng, kind);
        if Plain.judge(&numbers) != refused(due) {
            let what = format!("refusal {due:?} is due, and is {:?}", Plain.judge(&numbers));
            return Err(Difference { case: Case::Judge(numbers), what });
        }
        tally.refusals += 1;
        judged(other, numbers, tally)?;
    }
    Ok(())
}

/// Requests and noting over random memories.
fn requests(other: &mut impl Other, rng: &mut Rng, numbers: &[u16], size: Size, tally: &mut Tally) -> Result<(), Difference> {
    let plan = from_numbers(numbers).expect("well-formed numbers");
    for _ in 0..size.memories {
        let mut lent = random_lent(rng, &plan);
        for _ in 0..size.requests {
            let case = random_act(rng, numbers, &plan, &mut lent, tally);
            if let Case::Act { plan, memory, seen, turned, kind, which } = &case {
                if rng.chance(30) {
                    tally.notes += 1;
                    found(other, Case::Note { plan: plan.clone(), memory: memory.clone(), seen: seen.clone() })?;
                }
                let mut after = memory.clone();
                let (done, ..) = Plain.act(plan, &mut after, seen, turned, *kind, *which);
                tally.acts += 1;
                if done == 1 {
                    tally.acted[*kind as usize] += 1;
                    lent.memory = after;
                }
            }
            found(other, case)?;
        }
    }
    Ok(())
}

/// Runs both beside each other for at least so many events; rows, judgements, requests and noting over random numbers.
pub fn run(other: &mut impl Other, events: usize, seed: u64) -> Result<Tally, Difference> {
    run_sized(other, events, 0, seed, Size::LARGE)
}

/// The same for at least so many plans judged as well.
pub fn run_sized(other: &mut impl Other, events: usize, plans: usize, seed: u64, size: Size) -> Result<Tally, Difference> {
    let mut rng = Rng::new(seed);
    let mut tally = Tally::default();
    for nth in 0.. {
        if tally.events >= events && tally.judged >= plans {
            break;
        }
        turn(other, &mut rng, nth, size, &mut tally)?;
    }
    Ok(tally)
}

fn unusual(xs: &[u16], usual: impl Fn(usize) -> u16) -> String {
    let some: Vec<String> =
        xs.iter().enumerate().filter(|(i, &x)| x != usual(*i)).map(|(i, x)| format!("{i}: {x}")).collect();
    format!("{} numbers, {{{}}}", xs.len(), some.join(", "))
}

impl fmt::Display for Difference {
    fn fmt(&self, f: &mut fmt::Formatter) -> fmt::Result {
        let empty = empty_memory();
        writeln!(f, "DIFFERS: {}", self.what)?;
        let (Case::Judge(plan) | Case::Act { plan, .. } | Case::Note { plan, .. } | Case::Row { plan, .. }) = &self.case;
        writeln!(f, "plan: {plan:?}")?;
        if let Case::Act { memory, seen, .. } | Case::Note { memory, seen, .. } = &self.case {
            writeln!(f, "memory: {}", unusual(memory, |i| empty[i.min(223)]))?;
            writeln!(f, "seen: {}", unusual(seen, |_| 0))?;
        }
        match &self.case {
            Case::Judge(_) => writeln!(f, "judged"),
            Case::Act { turned, kind, which, .. } => {
                writeln!(f, "turned: {}", unusual(turned, |_| 1))?;
                writeln!(f, "kind {kind}, which {which}")
            }
            Case::Note { .. } => writeln!(f, "noting"),
            Case::Row { events, .. } => events.iter().try_for_each(|e| writeln!(f, "  {e}")),
        }
    }
}
