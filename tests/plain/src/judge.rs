//! The judge: whether a plan is sound, and what it breaks first.

use crate::plan::{from_numbers, Plan, Refusal, Route};

#[derive(Clone, Copy, PartialEq, Eq, Debug, Hash)]
pub enum Verdict {
    Sound,
    /// A route and the first of rules 1 to 9 that it breaks.
    Route(u16, u16),
    /// One of rules 10 to 12.
    Whole(u16),
}

/// Up to so many points all ways of lying are gone through at once; above, step by step.
const ALL_AT_ONCE: usize = 10;

pub fn judge(plan: &Plan) -> Verdict {
    for (r, route) in plan.routes.iter().enumerate() {
        for rule in 1..=9 {
            if !route_keeps(plan, route, rule) {
                return Verdict::Route(r as u16, rule);
            }
        }
    }
    for rule in 10..=12 {
        if !whole_keeps(plan, rule) {
            return Verdict::Whole(rule);
        }
    }
    Verdict::Sound
}

pub fn judge_numbers(xs: &[u16]) -> Result<Verdict, Refusal> {
    Ok(judge(&from_numbers(xs)?))
}

/// All rules that are broken anywhere, in order and each once.
pub fn broken(plan: &Plan) -> Vec<u16> {
    let mut rules = Vec::new();
    for rule in 1..=9 {
        if plan.routes.iter().any(|route| !route_keeps(plan, route, rule)) {
            rules.push(rule);
        }
    }
    for rule in 10..=12 {
        if !whole_keeps(plan, rule) {
            rules.push(rule);
        }
    }
    rules
}

pub fn route_keeps(plan: &Plan, route: &Route, rule: u16) -> bool {
    match rule {
        1 => plan.has(route.begin) && plan.signal(route.up, route.begin),
        2 => !route.path.is_empty(),
        3 => {
            let mut all = route.path.clone();
            all.push(route.begin);
            all.sort();
            all.windows(2).all(|w| w[0] != w[1])
        }
        4 => route.needs.iter().all(|a| route.needs.iter().all(|b| a.point != b.point || a.left == b.left)),
        5 => route.needs.iter().all(|n| (n.point as usize) < plan.places.len()),
        6 => path_hangs(plan, route),
        7 => match route.path.split_last() {
            Some((_, before)) => before.iter().all(|&x| !plan.signal(route.up, x)),
            None => true,
        },
        8 => match route.path.last() {
            Some(&x) => plan.signal(route.up, x) || plan.edge(x),
            None => true,
        },
        9 => plan.places.iter().enumerate().all(|(q, place)| {
            !route.path.contains(place) || route.needs.iter().any(|n| n.point as usize == q)
        }),
        _ => true,
    }
}

/// The same verdict, with rule 6 looked at step by step, which is quicker: what a program would do that has to be fast.
pub fn judge_by_steps(plan: &Plan) -> Verdict {
    let keeps = |route: &Route, rule| if rule == 6 { hangs_by_steps(plan, route) } else { route_keeps(plan, route, rule) };
    for (r, route) in plan.routes.iter().enumerate() {
        if let Some(rule) = (1..=9).find(|&rule| !keeps(route, rule)) {
            return Verdict::Route(r as u16, rule);
        }
    }
    (10..=12).find(|&rule| !whole_keeps(plan, rule)).map_or(Verdict::Sound, Verdict::Whole)
}

/// Rule 6, by going through the ways in which points may lie.
pub fn path_hangs(plan: &Plan, route: &Route) -> bool {
    let steps = steps(route);
    if points_of(plan, route, &steps).len() <= ALL_AT_ONCE {
        hangs_at_once(plan, route, &steps)
    } else {
        hangs_by_steps(plan, route)
    }
}

/// Each step looked at for itself: at most two points move it.
pub fn hangs_by_steps(plan: &Plan, route: &Route) -> bool {
    steps(route).iter().all(|step| hangs_at_once(plan, route, &[*step]))
}

fn steps(route: &Route) -> Vec<(u16, u16)> {
    let mut from = route.begin;
    let mut steps = Vec::new();
    for &x in &route.path {
        steps.push((from, x));
        from = x;
    }
    steps
}

fn points_of(plan: &Plan, route: &Route, steps: &[(u16, u16)]) -> Vec<u16> {
    let mut points: Vec<u16> = Vec::new();
    for &(a, b) in steps {
        for (x, up) in [(a, route.up), (b, !route.up)] {
            if let Some(s) = plan.sections.get(x as usize) {
                let end = s.end(up);
                if end.moves {
                    points.push(end.point);
                }
            }
        }
    }
    points.sort();
    points.dedup();
    points
}

fn hangs_at_once(plan: &Plan, route: &Route, steps: &[(u16, u16)]) -> bool {
    // needs that can't be met are met in no way of lying
    if !route_keeps(plan, route, 4) {
        return true;
    }
    let points = points_of(plan, route, steps);
    for way in 0u64..1 << points.len() {
        let lies = |q: u16| points.iter().position(|&p| p == q).map_or(false, |i| way >> i & 1 == 1);
        let met = route.needs.iter().all(|n| !points.contains(&n.point) || lies(n.point) == n.left);
        if met && !steps.iter().all(|&(a, b)| plan.hang(route.up, a, b, lies)) {
            return false;
        }
    }
    true
}

pub fn whole_keeps(plan: &Plan, rule: u16) -> bool {
    let here = plan.sections.iter().enumerate();
    match rule {
        10 => {
            plan.places.iter().all(|&x| plan.has(x))
                && here.into_iter().all(|(x, s)| {
                    [s.upper, s.lower].iter().all(|e| {
                        !e.moves || plan.places.get(e.point as usize).map_or(false, |&p| p as usize == x)
                    })
                })
        }
        11 => plan.places.iter().all(|&x| !plan.edge(x)),
        12 => here.into_iter().all(|(_, s)| {
            !s.edge
                || [true, false].iter().all(|&up| {
                    let e = s.end(up);
                    s.signal(up) || [true, false].iter().all(|&left| !plan.has(e.beyond(|_| left)))
                })
        }),
        _ => true,
    }
}
