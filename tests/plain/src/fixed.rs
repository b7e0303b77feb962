//! Plans to try.

use crate::gen::derive_routes;
use crate::plan::{End, Need, Plan, Route, Section, OUTSIDE};

fn to(x: u16) -> End {
    End::fixed(x)
}

fn route(up: bool, begin: u16, path: &[u16], needs: &[(u16, bool)]) -> Route {
    let needs = needs.iter().map(|&(point, left)| Need { point, left }).collect();
    Route { begin, up, path: path.to_vec(), needs }
}

fn signals(sections: &mut [Section], up: &[usize], down: &[usize]) {
    for &x in up {
        sections[x].signal_up = true;
    }
    for &x in down {
        sections[x].signal_down = true;
    }
}

const L: bool = true;
const R: bool = false;

/// The loop: two edges and two ways between them.
pub fn the_loop(time: u16) -> Plan {
    let mut s = vec![
        Section::new(to(1), to(OUTSIDE)),
        Section::new(End::moved(0, 2, 3), to(0)),
        Section::new(to(4), to(1)),
        Section::new(to(4), to(1)),
        Section::new(to(5), End::moved(1, 2, 3)),
        Section::new(to(OUTSIDE), to(4)),
    ];
    s[0].edge = true;
    s[5].edge = true;
    signals(&mut s, &[0, 2, 3], &[5, 2, 3]);
    let routes = vec![
        route(true, 0, &[1, 2], &[(0, L)]),
        route(true, 0, &[1, 3], &[(0, R)]),
        route(true, 2, &[4, 5], &[(1, L)]),
        route(true, 3, &[4, 5], &[(1, R)]),
        route(false, 5, &[4, 2], &[(1, L)]),
        route(false, 5, &[4, 3], &[(1, R)]),
        route(false, 2, &[1, 0], &[(0, L)]),
        route(false, 3, &[1, 0], &[(0, R)]),
    ];
    Plan::new(s, vec![1, 4], routes, time)
}

/// Two lines with a crossing between them.
pub fn two_lines(time: u16) -> Plan {
    let mut s = vec![
        Section::new(to(1), to(OUTSIDE)),
        Section::new(End::moved(0, 2, 6), to(0)),
        Section::new(to(3), to(1)),
        Section::new(to(OUTSIDE), to(2)),
        Section::new(to(5), to(OUTSIDE)),
        Section::new(to(6), to(4)),
        Section::new(to(7), End::moved(1, 5, 1)),
        Section::new(to(OUTSIDE), to(6)),
    ];
    for x in [0, 3, 4, 7] {
        s[x].edge = true;
    }
    signals(&mut s, &[0, 4, 5], &[3, 7, 2]);
    let routes = vec![
        route(true, 0, &[1, 2, 3], &[(0, L)]),
        route(true, 0, &[1, 6, 7], &[(0, R), (1, R)]),
        route(true, 4, &[5], &[]),
        route(true, 5, &[6, 7], &[(1, L)]),
        route(false, 3, &[2], &[]),
        route(false, 2, &[1, 0], &[(0, L)]),
        route(false, 7, &[6, 5, 4], &[(1, L)]),
        route(false, 7, &[6, 1, 0], &[(1, R), (0, R)]),
    ];
    Plan::new(s, vec![1, 6], routes, time)
}

/// A point in the section where routes begin.
pub fn point_at_begin(time: u16) -> Plan {
    let mut s = vec![
        Section::new(to(1), to(OUTSIDE)),
        Section::new(End::moved(0, 2, 3), to(0)),
        Section::new(to(OUTSIDE), to(1)),
        Section::new(to(OUTSIDE), to(1)),
    ];
    for x in [0, 2, 3] {
        s[x].edge = true;
    }
    signals(&mut s, &[0, 1], &[2, 3]);
    let routes = vec![
        route(true, 0, &[1], &[(0, L)]),
        route(true, 0, &[1], &[(0, R)]),
        route(true, 1, &[2], &[(0, L)]),
        route(true, 1, &[3], &[(0, R)]),
        route(false, 2, &[1, 0], &[(0, L)]),
        route(false, 3, &[1, 0], &[(0, R)]),
    ];
    Plan::new(s, vec![1], routes, time)
}

/// A terminus with four platforms and a siding to turn in.
pub fn terminus(time: u16) -> Plan {
    let mut s = vec![
        Section::new(to(9), to(OUTSIDE)),
        Section::new(End::moved(0, 2, 3), to(9)),
        Section::new(End::moved(1, 4, 5), to(1)),
        Section::new(End::moved(2, 6, 7), to(1)),
        Section::new(to(OUTSIDE), to(2)),
        Section::new(to(OUTSIDE), to(2)),
        Section::new(to(OUTSIDE), to(3)),
        Section::new(to(OUTSIDE), to(3)),
        Section::new(to(9), to(OUTSIDE)),
        Section::new(to(1), End::moved(3, 0, 8)),
    ];
    s[0].edge = true;
    signals(&mut s, &[0, 4, 5, 6, 7, 8], &[4, 5, 6, 7, 8]);
    let mut plan = Plan::new(s, vec![1, 2, 3, 9], Vec::new(), time);
    plan.routes = derive_routes(&plan, None);
    plan.settle();
    plan
}

pub fn all(time: u16) -> Vec<(&'static str, Plan)> {
    vec![
        ("loop", the_loop(time)),
        ("two lines", two_lines(time)),
        ("point at begin", point_at_begin(time)),
        ("terminus", terminus(time)),
    ]
}
