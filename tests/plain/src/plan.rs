//! Plans as values and as numbers.

pub const SECTIONS: usize = 64;
pub const POINTS: usize = 32;
pub const ROUTES: usize = 64;
pub const TIME: u16 = 1000;
pub const LARGEST: u16 = 1000;
pub const LONGEST: usize = 16;
pub const OUTSIDE: u16 = 1000;

const HEAD: usize = 4;
const PER_SECTION: usize = 11;
const PER_ROUTE: usize = 52;

/// What is turned away: the number of the refusal and its place.
#[derive(Clone, Copy, PartialEq, Eq, Debug, Hash)]
pub struct Refusal {
    pub number: u16,
    pub place: u16,
}

impl Refusal {
    pub fn new(number: u16, place: usize) -> Refusal {
        Refusal { number, place: place as u16 }
    }
}

/// What lies beyond one end of a section.
#[derive(Clone, Copy, PartialEq, Eq, Debug)]
pub struct End {
    pub moves: bool,
    pub point: u16,
    pub left: u16,
    pub right: u16,
}

impl End {
    pub fn fixed(beyond: u16) -> End {
        End { moves: false, point: 0, left: beyond, right: 0 }
    }

    pub fn moved(point: u16, left: u16, right: u16) -> End {
        End { moves: true, point, left, right }
    }

    /// What lies beyond, when `lies_left` tells how a point lies.
    pub fn beyond(&self, lies_left: impl Fn(u16) -> bool) -> u16 {
        if self.moves && !lies_left(self.point) {
            self.right
        } else {
            self.left
        }
    }
}

#[derive(Clone, Copy, PartialEq, Eq, Debug)]
pub struct Section {
    pub upper: End,
    pub lower: End,
    pub signal_up: bool,
    pub signal_down: bool,
    pub edge: bool,
}

impl Section {
    pub fn new(upper: End, lower: End) -> Section {
        Section { upper, lower, signal_up: false, signal_down: false, edge: false }
    }

    pub fn end(&self, up: bool) -> &End {
        if up {
            &self.upper
        } else {
            &self.lower
        }
    }

    pub fn end_mut(&mut self, up: bool) -> &mut End {
        if up {
            &mut self.upper
        } else {
            &mut self.lower
        }
    }

    pub fn signal(&self, up: bool) -> bool {
        if up {
            self.signal_up
        } else {
            self.signal_down
        }
    }

    pub fn set_signal(&mut self, up: bool, there: bool) {
        if up {
            self.signal_up = there
        } else {
            self.signal_down = there
        }
    }
}

#[derive(Clone, Copy, PartialEq, Eq, Debug)]
pub struct Need {
    pub point: u16,
    pub left: bool,
}

#[derive(Clone, PartialEq, Eq, Debug)]
pub struct Route {
    pub begin: u16,
    pub up: bool,
    pub path: Vec<u16>,
    pub needs: Vec<Need>,
}

#[derive(Clone, PartialEq, Eq, Debug)]
pub struct Plan {
    pub sections: Vec<Section>,
    pub places: Vec<u16>,
    pub routes: Vec<Route>,
    pub time: u16,
    /// The numbers that follow the places, as they were read.
    after: Vec<u16>,
}

impl Plan {
    pub fn new(sections: Vec<Section>, places: Vec<u16>, routes: Vec<Route>, time: u16) -> Plan {
        let mut plan = Plan { sections, places, routes, time, after: Vec::new() };
        plan.settle();
        plan
    }

    /// To be called when routes were changed by hand.
    pub fn settle(&mut self) {
        self.after = self.route_numbers();
    }

    pub fn has(&self, section: u16) -> bool {
        (section as usize) < self.sections.len()
    }

    pub fn route(&self, which: u16) -> Option<&Route> {
        self.routes.get(which as usize)
    }

    pub fn signal(&self, up: bool, section: u16) -> bool {
        self.sections.get(section as usize).map_or(false, |s| s.signal(up))
    }

    pub fn edge(&self, section: u16) -> bool {
        self.sections.get(section as usize).map_or(false, |s| s.edge)
    }

    /// The section in which a point lies; of a point that is not there, what follows in the numbers.
    pub fn place(&self, point: u16) -> u16 {
        let point = point as usize;
        if point < self.places.len() {
            self.places[point]
        } else {
            self.after.get(point - self.places.len()).copied().unwrap_or(0)
        }
    }

    /// What lies beyond an end of a section; outside for a section that is not there.
    pub fn beyond(&self, up: bool, section: u16, lies_left: impl Fn(u16) -> bool) -> u16 {
        match self.sections.get(section as usize) {
            Some(s) => s.end(up).beyond(lies_left),
            None => u16::MAX,
        }
    }

    /// Whether two sections hang together, going from `a` to `b`.
    pub fn hang(&self, up: bool, a: u16, b: u16, lies_left: impl Fn(u16) -> bool) -> bool {
        self.has(a)
            && self.has(b)
            && self.beyond(up, a, &lies_left) == b
            && self.beyond(!up, b, &lies_left) == a
    }

    fn route_numbers(&self) -> Vec<u16> {
        let mut xs = Vec::with_capacity(PER_ROUTE * self.routes.len());
        for r in &self.routes {
            xs.push(r.begin);
            xs.push(r.up as u16);
            xs.push(r.path.len() as u16);
            xs.push(r.needs.len() as u16);
            for i in 0..LONGEST {
                xs.push(r.path.get(i).copied().unwrap_or(0));
            }
            for i in 0..LONGEST {
                match r.needs.get(i) {
                    Some(n) => xs.extend([n.point, n.left as u16]),
                    None => xs.extend([0, 0]),
                }
            }
        }
        xs
    }

    /// The canonical numbers: unused places 0, marks 0 or 1.
    pub fn to_numbers(&self) -> Vec<u16> {
        let mut xs = vec![
            self.sections.len() as u16,
            self.places.len() as u16,
            self.time,
            self.routes.len() as u16,
        ];
        for s in &self.sections {
            for e in [&s.upper, &s.lower] {
                if e.moves {
                    xs.extend([1, e.point, e.left, e.right]);
                } else {
                    xs.extend([0, 0, e.left, 0]);
                }
            }
            xs.extend([s.signal_up as u16, s.signal_down as u16, s.edge as u16]);
        }
        xs.extend(&self.places);
        xs.extend(self.route_numbers());
        xs
    }

    /// The plan made canonical.
    pub fn tidy(&self) -> Plan {
        from_numbers(&self.to_numbers()).expect("a plan's own numbers are well formed")
    }
}

/// How many numbers a plan with these counts has.
pub fn length_of(sections: usize, points: usize, routes: usize) -> usize {
    HEAD + PER_SECTION * sections + points + PER_ROUTE * routes
}

/// The first fault in the shape of a plan's numbers.
pub fn shape(xs: &[u16]) -> Result<(), Refusal> {
    if xs.len() < HEAD {
        return Err(Refusal::new(1, 0));
    }
    let (sections, points, time, routes) = (xs[0] as usize, xs[1] as usize, xs[2], xs[3] as usize);
    let faults = [
        sections == 0 || sections > SECTIONS,
        points > POINTS,
        routes > ROUTES,
        time > TIME,
    ];
    if let Some(place) = faults.iter().position(|&f| f) {
        return Err(Refusal::new(1, place));
    }
    let length = length_of(sections, points, routes);
    if xs.len() != length {
        return Err(Refusal::new(2, length));
    }
    let first_route = HEAD + PER_SECTION * sections + points;
    for (i, &x) in xs.iter().enumerate() {
        let counts = i >= first_route && matches!((i - first_route) % PER_ROUTE, 2 | 3);
        if x > LARGEST || (counts && x as usize > LONGEST) {
            return Err(Refusal::new(3, i));
        }
    }
    Ok(())
}

pub fn from_numbers(xs: &[u16]) -> Result<Plan, Refusal> {
    shape(xs)?;
    let (n_sections, n_points, time, n_routes) = (xs[0] as usize, xs[1] as usize, xs[2], xs[3] as usize);
    let end = |k: usize| End { moves: xs[k] == 1, point: xs[k + 1], left: xs[k + 2], right: xs[k + 3] };
    let sections = (0..n_sections)
        .map(|i| {
            let k = HEAD + PER_SECTION * i;
            Section {
                upper: end(k),
                lower: end(k + 4),
                signal_up: xs[k + 8] == 1,
                signal_down: xs[k + 9] == 1,
                edge: xs[k + 10] == 1,
            }
        })
        .collect();
    let k = HEAD + PER_SECTION * n_sections;
    let places = xs[k..k + n_points].to_vec();
    let after = xs[k + n_points..].to_vec();
    let routes = after
        .chunks(PER_ROUTE)
        .take(n_routes)
        .map(|c| Route {
            begin: c[0],
            up: c[1] == 1,
            path: c[4..4 + c[2] as usize].to_vec(),
            needs: c[20..20 + 2 * c[3] as usize]
                .chunks(2)
                .map(|p| Need { point: p[0], left: p[1] == 1 })
                .collect(),
        })
        .collect();
    Ok(Plan { sections, places, routes, time, after })
}
