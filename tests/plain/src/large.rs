//! Plans of a chosen size, for measuring.

use crate::plan::{End, Need, Plan, Route, Section, OUTSIDE};

/// A ring of two halves. Each half begins at a stop with signals both ways, and goes on through `diamonds` pairs of parallel sections to the other's stop.
/// The rest of the sections make a line of their own. A route goes from stop to stop by one of each pair, so its path has two sections for each diamond, and two more.
pub struct Ring {
    pub sections: usize,
    pub routes: usize,
    pub diamonds: usize,
    /// Points at each stop that move nothing, but are needed.
    pub idle: usize,
}

/// The largest plan there is: 64 sections, 32 points, 64 routes of 16 sections with 16 needs.
pub const LARGEST: Ring = Ring { sections: 64, routes: 64, diamonds: 7, idle: 2 };

/// The sections of one half, upward: its stop, the first join, and for each diamond its two sides and the join above them.
struct Half {
    stop: u16,
    join: Vec<u16>,
    left: Vec<u16>,
    right: Vec<u16>,
}

fn half(first: u16, diamonds: u16) -> Half {
    let above = |i: u16| first + 2 + 3 * i;
    Half {
        stop: first,
        join: std::iter::once(first + 1).chain((0..diamonds).map(|i| above(i) + 2)).collect(),
        left: (0..diamonds).map(above).collect(),
        right: (0..diamonds).map(|i| above(i) + 1).collect(),
    }
}

impl Ring {
    pub fn plan(&self) -> Plan {
        let each = 2 + 3 * self.diamonds as u16;
        let halves = [half(0, self.diamonds as u16), half(each, self.diamonds as u16)];
        let mut sections = vec![Section::new(End::fixed(OUTSIDE), End::fixed(OUTSIDE)); 2 * each as usize];
        let mut places = Vec::new();
        for h in 0..2 {
            lay(&halves[h], halves[1 - h].stop, &mut sections, &mut places);
        }
        for half in &halves {
            places.extend(std::iter::repeat(half.stop).take(self.idle));
        }
        self.line(&mut sections);
        let routes = (0..self.routes).map(|r| self.route(r, &halves)).collect();
        Plan::new(sections, places, routes, 2)
    }

    /// Straight on from edge to edge, with no route.
    fn line(&self, sections: &mut Vec<Section>) {
        let first = sections.len();
        for x in first..self.sections {
            let up = if x + 1 < self.sections { x as u16 + 1 } else { OUTSIDE };
            let down = if x > first { x as u16 - 1 } else { OUTSIDE };
            let mut s = Section::new(End::fixed(up), End::fixed(down));
            s.edge = up == OUTSIDE || down == OUTSIDE;
            s.signal_up = s.edge;
            s.signal_down = s.edge;
            sections.push(s);
        }
    }

    /// Up or down through a half; the bits of the rest of its number choose the sides.
    fn route(&self, r: usize, halves: &[Half; 2]) -> Route {
        let (h, up, sides) = (r & 1, r & 2 == 0, r >> 2);
        let half = &halves[h];
        let left = |i: usize| sides >> i & 1 == 0;
        let mut path = vec![half.join[0]];
        for i in 0..self.diamonds {
            path.push(if left(i) { half.left[i] } else { half.right[i] });
            path.push(half.join[i + 1]);
        }
        if !up {
            path.reverse();
        }
        let (begin, end) = if up { (h, 1 - h) } else { (1 - h, h) };
        path.push(halves[end].stop);
        let (n, d) = (self.idle, self.diamonds);
        let moving = (0..2 * d).map(|k| Need { point: (2 * d * h + k) as u16, left: left(k / 2) });
        let idle = (0..n).map(|k| Need { point: (4 * d + n * end + k) as u16, left: true });
        Route { begin: halves[begin].stop, up, path, needs: moving.chain(idle).collect() }
    }
}

/// Lays a half's sections; of its points one is below and one above each diamond.
fn lay(half: &Half, next: u16, sections: &mut [Section], places: &mut Vec<u16>) {
    let (first, last) = (half.join[0], half.join[half.left.len()]);
    let stop = &mut sections[half.stop as usize];
    stop.signal_up = true;
    stop.signal_down = true;
    stop.upper = End::fixed(first);
    sections[next as usize].lower = End::fixed(last);
    sections[first as usize].lower = End::fixed(half.stop);
    sections[last as usize].upper = End::fixed(next);
    for (i, (&left, &right)) in half.left.iter().zip(&half.right).enumerate() {
        let (below, above) = (half.join[i], half.join[i + 1]);
        let point = places.len() as u16;
        places.extend([below, above]);
        sections[below as usize].upper = End::moved(point, left, right);
        sections[above as usize].lower = End::moved(point + 1, left, right);
        for side in [left, right] {
            sections[side as usize].upper = End::fixed(above);
            sections[side as usize].lower = End::fixed(below);
        }
    }
}
