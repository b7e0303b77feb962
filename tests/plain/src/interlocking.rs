//! The interlocking: locks, passed sections, stages and wanted points, and what it does when asked.

use crate::plan::{from_numbers, Plan, Refusal, POINTS, ROUTES, SECTIONS};

pub const MEMORY: usize = 224;

#[derive(Clone, Copy, PartialEq, Eq, Debug, Hash)]
pub enum Stage {
    Idle,
    Set,
    Shown,
    Used,
    Falling(u16),
}

impl Stage {
    pub fn from_number(n: u16) -> Stage {
        match n {
            0 => Stage::Idle,
            1 => Stage::Set,
            2 => Stage::Shown,
            3 => Stage::Used,
            _ => Stage::Falling(n - 4),
        }
    }

    pub fn to_number(self) -> u16 {
        match self {
            Stage::Idle => 0,
            Stage::Set => 1,
            Stage::Shown => 2,
            Stage::Used => 3,
            Stage::Falling(n) => n + 4,
        }
    }

    /// Whether a train may pass the signal.
    pub fn passable(self) -> bool {
        matches!(self, Stage::Shown | Stage::Falling(_))
    }
}

#[derive(Clone, Copy, PartialEq, Eq, Debug, Hash)]
pub enum Request {
    Ask(u16),
    Clear(u16),
    Back(u16),
    Free(u16),
    Tick,
}

impl Request {
    pub fn from_numbers(kind: u16, which: u16) -> Request {
        match kind {
            0 => Request::Ask(which),
            1 => Request::Clear(which),
            2 => Request::Back(which),
            3 => Request::Free(which),
            _ => Request::Tick,
        }
    }
}

/// Which sections are taken.
#[derive(Clone, Copy, PartialEq, Eq, Debug)]
pub struct Seen(pub [bool; SECTIONS]);

impl Seen {
    pub fn nothing() -> Seen {
        Seen([false; SECTIONS])
    }

    pub fn taken(&self, section: u16) -> bool {
        self.0.get(section as usize).copied().unwrap_or(false)
    }
}

/// How points lie: true for left.
#[derive(Clone, Copy, PartialEq, Eq, Debug, Hash)]
pub struct Lie(pub [bool; POINTS]);

impl Lie {
    pub fn left(&self, point: u16) -> bool {
        self.0.get(point as usize).copied().unwrap_or(false)
    }
}

#[derive(Clone, PartialEq, Eq, Debug)]
pub struct State {
    /// 0 for no route, else the route's number and one.
    pub lock: [u8; SECTIONS],
    pub passed: [bool; SECTIONS],
    pub stage: [Stage; ROUTES],
    pub wanted: Lie,
}

impl State {
    pub fn new() -> State {
        State {
            lock: [0; SECTIONS],
            passed: [false; SECTIONS],
            stage: [Stage::Idle; ROUTES],
            wanted: Lie([true; POINTS]),
        }
    }

    pub fn lock_of(&self, section: u16) -> u8 {
        self.lock.get(section as usize).copied().unwrap_or(0)
    }

    fn open(&self, seen: &Seen, section: u16) -> bool {
        !seen.taken(section) && self.lock_of(section) == 0
    }

    /// Does what is asked if it can be done; says whether it was.
    pub fn act(&mut self, plan: &Plan, seen: &Seen, lie: &Lie, request: Request) -> bool {
        match request {
            Request::Ask(r) => self.ask(plan, seen, r),
            Request::Clear(r) => self.clear(plan, lie, r),
            Request::Back(r) => self.back(plan, seen, r),
            Request::Free(x) => self.free(plan, seen, x),
            Request::Tick => {
                self.tick(plan);
                true
            }
        }
    }

    fn ask(&mut self, plan: &Plan, seen: &Seen, r: u16) -> bool {
        let Some(route) = plan.route(r) else { return false };
        if self.stage[r as usize] != Stage::Idle {
            return false;
        }
        if !route.path.iter().all(|&x| self.open(seen, x)) {
            return false;
        }
        let in_use = |point: u16| {
            plan.routes.iter().zip(&self.stage).any(|(other, &stage)| {
                stage != Stage::Idle && other.needs.iter().any(|n| n.point == point)
            })
        };
        for n in &route.needs {
            let already = self.wanted.left(n.point) == n.left;
            if !already && (in_use(n.point) || !self.open(seen, plan.place(n.point))) {
                return false;
            }
        }
        for &x in &route.path {
            if let Some(lock) = self.lock.get_mut(x as usize) {
                *lock = r as u8 + 1;
            }
        }
        // of needs that can't be met together the first is taken
        for n in route.needs.iter().rev() {
            if let Some(wanted) = self.wanted.0.get_mut(n.point as usize) {
                *wanted = n.left;
            }
        }
        self.stage[r as usize] = Stage::Set;
        true
    }

    fn clear(&mut self, plan: &Plan, lie: &Lie, r: u16) -> bool {
        let Some(route) = plan.route(r) else { return false };
        let right = |n: &crate::plan::Need| self.wanted.left(n.point) == n.left && lie.left(n.point) == n.left;
        if self.stage[r as usize] != Stage::Set || !route.needs.iter().all(right) {
            return false;
        }
        self.stage[r as usize] = Stage::Shown;
        true
    }

    fn back(&mut self, plan: &Plan, seen: &Seen, r: u16) -> bool {
        let Some(route) = plan.route(r) else { return false };
        match self.stage[r as usize] {
            Stage::Set => {
                self.let_go(r);
                true
            }
            Stage::Shown => {
                self.stage[r as usize] = Stage::Falling(plan.time);
                true
            }
            Stage::Used if route.path.iter().all(|&x| !seen.taken(x)) => {
                self.forget(r);
                self.let_go(r);
                true
            }
            _ => false,
        }
    }

    /// No section of a route is passed any more.
    fn forget(&mut self, r: u16) {
        for x in 0..SECTIONS {
            if self.lock[x] as u16 == r + 1 {
                self.passed[x] = false;
            }
        }
    }

    fn let_go(&mut self, r: u16) {
        for x in 0..SECTIONS {
            if self.lock[x] as u16 == r + 1 {
                self.lock[x] = 0;
            }
        }
        self.stage[r as usize] = Stage::Idle;
    }

    fn tick(&mut self, plan: &Plan) {
        for r in 0..plan.routes.len() {
            match self.stage[r] {
                Stage::Falling(0) => self.let_go(r as u16),
                Stage::Falling(n) => self.stage[r] = Stage::Falling(n - 1),
                _ => {}
            }
        }
    }

    fn free(&mut self, plan: &Plan, seen: &Seen, x: u16) -> bool {
        let lock = self.lock_of(x);
        if lock == 0 {
            return false;
        }
        let r = lock as u16 - 1;
        let Some(route) = plan.route(r) else { return false };
        if self.stage[r as usize] != Stage::Used || !self.passed[x as usize] {
            return false;
        }
        let before = route.path.iter().take_while(|&&y| y != x);
        if before.into_iter().any(|&y| self.lock_of(y) == lock) {
            return false;
        }
        let last = route.path.last().copied().unwrap_or(0) == x;
        if seen.taken(x) && !last {
            return false;
        }
        self.lock[x as usize] = 0;
        self.passed[x as usize] = false;
        if last {
            self.stage[r as usize] = Stage::Idle;
        }
        true
    }

    /// Takes note of what is seen.
    pub fn note(&mut self, plan: &Plan, seen: &Seen) {
        for (r, route) in plan.routes.iter().enumerate() {
            if self.stage[r].passable() && seen.taken(route.path.first().copied().unwrap_or(0)) {
                self.stage[r] = Stage::Used;
            }
        }
        for x in 0..SECTIONS {
            if self.lock[x] != 0 && seen.0[x] {
                self.passed[x] = true;
            }
        }
    }

    fn from_memory(memory: &[u16]) -> State {
        let mut s = State::new();
        for x in 0..SECTIONS {
            s.lock[x] = memory[x] as u8;
            s.passed[x] = memory[64 + x] == 1;
        }
        for r in 0..ROUTES {
            s.stage[r] = Stage::from_number(memory[128 + r]);
        }
        for q in 0..POINTS {
            s.wanted.0[q] = memory[192 + q] == 1;
        }
        s
    }

    /// Writes what differs from what the memory says.
    fn write(&self, memory: &mut [u16]) {
        let old = State::from_memory(memory);
        for x in 0..SECTIONS {
            if old.lock[x] != self.lock[x] {
                memory[x] = self.lock[x] as u16;
            }
            if old.passed[x] != self.passed[x] {
                memory[64 + x] = self.passed[x] as u16;
            }
        }
        for r in 0..ROUTES {
            if old.stage[r] != self.stage[r] {
                memory[128 + r] = self.stage[r].to_number();
            }
        }
        for q in 0..POINTS {
            if old.wanted.0[q] != self.wanted.0[q] {
                memory[192 + q] = self.wanted.0[q] as u16;
            }
        }
    }

    pub fn to_memory(&self) -> Vec<u16> {
        let mut memory = empty_memory();
        self.write(&mut memory);
        memory
    }
}

impl Default for State {
    fn default() -> State {
        State::new()
    }
}

pub fn empty_memory() -> Vec<u16> {
    let mut memory = vec![0; MEMORY];
    memory[192..].fill(1);
    memory
}

fn marks<const N: usize>(xs: &[u16]) -> [bool; N] {
    let mut out = [false; N];
    for (o, &x) in out.iter_mut().zip(xs) {
        *o = x == 1;
    }
    out
}

fn locks_fit(plan: &Plan, memory: &[u16]) -> bool {
    memory[..SECTIONS].iter().all(|&l| l as usize <= plan.routes.len())
}

/// A request over numbers: done or not, or refused; then the memory is as it was.
pub fn act(
    plan: &[u16],
    memory: &mut [u16],
    seen: &[u16],
    turned: &[u16],
    kind: u16,
    which: u16,
) -> Result<bool, Refusal> {
    let plan = from_numbers(plan)?;
    if memory.len() != MEMORY {
        return Err(Refusal::new(4, 0));
    }
    if seen.len() != SECTIONS {
        return Err(Refusal::new(4, 1));
    }
    if turned.len() != POINTS {
        return Err(Refusal::new(4, 2));
    }
    if !locks_fit(&plan, memory) {
        return Err(Refusal::new(4, 3));
    }
    if kind > 4 {
        return Err(Refusal::new(5, 0));
    }
    if which > 63 {
        return Err(Refusal::new(5, 1));
    }
    let mut state = State::from_memory(memory);
    let request = Request::from_numbers(kind, which);
    let done = state.act(&plan, &Seen(marks(seen)), &Lie(marks(turned)), request);
    if done {
        state.write(memory);
    }
    Ok(done)
}

/// Noting over numbers.
pub fn note(plan: &[u16], memory: &mut [u16], seen: &[u16]) -> Result<(), Refusal> {
    let plan = from_numbers(plan)?;
    if memory.len() != MEMORY {
        return Err(Refusal::new(4, 0));
    }
    if seen.len() != SECTIONS {
        return Err(Refusal::new(4, 1));
    }
    if !locks_fit(&plan, memory) {
        return Err(Refusal::new(4, 3));
    }
    let mut state = State::from_memory(memory);
    state.note(&plan, &Seen(marks(seen)));
    state.write(memory);
    Ok(())
}
