//! Short rows of events in the loop and four unsound plans, with what must come of them.

use plain::fixed::the_loop;
use plain::interlocking::{Request::*, Stage};
use plain::judge::{judge, Verdict};
use plain::plan::{Need, Plan};
use plain::promises::check;
use plain::world::{Event, Event::*, Train, World};

struct Run {
    plan: Plan,
    world: World,
    kept: bool,
}

impl Run {
    fn new(time: u16) -> Run {
        Run { plan: the_loop(time), world: World::new(), kept: true }
    }

    fn does(&mut self, e: Event) -> bool {
        let before = self.world.clone();
        let can = self.world.can(&self.plan, e);
        let done = self.world.step(&self.plan, e);
        self.kept &= can == done && (done || before == self.world) && check(&self.plan, &self.world).is_ok();
        done
    }

    fn all(&mut self, row: &[Event]) -> bool {
        row.iter().all(|&e| self.does(e))
    }

    fn stage(&self, r: usize) -> Stage {
        self.world.interlocking.stage[r]
    }

    fn locked(&self, sections: &[usize], r: u8) -> bool {
        (0..64).all(|x| (self.world.interlocking.lock[x] == r + 1) == sections.contains(&x))
    }
}

fn through_the_loop(t: &mut Run) -> bool {
    t.all(&[Comes(0, true, 0), Asked(Ask(0)), Asked(Clear(0)), Goes(0), Goes(0), Draws(0)])
        && !t.does(Asked(Free(1)))
        && t.all(&[Draws(0), Asked(Free(1))])
}

fn main() {
    let mut failed = 0;
    let mut say = |name: &str, pass: bool| {
        println!("{}  {name}", if pass { "pass" } else { "FAIL" });
        failed += !pass as i32;
    };

    let mut t = Run::new(2);
    let pass = t.does(Asked(Ask(0))) && !t.does(Asked(Ask(1)));
    say("ask 0, ask 1", pass && t.kept);

    let mut t = Run::new(2);
    let pass = t.all(&[Asked(Ask(0)), Asked(Ask(5))])
        && t.stage(0) == Stage::Set
        && t.stage(5) == Stage::Set
        && t.locked(&[1, 2], 0)
        && t.locked(&[3, 4], 5)
        && !t.world.interlocking.wanted.left(1)
        && t.world.interlocking.wanted.left(0);
    say("ask 0, ask 5", pass && t.kept);

    let mut t = Run::new(2);
    let pass = t.does(Asked(Ask(5)))
        && !t.does(Asked(Clear(5)))
        && t.stage(5) == Stage::Set
        && t.all(&[Turns(1), Asked(Clear(5))])
        && t.stage(5) == Stage::Shown;
    say("ask 5, clear 5", pass && t.kept);

    let mut t = Run::new(2);
    let pass = through_the_loop(&mut t) && t.world.interlocking.lock[1] == 0;
    say("a train goes to 2 and 1 is freed after it", pass && t.kept);

    let mut t = Run::new(2);
    let pass = through_the_loop(&mut t)
        && t.does(Asked(Free(2)))
        && t.stage(0) == Stage::Idle
        && t.locked(&[], 0)
        && t.world.trains[0].cars == [2];
    say("the same, then free 2", pass && t.kept);

    let mut t = Run::new(2);
    let pass = t.all(&[Comes(0, true, 0), Asked(Ask(0)), Asked(Clear(0)), Asked(Back(0))])
        && t.stage(0) == Stage::Falling(2)
        && t.does(Goes(0))
        && t.stage(0) == Stage::Used;
    say("a train goes while the route falls", pass && t.kept);

    let mut t = Run::new(2);
    let mut pass = t.all(&[Asked(Ask(0)), Asked(Clear(0)), Asked(Back(0))]);
    for left in [Some(1), Some(0), None] {
        pass &= t.does(Asked(Tick)) && t.stage(0) == left.map_or(Stage::Idle, Stage::Falling);
    }
    say("idle at the third tick", pass && t.locked(&[], 0) && t.kept);

    let both = |t: &mut Run| {
        t.all(&[Asked(Ask(2)), Asked(Ask(7))])
            && t.stage(2) == Stage::Set
            && t.stage(7) == Stage::Set
            && t.locked(&[4, 5], 2)
            && t.locked(&[0, 1], 7)
    };
    let mut t = Run::new(2);
    t.world.trains[0] = Train { cars: vec![2], up: true };
    t.world.trains[1] = Train { cars: vec![3], up: false };
    let mut pass = both(&mut t) && t.kept;
    let mut t = Run::new(2);
    pass &= through_the_loop(&mut t)
        && t.all(&[Asked(Free(2)), Comes(1, false, 5), Asked(Ask(5)), Turns(1), Asked(Clear(5))])
        && t.all(&[Goes(1), Goes(1), Draws(1), Draws(1), Asked(Free(4)), Asked(Free(3))])
        && both(&mut t);
    say("trains in 2 and 3; ask 2, ask 7", pass && t.kept);

    let unsound = |change: &dyn Fn(&mut Plan)| {
        let mut plan = the_loop(2);
        change(&mut plan);
        plan.settle();
        judge(&plan)
    };
    say("the loop is sound", judge(&the_loop(2)) == Verdict::Sound);
    let v = unsound(&|p| p.routes[0].path = vec![1]);
    say("route 0 by 1 alone breaks 8", v == Verdict::Route(0, 8));
    let v = unsound(&|p| p.routes[0].needs.clear());
    say("route 0 by 1, 2 with no need breaks 6", v == Verdict::Route(0, 6));
    let v = unsound(&|p| {
        p.routes[0].path = vec![1, 2, 4];
        p.routes[0].needs = vec![Need { point: 0, left: true }, Need { point: 1, left: true }];
    });
    say("route 0 by 1, 2, 4 with both points left breaks 7", v == Verdict::Route(0, 7));
    let v = unsound(&|p| p.places[0] = 0);
    say("point 0 with its place in 0 breaks 10", v == Verdict::Whole(10));
    for (name, plan) in plain::fixed::all(2) {
        let v = judge(&plan);
        say(&format!("{name}, {} routes, is sound", plan.routes.len()), v == Verdict::Sound);
    }
    std::process::exit((failed > 0) as i32);
}
