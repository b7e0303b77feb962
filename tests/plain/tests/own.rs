use std::collections::HashSet;

use plain::compare::{self, Case, Code, Difference, Other, Plain, Ran, Size};
use plain::gen::{any_numbers, any_plan, malformed, plan_breaking, small_plan, sound_plan, Rng};
use plain::interlocking::{act, empty_memory, note};
use plain::judge::{broken, hangs_by_steps, judge, judge_by_steps, path_hangs, Verdict};
use plain::large::{Ring, LARGEST};
use plain::plan::{from_numbers, Refusal};
use plain::world::World;
use plain::{explore, fixed, gen, soak};

#[test]
fn numbers_and_back() {
    let mut rng = Rng::new(1);
    for _ in 0..300 {
        let plan = any_plan(&mut rng);
        let xs = plan.to_numbers();
        assert_eq!(from_numbers(&xs).unwrap().to_numbers(), xs);
        let ys = any_numbers(&mut rng);
        let tidy = from_numbers(&ys).unwrap().to_numbers();
        assert_eq!(from_numbers(&tidy).unwrap().to_numbers(), tidy);
    }
}

#[test]
fn refusals_of_plans() {
    let no = |xs: &[u16]| from_numbers(xs).unwrap_err();
    let r = |number, place| Refusal { number, place };
    assert_eq!(no(&[]), r(1, 0));
    assert_eq!(no(&[1, 0, 0]), r(1, 0));
    assert_eq!(no(&[0, 33, 1001, 65]), r(1, 0));
    assert_eq!(no(&[65, 0, 0, 0]), r(1, 0));
    assert_eq!(no(&[1, 33, 1001, 65]), r(1, 1));
    assert_eq!(no(&[1, 0, 2000, 65]), r(1, 2));
    assert_eq!(no(&[1, 0, 2000, 64]), r(1, 3));
    assert_eq!(no(&[1, 0, 0, 0]), r(2, 15));
    assert_eq!(no(&[64, 32, 1000, 64]), r(2, 4068));
    let mut rng = Rng::new(2);
    for i in 0..2000 {
        let (xs, due) = malformed(&mut rng, i);
        assert_eq!(no(&xs), due);
    }
}

#[test]
fn refusals_of_requests() {
    let plan = fixed::the_loop(2).to_numbers();
    let (seen, turned) = ([0u16; 64], [1u16; 32]);
    let r = |number, place| Err(Refusal { number, place });
    let mut m = empty_memory();
    assert_eq!(act(&plan, &mut m[1..], &seen[1..], &turned[1..], 9, 99), r(4, 0));
    assert_eq!(act(&plan, &mut m, &seen[1..], &turned[1..], 9, 99), r(4, 1));
    m[63] = 9;
    assert_eq!(act(&plan, &mut m, &seen, &turned[1..], 9, 99), r(4, 2));
    assert_eq!(act(&plan, &mut m, &seen, &turned, 9, 99), r(4, 3));
    assert_eq!(note(&plan, &mut m, &seen).unwrap_err(), Refusal { number: 4, place: 3 });
    assert_eq!(note(&plan, &mut m, &seen[1..]).unwrap_err(), Refusal { number: 4, place: 1 });
    m[63] = 8;
    assert_eq!(act(&plan, &mut m, &seen, &turned, 5, 99), r(5, 0));
    assert_eq!(act(&plan, &mut m, &seen, &turned, 4, 64), r(5, 1));
    assert_eq!(act(&plan, &mut m, &seen, &turned, 4, 63), Ok(true));
    assert_eq!(act(&plan, &mut m, &seen, &turned, 0, 8), Ok(false));
}

#[test]
fn marks_keep_their_numbers() {
    let plan = fixed::the_loop(2).to_numbers();
    let (seen, turned) = ([0u16; 64], [1u16; 32]);
    let mut m = empty_memory();
    m[192 + 1] = 7;
    m[64 + 4] = 5;
    // route 5 needs point 1 right, and 7 is right already
    assert_eq!(act(&plan, &mut m, &seen, &turned, 0, 5), Ok(true));
    assert_eq!((m[192 + 1], m[64 + 4], m[4], m[3], m[128 + 5]), (7, 5, 6, 6, 1));
    assert_eq!(act(&plan, &mut m, &seen, &turned, 2, 5), Ok(true));
    assert_eq!((m[192 + 1], m[64 + 4], m[4], m[3], m[128 + 5]), (7, 5, 0, 0, 0));
}

#[test]
fn rule_six_in_two_ways() {
    let mut rng = Rng::new(3);
    let mut no = 0;
    for _ in 0..600 {
        let plan = if rng.chance(50) { any_plan(&mut rng) } else { from_numbers(&any_numbers(&mut rng)).unwrap() };
        for route in &plan.routes {
            let a = path_hangs(&plan, route);
            assert_eq!(a, hangs_by_steps(&plan, route));
            assert_eq!(judge(&plan), judge_by_steps(&plan));
            no += !a as usize;
        }
    }
    assert!(no > 20);
}

#[test]
fn plans_for_measuring_are_sound() {
    for (sections, routes, diamonds, idle) in [(8, 8, 0, 0), (64, 64, 0, 0), (64, 64, 3, 0), (64, 64, 7, 2)] {
        let plan = Ring { sections, routes, diamonds, idle }.plan();
        assert_eq!(judge(&plan), Verdict::Sound);
        assert_eq!(judge_by_steps(&plan), Verdict::Sound);
        assert_eq!((plan.sections.len(), plan.routes.len()), (sections, routes));
        assert!(plan.routes.iter().all(|r| r.path.len() == 2 * diamonds + 2));
    }
    let plan = LARGEST.plan();
    assert!(plan.places.len() == 32 && plan.routes.iter().all(|r| r.needs.len() == 16));
    assert_eq!(plan.to_numbers().len(), 4068);
}

#[test]
fn each_rule_can_be_broken_alone() {
    let mut rng = Rng::new(4);
    for rule in 1..=12 {
        for _ in 0..5 {
            let plan = plan_breaking(&mut rng, rule);
            assert_eq!(broken(&plan), [rule]);
            match judge(&plan) {
                Verdict::Route(_, r) => assert_eq!(r, rule),
                Verdict::Whole(r) => assert_eq!(r, rule),
                Verdict::Sound => panic!(),
            }
        }
    }
}

#[test]
fn fixed_plans_and_rows_keep_the_promises() {
    for (_, plan) in fixed::all(1) {
        assert_eq!(judge(&plan), Verdict::Sound);
        let mut rng = Rng::new(5);
        let mut stats = soak::Stats::default();
        for _ in 0..40 {
            soak::row(&mut rng, &plan, 300, &mut stats).unwrap();
        }
        assert!(stats.entered > 200, "{stats:?}");
    }
    soak::run(soak::Length::Events(20_000), 6).unwrap();
    assert_eq!(soak::run(soak::Length::Plans(300), 6).unwrap().plans, 300);
}

#[test]
fn keys_lead_back() {
    let mut rng = Rng::new(7);
    for _ in 0..50 {
        let plan = small_plan(&mut rng, 8, 10);
        let mut world = World::with_trains(2);
        for _ in 0..100 {
            let e = gen::event(&mut rng, &plan, &world, gen::Habits { trains: 2, late: false });
            world.step(&plan, e);
            assert!(explore::packs(&plan, &world));
        }
    }
}

/// Without one of these rules some promise fails somewhere.
#[test]
fn rules_carry_the_promises() {
    for rule in [2, 4, 5, 6, 8, 9, 10, 11, 12] {
        let mut rng = Rng::new(rule as u64);
        let failed = (0..8000).any(|_| {
            let mut plan = plan_breaking(&mut rng, rule);
            plan.time = rng.below(2) as u16;
            let mut stats = soak::Stats::default();
            soak::row(&mut rng, &plan, 200, &mut stats).is_err()
        });
        assert!(failed, "rule {rule}");
    }
}

/// This implementation with one thing wrong.
struct Wrong(u8);

impl Other for Wrong {
    fn judge(&mut self, plan: &[u16]) -> Code {
        match (self.0, Plain.judge(plan)) {
            (0, (0, ..)) => (1, 1, 0),
            (1, (1, 9, _)) => (0, 0, 0),
            (2, (2, 1, 2)) => (2, 1, 3),
            (_, code) => code,
        }
    }

    fn act(&mut self, plan: &[u16], memory: &mut [u16], seen: &[u16], turned: &[u16], kind: u16, which: u16) -> Code {
        let old = memory.to_vec();
        let whole = memory.len() == 224;
        match (self.0, kind) {
            (3, 1) if whole => return Plain.act(plan, memory, seen, &old[192..], kind, which),
            (4, 0) => return Plain.act(plan, memory, &vec![0; seen.len()], turned, kind, which),
            (5, 3) if whole => memory[64..128].fill(1),
            _ => {}
        }
        let code = Plain.act(plan, memory, seen, turned, kind, which);
        match (self.0, kind) {
            (5, 3) if code.0 != 1 => memory.copy_from_slice(&old),
            (6, 2) if code.0 == 1 && old[128 + which as usize] == 2 => memory[128 + which as usize] = 0,
            (7, 4) if code.0 == 1 => return (0, 0, 0),
            _ => {}
        }
        code
    }

    fn note(&mut self, plan: &[u16], memory: &mut [u16], seen: &[u16]) -> Option<Code> {
        if self.0 == 8 {
            return Some((1, 0, 0));
        }
        Plain.note(plan, memory, seen)
    }

    fn run(&mut self, plan: &[u16], events: &[[u16; 4]]) -> Option<Ran> {
        let mut ran = Plain.run(plan, events)?;
        if self.0 == 9 && ran.done.len() > 3 {
            ran.done[3] ^= true;
        }
        Some(ran)
    }
}

/// How large a case is: its routes, the numbers in it that are unusual, its events.
fn size(case: &Case) -> [usize; 3] {
    let (Case::Judge(plan) | Case::Act { plan, .. } | Case::Note { plan, .. } | Case::Row { plan, .. }) = case;
    let routes = from_numbers(plan).map_or(0, |p| p.routes.len());
    match case {
        Case::Judge(plan) => [routes, plan.iter().skip(4).filter(|&&x| x != 0).count(), 0],
        Case::Act { memory, seen, .. } | Case::Note { memory, seen, .. } => {
            let unusual = memory.iter().zip(empty_memory()).filter(|(&a, b)| a != *b).count();
            [routes, unusual + seen.iter().filter(|&&s| s != 0).count(), 0]
        }
        Case::Row { events, .. } => [routes, 0, events.len()],
    }
}

#[test]
fn comparison_finds_what_is_wrong() {
    compare::run(&mut Plain, 3000, 1).unwrap();
    let most = [
        [0, 8, 0],
        [1, 40, 0],
        [0, 0, 0],
        [8, 0, 2],
        [8, 0, 2],
        [8, 0, 8],
        [8, 0, 3],
        [0, 0, 1],
        [8, 0, 4],
        [0, 0, 4],
    ];
    for (wrong, most) in most.into_iter().enumerate() {
        let d = compare::run(&mut Wrong(wrong as u8), 10_000, 1).expect_err(&format!("wrong {wrong}"));
        let found = size(&d.case);
        assert!(found.iter().zip(most).all(|(&n, m)| n <= m), "wrong {wrong}: {found:?}\n{d}");
    }
}

/// A row of hundreds of events comes down to the three that matter, and is printed so.
#[test]
fn smallest_case_is_printed() {
    let d = compare::run(&mut Wrong(6), 10_000, 1).unwrap_err();
    let said = d.to_string();
    let mut lines = said.lines();
    assert_eq!(lines.next(), Some("DIFFERS: event 2, back 0: memory, number 128: 5 and 0"));
    assert!(lines.next().unwrap().starts_with("plan: [6, 2, 1, 1, "));
    assert_eq!(lines.collect::<Vec<_>>(), ["  ask 0", "  clear 0", "  back 0"]);
}

/// A request comes down to few numbers: here one section of the path that is seen.
#[test]
fn smallest_request_is_printed() {
    let mut memory = empty_memory();
    memory[64..128].fill(1);
    memory[128 + 7..192].fill(3);
    let plan = fixed::the_loop(2).to_numbers();
    let case = Case::Act { plan, memory, seen: vec![1; 64], turned: vec![0; 32], kind: 0, which: 2 };
    let case = compare::smallest(&mut Wrong(4), &case);
    let what = compare::differs(&mut Wrong(4), &case).unwrap();
    assert_eq!(what, "answers (0, 0, 0) and (1, 0, 0)");
    let said = Difference { case, what }.to_string();
    let lent = "memory: 224 numbers, {}\nseen: 64 numbers, {5: 1}\nturned: 32 numbers, {}\nkind 0, which 2\n";
    assert!(said.ends_with(lent), "{said}");
}

/// The plain player, and what it was asked.
#[derive(Default)]
struct Watcher {
    judged: Vec<Vec<u16>>,
    verdicts: HashSet<Code>,
    acted: HashSet<(u16, Code)>,
    noted: HashSet<Code>,
}

impl Other for Watcher {
    fn judge(&mut self, plan: &[u16]) -> Code {
        self.judged.push(plan.to_vec());
        self.verdicts.insert(Plain.judge(plan));
        Plain.judge(plan)
    }

    fn act(&mut self, plan: &[u16], memory: &mut [u16], seen: &[u16], turned: &[u16], kind: u16, which: u16) -> Code {
        let code = Plain.act(plan, memory, seen, turned, kind, which);
        self.acted.insert((kind, code));
        code
    }

    fn note(&mut self, plan: &[u16], memory: &mut [u16], seen: &[u16]) -> Option<Code> {
        let code = Plain.note(plan, memory, seen)?;
        self.noted.insert(code);
        Some(code)
    }

    fn run(&mut self, _: &[u16], _: &[[u16; 4]]) -> Option<Ran> {
        None
    }
}

/// In one turn for each rule: the fixed plans, each rule broken alone, each refusal, each request done and not done.
#[test]
fn comparison_covers() {
    for size in [Size::LARGE, Size::SMALL] {
        let (mut w, mut rng, mut tally) = (Watcher::default(), Rng::new(1), compare::Tally::default());
        for nth in 0..12 {
            compare::turn(&mut w, &mut rng, nth, size, &mut tally).unwrap();
        }
        let is_fixed = |numbers: &[u16], i: usize| (0..3).any(|time| fixed::all(time)[i].1.to_numbers() == numbers);
        for i in 0..fixed::all(0).len() {
            assert!(w.judged.iter().any(|p| is_fixed(p, i)), "{}", fixed::all(0)[i].0);
        }
        let alone: HashSet<Vec<u16>> =
            w.judged.iter().filter_map(|p| from_numbers(p).ok()).map(|p| broken(&p)).collect();
        assert!((1..=12).all(|rule| alone.contains(&vec![rule])), "{alone:?}");
        assert!(alone.contains(&vec![]));
        let all: Vec<Code> = w.acted.iter().map(|&(_, code)| code).collect();
        for place in 0..4 {
            assert!(w.verdicts.contains(&(2, 1, place)), "1 at {place}");
            assert!(all.contains(&(2, 4, place)), "4 at {place}");
            assert!(place == 2 || w.noted.contains(&(2, 4, place)), "noting, 4 at {place}");
        }
        for number in [2, 3] {
            assert!(w.verdicts.iter().any(|v| v.0 == 2 && v.1 == number));
        }
        assert!(all.contains(&(2, 5, 0)) && all.contains(&(2, 5, 1)));
        for kind in 0..5 {
            assert!(w.acted.contains(&(kind, (1, 0, 0))), "{kind} done");
            assert!(kind == 4 || w.acted.contains(&(kind, (0, 0, 0))), "{kind} not done");
        }
        assert!(w.noted.contains(&(1, 0, 0)));
    }
}

#[test]
fn plans_reach_the_limits() {
    let mut rng = Rng::new(8);
    let mut most = [0; 5];
    let (mut rings, mut twice, mut at_begin) = (0, 0, 0);
    for _ in 0..4000 {
        let plan = sound_plan(&mut rng);
        assert_eq!(judge(&plan), Verdict::Sound);
        let path = plan.routes.iter().map(|r| r.path.len()).max().unwrap();
        let needs = plan.routes.iter().map(|r| r.needs.len()).max().unwrap();
        let sizes = [plan.sections.len(), plan.places.len(), plan.routes.len(), path, needs];
        for (m, n) in most.iter_mut().zip(sizes) {
            *m = n.max(*m);
        }
        at_begin += plan.routes.iter().any(|r| plan.places.contains(&r.begin)) as usize;
        twice += plan.places.iter().any(|x| plan.places.iter().filter(|y| *y == x).count() > 1) as usize;
        rings += has_ring(&plan) as usize;
    }
    println!("{most:?}, {at_begin} with a point at begin, {twice} with two points in a section, {rings} rings");
    assert_eq!(most[0], 64);
    assert!(most[1] >= 28 && most[2] == 64 && most[3] >= 14 && most[4] >= 8, "{most:?}");
    assert!(at_begin > 100 && twice > 100 && rings > 20);
}

/// Whether going up from some section leads back to it.
fn has_ring(plan: &plain::plan::Plan) -> bool {
    (0..plan.sections.len() as u16).any(|start| {
        let mut seen = vec![false; plan.sections.len()];
        let mut todo = vec![start];
        while let Some(x) = todo.pop() {
            for left in [true, false] {
                let next = plan.beyond(true, x, |_| left);
                if next == start {
                    return true;
                }
                if plan.has(next) && !seen[next as usize] {
                    seen[next as usize] = true;
                    todo.push(next);
                }
            }
        }
        false
    })
}

#[test]
fn unsound_plans_are_played_too() {
    let mut rng = Rng::new(9);
    let mut done = 0;
    for _ in 0..800 {
        let plan = from_numbers(&any_numbers(&mut rng)).unwrap();
        let mut world = World::new();
        for _ in 0..80 {
            let e = gen::event(&mut rng, &plan, &world, gen::Habits { trains: 4, late: false });
            let before = world.clone();
            let can = world.can(&plan, e);
            assert_eq!(world.step(&plan, e), can);
            assert!(can || before == world);
            let _ = plain::promises::check(&plan, &world);
            done += can as usize;
        }
    }
    assert!(done > 10_000);
}
