//! How long the proved library takes, beside the plain player: the same numbers, in the same process, batch after batch in turn. Medians of the batches.
//! `bench` prints the tables; `bench programs PROVED PLAIN PLAN EVENTS` times two programs that must write the same.

use std::hint::black_box;
use std::process::{Command, Stdio};
use std::time::Instant;

use beside::proved::{self, bytes};
use plain::clock::of_children;
use plain::fixed::the_loop;
use plain::interlocking::{act, empty_memory, note};
use plain::judge::{judge_by_steps, Verdict};
use plain::large::{Ring, LARGEST};
use plain::plan::{from_numbers, Plan};

const BATCHES: usize = 201;
const BATCH_SECONDS: f64 = 0.0002;

fn seconds(mut f: impl FnMut(), times: usize) -> f64 {
    let start = Instant::now();
    for _ in 0..times {
        f();
    }
    start.elapsed().as_secs_f64() / times as f64
}

fn median(mut xs: Vec<f64>) -> f64 {
    xs.sort_by(f64::total_cmp);
    xs[xs.len() / 2]
}

/// Medians of both in seconds, the batches taken in turn.
fn both(mut proved: impl FnMut(), mut plain: impl FnMut()) -> (f64, f64) {
    let once = seconds(&mut proved, 20).max(seconds(&mut plain, 20));
    let times = ((BATCH_SECONDS / once) as usize).max(1);
    let (mut a, mut b) = (Vec::new(), Vec::new());
    for _ in 0..BATCHES {
        a.push(seconds(&mut proved, times));
        b.push(seconds(&mut plain, times));
    }
    (median(a), median(b))
}

fn time(seconds: f64) -> String {
    match seconds {
        s if s < 1e-3 => format!("{:.2} µs", s * 1e6),
        s => format!("{:.2} ms", s * 1e3),
    }
}

fn line(what: &str, (proved, plain): (f64, f64)) {
    println!("| {what} | {} | {} | {:.2} |", time(proved), time(plain), proved / plain);
}

fn judging(plan: &Plan) -> (f64, f64) {
    let xs = plan.to_numbers();
    assert_eq!(proved::judge(&xs), (0, 0, 0));
    assert_eq!(from_numbers(&xs).map(|p| judge_by_steps(&p)), Ok(Verdict::Sound));
    both(
        || {
            black_box(proved::judge(black_box(&xs)));
        },
        || {
            black_box(from_numbers(black_box(&xs)).map(|p| judge_by_steps(&p))).ok();
        },
    )
}

/// A memory and what is seen and lies, in which a request can be done.
struct Moment {
    memory: Vec<u16>,
    seen: Vec<u16>,
    turned: Vec<u16>,
}

impl Moment {
    /// After asking for route 0, its points turned, and after so many of clearing, a train in its first section, and that train gone.
    fn new(plan: &[u16], steps: usize) -> Moment {
        let read = from_numbers(plan).expect("a plan");
        let mut m = Moment { memory: empty_memory(), seen: vec![0; 64], turned: vec![1; 32] };
        for step in 0..steps {
            match step {
                0 => assert_eq!(act(plan, &mut m.memory, &m.seen, &m.turned, 0, 0), Ok(true)),
                1 => assert_eq!(act(plan, &mut m.memory, &m.seen, &m.turned, 1, 0), Ok(true)),
                2 => m.seen[read.routes[0].path[0] as usize] = 1,
                _ => {
                    note(plan, &mut m.memory, &m.seen).expect("noted");
                    m.seen.fill(0);
                }
            }
            m.turned = m.memory[192..].to_vec();
        }
        m
    }
}

fn asking(plan: &[u16], m: &Moment, kind: u16, which: u16) -> (f64, f64) {
    let (seen, turned) = (bytes(&m.seen), bytes(&m.turned));
    let (mut mine, mut theirs) = (m.memory.clone(), m.memory.clone());
    assert_eq!(proved::act(plan, &mut mine, &seen, &turned, kind, which), (1, 0, 0));
    assert_eq!(act(plan, &mut theirs, &m.seen, &m.turned, kind, which), Ok(true));
    assert!(mine == theirs && (mine != m.memory), "the same is done");
    both(
        || {
            mine.copy_from_slice(&m.memory);
            black_box(proved::act(black_box(plan), &mut mine, &seen, &turned, kind, which));
        },
        || {
            theirs.copy_from_slice(&m.memory);
            black_box(act(black_box(plan), &mut theirs, &m.seen, &m.turned, kind, which)).ok();
        },
    )
}

fn noting(plan: &[u16], m: &Moment) -> (f64, f64) {
    let seen = bytes(&m.seen);
    let (mut mine, mut theirs) = (m.memory.clone(), m.memory.clone());
    proved::note(plan, &mut mine, &seen);
    note(plan, &mut theirs, &m.seen).expect("noted");
    assert!(mine == theirs && mine != m.memory, "the same is noted");
    both(
        || {
            mine.copy_from_slice(&m.memory);
            black_box(proved::note(black_box(plan), &mut mine, &seen));
        },
        || {
            theirs.copy_from_slice(&m.memory);
            black_box(note(black_box(plan), &mut theirs, &m.seen)).ok();
        },
    )
}

/// `turning` is a route whose points lie otherwise at first.
fn requests(name: &str, plan: &Plan, turning: u16) {
    let xs = plan.to_numbers();
    line(&format!("ask, {name}"), asking(&xs, &Moment::new(&xs, 0), 0, 0));
    line(&format!("ask with points to turn, {name}"), asking(&xs, &Moment::new(&xs, 0), 0, turning));
    line(&format!("clear, {name}"), asking(&xs, &Moment::new(&xs, 1), 1, 0));
    line(&format!("back of a set route, {name}"), asking(&xs, &Moment::new(&xs, 1), 2, 0));
    line(&format!("back of a shown route, {name}"), asking(&xs, &Moment::new(&xs, 2), 2, 0));
    let mut falling = Moment::new(&xs, 2);
    act(&xs, &mut falling.memory, &falling.seen, &falling.turned, 2, 0).expect("taken back");
    line(&format!("tick, {name}"), asking(&xs, &falling, 4, 0));
    line(&format!("free, {name}"), asking(&xs, &Moment::new(&xs, 4), 3, plan.routes[0].path[0]));
    line(&format!("noting, {name}"), noting(&xs, &Moment::new(&xs, 3)));
}

fn growth() {
    println!("\n| grows | size | judging | ask | noting |\n|---|---|---|---|---|");
    let ring = |sections, routes, diamonds| Ring { sections, routes, diamonds, idle: 0 };
    let by = [8, 16, 32, 64];
    let mut rows: Vec<(&str, usize, Ring)> = Vec::new();
    rows.extend(by.map(|n| ("sections (16 routes of 2)", n, ring(n, 16, 0))));
    rows.extend(by.map(|n| ("routes (64 sections, paths of 16)", n, ring(64, n, 7))));
    rows.extend([(2, 0), (4, 1), (8, 3), (16, 7)].map(|(n, d)| ("paths (64 sections, 64 routes)", n, ring(64, 64, d))));
    for (what, n, ring) in rows {
        let plan = ring.plan();
        let xs = plan.to_numbers();
        let (judged, _) = judging(&plan);
        let (asked, _) = asking(&xs, &Moment::new(&xs, 0), 0, 0);
        let (noted, _) = noting(&xs, &Moment::new(&xs, 3));
        println!("| {what} | {n} | {} | {} | {} |", time(judged), time(asked), time(noted));
    }
}

/// The wall clock and the time spent of a program whose output goes to a file.
fn run(program: &str, args: &[String], out: &str) -> (f64, f64) {
    let file = std::fs::File::create(out).expect("a file for the output");
    let (start, before) = (Instant::now(), of_children());
    let status = Command::new(program).args(args).stdout(file).stderr(Stdio::null()).status();
    assert!(status.expect("the program runs").success());
    (start.elapsed().as_secs_f64(), of_children() - before)
}

fn programs(proved: &str, plain: &str, args: &[String]) {
    let dir = std::env::temp_dir();
    let name = |n: &str| dir.join(format!("bench-{}-{n}", std::process::id())).display().to_string();
    let (a, b) = (name("proved"), name("plain"));
    let (mine, theirs): (Vec<_>, Vec<_>) = (0..21).map(|_| (run(proved, args, &a), run(plain, args, &b))).unzip();
    let same = std::fs::read(&a).expect("output") == std::fs::read(&b).expect("output");
    let size = std::fs::metadata(&a).expect("output").len();
    std::fs::remove_file(&a).and(std::fs::remove_file(&b)).expect("removed");
    assert!(same, "the outputs differ");
    println!("| what | proved player | plain player | ratio |\n|---|---|---|---|");
    let of = |f: fn(&(f64, f64)) -> f64| (median(mine.iter().map(f).collect()), median(theirs.iter().map(f).collect()));
    for (what, (a, b)) in [("wall clock", of(|t| t.0)), ("spent in program and system", of(|t| t.1))] {
        println!("| a million events, {what} | {a:.2} s | {b:.2} s | {:.2} |", a / b);
    }
    println!("\nBoth wrote the same {size} bytes.");
}

fn main() {
    let args: Vec<String> = std::env::args().skip(1).collect();
    if let [what, proved, plain, rest @ ..] = args.as_slice() {
        assert_eq!(what, "programs");
        return programs(proved, plain, rest);
    }
    println!("| what | proved library | plain player | ratio |\n|---|---|---|---|");
    line("judging the largest plan", judging(&LARGEST.plan()));
    line("judging the loop", judging(&the_loop(2)));
    requests("the loop", &the_loop(2), 1);
    requests("the largest plan", &LARGEST.plan(), 60);
    growth();
}
