//! `cases FILE TURNS SEED` writes so many turns of the comparison into a file, for the program `scenarios`: mostly small plans, and with `many` as a fourth word more requests and judgements in each turn.

use std::time::Instant;

use plain::cases::Recorder;
use plain::compare::{turn, Size, Tally};
use plain::gen::Rng;

fn main() {
    let args: Vec<String> = std::env::args().skip(1).collect();
    let [file, turns, seed, rest @ ..] = args.as_slice() else { panic!("usage: cases FILE TURNS SEED [many]") };
    let size = if rest.is_empty() { Size::SMALL } else { Size::MANY };
    let (turns, seed) = (turns.parse().expect("a number of turns"), seed.parse().expect("a seed"));
    let start = Instant::now();
    let (mut recorder, mut rng, mut tally) = (Recorder::default(), Rng::new(seed), Tally::default());
    for nth in 0..turns {
        turn(&mut recorder, &mut rng, nth, size, &mut tally).expect("no difference from itself");
    }
    std::fs::write(file, &recorder.file).expect("the file can be written");
    println!("{tally:?}, {} bytes, {:.1} s", recorder.file.len(), start.elapsed().as_secs_f64());
}
