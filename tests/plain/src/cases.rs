//! Cases in a file, for the program `scenarios`, which runs the proved library on them.
//!
//! A file is a row of numbers of 16 bits, the low byte first. Each case begins with its tag:
//!
//! ```text
//! 1  LIST ANSWER                 the plan from here on, and what the judge says of it
//! 2  LIST                        the memory from here on
//! 3  MARKS                       what is seen from here on
//! 4  MARKS                       how points lie from here on
//! 5  KIND WHICH ANSWER CHANGES   a request, and what it does to the memory
//! 6  ANSWER CHANGES              noting, and what it does to the memory
//! 7  EVENTS MARKS NUMBERS        a row of events from the first world on, for each whether it was done, and the last world
//!
//! LIST     how long it is, and CHANGES to what it was before: what is beyond its length is dropped, what is new is 0
//! CHANGES  how many, and for each its place and the number that stands there now
//! MARKS    how many, and a byte for each
//! ANSWER   three numbers, see `Code`
//! EVENTS   how many, and four numbers for each, see `Event::to_numbers`
//! NUMBERS  how many, and the numbers; of a world see `World::to_numbers`
//! ```
//!
//! All lists are empty at first. The memory that a request or noting leaves is the memory from there on.

use crate::compare::{Code, Other, Plain, Ran};

/// Answers as the plain player does, and writes down each case.
#[derive(Default)]
pub struct Recorder {
    pub file: Vec<u8>,
    plan: Vec<u16>,
    memory: Vec<u16>,
    seen: Vec<u8>,
    turned: Vec<u8>,
}

fn put(file: &mut Vec<u8>, numbers: &[u16]) {
    file.extend(numbers.iter().flat_map(|n| n.to_le_bytes()));
}

fn put_changes(file: &mut Vec<u8>, old: &[u16], new: &[u16]) {
    let was = |i: usize| old.get(i).copied().unwrap_or(0);
    let changed: Vec<usize> = (0..new.len()).filter(|&i| new[i] != was(i)).collect();
    put(file, &[changed.len() as u16]);
    for i in changed {
        put(file, &[i as u16, new[i]]);
    }
}

/// Writes a list if it is another than before.
fn put_list(file: &mut Vec<u8>, tag: u16, old: &mut Vec<u16>, new: &[u16]) -> bool {
    if old == new {
        return false;
    }
    put(file, &[tag, new.len() as u16]);
    put_changes(file, old, new);
    *old = new.to_vec();
    true
}

/// Writes marks if they are others than before. A mark that is no byte is written as 255, which says no as it does.
fn put_marks(file: &mut Vec<u8>, tag: u16, old: &mut Vec<u8>, new: &[u16]) {
    let new: Vec<u8> = new.iter().map(|&mark| mark.min(255) as u8).collect();
    if *old != new {
        put(file, &[tag, new.len() as u16]);
        file.extend(&new);
        *old = new;
    }
}

impl Recorder {
    fn plan(&mut self, plan: &[u16]) {
        if put_list(&mut self.file, 1, &mut self.plan, plan) {
            let (what, number, place) = Plain.judge(plan);
            put(&mut self.file, &[what, number, place]);
        }
    }

    fn answer(&mut self, (what, number, place): Code, memory: &[u16]) {
        put(&mut self.file, &[what, number, place]);
        put_changes(&mut self.file, &self.memory, memory);
        self.memory = memory.to_vec();
    }
}

impl Other for Recorder {
    fn judge(&mut self, plan: &[u16]) -> Code {
        self.plan(plan);
        Plain.judge(plan)
    }

    fn act(&mut self, plan: &[u16], memory: &mut [u16], seen: &[u16], turned: &[u16], kind: u16, which: u16) -> Code {
        self.plan(plan);
        put_list(&mut self.file, 2, &mut self.memory, memory);
        put_marks(&mut self.file, 3, &mut self.seen, seen);
        put_marks(&mut self.file, 4, &mut self.turned, turned);
        let code = Plain.act(plan, memory, seen, turned, kind, which);
        put(&mut self.file, &[5, kind, which]);
        self.answer(code, memory);
        code
    }

    fn note(&mut self, plan: &[u16], memory: &mut [u16], seen: &[u16]) -> Option<Code> {
        self.plan(plan);
        put_list(&mut self.file, 2, &mut self.memory, memory);
        put_marks(&mut self.file, 3, &mut self.seen, seen);
        let code = Plain.note(plan, memory, seen)?;
        put(&mut self.file, &[6]);
        self.answer(code, memory);
        Some(code)
    }

    fn run(&mut self, plan: &[u16], events: &[[u16; 4]]) -> Option<Ran> {
        self.plan(plan);
        let ran = Plain.run(plan, events)?;
        put(&mut self.file, &[7, events.len() as u16]);
        put(&mut self.file, &events.concat());
        put(&mut self.file, &[ran.done.len() as u16]);
        self.file.extend(ran.done.iter().map(|&done| u8::from(done)));
        put(&mut self.file, &[ran.world.len() as u16]);
        put(&mut self.file, &ran.world);
        Some(ran)
    }
}
