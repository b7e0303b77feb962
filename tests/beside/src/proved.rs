//! The proved library behind safe functions. Each function is declared once, here.

use plain::compare::{Code, Other, Ran};

#[repr(C)]
struct Answer {
    what: u64,
    number: u64,
    place: u64,
}

extern "C" {
    fn wonathippu_judge(plan: *const u16, plan_len: usize) -> Answer;
    fn wonathippu_act(
        plan: *const u16,
        plan_len: usize,
        memory: *mut u16,
        memory_len: usize,
        seen: *const u8,
        seen_len: usize,
        turned: *const u8,
        turned_len: usize,
        kind: u64,
        which: u64,
    ) -> Answer;
    fn wonathippu_note(
        plan: *const u16,
        plan_len: usize,
        memory: *mut u16,
        memory_len: usize,
        seen: *const u8,
        seen_len: usize,
    ) -> Answer;
}

impl Answer {
    fn code(self) -> Code {
        (self.what as u16, self.number as u16, self.place as u16)
    }
}

/// What is lent as bytes; a number that is no byte is no 1 either.
pub fn bytes(numbers: &[u16]) -> Vec<u8> {
    numbers.iter().map(|&n| u8::try_from(n).unwrap_or(0)).collect()
}

pub fn judge(plan: &[u16]) -> Code {
    // Each slice is lent for the call, with its own length; so below.
    unsafe { wonathippu_judge(plan.as_ptr(), plan.len()) }.code()
}

pub fn act(plan: &[u16], memory: &mut [u16], seen: &[u8], turned: &[u8], kind: u16, which: u16) -> Code {
    unsafe {
        wonathippu_act(
            plan.as_ptr(),
            plan.len(),
            memory.as_mut_ptr(),
            memory.len(),
            seen.as_ptr(),
            seen.len(),
            turned.as_ptr(),
            turned.len(),
            u64::from(kind),
            u64::from(which),
        )
    }
    .code()
}

pub fn note(plan: &[u16], memory: &mut [u16], seen: &[u8]) -> Code {
    unsafe { wonathippu_note(plan.as_ptr(), plan.len(), memory.as_mut_ptr(), memory.len(), seen.as_ptr(), seen.len()) }
        .code()
}

pub struct Proved;

impl Other for Proved {
    fn judge(&mut self, plan: &[u16]) -> Code {
        judge(plan)
    }

    fn act(&mut self, plan: &[u16], memory: &mut [u16], seen: &[u16], turned: &[u16], kind: u16, which: u16) -> Code {
        act(plan, memory, &bytes(seen), &bytes(turned), kind, which)
    }

    fn note(&mut self, plan: &[u16], memory: &mut [u16], seen: &[u16]) -> Option<Code> {
        Some(note(plan, memory, &bytes(seen)))
    }

    fn run(&mut self, _plan: &[u16], _events: &[[u16; 4]]) -> Option<Ran> {
        None
    }
}
