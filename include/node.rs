//! node.rs: the calls of node.h for firmware in Rust, with or without the standard library. Take it
//! in as a module: `#[path = ".../include/node.rs"] mod node;`. node.h has the rules: what a call
//! takes and leaves, the refusals, the layouts, the tally, waking, the clock's end, stops.

#![allow(dead_code)] // a program takes what it needs

/// The most tasks.
pub const PLACES: usize = 16;
pub const RECORD_BYTES: usize = 16;
/// The longest table.
pub const TABLE_BYTES: usize = 272;
pub const STATE_WORDS: usize = 151;
pub const HEAD_WORDS: usize = 7;
pub const PLACE_WORDS: usize = 9;
pub const TALLY_WORDS: usize = 4;
pub const VERDICT_WORDS: usize = 48;
/// The word of a state that holds n, the number of tasks, the one that holds its clock, and the one
/// that holds its waking length V.
pub const N_AT: usize = 4;
pub const CLOCK_AT: usize = 5;
pub const WAKING_AT: usize = 6;
/// Where a clock ends.
pub const CLOCK_END: u32 = 1_000_000_000;

pub type State = [u32; STATE_WORDS];
/// Run, slot, tail and waking ticks. What is counted as waking was answered `Tick::Slot`.
pub type Tally = [u32; TALLY_WORDS];
pub type Verdict = [u32; VERDICT_WORDS];

// The number of an answer.
pub const ACCEPTED: u32 = 0;
pub const REFUSED_LENGTH: u32 = 1;
pub const REFUSED_BROKEN: u32 = 2;
pub const REFUSED_FALLING: u32 = 3;
pub const REFUSED_SLEEP: u32 = 4;
pub const REFUSED_NO_WINDOW: u32 = 5;
pub const REFUSED_UNFIT: u32 = 6;
pub const REFUSED_CLOCK_END: u32 = 7;
pub const REFUSED_NO_TASK: u32 = 8;
pub const REFUSED_DEMAND: u32 = 9;
pub const REFUSED_OFF_BOUNDARY: u32 = 10;
pub const REFUSED_WORKING: u32 = 11;
pub const REFUSED_EARLY: u32 = 12;
pub const REFUSED_POWER: u32 = 13;
pub const REFUSED_LONG_WAKING: u32 = 14;

// Nothing checks a declaration against the archive. A pointer goes with the length of its own
// buffer, in bytes for a table and in words for the others; lengths are 64 bits wide everywhere.
extern "C" {
    pub fn node_admit(table: *const u8, bytes: u64, verdict: *mut u32, words: u64) -> u64;
    pub fn node_start(
        table: *const u8,
        bytes: u64,
        waking: u32,
        state: *mut u32,
        words: u64,
    ) -> u64;
    pub fn node_release(state: *mut u32, words: u64, task: u32, demand: u32) -> u64;
    pub fn node_step(state: *mut u32, words: u64, tally: *mut u32, tally_words: u64) -> u64;
    pub fn node_energy(
        tally: *const u32,
        words: u64,
        run_power: u32,
        sleep_power: u32,
        waking_power: u32,
    ) -> u64;
}

// SAFETY, of each call: a pointer goes with the length of what it was taken from, and what is
// borrowed by &mut overlaps nothing.

pub fn admit(table: &[u8], verdict: &mut Verdict) -> Answer {
    let (bytes, to) = (table.len() as u64, verdict.as_mut_ptr());
    Answer(unsafe { node_admit(table.as_ptr(), bytes, to, VERDICT_WORDS as u64) })
}

pub fn start(table: &[u8], waking: u32, state: &mut State) -> Answer {
    let (bytes, to) = (table.len() as u64, state.as_mut_ptr());
    Answer(unsafe { node_start(table.as_ptr(), bytes, waking, to, STATE_WORDS as u64) })
}

pub fn release(state: &mut State, task: u32, demand: u32) -> Answer {
    Answer(unsafe { node_release(state.as_mut_ptr(), STATE_WORDS as u64, task, demand) })
}

pub fn step(state: &mut State, tally: &mut Tally) -> Answer {
    let (state, tally) = (state.as_mut_ptr(), tally.as_mut_ptr());
    Answer(unsafe { node_step(state, STATE_WORDS as u64, tally, TALLY_WORDS as u64) })
}

pub fn energy(tally: &Tally, run_power: u32, sleep_power: u32, waking_power: u32) -> Answer {
    let (from, words) = (tally.as_ptr(), TALLY_WORDS as u64);
    Answer(unsafe { node_energy(from, words, run_power, sleep_power, waking_power) })
}

#[derive(Clone, Copy, Debug, PartialEq)]
pub struct Answer(pub u64);

#[derive(Clone, Copy, Debug, PartialEq)]
pub enum Tick {
    Run(u32),
    Slot,
    Tail,
    /// No tick: the step was refused.
    Refused,
}

impl Answer {
    pub fn number(self) -> u32 {
        (self.0 & 0xff) as u32
    }

    /// Of admission and start.
    pub fn place(self) -> u32 {
        (self.0 >> 8 & 0xff) as u32
    }

    /// Of admission.
    pub fn rounds(self) -> u32 {
        (self.0 >> 16) as u32
    }

    /// Of a step.
    pub fn tick(self) -> Tick {
        match (self.number(), self.0 >> 8 & 0xff) {
            (ACCEPTED, 0) => Tick::Run((self.0 >> 16) as u32),
            (ACCEPTED, 1) => Tick::Slot,
            (ACCEPTED, _) => Tick::Tail,
            _ => Tick::Refused,
        }
    }

    /// Of an energy reading.
    pub fn nanojoules(self) -> u64 {
        self.0 >> 8
    }
}

#[derive(Clone, Copy, Debug, Default, PartialEq)]
pub struct Record {
    pub label: u32,
    pub work: u32,
    pub period: u32,
}

#[derive(Clone, Copy, Debug, PartialEq)]
pub struct Job {
    pub release: u32,
    pub left: u32,
}

#[derive(Clone, Copy, Debug, Default, PartialEq)]
pub struct Entry {
    pub record: Record,
    /// None: the task rests.
    pub job: Option<Job>,
    /// None: never.
    pub last_release: Option<u32>,
}

#[derive(Clone, Copy, Debug, Default, PartialEq)]
pub struct Row {
    pub window: u32,
    pub figure: u32,
    pub rounds: u32,
}

// What stands in the buffers, untested. Tasks are counted from 1; one that is not 1 to PLACES has
// the default: zeros, at rest, never released.

pub fn clock(state: &State) -> u32 {
    state[CLOCK_AT]
}

pub fn tasks(state: &State) -> u32 {
    state[N_AT]
}

/// The waking length V.
pub fn waking(state: &State) -> u32 {
    state[WAKING_AT]
}

/// The sleep record.
pub fn sleep(state: &State) -> Record {
    record(state)
}

pub fn entry(state: &State, task: u32) -> Entry {
    let Some(i) = place_of(task) else {
        return Entry::default();
    };
    let at = &state[HEAD_WORDS + PLACE_WORDS * i..];
    let job = Job {
        release: at[5],
        left: at[6],
    };
    Entry {
        record: record(at),
        job: (at[4] != 0).then_some(job),
        last_release: (at[7] != 0).then_some(at[8]),
    }
}

/// A task's row of a verdict; one without a window has zeros.
pub fn row(verdict: &Verdict, task: u32) -> Row {
    let Some(i) = place_of(task) else {
        return Row::default();
    };
    Row {
        window: verdict[i],
        figure: verdict[PLACES + i],
        rounds: verdict[2 * PLACES + i],
    }
}

/// Writes record k of a table, from 0, with its reserved 0. Gives whether the table has room for
/// it; else nothing is written.
pub fn put_record(table: &mut [u8], k: usize, record: Record) -> bool {
    let Some(to) = table.chunks_exact_mut(RECORD_BYTES).nth(k) else {
        return false;
    };
    let words = [record.label, record.work, record.period, 0];
    for (to, word) in to.chunks_exact_mut(4).zip(words) {
        to.copy_from_slice(&word.to_le_bytes());
    }
    true
}

fn record(at: &[u32]) -> Record {
    Record {
        label: at[0],
        work: at[1],
        period: at[2],
    }
}

fn place_of(task: u32) -> Option<usize> {
    (1..=PLACES as u32)
        .contains(&task)
        .then(|| task as usize - 1)
}
