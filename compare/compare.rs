//! compare [SEED [SECONDS]]: the archive libnode.a against the model, on random inputs.
//!
//! Every call is made on both sides with the same table or words; the answer and all of every
//! buffer must agree. The inputs follow from the seed alone; the time says how many are tried.

mod inputs;
mod model;
#[path = "../include/node.rs"]
mod node;

use inputs::{round, Call, Calls, Random, ABOUT};
use node::{node_admit, node_energy, node_release, node_start, node_step};
use std::array::from_fn;
use std::fmt::Debug;
use std::process::exit;
use std::sync::atomic::{AtomicPtr, Ordering};
use std::time::{Duration, Instant};

extern "C" {
    fn signal(number: i32, handler: extern "C" fn(i32)) -> usize;
}

// ---- Both sides, and the counts ----

/// What is counted apart.
const KINDS: [&str; 10] = [
    "step: run of task 1",
    "step: run of a lower task",
    "step: slot, counted as slot",
    "step: tail",
    "step: slot, counted as waking",
    "start: refusal 6 where 14 applies too",
    "admitted, at least 5 rounds on a task",
    "admitted, at least 20 rounds on a task",
    "refusal 5 after at least 5 rounds",
    "refusal 5 after at least 20 rounds",
];

/// Memory from which a buffer of bytes or words is lent to the archive, at changing alignments and
/// with a guard on either side; and a copy of what was given, for the report.
#[derive(Default)]
struct Room<T> {
    held: Vec<T>,
    at: usize,
    guard: T,
    given: Vec<T>,
}

const GUARD: usize = 32;

impl<T: Copy + Debug + Default + From<u8> + PartialEq> Room<T> {
    fn lend(&mut self, given: &[T], call: u64) -> *mut T {
        self.given.clear();
        self.given.extend_from_slice(given);
        self.at = GUARD + call as usize % 8;
        self.guard = T::from((call / 8) as u8);
        let end = self.at + given.len();
        if self.held.len() < end + GUARD {
            self.held.resize(end + GUARD, T::default());
        }
        self.held[self.at - GUARD..self.at].fill(self.guard);
        self.held[self.at..end].copy_from_slice(given);
        self.held[end..end + GUARD].fill(self.guard);
        self.held[self.at..end].as_mut_ptr()
    }

    fn back(&self) -> &[T] {
        &self.held[self.at..self.at + self.given.len()]
    }

    fn guarded(&self) -> bool {
        let end = self.at + self.given.len();
        let guard = [self.guard; GUARD];
        self.held[self.at - GUARD..self.at] == guard && self.held[end..end + GUARD] == guard
    }

    /// `after` is what the model left.
    fn agrees(&self, after: &[T]) -> bool {
        self.back() == after && self.guarded()
    }

    fn print_given(&self, name: &str, unit: &str) {
        println!("{name}, {} {unit}: {:?}", self.given.len(), self.given);
    }

    fn print_left(&self, name: &str, after: &[T]) {
        println!("{name} left by archive: {:?}", self.back());
        println!("{name} left by model:   {after:?}");
        if !self.guarded() {
            println!("the archive wrote outside the {name}");
        }
    }
}

/// As the archive takes it.
fn length<T>(buffer: &[T]) -> u64 {
    buffer.len() as u64
}

/// The buffers of a call: a table, and one or two of words; what it is not lent is empty.
struct Lent<'a>(&'a [u8], [&'a [u32]; 2]);

struct Both {
    seed: u64,
    calls: u64,
    table: Room<u8>,
    words: [Room<u32>; 2],
    /// The call under way, for the report.
    call: Call,
    numbers: [u32; 3],
    /// By call and refusal number, 0 where accepted.
    counts: [[u64; 15]; 5],
    kinds: [u64; KINDS.len()],
    most_rounds: u32,
}

impl Both {
    fn new(seed: u64) -> Both {
        Both {
            seed,
            calls: 0,
            table: Room::default(),
            words: Default::default(),
            call: Call::Admit,
            numbers: [0; 3],
            counts: [[0; 15]; 5],
            kinds: [0; KINDS.len()],
            most_rounds: 0,
        }
    }
}

impl Calls for Both {
    fn admit(&mut self, table: &[u8], verdict: &mut [u32]) {
        let (t, [v, _]) = self.lend(Call::Admit, Lent(table, [verdict, &[]]), [0; 3]);
        let archive = unsafe { node_admit(t, length(table), v, length(verdict)) };
        let model = model::admit_words(table, verdict);
        self.judge(Lent(table, [verdict, &[]]), archive, model);
        let (kind, rounds) = match model & 0xff {
            0 => (6, verdict[32..].iter().copied().max().unwrap()),
            5 => (8, (model >> 16) as u32),
            _ => return,
        };
        self.kinds[kind] += u64::from(rounds >= 5);
        self.kinds[kind + 1] += u64::from(rounds >= 20);
        self.most_rounds = self.most_rounds.max(rounds);
    }

    fn start(&mut self, table: &[u8], waking: u32, state: &mut [u32]) {
        let (t, [s, _]) = self.lend(Call::Start, Lent(table, [state, &[]]), [waking, 0, 0]);
        let archive = unsafe { node_start(t, length(table), waking, s, length(state)) };
        let model = model::start_words(table, waking, state);
        self.judge(Lent(table, [state, &[]]), archive, model);
        self.kinds[5] += u64::from(model == 6 && model::start(table, waking).is_err());
    }

    fn release(&mut self, state: &mut [u32], task: u32, demand: u32) {
        let (_, [s, _]) = self.lend(Call::Release, Lent(&[], [state, &[]]), [task, demand, 0]);
        let archive = unsafe { node_release(s, length(state), task, demand) };
        let model = model::release_words(state, task, demand);
        self.judge(Lent(&[], [state, &[]]), archive, model);
    }

    fn step(&mut self, state: &mut [u32], tally: &mut [u32]) {
        let (_, [s, y]) = self.lend(Call::Step, Lent(&[], [state, tally]), [0; 3]);
        let archive = unsafe { node_step(s, length(state), y, length(tally)) };
        let model = model::step_words(state, tally);
        self.judge(Lent(&[], [state, tally]), archive, model);
        match (model & 0xff, model >> 8 & 0xff, model >> 16) {
            (0, 0, 1) => self.kinds[0] += 1,
            (0, 1, _) if tally[3] != self.words[1].given[3] => self.kinds[4] += 1,
            (0, kind, _) => self.kinds[1 + kind as usize] += 1,
            _ => {}
        }
    }

    fn energy(&mut self, tally: &[u32], run_power: u32, sleep_power: u32, waking_power: u32) {
        let (lent, words) = (Lent(&[], [tally, &[]]), length(tally));
        let powers = [run_power, sleep_power, waking_power];
        let (_, [y, _]) = self.lend(Call::Energy, lent, powers);
        let archive = unsafe { node_energy(y, words, run_power, sleep_power, waking_power) };
        let model = model::energy_words(tally, run_power, sleep_power, waking_power);
        self.judge(Lent(&[], [tally, &[]]), archive, model);
    }
}

impl Both {
    fn lend(&mut self, call: Call, given: Lent, numbers: [u32; 3]) -> (*mut u8, [*mut u32; 2]) {
        self.calls += 1;
        self.call = call;
        self.numbers = numbers;
        let turn = self.calls;
        let Lent(table, [first, second]) = given;
        let [to_first, to_second] = &mut self.words;
        let words = [to_first.lend(first, turn), to_second.lend(second, turn / 3)];
        (self.table.lend(table, turn / 5), words)
    }

    /// `after` is what the model left in the buffers.
    fn judge(&mut self, after: Lent, archive: u64, model: u64) {
        let mut words = self.words.iter().zip(after.1);
        let agree = self.table.agrees(after.0) && words.all(|(room, after)| room.agrees(after));
        if archive != model || !agree {
            self.report(after, archive, model);
        }
        self.counts[self.call as usize][(model & 0xff) as usize] += 1;
    }

    fn print_given(&self) {
        let about = &ABOUT[self.call as usize];
        let (call, seed) = (self.calls, self.seed);
        println!("call {call} of seed {seed}: node_{}", about.name);
        if about.table {
            self.table.print_given("table", "bytes");
        }
        for (name, room) in about.words.iter().zip(&self.words) {
            room.print_given(name, "words");
        }
        for (name, number) in about.numbers.iter().zip(self.numbers) {
            println!("{name}: {number}");
        }
    }

    fn report(&self, after: Lent, archive: u64, model: u64) -> ! {
        println!("DIFFERENCE");
        self.print_given();
        for (side, answer) in [("archive", archive), ("model", model)] {
            let [low, next, rest] = [answer & 0xff, answer >> 8 & 0xff, answer >> 16];
            println!("{side} answers {answer:#x}: number {low}, then {next}, then {rest}");
        }
        let about = &ABOUT[self.call as usize];
        if about.table {
            self.table.print_left("table", after.0);
        }
        for ((name, room), after) in about.words.iter().zip(&self.words).zip(after.1) {
            room.print_left(name, after);
        }
        exit(1)
    }
}

/// For a call that ends by a fault, which is a difference too.
static UNDER_WAY: AtomicPtr<Both> = AtomicPtr::new(std::ptr::null_mut());

extern "C" fn fault(number: i32) {
    println!("DIFFERENCE: ended by signal {number} in or after");
    if let Some(both) = unsafe { UNDER_WAY.load(Ordering::Relaxed).as_ref() } {
        both.print_given();
    }
    exit(1)
}

// ---- The program ----

fn print_counts(both: &Both) {
    let row = |name: String, cells: [String; 5]| {
        let cells = cells.map(|cell| format!("{cell:>12}")).concat();
        println!("{name:<12}{cells}");
    };
    row(String::new(), from_fn(|call| ABOUT[call].name.into()));
    let total = |call: usize| both.counts[call].iter().sum::<u64>().to_string();
    row("calls".into(), from_fn(total));
    row(
        "accepted".into(),
        both.counts.map(|counts| counts[0].to_string()),
    );
    for number in 1..15 {
        let cell = |call: usize| match ABOUT[call].refusals.contains(&number) {
            true => both.counts[call][number].to_string(),
            false => "-".into(),
        };
        row(format!("refusal {number}"), from_fn(cell));
    }
    for (kind, count) in KINDS.iter().zip(both.kinds) {
        println!("{kind:<40}{count:>12}");
    }
    println!("{:<40}{:>12}", "most rounds on a task", both.most_rounds);
}

/// What a call can answer and never did.
fn never_seen(both: &Both) -> Vec<String> {
    let mut never = Vec::new();
    for (about, counts) in ABOUT.iter().zip(&both.counts) {
        if counts[0] == 0 {
            never.push(format!("{} accepted", about.name));
        }
        for number in about.refusals.iter().filter(|number| counts[**number] == 0) {
            never.push(format!("{} refusal {number}", about.name));
        }
    }
    for (kind, count) in KINDS.iter().zip(both.kinds) {
        if count == 0 {
            never.push(kind.to_string());
        }
    }
    never
}

fn main() {
    let arguments: Vec<_> = std::env::args().skip(1).map(|a| a.parse()).collect();
    let (seed, seconds) = match arguments[..] {
        [] => (1, 60),
        [Ok(seed)] => (seed, 60),
        [Ok(seed), Ok(seconds)] => (seed, seconds),
        _ => {
            eprintln!("usage: compare [SEED [SECONDS]]");
            exit(2)
        }
    };
    model::cases();

    let mut random = Random(seed);
    let mut both = Both::new(seed);
    UNDER_WAY.store(&mut both, Ordering::Relaxed);
    // Illegal instruction, abort, bus error, arithmetic fault, memory fault.
    for number in [4, 6, 7, 8, 11] {
        unsafe { signal(number, fault) };
    }

    let begun = Instant::now();
    let end = Duration::from_secs(seconds);
    let mut progress = Duration::from_secs(5);
    loop {
        let spent = begun.elapsed();
        if spent >= end {
            break;
        }
        if spent >= progress {
            progress = spent + Duration::from_secs(5);
            let (calls, left) = (both.calls, (end - spent).as_secs());
            let rate = calls as f64 / spent.as_secs_f64();
            eprintln!("{calls} calls, {rate:.0} a second, {left} s left");
        }
        round(&mut random, &mut both);
    }

    print_counts(&both);
    let never = never_seen(&both);
    if !never.is_empty() {
        println!("never seen: {}", never.join(", "));
        exit(1);
    }
    let calls = both.calls;
    println!("no difference in {calls} calls; every refusal number 1 to 14 seen");
}
