//! calls SEED FILE: writes random calls of `compare/inputs.rs` with the answers and buffers that
//! the model gives, for replay.c to make on another processor. As many of every answer are kept.
//!
//! The file is 32-bit words, low byte first: the number of calls, then by call its number, the
//! lengths of its table in bytes and of its two buffers in words, and its three numbers; the table,
//! filled up with zeros, and the buffers; the answer, low half first; how many words the call
//! changes, and of each its place, counted through both buffers, and what it becomes.

#[path = "../compare/inputs.rs"]
mod inputs;
#[path = "../compare/model.rs"]
mod model;

use inputs::{round, Call, Calls, Random, ABOUT};
use std::process::exit;

/// How many calls are kept of every answer that a call can give.
const OF_EACH: usize = 700;
/// Buffers that a node of 16 KB can lend twice over: bytes of a table, words of all others.
const MOST_BYTES: usize = 640;
const MOST_WORDS: usize = 700;

/// Accepted is 0, a refusal its number; an accepted step is counted by its kind, and a slot tick
/// that counts as waking apart.
const SLOT: usize = 15;
const TAIL: usize = 16;
const WAKING: usize = 17;

struct Writer {
    random: Random,
    calls: u32,
    /// By call and answer.
    kept: [[usize; 18]; 5],
    words: Vec<u32>,
}

/// The buffers of a call: a table, and one or two of words; what it is not lent is empty.
struct Lent<'a>(&'a [u8], [&'a [u32]; 2]);

impl Writer {
    /// `after` is what the model left in the buffers of words.
    fn keep(
        &mut self,
        call: Call,
        given: Lent,
        numbers: [u32; 3],
        answer: u64,
        after: [&[u32]; 2],
    ) {
        let Lent(table, [first, second]) = given;
        let number = (answer & 0xff) as usize;
        let group = match (call, number, answer >> 8 & 0xff) {
            (Call::Step, 0, 1) if after[1][3] != second[3] => WAKING,
            (Call::Step, 0, 1) => SLOT,
            (Call::Step, 0, 2) => TAIL,
            _ => number,
        };
        let large = table.len() > MOST_BYTES || first.len() + second.len() > MOST_WORDS;
        let kept = &mut self.kept[call as usize][group];
        // Some of them, so that they come from many rounds.
        if *kept == OF_EACH || large || !self.random.chance(10) {
            return;
        }
        *kept += 1;
        self.calls += 1;
        self.words.push(call as u32);
        let lengths = [table.len(), first.len(), second.len()];
        self.words.extend(lengths.map(|length| length as u32));
        self.words.extend(numbers);
        for bytes in table.chunks(4) {
            let mut word = [0; 4];
            word[..bytes.len()].copy_from_slice(bytes);
            self.words.push(u32::from_le_bytes(word));
        }
        self.words.extend(first.iter().chain(second));
        self.words.extend([answer as u32, (answer >> 32) as u32]);
        let words = first.iter().chain(second).zip(after.concat());
        let changed: Vec<_> = (0..).zip(words).filter(|(_, (a, b))| *a != b).collect();
        self.words.push(changed.len() as u32);
        for (place, (_, becomes)) in changed {
            self.words.extend([place, becomes]);
        }
    }

    /// The first answer of which too few are kept.
    fn missing(&self) -> Option<String> {
        for (call, about) in ABOUT.iter().enumerate() {
            let kinds: &[usize] = if about.name == "step" {
                &[SLOT, TAIL, WAKING]
            } else {
                &[]
            };
            for group in [0].iter().chain(about.refusals).chain(kinds) {
                if self.kept[call][*group] < OF_EACH {
                    return Some(format!("{} with answer {group}", about.name));
                }
            }
        }
        None
    }
}

impl Calls for Writer {
    fn admit(&mut self, table: &[u8], verdict: &mut [u32]) {
        let before = verdict.to_vec();
        let answer = model::admit_words(table, verdict);
        let given = Lent(table, [&before, &[]]);
        self.keep(Call::Admit, given, [0; 3], answer, [verdict, &[]]);
    }

    fn start(&mut self, table: &[u8], waking: u32, state: &mut [u32]) {
        let before = state.to_vec();
        let answer = model::start_words(table, waking, state);
        let given = Lent(table, [&before, &[]]);
        self.keep(Call::Start, given, [waking, 0, 0], answer, [state, &[]]);
    }

    fn release(&mut self, state: &mut [u32], task: u32, demand: u32) {
        let before = state.to_vec();
        let answer = model::release_words(state, task, demand);
        let given = Lent(&[], [&before, &[]]);
        let numbers = [task, demand, 0];
        self.keep(Call::Release, given, numbers, answer, [state, &[]]);
    }

    fn step(&mut self, state: &mut [u32], tally: &mut [u32]) {
        let before = [state.to_vec(), tally.to_vec()];
        let answer = model::step_words(state, tally);
        let given = Lent(&[], [&before[0], &before[1]]);
        self.keep(Call::Step, given, [0; 3], answer, [state, tally]);
    }

    fn energy(&mut self, tally: &[u32], run_power: u32, sleep_power: u32, waking_power: u32) {
        let answer = model::energy_words(tally, run_power, sleep_power, waking_power);
        let given = Lent(&[], [tally, &[]]);
        let powers = [run_power, sleep_power, waking_power];
        self.keep(Call::Energy, given, powers, answer, [tally, &[]]);
    }
}

fn main() {
    let arguments: Vec<_> = std::env::args().skip(1).collect();
    let (seed, file) = match &arguments[..] {
        [seed, file] if seed.parse::<u64>().is_ok() => (seed.parse().unwrap(), file),
        _ => {
            eprintln!("usage: calls SEED FILE");
            exit(2)
        }
    };
    model::cases();
    let mut random = Random(seed);
    let mut writer = Writer {
        random: Random(!seed),
        calls: 0,
        kept: [[0; 18]; 5],
        words: vec![0],
    };
    let mut rounds = 0;
    while let Some(missing) = writer.missing() {
        if rounds == 200_000 {
            eprintln!("calls: too few of {missing} in {rounds} rounds");
            exit(1)
        }
        rounds += 1;
        round(&mut random, &mut writer);
    }
    writer.words[0] = writer.calls;
    let bytes: Vec<u8> = writer
        .words
        .iter()
        .flat_map(|word| word.to_le_bytes())
        .collect();
    if let Err(error) = std::fs::write(file, bytes) {
        eprintln!("calls: {file}: {error}");
        exit(1)
    }
}
