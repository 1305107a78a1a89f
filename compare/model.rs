//! The rules of docs/RULES.md written a second time, from the customer's own text of them: plain
//! Rust, no proofs, nothing shared with the proved crates. First the rules, then the layouts and
//! calls of `include/node.h`, then the cases of RULES 15.

#![allow(dead_code)] // not every program that takes this module uses all of it

use std::array::from_fn;

const PLACES: usize = 16;
const CLOCK_END: u32 = 1_000_000_000;
const MOST_POWER: u32 = 1_000_000;
pub const STATE_WORDS: usize = 151;
pub const TALLY_WORDS: usize = 4;
pub const VERDICT_WORDS: usize = 48;

#[derive(Clone, Copy, Debug, Default, PartialEq)]
pub struct Record {
    pub label: u32,
    pub work: u32,
    pub period: u32,
    pub reserved: u32,
}

#[derive(Clone, Copy, Debug, Default, PartialEq)]
pub enum Job {
    #[default]
    Resting,
    #[rustfmt::skip]
    Working { release: u32, left: u32 },
}

#[derive(Clone, Copy, Debug, Default, PartialEq)]
pub enum Last {
    #[default]
    Never,
    At(u32),
}

/// One task; the default is a spare place.
#[derive(Clone, Copy, Debug, Default, PartialEq)]
pub struct Entry {
    pub record: Record,
    pub job: Job,
    pub last: Last,
}

#[derive(Clone, Debug, Default, PartialEq)]
pub struct State {
    pub sleep: Record,
    pub n: u32,
    pub clock: u32,
    /// The waking length V (RULES 8.7).
    pub waking: u32,
    pub entries: [Entry; PLACES],
}

#[derive(Clone, Copy, Debug, Default, PartialEq)]
pub struct Tally {
    pub run: u32,
    pub slot: u32,
    pub tail: u32,
    pub waking: u32,
}

#[derive(Clone, Copy, Debug, PartialEq)]
pub enum Tick {
    Run(u32),
    Slot,
    Tail,
}

#[derive(Clone, Copy, Debug, PartialEq)]
pub struct Refusal {
    pub number: u32,
    pub place: u32,
    pub rounds: u32,
}

pub struct Verdict {
    pub windows: [u32; PLACES],
    pub figures: [u32; PLACES],
    pub rounds: [u32; PLACES],
    /// The number of tasks, or the refusal.
    pub answer: Result<u32, Refusal>,
}

fn refuse<T>(number: u32, place: usize, rounds: u32) -> Result<T, Refusal> {
    let place = place as u32;
    #[rustfmt::skip]
    return Err(Refusal { number, place, rounds });
}

impl Record {
    fn lawful(&self) -> bool {
        self.work >= 1 && self.work <= self.period && self.period <= 60_000 && self.reserved == 0
    }
}

/// The records of a sound table, and how many they are.
fn read(table: &[u8]) -> Result<([Record; 17], usize), Refusal> {
    let count = table.len() / 16;
    if table.len() % 16 != 0 || !(2..=17).contains(&count) {
        return refuse(1, 0, 0);
    }
    let mut records = [Record::default(); 17];
    for (i, bytes) in table.chunks_exact(16).enumerate() {
        records[i] = Record::from_words(from_fn(|field| word(bytes, field)));
        if !records[i].lawful() {
            return refuse(2, i, 0);
        }
    }
    if let Some(i) = (2..count).find(|&i| records[i].period < records[i - 1].period) {
        return refuse(3, i, 0);
    }
    let sleep = records[0];
    if sleep.work == sleep.period || records[1].period % sleep.period != 0 {
        return refuse(4, 0, 0);
    }
    Ok((records, count))
}

pub fn admit(table: &[u8]) -> Verdict {
    let mut verdict = Verdict {
        windows: [0; PLACES],
        figures: [0; PLACES],
        rounds: [0; PLACES],
        answer: Ok(0),
    };
    verdict.answer = verdict.fill(table);
    verdict
}

impl Verdict {
    /// On a sound table, and values within the limit, no sum here passes 3,000,000.
    fn fill(&mut self, table: &[u8]) -> Result<u32, Refusal> {
        let (records, count) = read(table)?;
        let (s, h) = (records[0].work, records[0].period);
        let tasks = &records[1..count];
        for (i, task) in tasks.iter().enumerate() {
            let wait = if i == 0 { 0 } else { h - 1 };
            let limit = task.period - wait;
            let mut value = task.work + s;
            let mut rounds = 0;
            loop {
                if value > limit {
                    return refuse(5, i + 1, rounds);
                }
                let k = value.div_ceil(h);
                let mut demand = task.work + k * s;
                for above in &tasks[..i] {
                    demand += above.work * (k * h).div_ceil(above.period);
                }
                rounds += 1;
                if demand == value {
                    break;
                }
                value = demand;
            }
            self.windows[i] = value;
            self.figures[i] = value + wait;
            self.rounds[i] = rounds;
        }
        Ok(tasks.len() as u32)
    }
}

pub fn start(table: &[u8], waking: u32) -> Result<State, Refusal> {
    let (records, count) = read(table)?;
    if waking > records[0].work {
        return refuse(14, 0, 0);
    }
    let mut state = State::default();
    state.sleep = records[0];
    state.waking = waking;
    state.n = count as u32 - 1;
    for (entry, record) in state.entries.iter_mut().zip(&records[1..count]) {
        entry.record = *record;
    }
    Ok(state)
}

impl Entry {
    /// The rules that one task's entry keeps by itself.
    fn lawful(&self, clock: u32) -> bool {
        self.record.lawful()
            && match (self.job, self.last) {
                (Job::Resting, Last::Never) => true,
                (Job::Resting, Last::At(last)) => last <= clock,
                (Job::Working { .. }, Last::Never) => false,
                (Job::Working { release, left }, Last::At(last)) => {
                    release == last && last <= clock && left >= 1 && left <= self.record.work
                }
            }
    }
}

impl State {
    /// The rules of a state (RULES 4). H is seen to be at least 1 before anything is divided by it.
    fn lawful(&self) -> bool {
        let (n, h) = (self.n as usize, self.sleep.period);
        if n < 1 || n > PLACES || self.clock > CLOCK_END {
            return false;
        }
        if !self.sleep.lawful() || self.sleep.work == h || self.waking > self.sleep.work {
            return false;
        }
        let (tasks, spare) = self.entries.split_at(n);
        let first = &tasks[0];
        if first.record.period % h != 0 || matches!(first.last, Last::At(last) if last % h != 0) {
            return false;
        }
        let mut period_before = 0;
        for task in tasks {
            if !task.lawful(self.clock) || task.record.period < period_before {
                return false;
            }
            period_before = task.record.period;
        }
        spare.iter().all(|place| *place == Entry::default())
    }

    pub fn release(&mut self, task: u32, demand: u32) -> Result<(), u32> {
        if !self.lawful() {
            return Err(6);
        }
        if self.clock == CLOCK_END {
            return Err(7);
        }
        if task < 1 || task > self.n {
            return Err(8);
        }
        let entry = &mut self.entries[task as usize - 1];
        if demand < 1 || demand > entry.record.work {
            return Err(9);
        }
        if task == 1 && self.clock % self.sleep.period != 0 {
            return Err(10);
        }
        if entry.job != Job::Resting {
            return Err(11);
        }
        if matches!(entry.last, Last::At(last) if self.clock - last < entry.record.period) {
            return Err(12);
        }
        let (release, left) = (self.clock, demand);
        entry.job = Job::Working { release, left };
        entry.last = Last::At(release);
        Ok(())
    }

    pub fn step(&mut self, tally: &mut Tally) -> Result<Tick, u32> {
        if !self.lawful() || tally.sum() != u64::from(self.clock) {
            return Err(6);
        }
        if self.clock == CLOCK_END {
            return Err(7);
        }
        let since_boundary = self.clock % self.sleep.period;
        let tick = if since_boundary < self.sleep.work {
            if since_boundary >= self.sleep.work - self.waking {
                tally.waking += 1;
            } else {
                tally.slot += 1;
            }
            Tick::Slot
        } else if let Some(task) = self.work_off(self.clock - since_boundary) {
            tally.run += 1;
            Tick::Run(task)
        } else {
            tally.tail += 1;
            Tick::Tail
        };
        self.clock += 1;
        Ok(tick)
    }

    /// A job may run from the first multiple of H at or after its release, so exactly when its
    /// release is not after the last boundary.
    fn work_off(&mut self, boundary: u32) -> Option<u32> {
        for (task, entry) in (1..=self.n).zip(&mut self.entries) {
            match &mut entry.job {
                Job::Working { release, left } if *release <= boundary => {
                    *left -= 1;
                    if *left == 0 {
                        entry.job = Job::Resting;
                    }
                    return Some(task);
                }
                _ => {}
            }
        }
        None
    }
}

impl Tally {
    fn sum(&self) -> u64 {
        self.to_words().map(u64::from).iter().sum()
    }
}

/// In nanojoules.
pub fn energy(
    tally: &Tally,
    run_power: u32,
    sleep_power: u32,
    waking_power: u32,
) -> Result<u64, u32> {
    if tally.sum() > u64::from(CLOCK_END) {
        return Err(6);
    }
    if run_power > MOST_POWER || sleep_power > MOST_POWER || waking_power > MOST_POWER {
        return Err(13);
    }
    let at = |ticks: u32, power: u32| u64::from(ticks) * u64::from(power);
    let asleep = at(tally.slot + tally.tail, sleep_power);
    Ok(at(tally.run, run_power) + asleep + at(tally.waking, waking_power))
}

// The layouts of node.h.

/// A number of a table, the first of them at 0.
pub fn word(table: &[u8], at: usize) -> u32 {
    u32::from_le_bytes(table[4 * at..4 * at + 4].try_into().unwrap())
}

impl Record {
    fn from_words([label, work, period, reserved]: [u32; 4]) -> Record {
        #[rustfmt::skip]
        return Record { label, work, period, reserved };
    }

    fn to_words(self) -> [u32; 4] {
        [self.label, self.work, self.period, self.reserved]
    }
}

impl State {
    /// None where the words encode no state; a state that breaks the rules is still one.
    pub fn from_words(words: &[u32]) -> Option<State> {
        if words.len() != STATE_WORDS {
            return None;
        }
        let record = |from: &[u32]| Record::from_words(from_fn(|field| from[field]));
        let mut state = State::default();
        state.sleep = record(words);
        state.n = words[4];
        state.clock = words[5];
        state.waking = words[6];
        for (entry, from) in state.entries.iter_mut().zip(words[7..].chunks_exact(9)) {
            entry.record = record(from);
            entry.job = match from[4..7] {
                [0, 0, 0] => Job::Resting,
                [1, release, left] => Job::Working { release, left },
                _ => return None,
            };
            entry.last = match from[7..] {
                [0, 0] => Last::Never,
                [1, last] => Last::At(last),
                _ => return None,
            };
        }
        Some(state)
    }

    pub fn to_words(&self) -> [u32; STATE_WORDS] {
        let mut words = [0; STATE_WORDS];
        words[..4].copy_from_slice(&self.sleep.to_words());
        words[4] = self.n;
        words[5] = self.clock;
        words[6] = self.waking;
        for (to, entry) in words[7..].chunks_exact_mut(9).zip(&self.entries) {
            to[..4].copy_from_slice(&entry.record.to_words());
            if let Job::Working { release, left } = entry.job {
                to[4..7].copy_from_slice(&[1, release, left]);
            }
            if let Last::At(last) = entry.last {
                to[7..].copy_from_slice(&[1, last]);
            }
        }
        words
    }
}

impl Tally {
    pub fn from_words(words: &[u32]) -> Option<Tally> {
        match *words {
            #[rustfmt::skip]
            [run, slot, tail, waking] => Some(Tally { run, slot, tail, waking }),
            _ => None,
        }
    }

    pub fn to_words(self) -> [u32; TALLY_WORDS] {
        [self.run, self.slot, self.tail, self.waking]
    }
}

// The calls of node.h: the answer, and the lent buffers changed where they stand.

impl Refusal {
    fn answer(&self) -> u64 {
        u64::from(self.number) | u64::from(self.place) << 8 | u64::from(self.rounds) << 16
    }
}

/// The table's refusals stand before the 6 of a verdict of another length, 5 among them.
pub fn admit_words(table: &[u8], verdict: &mut [u32]) -> u64 {
    let made = admit(table);
    let fits = verdict.len() == VERDICT_WORDS;
    let (tested, answer) = match made.answer {
        Ok(n) if fits => (true, u64::from(n) << 8),
        Ok(_) => (true, 6),
        Err(refusal) => (refusal.number == 5, refusal.answer()),
    };
    if tested && fits {
        let columns = [made.windows, made.figures, made.rounds];
        verdict.copy_from_slice(columns.as_flattened());
    }
    answer
}

/// The 6 of a state of another length stands after the table's refusals and before 14.
pub fn start_words(table: &[u8], waking: u32, state: &mut [u32]) -> u64 {
    let fits = state.len() == STATE_WORDS;
    match start(table, waking) {
        Err(refusal) if fits || refusal.number < 6 => return refusal.answer(),
        Ok(fresh) if fits => state.copy_from_slice(&fresh.to_words()),
        _ => return 6,
    }
    0
}

pub fn release_words(state: &mut [u32], task: u32, demand: u32) -> u64 {
    let Some(mut after) = State::from_words(state) else {
        return 6;
    };
    match after.release(task, demand) {
        Err(number) => return u64::from(number),
        Ok(()) => state.copy_from_slice(&after.to_words()),
    }
    0
}

pub fn step_words(state: &mut [u32], tally: &mut [u32]) -> u64 {
    let (Some(mut after), Some(mut counts)) = (State::from_words(state), Tally::from_words(tally))
    else {
        return 6;
    };
    let answer = match after.step(&mut counts) {
        Err(number) => return u64::from(number),
        Ok(Tick::Run(task)) => u64::from(task) << 16,
        Ok(Tick::Slot) => 1 << 8,
        Ok(Tick::Tail) => 2 << 8,
    };
    state.copy_from_slice(&after.to_words());
    tally.copy_from_slice(&counts.to_words());
    answer
}

pub fn energy_words(tally: &[u32], run_power: u32, sleep_power: u32, waking_power: u32) -> u64 {
    let Some(counts) = Tally::from_words(tally) else {
        return 6;
    };
    match energy(&counts, run_power, sleep_power, waking_power) {
        Err(number) => u64::from(number),
        Ok(nanojoules) => nanojoules << 8,
    }
}

/// A table of works and periods, the sleep record first; each label is its record's number.
pub fn table(records: &[(u32, u32)]) -> Vec<u8> {
    let numbered = (0u32..).zip(records);
    let words = numbered.flat_map(|(i, &(work, period))| [i, work, period, 0]);
    words.flat_map(u32::to_le_bytes).collect()
}

/// Tries the cases A to H and J of RULES 15 on the model and panics where it differs from them.
pub fn cases() {
    let house = |last| [(8, 20), (2, 20), (3, 50), (2, 100), (last, 200)];
    let source = |s| [(s, 10), (1, 10), (1, 15), (2, 26)];
    let table_1 = [(1, 5), (3, 10), (1, 15), (1, 40), (1, 300), (1, 500)];
    // The set, the figures given, the rounds given of the last of them (0: none), the answer.
    let sets: [(&str, &[(u32, u32)], &[u32], u32, _); 11] = [
        ("A", &house(4), &[10, 32, 34, 38], 2, Ok(4)),
        ("B", &house(5), &[10, 32, 34, 39], 2, Ok(4)),
        ("C", &house(6), &[10, 32, 34, 50], 3, Ok(4)),
        ("D", &table_1, &[4, 9, 11, 12, 13], 0, Ok(5)),
        ("E", &source(5), &[], 0, refuse(5, 2, 1)),
        ("F", &source(7), &[], 0, refuse(5, 2, 0)),
        ("G 1", &[(1, 2), (1, 2)], &[2], 1, Ok(1)),
        ("G 2", &[(1, 2), (2, 4)], &[4], 2, Ok(1)),
        ("G 3", &[(1, 2), (3, 4)], &[], 0, refuse(5, 1, 1)),
        ("H 1", &[(1, 4), (1, 4), (1, 6)], &[2, 6], 2, Ok(2)),
        ("H 2", &[(1, 4), (1, 4), (1, 5)], &[], 0, refuse(5, 2, 1)),
    ];
    for (name, set, figures, rounds, answer) in sets {
        let made = admit(&table(set));
        assert_eq!(made.answer, answer, "{name}");
        for (i, figure) in figures.iter().enumerate() {
            let wait = if i == 0 { 0 } else { set[0].1 - 1 };
            assert_eq!(made.figures[i], *figure, "{name}, task {}", i + 1);
            assert_eq!(made.windows[i] + wait, *figure, "{name}, task {}", i + 1);
        }
        if rounds != 0 {
            assert_eq!(made.rounds[figures.len() - 1], rounds, "{name}");
        }
    }

    // The waking length, the tally, and the energy with a waking power of 9,000.
    let wakings = [
        (0, [11, 16, 13, 0], 253_464),
        (2, [11, 12, 13, 4], 289_400),
        (8, [11, 0, 13, 16], 397_208),
    ];
    for (waking, counts, nanojoules) in wakings {
        let mut state = start(&table(&house(4)), waking).unwrap();
        let mut tally = Tally::default();
        let mut ticks = String::new();
        for t in 0..40 {
            for task in 1..=4 {
                if t == if task == 1 { 20 } else { 1 } {
                    let full = state.entries[task as usize - 1].record.work;
                    state.release(task, full).unwrap();
                }
            }
            match state.step(&mut tally).unwrap() {
                Tick::Run(task) => ticks += &task.to_string(),
                Tick::Slot => ticks += "s",
                Tick::Tail => ticks += "-",
            }
        }
        assert_eq!(ticks, "ssssssss------------ssssssss11222334444-", "J");
        assert_eq!(tally.to_words(), counts, "J, waking {waking}");
        let energy = energy(&tally, 23_000, 16, 9_000);
        assert_eq!(energy, Ok(nanojoules), "J, waking {waking}");
    }
}
