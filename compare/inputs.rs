//! The random inputs: tables, histories, spoiled states, energies. They follow from the seed alone.
//! Who makes the calls is another's matter: a program that takes this module is `Calls`, and has
//! `mod model` beside it.

#![allow(dead_code)] // not every program that takes this module uses all of it

use crate::model::{self, word, STATE_WORDS, TALLY_WORDS, VERDICT_WORDS};
use std::array::from_fn;

// ---- The calls ----

#[derive(Clone, Copy)]
pub enum Call {
    Admit,
    Start,
    Release,
    Step,
    Energy,
}

pub struct About {
    pub name: &'static str,
    /// Is it lent a table, and which buffers of words?
    pub table: bool,
    pub words: &'static [&'static str],
    pub numbers: &'static [&'static str],
    /// The refusals that it can give.
    pub refusals: &'static [usize],
}

/// By call.
#[rustfmt::skip]
pub const ABOUT: [About; 5] = [
    About { name: "admit", table: true, words: &["verdict"], numbers: &[],
            refusals: &[1, 2, 3, 4, 5, 6] },
    About { name: "start", table: true, words: &["state"], numbers: &["waking"],
            refusals: &[1, 2, 3, 4, 6, 14] },
    About { name: "release", table: false, words: &["state"], numbers: &["task", "demand"],
            refusals: &[6, 7, 8, 9, 10, 11, 12] },
    About { name: "step", table: false, words: &["state", "tally"], numbers: &[],
            refusals: &[6, 7] },
    About { name: "energy", table: false, words: &["tally"],
            numbers: &["run power", "sleep power", "waking power"], refusals: &[6, 13] },
];

/// Makes the calls. It leaves in the buffers what the model leaves, so that a history goes on.
pub trait Calls {
    fn admit(&mut self, table: &[u8], verdict: &mut [u32]);
    fn start(&mut self, table: &[u8], waking: u32, state: &mut [u32]);
    fn release(&mut self, state: &mut [u32], task: u32, demand: u32);
    fn step(&mut self, state: &mut [u32], tally: &mut [u32]);
    fn energy(&mut self, tally: &[u32], run_power: u32, sleep_power: u32, waking_power: u32);
}

const END: u32 = 1_000_000_000;
const LONGEST: u32 = 60_000;

// ---- Random numbers (splitmix64) ----

pub struct Random(pub u64);

impl Random {
    fn next(&mut self) -> u64 {
        self.0 = self.0.wrapping_add(0x9e37_79b9_7f4a_7c15);
        let z = (self.0 ^ (self.0 >> 30)).wrapping_mul(0xbf58_476d_1ce4_e5b9);
        let z = (z ^ (z >> 27)).wrapping_mul(0x94d0_49bb_1331_11eb);
        z ^ (z >> 31)
    }

    fn word(&mut self) -> u32 {
        (self.next() >> 32) as u32
    }

    fn below(&mut self, end: u32) -> u32 {
        (u64::from(self.word()) * u64::from(end) >> 32) as u32
    }

    fn among(&mut self, least: u32, most: u32) -> u32 {
        least + self.below(most - least + 1)
    }

    fn index(&mut self, len: usize) -> usize {
        self.below(len as u32) as usize
    }

    fn pick<T: Copy>(&mut self, from: &[T]) -> T {
        from[self.index(from.len())]
    }

    pub fn chance(&mut self, percent: u32) -> bool {
        self.below(100) < percent
    }

    /// One of `value` - 1, `value` and `value` + 1.
    fn near(&mut self, value: u32) -> u32 {
        value.wrapping_add(self.below(3)).wrapping_sub(1)
    }

    fn words(&mut self, len: usize) -> Vec<u32> {
        (0..len).map(|_| self.word()).collect()
    }

    /// A buffer of random words, now and then of another length than its own.
    fn buffer(&mut self, own: usize) -> Vec<u32> {
        let other = self.other_length(own);
        let len = if self.chance(12) { other } else { own };
        self.words(len)
    }

    /// In words; the last are the lengths of all buffers, in words and in bytes.
    fn other_length(&mut self, own: usize) -> usize {
        match self.below(40) {
            0 => own + 65_536,
            1..=3 => own + 256,
            4..=9 => self.index(700),
            10..=19 => own + self.pick(&[1, 2, 9]),
            20..=29 => own - self.pick(&[1, 2]),
            _ => self.pick(&[0, 4, 16, 48, 151, 192, 604]),
        }
    }

    /// A word with another byte somewhere.
    fn other_byte(&mut self, old: u32) -> u32 {
        let byte = 0xff << (8 * self.below(4));
        old & !byte | self.word() & byte
    }

    /// What a word is changed to; `other` is a word from elsewhere.
    fn spoiled(&mut self, old: u32, other: u32) -> u32 {
        match self.below(14) {
            0 => 0,
            1 => 1,
            2 => old.wrapping_add(1),
            3 => old.wrapping_sub(1),
            4 => old ^ 1 << self.below(32),
            5 => self.word(),
            6 => other,
            7 => self.near(other),
            8 => self.pick(&[LONGEST, LONGEST + 1]),
            9 => self.near(END),
            10 => u32::MAX - self.below(3),
            11 => 1 << 31 | self.below(2),
            12 => old.wrapping_add(self.below(40)),
            _ => self.below(100),
        }
    }
}

// ---- Tables ----

/// By record its label, work, period and reserved field.
type Set = Vec<[u32; 4]>;

fn bytes_of(set: &[[u32; 4]]) -> Vec<u8> {
    let words = set.iter().flatten();
    words.flat_map(|word| word.to_le_bytes()).collect()
}

fn set_word(table: &mut [u8], at: usize, value: u32) {
    table[4 * at..4 * at + 4].copy_from_slice(&value.to_le_bytes());
}

/// A sound set, small (so that there are many windows and near misses) or large.
fn sound_set(random: &mut Random) -> Set {
    let most_n = random.pick(&[3, 6, 16]);
    let n = random.among(1, most_n);
    // The greatest H, and how far apart the periods are.
    let small = [(4, 3), (6, 12), (10, 40), (30, 90), (30, 2_000)];
    let large = [(300, 900), (5_000, 9_000), (LONGEST, 20_000)];
    let sizes = if random.chance(65) {
        &small[..]
    } else {
        &large
    };
    let (most_h, rise) = random.pick(sizes);
    let h = random.among(2, most_h);
    let most_s = random.pick(&[1 + (h - 2) / 4, 1 + (h - 2) / 4, h - 1]);
    let s = random.among(1, most_s);
    let most_multiple = random.pick(&[1, 2, 4, 12]).min(LONGEST / h);
    let mut period = h * random.among(1, most_multiple);
    // How much the tasks ask of what the slots leave, in percent: from little to too much.
    let loads = [random.among(20, 115), random.among(80, 102)];
    let load = random.pick(&loads);
    let mut set = vec![[random.word(), s, h, 0]];
    for i in 0..n {
        if i > 0 && random.chance(85) {
            period = LONGEST.min(period + random.below(rise));
        }
        let share = u64::from(period) * u64::from(load * (h - s)) / u64::from(100 * h * n);
        let share = share as u32;
        let work = random.among(share / 2, share + share / 2 + 1);
        set.push([random.word(), work.clamp(1, period), period, 0]);
    }
    set
}

/// Moves one task's work or period to the edge of having a window, or one past it.
fn tighten(random: &mut Random, set: &mut [[u32; 4]]) {
    let i = 1 + random.index(set.len() - 1);
    let window = |set: &[[u32; 4]]| model::admit(&bytes_of(&set[..=i])).windows[i - 1];
    if random.chance(50) {
        // The greatest work that has a window, if one has; the period has none.
        let (mut fits, mut breaks) = (0, set[i][2]);
        while breaks - fits > 1 {
            set[i][1] = (fits + breaks) / 2;
            if window(set) > 0 {
                fits = set[i][1];
            } else {
                breaks = set[i][1];
            }
        }
        set[i][1] = random.pick(&[breaks, fits.max(1)]);
    } else if i > 1 && window(set) > 0 {
        // The least period that has a window, or one less, where the periods still never fall.
        let period = window(set) + set[0][2] - 1 - random.below(2);
        if period >= set[i - 1][2] && period >= set[i][1] {
            set[i][2] = period;
        }
    }
}

/// Breaks one rule, or only changes some bytes.
fn damage(random: &mut Random, table: &mut Vec<u8>) {
    let records = table.len() / 16;
    if records < 2 || random.chance(10) {
        let len = match random.below(30) {
            0 => table.len() + 65_536,
            1..=9 => table.len() + random.pick(&[1, 8, 16, 256]),
            10..=19 => random.index(400),
            _ => random.pick(&[0, 15, 16, 17, 32, 272, 273, 287, 288, 304]),
        };
        table.resize(len, 0);
        return;
    }
    let record = random.index(records);
    let at = 4 * record;
    let [work, period] = [1, 2].map(|i| word(table, at + i));
    let [s, h, first_period] = [1, 2, 6].map(|i| word(table, i));
    let any = random.index(4 * records);
    let other = word(table, random.index(4 * records));
    let (at, value) = match random.below(13) {
        0 => (at + 3, random.spoiled(0, other)),
        1 => (at + 1, 0),
        2 => (at + 1, period.wrapping_add(random.among(1, 2))),
        3 => (at + 2, work.wrapping_sub(1)),
        4 => (at + 2, LONGEST + random.below(2)),
        // A period that falls, and nothing else wrong.
        5 | 6 if record >= 2 => {
            let fallen = word(table, at - 2).wrapping_sub(random.among(1, 2));
            set_word(table, at + 1, work.min(fallen));
            (at + 2, fallen)
        }
        // Sleep time, harmonizing period and the first period.
        7 => (1, random.near(h)),
        8 => (2, s),
        9 => (2, random.near(h)),
        10 => (6, random.near(first_period)),
        11 => (any, random.spoiled(word(table, any), other)),
        _ => (any, random.other_byte(word(table, any))),
    };
    set_word(table, at, value);
}

/// A waking length from 0 to S, often at an edge.
fn lawful_waking(random: &mut Random, s: u32) -> u32 {
    let inside = random.among(0, s);
    random.pick(&[0, 1, s - 1, s, inside, inside])
}

/// One for a table of any bytes: lawful or not, S and H taken from where they would stand.
fn any_waking(random: &mut Random, table: &[u8]) -> u32 {
    let [s, h] = match table.len() {
        0..=11 => [1, 2],
        _ => [1, 2].map(|at| word(table, at)),
    };
    match random.below(10) {
        0 => random.pick(&[0, 1]),
        1..=3 => random.near(s),
        4 => random.near(h),
        5 => random.spoiled(s, h),
        6 => random.pick(&[1 << 31, u32::MAX, s | 1 << 31]),
        _ => random.below(s.saturating_add(1)),
    }
}

fn tables(random: &mut Random, calls: &mut impl Calls) {
    for _ in 0..60 {
        let mut set = sound_set(random);
        if random.chance(40) {
            tighten(random, &mut set);
        }
        let mut table = bytes_of(&set);
        if random.chance(3) {
            let len = random.index(400);
            table = (0..len).map(|_| random.word() as u8).collect();
        } else if random.chance(35) {
            for _ in 0..random.pick(&[1, 1, 1, 2, 3]) {
                damage(random, &mut table);
            }
        }
        calls.admit(&table, &mut random.buffer(VERDICT_WORDS));
        if random.chance(40) {
            let waking = any_waking(random, &table);
            calls.start(&table, waking, &mut random.buffer(STATE_WORDS));
        }
    }
}

// ---- Histories ----

// Where the words of a state stand, and from place(i) on those of an entry.
const S: usize = 1;
const H: usize = 2;
const N: usize = 4;
const CLOCK: usize = 5;
const WAKING: usize = 6;
const WORK: usize = 1;
const PERIOD: usize = 2;
const JOB: usize = 4;
const BEFORE: usize = 7;
const LAST: usize = 8;

fn place(i: usize) -> usize {
    7 + 9 * i
}

#[derive(Clone)]
struct Node {
    state: Vec<u32>,
    tally: Vec<u32>,
}

impl Node {
    fn set(&mut self, at: usize, words: &[u32]) {
        self.state[at..at + words.len()].copy_from_slice(words);
    }

    /// May the task at place i be released at this clock?
    fn due(&self, i: usize) -> bool {
        let [clock, h] = [CLOCK, H].map(|at| self.state[at]);
        let [job, before, last, period] =
            [JOB, BEFORE, LAST, PERIOD].map(|w| self.state[place(i) + w]);
        job == 0 && (before == 0 || clock.wrapping_sub(last) >= period) && (i > 0 || clock % h == 0)
    }

    /// Changes one count so that the tally sums to the clock, in 32 bits.
    fn settle(&mut self, random: &mut Random) {
        let clock = self.state[CLOCK];
        let missing = self
            .tally
            .iter()
            .fold(clock, |left, count| left.wrapping_sub(*count));
        let at = random.index(TALLY_WORDS);
        self.tally[at] = self.tally[at].wrapping_add(missing);
    }
}

fn any_release(random: &mut Random, calls: &mut impl Calls, node: &mut Node) {
    let n = node.state[N];
    let places = n.clamp(1, 16) as usize;
    let mut i = random.index(places);
    if random.chance(50) {
        i = (i..places).find(|&i| node.due(i)).unwrap_or(i);
    }
    let (task, work) = (i as u32 + 1, node.state[place(i) + WORK]);
    let other = random.pick(&node.state);
    let demand = match random.below(12) {
        0 => 0,
        1 => work.wrapping_add(1),
        2 => random.spoiled(work, other),
        3..=6 => work,
        _ => random.below(work).wrapping_add(1),
    };
    let task = match random.below(12) {
        0 => random.pick(&[0, n.wrapping_add(1), 16, 17, 256, u32::MAX]),
        1 => task | random.word() << random.below(32),
        _ => task,
    };
    calls.release(&mut node.state, task, demand);
}

/// Moves the clock on, and some releases with it, in a lawful way.
fn jump(random: &mut Random, node: &mut Node) {
    let [clock, h, n] = [CLOCK, H, N].map(|at| node.state[at]);
    let some = place(random.below(n) as usize);
    let due = node.state[some + LAST] + node.state[some + PERIOD];
    let boundary = clock - clock % h + h * random.among(1, 3);
    let [s, waking] = [S, WAKING].map(|at| node.state[at]);
    let to = match random.below(15) {
        0 => END - random.below(2 * h + 3),
        1 => END - random.below(3),
        2 => random.among(clock, END),
        3..=5 => random.near(due),
        6..=8 => random.near(boundary),
        9..=10 => random.near(boundary + s - waking),
        11 => random.near(boundary + s),
        _ => clock + random.below(3 * h),
    };
    let to = to.clamp(clock, END);
    node.set(CLOCK, &[to]);
    node.settle(random);
    for i in 0..n as usize {
        if random.chance(50) {
            continue;
        }
        let [work, period] = [WORK, PERIOD].map(|w| node.state[place(i) + w]);
        let release = match random.below(4) {
            0 => to,
            1 => random.near(to - to % h),
            2 => random.near(to.saturating_sub(period)),
            _ => to.saturating_sub(random.below(period)),
        };
        // No later than the clock (1 before 0 is late too), and task 1 on a boundary.
        let release = if release > to { to } else { release };
        let release = if i == 0 {
            release - release % h
        } else {
            release
        };
        let job = [1, release, random.among(1, work)];
        node.set(place(i) + JOB, &random.pick(&[[0, 0, 0], job]));
        node.set(place(i) + BEFORE, &[1, release]);
    }
}

/// A start and some hundred calls after it; what it ends with is lawful.
fn history(random: &mut Random, calls: &mut impl Calls) -> Node {
    let mut set = sound_set(random);
    if random.chance(20) {
        tighten(random, &mut set);
    }
    let mut node = Node {
        state: random.words(STATE_WORDS),
        tally: vec![0; TALLY_WORDS],
    };
    let waking = lawful_waking(random, set[0][1]);
    calls.start(&bytes_of(&set), waking, &mut node.state);
    let n = set.len() - 1;
    let eager = random.pick(&[5, 30, 90]);
    let jumps = random.pick(&[0, 1, 6]);
    let mut saved = node.clone();
    for _ in 0..random.among(50, 500) {
        let first = random.index(n);
        for i in (first..n).chain(0..first) {
            if node.due(i) && random.chance(eager) {
                let work = set[i + 1][1];
                let less = random.among(1, work);
                let demand = random.pick(&[work, work, less]);
                calls.release(&mut node.state, i as u32 + 1, demand);
            }
        }
        if random.chance(25) {
            any_release(random, calls, &mut node);
        }
        calls.step(&mut node.state, &mut node.tally);
        if random.chance(jumps) {
            jump(random, &mut node);
        }
        if random.chance(5) {
            spoil(random, calls, &node);
        }
        if random.chance(2) {
            saved = node.clone();
        } else if random.chance(2) || node.state[CLOCK] == END && random.chance(20) {
            node = saved.clone();
        }
    }
    node
}

// ---- States and tallies that are spoiled ----

/// A step and a release, each on a copy.
fn try_both(random: &mut Random, calls: &mut impl Calls, node: &Node) {
    let mut copy = node.clone();
    calls.step(&mut copy.state, &mut copy.tally);
    copy.state.clone_from(&node.state);
    if copy.state.len() == STATE_WORDS && copy.state[H] > 0 {
        any_release(random, calls, &mut copy);
    } else {
        calls.release(&mut copy.state, random.among(1, 4), 1);
    }
}

/// Changes a lawful state or its tally in one way, and tries both calls.
fn spoil(random: &mut Random, calls: &mut impl Calls, node: &Node) {
    let mut spoiled = node.clone();
    let [clock, h, n] = [CLOCK, H, N].map(|at| node.state[at]);
    let other = random.pick(&node.state);
    match random.below(17) {
        0..=4 => {
            let at = random.index(STATE_WORDS);
            spoiled.state[at] = random.spoiled(node.state[at], other);
        }
        // One entry, in several words.
        5..=7 => {
            let at = place(random.index(16));
            let [work, last] = [WORK, LAST].map(|w| node.state[at + w]);
            let release = random.pick(&[clock, clock - clock % h, last, last, 0]);
            let release = random.near(release);
            let last = random.pick(&[release, release, release, last, clock]);
            let left = random.pick(&[0, 1, work, work + 1, u32::MAX]);
            let kind = random.pick(&[0, 1, 1, 1, 2]);
            let before = random.pick(&[[1, last], [1, last], [0, 0], [kind, last]]);
            let job = random.pick(&[[0, 0, 0], [kind, release, left]]);
            spoiled.set(at + JOB, &job);
            spoiled.set(at + BEFORE, &before);
        }
        // The rules of the table.
        8 => {
            let homes = || [0].into_iter().chain((0..n as usize).map(place));
            let records: Set = homes().map(|at| from_fn(|w| node.state[at + w])).collect();
            let mut table = bytes_of(&records);
            damage(random, &mut table);
            for (at, record) in homes().zip(table.chunks_exact(16)) {
                spoiled.set(at, &[0, 1, 2, 3].map(|w| word(record, w)));
            }
        }
        // A clock that the tally agrees with, then a tally that agrees in 32 bits only.
        9 => {
            let clocks = [END - 1, END, END + 1, u32::MAX, clock / 2, random.word()];
            spoiled.state[CLOCK] = random.pick(&clocks);
            spoiled.settle(random);
        }
        10 => {
            for at in random.index(TALLY_WORDS - 1)..TALLY_WORDS {
                spoiled.tally[at] = random.word() | random.below(2) << 31;
            }
            spoiled.settle(random);
        }
        11 => {
            let at = random.index(TALLY_WORDS);
            spoiled.tally[at] = random.spoiled(node.tally[at], other);
        }
        // Fewer tasks or more, the last of them a copy of the first.
        12 => {
            let n = random.pick(&[0, n - 1, n + 1, 16, 17, u32::MAX, 1 << 31 | n]);
            spoiled.state[N] = n;
            if random.chance(50) && (1..=16).contains(&n) {
                let last = place(n as usize - 1);
                spoiled.state.copy_within(place(0)..place(1), last);
            }
        }
        13 => {
            let len = random.other_length(STATE_WORDS);
            spoiled.state.resize(len, 0);
        }
        14 => {
            let len = random.other_length(TALLY_WORDS);
            spoiled.tally.resize(len, 0);
        }
        // The waking length, or the sleep time below it.
        15 => {
            let [s, waking] = [S, WAKING].map(|at| node.state[at]);
            let long = [s, s + 1, h, s | 1 << 31, u32::MAX, random.word()];
            match random.below(3) {
                0 => spoiled.state[WAKING] = random.near(s),
                1 => spoiled.state[WAKING] = random.pick(&long),
                _ => spoiled.state[S] = random.near(waking),
            }
        }
        _ => match random.below(3) {
            0 => spoiled.state = random.words(STATE_WORDS),
            1 => spoiled.state.fill(0),
            _ => {
                for _ in 0..random.among(1, 6) {
                    let at = random.index(STATE_WORDS);
                    spoiled.state[at] = random.other_byte(spoiled.state[at]);
                }
            }
        },
    }
    try_both(random, calls, &spoiled);
}

/// Every word of a lawful state in turn, and of its tally.
fn sweep(random: &mut Random, calls: &mut impl Calls, node: &Node) {
    for at in 0..STATE_WORDS {
        let old = node.state[at];
        let bit = 1 << random.below(32);
        let other = random.pick(&node.state);
        let edges = [0, 1, LONGEST, LONGEST + 1, END, END + 1, u32::MAX];
        let near = [old.wrapping_add(1), old.wrapping_sub(1), old ^ bit];
        let mut spoiled = node.clone();
        for value in edges.into_iter().chain(near).chain([other, random.word()]) {
            spoiled.state[at] = value;
            try_both(random, calls, &spoiled);
        }
    }
    for at in 0..TALLY_WORDS {
        for more in [1, 2, 1 << 16, 1 << 31, u32::MAX - 1, u32::MAX] {
            let mut spoiled = node.clone();
            spoiled.tally[at] = node.tally[at].wrapping_add(more);
            try_both(random, calls, &spoiled);
        }
    }
}

// ---- Energy ----

/// Four counts with a chosen sum; where three of them pass it, it is met in 32 bits only.
fn counts(random: &mut Random) -> [u32; TALLY_WORDS] {
    let sum = match random.below(4) {
        0 => END - 2 + random.below(5),
        1 => random.below(END + 1),
        2 => random.word() >> random.below(32),
        _ => random.below(4).wrapping_sub(2),
    };
    let mut left = sum;
    let mut counts = [0; TALLY_WORDS];
    let (last, others) = counts.split_last_mut().unwrap();
    for count in others {
        *count = match random.below(5) {
            0 => 0,
            1 => left,
            2 => random.word(),
            _ => random.below(left),
        };
        left = left.wrapping_sub(*count);
    }
    *last = left;
    counts.rotate_left(random.index(TALLY_WORDS));
    counts
}

fn power(random: &mut Random) -> u32 {
    match random.below(8) {
        0 => random.pick(&[0, 1, 1 << 31, u32::MAX]),
        1..=2 => random.near(1_000_000),
        3 => random.word() >> random.below(32),
        _ => random.below(1_000_001),
    }
}

fn energies(random: &mut Random, calls: &mut impl Calls) {
    for _ in 0..40 {
        let mut tally = random.buffer(TALLY_WORDS);
        for (to, count) in tally.iter_mut().zip(counts(random)) {
            *to = count;
        }
        let [run_power, sleep_power, waking_power] = from_fn(|_| power(random));
        calls.energy(&tally, run_power, sleep_power, waking_power);
    }
}

// ---- All of them ----

pub fn round(random: &mut Random, calls: &mut impl Calls) {
    match random.below(100) {
        0..=34 => tables(random, calls),
        35..=44 => energies(random, calls),
        turn => {
            let node = history(random, calls);
            if turn < 47 {
                sweep(random, calls, &node);
            }
        }
    }
}
