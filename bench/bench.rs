//! bench [--code] ARCHIVE: the archives libnode.a and libbench_steps.a against the model, on the
//! same inputs in one run; tables in Markdown on standard output. ARCHIVE is libnode.a, to be read
//! for its code and stack (code.rs); with --code nothing else is done.
//!
//! A row has two or three ways to do the same calls. A lap of a way makes its inputs ready, then
//! times a fixed number of calls; a batch is as many laps as fill 2 ms. Each repeat goes over all
//! rows and takes one batch of each way, another way first each time. Both sides are called, not
//! inlined. Before the timing every call was made on both sides with the same answer and words, and
//! after each lap what it worked on must be as the model left it.

mod code;
#[path = "../compare/model.rs"]
mod model;
#[path = "../include/node.rs"]
mod node;

use model::{table, State, Tally, Tick, Verdict, STATE_WORDS, TALLY_WORDS, VERDICT_WORDS};
use node::{State as StateWords, Tally as TallyWords, Verdict as VerdictWords};
use std::hint::black_box;
use std::process::exit;
use std::rc::Rc;
use std::time::{Duration, Instant};

const REPEATS: usize = 31;
/// The least and the most repeats that a spread leaves out.
const LEFT_OUT: usize = 3;
const BATCH: Duration = Duration::from_millis(2);
/// Depths of the stack, of 64 bytes and more: a page together.
const LEVELS: usize = 64;
/// Steps in a lap.
const STRETCH: u32 = 4_000;
/// States in a sweep of accepted releases: they fit the nearest cache.
const COPIES: usize = 48;

// ---- Our side ----

extern "C" {
    fn steps_on(state: *mut u32, words: u64, tally: *mut u32, tally_words: u64, count: u32) -> u64;
    fn steps_by_value(table: *const u8, bytes: u64, count: u32) -> u64;
}

// Each pointer goes with the length of its own buffer, so these calls are sound.

fn our_steps(state: &mut StateWords, tally: &mut TallyWords, count: u32) -> u64 {
    let (words, tally_words) = (state.len() as u64, tally.len() as u64);
    let (state, tally) = (state.as_mut_ptr(), tally.as_mut_ptr());
    unsafe { steps_on(state, words, tally, tally_words, count) }
}

fn our_steps_by_value(table: &[u8], count: u32) -> u64 {
    unsafe { steps_by_value(table.as_ptr(), table.len() as u64, count) }
}

// ---- The model, called as ours is ----

#[inline(never)]
fn rust_admit(table: &[u8]) -> Verdict {
    model::admit(table)
}

#[inline(never)]
fn rust_admit_words(table: &[u8], verdict: &mut VerdictWords) -> u64 {
    model::admit_words(table, verdict)
}

#[inline(never)]
fn rust_release(state: &mut State, task: u32, demand: u32) -> Result<(), u32> {
    state.release(task, demand)
}

#[inline(never)]
fn rust_release_words(state: &mut StateWords, task: u32, demand: u32) -> u64 {
    model::release_words(state, task, demand)
}

#[inline(never)]
fn rust_step(state: &mut State, tally: &mut Tally) -> Result<Tick, u32> {
    state.step(tally)
}

#[inline(never)]
fn rust_step_words(state: &mut StateWords, tally: &mut TallyWords) -> u64 {
    model::step_words(state, tally)
}

#[inline(never)]
fn rust_energy(tally: &Tally, run: u32, sleep: u32, waking: u32) -> Result<u64, u32> {
    model::energy(tally, run, sleep, waking)
}

#[inline(never)]
fn rust_energy_words(tally: &TallyWords, run: u32, sleep: u32, waking: u32) -> u64 {
    model::energy_words(tally, run, sleep, waking)
}

/// Many steps inside one call.
#[inline(never)]
fn rust_steps(state: &mut State, tally: &mut Tally, count: u32) -> Result<Tick, u32> {
    let mut last = Ok(Tick::Slot);
    for _ in 0..count {
        last = state.step(tally);
    }
    last
}

/// A start with no waking and many steps inside one call; the slot and the tail ticks.
#[inline(never)]
fn rust_steps_from_start(table: &[u8], count: u32) -> u64 {
    let mut tally = Tally::default();
    let mut state = model::start(table, 0).unwrap();
    for _ in 0..count {
        let _ = state.step(&mut tally);
    }
    u64::from(tally.slot) + (u64::from(tally.tail) << 32)
}

/// The answer of node.h.
fn told<T>(answer: Result<T, u32>, accepted: impl FnOnce(T) -> u64) -> u64 {
    answer.map_or_else(u64::from, accepted)
}

fn told_tick(answer: Result<Tick, u32>) -> u64 {
    told(answer, |tick| match tick {
        Tick::Run(task) => u64::from(task) << 16,
        Tick::Slot => 1 << 8,
        Tick::Tail => 2 << 8,
    })
}

// ---- Inputs ----

/// Sleep S in H, and n tasks of work 1 but for the last; periods from 30,000 to 60,000.
fn set(sleep: (u32, u32), n: u32, last: u32) -> Vec<u8> {
    let period = |i| 30_000 + 30_000 * i / (n - 1);
    let work = |i| if i + 1 == n { last } else { 1 };
    let tasks = (0..n).map(|i| (work(i), period(i)));
    table(&[sleep].into_iter().chain(tasks).collect::<Vec<_>>())
}

/// A short sleep: one or two rounds a task.
fn few_rounds(n: u32) -> Vec<u8> {
    set((1, 100), n, 1)
}

/// A sleep that leaves one tick in a hundred: the more work the last task has, the more rounds.
fn with_rounds(n: u32, last: u32) -> Vec<u8> {
    set((99, 100), n, last)
}

/// Such a set with as near 240 rounds as can be.
fn many_rounds(n: u32) -> Vec<u8> {
    let sets = (1..600).map(|last| with_rounds(n, last));
    let admitted = sets.filter(|set| model::admit(set).answer.is_ok());
    admitted
        .min_by_key(|set| rounds(set).abs_diff(240))
        .unwrap()
}

/// Each task takes half of what is left: sleep 1 in 2, works of 1 in 4, 8, 16 and so on.
fn halves(n: u32) -> Vec<u8> {
    let records = [(1, 2)].into_iter().chain((0..n).map(|i| (1, 4 << i)));
    table(&records.collect::<Vec<_>>())
}

fn rounds(table: &[u8]) -> u32 {
    model::admit(table).rounds.iter().sum()
}

const HOUSE: [(u32, u32); 5] = [(8, 20), (2, 20), (3, 50), (2, 100), (4, 200)];

/// The sets A to H of RULES 15.
fn case_sets() -> Vec<Vec<u8>> {
    let house = |last| [&HOUSE[..4], &[(last, 200)]].concat();
    let source = |s| vec![(s, 10), (1, 10), (1, 15), (2, 26)];
    let sets = [
        house(4),
        house(5),
        house(6),
        vec![(1, 5), (3, 10), (1, 15), (1, 40), (1, 300), (1, 500)],
        source(5),
        source(7),
        vec![(1, 2), (1, 2)],
        vec![(1, 2), (2, 4)],
        vec![(1, 2), (3, 4)],
        vec![(1, 4), (1, 4), (1, 6)],
        vec![(1, 4), (1, 4), (1, 5)],
    ];
    sets.iter().map(|set| table(set)).collect()
}

/// A state and its tally on both sides. Each call is made on both, which must agree.
#[derive(Clone)]
struct Both {
    words: StateWords,
    tally_words: TallyWords,
    state: State,
    tally: Tally,
}

impl Both {
    fn start(table: &[u8], waking: u32) -> Both {
        let mut both = Both {
            words: [0; STATE_WORDS],
            tally_words: [0; TALLY_WORDS],
            state: model::start(table, waking).unwrap(),
            tally: Tally::default(),
        };
        let answer = node::start(table, waking, &mut both.words).0;
        assert_eq!(answer, 0, "start");
        both.agree();
        both
    }

    fn release(&mut self, task: u32, demand: u32) -> u64 {
        let answer = node::release(&mut self.words, task, demand).0;
        let rust = told(self.state.release(task, demand), |()| 0);
        assert_eq!(answer, rust, "release");
        self.agree();
        answer
    }

    fn step(&mut self) -> u64 {
        let answer = node::step(&mut self.words, &mut self.tally_words).0;
        let rust = told_tick(self.state.step(&mut self.tally));
        assert_eq!(answer, rust, "step");
        self.agree();
        answer
    }

    fn agree(&self) {
        assert_eq!(self.words, self.state.to_words(), "the states differ");
        let tally_words = self.tally.to_words();
        assert_eq!(self.tally_words, tally_words, "the tallies differ");
    }
}

/// Where some calls begin and end.
struct Ends {
    from: Both,
    to: Both,
}

impl Ends {
    fn on_words(&self) -> [(StateWords, TallyWords); 2] {
        [&self.from, &self.to].map(|both| (both.words, both.tally_words))
    }

    fn in_structs(&self) -> [(State, Tally); 2] {
        [&self.from, &self.to].map(|both| (both.state.clone(), both.tally))
    }
}

/// Waking is a slot tick that counts as waking.
#[derive(Clone, Copy, PartialEq)]
enum Kind {
    Slot,
    Waking,
    Run,
    Tail,
}

impl Kind {
    const ALL: [Kind; 4] = [Kind::Slot, Kind::Waking, Kind::Run, Kind::Tail];

    fn name(self) -> &'static str {
        match self {
            Kind::Slot => "slot",
            Kind::Waking => "waking",
            Kind::Run => "run",
            Kind::Tail => "tail",
        }
    }

    /// A table whose ticks are of this kind for more than a stretch.
    fn table(self, n: u32) -> Vec<u8> {
        let asleep = [Kind::Slot, Kind::Waking].contains(&self);
        let sleep = if asleep { 59_999 } else { 1 };
        let last = if self == Kind::Run { 50_000 } else { 1 };
        let tasks = (1..=n).map(|task| (if task == n { last } else { 1 }, 60_000));
        let records = [(sleep, 60_000)].into_iter().chain(tasks);
        table(&records.collect::<Vec<_>>())
    }

    /// A start on that table.
    fn start(self, n: u32) -> Both {
        let waking = if self == Kind::Waking { 59_999 } else { 1 };
        Both::start(&self.table(n), waking)
    }

    /// A stretch of ticks of this kind, and the answer of each. In run all tasks were released, the
    /// last is at work and the others have done theirs; in the other kinds nothing was released.
    fn stretch(self, n: u32) -> (Ends, u64) {
        let mut at = self.start(n);
        let (before, answer) = match self {
            Kind::Slot | Kind::Waking => (0, 1 << 8),
            Kind::Run => (n, u64::from(n) << 16),
            Kind::Tail => (1, 2 << 8),
        };
        if self == Kind::Run {
            for task in 1..=n {
                let work = at.state.entries[task as usize - 1].record.work;
                assert_eq!(at.release(task, work), 0);
            }
        }
        for _ in 0..before {
            at.step();
        }
        let from = at.clone();
        for _ in 0..STRETCH {
            assert_eq!(at.step(), answer, "a tick of another kind");
        }
        let waking = at.tally.waking - from.tally.waking;
        let expected = if self == Kind::Waking { STRETCH } else { 0 };
        assert_eq!(waking, expected, "waking ticks");
        (Ends { from, to: at }, answer)
    }
}

// ---- Ways and rows ----

struct Way {
    /// One lap; the time of its calls.
    lap: Box<dyn FnMut() -> Duration>,
    /// Calls in a lap.
    calls: u32,
    /// Nanoseconds a call, by repeat.
    times: Vec<f64>,
}

/// What a lap works on begins a cache line, on every side.
#[repr(align(64))]
struct OnLine<T>(T);

impl Way {
    /// A lap sets what it works on to `from`, then times `run`, which must leave `to`.
    fn new<T>(calls: u32, [from, to]: [T; 2], run: impl Fn(&mut T) + 'static) -> Way
    where
        T: Clone + PartialEq + 'static,
    {
        let mut at = OnLine(from.clone());
        let lap = move || {
            at.0.clone_from(&from);
            let start = Instant::now();
            run(&mut at.0);
            let time = start.elapsed();
            assert!(at.0 == to, "a lap ends elsewhere than the model");
            time
        };
        Way {
            lap: Box::new(lap),
            calls,
            times: Vec::new(),
        }
    }

    /// Each lap is run at another depth of the stack.
    fn batch(&mut self, repeat: usize) -> f64 {
        let (mut time, mut laps) = (Duration::ZERO, 0);
        while time < BATCH {
            time += lower((13 * repeat + laps) % LEVELS, &mut self.lap);
            laps += 1;
        }
        time.as_nanos() as f64 / (laps as f64 * f64::from(self.calls))
    }

    fn median(&self) -> f64 {
        median(&self.times)
    }
}

/// Runs a lap some levels further down the stack. How the stack lies to the lent buffers, modulo a
/// page, can make a call slower by a third; no way should be measured at one such place alone.
#[inline(never)]
fn lower(levels: usize, lap: &mut dyn FnMut() -> Duration) -> Duration {
    if levels == 0 {
        return lap();
    }
    let room = [0u8; 32];
    black_box(&room);
    let time = lower(levels - 1, lap);
    black_box(&room);
    time
}

struct Row {
    what: String,
    /// Of an admission.
    tasks: u32,
    rounds: u32,
    /// Ours, the model on its own values, and perhaps the model on the same words.
    ways: Vec<Way>,
}

impl Row {
    fn new(what: impl Into<String>, ways: Vec<Way>) -> Row {
        let what = what.into();
        #[rustfmt::skip]
        return Row { what, tasks: 0, rounds: 0, ways };
    }

    /// The ratio of the medians.
    fn ratio(&self) -> f64 {
        self.ways[0].median() / self.ways[1].median()
    }

    /// The ratio of each repeat.
    fn ratios(&self) -> Vec<f64> {
        let pairs = self.ways[0].times.iter().zip(&self.ways[1].times);
        pairs.map(|(ours, rust)| ours / rust).collect()
    }

    fn time_with_spread(&self, way: usize) -> String {
        let way = &self.ways[way];
        with_spread(way.median(), &way.times)
    }

    fn ratio_with_spread(&self) -> String {
        with_spread(self.ratio(), &self.ratios())
    }
}

/// The compiler must make this value. It is not copied, which could cost more than a short call.
fn used<T>(value: T) {
    black_box(&value);
}

/// The compiler must not know what this is.
fn hidden<T: ?Sized>(lent: &mut T) -> &mut T {
    black_box(lent)
}

/// Admission of each of some tables in turn.
fn admission(what: impl Into<String>, tables: Vec<Vec<u8>>, turns: u32) -> Row {
    let blank = [0xa5; VERDICT_WORDS];
    let mut left = blank;
    for table in &tables {
        let (mut ours, mut rust) = (blank, blank);
        let answer = node::admit(table, &mut ours).0;
        assert_eq!(answer, model::admit_words(table, &mut rust), "admission");
        assert_eq!(ours, rust, "the verdicts differ");
        left = ours;
    }
    let mut row = Row::new(what, Vec::new());
    row.tasks = task_count(&tables[0]);
    row.rounds = rounds(&tables[0]);
    let calls = turns * tables.len() as u32;
    let all = Rc::new(tables);
    let tables = Rc::clone(&all);
    let ours = Way::new(calls, [blank, left], move |verdict| {
        for _ in 0..turns {
            for table in tables.iter() {
                used(node::admit(black_box(table), hidden(verdict)));
            }
        }
    });
    let tables = Rc::clone(&all);
    let rust = Way::new(calls, [(), ()], move |()| {
        for _ in 0..turns {
            for table in tables.iter() {
                used(rust_admit(black_box(table)));
            }
        }
    });
    let tables = all;
    let on_words = Way::new(calls, [blank, left], move |verdict| {
        for _ in 0..turns {
            for table in tables.iter() {
                used(rust_admit_words(black_box(table), hidden(verdict)));
            }
        }
    });
    row.ways = vec![ours, rust, on_words];
    row
}

/// Admission of one table, named by its tasks and rounds.
fn admission_of(table: Vec<u8>, turns: u32) -> Row {
    let what = format!("{}, {} rounds", tasks(task_count(&table)), rounds(&table));
    admission(what, vec![table], turns)
}

/// A state at clock 0 with n tasks: none released, and all.
fn around_release(n: u32) -> Ends {
    let from = Kind::Tail.start(n);
    let mut to = from.clone();
    for task in 1..=n {
        assert_eq!(to.release(task, 1), 0, "not accepted");
    }
    Ends { from, to }
}

/// Each task of many copies of a state is released, all accepted.
fn accepted_release(n: u32) -> Row {
    let Ends { from, to } = around_release(n);
    let calls = n * COPIES as u32;
    let words = [&from, &to].map(|both| vec![both.words; COPIES]);
    let structs = [&from, &to].map(|both| vec![both.state.clone(); COPIES]);
    let ours = Way::new(calls, words.clone(), move |states| {
        for state in states {
            for task in 1..=n {
                used(node::release(hidden(state), task, black_box(1)));
            }
        }
    });
    let rust = Way::new(calls, structs, move |states| {
        for state in states {
            for task in 1..=n {
                used(rust_release(hidden(state), task, black_box(1)));
            }
        }
    });
    let on_words = Way::new(calls, words, move |states| {
        for state in states {
            for task in 1..=n {
                used(rust_release_words(hidden(state), task, black_box(1)));
            }
        }
    });
    let what = format!("accepted, {}", tasks(n));
    Row::new(what, vec![ours, rust, on_words])
}

/// Each task in turn is released while it is at work: refusal 11, on one state.
fn refused_release(n: u32) -> Row {
    let mut at = around_release(n).to;
    for task in 1..=n {
        assert_eq!(at.release(task, 1), u64::from(node::REFUSED_WORKING));
    }
    let turns = 9600 / n;
    let calls = turns * n;
    let ours = Way::new(calls, [at.words; 2], move |state| {
        for _ in 0..turns {
            for task in 1..=n {
                used(node::release(hidden(state), task, black_box(1)));
            }
        }
    });
    let rust = Way::new(calls, [at.state.clone(), at.state], move |state| {
        for _ in 0..turns {
            for task in 1..=n {
                used(rust_release(hidden(state), task, black_box(1)));
            }
        }
    });
    let on_words = Way::new(calls, [at.words; 2], move |state| {
        for _ in 0..turns {
            for task in 1..=n {
                used(rust_release_words(hidden(state), task, black_box(1)));
            }
        }
    });
    let what = format!("refused with 11, {}", tasks(n));
    Row::new(what, vec![ours, rust, on_words])
}

/// One call a step.
fn step(kind: Kind, n: u32) -> Row {
    let (ends, _) = kind.stretch(n);
    let ours = Way::new(STRETCH, ends.on_words(), |(state, tally)| {
        for _ in 0..STRETCH {
            used(node::step(hidden(state), hidden(tally)));
        }
    });
    let rust = Way::new(STRETCH, ends.in_structs(), |(state, tally)| {
        for _ in 0..STRETCH {
            used(rust_step(hidden(state), hidden(tally)));
        }
    });
    let on_words = Way::new(STRETCH, ends.on_words(), |(state, tally)| {
        for _ in 0..STRETCH {
            used(rust_step_words(hidden(state), hidden(tally)));
        }
    });
    Row::new(kind_of(kind, n), vec![ours, rust, on_words])
}

/// A stretch of steps inside one call.
fn step_alone(kind: Kind, n: u32) -> Row {
    let (ends, answer) = kind.stretch(n);
    let ours = Way::new(STRETCH, ends.on_words(), move |(state, tally)| {
        let last = our_steps(hidden(state), hidden(tally), black_box(STRETCH));
        assert_eq!(last, answer, "steps_on");
    });
    let rust = Way::new(STRETCH, ends.in_structs(), move |(state, tally)| {
        let last = rust_steps(hidden(state), hidden(tally), black_box(STRETCH));
        assert_eq!(told_tick(last), answer);
    });
    Row::new(kind_of(kind, n), vec![ours, rust])
}

/// A start and a stretch of steps inside one call, ours with the state passed by value. Nothing is
/// released, so there is no run.
fn step_by_value(kind: Kind, n: u32) -> Row {
    let table = kind.table(n);
    let counts = rust_steps_from_start(&table, STRETCH);
    let tables = [table.clone(), table];
    let ours = Way::new(STRETCH, tables.clone(), move |table| {
        let ours = our_steps_by_value(hidden(table), black_box(STRETCH));
        assert_eq!(ours, counts, "steps_by_value");
    });
    let rust = Way::new(STRETCH, tables, move |table| {
        let rust = rust_steps_from_start(hidden(table), black_box(STRETCH));
        assert_eq!(rust, counts);
    });
    Row::new(kind_of(kind, n), vec![ours, rust])
}

/// The house table under the worst pattern, releases and steps, two ticks of a slot waking; timed
/// by the tick.
fn mixed() -> Row {
    let from = Both::start(&table(&HOUSE), 2);
    let mut to = from.clone();
    // The calls in their order: the task and demand of a release, or 0 and 0 for a step.
    let mut calls = Vec::new();
    for tick in 0..STRETCH {
        for (task, &(work, period)) in (0..).zip(&HOUSE).skip(1) {
            let first = if task == 1 { HOUSE[0].1 } else { 1 };
            if tick >= first && (tick - first) % period == 0 {
                assert_eq!(to.release(task, work), 0, "not accepted");
                calls.push((task, work));
            }
        }
        to.step();
        calls.push((0, 0));
    }
    let ends = Ends { from, to };
    let all = Rc::new(calls);
    let calls = Rc::clone(&all);
    let ours = Way::new(STRETCH, ends.on_words(), move |(state, tally)| {
        for &call in calls.iter() {
            match call {
                (0, _) => used(node::step(hidden(state), hidden(tally))),
                (task, demand) => used(node::release(hidden(state), task, demand)),
            }
        }
    });
    let calls = Rc::clone(&all);
    let rust = Way::new(STRETCH, ends.in_structs(), move |(state, tally)| {
        for &call in calls.iter() {
            match call {
                (0, _) => used(rust_step(hidden(state), hidden(tally))),
                (task, demand) => used(rust_release(hidden(state), task, demand)),
            }
        }
    });
    let calls = all;
    let on_words = Way::new(STRETCH, ends.on_words(), move |(state, tally)| {
        for &call in calls.iter() {
            match call {
                (0, _) => used(rust_step_words(hidden(state), hidden(tally))),
                (task, demand) => used(rust_release_words(hidden(state), task, demand)),
            }
        }
    });
    let what = "house table, worst pattern: a tick and its releases";
    Row::new(what, vec![ours, rust, on_words])
}

/// Readings of 64 tallies at several powers.
fn energy() -> Row {
    const TURNS: u32 = 200;
    let mut structs = Vec::new();
    let mut words = Vec::new();
    for i in 1..=64 {
        let counts: TallyWords = [7, 5, 3, 1].map(|part| part * i * 400_009);
        let tally = Tally::from_words(&counts).unwrap();
        let powers = [15_013, 16, 9_001].map(|part| part * i);
        let [run, sleep, waking] = powers;
        let nanojoules = model::energy(&tally, run, sleep, waking).expect("accepted");
        let answer = node::energy(&counts, run, sleep, waking).0;
        assert_eq!(answer, nanojoules << 8, "energy");
        structs.push((tally, powers));
        words.push((counts, powers));
    }
    let calls = TURNS * structs.len() as u32;
    let words = [words.clone(), words];
    let ours = Way::new(calls, words.clone(), |readings| {
        for _ in 0..TURNS {
            for (tally, [run, sleep, waking]) in readings.iter() {
                used(node::energy(black_box(tally), *run, *sleep, *waking));
            }
        }
    });
    let rust = Way::new(calls, [structs.clone(), structs], |readings| {
        for _ in 0..TURNS {
            for (tally, [run, sleep, waking]) in readings.iter() {
                used(rust_energy(black_box(tally), *run, *sleep, *waking));
            }
        }
    });
    let on_words = Way::new(calls, words, |readings| {
        for _ in 0..TURNS {
            for (tally, [run, sleep, waking]) in readings.iter() {
                used(rust_energy_words(black_box(tally), *run, *sleep, *waking));
            }
        }
    });
    Row::new("energy of a tally", vec![ours, rust, on_words])
}

fn task_count(table: &[u8]) -> u32 {
    table.len() as u32 / 16 - 1
}

fn tasks(n: u32) -> String {
    format!("{n} task{}", if n == 1 { "" } else { "s" })
}

fn kind_of(kind: Kind, n: u32) -> String {
    format!("{}, {}", kind.name(), tasks(n))
}

/// By kind, with 1, 4 and 16 tasks.
fn by_kind(kinds: &[Kind], row: fn(Kind, u32) -> Row) -> Vec<Row> {
    let kinds = kinds.iter();
    let rows = kinds.flat_map(|&kind| [1, 4, 16].map(|n| row(kind, n)));
    rows.collect()
}

// ---- Figures ----

fn sorted(values: &[f64]) -> Vec<f64> {
    let mut sorted = values.to_vec();
    sorted.sort_by(f64::total_cmp);
    sorted
}

fn median(values: &[f64]) -> f64 {
    sorted(values)[values.len() / 2]
}

/// Three figures or so.
fn short(value: f64) -> String {
    let places = match value {
        _ if value < 10.0 => 2,
        _ if value < 100.0 => 1,
        _ => 0,
    };
    format!("{value:.places$}")
}

fn with_spread(middle: f64, values: &[f64]) -> String {
    let values = sorted(values);
    let [least, most] = [LEFT_OUT, values.len() - 1 - LEFT_OUT].map(|at| short(values[at]));
    format!("{} ({least}..{most})", short(middle))
}

fn print_rows(title: &str, ours: &str, rows: &[Row]) {
    println!("\n## {title}\n");
    let on_words = rows[0].ways.len() > 2;
    let (head, line) = match on_words {
        true => (" Rust on words ns |", "---:|"),
        false => ("", ""),
    };
    println!("| what | {ours} ns | Rust ns | ratio |{head}");
    println!("|---|---:|---:|---:|{line}");
    for row in rows {
        let [ours, rust] = [0, 1].map(|way| row.time_with_spread(way));
        let ratio = row.ratio_with_spread();
        print!("| {} | {ours} | {rust} | {ratio} |", row.what);
        if on_words {
            print!(" {} |", row.time_with_spread(2));
        }
        println!();
    }
}

/// How admission grows.
fn print_growth(title: &str, rows: &[Row]) {
    println!("\n{title}:\n");
    println!("| tasks | rounds | ours ns | Rust ns | ratio | ours a round | Rust a round |");
    println!("|---:|---:|---:|---:|---:|---:|---:|");
    for row in rows {
        let [ours, rust] = [0, 1].map(|way| row.ways[way].median());
        let a_round = [ours, rust].map(|time| short(time / f64::from(row.rounds)));
        print!("| {} | {} |", row.tasks, row.rounds);
        print!(" {} | {} |", short(ours), short(rust));
        let ratio = row.ratio_with_spread();
        println!(" {ratio} | {} |", a_round.join(" | "));
    }
}

fn print_step_growth(rows: &[Row]) {
    println!("\nA step by the number of tasks, one call each:\n");
    println!("| kind | ours ns: 1 | 4 | 16 | Rust ns: 1 | 4 | 16 |");
    println!("|---|---:|---:|---:|---:|---:|---:|");
    for (kind, rows) in Kind::ALL.iter().zip(rows.chunks(3)) {
        print!("| {} |", kind.name());
        for way in 0..2 {
            for row in rows {
                print!(" {} |", short(row.ways[way].median()));
            }
        }
        println!();
    }
}

struct Aim {
    what: &'static str,
    aim: String,
    found: String,
    met: bool,
}

/// The worst ratio of some rows against the most that is aimed at.
fn ratio_aim<'a>(what: &'static str, most: f64, rows: impl Iterator<Item = &'a Row>) -> Aim {
    let worst = rows.max_by(|a, b| a.ratio().total_cmp(&b.ratio()));
    let worst = worst.expect("a row");
    Aim {
        what,
        aim: format!("at most {most} times the Rust"),
        found: format!("at worst {} ({})", short(worst.ratio()), worst.what),
        met: worst.ratio() <= most,
    }
}

fn code_aims(code: &code::Code) -> [Aim; 2] {
    let bytes = code.code + code.constants;
    let step = code.exported.iter().find(|f| f.name == "node_step");
    let stack = step.and_then(|f| f.stack);
    let code = Aim {
        what: "code of the archive, with its constants",
        aim: "under 32768 bytes".into(),
        found: format!("{bytes} bytes"),
        met: bytes < 32_768,
    };
    let stack = Aim {
        what: "stack of a step",
        aim: "under 4096 bytes".into(),
        found: stack.map_or("no bound".into(), |stack| format!("{stack} bytes")),
        met: stack.is_some_and(|stack| stack < 4096),
    };
    [code, stack]
}

fn print_aims(aims: &[Aim]) {
    println!("\n## Aims\n");
    println!("| what | aim | found | |");
    println!("|---|---|---|---|");
    for aim in aims {
        let met = if aim.met { "met" } else { "missed" };
        println!("| {} | {} | {} | {met} |", aim.what, aim.aim, aim.found);
    }
}

/// What a reading of the clock adds to a lap.
fn clock_cost() -> f64 {
    let mut empty = Way::new(1, [(), ()], |()| ());
    let costs = (0..1000).map(|_| (empty.lap)().as_nanos() as f64);
    median(&costs.collect::<Vec<_>>())
}

const ABOUT_TIMES: &str = "
Nanoseconds a call: the median of the repeats and in brackets their range, the three least and the
three most left out. The ratio is ours over Rust, of the medians; in brackets the range of the
repeats' own ratios, three and three left out. Rust is `compare/model.rs` on its own structs by
`&mut`, every check of the rules at each call. \"Rust on words\" is the model on our buffers: it
decodes, calls and encodes; for information.";

const ABOUT_STACK: &str = "
Read off the machine code of the archive. The stack of a call is counted from its return address
down, with all that it calls. A function outside of the archive is named, and counts as its return
address alone.
";

fn print_code(code: &code::Code) {
    println!("\n## Code and stack\n{ABOUT_STACK}");
    print!("{}", code.markdown());
}

fn main() {
    let words: Vec<String> = std::env::args().skip(1).collect();
    let words: Vec<&str> = words.iter().map(String::as_str).collect();
    let (code_only, archive) = match words[..] {
        ["--code", archive] => (true, archive),
        [archive] if !archive.starts_with('-') => (false, archive),
        _ => {
            eprintln!("usage: bench [--code] ARCHIVE");
            exit(2);
        }
    };
    let code = code::read(archive).unwrap_or_else(|error| {
        eprintln!("bench: {error}");
        exit(1);
    });
    if code_only {
        return print_code(&code);
    }

    model::cases();
    let mut admissions = Vec::new();
    admissions.extend([2, 4, 8, 16].map(|n| admission_of(few_rounds(n), 256)));
    admissions.extend([2, 4, 8, 16].map(|n| admission_of(many_rounds(n), 32)));
    admissions.push(admission_of(halves(14), 8));
    admissions.push(admission("house table", vec![table(&HOUSE)], 256));
    admissions.push(admission("sets A to H in turn", case_sets(), 32));
    let by_rounds = |n| [1, 16, 64, 256, 560].map(|last| admission_of(with_rounds(n, last), 32));
    let mut releases = Vec::from([1, 4, 16].map(accepted_release));
    releases.extend([1, 4, 16].map(refused_release));
    let mut groups = [
        admissions,
        Vec::from(by_rounds(4)),
        Vec::from(by_rounds(16)),
        releases,
        by_kind(&Kind::ALL, step),
        by_kind(&Kind::ALL, step_alone),
        by_kind(&[Kind::Slot, Kind::Tail], step_by_value),
        vec![mixed()],
        vec![energy()],
    ];

    // Repeat 0 warms up.
    for repeat in 0..=REPEATS {
        for row in groups.iter_mut().flatten() {
            let ways = row.ways.len();
            for turn in 0..ways {
                let way = &mut row.ways[(repeat + turn) % ways];
                let time = way.batch(repeat);
                if repeat > 0 {
                    way.times.push(time);
                }
            }
        }
    }

    let [admissions, by_rounds_4, by_rounds_16, releases, steps, alone, by_value, mixed, energy] =
        &groups;
    println!("{ABOUT_TIMES}");
    print_rows("Admission", "ours", admissions);
    print_rows("Release", "ours", releases);
    println!(
        "\nAccepted: each task of {COPIES} copies of a state is released once. The clock is read"
    );
    println!(
        "once for these, which adds about {} ns to their sum on every side.",
        short(clock_cost())
    );
    print_rows("Step, one call each", "node_step", steps);
    print_rows(
        "Step alone, many in one call on the words",
        "steps_on",
        alone,
    );
    print_rows(
        "Step alone, many in one call by value",
        "steps_by_value",
        by_value,
    );
    println!("\nRust in both: many steps in one call, the state by `&mut`.");
    print_rows("A node's ticks", "ours", mixed);
    print_rows("Energy", "ours", energy);
    println!("\n## Growth");
    print_growth("Admission by tasks, few rounds", &admissions[..4]);
    print_growth("Admission by tasks, as many rounds each", &admissions[4..8]);
    print_growth("Admission by rounds, 4 tasks", by_rounds_4);
    print_growth("Admission by rounds, 16 tasks", by_rounds_16);
    print_step_growth(steps);
    print_code(&code);
    let every_admission = admissions.iter().chain(by_rounds_4).chain(by_rounds_16);
    let mut aims = vec![
        ratio_aim("admission", 1.2, every_admission),
        ratio_aim("step, one call each", 2.0, steps.iter()),
        ratio_aim("step, many in one call on the words", 2.0, alone.iter()),
        ratio_aim("step, many in one call by value", 2.0, by_value.iter()),
    ];
    aims.extend(code_aims(&code));
    print_aims(&aims);
}
