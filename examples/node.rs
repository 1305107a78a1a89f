//! node.rs: the loop of a node on the house table, over libnode.a. Built and run by examples/run.
//! node.c is the same in C, and both print expected.txt.

#[path = "../include/node.rs"]
mod node;

use node::{Answer, Record, Tick};
use std::process::exit;

const TASKS: usize = 4;
const TICKS: u32 = 40;
const STOP_AFTER: u32 = 25;

/// The oscillator takes two ticks to start and much more power than sleep does: the last two ticks
/// of each slot are counted and booked apart. Powers are in microwatts.
const WAKING: u32 = 2;
const RUN_POWER: u32 = 23_000;
const SLEEP_POWER: u32 = 16;
const WAKING_POWER: u32 = 9_000;

const fn record(label: u32, work: u32, period: u32) -> Record {
    Record {
        label,
        work,
        period,
    }
}

/// The sleep record, then the tasks.
const HOUSE: [Record; 1 + TASKS] = [
    record(10, 8, 20),
    record(11, 2, 20),
    record(12, 3, 50),
    record(13, 2, 100),
    record(14, 4, 200),
];

/// The worst pattern: each task's first release; the next ones come a period apart.
const FIRST_RELEASE: [u32; TASKS] = [20, 1, 1, 1];

/// All that a node has to keep. Firmware would lay it in memory that survives a stop, such as a
/// noinit or backup RAM section.
#[derive(Clone)]
struct Memory {
    state: node::State,
    tally: node::Tally,
}

/// Firmware would log the number and go to a safe state.
fn refused(answer: Answer) -> ! {
    eprintln!("refused {}", answer.number());
    exit(1)
}

/// Gives an accepted answer back.
fn check(answer: Answer) -> Answer {
    if answer.number() != node::ACCEPTED {
        refused(answer);
    }
    answer
}

/// Firmware would sleep till the timer of the next tick: in a slot or tail tick nothing may run.
fn node_sleep_one_tick() {}

/// One tick of a task's work. Firmware would then wait for the timer of the next tick.
const WORK: [fn(); TASKS] = [read_sensor, compute, move_valve, talk];
fn read_sensor() {}
fn compute() {}
fn move_valve() {}
fn talk() {}

/// Start is allowed on a set that is not admitted, so the test comes first.
fn start() -> Memory {
    let mut table = [0; (1 + TASKS) * node::RECORD_BYTES];
    let mut verdict = [0; node::VERDICT_WORDS];
    let mut memory = Memory {
        state: [0; node::STATE_WORDS],
        tally: [0; node::TALLY_WORDS],
    };

    for (k, record) in HOUSE.into_iter().enumerate() {
        node::put_record(&mut table, k, record);
    }
    let tasks = check(node::admit(&table, &mut verdict)).place();
    println!("task window figure rounds");
    for task in 1..=tasks {
        let row = node::row(&verdict, task);
        println!("{task} {} {} {}", row.window, row.figure, row.rounds);
    }
    println!("admitted {tasks}");

    check(node::start(&table, WAKING, &mut memory.state));
    memory
}

/// One tick of the node, and its character in the picture.
fn tick(memory: &mut Memory, clock: u32) -> char {
    for (i, task) in (1..).zip(&HOUSE[1..]) {
        let first = FIRST_RELEASE[i - 1];
        if clock >= first && (clock - first) % task.period == 0 {
            check(node::release(&mut memory.state, i as u32, task.work));
        }
    }
    let answer = node::step(&mut memory.state, &mut memory.tally);
    match answer.tick() {
        Tick::Run(task) => {
            WORK[task as usize - 1]();
            (b'0' + task as u8) as char
        }
        Tick::Slot => {
            node_sleep_one_tick();
            'z'
        }
        Tick::Tail => {
            node_sleep_one_tick();
            '.'
        }
        Tick::Refused => refused(answer),
    }
}

/// A stop that the memory does not survive: saved before, say to flash, and restored after.
fn stop(memory: &mut Memory) {
    let saved = memory.clone();

    memory.state.fill(0);
    memory.tally.fill(0);
    let refusal = node::step(&mut memory.state, &mut memory.tally).number();
    *memory = saved;
    println!("stop after tick {STOP_AFTER}: saved, wiped (a step is refused {refusal}), restored");
}

fn main() {
    let mut picture = String::new();
    let mut memory = start();

    // The clock is read from the state, so that after a stop the loop goes on where it was.
    let mut clock = node::clock(&memory.state);
    while clock < TICKS {
        picture.push(tick(&mut memory, clock));
        if clock == STOP_AFTER {
            stop(&mut memory);
        }
        clock = node::clock(&memory.state);
    }
    println!(
        "ticks 0 to {}, z slot, . tail, a digit the task that ran:",
        TICKS - 1
    );
    println!("{picture}");
    let [run, slot, tail, waking] = memory.tally;
    let length = node::waking(&memory.state);
    print!("run {run}, slot {slot}, tail {tail}, ");
    println!("waking {waking}: the last {length} ticks of each slot");
    let energy = node::energy(&memory.tally, RUN_POWER, SLEEP_POWER, WAKING_POWER);
    let nanojoules = check(energy).nanojoules();
    print!("{nanojoules} nanojoules at {RUN_POWER}, {SLEEP_POWER} and {WAKING_POWER} microwatts ");
    println!("for run, sleep and waking");

    let before = memory.state;
    let refusal = node::release(&mut memory.state, 2, HOUSE[2].work).number();
    let words = if refusal == node::REFUSED_EARLY {
        ", its last release is fewer than its period ago"
    } else {
        ""
    };
    println!("task 2 released again at tick {clock}: refused {refusal}{words}");
    let unchanged = before == memory.state;
    println!(
        "the state's words: {}",
        if unchanged { "unchanged" } else { "changed" }
    );
}
