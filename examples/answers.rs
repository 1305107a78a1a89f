//! answers.rs: every refusal met by its name, and every reader of include/node.rs used, with places
//! out of range among them. answers.c is the same in C, and both print answers.txt.

#[path = "../include/node.rs"]
mod node;

use node::{Answer, Record, Tick};

const RECORDS: usize = 3;

/// Sleep 2 in 3, and two tasks.
const SET: [Record; RECORDS] = [record(7, 2, 3), record(8, 1, 6), record(9, 3, 20)];

const fn record(label: u32, work: u32, period: u32) -> Record {
    #[rustfmt::skip]
    return Record { label, work, period };
}

struct Buffers {
    table: [u8; RECORDS * node::RECORD_BYTES],
    verdict: node::Verdict,
    state: node::State,
    tally: node::Tally,
}

fn show_answer(what: &str, number: u32, answer: Answer) {
    let (place, rounds) = (answer.place(), answer.rounds());
    let answer = answer.number();
    println!("{what}, {number}: answer {answer}, place {place}, rounds {rounds}");
}

impl Buffers {
    fn admit(&mut self) -> Answer {
        node::admit(&self.table, &mut self.verdict)
    }

    fn start(&mut self, waking: u32) -> Answer {
        node::start(&self.table, waking, &mut self.state)
    }

    fn step(&mut self) -> Answer {
        node::step(&mut self.state, &mut self.tally)
    }

    fn release(&mut self, task: u32, demand: u32) -> Answer {
        node::release(&mut self.state, task, demand)
    }

    /// The admission test with another record k.
    fn admit_with(&mut self, k: usize, work: u32, period: u32) -> Answer {
        let other = record(SET[k].label, work, period);
        node::put_record(&mut self.table, k, other);
        let answer = self.admit();
        node::put_record(&mut self.table, k, SET[k]);
        answer
    }

    fn show_step(&mut self) {
        let clock = node::clock(&self.state);
        let (kind, task) = match self.step().tick() {
            Tick::Run(task) => ("run", task),
            Tick::Slot => ("slot", 0),
            Tick::Tail => ("tail", 0),
            Tick::Refused => ("refused", 0),
        };
        println!("step at {clock}: {kind}, task {task}");
    }

    fn show_steps(&mut self, count: u32) {
        for _ in 0..count {
            self.show_step();
        }
    }

    fn show_entry(&self, task: u32) {
        let entry = node::entry(&self.state, task);
        #[rustfmt::skip]
        let Record { label, work, period } = entry.record;
        let [working, release, left] = match entry.job {
            Some(job) => [1, job.release, job.left],
            None => [0; 3],
        };
        let [before, last] = entry.last_release.map_or([0; 2], |last| [1, last]);
        print!("task {task}: record {label} {work} {period}, ");
        println!("job {working} {release} {left}, last {before} {last}");
    }

    fn show_row(&self, task: u32) {
        let row = node::row(&self.verdict, task);
        println!("row {task}: {} {} {}", row.window, row.figure, row.rounds);
    }

    fn show_tally(&self) {
        let [run, slot, tail, waking] = self.tally;
        println!("tally {run} {slot} {tail} {waking}");
    }

    fn show_table(&mut self) {
        for k in 0..=RECORDS {
            let written = node::put_record(&mut self.table, k, SET[k % RECORDS]);
            println!(
                "record {k}: {}",
                if written { "written" } else { "no room" }
            );
        }
        show_answer("admitted", node::ACCEPTED, self.admit());
        for task in 0..=RECORDS {
            self.show_row(task as u32);
        }
        self.show_row(node::PLACES as u32 + 1);
        let short = node::start(&self.table[..15], 0, &mut self.state);
        show_answer("length", node::REFUSED_LENGTH, short);
        show_answer("broken", node::REFUSED_BROKEN, self.admit_with(2, 0, 20));
        show_answer("falling", node::REFUSED_FALLING, self.admit_with(2, 1, 5));
        show_answer("sleep", node::REFUSED_SLEEP, self.admit_with(0, 3, 3));
        let no_window = self.admit_with(2, 4, 20);
        show_answer("no window", node::REFUSED_NO_WINDOW, no_window);
        let long_waking = self.start(SET[0].work + 1);
        show_answer("long waking", node::REFUSED_LONG_WAKING, long_waking);
    }

    /// Two jobs, and all that a release can be refused for.
    fn show_releases(&mut self) {
        show_answer("unfit", node::REFUSED_UNFIT, self.release(1, 1));
        show_answer("started", node::ACCEPTED, self.start(1));
        self.show_steps(3);
        show_answer("task 1 released", node::ACCEPTED, self.release(1, 1));
        self.show_step();
        show_answer("task 2 released", node::ACCEPTED, self.release(2, 2));
        self.show_steps(2);
        let (clock, tasks) = (node::clock(&self.state), node::tasks(&self.state));
        #[rustfmt::skip]
        let Record { label, work, period } = node::sleep(&self.state);
        let waking = node::waking(&self.state);
        print!("clock {clock}, tasks {tasks}, waking {waking}, ");
        println!("sleep {label} {work} {period}");
        for task in 0..=RECORDS {
            self.show_entry(task as u32);
        }
        self.show_entry(node::PLACES as u32 + 1);
        show_answer("no task", node::REFUSED_NO_TASK, self.release(3, 1));
        show_answer("demand", node::REFUSED_DEMAND, self.release(1, 2));
        show_answer("working", node::REFUSED_WORKING, self.release(2, 1));
        show_answer("early", node::REFUSED_EARLY, self.release(1, 1));
        self.show_step();
        let off_boundary = self.release(1, 1);
        show_answer("off boundary", node::REFUSED_OFF_BOUNDARY, off_boundary);
    }

    /// The tally is read, lost and made anew; then the waking length is damaged, and the clock is
    /// set to its end.
    fn show_tallies(&mut self) {
        self.show_steps(3);
        self.show_tally();
        let energy = node::energy(&self.tally, 1_000_000, 1, 1_000);
        println!("energy {}", energy.nanojoules());
        let power = node::energy(&self.tally, 1_000_000, 1, 1_000_001);
        show_answer("power", node::REFUSED_POWER, power);
        self.tally = [0; node::TALLY_WORDS];
        self.show_step();
        self.tally = [0, 0, node::clock(&self.state), 0];
        self.show_step();
        self.show_tally();
        self.state[node::WAKING_AT] = SET[0].work + 1;
        show_answer("waking above S", node::REFUSED_UNFIT, self.step());
        self.state[node::WAKING_AT] = 1;
        self.state[node::CLOCK_AT] = node::CLOCK_END;
        self.tally = [0, 0, node::CLOCK_END, 0];
        show_answer("clock end", node::REFUSED_CLOCK_END, self.step());
    }
}

fn main() {
    print!("places {}, table {}, ", node::PLACES, node::TABLE_BYTES);
    print!("verdict {}, ", node::VERDICT_WORDS);
    println!("state {}, tally {}", node::STATE_WORDS, node::TALLY_WORDS);
    let mut buffers = Buffers {
        table: [0; RECORDS * node::RECORD_BYTES],
        verdict: [0; node::VERDICT_WORDS],
        state: [0; node::STATE_WORDS],
        tally: [0; node::TALLY_WORDS],
    };
    buffers.show_table();
    buffers.show_releases();
    buffers.show_tallies();
}
