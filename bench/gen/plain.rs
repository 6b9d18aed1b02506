//! A plain program that does what `taskrun gen SEED SIZE` does: it makes the same script, makes the same
//! calls on arrays, and prints the same summary. Nothing is proved of it, and it runs on one thread.
//!
//! It keeps no log, and knows only what a generated script has: tasks with a home, of the class normal,
//! with one action a row at most, and no events.

use std::cmp::Reverse;
use std::collections::{BinaryHeap, VecDeque};

const WORKERS: usize = 4;
const DEPTH: usize = 200;
const START: u64 = 4_294_967_000;
const STEP: u64 = 10;
const ROUNDS: u64 = 1000;

const INIT: u8 = 1;
const TIMER: u8 = 2;
const MSG: u8 = 16;

#[derive(Clone, Copy, PartialEq)]
enum Action {
    None,
    Wake(usize, u8),
    Kill(usize),
}

#[derive(Clone, Copy)]
struct Row {
    action: Action,
    /// Ticks from now, 0 for none.
    after: u64,
    next: usize,
}

#[derive(Clone, Copy, PartialEq)]
enum Stand {
    Rest,
    Queued,
    Runs,
    Gone,
}

struct Task {
    nice: i64,
    rows: [Row; 3],
    row: usize,
    stand: Stand,
    pending: u8,
    killed: bool,
    /// Ticks are counted on here and not wrapped.
    expiry: Option<u64>,
    /// The number of the task's item in the wait queue, with its key.
    item: Option<(u64, u64)>,
}

struct Worker {
    /// One word for each 64 tasks.
    inbox: Vec<u64>,
    waiting: BinaryHeap<Reverse<(u64, u64, usize)>>,
    items: usize,
    placed: u64,
    runnable: BinaryHeap<Reverse<(i64, u64, usize)>>,
    inserted: u64,
    normal: VecDeque<usize>,
}

#[derive(Default)]
struct Counts {
    takes: u64,
    wakes: u64,
}

/// The tick this many ticks after now; 0 is no tick.
fn add(now: u64, ticks: u64) -> u64 {
    let tick = now + ticks;
    if tick as u32 == 0 { tick + 1 } else { tick }
}

fn script(seed: u64, size: usize) -> Vec<Task> {
    let mut state = seed;
    let mut draw = || {
        state = state
            .wrapping_mul(6_364_136_223_846_793_005)
            .wrapping_add(1_442_695_040_888_963_407);
        state >> 33
    };
    (0..size)
        .map(|i| {
            let homed = ((size + 3 - i % 4) / 4) as u64;
            let delay = 1 + draw() % 500;
            let timeout = 100 + draw() % 400;
            let friend = 4 * (draw() % homed) as usize + i % 4;
            let nice = (draw() % 2049) as i64 - 1024;
            let row = |action, after, next| Row { action, after, next };
            Task {
                nice,
                rows: [
                    row(Action::None, delay, 1),
                    row(Action::Wake(friend, MSG), timeout, 2),
                    row(Action::Kill(i), 0, 2),
                ],
                row: 0,
                stand: Stand::Queued,
                pending: INIT,
                killed: false,
                expiry: None,
                item: None,
            }
        })
        .collect()
}

impl Worker {
    fn new(groups: usize) -> Worker {
        Worker {
            inbox: vec![0; groups],
            waiting: BinaryHeap::new(),
            items: 0,
            placed: 0,
            runnable: BinaryHeap::new(),
            inserted: 0,
            normal: VecDeque::new(),
        }
    }

    fn queue(&mut self, tasks: &[Task], i: usize) {
        self.inserted += 1;
        let key = self.inserted as i64 + tasks[i].nice * DEPTH as i64;
        self.runnable.push(Reverse((key, self.inserted, i)));
    }

    fn place(&mut self, tasks: &mut [Task], i: usize, key: u64) {
        self.placed += 1;
        self.items += 1;
        tasks[i].item = Some((key, self.placed));
        self.waiting.push(Reverse((key, self.placed, i)));
    }

    fn arm(&mut self, tasks: &mut [Task], i: usize, expiry: u64) {
        tasks[i].expiry = Some(expiry);
        match tasks[i].item {
            None => self.place(tasks, i, expiry),
            Some((key, _)) if expiry < key => {
                self.items -= 1;
                self.place(tasks, i, expiry);
            }
            Some(_) => {}
        }
    }

    fn unlink(&mut self, tasks: &mut [Task], i: usize) {
        tasks[i].expiry = None;
        if tasks[i].item.take().is_some() {
            self.items -= 1;
        }
    }

    /// The first task whose timer is due.
    fn fire(&mut self, tasks: &mut [Task], now: u64) -> Option<usize> {
        while let Some(&Reverse((key, number, i))) = self.waiting.peek() {
            if now < key {
                return None;
            }
            self.waiting.pop();
            if tasks[i].item != Some((key, number)) {
                continue;
            }
            tasks[i].item = None;
            self.items -= 1;
            match tasks[i].expiry {
                Some(expiry) if expiry <= now => {
                    tasks[i].expiry = None;
                    return Some(i);
                }
                Some(expiry) => self.place(tasks, i, expiry),
                None => {}
            }
        }
        None
    }

    /// Wakes a task, and queues it where it rested.
    fn wake(&mut self, tasks: &mut [Task], counts: &mut Counts, i: usize, reasons: u8) {
        counts.wakes += 1;
        let task = &mut tasks[i];
        if task.stand == Stand::Gone {
            return;
        }
        task.pending |= reasons;
        if task.stand == Stand::Rest {
            task.stand = Stand::Queued;
            self.queue(tasks, i);
        }
    }

    fn kill(&mut self, tasks: &mut [Task], i: usize) {
        tasks[i].killed = true;
        if tasks[i].stand == Stand::Rest {
            tasks[i].stand = Stand::Queued;
            self.queue(tasks, i);
        }
    }

    fn retire(&mut self, tasks: &mut [Task], i: usize) {
        tasks[i].stand = Stand::Gone;
        self.unlink(tasks, i);
    }

    fn run(&mut self, tasks: &mut [Task], counts: &mut Counts, i: usize, now: u64) {
        counts.takes += 1;
        tasks[i].pending = 0;
        tasks[i].stand = Stand::Runs;
        if tasks[i].killed {
            return self.retire(tasks, i);
        }
        let row = tasks[i].rows[tasks[i].row];
        match row.action {
            Action::None => {}
            Action::Wake(other, reasons) => self.wake(tasks, counts, other, reasons),
            Action::Kill(other) => self.kill(tasks, other),
        }
        if row.after != 0 {
            self.arm(tasks, i, add(now, row.after));
        }
        tasks[i].row = row.next;
        if tasks[i].killed {
            self.retire(tasks, i);
        } else if tasks[i].pending != 0 {
            tasks[i].stand = Stand::Queued;
            self.queue(tasks, i);
        } else {
            tasks[i].stand = Stand::Rest;
        }
    }

    fn turn(&mut self, tasks: &mut [Task], counts: &mut Counts, now: u64) {
        for group in 0..self.inbox.len() {
            let mut word = std::mem::take(&mut self.inbox[group]);
            while word != 0 {
                self.queue(tasks, 64 * group + word.trailing_zeros() as usize);
                word &= word - 1;
            }
        }
        while let Some(i) = self.fire(tasks, now) {
            self.wake(tasks, counts, i, TIMER);
        }
        while self.normal.len() < DEPTH {
            match self.runnable.pop() {
                Some(Reverse((_, _, i))) => self.normal.push_back(i),
                None => break,
            }
        }
        for _ in 0..DEPTH {
            match self.normal.pop_front() {
                Some(i) => self.run(tasks, counts, i, now),
                None => break,
            }
        }
    }
}

fn main() {
    let words: Vec<String> = std::env::args().collect();
    let seed: u64 = words[1].parse().expect("a seed");
    let size: usize = words[2].parse().expect("a size");
    let mut tasks = script(seed, size);
    let mut workers: Vec<Worker> = (0..WORKERS).map(|_| Worker::new(size.div_ceil(64))).collect();
    for i in 0..size {
        workers[i % WORKERS].inbox[i / 64] |= 1 << (i % 64);
    }
    let mut counts = Counts::default();
    let mut last = 0;
    let mut rest = false;
    while last < ROUNDS && !rest {
        for worker in &mut workers {
            worker.turn(&mut tasks, &mut counts, START + last * STEP);
        }
        rest = workers.iter().all(|worker| worker.items == 0)
            && tasks
                .iter()
                .all(|task| matches!(task.stand, Stand::Rest | Stand::Gone));
        last += 1;
    }
    let end = if rest { "rest" } else { "limit" };
    println!("tasks {size}\nrounds {last}");
    println!("takes {}\nwakes {}", counts.takes, counts.wakes);
    println!("end {end} {}", last - 1);
}
