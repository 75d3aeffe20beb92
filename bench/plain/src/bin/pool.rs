//! What crates/hp_pool_bench does, with nothing proved: threads that make calls on a pool behind one lock, with one journal and
//! a list for each task that are compared at each cut. `bare` in front of the words: no journal, no lists. `mutex THREADS TIMES`:
//! so many threads take one lock so many times each, and count under it.
use plain::text::call as parsed;
use plain::{Answer, Call, Outcome, Phase, Pool, Sizes};
use std::io::Read;
use std::process::ExitCode;
use std::sync::{Condvar, Mutex};
use std::thread;

/// What a call was begun with.
#[derive(Clone, Copy, PartialEq)]
enum Op { Page(u32), Store }

impl Op {
    fn call(self) -> Call {
        let words = match self {
            Op::Page(file) => format!("allock {file} 0 1"),
            Op::Store => "store 0 1".to_string(),
        };
        let words: Vec<&[u8]> = words.as_bytes().split(|byte| *byte == b' ').collect();
        parsed(&words).expect("a call")
    }
}

#[derive(Clone, Copy, PartialEq)]
enum Event { Begin(u32, Op), Step(u32, bool) }

#[derive(Clone, Copy, PartialEq)]
enum Told { Begun, Moved(Phase), Ended(u8, u64) }

#[derive(Clone, Copy, PartialEq)]
struct Entry { position: u64, event: Event, told: Told }

struct Inside { pool: Pool, first: u64, journal: Vec<Entry>, made: u64 }

struct Shared { inside: Mutex<Inside>, moved: Condvar, is_bare: bool }

struct Seat { task: u32, list: Vec<Entry>, page: Call, store: Call, op: Op }

fn told(outcome: &Outcome) -> Option<Told> {
    match outcome {
        Outcome::Begun => Some(Told::Begun),
        Outcome::Moved(phase) => Some(Told::Moved(*phase)),
        Outcome::Ended(Answer::Word(word)) => Some(Told::Ended(1, *word)),
        Outcome::Ended(Answer::Done) => Some(Told::Ended(0, 0)),
        Outcome::Ended(_) => Some(Told::Ended(2, 0)),
        _ => None,
    }
}

impl Shared {
    fn attempt(&self, seat: &mut Seat, event: Event) -> Outcome {
        let mut inside = self.inside.lock().expect("no thread panics");
        let outcome = match event {
            Event::Begin(task, op) => inside.pool.begin(task, if op == Op::Store { seat.store } else { seat.page }),
            Event::Step(task, grant) => inside.pool.step(task, grant),
        };
        if let Some(told) = told(&outcome) {
            let entry = Entry { position: inside.made, event, told };
            inside.made += 1;
            if !self.is_bare {
                inside.journal.push(entry);
                seat.list.push(entry);
            }
            drop(inside);
            self.moved.notify_all();
        }
        outcome
    }

    fn pause(&self, task: u32) {
        let inside = self.inside.lock().expect("no thread panics");
        drop(self.moved.wait_while(inside, |inside| inside.pool.waits_for(task).is_some()).expect("no thread panics"));
    }

    fn steps(&self, seat: &mut Seat) {
        loop {
            match self.attempt(seat, Event::Step(seat.task, true)) {
                Outcome::Moved(_) => {}
                Outcome::Blocked(_) => self.pause(seat.task),
                _ => return,
            }
        }
    }

    fn call(&self, seat: &mut Seat, op: Op) {
        seat.op = op;
        self.attempt(seat, Event::Begin(seat.task, op));
        self.steps(seat);
    }

    // compares the journal with the lists, and empties all
    fn cut(&self, seats: &mut [Seat]) {
        if self.is_bare { return; }
        let mut inside = self.inside.lock().expect("no thread panics");
        let mut used = vec![0; seats.len()];
        for (k, entry) in inside.journal.iter().enumerate() {
            assert!(entry.position == inside.first + k as u64);
            let mut of = (0..seats.len()).filter(|&s| seats[s].list.get(used[s]) == Some(entry));
            let seat = of.next().expect("an entry of a seat");
            assert!(of.next().is_none());
            used[seat] += 1;
        }
        assert!(seats.iter().zip(&used).all(|(seat, used)| seat.list.len() == *used));
        inside.first = inside.made;
        inside.journal = Vec::new();
        for seat in seats { seat.list.clear(); }
    }
}

fn open(threads: u32, files: u32, slots: u32, is_one_file: bool, is_bare: bool) -> (Shared, Vec<Seat>) {
    let pool = Pool::new(&Sizes { frames: 4, files, slots, tasks: threads, quota: None });
    let inside = Mutex::new(Inside { pool, first: 0, journal: Vec::new(), made: 0 });
    let seats = (1..=threads).map(|task| {
        let op = Op::Page(if is_one_file { 0 } else { task - 1 });
        Seat { task, list: Vec::new(), page: op.call(), store: Op::Store.call(), op }
    });
    (Shared { inside, moved: Condvar::new(), is_bare }, seats.collect())
}

fn race(threads: u32, is_one_file: bool, parts: u32, turns: u32, is_bare: bool) -> u64 {
    let (shared, mut seats) = open(threads, if is_one_file { 1 } else { threads }, 64, is_one_file, is_bare);
    for seat in &mut seats {
        let file = match seat.op { Op::Page(file) => file, Op::Store => unreachable!() };
        let map = format!("map {file} 0 1");
        let words: Vec<&[u8]> = map.as_bytes().split(|byte| *byte == b' ').collect();
        let page = std::mem::replace(&mut seat.page, parsed(&words).expect("a call"));
        shared.call(seat, Op::Page(file));
        seat.page = page;
    }
    for part in 0..parts {
        thread::scope(|scope| {
            for seat in &mut seats {
                let shared = &shared;
                scope.spawn(move || {
                    let page = seat.op;
                    for _ in 0..turns {
                        shared.call(seat, page);
                        shared.call(seat, Op::Store);
                    }
                    seat.op = page;
                });
            }
        });
        if part + 1 < parts { shared.cut(&mut seats); }
    }
    shared.cut(&mut seats);
    shared.inside.into_inner().expect("no thread panics").made
}

fn wait() -> u64 {
    let (shared, mut seats) = open(2, 1, 4, true, false);
    let page = Op::Page(0);
    let (first, rest) = seats.split_at_mut(1);
    shared.attempt(&mut first[0], Event::Begin(1, page));
    shared.attempt(&mut first[0], Event::Step(1, true));
    thread::scope(|scope| {
        scope.spawn(|| shared.call(&mut rest[0], page));
        std::io::stdin().read_to_end(&mut Vec::new()).expect("an input");
        shared.steps(&mut first[0]);
    });
    shared.cut(&mut seats);
    shared.inside.into_inner().expect("no thread panics").made
}

/// What the lock alone gives.
fn count(threads: u32, times: u32) -> u64 {
    let counted = Mutex::new(0);
    thread::scope(|scope| {
        for _ in 0..threads {
            scope.spawn(|| (0..times).for_each(|_| *counted.lock().unwrap() += 1));
        }
    });
    counted.into_inner().unwrap()
}

fn main() -> ExitCode {
    let mut words: Vec<String> = std::env::args().skip(1).collect();
    let is_bare = words.first().map(String::as_str) == Some("bare");
    if is_bare { words.remove(0); }
    let number = |at: usize| words[at].parse::<u32>().expect("a number");
    let entries = match words.len() {
        0 => wait(),
        3 if words[0] == "mutex" => count(number(1), number(2)),
        4 => race(number(0), words[1] == "one", number(2), number(3), is_bare),
        _ => return ExitCode::FAILURE,
    };
    println!("entries {entries}");
    ExitCode::SUCCESS
}
