//! Writes a trace: `generate KIND SIZE`. Each kind is one way to use a pool; the size says how much there is of what its
//! steps could take longer with. Calls are simulated, so that each is begun once the task's last call is over.
use plain::text::call;
use plain::{Outcome, Pool, Sizes};
use std::io::{BufWriter, StdoutLock, Write};

struct Random(u64);

impl Random {
    fn below(&mut self, n: u32) -> u32 {
        self.0 ^= self.0 << 13;
        self.0 ^= self.0 >> 7;
        self.0 ^= self.0 << 17;
        (self.0 % u64::from(n)) as u32
    }

    fn shuffled(&mut self, n: u32) -> Vec<u32> {
        let mut numbers: Vec<u32> = (0..n).collect();
        for k in (1..n).rev() {
            numbers.swap(k as usize, self.below(k + 1) as usize);
        }
        numbers
    }
}

struct Trace { pool: Pool, out: BufWriter<StdoutLock<'static>>, lines: u32 }

impl Trace {
    fn new(frames: u32, files: u32, slots: u32, tasks: u32) -> Self {
        let mut out = BufWriter::new(std::io::stdout().lock());
        writeln!(out, "pool {frames} {files} {slots} {tasks}").unwrap();
        Trace { pool: Pool::new(&Sizes { frames, files, slots, tasks, quota: None }), out, lines: 0 }
    }

    fn begin(&mut self, task: u32, text: &str) {
        let words: Vec<&[u8]> = text.as_bytes().split(|byte| *byte == b' ').collect();
        self.pool.begin(task, call(&words).expect("a call"));
        writeln!(self.out, "begin {task} {text}").unwrap();
        self.lines += 1;
    }

    fn step(&mut self, task: u32) -> Outcome {
        writeln!(self.out, "step {task}").unwrap();
        self.lines += 1;
        self.pool.step(task, true)
    }

    // a call from its begin to its end, where nobody else is in a call
    fn call(&mut self, task: u32, text: &str) {
        self.begin(task, text);
        while !matches!(self.step(task), Outcome::Ended(_)) {}
    }

    fn is_in_call(&self, task: u32) -> bool { self.pool.tasks[task as usize - 1].call.is_some() }
}

// a call of any operation but those that end a task
fn any_call(random: &mut Random) -> String {
    let file = random.below(4);
    let from = random.below(4000);
    match random.below(30) {
        0 => format!("map {file} {from} {}", 1 + random.below(64)),
        1 => format!("mapn {file} {from} {}", 1 + random.below(64)),
        2..=10 => format!("load {}", random.below(8192)),
        11..=21 => format!("store {} {}", random.below(8192), random.below(1000)),
        22 | 23 => format!("alloc {file} {from} {}", 1 + random.below(8)),
        24..=26 => format!("punch {file} {from} {}", 1 + random.below(8)),
        27 => format!("trunc {file} {}", 4096 - random.below(64)),
        _ => format!("unmap {}", 64 * random.below(128)),
    }
}

// Random steps of random tasks. A task whose call is over begins the first of what is left of its list, or else a call
// that is made up.
fn random_steps(trace: &mut Trace, events: u32, first: &mut [Vec<String>], random: &mut Random, made: fn(&mut Random) -> String) {
    let tasks = first.len() as u32;
    for _ in 0..events {
        let task = 1 + random.below(tasks);
        if trace.is_in_call(task) {
            trace.step(task);
        } else {
            let text = first[task as usize - 1].pop().unwrap_or_else(|| made(random));
            trace.begin(task, &text);
        }
    }
}

// So many tasks, in any order, with calls of any kind.
fn mixed(tasks: u32, random: &mut Random) {
    let mut trace = Trace::new(4096, 4, 64, tasks);
    let maps = |task: u32| (0..4).map(|part| format!("mapn {} {} 1024", task % 4, 1024 * part)).collect();
    let mut first: Vec<Vec<String>> = (0..tasks).map(maps).collect();
    random_steps(&mut trace, 300_000, &mut first, random, any_call);
}

// So many tasks map sixteen parts of a file each and touch what they have mapped.
fn touches(tasks: u32, random: &mut Random) {
    let mut trace = Trace::new(4096, 16, 64, tasks);
    let maps = |task: u32| (0..16).map(|part| format!("mapn {} {} 256", task % 16, 256 * part)).collect();
    let mut first: Vec<Vec<String>> = (0..tasks).map(maps).collect();
    random_steps(&mut trace, 500_000, &mut first, random, |random| match random.below(2) {
        0 => format!("load {}", random.below(4096)),
        _ => format!("store {} {}", random.below(4096), random.below(1000)),
    });
}

// A task maps one file again and again, has all its pages made, and then touches each of so many virtual pages once.
fn translations(pages: u32, order: impl Iterator<Item = u32>) {
    let mut trace = Trace::new(4096, 1, 64, 2);
    trace.call(2, "alloc 0 0 4096");
    for _ in 0..pages / 4096 {
        trace.call(1, "mapn 0 0 4096");
    }
    for page in order {
        trace.call(1, &format!("load {page}"));
    }
}

// So many pages are allocated, and then all punched or truncated, over and over.
fn emptied(pages: u32, how: &str) {
    let mut trace = Trace::new(4096, 1, 64, 1);
    while trace.lines < 300_000 {
        trace.call(1, &format!("alloc 0 0 {pages}"));
        trace.call(1, how);
    }
}

// So many mappings of a page each; pages are allocated, touched and punched.
fn mappings(count: u32, random: &mut Random) {
    let mut trace = Trace::new(4096, 4, 64, 1);
    for k in 0..count {
        trace.call(1, &format!("mapn {} {} 1", k / 4096, k % 4096));
    }
    for _ in 0..10_000 {
        let page = random.below(count);
        let (file, index) = (page / 4096, page % 4096);
        trace.call(1, &format!("alloc {file} {index} 1"));
        trace.call(1, &format!("load {page}"));
        trace.call(1, &format!("punch {file} {index} 1"));
    }
}

// So many mappings of a page each; one of them goes and comes again.
fn replaced(count: u32, random: &mut Random) {
    let mut trace = Trace::new(4096, 1, 64, 1);
    for k in 0..count {
        trace.call(1, &format!("mapn 0 {} 1", k % 4096));
    }
    for _ in 0..20_000 {
        trace.call(1, &format!("unmap {}", random.below(count)));
        trace.call(1, "mapn 0 7 1");
    }
}

// Every second of so many pages is mapped, and two pages beyond them all are mapped and unmapped.
fn gaps(count: u32) {
    let mut trace = Trace::new(4096, 1, 64, 1);
    for k in 0..count {
        trace.call(1, &format!("mapn 0 {} 1", k % 4096));
    }
    for k in (0..count).step_by(2) {
        trace.call(1, &format!("unmap {k}"));
    }
    for _ in 0..20_000 {
        trace.call(1, "mapn 0 0 2");
        trace.call(1, &format!("unmap {count}"));
    }
}

// So many regions of one reserved page each, and maps of the whole file, for which there are too few frames.
fn refused_maps(regions: u32) {
    let mut trace = Trace::new(2048, 1, 64, 1);
    for k in 0..regions {
        trace.call(1, &format!("map 0 {} 1", 2 * k));
    }
    for _ in 0..40_000 {
        trace.call(1, "map 0 0 4096");
    }
}

// So many regions of one reserved page each are made in any order and taken away by a truncation, over and over.
fn regions(count: u32, random: &mut Random) {
    let mut trace = Trace::new(4096, 1, 64, 1);
    while trace.lines < 300_000 {
        for k in random.shuffled(count) {
            trace.call(1, &format!("map 0 {} 1", 2 * k));
            trace.call(1, "unmap 0");
        }
        trace.call(1, "trunc 0 0");
    }
}

fn main() {
    let words: Vec<String> = std::env::args().collect();
    let size: u32 = words[2].parse().expect("a size");
    let mut random = Random(88_172_645_463_325_252);
    match words[1].as_str() {
        "mixed" => mixed(size, &mut random),
        "touches" => touches(size, &mut random),
        "descending" => translations(size, (0..size).rev()),
        "scattered" => translations(size, random.shuffled(size).into_iter()),
        "punched" => emptied(size, &format!("punch 0 0 {size}")),
        "truncated" => emptied(size, "trunc 0 0"),
        "mappings" => mappings(size, &mut random),
        "replaced" => replaced(size, &mut random),
        "gaps" => gaps(size),
        "refused-maps" => refused_maps(size),
        "regions" => regions(size, &mut random),
        kind => panic!("no kind {kind} of trace"),
    }
}
