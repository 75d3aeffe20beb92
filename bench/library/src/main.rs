//! Times the events of traces through libhugepool, one by one and in slices of 1,000, and those of the plain Rust pool, in one process.
//!
//!   bench-library ROUNDS TRACE..      a line for each trace: nanoseconds an event, the best of so many rounds in turn
//!   bench-library one|slices|plain TRACE      one run, for a tool that counts instructions
use hugepool::{Event, EventWords, OutcomeWords, Pool, Sizes};
use std::hint::black_box;
use std::time::Instant;

const SLICE: usize = 1_000;

/// A trace, as each pool wants it.
struct Trace {
    sizes: Sizes,
    header: String,
    events: Vec<Event>,
    words: Vec<EventWords>,
    plain: Vec<plain::Event>,
}

fn read(path: &str) -> Trace {
    let text = std::fs::read_to_string(path).unwrap_or_else(|why| panic!("{path}: {why}"));
    let (header, lines) = text.split_once('\n').expect("a header");
    let numbers: Vec<u32> = header.split(' ').skip(1).map(|it| it.parse().expect("a number")).collect();
    let sizes = Sizes { frames: numbers[0], files: numbers[1], slots: numbers[2], tasks: numbers[3], quota: numbers.get(4).copied() };
    let events: Vec<Event> = lines.lines().map(|it| it.parse().expect("an event")).collect();
    let words = events.iter().map(|it| EventWords::from(*it)).collect();
    let plain = lines.lines().map(|it| plain::text::event(it.as_bytes()).expect("an event")).collect();
    Trace { sizes, header: header.to_string(), events, words, plain }
}

fn by_one(trace: &Trace) {
    let mut pool = Pool::open(trace.sizes).expect("a pool");
    for event in &trace.events {
        black_box(pool.event(*event).expect("memory"));
    }
}

fn by_slices(trace: &Trace) {
    let mut pool = Pool::open(trace.sizes).expect("a pool");
    let mut outcomes = vec![OutcomeWords::default(); SLICE];
    for events in trace.words.chunks(SLICE) {
        let (done, answer) = pool.events(events, &mut outcomes);
        assert!(done == events.len() && answer.is_ok());
        black_box(&outcomes);
    }
}

fn by_plain(trace: &Trace) {
    let mut pool = plain::Pool::new(&plain::text::header(trace.header.as_bytes()).expect("a header"));
    for event in &trace.plain {
        black_box(pool.event(*event));
    }
}

const ALL: [(&str, fn(&Trace)); 3] = [("one", by_one), ("slices", by_slices), ("plain", by_plain)];

/// Nanoseconds an event of each, the best of so many rounds in turn.
fn best(trace: &Trace, rounds: u32) -> [f64; 3] {
    let mut best = [f64::MAX; 3];
    for _ in 0..rounds {
        for (at, (_, run)) in ALL.iter().enumerate() {
            let began = Instant::now();
            run(trace);
            best[at] = best[at].min(began.elapsed().as_nanos() as f64 / trace.events.len() as f64);
        }
    }
    best
}

fn main() {
    let words: Vec<String> = std::env::args().skip(1).collect();
    if let Some((_, run)) = ALL.iter().find(|(name, _)| *name == words[0]) {
        return run(&read(&words[1]));
    }
    let rounds = words[0].parse().expect("how many rounds");
    for path in &words[1..] {
        let trace = read(path);
        let [one, slices, plain] = best(&trace, rounds);
        let name = path.rsplit('/').next().unwrap_or(path);
        println!("{name:16} {:8} {one:8.1} {slices:8.1} {plain:8.1} {:8.2} {:8.2}", trace.events.len(), one / plain, slices / plain);
    }
}
