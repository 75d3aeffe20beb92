//! Replays the traces of examples/, event by event, in slices and whole.
use hugepool::{check, replay, AcquiredWords, Event, EventWords, Fault, Op, Outcome, OutcomeWords, Pool, Sizes};
use std::ffi::OsStr;
use std::fs;
use std::path::PathBuf;
use std::thread;

fn examples() -> PathBuf {
    PathBuf::from(env!("CARGO_MANIFEST_DIR")).join("../../../examples")
}

/// The traces with what a replay writes of them.
fn traces() -> Vec<(String, String)> {
    let mut found: Vec<PathBuf> = fs::read_dir(examples()).unwrap().map(|it| it.unwrap().path()).collect();
    found.retain(|it| it.extension() == Some(OsStr::new("trace")) && it.with_extension("out").exists());
    found.retain(|it| !it.with_extension("status").exists());
    found.sort();
    assert!(found.len() > 20);
    let read = |it: &PathBuf| fs::read_to_string(it).unwrap();
    found.iter().map(|it| (read(it), read(&it.with_extension("out")))).collect()
}

fn opened(header: &str) -> Pool {
    let sizes: Sizes = header.parse().unwrap();
    assert_eq!(sizes.to_string(), header);
    Pool::open(sizes).unwrap()
}

/// What a replay writes of a pool at its end.
fn state(pool: &Pool) -> String {
    let lives = ["alive", "killed", "dead"];
    let held = pool.numbers().unwrap();
    let used = if held.has_quota { format!(" used {}", held.used) } else { String::new() };
    let mut text = format!("free {} resv {} calls {}{used}\n", held.free, held.resv, held.calls);
    for (number, it) in pool.files().map(Result::unwrap).enumerate() {
        let spare = format!("changes {} spare {}", it.changes, it.spare);
        let pages = format!("regions {} pages {}", it.regions, it.pages);
        text += &format!("file {number} size {} reserved {} {pages} {spare}\n", it.size, it.reserved);
    }
    for (number, it) in pool.tasks().map(Result::unwrap).enumerate() {
        text += &format!("task {} {} mappings {} entries {}\n", number + 1, lives[it.life as usize], it.mappings, it.entries);
    }
    text
}

/// The numbers of a trace's header, read as text.
fn numbers_of(header: &str) -> Vec<u32> {
    header.split(' ').skip(1).map(|it| it.parse().unwrap()).collect()
}

#[test]
fn outcomes_are_those_of_a_replay() {
    for (trace, out) in traces() {
        let (header, rest) = trace.split_once('\n').unwrap();
        let events: Vec<Event> = rest.lines().map(|it| it.parse().unwrap()).collect();
        assert!(events.iter().zip(rest.lines()).all(|(it, line)| it.to_string() == line));
        let mut pool = opened(header);
        for (event, line) in events.iter().zip(out.lines()) {
            let seen = pool.held_back(*event).unwrap();
            let outcome = pool.event(*event).unwrap();
            assert_eq!(outcome.to_string(), line);
            assert_eq!(seen.is_some(), matches!(outcome, Outcome::Blocked(_) | Outcome::Refused(_)));
            if pool.numbers().unwrap().calls == 0 {
                pool = pool.try_clone().unwrap();
            }
        }
        let words: Vec<EventWords> = events.iter().map(|it| EventWords::from(*it)).collect();
        let mut told = vec![OutcomeWords::default(); words.len()];
        let mut other = opened(header);
        assert!(words.iter().zip(&events).all(|(it, event)| Event::try_from(*it).as_ref() == Ok(event)));
        assert_eq!(other.events(&words, &mut told), (words.len(), Ok(())));
        assert!(told.iter().zip(out.lines()).all(|(it, line)| Outcome::from(*it).to_string() == line));
        assert_eq!(other.numbers(), pool.numbers());
        let mut third = opened(header);
        assert!(third.run(events.clone()).zip(out.lines()).all(|(it, line)| it.unwrap().to_string() == line));
        assert_eq!(third.numbers(), pool.numbers());
        let numbers = numbers_of(header);
        assert_eq!((other.files().count(), other.tasks().count()), (numbers[1] as usize, numbers[3] as usize));
        assert_eq!(pool.audit(), Ok(0));
        assert!(out.ends_with(&state(&pool)));
        assert_eq!(replay(trace.as_bytes()).unwrap(), out);
        assert_eq!(check(trace.as_bytes()).unwrap() as usize, events.len());
    }
}

#[test]
fn faults_are_told() {
    let none = Pool::open(Sizes { frames: 0, files: 1, slots: 1, tasks: 1, quota: None });
    assert_eq!(none.err(), Some(Fault::NoSuch));
    let trace = fs::read(examples().join("a-bad-line.trace")).unwrap();
    let told = fs::read_to_string(examples().join("a-bad-line.err")).unwrap();
    let bad = replay(&trace).unwrap_err();
    assert!(told.contains(&format!("line {} is not allowed here", bad.line)) && told.contains(&bad.reason));
    assert_eq!("pool 0 1 1 1".parse::<Sizes>(), Err(Fault::NoSuch));
}

/// The line that the library itself writes of an outcome.
fn written(words: OutcomeWords) -> Option<String> {
    let (mut room, mut needed) = ([0; 56], 0);
    // SAFETY: all are there, and apart.
    let code = unsafe { hugepool_sys::hugepool_write_outcome(&words, room.as_mut_ptr(), room.len(), &mut needed) };
    (code == 0).then(|| String::from_utf8_lossy(&room[..needed]).into_owned())
}

/// Of each outcome, also of those that no trace has.
#[test]
fn lines_are_those_that_the_library_writes() {
    let mut counts = [0; 7];
    for kind in 0..7 {
        for number in 0..40 {
            let none = OutcomeWords { kind, ..OutcomeWords::default() };
            let words = match kind {
                1 => OutcomeWords { phase: number, ..none },
                2 => OutcomeWords { task: number, ..none },
                3 => OutcomeWords { answer: number, page: 7, word: 1 << 63, ..none },
                5 => OutcomeWords { frames: number, ..none },
                6 => OutcomeWords { refusal: number, ..none },
                _ => none,
            };
            if let Some(line) = written(words) {
                assert_eq!(Outcome::from(words).to_string(), line);
                counts[kind as usize] += 1;
            }
        }
    }
    assert_eq!(counts, [40, 27, 40, 14, 40, 40, 4]);
}

#[test]
fn a_line_has_one_spelling() {
    let none = ["step", "step +1", "step 01", "step 1 ", " step 1", "step  1", "step 1\n", "step -1", "step 1_0"];
    for line in none.into_iter().chain(["begin 1 trunc 0", "step 4294967296"]) {
        assert!(line.parse::<Event>().is_err(), "{line:?}");
    }
    assert!(Event::try_from(EventWords { kind: 5, ..EventWords::default() }).is_err());
    assert!(Event::try_from(EventWords { op: 10, ..EventWords::default() }).is_err());
}

#[test]
fn a_list_that_is_too_short_is_an_error() {
    let mut pool = opened("pool 4 1 2 2");
    let words = [EventWords::from(Event::Kill(1)), Event::Kill(2).into(), Event::Step(1).into()];
    let mut told = [OutcomeWords::default(); 3];
    assert_eq!(pool.events(&words, &mut told[..2]), (2, Err(Fault::TooSmall)));
    assert_eq!((Outcome::from(told[1]), told[2]), (Outcome::Marked, OutcomeWords::default()));
    assert_eq!(pool.events(&words[..0], &mut []), (0, Ok(())));
    let bad = [Event::Resize(3).into(), EventWords { kind: 5, ..EventWords::default() }];
    assert_eq!(pool.events(&bad, &mut told), (1, Err(Fault::NoSuch)));
}

/// A pool goes to a thread and comes back; there are a hundred at once.
#[test]
fn a_pool_may_go_to_another_thread() {
    let map = Event::Begin(1, Op::Map { file: 0, from: 0, len: 4 });
    let work = move |mut pool: Pool| {
        assert_eq!(pool.event(map), Ok(Outcome::Begun));
        while !pool.event(Event::Step(1)).unwrap().is_end() {}
        pool
    };
    let begun: Vec<_> = (0..100).map(|_| opened("pool 4 1 2 2")).map(|pool| thread::spawn(move || work(pool))).collect();
    for thread in begun {
        let pool = thread.join().unwrap();
        assert_eq!((pool.numbers().unwrap().resv, pool.audit()), (4, Ok(0)));
    }
}

/// A map takes its file's lock first (the phase start of docs/MACHINE.md).
#[test]
fn readers_share_a_pool() {
    let mut pool = opened("pool 4 2 2 2 3");
    pool.event(Event::Begin(1, Op::Map { file: 1, from: 0, len: 1 })).unwrap();
    let (one, other) = (&pool, &pool);
    assert_eq!(one.acquires(1), Ok(AcquiredWords { kind: 1, file: 1, index: 0 }));
    assert_eq!((one.numbers(), one.translate(1, 0)), (other.numbers(), Ok(None)));
    assert_eq!(one.held_back(Event::Step(2)).unwrap().unwrap().to_string(), "refused idle");
    assert_eq!(format!("{pool:?}"), format!("Pool({:?})", pool.numbers()));
    assert_eq!(pool.try_clone().err(), Some(Fault::InFlight));
}

#[test]
fn the_version_is_that_of_the_library() {
    let numbers: Vec<u32> = env!("CARGO_PKG_VERSION").split('.').map(|it| it.parse().unwrap()).collect();
    assert_eq!(hugepool::library_version(), numbers[0] * 1_000_000 + numbers[1] * 1_000 + numbers[2]);
}
