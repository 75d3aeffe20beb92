//! Searches; what they find is what examples/commands and docs/EXPLORING.md have, which are written by hand.
use hugepool::{check, find, find_every, minimize, BadTrace, Bounds, Found, Hunt, SearchFault};
use std::fs;
use std::path::PathBuf;

fn script(name: &str) -> Vec<u8> {
    fs::read(PathBuf::from(env!("CARGO_MANIFEST_DIR")).join("../../../examples").join(name)).unwrap()
}

const MAP: &[u8] = b"pool 4 1 4 1\nbegin 1 map 0 0 4\n";

#[test]
fn a_trace_is_made_small() {
    let trace = b"pool 1 1 1 2\nbegin 2 exit\nbegin 1 load 0\nkill 2\nstep 2\nstep 1\nstep 2\n";
    assert_eq!(minimize(trace, "answer 1:1=segv\n").unwrap().unwrap(), "pool 1 1 1 2\nbegin 1 load 0\nstep 1\n");
    assert_eq!(minimize(trace, "final free=1").unwrap().unwrap(), "pool 1 1 1 2\n");
    assert_eq!(minimize(trace, "answer 1:1=done"), Ok(None));
}

#[test]
fn a_run_is_found() {
    let denied = Hunt { deny: 1000, ..Hunt::default() };
    let wanted = Found { run: 0, trace: "pool 4 1 4 1\nbegin 1 map 0 0 4\ndeny 1\ndeny 1\ndeny 1\n".to_string() };
    assert_eq!(find(MAP, "answer 1:1=nomemory\nfinal resv=0", denied), Ok(Some(wanted)));
    assert_eq!(find(MAP, "answer 1:1=segv", Hunt { limit: 3, ..denied }), Ok(None));
    let found = find(&script("truncate-against-fault.script"), "blocked 2\nanswer 1:2=beyond", Hunt::default()).unwrap().unwrap();
    assert_eq!((found.run, check(found.trace.as_bytes())), (4, Ok(30)));
    let wraps = Hunt { seed: u64::MAX, ..Hunt::default() };
    let found = find(b"pool 1 1 1 2\nbegin 1 trunc 0 0\nbegin 2 trunc 0 0\n", "blocked 1", wraps).unwrap().unwrap();
    assert_eq!((found.run, found.trace.lines().nth(1)), (1, Some("begin 2 trunc 0 0")));
}

/// At its start a map looks whether its task is killed (docs/MACHINE.md).
#[test]
fn a_shortest_schedule_is_found() {
    let kills = Bounds { kills: 1, ..Bounds::default() };
    let wanted = "pool 4 1 4 1\nbegin 1 map 0 0 4\nkill 1\nstep 1\n".to_string();
    assert_eq!(find_every(MAP, "at 1:1=killed free=4", kills), Ok(Some(wanted)));
    assert_eq!(find_every(MAP, "at 1:1=killed free=4", Bounds::default()), Ok(None));
    let denials = Bounds { denials: 1, ..Bounds::default() };
    let wanted = "pool 4 1 4 1\nbegin 1 map 0 0 4\nstep 1\ndeny 1\nstep 1\n".to_string();
    assert_eq!(find_every(MAP, "answer *:*=ENOMEM", denials), Ok(Some(wanted)));
    let both = find_every(&script("two-files-one-quota.script"), "answer 1:1=done\nanswer 2:1=done", Bounds::default());
    assert_eq!(both, Ok(None));
}

#[test]
fn faults_are_told() {
    assert_eq!(minimize(MAP, "rest\nblocked 0\n"), Err(SearchFault::BadCondition(2)));
    assert_eq!(find(MAP, "", Hunt::default()), Err(SearchFault::BadCondition(0)));
    let many = find(MAP, &"rest\n".repeat(65_537), Hunt::default()).unwrap_err();
    assert_eq!((&many, many.to_string().as_str()), (&SearchFault::BadCondition(65_537), "there are more than 65536 lines of conditions"));
    let told = find(b"pool 4 1 4 1\nstep 1\n", "blocked 1", Hunt::default()).unwrap_err();
    assert!(matches!(&told, SearchFault::BadTrace(BadTrace { line: 2, .. })), "{told:?}");
    let two = b"pool 4 1 4 2\nbegin 1 map 0 0 4\nbegin 2 map 0 0 4\n";
    let limit = find_every(two, "answer 1:1=segv", Bounds { states: 1, ..Bounds::default() }).unwrap_err();
    assert_eq!(limit, SearchFault::LimitReached(1));
    for (fault, said) in [
        (SearchFault::BadCondition(2), "line 2 is no condition"),
        (SearchFault::BadCondition(0), "no line says a condition"),
        (limit, "the bound of states was reached at schedules of 1 turns"),
    ] {
        assert_eq!(fault.to_string(), said);
    }
    assert!(told.to_string().starts_with("line 2 is not allowed here: "));
    let none = BadTrace { line: 0, reason: "there was no memory".to_string() };
    assert_eq!(none.to_string(), "there was no memory");
}
