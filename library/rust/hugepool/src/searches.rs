//! Searches: small traces, random runs and all schedules.
use crate::texts::{bad, put, BadTrace, NO_MEMORY};
use hugepool_sys as sys;
use std::error::Error;
use std::fmt;

/// Which random runs of a script are searched: run k goes by the generator that is seeded with `seed + k`, wrapping.
#[derive(Clone, Copy, Debug, PartialEq, Eq, Hash)]
pub struct Hunt {
    /// The seed of run 0; 1 by default.
    pub seed: u64,
    /// How many runs there are, from run 0 on; 65,536 by default.
    pub limit: u32,
    /// The chance in 1000 that an allocation fails; 0 by default.
    pub deny: u32,
    /// The chance in 1000 that a turn kills its task; 0 by default.
    pub kill: u32,
}

impl Default for Hunt {
    fn default() -> Hunt {
        Hunt { seed: 1, limit: 65_536, deny: 0, kill: 0 }
    }
}

/// Which schedules of a script are searched, and how far.
#[derive(Clone, Copy, Debug, PartialEq, Eq, Hash)]
pub struct Bounds {
    /// How many allocations fail in a schedule, at most; 0 by default.
    pub denials: u32,
    /// How many tasks are killed in it, at most; 0 by default.
    pub kills: u32,
    /// How many states are kept at once, at most, of some 500 bytes each; 1,000,000 by default.
    pub states: u32,
}

impl Default for Bounds {
    fn default() -> Bounds {
        Bounds { denials: 0, kills: 0, states: 1_000_000 }
    }
}

/// A run that was found.
#[derive(Clone, Debug, PartialEq, Eq, Hash)]
pub struct Found {
    /// Its number.
    pub run: u32,
    /// Its trace.
    pub trace: String,
}

/// Why a search says neither that it found something nor that there is nothing.
#[derive(Clone, Debug, PartialEq, Eq)]
#[non_exhaustive]
pub enum SearchFault {
    /// That line is no condition, counted from 1; at 0 no line says one.
    BadCondition(u32),
    /// A line isn't allowed in the trace or the script.
    BadTrace(BadTrace),
    /// The bound of states was reached: no schedule of fewer turns than that meets the conditions.
    LimitReached(u32),
    /// There was no memory.
    NoMemory,
}

impl fmt::Display for SearchFault {
    fn fmt(&self, f: &mut fmt::Formatter<'_>) -> fmt::Result {
        match self {
            SearchFault::BadCondition(0) => write!(f, "no line says a condition"),
            SearchFault::BadCondition(line) if *line > MOST_CONDITIONS => write!(f, "there are more than {MOST_CONDITIONS} lines of conditions"),
            SearchFault::BadCondition(line) => write!(f, "line {line} is no condition"),
            SearchFault::BadTrace(bad) => bad.fmt(f),
            SearchFault::LimitReached(turns) => write!(f, "the bound of states was reached at schedules of {turns} turns"),
            SearchFault::NoMemory => write!(f, "there was no memory"),
        }
    }
}

impl Error for SearchFault {
    fn source(&self) -> Option<&(dyn Error + 'static)> {
        match self {
            SearchFault::BadTrace(bad) => Some(bad),
            _ => None,
        }
    }
}

const BAD_LINE: u32 = 5;
const BAD_HEADER: u32 = 6;
const BAD_CONDITION: u32 = 8;
const NONE_MEETS: u32 = 9;
const LIMIT_REACHED: u32 = 10;
/// A text of conditions has no more lines.
const MOST_CONDITIONS: u32 = 65_536;
/// No trace has more bytes. (Memory that isn't written to is none.)
const ROOM: usize = 1 << 26;

/// What is found, or nothing; `call` gets the room for it, and a place for the line of a fault and for the number that is told besides.
fn search(
    text: &[u8],
    room: usize,
    mut call: impl FnMut(*mut u8, usize, *mut usize, *mut u32, *mut u32) -> u32,
) -> Result<Option<Found>, SearchFault> {
    let (mut line, mut run) = (0, 0);
    match put(room, |out, room, needed| call(out, room, needed, &mut line, &mut run)) {
        Ok(trace) => Ok(Some(Found { run, trace: String::from_utf8_lossy(&trace).into_owned() })),
        Err(NONE_MEETS) => Ok(None),
        Err(BAD_CONDITION) => Err(SearchFault::BadCondition(line)),
        Err(code @ (BAD_LINE | BAD_HEADER)) => Err(SearchFault::BadTrace(bad(text, code, line))),
        Err(LIMIT_REACHED) => Err(SearchFault::LimitReached(run)),
        Err(NO_MEMORY) => Err(SearchFault::NoMemory),
        Err(other) => unreachable!("code {other} of a search"),
    }
}

/// A small trace of those to which the trace can be cut, by dropping events and lowering numbers, and that still meet the conditions, a line
/// for each; `None` if the trace itself doesn't.
///
/// ```
/// let trace = "pool 1 1 1 2\nbegin 1 store 7 9\nstep 1\n";
/// let small = hugepool::minimize(trace.as_bytes(), "answer 1:1=SIGSEGV")?;
/// assert_eq!(small.as_deref(), Some("pool 1 1 1 2\nbegin 1 store 0 0\nstep 1\n"));
/// # Ok::<(), hugepool::SearchFault>(())
/// ```
pub fn minimize(trace: &[u8], conditions: &str) -> Result<Option<String>, SearchFault> {
    let (size, asked) = (conditions.len(), conditions.as_ptr());
    // SAFETY: all are there, and apart.
    let found = search(trace, trace.len(), |out, room, needed, line, _| unsafe {
        sys::hugepool_minimize(trace.as_ptr(), trace.len(), asked, size, out, room, needed, line)
    })?;
    Ok(found.map(|it| it.trace))
}

/// The first of these random runs of the script that meets the conditions, if one does. It returns when it is done: a long search is best
/// made in slices, whose seeds are `limit` apart.
pub fn find(script: &[u8], conditions: &str, hunt: Hunt) -> Result<Option<Found>, SearchFault> {
    let (size, asked) = (conditions.len(), conditions.as_ptr());
    let Hunt { seed, limit, deny, kill } = hunt;
    let words = sys::HuntWords { seed, limit, deny, kill };
    // SAFETY: all are there, and apart.
    search(script, ROOM, |out, room, needed, line, run| unsafe {
        sys::hugepool_find(script.as_ptr(), script.len(), asked, size, &words, out, room, needed, line, run)
    })
}

/// The trace of a shortest of all schedules of the script that meet the conditions, or `None` if no schedule does.
pub fn find_every(script: &[u8], conditions: &str, bounds: Bounds) -> Result<Option<String>, SearchFault> {
    let (size, asked) = (conditions.len(), conditions.as_ptr());
    let Bounds { denials, kills, states } = bounds;
    let words = sys::BoundsWords { denials, kills, states };
    // SAFETY: all are there, and apart.
    let found = search(script, ROOM, |out, room, needed, line, turns| unsafe {
        sys::hugepool_find_every(script.as_ptr(), script.len(), asked, size, &words, out, room, needed, line, turns)
    })?;
    Ok(found.map(|it| it.trace))
}
