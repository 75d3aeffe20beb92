//! Events.
use hugepool_sys as sys;
use hugepool_sys::EventWords;
use std::error::Error;
use std::fmt;
use std::str::FromStr;

/// What a task asks of the pool. Lengths and sizes are in huge pages. As text it is what stands behind the task in a trace.
#[derive(Clone, Copy, Debug, PartialEq, Eq, Hash)]
#[allow(missing_docs)] // (fields are called what they are)
pub enum Op {
    /// `mmap`.
    Map { file: u32, from: u32, len: u32 },
    /// `mmap` with `MAP_NORESERVE`.
    MapNoReserve { file: u32, from: u32, len: u32 },
    /// `munmap` of the mapping that begins there.
    Unmap { base: u32 },
    /// A read of a page.
    Load { page: u32 },
    /// A write of a word to a page.
    Store { page: u32, word: u64 },
    /// `fallocate`.
    Alloc { file: u32, from: u32, len: u32 },
    /// `fallocate` with `FALLOC_FL_KEEP_SIZE`.
    AllocKeep { file: u32, from: u32, len: u32 },
    /// `fallocate` with `FALLOC_FL_PUNCH_HOLE`.
    Punch { file: u32, from: u32, len: u32 },
    /// `ftruncate` of a file to so many pages.
    Truncate { file: u32, new: u32 },
    /// The end of the task.
    Exit,
}

/// What happens to a pool in one hold of its lock. As text it is a line of a trace.
#[derive(Clone, Copy, Debug, PartialEq, Eq, Hash)]
pub enum Event {
    /// The task begins a call.
    Begin(u32, Op),
    /// Its call makes one step, and gets what memory it wants.
    Step(u32),
    /// The same, but what memory the step wants is refused.
    Deny(u32),
    /// The task is killed.
    Kill(u32),
    /// The pool is to have so many frames.
    Resize(u32),
}

impl From<Op> for EventWords {
    fn from(op: Op) -> EventWords {
        let none = EventWords::default();
        let range = |op, file, from, len| EventWords { op, file, from, len, ..none };
        match op {
            Op::Map { file, from, len } => range(0, file, from, len),
            Op::MapNoReserve { file, from, len } => range(1, file, from, len),
            Op::Unmap { base } => EventWords { op: 2, page: base, ..none },
            Op::Load { page } => EventWords { op: 3, page, ..none },
            Op::Store { page, word } => EventWords { op: 4, page, word, ..none },
            Op::Alloc { file, from, len } => range(5, file, from, len),
            Op::AllocKeep { file, from, len } => range(6, file, from, len),
            Op::Punch { file, from, len } => range(7, file, from, len),
            Op::Truncate { file, new } => range(8, file, 0, new),
            Op::Exit => EventWords { op: 9, ..none },
        }
    }
}

impl From<Event> for EventWords {
    fn from(event: Event) -> EventWords {
        let none = EventWords::default();
        match event {
            Event::Begin(task, op) => EventWords { task, ..op.into() },
            Event::Step(task) => EventWords { kind: 1, task, ..none },
            Event::Deny(task) => EventWords { kind: 2, task, ..none },
            Event::Kill(task) => EventWords { kind: 3, task, ..none },
            Event::Resize(len) => EventWords { kind: 4, len, ..none },
        }
    }
}

impl fmt::Display for Op {
    fn fmt(&self, f: &mut fmt::Formatter<'_>) -> fmt::Result {
        match *self {
            Op::Map { file, from, len } => write!(f, "map {file} {from} {len}"),
            Op::MapNoReserve { file, from, len } => write!(f, "mapn {file} {from} {len}"),
            Op::Unmap { base } => write!(f, "unmap {base}"),
            Op::Load { page } => write!(f, "load {page}"),
            Op::Store { page, word } => write!(f, "store {page} {word}"),
            Op::Alloc { file, from, len } => write!(f, "alloc {file} {from} {len}"),
            Op::AllocKeep { file, from, len } => write!(f, "allock {file} {from} {len}"),
            Op::Punch { file, from, len } => write!(f, "punch {file} {from} {len}"),
            Op::Truncate { file, new } => write!(f, "trunc {file} {new}"),
            Op::Exit => write!(f, "exit"),
        }
    }
}

impl fmt::Display for Event {
    fn fmt(&self, f: &mut fmt::Formatter<'_>) -> fmt::Result {
        match *self {
            Event::Begin(task, op) => write!(f, "begin {task} {op}"),
            Event::Step(task) => write!(f, "step {task}"),
            Event::Deny(task) => write!(f, "deny {task}"),
            Event::Kill(task) => write!(f, "kill {task}"),
            Event::Resize(frames) => write!(f, "resize {frames}"),
        }
    }
}

/// The line is none of a trace's events, or the numbers name none.
#[derive(Clone, Debug, PartialEq, Eq)]
pub struct NoEvent(pub String);

impl fmt::Display for NoEvent {
    fn fmt(&self, f: &mut fmt::Formatter<'_>) -> fmt::Result {
        write!(f, "no event: {:?}", self.0)
    }
}

impl Error for NoEvent {}

fn op_of(words: &EventWords) -> Option<Op> {
    let EventWords { word, op, file, from, len, page, .. } = *words;
    Some(match op {
        0 => Op::Map { file, from, len },
        1 => Op::MapNoReserve { file, from, len },
        2 => Op::Unmap { base: page },
        3 => Op::Load { page },
        4 => Op::Store { page, word },
        5 => Op::Alloc { file, from, len },
        6 => Op::AllocKeep { file, from, len },
        7 => Op::Punch { file, from, len },
        8 => Op::Truncate { file, new: len },
        9 => Op::Exit,
        _ => return None,
    })
}

fn event_of(words: &EventWords) -> Option<Event> {
    Some(match words.kind {
        0 => Event::Begin(words.task, op_of(words)?),
        1 => Event::Step(words.task),
        2 => Event::Deny(words.task),
        3 => Event::Kill(words.task),
        4 => Event::Resize(words.len),
        _ => return None,
    })
}

impl TryFrom<EventWords> for Event {
    type Error = NoEvent;

    fn try_from(words: EventWords) -> Result<Event, NoEvent> {
        event_of(&words).ok_or_else(|| NoEvent(format!("{words:?}")))
    }
}

/// The event of a trace's line, which stands here as traces have it, without its end.
impl FromStr for Event {
    type Err = NoEvent;

    fn from_str(line: &str) -> Result<Event, NoEvent> {
        let mut words = EventWords::default();
        // SAFETY: the line and the words are there, and apart.
        let code = unsafe { sys::hugepool_read_event(line.as_ptr(), line.len(), &mut words) };
        let event = if code == 0 { event_of(&words) } else { None };
        event.ok_or_else(|| NoEvent(line.to_string()))
    }
}
