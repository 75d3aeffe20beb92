//! Outcomes.
use hugepool_sys::OutcomeWords;
use std::fmt;

/// The words of phases by their numbers. 0 is no phase.
pub const PHASES: [&str; 28] = [
    "", "start", "look", "want", "locked", "missing", "changed", "abort", "taken", "settle", "committed", "restore", "found", "leave",
    "room", "accounted", "enter", "head", "unslot", "extend", "unmap", "evict", "delete", "free", "size", "tail", "clear", "drop",
];

/// The words of answers by their numbers, which begin with 1.
pub const ANSWERS: [&str; 15] = [
    "", "mapped", "word", "done", "segv", "beyond", "noframe", "noquota", "nomemory", "interrupted", "killed", "badfile", "badrange",
    "notmapped", "noaddress",
];

/// The words of refusals by their numbers, which begin with 1.
pub const REFUSALS: [&str; 5] = ["", "notalive", "incall", "idle", "badsize"];

/// What came of an event. As text it is the line of a replay.
#[derive(Clone, Copy, Debug, PartialEq, Eq, Hash)]
pub enum Outcome {
    /// The call is in flight.
    Begun,
    /// The call stands in the phase of that number now ([`PHASES`]).
    Moved(u32),
    /// Nothing changed: that task holds what the step wants.
    Blocked(u32),
    /// The call is over: its new mapping begins at that page.
    Mapped(u32),
    /// The call is over: a load read that word.
    Word(u64),
    /// The call is over, with the answer of that number ([`ANSWERS`]).
    Ended(u32),
    /// The task is killed.
    Marked,
    /// So many frames aren't retired now.
    Resized(u32),
    /// Nothing changed, because of the refusal of that number ([`REFUSALS`]).
    Refused(u32),
}

impl Outcome {
    /// Whether the call is over.
    pub fn is_end(self) -> bool {
        matches!(self, Outcome::Mapped(_) | Outcome::Word(_) | Outcome::Ended(_))
    }
}

impl From<OutcomeWords> for Outcome {
    fn from(words: OutcomeWords) -> Outcome {
        match (words.kind, words.answer) {
            (0, _) => Outcome::Begun,
            (1, _) => Outcome::Moved(words.phase),
            (2, _) => Outcome::Blocked(words.task),
            (3, 1) => Outcome::Mapped(words.page),
            (3, 2) => Outcome::Word(words.word),
            (3, answer) => Outcome::Ended(answer),
            (4, _) => Outcome::Marked,
            (5, _) => Outcome::Resized(words.frames),
            _ => Outcome::Refused(words.refusal),
        }
    }
}

/// A word of a list. A number that the library never gives has no word.
fn word<'a>(words: &[&'a str], number: u32) -> &'a str {
    words.get(number as usize).copied().unwrap_or("?")
}

impl fmt::Display for Outcome {
    fn fmt(&self, f: &mut fmt::Formatter<'_>) -> fmt::Result {
        match *self {
            Outcome::Begun => write!(f, "begun"),
            Outcome::Moved(phase) => write!(f, "moved {}", word(&PHASES, phase)),
            Outcome::Blocked(task) => write!(f, "blocked {task}"),
            Outcome::Mapped(page) => write!(f, "ended mapped {page}"),
            Outcome::Word(number) => write!(f, "ended word {number}"),
            Outcome::Ended(answer) => write!(f, "ended {}", word(&ANSWERS, answer)),
            Outcome::Marked => write!(f, "marked"),
            Outcome::Resized(frames) => write!(f, "resized {frames}"),
            Outcome::Refused(refusal) => write!(f, "refused {}", word(&REFUSALS, refusal)),
        }
    }
}
