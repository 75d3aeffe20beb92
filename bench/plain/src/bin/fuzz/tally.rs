//! What a run of the fuzzer met, so that a reader sees what was tried and what wasn't.
use crate::programs::Ended;
use std::collections::BTreeSet;

/// What an outcome line may begin with, without its numbers.
const KINDS: [&str; 47] = [
    "begun", "marked", "blocked", "resized", "refused notalive", "refused incall", "refused idle", "refused badsize", "moved want",
    "moved locked", "moved missing", "moved changed", "moved abort", "moved taken", "moved settle", "moved committed", "moved restore",
    "moved found", "moved leave", "moved room", "moved accounted", "moved enter", "moved head", "moved unslot", "moved extend",
    "moved unmap", "moved evict", "moved delete", "moved free", "moved size", "moved tail", "moved clear", "moved drop", "ended mapped",
    "ended word", "ended done", "ended segv", "ended beyond", "ended noframe", "ended noquota", "ended nomemory", "ended interrupted",
    "ended killed", "ended badfile", "ended badrange", "ended notmapped", "ended noaddress",
];

#[derive(Default)]
pub struct Tally { traces: u64, events: u64, damaged: u64, refused: u64, met: BTreeSet<Vec<u8>> }

// a line up to its first number
fn kind(line: &[u8]) -> &[u8] {
    let end = line.iter().position(u8::is_ascii_digit).unwrap_or(line.len());
    line[..end].strip_suffix(b" ").unwrap_or(&line[..end])
}

impl Tally {
    pub fn count(&mut self, ours: &Ended, is_damaged: bool) {
        self.traces += 1;
        self.damaged += u64::from(is_damaged);
        self.refused += u64::from(ours.status.and_then(|it| it.code()) == Some(1));
        for line in ours.output.split(|byte| *byte == b'\n').map(kind) {
            if [&b"free"[..], b"file", b"task", b""].contains(&line) { continue; }
            self.events += 1;
            if !self.met.contains(line) { self.met.insert(line.to_vec()); }
        }
    }

    pub fn told(&self, seconds: u64) -> String {
        let missed: Vec<&str> = KINDS.into_iter().filter(|it| !self.met.contains(it.as_bytes())).collect();
        let met = if missed.is_empty() { "all".to_string() } else { format!("not met: {}; the others", missed.join(", ")) };
        format!(
            "fuzz: no difference in {} inputs of {} events, {} of them damaged and {} refused, in {seconds} s\nfuzz: of the {} kinds of outcomes: {met} met",
            self.traces, self.events, self.damaged, self.refused, KINDS.len()
        )
    }
}
