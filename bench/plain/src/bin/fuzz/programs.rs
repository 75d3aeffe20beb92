//! Runs a program on an input. Its output goes to a file, so that it never waits for who reads it.
use std::fs::{self, File};
use std::io::{self, Write};
use std::path::PathBuf;
use std::process::{Child, Command, ExitStatus};
use std::thread::sleep;
use std::time::{Duration, Instant};

/// How long a program may take for one input.
const PATIENCE: Duration = Duration::from_secs(60);

/// A folder with the input and what a program writes.
pub struct Room { folder: PathBuf }

impl Room {
    pub fn new(folder: PathBuf) -> Self { Room { folder } }

    pub fn give(&self, input: &[u8]) -> io::Result<()> { self.fresh("input")?.write_all(input) }

    // A new file. (One that is emptied in place is written to the disk as it is closed, by some file systems.)
    fn fresh(&self, name: &str) -> io::Result<File> {
        let file = self.folder.join(name);
        if file.exists() { fs::remove_file(&file)?; }
        File::create(file)
    }

    /// Keeps an input under a name, and tells where.
    pub fn keep(&self, name: &str, input: &[u8]) -> io::Result<PathBuf> {
        let file = self.folder.join(name);
        fs::write(&file, input)?;
        Ok(file)
    }
}

pub struct Program { words: Vec<String> }

/// What a program did; without a status, it was stopped.
pub struct Ended { pub output: Vec<u8>, complaints: Vec<u8>, pub status: Option<ExitStatus> }

impl Program {
    pub fn new(words: &[String]) -> Option<Self> { (!words.is_empty()).then(|| Program { words: words.to_vec() }) }

    /// Runs the program on the input that was given.
    pub fn run(&self, room: &Room) -> io::Result<Ended> {
        let mut child = Command::new(&self.words[0])
            .args(&self.words[1..])
            .stdin(File::open(room.folder.join("input"))?)
            .stdout(room.fresh("output")?)
            .stderr(room.fresh("complaints")?)
            .spawn()?;
        let status = wait(&mut child)?;
        let written = |name: &str| fs::read(room.folder.join(name));
        Ok(Ended { output: written("output")?, complaints: written("complaints")?, status })
    }
}

// Waits for a program, and stops one that takes too long.
fn wait(child: &mut Child) -> io::Result<Option<ExitStatus>> {
    let until = Instant::now() + PATIENCE;
    let mut nap = Duration::from_micros(50);
    loop {
        if let Some(status) = child.try_wait()? { return Ok(Some(status)); }
        if Instant::now() > until {
            child.kill()?;
            child.wait()?;
            return Ok(None);
        }
        sleep(nap);
        nap = (nap * 2).min(Duration::from_millis(2));
    }
}

fn first_difference(ours: &[u8], theirs: &[u8]) -> String {
    let shown = |line: Option<&[u8]>| line.map_or("nothing".to_string(), |it| format!("{:?}", String::from_utf8_lossy(it)));
    let (mut a, mut b) = (ours.split_inclusive(|it| *it == b'\n'), theirs.split_inclusive(|it| *it == b'\n'));
    for number in 1.. {
        let (a, b) = (a.next(), b.next());
        if a != b { return format!("line {number} of ours is {}, of the other {}", shown(a), shown(b)); }
    }
    unreachable!("they differ")
}

// The line that ours adds where the line that is wrong would be right in the loose form of a trace.
const HINT: &[u8] = b"hugepool: hugepool format accepts this line, and prints a trace that this command accepts\n";

// The reason and the hint where nothing came.
const EMPTY: &[u8] = b"hugepool: the input is empty\nhugepool: if another command writes it, that command may have failed\n";

// What ours says where each event of a trace begins a call.
const SCRIPT: &[u8] = b"hugepool: no event is a step; if this is a script, hugepool explore and hugepool schedule run it\n";

// Those of our complaints that the other program has to print, too: all but the one line that says, behind the number of a wrong line,
// what is wrong with it, and the hints. Nothing where the line with the reason is missing.
fn without_reason(ours: &[u8]) -> Option<&[u8]> {
    if ours == SCRIPT { return Some(&[]); }
    if !ours.starts_with(b"hugepool: line ") { return Some(ours); }
    let end = ours.iter().position(|it| *it == b'\n')? + 1;
    let (first, reason) = ours.split_at(end);
    if reason == EMPTY { return Some(first); }
    let reason = reason.strip_suffix(HINT).unwrap_or(reason);
    let is_one_line = reason.iter().position(|it| *it == b'\n') == reason.len().checked_sub(1);
    (is_one_line && reason.starts_with(b"hugepool: ")).then_some(first)
}

impl Ended {
    /// How this differs from what the other program did, which gives no reasons. A status that no replay has is wrong in both.
    pub fn difference(&self, other: &Ended) -> Option<String> {
        let told = |it: &Ended| it.status.map_or("no end".to_string(), |status| status.to_string());
        if self.output != other.output { return Some(format!("output: {}", first_difference(&self.output, &other.output))); }
        let complaints = match without_reason(&self.complaints) {
            Some(complaints) => complaints,
            None => return Some(format!("standard error: ours gives no reason in one line: {:?}", String::from_utf8_lossy(&self.complaints))),
        };
        if complaints != other.complaints {
            return Some(format!("standard error: {}", first_difference(complaints, &other.complaints)));
        }
        let is_known = matches!(self.status.and_then(|it| it.code()), Some(0 | 1));
        if self.status != other.status || !is_known { return Some(format!("status: of ours {}, of the other {}", told(self), told(other))); }
        None
    }
}
