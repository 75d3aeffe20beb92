//! The text of a trace and of a replay. Each line has one spelling, and all else is refused.
use crate::{Answer, Call, Event, Kind, LIMIT, Life, MOST_FRAMES, Outcome, Pool, Sizes, WORDS};
use std::io::{self, BufRead, Write};

const MOST_EVENTS: u32 = 1_000_000;
const MOST_QUOTA: u32 = 65_536;
const MOST_FIELDS: usize = 6;

/// Why a replay ended before its trace did.
pub enum Fault { BadHeader, BadLine(u32), Stream(io::Error) }

impl From<io::Error> for Fault {
    fn from(error: io::Error) -> Self { Fault::Stream(error) }
}

// decimal digits that begin with 0 only where there are no more
fn number(field: &[u8], most: u64) -> Option<u64> {
    if field.is_empty() || field.len() > 1 && field[0] == b'0' { return None; }
    let mut value: u64 = 0;
    for byte in field {
        let digit = byte.checked_sub(b'0').filter(|digit| *digit <= 9)?;
        value = value.checked_mul(10)?.checked_add(u64::from(digit))?;
    }
    (value <= most).then_some(value)
}

fn small(field: &[u8]) -> Option<u32> { number(field, u64::from(u32::MAX)).map(|value| value as u32) }

fn within(field: &[u8], least: u32, most: u32) -> Option<u32> { small(field).filter(|value| (least..=most).contains(value)) }

// the fields of a line, which one space parts, and how many there are
fn fields(line: &[u8]) -> Option<([&[u8]; MOST_FIELDS], usize)> {
    let mut all = [&line[..0]; MOST_FIELDS];
    let mut count = 0;
    for field in line.split(|byte| *byte == b' ') {
        *all.get_mut(count)? = field;
        count += 1;
    }
    Some((all, count))
}

/// What the first line says, without its end.
pub fn header(line: &[u8]) -> Option<Sizes> {
    let (all, count) = fields(line)?;
    if all[0] != b"pool" || !(5..=6).contains(&count) { return None; }
    let quota = if count == 6 { Some(within(all[5], 0, MOST_QUOTA)?) } else { None };
    Some(Sizes {
        frames: within(all[1], 1, MOST_FRAMES)?,
        files: within(all[2], 1, 16)?,
        slots: within(all[3], 1, 64)?,
        tasks: within(all[4], 1, 64)?,
        quota,
    })
}

/// What a call's words say.
pub fn call(words: &[&[u8]]) -> Option<Call> {
    let kind = match *words.first()? {
        b"map" => Kind::Map,
        b"mapn" => Kind::MapNoReserve,
        b"alloc" | b"allock" => Kind::Alloc,
        b"punch" => Kind::Punch,
        b"trunc" => Kind::Truncate,
        b"unmap" => Kind::Unmap,
        b"load" => Kind::Load,
        b"store" => Kind::Store,
        b"exit" => Kind::Exit,
        _ => return None,
    };
    let call = Call::new(kind);
    match (kind, &words[1..]) {
        (Kind::Exit, []) => Some(call),
        (Kind::Load, [vpn]) => Some(Call { vpn: small(vpn)?, ..call }),
        (Kind::Store, [vpn, word]) => Some(Call { vpn: small(vpn)?, word: number(word, u64::MAX)?, ..call }),
        (Kind::Unmap, [base]) => Some(Call { base: small(base)?, ..call }),
        (Kind::Truncate, [file, len]) => Some(Call { file: small(file)?, len: small(len)?, ..call }),
        (Kind::Map | Kind::MapNoReserve | Kind::Alloc | Kind::Punch, [file, from, len]) => {
            Some(Call { file: small(file)?, from: small(from)?, len: small(len)?, keep: words[0] == b"allock", ..call })
        }
        _ => None,
    }
}

/// What a line says, without its end.
pub fn event(line: &[u8]) -> Option<Event> {
    let (all, count) = fields(line)?;
    match (all[0], &all[1..count]) {
        (b"begin", [task, words @ ..]) => Some(Event::Begin(small(task)?, call(words)?)),
        (b"step", [task]) => Some(Event::Step(small(task)?, true)),
        (b"deny", [task]) => Some(Event::Step(small(task)?, false)),
        (b"kill", [task]) => Some(Event::Kill(small(task)?)),
        (b"resize", [frames]) => Some(Event::Resize(small(frames)?)),
        _ => None,
    }
}

fn ended(out: &mut impl Write, answer: &Answer) -> io::Result<()> {
    let word = match answer {
        Answer::Mapped(base) => return writeln!(out, "ended mapped {base}"),
        Answer::Word(word) => return writeln!(out, "ended word {word}"),
        Answer::Done => "done",
        Answer::Segv => "segv",
        Answer::Beyond => "beyond",
        Answer::NoFrame => "noframe",
        Answer::NoQuota => "noquota",
        Answer::NoMemory => "nomemory",
        Answer::Interrupted => "interrupted",
        Answer::Killed => "killed",
        Answer::BadFile => "badfile",
        Answer::BadRange => "badrange",
        Answer::NotMapped => "notmapped",
        Answer::NoAddress => "noaddress",
    };
    writeln!(out, "ended {word}")
}

fn tell(out: &mut impl Write, outcome: &Outcome) -> io::Result<()> {
    match outcome {
        Outcome::Begun => writeln!(out, "begun"),
        Outcome::Moved(phase) => writeln!(out, "moved {}", WORDS[*phase as usize]),
        Outcome::Blocked(t) => writeln!(out, "blocked {t}"),
        Outcome::Marked => writeln!(out, "marked"),
        Outcome::Resized(frames) => writeln!(out, "resized {frames}"),
        Outcome::NotAlive => writeln!(out, "refused notalive"),
        Outcome::InCall => writeln!(out, "refused incall"),
        Outcome::Idle => writeln!(out, "refused idle"),
        Outcome::BadSize => writeln!(out, "refused badsize"),
        Outcome::Ended(answer) => ended(out, answer),
    }
}

/// The outcome's line, without its end.
pub fn outcome_words(outcome: &Outcome) -> String {
    let mut line = Vec::new();
    tell(&mut line, outcome).expect("a list takes what is written to it");
    String::from_utf8_lossy(&line).trim_end().to_owned()
}

/// The lines of the state.
pub fn tell_state(out: &mut impl Write, pool: &Pool) -> io::Result<()> {
    let calls = pool.tasks.iter().filter(|t| t.call.is_some()).count();
    write!(out, "free {} resv {} calls {calls}", pool.free.len(), pool.resv)?;
    if pool.quota.is_some() { write!(out, " used {}", pool.used)?; }
    writeln!(out)?;
    for (k, f) in pool.files.iter().enumerate() {
        let reserved = LIMIT - f.missing(0, LIMIT);
        writeln!(out, "file {k} size {} reserved {reserved} regions {} pages {} changes {} spare {}", f.size, f.regions.len(), f.pages.len(), f.pending, f.spare)?;
    }
    for (k, t) in pool.tasks.iter().enumerate() {
        let life = match t.life { Life::Alive => "alive", Life::Killed => "killed", Life::Dead => "dead" };
        writeln!(out, "task {} {life} mappings {} entries {}", k + 1, t.mappings.len(), t.entries.len())?;
    }
    Ok(())
}

// a line with its end, without which it is none
fn read_line(input: &mut impl BufRead, line: &mut Vec<u8>) -> io::Result<Option<bool>> {
    line.clear();
    if input.read_until(b'\n', line)? == 0 { return Ok(None); }
    let is_whole = line.last() == Some(&b'\n');
    if is_whole { line.pop(); }
    Ok(Some(is_whole))
}

/// Replays a trace: a line for each event, and at the end those of the state.
pub fn replay(mut input: impl BufRead, out: &mut impl Write) -> Result<(), Fault> {
    let mut line = Vec::new();
    let whole = read_line(&mut input, &mut line)?.unwrap_or(false);
    let sizes = if whole { header(&line) } else { None };
    let mut pool = Pool::new(&sizes.ok_or(Fault::BadHeader)?);
    let mut events = 0;
    while let Some(whole) = read_line(&mut input, &mut line)? {
        let event = if whole && events < MOST_EVENTS { event(&line) } else { None };
        events += 1;
        tell(out, &pool.event(event.ok_or(Fault::BadLine(events + 1))?))?;
    }
    Ok(tell_state(out, &pool)?)
}
