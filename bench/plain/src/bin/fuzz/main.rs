//! Makes traces by chance and damages some of them, gives each to two programs that replay traces, and compares what they write,
//! what they complain of, and their statuses: `fuzz SECONDS SEED FOLDER OURS.. -- THEIRS..`, each program with its words.
//! Ends at the first difference, with the smallest trace that was found to show it. Trace k of a seed is always the same.
mod damage;
mod making;
mod programs;
mod random;
mod shrink;
mod tally;

use programs::{Ended, Program, Room};
use random::Random;
use std::process::ExitCode;
use std::time::{Duration, Instant};
use tally::Tally;

/// How long a difference is made smaller.
const SHRINKING: Duration = Duration::from_secs(30);

struct Words { seconds: u64, seed: u64, room: Room, ours: Program, theirs: Program }

fn read_words() -> Option<Words> {
    let words: Vec<String> = std::env::args().skip(1).collect();
    let (seconds, seed, folder, programs) = match &words[..] { [seconds, seed, folder, programs @ ..] => (seconds, seed, folder, programs), _ => return None };
    let at = programs.iter().position(|word| word == "--")?;
    Some(Words {
        seconds: seconds.parse().ok()?,
        seed: seed.parse().ok()?,
        room: Room::new(folder.into()),
        ours: Program::new(&programs[..at])?,
        theirs: Program::new(&programs[at + 1..])?,
    })
}

// How the two programs differ on a trace, if they do; and what ours did.
fn compare(words: &Words, trace: &[u8]) -> std::io::Result<(Ended, Option<String>)> {
    words.room.give(trace)?;
    let ours = words.ours.run(&words.room)?;
    let theirs = words.theirs.run(&words.room)?;
    let how = ours.difference(&theirs);
    Ok((ours, how))
}

fn tell_difference(words: &Words, k: u64, trace: Vec<u8>) -> std::io::Result<()> {
    println!("fuzz: the programs differ on trace {k} of seed {}, {} lines; making it smaller", words.seed, shrink::lines(&trace).len());
    let until = Instant::now() + SHRINKING;
    let differs = |it: &[u8]| matches!(compare(words, it), Ok((_, Some(_))));
    let least = shrink::least(&trace, || Instant::now() >= until, differs);
    let how = compare(words, &least)?.1.unwrap_or_else(|| "the two don't differ when it is given again".to_string());
    let file = words.room.keep(&format!("difference-{}-{k}.trace", words.seed), &least)?;
    println!("fuzz: {how}\nfuzz: {} lines show it: {}", shrink::lines(&least).len(), file.display());
    Ok(())
}

// Compares traces until the time is over, or two differ.
fn fuzz(words: &Words) -> std::io::Result<bool> {
    let began = Instant::now();
    let mut tally = Tally::default();
    let mut k = 0;
    while began.elapsed().as_secs() < words.seconds {
        let mut random = Random::new(words.seed, k);
        let (trace, is_damaged) = making::input(&mut random);
        let (ours, how) = compare(words, &trace)?;
        tally.count(&ours, is_damaged);
        if how.is_some() {
            tell_difference(words, k, trace)?;
            return Ok(false);
        }
        k += 1;
    }
    println!("{}", tally.told(began.elapsed().as_secs()));
    Ok(true)
}

fn main() -> ExitCode {
    let words = match read_words() {
        Some(words) => words,
        None => {
            eprintln!("usage: fuzz SECONDS SEED FOLDER OURS.. -- THEIRS..");
            return ExitCode::from(2);
        }
    };
    println!("fuzz: seed {}, {} s", words.seed, words.seconds);
    match fuzz(&words) {
        Ok(true) => ExitCode::SUCCESS,
        Ok(false) => ExitCode::FAILURE,
        Err(error) => {
            eprintln!("fuzz: {error}");
            ExitCode::from(3)
        }
    }
}
