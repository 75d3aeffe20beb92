//! A plain loop that reads the same traces: it parses each line and writes an outcome for it, with no
//! proof and no pool behind it. Each step is refused, since no call is ever in flight here.
use std::io::{self, BufRead, BufReader, BufWriter, Write};

enum Event {
    Begin(u32),
    Step,
    Kill,
}

fn parse(line: &str) -> Option<Event> {
    let mut words = line.split(' ');
    let event = match words.next()? {
        "begin" => {
            let task = words.next()?.parse().ok()?;
            match words.next()? {
                "map" | "mapn" => {
                    for _ in 0..3 {
                        words.next()?.parse::<u32>().ok()?;
                    }
                }
                _ => return None,
            }
            Event::Begin(task)
        }
        "step" | "deny" => {
            words.next()?.parse::<u32>().ok()?;
            Event::Step
        }
        "kill" => {
            words.next()?.parse::<u32>().ok()?;
            Event::Kill
        }
        _ => return None,
    };
    words.next().is_none().then_some(event)
}

fn main() -> io::Result<()> {
    let mut reader = BufReader::new(io::stdin().lock());
    let mut writer = BufWriter::new(io::stdout().lock());
    let mut line = String::new();
    reader.read_line(&mut line)?;
    let mut number = 1;
    loop {
        line.clear();
        number += 1;
        if reader.read_line(&mut line)? == 0 {
            break;
        }
        match parse(line.trim_end_matches('\n')) {
            Some(Event::Begin(task)) if task == 0 => writeln!(writer, "refused notalive")?,
            Some(Event::Begin(_)) => writeln!(writer, "begun")?,
            Some(Event::Step) => writeln!(writer, "refused idle")?,
            Some(Event::Kill) => writeln!(writer, "marked")?,
            None => {
                eprintln!("line {number}");
                break;
            }
        }
    }
    writer.flush()
}
