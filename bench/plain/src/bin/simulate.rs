//! Replays a trace as `hugepool replay` does, with nothing proved.
use plain::text::{Fault, replay};
use std::io::{BufReader, BufWriter, Write};
use std::process::ExitCode;

fn main() -> ExitCode {
    let mut out = BufWriter::new(std::io::stdout().lock());
    let ended = replay(BufReader::new(std::io::stdin().lock()), &mut out).and_then(|()| Ok(out.flush()?));
    match ended {
        Ok(()) => return ExitCode::SUCCESS,
        Err(Fault::BadHeader) => eprintln!("hugepool: line 1 is not a pool header"),
        Err(Fault::BadLine(line)) => eprintln!("hugepool: line {line} is not allowed here"),
        Err(Fault::Stream(error)) => eprintln!("plain: {error}"),
    }
    ExitCode::FAILURE
}
