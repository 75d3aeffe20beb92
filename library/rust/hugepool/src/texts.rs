//! Whole texts of a trace.
use hugepool_sys as sys;
use std::error::Error;
use std::fmt;

type Export = unsafe extern "C" fn(*const u8, usize, *mut u8, usize, *mut usize, *mut u32) -> u32;

/// Why there is no text: a line isn't allowed, which is counted from 1, or there was no memory, at line 0.
#[derive(Clone, Debug, PartialEq, Eq)]
pub struct BadTrace {
    /// The number of the line.
    pub line: u32,
    /// What is wrong with it, for people to read.
    pub reason: String,
}

impl fmt::Display for BadTrace {
    fn fmt(&self, f: &mut fmt::Formatter<'_>) -> fmt::Result {
        if self.line == 0 {
            return f.write_str(&self.reason);
        }
        write!(f, "line {} is not allowed here: {}", self.line, self.reason)
    }
}

impl Error for BadTrace {}

pub(crate) const NO_MEMORY: u32 = 2;
const TOO_SMALL: u32 = 7;
const LEAST: usize = 4096;

/// What is put into a room that is large enough, or the code. The first room has so many bytes.
pub(crate) fn put(least: usize, mut call: impl FnMut(*mut u8, usize, *mut usize) -> u32) -> Result<Vec<u8>, u32> {
    let mut out = vec![0; least];
    loop {
        let mut needed = 0;
        match call(out.as_mut_ptr(), out.len(), &mut needed) {
            0 => {
                out.truncate(needed);
                return Ok(out);
            }
            TOO_SMALL => out.resize(needed, 0),
            code => return Err(code),
        }
    }
}

pub(crate) fn bad(trace: &[u8], code: u32, line: u32) -> BadTrace {
    // SAFETY: the trace and the room are there, and apart.
    let told = put(LEAST, |out, room, needed| unsafe { sys::hugepool_reason(trace.as_ptr(), trace.len(), line, out, room, needed) });
    let reason = match (code, told) {
        (NO_MEMORY, _) => "there was no memory".to_string(),
        (_, Ok(words)) => String::from_utf8_lossy(&words).into_owned(),
        (_, Err(_)) => "nothing more can be told".to_string(),
    };
    BadTrace { line, reason }
}

fn text(export: Export, trace: &[u8]) -> Result<String, BadTrace> {
    let mut line = 0;
    // SAFETY: the trace and the room are there, and apart.
    let made = put(LEAST, |out, room, needed| unsafe { export(trace.as_ptr(), trace.len(), out, room, needed, &mut line) });
    made.map(|words| String::from_utf8_lossy(&words).into_owned()).map_err(|code| bad(trace, code, line))
}

/// A line for each outcome of the trace, and then the state.
pub fn replay(trace: &[u8]) -> Result<String, BadTrace> {
    text(sys::hugepool_replay, trace)
}

/// A row of words for each event of the trace, and then the state.
pub fn explain(trace: &[u8]) -> Result<String, BadTrace> {
    text(sys::hugepool_explain, trace)
}

type ExportOfLines = unsafe extern "C" fn(*const u8, usize, u32, u32, *mut u8, usize, *mut usize, *mut u32) -> u32;

fn text_of_lines(export: ExportOfLines, trace: &[u8], first: u32, last: u32) -> Result<String, BadTrace> {
    let mut line = 0;
    // SAFETY: the trace and the room are there, and apart.
    let made = put(LEAST, |out, room, needed| unsafe { export(trace.as_ptr(), trace.len(), first, last, out, room, needed, &mut line) });
    made.map(|words| String::from_utf8_lossy(&words).into_owned()).map_err(|code| bad(trace, code, line))
}

/// The rows of the trace's lines from first to last, all in one column and with Linux's functions, and then the state behind the last.
pub fn explain_rows(trace: &[u8], first: u32, last: u32) -> Result<String, BadTrace> {
    text_of_lines(sys::hugepool_explain_rows, trace, first, last)
}

/// Rows as lines of JSON: an object of the pool, one of each event of these lines, and one of the state behind the last.
pub fn explain_json(trace: &[u8], first: u32, last: u32) -> Result<String, BadTrace> {
    text_of_lines(sys::hugepool_explain_json, trace, first, last)
}

/// The trace that a text in the loose form asks for, which has comments, blank lines, and steps that are repeated.
pub fn format(loose: &[u8]) -> Result<String, BadTrace> {
    let mut line = 0;
    // SAFETY: the text and the room are there, and apart.
    let made = put(LEAST, |out, room, needed| unsafe { sys::hugepool_format(loose.as_ptr(), loose.len(), out, room, needed, &mut line) });
    made.map(|words| String::from_utf8_lossy(&words).into_owned()).map_err(|_| {
        // SAFETY: the same.
        let told = put(LEAST, |out, room, needed| unsafe { sys::hugepool_format_reason(loose.as_ptr(), loose.len(), out, room, needed) });
        let reason = told.map_or_else(|_| "there was no memory".to_string(), |words| String::from_utf8_lossy(&words).into_owned());
        BadTrace { line: u32::try_from(line).unwrap_or(u32::MAX), reason }
    })
}

/// A picture of the trace, an SVG.
pub fn draw(trace: &[u8]) -> Result<String, BadTrace> {
    text(sys::hugepool_draw, trace)
}

/// How many events the trace has.
pub fn check(trace: &[u8]) -> Result<u32, BadTrace> {
    let (mut events, mut line) = (0, 0);
    // SAFETY: all are there, and apart.
    match unsafe { sys::hugepool_check(trace.as_ptr(), trace.len(), &mut events, &mut line) } {
        0 => Ok(events),
        code => Err(bad(trace, code, line)),
    }
}
