//! Damaged texts: bytes and lines changed as a careless hand or program would.
use crate::random::Random;

/// Bytes that mean something to one reader or another.
const BYTES: &[u8] = b"0123456789  \n\n\r\t\0+-.,_#axAX\x7f\x80\xc3\xef\xff";

/// Numbers at the limits and beyond.
const NUMBERS: &[&str] = &[
    "0", "1", "16", "17", "64", "65", "4095", "4096", "4097", "16384", "65536", "65537", "4294967295", "4294967296", "4294967297",
    "18446744073709551615", "18446744073709551616", "18446744073709551617", "99999999999999999999999999", "00", "01", "+1", "-1",
    "1.0", "0x1", "1e3", "", " 1", "1 ", "1 1",
];

const LINES: &[&str] = &[
    "\n", " \n", "#\n", "pool 1 1 1 1\n", "begin 1\n", "begin 1 \n", "begin 1 exit 1\n", "begin 1 Exit\n", "begin 1 load\n", "begin exit\n",
    "step\n", "step \n", "step 1 1\n", "steps 1\n", "Step 1\n", "kill\n", "deny\n", "resize\n", "resize 1 1\n", "\u{feff}\n",
    "begin 4294967295 allock 4294967295 4294967295 4294967295\n", "begin 4294967295 allock 4294967295 4294967295 4294967295 \n",
];

// where the line begins and ends that a place is in, most often one of the first
fn some_line(text: &[u8], random: &mut Random) -> (usize, usize) {
    let ends: Vec<usize> = text.iter().enumerate().filter(|it| *it.1 == b'\n').map(|it| it.0 + 1).collect();
    if ends.is_empty() { return (0, text.len()); }
    let near = random.below(3) == 0;
    let k = random.place(if near { ends.len().min(2) } else { ends.len() });
    (if k == 0 { 0 } else { ends[k - 1] }, ends[k])
}

// a run of digits in a line is put in place by another number
fn another_number(text: &mut Vec<u8>, random: &mut Random) {
    let (from, to) = some_line(text, random);
    let digits = |at: usize| text[at].is_ascii_digit();
    let starts: Vec<usize> = (from..to).filter(|at| digits(*at) && (*at == from || !digits(at - 1))).collect();
    if starts.is_empty() { return; }
    let start = random.pick(&starts);
    let end = (start..to).find(|at| !digits(*at)).unwrap_or(to);
    let kept = text[start..end].to_vec();
    let number = match random.below(3) {
        0 => [b"0", &kept[..]].concat(),
        _ => random.pick(NUMBERS).as_bytes().to_vec(),
    };
    text.splice(start..end, number);
}

// a number of the header is at its limit, or beyond
fn another_size(text: &mut Vec<u8>, random: &mut Random) {
    let k = random.place(5);
    let limit = [4096, 16, 64, 64, 65_536][k];
    let number = random.pick(&[0, 1, limit, limit + 1]).to_string();
    let end = text.iter().position(|byte| *byte == b'\n').unwrap_or(text.len());
    let mut fields: Vec<Vec<u8>> = text[..end].split(|byte| *byte == b' ').map(<[u8]>::to_vec).collect();
    match fields.get_mut(k + 1) {
        Some(field) => *field = number.into_bytes(),
        None => fields.push(number.into_bytes()),
    }
    text.splice(..end, fields.join(&b' '));
}

// a line gets longer, at about the longest that any can be
fn longer_line(text: &mut Vec<u8>, random: &mut Random) {
    let (from, to) = some_line(text, random);
    let end = to.saturating_sub(1).max(from);
    let wanted = random.within(54, 60) as usize;
    let more = wanted.saturating_sub(end - from);
    text.splice(end..end, vec![random.pick(b" 0a9"); more]);
}

fn carriage_returns(text: &mut Vec<u8>, random: &mut Random) {
    let (from, to) = if random.below(2) == 0 { (0, text.len()) } else { some_line(text, random) };
    let changed: Vec<u8> = text[from..to].iter().flat_map(|byte| if *byte == b'\n' { vec![b'\r', b'\n'] } else { vec![*byte] }).collect();
    text.splice(from..to, changed);
}

fn damage_once(text: &mut Vec<u8>, random: &mut Random) {
    let (from, to) = some_line(text, random);
    if from == to { return; }
    let at = from + random.place(to - from);
    match random.below(15) {
        0 => text[at] = random.pick(BYTES),
        1 => text[at] = random.below(256) as u8,
        2 => text.insert(at, random.pick(BYTES)),
        3 => drop(text.remove(at)),
        4 => text.truncate(at),
        5 => text.truncate(text.len() - 1),
        6 => drop(text.splice(from..from, text[from..to].to_vec())),
        7 => drop(text.drain(from..to)),
        8 => carriage_returns(text, random),
        9 => drop(text.splice(from..from, random.pick(LINES).bytes())),
        10 => longer_line(text, random),
        11 => text[at..].rotate_left(1),
        12 => another_size(text, random),
        _ => another_number(text, random),
    }
}

/// The text with one to three damages. (Some leave it a trace.)
pub fn damage(mut text: Vec<u8>, random: &mut Random) -> Vec<u8> {
    for _ in 0..random.within(1, 3) { damage_once(&mut text, random); }
    if random.happens(20) { text.splice(0..0, *b"\xef\xbb\xbf"); }
    text
}
