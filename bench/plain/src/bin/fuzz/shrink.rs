//! Makes a text smaller by whole lines.

/// The lines of a text, each with its end.
pub fn lines(text: &[u8]) -> Vec<&[u8]> { text.split_inclusive(|byte| *byte == b'\n').collect() }

// Drops each part of so many lines without which it still holds, as long as there is time.
fn without_parts<'a>(
    mut kept: Vec<&'a [u8]>,
    part: usize,
    is_over: impl Fn() -> bool,
    holds: &mut impl FnMut(&[u8]) -> bool,
) -> Vec<&'a [u8]> {
    let mut at = 0;
    while at < kept.len() && !is_over() {
        let end = (at + part).min(kept.len());
        let fewer = [&kept[..at], &kept[end..]].concat();
        if holds(&fewer.concat()) { kept = fewer } else { at = end }
    }
    kept
}

// How many of the first lines are enough for it to hold. Where more lines never make it fail, no fewer are.
fn front(kept: &[&[u8]], is_over: impl Fn() -> bool, holds: &mut impl FnMut(&[u8]) -> bool) -> usize {
    let (mut few, mut enough) = (0, kept.len());
    while few + 1 < enough && !is_over() {
        let middle = (few + enough) / 2;
        if holds(&kept[..middle].concat()) { enough = middle } else { few = middle }
    }
    enough
}

/// A text with some of the lines of this, of which it still holds: what stands behind where it shows is dropped first, then halves,
/// single lines last, and these until none can be, or the time is over.
pub fn least(text: &[u8], is_over: impl Fn() -> bool, mut holds: impl FnMut(&[u8]) -> bool) -> Vec<u8> {
    let mut kept = lines(text);
    kept.truncate(front(&kept, &is_over, &mut holds));
    let mut part = ((kept.len() + 1) / 2).max(1);
    while !is_over() {
        let before = kept.len();
        kept = without_parts(kept, part, &is_over, &mut holds);
        if part > 1 {
            part = (part + 1) / 2;
        } else if kept.len() == before {
            break;
        }
    }
    kept.concat()
}
