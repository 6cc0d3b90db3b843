//! The text of a trace, written from its table area.

use super::lines::Lines;
use super::table::{unpack, Words};
use super::{RECEIVE, SAVE, SEND};
use crate::values::from_halves;
use crate::{Cause, Refusal, AREA_WORDS};

/// The longest first line and the longest event line have so many bytes.
const LONGEST_FIRST: usize = b"procs=64\n".len();
const LONGEST_EVENT: usize = b"ev=send at=63 to=62 val=18446744073709551615\n".len();

/// Writes the text of the trace in a table area, and gives its length, or refusal 13 or 14.
pub(super) fn write(table: &[u32; AREA_WORDS], out: &mut [u8]) -> Result<usize, Refusal> {
    let words = Words::of(table)
        .filter(Words::hold_trace)
        .ok_or_else(|| Refusal::new(Cause::Table, 0))?;
    // where there is room for every text of so many events, its length need not be known
    let surely = LONGEST_FIRST + LONGEST_EVENT * words.count();
    if out.len() < surely && out.len() < length(&words) {
        return Err(Refusal::new(Cause::Buffer, 0));
    }
    let mut lines = Lines::new(out);
    lines.line(|line| {
        line.pair(b"procs=", words.procs as u64);
        line.key(b"\n");
    });
    for (word, low, high) in words.events() {
        let (kind, at, peer) = unpack(word);
        let (at, peer) = (at as u64, peer as u64);
        if kind == u32::from(SEND) {
            lines.line(|line| {
                line.pair(b"ev=send at=", at);
                line.pair(b" to=", peer);
                line.pair(b" val=", from_halves(low, high));
                line.key(b"\n");
            });
        } else if kind == u32::from(RECEIVE) {
            lines.line(|line| {
                line.pair(b"ev=recv at=", at);
                line.pair(b" from=", peer);
                line.key(b"\n");
            });
        } else if kind == u32::from(SAVE) {
            lines.line(|line| {
                line.pair(b"ev=save at=", at);
                line.key(b"\n");
            });
        } else {
            lines.line(|line| {
                line.pair(b"ev=done at=", at);
                line.key(b"\n");
            });
        }
    }
    Ok(lines.length())
}

/// The length of the text.
fn length(words: &Words) -> usize {
    let first = b"procs=\n".len() + 1 + usize::from(words.procs > 9);
    let events = words.events().map(|(word, low, high)| {
        let (kind, at, peer) = unpack(word);
        let processes = 2 + usize::from(at > 9) + usize::from(peer > 9);
        if kind == u32::from(SEND) {
            let digits = digits(from_halves(low, high));
            b"ev=send at= to= val=\n".len() + processes + digits
        } else if kind == u32::from(RECEIVE) {
            b"ev=recv at= from=\n".len() + processes
        } else {
            // a save or a done has no peer, whose digit is not there
            b"ev=save at=\n".len() + processes - 1
        }
    });
    first + events.sum::<usize>()
}

/// How many digits a number has.
#[inline]
fn digits(number: u64) -> usize {
    const POWERS: [u64; 20] = {
        let mut powers = [1; 20];
        let mut i = 1;
        while i < powers.len() {
            powers[i] = 10 * powers[i - 1];
            i += 1;
        }
        powers
    };
    // as many as 1, if it is 0
    let number = number.max(1);
    // a bit more than 3 / 10 of its bits; one more where that many digits are too few
    let bits = (64 - number.leading_zeros()) as usize;
    let fewer = (bits * 1_233) >> 12;
    fewer + usize::from(number >= POWERS[fewer])
}
