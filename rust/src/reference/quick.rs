//! Event lines of the usual form, read by several bytes at a time.

use super::reader::Sink;
use crate::Cause;

/// Every event line fits into so many bytes, with some to spare, so that eight can be read anywhere
/// in it.
pub(super) const WINDOW: usize = 64;

type Window = [u8; WINDOW];

/// Gives the event of the line that begins here to the sink, as event e, and answers the length of
/// the line with its line feed. None where the line is no event line, and for some that are, such as
/// with a process of three digits.
#[inline(always)]
pub(super) fn quick_event(
    line: &Window,
    e: usize,
    sink: &mut impl Sink,
) -> Option<Result<usize, Cause>> {
    const SEND: u64 = u64::from_le_bytes(*b"ev=send ");
    const RECEIVE: u64 = u64::from_le_bytes(*b"ev=recv ");
    const SAVE: u64 = u64::from_le_bytes(*b"ev=save ");
    const DONE: u64 = u64::from_le_bytes(*b"ev=done ");
    let kind = u64::from_le_bytes(*bytes(line, 0));
    let place = key(line, 7, b" at=")?;
    if kind == SEND {
        let (at, place) = process(line, place)?;
        let (to, place) = process(line, key(line, place, b" to=")?)?;
        let place = key(line, place, b" val")?;
        let (value, place) = value(line, key(line, place, b"=")?)?;
        let length = key(line, place, b"\n")?;
        Some(sink.send(e, at, to, value).map(|()| length))
    } else if kind == RECEIVE {
        let (at, place) = process(line, place)?;
        let place = key(line, place, b" fro")?;
        let (from, place) = process(line, key(line, place, b"m=")?)?;
        let length = key(line, place, b"\n")?;
        Some(sink.receive(e, at, from).map(|()| length))
    } else if kind == SAVE {
        let (at, place) = process(line, place)?;
        let length = key(line, place, b"\n")?;
        Some(sink.save(e, at).map(|()| length))
    } else if kind == DONE {
        let (at, place) = process(line, place)?;
        let length = key(line, place, b"\n")?;
        Some(sink.done(e, at).map(|()| length))
    } else {
        None
    }
}

/// The bytes at a place.
#[inline(always)]
fn bytes<const LENGTH: usize>(line: &Window, place: usize) -> &[u8; LENGTH] {
    line[place..].first_chunk().expect("the line has them")
}

/// The place after these bytes, if they are at this place.
#[inline(always)]
fn key<const LENGTH: usize>(line: &Window, place: usize, key: &[u8; LENGTH]) -> Option<usize> {
    (bytes(line, place) == key).then_some(place + LENGTH)
}

/// The digit at a place, or more than 9.
#[inline(always)]
fn digit(line: &Window, place: usize) -> u8 {
    line[place].wrapping_sub(b'0')
}

/// A number of one or two digits, without a leading zero, and the place after it.
#[inline(always)]
fn process(line: &Window, place: usize) -> Option<(usize, usize)> {
    let first = digit(line, place);
    let second = digit(line, place + 1);
    if first > 9 {
        None
    } else if second > 9 {
        Some((usize::from(first), place + 1))
    } else if first != 0 {
        Some((10 * usize::from(first) + usize::from(second), place + 2))
    } else {
        None
    }
}

/// A number of 64 bits, without leading zeros, and the place after it.
#[inline(always)]
fn value(line: &Window, place: usize) -> Option<(u64, usize)> {
    let first = digit(line, place);
    if first > 9 {
        return None;
    }
    if line[place + 1] == b'\n' {
        return Some((u64::from(first), place + 1));
    }
    if first == 0 {
        return None;
    }
    let (number, count) = digits(bytes(line, place));
    if count < 8 {
        Some((number, place + count))
    } else {
        more_digits(line, place + 8, number)
    }
}

/// A number that begins with eight digits, which are before this place, and the place after it.
#[inline]
fn more_digits(line: &Window, place: usize, eight: u64) -> Option<(u64, usize)> {
    // a number has at most 20 digits, of which 19 are never too many
    let more: &[u8; 12] = bytes(line, place);
    let mut number = eight;
    for (i, byte) in more.iter().enumerate() {
        let digit = u64::from(byte.wrapping_sub(b'0'));
        if digit > 9 {
            return Some((number, place + i));
        }
        number = match i {
            0..11 => 10 * number + digit,
            _ => number.checked_mul(10)?.checked_add(digit)?,
        };
    }
    Some((number, place + more.len()))
}

/// How many of these bytes are digits, from the first on, and the number they make.
#[inline(always)]
fn digits(bytes: &[u8; 8]) -> (u64, usize) {
    // each byte less `0`: of a digit at most 9, which 0x76 more leaves below 0x80. What that carries
    // out of another byte comes into bytes after it only
    let each = u64::from_le_bytes(*bytes) ^ 0x3030_3030_3030_3030;
    let others = (each.wrapping_add(0x7676_7676_7676_7676) | each) & 0x8080_8080_8080_8080;
    let count = others.trailing_zeros() / 8;
    // the last digit into the highest byte, so that zeros are before the first; by halves, since
    // nothing can be shifted by 64 at once
    let half = 32 - 4 * count;
    let all = each << half << half;
    // neighbours together: into numbers of two digits, of four, of eight
    let twos = all.wrapping_mul(10 << 8 | 1) >> 8 & 0x00ff_00ff_00ff_00ff;
    let fours = twos.wrapping_mul(100 << 16 | 1) >> 16 & 0x0000_ffff_0000_ffff;
    let eight = fours.wrapping_mul(10_000 << 32 | 1) >> 32;
    (eight, count as usize)
}
