//! Lines of keys and numbers, written to a buffer.

/// No line that is written is longer.
const LONGEST: usize = 64;

/// Where a line is written: twice as long, so that nothing that begins within the longest line is past
/// its end.
type Room = [u8; 2 * LONGEST];

/// A line that is being written.
pub(super) struct Line<'a> {
    room: &'a mut Room,
    length: usize,
}

impl Line<'_> {
    /// Writes these bytes.
    #[inline(always)]
    pub fn key<const LENGTH: usize>(&mut self, key: &[u8; LENGTH]) {
        self.length = put(self.room, self.length, key);
    }

    /// Writes a key with what stands before it, and its number.
    #[inline(always)]
    pub fn pair<const LENGTH: usize>(&mut self, key: &[u8; LENGTH], number: u64) {
        self.key(key);
        self.length = if number < 100 {
            put_two(self.room, self.length, number)
        } else {
            put_number(self.room, self.length, number)
        };
    }
}

/// The digits of the numbers below 100.
const PAIRS: [[u8; 2]; 100] = {
    let mut pairs = [[0; 2]; 100];
    let mut number = 0;
    while number < 100 {
        pairs[number] = [b'0' + number as u8 / 10, b'0' + number as u8 % 10];
        number += 1;
    }
    pairs
};

/// The last two digits of a number.
#[inline(always)]
fn pair(number: u64) -> [u8; 2] {
    PAIRS[number as usize % 100]
}

/// The last four digits of a number.
#[inline(always)]
fn four(number: u64) -> [u8; 4] {
    let [a, b] = pair(number / 100);
    let [c, d] = pair(number);
    [a, b, c, d]
}

/// Puts bytes at a place, and gives the place after them. (The remainder is the place itself, which
/// spares a test of its bound.)
#[inline(always)]
fn put<const LENGTH: usize>(room: &mut Room, place: usize, bytes: &[u8; LENGTH]) -> usize {
    let place = place % LONGEST;
    room[place..][..LENGTH].copy_from_slice(bytes);
    place + LENGTH
}

/// Puts a number of up to two digits.
#[inline(always)]
fn put_two(room: &mut Room, place: usize, number: u64) -> usize {
    if number < 10 {
        put(room, place, &[b'0' + number as u8])
    } else {
        put(room, place, &pair(number))
    }
}

/// Puts a number of up to four digits.
#[inline(always)]
fn put_four(room: &mut Room, place: usize, number: u64) -> usize {
    if number < 100 {
        put_two(room, place, number)
    } else {
        let place = put_two(room, place, number / 100);
        put(room, place, &pair(number))
    }
}

/// Puts a number of up to eight digits.
#[inline(always)]
fn put_eight(room: &mut Room, place: usize, number: u64) -> usize {
    if number < 10_000 {
        put_four(room, place, number)
    } else {
        let place = put_four(room, place, number / 10_000);
        put(room, place, &four(number % 10_000))
    }
}

/// Puts a number.
#[inline(never)]
fn put_number(room: &mut Room, place: usize, number: u64) -> usize {
    const EIGHT: u64 = 100_000_000;
    if number < EIGHT {
        return put_eight(room, place, number);
    }
    let place = put_number(room, place, number / EIGHT);
    let last = number % EIGHT;
    let place = put(room, place, &four(last / 10_000));
    put(room, place, &four(last % 10_000))
}

/// Lines written one after the other, as far as there is room.
pub(super) struct Lines<'a> {
    out: &'a mut [u8],
    length: usize,
    /// Where lines are written first if they may not have room.
    spare: Room,
}

impl<'a> Lines<'a> {
    pub fn new(out: &'a mut [u8]) -> Self {
        Lines {
            out,
            length: 0,
            spare: [0; 2 * LONGEST],
        }
    }

    /// How many bytes have been written.
    pub fn length(&self) -> usize {
        self.length
    }

    /// Writes a line.
    #[inline(always)]
    pub fn line(&mut self, write: impl FnOnce(&mut Line)) {
        let out = &mut self.out[self.length..];
        let has_room = out.len() >= self.spare.len();
        let room = out.first_chunk_mut().unwrap_or(&mut self.spare);
        let mut line = Line { room, length: 0 };
        write(&mut line);
        let length = line.length;
        if has_room {
            self.length += length;
        } else {
            let length = length.min(out.len());
            out[..length].copy_from_slice(&self.spare[..length]);
            self.length += length;
        }
    }
}
