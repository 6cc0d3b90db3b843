//! The trace text, read in one pass.

use super::quick::{quick_event, WINDOW};
use super::recorded::{Recorded, Recorder};
use super::{check_one, check_two, DONE, MAX_SAVES, RECEIVE, SAVE, SEND};
use crate::values::halves;
use crate::{Cause, Failure, Refusal};
use crate::{AREA_WORDS, EVENT_BASE, HIGH_BASE, MAX_EVENTS, MAX_PROCS, VALUE_BASE};

/// A place in a text.
struct Cursor<'a> {
    text: &'a [u8],
    at: usize,
}

/// What a line after the first says: process, peer, value.
enum Line {
    Send(usize, usize, u64),
    Receive(usize, usize),
    Save(usize),
    Done(usize),
    Failure(Failure),
}

impl Cursor<'_> {
    /// Passes these bytes if they come next.
    #[inline]
    fn bytes<const LENGTH: usize>(&mut self, bytes: &[u8; LENGTH]) -> Option<()> {
        let next: &[u8; LENGTH] = self.text[self.at..].first_chunk()?;
        if next != bytes {
            return None;
        }
        self.at += LENGTH;
        Some(())
    }

    /// Passes the digit that comes next.
    #[inline]
    fn digit(&mut self) -> Option<u64> {
        let digit = self.text.get(self.at)?.wrapping_sub(b'0');
        if digit > 9 {
            return None;
        }
        self.at += 1;
        Some(u64::from(digit))
    }

    /// Passes the number that comes next, without leading zeros; `append` puts a digit to it, unless
    /// it becomes too large.
    #[inline]
    fn number(&mut self, append: impl Fn(u64, u64) -> Option<u64>) -> Option<u64> {
        let mut number = self.digit()?;
        if number == 0 {
            return Some(0); // a digit after it is not what any line has there
        }
        while let Some(digit) = self.digit() {
            number = append(number, digit)?;
        }
        Some(number)
    }

    /// A number of 32 bits.
    #[inline]
    fn word(&mut self) -> Option<u32> {
        let largest = u64::from(u32::MAX);
        let number = self.number(|number, digit| {
            let longer = 10 * number + digit;
            (longer <= largest).then_some(longer)
        });
        number.map(|number| number as u32)
    }

    /// A number of 64 bits.
    #[inline]
    fn two_words(&mut self) -> Option<u64> {
        let tenth = u64::MAX / 10;
        self.number(|number, digit| {
            if number < tenth {
                Some(10 * number + digit)
            } else {
                number.checked_mul(10)?.checked_add(digit)
            }
        })
    }

    fn process(&mut self) -> Option<usize> {
        self.word().map(|number| number as usize)
    }

    fn process_count(&mut self) -> Option<u32> {
        self.bytes(b"procs=")?;
        let count = self.word()?;
        self.bytes(b"\n")?;
        Some(count)
    }

    /// An event line, or a failure line where that is due.
    #[inline]
    fn line(&mut self, failure_due: bool) -> Option<Line> {
        if self.bytes(b"ev=").is_some() {
            self.event()
        } else if failure_due {
            self.failure().map(Line::Failure)
        } else {
            None
        }
    }

    fn failure(&mut self) -> Option<Failure> {
        self.bytes(b"fail=")?;
        let step = u64::from(self.word()?);
        self.bytes(b" set=")?;
        let set = self.two_words()?;
        self.bytes(b"\n")?;
        Some(Failure { step, set })
    }

    /// An event line after its `ev=`.
    fn event(&mut self) -> Option<Line> {
        let line = if self.bytes(b"send at=").is_some() {
            let at = self.process()?;
            self.bytes(b" to=")?;
            let to = self.process()?;
            self.bytes(b" val=")?;
            Line::Send(at, to, self.two_words()?)
        } else if self.bytes(b"recv at=").is_some() {
            let at = self.process()?;
            self.bytes(b" from=")?;
            Line::Receive(at, self.process()?)
        } else if self.bytes(b"save at=").is_some() {
            Line::Save(self.process()?)
        } else {
            self.bytes(b"done at=")?;
            Line::Done(self.process()?)
        };
        self.bytes(b"\n")?;
        Some(line)
    }
}

/// What takes the events of a text, each with its number e from 1, or says why one is not fit.
pub(super) trait Sink {
    fn send(&mut self, e: usize, at: usize, to: usize, value: u64) -> Result<(), Cause>;
    fn receive(&mut self, e: usize, at: usize, from: usize) -> Result<(), Cause>;
    fn save(&mut self, e: usize, at: usize) -> Result<(), Cause>;
    fn done(&mut self, e: usize, at: usize) -> Result<(), Cause>;
}

/// Reads a text into the table area, which is zero after a refusal. With a failure line the failure
/// is given, without one a failure of zeros.
pub(super) fn read(
    text: &[u8],
    table: &mut [u32; AREA_WORDS],
    with_failure: bool,
) -> Result<Failure, Refusal> {
    let read = read_lines(text, with_failure, |procs| IntoTable::new(procs, table));
    let counted = read.map(|(sink, events, failure)| (sink.procs, events, failure));
    let (procs, events, failure) = counted.inspect_err(|_| table.fill(0))?;
    // what the events have not filled
    table[..=EVENT_BASE].fill(0);
    table[EVENT_BASE + 1 + events..=VALUE_BASE].fill(0);
    table[VALUE_BASE + 1 + events..=HIGH_BASE].fill(0);
    table[HIGH_BASE + 1 + events..].fill(0);
    table[0] = procs as u32;
    table[1] = events as u32;
    Ok(failure)
}

/// The shortest event line has so many bytes.
const SHORTEST_EVENT: usize = b"ev=save at=0\n".len();

/// The longest failure line has so many bytes.
const LONGEST_FAILURE: usize = b"fail=4294967295 set=18446744073709551615\n".len();

/// The trace of a text with its failure line, with the cut there, and the failed processes.
pub(super) fn record(text: &[u8]) -> Result<(Recorded, u64), Refusal> {
    // if the text is accepted, its last line is the failure line, of which only the first byte is an
    // `f`; else it does not matter which step this is
    let last = &text[text.len().saturating_sub(LONGEST_FAILURE)..];
    let at = last.iter().rposition(|&byte| byte == b'f').unwrap_or(0);
    let failure = Cursor { text: last, at }.failure();
    let step = failure.map_or(0, |failure| failure.step);
    let most = text.len() / SHORTEST_EVENT;
    let begin = |procs| Recorder::new(procs, most, step);
    let (recorder, events, failure) = read_lines(text, true, begin)?;
    Ok((recorder.recorded(events, failure)?, failure.set))
}

/// Gives the events of a text to the sink that is begun with its count of processes; answers that
/// sink, how many events there are, and the failure.
#[inline(always)]
fn read_lines<S: Sink>(
    text: &[u8],
    with_failure: bool,
    begin: impl FnOnce(usize) -> S,
) -> Result<(S, usize, Failure), Refusal> {
    let mut cursor = Cursor { text, at: 0 };
    let procs = cursor
        .process_count()
        .ok_or_else(|| Refusal::new(Cause::Form, 1))?;
    if !(2..=MAX_PROCS as u32).contains(&procs) {
        return Err(Refusal::new(Cause::ProcessCount, 1));
    }
    let mut sink = begin(procs as usize);
    let mut rest = &text[cursor.at..];
    // event e is in line e + 1
    let mut e = 1;
    loop {
        let window = rest.first_chunk::<WINDOW>();
        let taken = match window.and_then(|line| quick_event(line, e, &mut sink)) {
            Some(taken) => taken,
            None if rest.is_empty() && !with_failure => {
                return Ok((sink, e - 1, Failure { step: 0, set: 0 }));
            }
            None => {
                let read = slow_line(rest, with_failure);
                let (line, length) = read.ok_or_else(|| Refusal::new(Cause::Form, e + 1))?;
                let taken = match line {
                    Line::Send(at, to, value) => sink.send(e, at, to, value),
                    Line::Receive(at, from) => sink.receive(e, at, from),
                    Line::Save(at) => sink.save(e, at),
                    Line::Done(at) => sink.done(e, at),
                    Line::Failure(failure) if length == rest.len() => {
                        return Ok((sink, e - 1, failure));
                    }
                    Line::Failure(_) => return Err(Refusal::new(Cause::Form, e + 2)),
                };
                taken.map(|()| length)
            }
        };
        let length = taken.map_err(|cause| Refusal::new(cause, e + 1))?;
        rest = &rest[length..];
        e += 1;
    }
}

/// Any line after the first, with its length.
#[cold]
#[inline(never)]
fn slow_line(text: &[u8], failure_due: bool) -> Option<(Line, usize)> {
    let mut cursor = Cursor { text, at: 0 };
    let line = cursor.line(failure_due)?;
    Some((line, cursor.at))
}

/// A table area that is being filled, with what the next event may take.
struct IntoTable<'a> {
    table: &'a mut [u32; AREA_WORDS],
    procs: usize,
    /// By sender and receiver.
    in_transit: Vec<u16>,
    saves: [u8; MAX_PROCS],
    unfinished: [u8; MAX_PROCS],
}

impl<'a> IntoTable<'a> {
    fn new(procs: usize, table: &'a mut [u32; AREA_WORDS]) -> Self {
        IntoTable {
            table,
            procs,
            in_transit: vec![0; procs * procs],
            saves: [0; MAX_PROCS],
            unfinished: [0; MAX_PROCS],
        }
    }

    /// Whether there can be an event of this number.
    #[inline(always)]
    fn within_limit(e: usize) -> Result<(), Cause> {
        match e {
            0..=MAX_EVENTS => Ok(()),
            _ => Err(Cause::Events),
        }
    }

    /// Puts down an event. (The remainder is the number itself, which spares tests of its bound.)
    #[inline(always)]
    fn put(&mut self, e: usize, kind: u8, at: usize, peer: usize, value: u64) {
        let e = e % (2 * MAX_EVENTS);
        self.table[EVENT_BASE + e] = (at | peer << 6) as u32 | u32::from(kind) << 12;
        [self.table[VALUE_BASE + e], self.table[HIGH_BASE + e]] = halves(value);
    }
}

impl Sink for IntoTable<'_> {
    #[inline(always)]
    fn send(&mut self, e: usize, at: usize, to: usize, value: u64) -> Result<(), Cause> {
        Self::within_limit(e)?;
        check_two(at, to, self.procs)?;
        self.in_transit[at * self.procs + to] += 1;
        self.put(e, SEND, at, to, value);
        Ok(())
    }

    #[inline(always)]
    fn receive(&mut self, e: usize, at: usize, from: usize) -> Result<(), Cause> {
        Self::within_limit(e)?;
        check_one(at, self.procs)?;
        check_one(from, self.procs)?;
        let waiting = &mut self.in_transit[from * self.procs + at];
        if *waiting == 0 {
            // nor is anything ever in transit from a process to itself
            check_two(at, from, self.procs)?;
            return Err(Cause::NothingInTransit);
        }
        *waiting -= 1;
        self.put(e, RECEIVE, at, from, 0);
        Ok(())
    }

    #[inline(always)]
    fn save(&mut self, e: usize, at: usize) -> Result<(), Cause> {
        Self::within_limit(e)?;
        let process = check_one(at, self.procs)?;
        if self.saves[process] == MAX_SAVES {
            return Err(Cause::Saves);
        }
        self.saves[process] += 1;
        self.unfinished[process] += 1;
        self.put(e, SAVE, at, 0, 0);
        Ok(())
    }

    #[inline(always)]
    fn done(&mut self, e: usize, at: usize) -> Result<(), Cause> {
        Self::within_limit(e)?;
        let process = check_one(at, self.procs)?;
        let unfinished = &mut self.unfinished[process];
        *unfinished = unfinished.checked_sub(1).ok_or(Cause::NothingUnfinished)?;
        self.put(e, DONE, at, 0, 0);
        Ok(())
    }
}
