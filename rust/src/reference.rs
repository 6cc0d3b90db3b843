//! The requirements implemented anew, for speed, and without regard to the engine's sources.
//!
//! Same calls, answers and areas as the engine's, so that the two can be compared word for word.
//! Every call takes time in proportion to the text, the events, the order and the fixed size of the
//! areas, whatever the processes do.
//!
//! ```
//! use hallback::{reference, Failure, AREA_WORDS};
//!
//! let mut table = vec![0; AREA_WORDS];
//! reference::read(b"procs=2\nev=send at=0 to=1 val=7\nev=recv at=1 from=0\n", &mut table)?;
//! let restart = reference::restart(&table, Failure { step: 1, set: 0b10 })?;
//! assert_eq!(restart.line(), [32, 1]);
//! # Ok::<(), hallback::Refusal>(())
//! ```

use crate::{Cause, Counts, Failure, Refusal, Replayed, Restart, AREA_WORDS};
use crate::{HIGH_BASE, MAX_EVENTS, MAX_PROCS, TAKEN_BASE, TAKEN_HIGH_BASE, VALUE_BASE};
use crate::{ROW_BASE, ROW_NUMBER_BASE, ROW_PHASE_BASE};

mod lines;
mod machine;
mod quick;
mod reader;
mod recorded;
mod report;
mod table;
#[cfg(test)]
mod tests;
mod trace_text;

pub use machine::{Machine, NotAllowed};
use recorded::{Event, Recorded};
pub use report::report;

/// The kinds of events, as in a table area.
const DONE: u8 = 0;
const SEND: u8 = 1;
const RECEIVE: u8 = 2;
const SAVE: u8 = 3;

/// The most saves of a process.
const MAX_SAVES: u8 = 30;

/// A process of an event, if it is one of so many. (The remainder is the number itself, which spares
/// tests of its bound.)
#[inline(always)]
fn check_one(at: usize, procs: usize) -> Result<usize, Cause> {
    match at < procs {
        true => Ok(at % MAX_PROCS),
        false => Err(Cause::Process),
    }
}

/// The process of an event, if that and its peer are two of so many.
#[inline(always)]
fn check_two(at: usize, peer: usize, procs: usize) -> Result<usize, Cause> {
    if at >= procs || peer >= procs {
        Err(Cause::Process)
    } else if at == peer {
        Err(Cause::Itself)
    } else {
        Ok(at % MAX_PROCS)
    }
}

/// The words of a lent area that are used, or refusal 12.
fn area(words: &[u32]) -> Result<&[u32; AREA_WORDS], Refusal> {
    words
        .first_chunk()
        .ok_or_else(|| Refusal::new(Cause::Area, 0))
}

/// The words of a lent area that are used, to be written, or refusal 12.
fn area_mut(words: &mut [u32]) -> Result<&mut [u32; AREA_WORDS], Refusal> {
    words
        .first_chunk_mut()
        .ok_or_else(|| Refusal::new(Cause::Area, 0))
}

/// Reads a trace text without a failure line into the table area.
pub fn read(text: &[u8], table: &mut [u32]) -> Result<(), Refusal> {
    reader::read(text, area_mut(table)?, false).map(|_| ())
}

/// Reads a trace text whose last line is a failure line into the table area, and gives the failure
/// as it stands in the text.
pub fn read_failure(text: &[u8], table: &mut [u32]) -> Result<Failure, Refusal> {
    reader::read(text, area_mut(table)?, true)
}

/// Writes the text of the trace in the table area, and gives its length. Bytes past it stay.
pub fn write(table: &[u32], out: &mut [u8]) -> Result<usize, Refusal> {
    trace_text::write(area(table)?, out)
}

/// Finds the greatest restart line without a lost message.
pub fn restart(table: &[u32], failure: Failure) -> Result<Restart, Refusal> {
    let recorded = Recorded::load(area(table)?, failure)?;
    let line = recorded.greatest_line(failure.set);
    Ok(recorded.restart(&line))
}

/// Lists orphans, kept and lost messages of a line in the run area, and counts them.
pub fn messages(
    table: &[u32],
    failure: Failure,
    line: &[u32],
    run: &mut [u32],
) -> Result<Counts, Refusal> {
    let table = area(table)?;
    let run = area_mut(run)?;
    let mut recorded = Recorded::load(table, failure)?;
    let restarts = recorded.restarts(line, failure.set)?;
    let (sends, counts) = recorded.messages(&restarts);
    run.fill(0);
    run[0] = counts.orphans as u32;
    run[1] = counts.kept as u32;
    run[2] = counts.lost as u32;
    for (i, &e) in (1..=MAX_EVENTS).zip(&sends) {
        let send = recorded.event(e);
        let class = send.class as u32;
        run[ROW_BASE + i] = u32::from(send.at) | u32::from(send.peer) << 6 | class << 12;
        run[ROW_NUMBER_BASE + i] = u32::from(send.number);
        run[ROW_PHASE_BASE + i] = u32::from(send.phase);
    }
    Ok(counts)
}

/// A delivery record that is being made.
struct Record<'a> {
    table: &'a [u32; AREA_WORDS],
    run: &'a mut [u32; AREA_WORDS],
}

impl<'a> Record<'a> {
    /// With nothing in it.
    fn new(table: &'a [u32; AREA_WORDS], run: &'a mut [u32; AREA_WORDS]) -> Self {
        run.fill(0);
        Record { table, run }
    }

    /// Records that event `receive` took the message that event `message` sent.
    #[inline]
    fn receive(&mut self, events: &[Event], receive: usize, message: usize) {
        let number = events[message].number;
        // the remainders are the numbers themselves, which spares tests of bounds
        let (receive, message) = (receive % (2 * MAX_EVENTS), message % (2 * MAX_EVENTS));
        self.run[receive] = u32::from(number);
        self.run[TAKEN_BASE + receive] = self.table[VALUE_BASE + message];
        self.run[TAKEN_HIGH_BASE + receive] = self.table[HIGH_BASE + message];
    }
}

/// Carries out an order from a line, and leaves the delivery record in the run area.
pub fn replay(
    table: &[u32],
    failure: Failure,
    line: &[u32],
    order: &[u16],
    run: &mut [u32],
) -> Result<Replayed, Refusal> {
    let table = area(table)?;
    let run = area_mut(run)?;
    let mut recorded = Recorded::load(table, failure)?;
    let restarts = recorded.restarts(line, failure.set)?;
    let mut record = Record::new(table, run);
    let mut machine = Machine::new(&mut recorded, &restarts, |events, receive, message| {
        record.receive(events, receive, message);
    });
    for (place, &choice) in (1..).zip(order) {
        match machine.carry_out(choice) {
            Ok(None) => {}
            Ok(Some((receive, message))) => record.receive(machine.events(), receive, message),
            Err(NotAllowed) => {
                run.fill(0);
                return Err(Refusal::new(Cause::Choice, place));
            }
        }
    }
    Ok(Replayed {
        steps: order.len() as u64,
        complete: machine.complete(),
    })
}

/// Carries out the order that always picks the lowest allowed choice, as [`replay`] does an order.
pub fn lowest(
    table: &[u32],
    failure: Failure,
    line: &[u32],
    run: &mut [u32],
) -> Result<Replayed, Refusal> {
    let table = area(table)?;
    let run = area_mut(run)?;
    let mut recorded = Recorded::load(table, failure)?;
    let restarts = recorded.restarts(line, failure.set)?;
    let mut record = Record::new(table, run);
    let machine = Machine::new(&mut recorded, &restarts, |events, receive, message| {
        record.receive(events, receive, message);
    });
    let receive = |events: &[Event], receive, message| record.receive(events, receive, message);
    let steps = machine.lowest(receive, |_| {});
    Ok(Replayed {
        steps,
        complete: true,
    })
}

/// How many steps every complete order from a line has, if the line loses no message, found without
/// carrying one out: the events after the restarts and the kept messages. No order from any line has
/// more.
pub fn exact_steps(table: &[u32], failure: Failure, line: &[u32]) -> Result<u64, Refusal> {
    let mut recorded = Recorded::load(area(table)?, failure)?;
    let restarts = recorded.restarts(line, failure.set)?;
    let (_, counts) = recorded.messages(&restarts);
    Ok(recorded.listed(&restarts) as u64 + counts.kept)
}

/// Gives `visit` a machine at the restarts of a line, to try choices on.
pub fn with_machine<T>(
    table: &[u32],
    failure: Failure,
    line: &[u32],
    visit: impl FnOnce(&mut Machine) -> T,
) -> Result<T, Refusal> {
    let mut recorded = Recorded::load(area(table)?, failure)?;
    let restarts = recorded.restarts(line, failure.set)?;
    let mut machine = Machine::new(&mut recorded, &restarts, |_, _, _| {});
    Ok(visit(&mut machine))
}

/// The order that always picks the lowest allowed choice, found by looking at all choices each time.
pub fn lowest_order(table: &[u32], failure: Failure, line: &[u32]) -> Result<Vec<u16>, Refusal> {
    with_machine(table, failure, line, |machine| {
        let mut order = Vec::new();
        loop {
            let lowest = machine.choices().next();
            let Some(choice) = lowest else {
                return order;
            };
            machine.carry_out(choice).expect("the choice is allowed");
            order.push(choice);
        }
    })
}

/// The same order as [`lowest_order`], found as [`lowest`] finds it.
pub fn quick_lowest_order(
    table: &[u32],
    failure: Failure,
    line: &[u32],
) -> Result<Vec<u16>, Refusal> {
    let mut recorded = Recorded::load(area(table)?, failure)?;
    let restarts = recorded.restarts(line, failure.set)?;
    let machine = Machine::new(&mut recorded, &restarts, |_, _, _| {});
    let mut order = Vec::new();
    machine.lowest(|_, _, _| {}, |choice| order.push(choice as u16));
    Ok(order)
}

/// The members of a set, from the lowest.
#[inline]
fn members(mut set: u64) -> impl Iterator<Item = usize> {
    std::iter::from_fn(move || {
        (set != 0).then(|| {
            let lowest = set.trailing_zeros() as usize;
            set &= set - 1;
            lowest
        })
    })
}
