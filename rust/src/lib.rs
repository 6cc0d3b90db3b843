//! Restart and replay of a recorded run of message-passing processes, from Rust.
//!
//! The functions at the root of this crate call the proved engine, a static archive
//! (`../target/staticlib/libcapi.a`); they are there only if that archive was there when the crate
//! was built. [`mod@reference`] has the same functions written anew in Rust, to compare with, and
//! [`exact_steps`](reference::exact_steps), the steps of a replay counted without one; [`shapes`]
//! makes traces to try both on, [`family`] those that are timed.
//!
//! What is lent: a table area, which reading a trace fills and every other call takes, and a run
//! area, in which [`messages`](reference::messages) leaves its list and
//! [`replay`](reference::replay) its delivery record. Both have [`AREA_WORDS`] words; longer slices
//! are fine, words past that number are never touched. `docs/LAYOUT.md` has them word by word.
//! [`write`](reference::write) gives the text of a table area again, in a lent byte buffer.
//!
//! What areas hold is read by iterators that look into them: [`events`] of a table area, [`rows`] of a
//! list of messages, [`deliveries`] of a delivery record.
//!
//! Values have 64 bits, which an area has as two words: [`value`], [`set_value`] and [`taken_value`]
//! take and give them whole.
//!
//! A restart line ([`RecoveryLine`]) has a number for each process: an epoch that is finished at the
//! cut, the moment of the failure, or [`STAY`]. A save begins an epoch, which is unfinished, the save still being
//! written, until a done; a done finishes the oldest unfinished save of its process. Epoch 1, the
//! start, is always finished.
//!
#![cfg_attr(
    hallback_archive,
    doc = r#"
```
use hallback::{Failure, AREA_WORDS};

let mut table = vec![0; AREA_WORDS];
let mut run = vec![0; AREA_WORDS];
hallback::read(b"procs=2\nev=send at=0 to=1 val=7\nev=recv at=1 from=0\n", &mut table)?;

let failure = Failure { step: 1, set: 0b10 };
let restart = hallback::restart(&table, failure)?;
assert_eq!(restart.line(), [32, 1]);

let counts = hallback::messages(&table, failure, restart.line(), &mut run)?;
assert_eq!(counts.kept, 1);
for row in hallback::rows(&run) {
    assert_eq!(row.to_string(), "kept from=0 to=1 no=1 phase=1");
}

let replayed = hallback::replay(&table, failure, restart.line(), &[65, 1], &mut run)?;
assert!(replayed.complete);
assert_eq!(hallback::deliveries(&table, &run).on(0, 1).next().unwrap().value, 7);
# Ok::<(), hallback::Refusal>(())
```
"#
)]
#![warn(missing_docs)]

use std::error::Error;
use std::fmt;

mod areas;
#[cfg(hallback_archive)]
mod engine;
pub mod family;
#[cfg(test)]
mod in_step;
#[cfg(hallback_archive)]
pub mod raw;
mod recovery_line;
pub mod reference;
pub mod shapes;
mod values;

pub use areas::{deliveries, event, events, hand_over, procs, rows, sent};
pub use areas::{Class, Deliveries, Delivery, Event, Events, Kind, Row, Rows};
#[cfg(hallback_archive)]
pub use engine::{lowest, messages, read, read_failure, replay, report, restart, write};
pub use recovery_line::RecoveryLine;
pub use values::{set_value, taken_value, value};

/// How many words of a lent area are used; a shorter area is refused with 12.
pub const AREA_WORDS: usize = 16_384;

/// The most processes a trace can have.
pub const MAX_PROCS: usize = 64;

/// The most events a trace can have.
pub const MAX_EVENTS: usize = 2_048;

/// The number in a restart line of a process that stays as it was at the cut.
pub const STAY: u32 = 32;

/// Word `EVENT_BASE + e` of a table area is event e, from 1 ([`event`] takes it apart).
pub const EVENT_BASE: usize = 16;

/// Word `VALUE_BASE + e` of a table area is the low half of the [`value`] that event e sends.
pub const VALUE_BASE: usize = 2_065;

/// Word `HIGH_BASE + e` of a table area is the high half of the [`value`] that event e sends.
pub const HIGH_BASE: usize = 4_114;

/// Word e of a delivery record is the number of the message that event e received, word
/// `TAKEN_BASE + e` the low half of its value ([`taken_value`]).
pub const TAKEN_BASE: usize = 2_049;

/// Word `TAKEN_HIGH_BASE + e` of a delivery record is the high half of the value of the message that
/// event e received.
pub const TAKEN_HIGH_BASE: usize = 4_098;

/// Word `ROW_BASE + i` of a list of messages is sender, receiver and class of row i, from 1 ([`rows`]).
pub const ROW_BASE: usize = 16;

/// Word `ROW_NUMBER_BASE + i` of a list of messages is the number of row i.
pub const ROW_NUMBER_BASE: usize = 2_065;

/// Word `ROW_PHASE_BASE + i` of a list of messages is the phase of row i.
pub const ROW_PHASE_BASE: usize = 4_114;

/// How many bytes hold every report.
pub const REPORT_BYTES: usize = 262_144;

/// How many bytes hold every text of a trace.
pub const TEXT_BYTES: usize = 131_072;

/// Why a call was refused. The numbers are those of the requirements.
///
/// Shown ([`Display`](fmt::Display)) it is a sentence.
///
/// ```
/// use hallback::Cause;
///
/// let cause = Cause::from_number(5).unwrap();
/// assert_eq!(cause, Cause::NothingInTransit);
/// assert_eq!(cause.to_string(), "a receive with nothing in transit on its channel");
/// ```
#[derive(Clone, Copy, Debug, PartialEq, Eq, Hash)]
#[repr(u8)]
pub enum Cause {
    /// 1: the line is not of a form due at that place, lacks its line feed or is missing, or one of
    /// its numbers is too large for its key.
    Form = 1,
    /// 2: the count of processes is not 2 to 64.
    ProcessCount = 2,
    /// 3: a process is not below the count of processes.
    Process = 3,
    /// 4: a process sends to or receives from itself.
    Itself = 4,
    /// 5: a receive with nothing in transit.
    NothingInTransit = 5,
    /// 6: a 31st save of a process.
    Saves = 6,
    /// 7: a 2,049th event.
    Events = 7,
    /// 8: the step of the failure is beyond the last event.
    Step = 8,
    /// 9: the set of failed processes is empty or names one that is not there.
    Set = 9,
    /// 10: the line has a wrong count of numbers, or one that is not permitted: neither a finished
    /// epoch of its process nor, if that did not fail, [`STAY`].
    Line = 10,
    /// 11: a choice is not allowed where it comes in the order.
    Choice = 11,
    /// 12: a lent area has under [`AREA_WORDS`] words.
    Area = 12,
    /// 13: the table area is not what reading some accepted trace leaves.
    Table = 13,
    /// 14: the byte buffer is shorter than the text.
    Buffer = 14,
    /// 15: a done of a process that has no unfinished save.
    NothingUnfinished = 15,
}

impl Cause {
    /// The cause with this number, if there is one.
    pub fn from_number(number: u32) -> Option<Cause> {
        use Cause::*;
        const ALL: [Cause; 15] = [
            Form,
            ProcessCount,
            Process,
            Itself,
            NothingInTransit,
            Saves,
            Events,
            Step,
            Set,
            Line,
            Choice,
            Area,
            Table,
            Buffer,
            NothingUnfinished,
        ];
        ALL.into_iter().find(|cause| cause.number() == number)
    }

    /// The number of this cause, 1 to 15.
    pub fn number(self) -> u32 {
        self as u32
    }

    /// What is wrong, in words.
    fn sentence(self) -> &'static str {
        match self {
            Cause::Form => {
                "the line is not one due there, lacks its LF or is missing, or a number is too large \
                 for its key"
            }
            Cause::ProcessCount => "the count of processes is not 2 to 64",
            Cause::Process => "a process is not below the count of processes",
            Cause::Itself => "a process sends to itself or receives from itself",
            Cause::NothingInTransit => "a receive with nothing in transit on its channel",
            Cause::Saves => "a 31st save of a process",
            Cause::Events => "a 2,049th event",
            Cause::Step => "the step of the failure is beyond the last event",
            Cause::Set => "the set of failed processes is empty or names one that there is not",
            Cause::Line => {
                "the recovery line does not have one number for each process, or has one that is not \
                 permitted"
            }
            Cause::Choice => "a choice is not allowed where it comes in the order",
            Cause::Area => "a table area or a run area has fewer than 16,384 words",
            Cause::Table => "the table area is not what reading some trace leaves",
            Cause::Buffer => "the byte buffer is shorter than the text",
            Cause::NothingUnfinished => "a done of a process that has no unfinished save",
        }
    }
}

impl fmt::Display for Cause {
    fn fmt(&self, f: &mut fmt::Formatter<'_>) -> fmt::Result {
        f.pad(self.sentence())
    }
}

impl Error for Cause {}

/// A refused call: why, and where.
///
/// Shown ([`Display`](fmt::Display)) it is what the program prints, and with `{:#}` the sentence of its
/// cause too, which is also its [`source`](Error::source).
///
/// ```
/// use hallback::{reference, AREA_WORDS};
///
/// let mut table = vec![0; AREA_WORDS];
/// let refusal = reference::read(b"procs=2\nev=done at=1\n", &mut table).unwrap_err();
/// assert_eq!(refusal.to_string(), "refused=15 place=2");
/// assert_eq!(
///     format!("{refusal:#}"),
///     "refused=15 place=2: a done of a process that has no unfinished save"
/// );
/// ```
#[derive(Clone, Copy, Debug, PartialEq, Eq, Hash)]
pub struct Refusal {
    /// Why.
    pub cause: Cause,
    /// The text line from 1 for causes 1 to 7 and 15, the place in the order from 1 for 11, else 0.
    pub place: u64,
}

impl Refusal {
    pub(crate) fn new(cause: Cause, place: usize) -> Refusal {
        Refusal {
            cause,
            place: place as u64,
        }
    }
}

impl fmt::Display for Refusal {
    fn fmt(&self, f: &mut fmt::Formatter<'_>) -> fmt::Result {
        write!(f, "refused={} place={}", self.cause.number(), self.place)?;
        match f.alternate() {
            true => write!(f, ": {}", self.cause),
            false => Ok(()),
        }
    }
}

impl Error for Refusal {
    fn source(&self) -> Option<&(dyn Error + 'static)> {
        Some(&self.cause)
    }
}

/// A failure: after which event, and which processes failed.
#[derive(Clone, Copy, Debug, PartialEq, Eq, Hash)]
pub struct Failure {
    /// The failure is right after this event; 0 is before all.
    pub step: u64,
    /// Bit z says that process z failed.
    pub set: u64,
}

/// The greatest restart line without a lost message.
#[derive(Clone, Copy, Debug, PartialEq, Eq)]
pub struct Restart {
    /// How many processes there are.
    pub count: usize,
    /// How many of them go back.
    pub back: u64,
    /// Bit z says that process z goes back.
    pub going: u64,
    /// The line: an epoch that is finished at the cut, or [`STAY`]; 0 past the last process.
    pub numbers: [u32; MAX_PROCS],
    /// The epoch of each process at the cut, finished or not; 0 past the last.
    pub epochs: [u32; MAX_PROCS],
    /// The phase of each process at its restart, or at the cut if it stays; 0 past the last.
    pub phases: [u32; MAX_PROCS],
}

impl Restart {
    /// The line as the other calls take it: one number for each process.
    pub fn line(&self) -> &[u32] {
        &self.numbers[..self.count]
    }

    /// The line as a type of its own.
    pub fn recovery_line(&self) -> RecoveryLine {
        RecoveryLine::from(self)
    }

    /// What becomes of each process, from process 0.
    ///
    /// ```
    /// use hallback::{reference, Failure, AREA_WORDS};
    ///
    /// let mut table = vec![0; AREA_WORDS];
    /// reference::read(b"procs=2\nev=save at=1\nev=done at=1\nev=save at=0\n", &mut table)?;
    /// let restart = reference::restart(&table, Failure { step: 3, set: 0b11 })?;
    /// for (z, process) in restart.processes().enumerate() {
    ///     let back = process.restart.map_or("stays".to_string(), |epoch| format!("to {epoch}"));
    ///     println!("process {z}: {back}, of epoch {}, phase {}", process.epoch, process.phase);
    /// }
    /// assert_eq!(restart.processes().nth(1).unwrap().restart, Some(2));
    /// # Ok::<(), hallback::Refusal>(())
    /// ```
    pub fn processes(&self) -> impl ExactSizeIterator<Item = Process> + Clone + '_ {
        (0..self.count).map(|z| Process {
            restart: (self.numbers[z] != STAY).then_some(self.numbers[z]),
            epoch: self.epochs[z],
            phase: self.phases[z],
        })
    }
}

/// What becomes of a process after a failure, of a [`Restart`].
#[derive(Clone, Copy, Debug, PartialEq, Eq, Hash)]
pub struct Process {
    /// The epoch that it goes back to, `None` if it stays as it was at the cut.
    pub restart: Option<u32>,
    /// Its epoch at the cut, finished or not.
    pub epoch: u32,
    /// Its phase at its restart, or at the cut if it stays.
    pub phase: u32,
}

/// How many messages of each class there are with respect to a line.
#[derive(Clone, Copy, Debug, Default, PartialEq, Eq)]
pub struct Counts {
    /// Messages received before their receiver's restart whose sender goes back behind the send.
    pub orphans: u64,
    /// Messages sent before their sender's restart and to be handed over: logged ones that are
    /// received again, and those not yet received at the cut.
    pub kept: u64,
    /// Messages that a replay from this line would not have.
    pub lost: u64,
}

/// A replay carried out.
#[derive(Clone, Copy, Debug, PartialEq, Eq)]
pub struct Replayed {
    /// The length of the order carried out, at most twice the number of events; from a line that
    /// loses no message the same for every complete order.
    pub steps: u64,
    /// Whether no choice is allowed after it.
    pub complete: bool,
}
