//! A recovery line as a type.

use crate::{Cause, Refusal, Restart, MAX_PROCS, STAY};
use std::fmt;

/// A recovery line: for each process the epoch that it goes back to, or that it stays as it was at
/// the cut.
///
/// [`numbers`](RecoveryLine::numbers) is what the calls take. Shown ([`Display`](fmt::Display)) it
/// has each process with what it does.
///
/// ```
/// use hallback::{reference, Failure, RecoveryLine, AREA_WORDS};
///
/// let (mut table, mut run) = (vec![0; AREA_WORDS], vec![0; AREA_WORDS]);
/// reference::read(b"procs=2\nev=send at=0 to=1 val=7\nev=recv at=1 from=0\n", &mut table)?;
/// let failure = Failure { step: 1, set: 0b10 };
/// let line = reference::restart(&table, failure)?.recovery_line();
/// assert!(line.stays(0) && !line.stays(1));
/// assert_eq!((line.epoch(0), line.epoch(1)), (None, Some(1)));
/// assert!(line.going_back().eq([(1, 1)]));
/// assert_eq!(line.to_string(), "0 stays, 1 goes back to epoch 1");
///
/// let counts = reference::messages(&table, failure, line.numbers(), &mut run)?;
/// assert_eq!(counts.lost, 0);
///
/// // from the start of all processes a replay leaves the record of the run without failure
/// reference::lowest(&table, failure, RecoveryLine::start(2).numbers(), &mut run)?;
/// # Ok::<(), hallback::Refusal>(())
/// ```
#[derive(Clone, Copy, PartialEq, Eq, Hash)]
pub struct RecoveryLine {
    /// 0 past the last process.
    numbers: [u32; MAX_PROCS],
    count: usize,
}

impl RecoveryLine {
    /// The line on which so many processes all go back to their start. It loses no message.
    ///
    /// # Panics
    ///
    /// If `count` is more than [`MAX_PROCS`].
    pub fn start(count: usize) -> RecoveryLine {
        let mut numbers = [0; MAX_PROCS];
        numbers[..count].fill(1);
        RecoveryLine { numbers, count }
    }

    /// The line as the calls take it: one number for each process, an epoch or [`STAY`].
    pub fn numbers(&self) -> &[u32] {
        &self.numbers[..self.count]
    }

    /// Whether a process stays as it was at the cut.
    ///
    /// # Panics
    ///
    /// If there is no such process.
    pub fn stays(&self, process: usize) -> bool {
        self.numbers()[process] == STAY
    }

    /// The epoch that a process goes back to, `None` if it stays.
    ///
    /// # Panics
    ///
    /// If there is no such process.
    pub fn epoch(&self, process: usize) -> Option<u32> {
        (!self.stays(process)).then(|| self.numbers()[process])
    }

    /// The processes that go back, from the lowest, each with its epoch.
    pub fn going_back(&self) -> impl Iterator<Item = (usize, u32)> + Clone + '_ {
        let processes = self.numbers().iter().copied().enumerate();
        processes.filter(|&(_, number)| number != STAY)
    }
}

/// A line of these numbers, which are refused with [`Cause::Line`] where no trace has such a line:
/// fewer than 2 or more than 64, or one that is not 1 to 32. Whether the line is permitted for a
/// failure, the calls say.
///
/// ```
/// use hallback::{RecoveryLine, STAY};
///
/// let line = RecoveryLine::try_from(&[STAY, 2][..])?;
/// assert_eq!(line.epoch(1), Some(2));
/// assert!(RecoveryLine::try_from(&[STAY, 33][..]).is_err());
/// # Ok::<(), hallback::Refusal>(())
/// ```
impl TryFrom<&[u32]> for RecoveryLine {
    type Error = Refusal;

    fn try_from(given: &[u32]) -> Result<RecoveryLine, Refusal> {
        let count = given.len();
        if !(2..=MAX_PROCS).contains(&count) || !given.iter().all(|n| (1..=STAY).contains(n)) {
            return Err(Refusal::new(Cause::Line, 0));
        }
        let mut numbers = [0; MAX_PROCS];
        numbers[..count].copy_from_slice(given);
        Ok(RecoveryLine { numbers, count })
    }
}

impl From<&Restart> for RecoveryLine {
    fn from(restart: &Restart) -> RecoveryLine {
        RecoveryLine {
            numbers: restart.numbers,
            count: restart.count,
        }
    }
}

impl AsRef<[u32]> for RecoveryLine {
    fn as_ref(&self) -> &[u32] {
        self.numbers()
    }
}

impl fmt::Display for RecoveryLine {
    fn fmt(&self, f: &mut fmt::Formatter<'_>) -> fmt::Result {
        for (process, &number) in self.numbers().iter().enumerate() {
            let comma = if process == 0 { "" } else { ", " };
            match number {
                STAY => write!(f, "{comma}{process} stays")?,
                epoch => write!(f, "{comma}{process} goes back to epoch {epoch}")?,
            }
        }
        Ok(())
    }
}

impl fmt::Debug for RecoveryLine {
    fn fmt(&self, f: &mut fmt::Formatter<'_>) -> fmt::Result {
        f.debug_tuple("RecoveryLine")
            .field(&self.numbers())
            .finish()
    }
}
