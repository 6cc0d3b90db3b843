//! The proved engine with answers as types, over [`crate::raw`].

use crate::{raw, Cause, Counts, Failure, Refusal, Replayed, Restart, MAX_PROCS};

/// Words of the longest answer: place, count, back, going, and three numbers for each process.
const RESTART_WORDS: usize = 4 + 3 * MAX_PROCS;

/// The refusal that a call's number and place stand for, if it is one.
fn accepted(number: u32, place: u64) -> Result<(), Refusal> {
    match number {
        0 => Ok(()),
        _ => Err(Refusal {
            cause: Cause::from_number(number).expect("the archive gives numbers 0 to 15"),
            place,
        }),
    }
}

/// A number of the archive that fits 32 bits.
fn small(word: u64) -> u32 {
    u32::try_from(word).expect("the archive gives epochs and phases of 32 bits")
}

/// Reads a trace text without a failure line into the table area.
///
/// After a refusal 1 to 7 or 15 the area is zero; after 12, the area being too short, it is as it was.
///
/// ```
/// use hallback::{Cause, AREA_WORDS};
///
/// let mut table = vec![0; AREA_WORDS];
/// assert_eq!(hallback::read(b"procs=2\nev=save at=1\n", &mut table), Ok(()));
/// assert_eq!(table[..2], [2, 1]);
///
/// let refusal = hallback::read(b"procs=2\nev=recv at=1 from=0\n", &mut table).unwrap_err();
/// assert_eq!((refusal.cause, refusal.place), (Cause::NothingInTransit, 2));
///
/// let refusal = hallback::read(b"procs=2\nev=done at=1\n", &mut table).unwrap_err();
/// assert_eq!((refusal.cause, refusal.place), (Cause::NothingUnfinished, 2));
/// ```
pub fn read(text: &[u8], table: &mut [u32]) -> Result<(), Refusal> {
    let mut answer = [0; 1];
    let number = raw::read(text, table, &mut answer);
    accepted(number, answer[0])
}

/// Reads a trace text whose last line is a failure line into the table area, and gives the failure.
///
/// The failure is given as it stands in the text; the calls that take it check it.
///
/// ```
/// use hallback::{Failure, AREA_WORDS};
///
/// let mut table = vec![0; AREA_WORDS];
/// let failure = hallback::read_failure(b"procs=2\nev=save at=1\nfail=1 set=2\n", &mut table);
/// assert_eq!(failure, Ok(Failure { step: 1, set: 2 }));
/// ```
pub fn read_failure(text: &[u8], table: &mut [u32]) -> Result<Failure, Refusal> {
    let mut answer = [0; 3];
    let number = raw::read_failure(text, table, &mut answer);
    accepted(number, answer[0])?;
    Ok(Failure {
        step: answer[1],
        set: answer[2],
    })
}

/// Writes the text of the trace in the table area to `out`, and gives it. Bytes past it stay.
///
/// Reading this text restores the area; written after reading, it is what was read, without the
/// failure line. [`TEXT_BYTES`](crate::TEXT_BYTES) bytes hold every text. Refused with
/// [`Cause::Area`], [`Cause::Table`] or [`Cause::Buffer`], `out` being shorter than the text; after
/// a refusal `out` is as it was.
///
/// ```
/// use hallback::{Cause, AREA_WORDS, TEXT_BYTES};
///
/// let (mut table, mut out) = (vec![0; AREA_WORDS], vec![0; TEXT_BYTES]);
/// let text = b"procs=2\nev=send at=0 to=1 val=7\nev=recv at=1 from=0\n";
/// hallback::read(text, &mut table)?;
/// assert_eq!(hallback::write(&table, &mut out)?, text);
///
/// hallback::set_value(&mut table, 1, u64::MAX);
/// let edited = b"procs=2\nev=send at=0 to=1 val=18446744073709551615\nev=recv at=1 from=0\n";
/// assert_eq!(hallback::write(&table, &mut out)?, edited);
///
/// let one_short = &mut out[..edited.len() - 1];
/// let refusal = hallback::write(&table, one_short).unwrap_err();
/// assert_eq!(refusal.cause, Cause::Buffer);
/// # Ok::<(), hallback::Refusal>(())
/// ```
pub fn write<'a>(table: &[u32], out: &'a mut [u8]) -> Result<&'a [u8], Refusal> {
    let mut answer = [0; 2];
    let number = raw::write(table, out, &mut answer);
    accepted(number, answer[0])?;
    let length = usize::try_from(answer[1]).expect("the archive gives a length within the buffer");
    Ok(&out[..length])
}

/// Finds the greatest restart line without a lost message. A process that goes back goes to an epoch
/// that is finished at the cut.
///
/// ```
/// use hallback::{Failure, AREA_WORDS, STAY};
///
/// let mut table = vec![0; AREA_WORDS];
/// let text = b"procs=2
/// ev=save at=0
/// ev=send at=0 to=1 val=3
/// ev=recv at=1 from=0
/// ev=done at=0
/// ";
/// hallback::read(text, &mut table)?;
/// let restart = hallback::restart(&table, Failure { step: 4, set: 1 })?;
/// assert_eq!(restart.line(), [2, STAY]);
/// assert_eq!((restart.back, restart.going), (1, 1));
///
/// // a step earlier the save is still being written
/// let restart = hallback::restart(&table, Failure { step: 3, set: 1 })?;
/// assert_eq!(restart.line(), [1, STAY]);
/// assert_eq!(restart.epochs[0], 2);
/// # Ok::<(), hallback::Refusal>(())
/// ```
pub fn restart(table: &[u32], failure: Failure) -> Result<Restart, Refusal> {
    let mut answer = [0; RESTART_WORDS];
    let number = raw::restart(table, failure.step, failure.set, &mut answer);
    accepted(number, answer[0])?;
    let numbers_from = |base: usize| std::array::from_fn(|z| small(answer[base + z]));
    Ok(Restart {
        count: usize::try_from(answer[1])
            .ok()
            .filter(|&count| count <= MAX_PROCS)
            .expect("the archive gives at most 64 processes"),
        back: answer[2],
        going: answer[3],
        numbers: numbers_from(4),
        epochs: numbers_from(4 + MAX_PROCS),
        phases: numbers_from(4 + 2 * MAX_PROCS),
    })
}

/// Lists orphans, kept and lost messages of a line in the run area, and counts them.
///
/// ```
/// use hallback::{Counts, Failure, AREA_WORDS};
///
/// let (mut table, mut run) = (vec![0; AREA_WORDS], vec![0; AREA_WORDS]);
/// let text = b"procs=2
/// ev=save at=0
/// ev=done at=0
/// ev=send at=0 to=1 val=3
/// ev=recv at=1 from=0
/// ";
/// hallback::read(text, &mut table)?;
/// let failure = Failure { step: 4, set: 1 };
/// let counts = hallback::messages(&table, failure, &[2, 32], &mut run)?;
/// assert_eq!(counts, Counts { orphans: 1, kept: 0, lost: 0 });
/// # Ok::<(), hallback::Refusal>(())
/// ```
pub fn messages(
    table: &[u32],
    failure: Failure,
    line: &[u32],
    run: &mut [u32],
) -> Result<Counts, Refusal> {
    let mut answer = [0; 4];
    let number = raw::messages(table, failure.step, failure.set, line, run, &mut answer);
    accepted(number, answer[0])?;
    Ok(Counts {
        orphans: answer[1],
        kept: answer[2],
        lost: answer[3],
    })
}

/// What an answer of place, steps and complete says.
fn replayed(number: u32, answer: [u64; 3]) -> Result<Replayed, Refusal> {
    accepted(number, answer[0])?;
    Ok(Replayed {
        steps: answer[1],
        complete: answer[2] != 0,
    })
}

/// Carries out an order from a line, and leaves the delivery record in the run area.
///
/// After a refusal 11 the run area is zero; other refusals leave it as it was.
///
/// From a line that loses no message (that of [`restart`], or one of which [`messages`] counts none
/// lost) every complete order has the same number of steps: the events after the restarts (of a
/// process that stays, after the cut), to the end of the trace, and the kept messages, also those
/// that nobody receives. From any other line an order has at most that number, and at most twice as
/// many steps as the trace has events; that it has that number does not show that nothing is lost.
///
/// ```
/// use hallback::{Cause, Failure, AREA_WORDS};
///
/// let (mut table, mut run) = (vec![0; AREA_WORDS], vec![0; AREA_WORDS]);
/// hallback::read(b"procs=2\nev=send at=0 to=1 val=7\nev=recv at=1 from=0\n", &mut table)?;
/// let failure = Failure { step: 1, set: 2 };
/// let replayed = hallback::replay(&table, failure, &[32, 1], &[65, 1], &mut run)?;
/// assert!(replayed.complete);
/// assert_eq!((run[2], hallback::taken_value(&run, 2)), (1, 7));
///
/// let refusal = hallback::replay(&table, failure, &[32, 1], &[1], &mut run).unwrap_err();
/// assert_eq!((refusal.cause, refusal.place), (Cause::Choice, 1));
/// # Ok::<(), hallback::Refusal>(())
/// ```
pub fn replay(
    table: &[u32],
    failure: Failure,
    line: &[u32],
    order: &[u16],
    run: &mut [u32],
) -> Result<Replayed, Refusal> {
    let mut answer = [0; 3];
    let number = raw::replay(
        table,
        failure.step,
        failure.set,
        line,
        order,
        run,
        &mut answer,
    );
    replayed(number, answer)
}

/// Carries out the order that always picks the lowest allowed choice, as [`replay`] does an order.
///
/// It is always complete, so that its steps are those of every complete order from a line that loses
/// no message.
///
/// ```
/// use hallback::{Failure, Replayed, AREA_WORDS};
///
/// let (mut table, mut run) = (vec![0; AREA_WORDS], vec![0; AREA_WORDS]);
/// hallback::read(b"procs=2\nev=send at=0 to=1 val=7\nev=recv at=1 from=0\n", &mut table)?;
/// let replayed = hallback::lowest(&table, Failure { step: 1, set: 1 }, &[1, 32], &mut run)?;
/// assert_eq!(replayed, Replayed { steps: 2, complete: true });
/// # Ok::<(), hallback::Refusal>(())
/// ```
pub fn lowest(
    table: &[u32],
    failure: Failure,
    line: &[u32],
    run: &mut [u32],
) -> Result<Replayed, Refusal> {
    let mut answer = [0; 3];
    let number = raw::lowest(table, failure.step, failure.set, line, run, &mut answer);
    replayed(number, answer)
}

/// Gives the report on a text, what the program prints about it; `out` is where it is written. A
/// text may have any length: the limit of 65,536 bytes is the program's own.
///
/// [`REPORT_BYTES`](crate::REPORT_BYTES) bytes hold every report; what does not fit is cut off.
///
/// ```
/// let mut out = vec![0; hallback::REPORT_BYTES];
/// assert_eq!(hallback::report(b"procs=1\n", &mut out), b"refused=2 place=1\n");
/// ```
pub fn report<'a>(text: &[u8], out: &'a mut [u8]) -> &'a [u8] {
    let length = raw::report(text, out).min(out.len());
    &out[..length]
}
