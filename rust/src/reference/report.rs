//! The report on a text.

use super::lines::Lines;
use super::reader;
use super::recorded::Recorded;
use crate::Refusal;

/// Writes the report on a text, and gives its length. A text may have any length: the limit of
/// 65,536 bytes is the program's own.
///
/// ```
/// let mut out = vec![0; hallback::REPORT_BYTES];
/// let length = hallback::reference::report(b"procs=1\n", &mut out);
/// assert_eq!(&out[..length], b"refused=2 place=1\n");
/// ```
pub fn report(text: &[u8], out: &mut [u8]) -> usize {
    let mut lines = Lines::new(out);
    if let Err(refusal) = write_answer(text, &mut lines) {
        lines.line(|line| {
            line.pair(b"refused=", u64::from(refusal.cause.number()));
            line.pair(b" place=", refusal.place);
            line.key(b"\n");
        });
    }
    lines.length()
}

/// Writes the answer, or nothing if there is a refusal.
fn write_answer(text: &[u8], lines: &mut Lines) -> Result<(), Refusal> {
    let (mut recorded, failed) = reader::record(text)?;
    let restart = recorded.restart(&recorded.greatest_line(failed));
    let restarts = recorded.restarts(restart.line(), failed)?;
    let (sends, counts) = recorded.messages(&restarts);
    // the greatest line loses no message, so every complete order has this length
    let steps = recorded.listed(&restarts) as u64 + counts.kept;

    for z in 0..restart.count {
        lines.line(|line| {
            line.pair(b"out=proc at=", z as u64);
            line.pair(b" epoch=", u64::from(restart.epochs[z]));
            line.pair(b" restart=", u64::from(restart.numbers[z]));
            line.pair(b" phase=", u64::from(restart.phases[z]));
            line.key(b"\n");
        });
    }
    let (orphans, kept) = sends.split_at(counts.orphans as usize);
    write_messages(b"out=orphan from=", orphans, &recorded, lines);
    write_messages(b"out=kept from=", kept, &recorded, lines);
    lines.line(|line| {
        line.pair(b"out=total back=", restart.back);
        line.pair(b" orphans=", counts.orphans);
        line.pair(b" kept=", counts.kept);
        line.pair(b" steps=", steps);
        line.key(b"\n");
    });
    Ok(())
}

/// Writes a line for each of these sends.
fn write_messages<const LENGTH: usize>(
    key: &[u8; LENGTH],
    sends: &[u16],
    recorded: &Recorded,
    lines: &mut Lines,
) {
    for &send in sends {
        let send = recorded.event(send);
        lines.line(|line| {
            line.pair(key, u64::from(send.at));
            line.pair(b" to=", u64::from(send.peer));
            line.pair(b" no=", u64::from(send.number));
            line.pair(b" phase=", u64::from(send.phase));
            line.key(b"\n");
        });
    }
}
