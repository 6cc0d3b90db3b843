//! Values in lent areas, as the numbers of 64 bits that they are: an area has each as two words.
//! (The examples here read by [`reference`](crate::reference), so that they run without the archive.)

use crate::{HIGH_BASE, MAX_EVENTS, TAKEN_BASE, TAKEN_HIGH_BASE, VALUE_BASE};

/// The two halves of a value, the low one first.
pub(crate) fn halves(value: u64) -> [u32; 2] {
    [value as u32, (value >> 32) as u32]
}

/// The number whose halves these are.
pub(crate) fn from_halves(low: u32, high: u32) -> u64 {
    u64::from(high) << 32 | u64::from(low)
}

/// An event that there may be; another one would be a word of something else.
fn checked(event: usize) -> usize {
    assert!(
        (1..=MAX_EVENTS).contains(&event),
        "event {event} is not 1 to {MAX_EVENTS}"
    );
    event
}

/// The value of an event in a table area: what a send sends, 0 for a receive, a save, a done, or past
/// the last event.
///
/// Looks at these two words and at nothing else of the area, which may hold no trace.
///
/// ```
/// use hallback::{reference, AREA_WORDS};
///
/// let mut table = vec![0; AREA_WORDS];
/// let text = b"procs=2\nev=send at=0 to=1 val=18446744073709551615\nev=save at=1\n";
/// reference::read(text, &mut table)?;
/// assert_eq!(hallback::value(&table, 1), u64::MAX);
/// assert_eq!(hallback::value(&table, 2), 0);
/// # Ok::<(), hallback::Refusal>(())
/// ```
///
/// # Panics
///
/// If `event` is not 1 to [`MAX_EVENTS`], or the area ends before its words.
pub fn value(table: &[u32], event: usize) -> u64 {
    let event = checked(event);
    from_halves(table[VALUE_BASE + event], table[HIGH_BASE + event])
}

/// Gives an event of a table area another value.
///
/// Only a send has one: with anything but 0 at a receive, a save or a done, or past the last event,
/// every call that takes the area refuses it with [`Cause::Table`](crate::Cause::Table).
///
/// ```
/// use hallback::{reference, AREA_WORDS, TEXT_BYTES};
///
/// let (mut table, mut out) = (vec![0; AREA_WORDS], vec![0; TEXT_BYTES]);
/// reference::read(b"procs=2\nev=send at=0 to=1 val=7\n", &mut table)?;
/// hallback::set_value(&mut table, 1, 4_294_967_296);
/// let length = reference::write(&table, &mut out)?;
/// assert_eq!(&out[..length], b"procs=2\nev=send at=0 to=1 val=4294967296\n");
/// # Ok::<(), hallback::Refusal>(())
/// ```
///
/// # Panics
///
/// If `event` is not 1 to [`MAX_EVENTS`], or the area ends before its words.
pub fn set_value(table: &mut [u32], event: usize, value: u64) {
    let event = checked(event);
    let [low, high] = halves(value);
    // the high half first: an area that ends before it is left as it was
    table[HIGH_BASE + event] = high;
    table[VALUE_BASE + event] = low;
}

/// The value of the message that an event received, in the delivery record that a replay left in a
/// run area; 0 where it received none.
///
/// A value may be 0 too: whether a message was received, its number says, `run[event]`, which is 0
/// only where there was none.
///
/// ```
/// use hallback::{reference, Failure, AREA_WORDS};
///
/// let (mut table, mut run) = (vec![0; AREA_WORDS], vec![0; AREA_WORDS]);
/// let text = b"procs=2\nev=send at=0 to=1 val=4294967303\nev=recv at=1 from=0\n";
/// reference::read(text, &mut table)?;
/// reference::lowest(&table, Failure { step: 1, set: 2 }, &[32, 1], &mut run)?;
/// assert_eq!((run[2], hallback::taken_value(&run, 2)), (1, 4_294_967_303));
/// # Ok::<(), hallback::Refusal>(())
/// ```
///
/// # Panics
///
/// If `event` is not 1 to [`MAX_EVENTS`], or the area ends before its words.
pub fn taken_value(run: &[u32], event: usize) -> u64 {
    let event = checked(event);
    from_halves(run[TAKEN_BASE + event], run[TAKEN_HIGH_BASE + event])
}
