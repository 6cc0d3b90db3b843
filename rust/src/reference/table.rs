//! The words of a table area, and whether they hold a trace.

use super::{MAX_SAVES, RECEIVE, SAVE, SEND};
use crate::{AREA_WORDS, EVENT_BASE, HIGH_BASE, MAX_EVENTS, MAX_PROCS, VALUE_BASE};

/// What a table area has beside zeros, if it holds a trace.
pub(super) struct Words<'a> {
    /// How many processes.
    pub procs: usize,
    /// The word of each event.
    events: &'a [u32],
    /// The low half of the value of each event.
    lows: &'a [u32],
    /// The high half of the value of each event.
    highs: &'a [u32],
}

/// Whether all these words are 0. Many are looked at together.
fn all_zero(words: &[u32]) -> bool {
    fn bits(words: &[u32]) -> u32 {
        words.iter().fold(0, |bits, word| bits | word)
    }
    let (many, rest) = words.as_chunks::<128>();
    many.iter().all(|words| bits(words) == 0) && bits(rest) == 0
}

/// The kind of an event, its process and its peer, as its word has them. More than 14 bits show in
/// the kind.
#[inline]
pub(super) fn unpack(word: u32) -> (u32, usize, usize) {
    (word >> 12, (word & 63) as usize, (word >> 6 & 63) as usize)
}

/// Takes one of those left, if there is one.
#[inline]
fn take(left: Option<&mut u16>) -> bool {
    match left {
        Some(left) if *left > 0 => {
            *left -= 1;
            true
        }
        _ => false,
    }
}

impl<'a> Words<'a> {
    /// Those of a table area, if its counts are within the limits and all other words are 0.
    #[inline]
    pub fn of(table: &'a [u32; AREA_WORDS]) -> Option<Self> {
        let procs = table[0] as usize;
        let count = table[1] as usize;
        if !(2..=MAX_PROCS).contains(&procs) || count > MAX_EVENTS {
            return None;
        }
        let fit = all_zero(&table[2..=EVENT_BASE])
            && all_zero(&table[EVENT_BASE + 1 + count..=VALUE_BASE])
            && all_zero(&table[VALUE_BASE + 1 + count..=HIGH_BASE])
            && all_zero(&table[HIGH_BASE + 1 + count..]);
        fit.then(|| Words {
            procs,
            events: &table[EVENT_BASE + 1..][..count],
            lows: &table[VALUE_BASE + 1..][..count],
            highs: &table[HIGH_BASE + 1..][..count],
        })
    }

    /// How many events.
    pub fn count(&self) -> usize {
        self.events.len()
    }

    /// The word of each event, and the low and the high half of its value.
    #[inline]
    pub fn events(&self) -> impl Iterator<Item = (u32, u32, u32)> + 'a {
        let values = self.lows.iter().zip(self.highs);
        let events = self.events.iter().zip(values);
        events.map(|(&word, (&low, &high))| (word, low, high))
    }

    /// Whether all events are fit, each after those before it.
    ///
    /// What is left for a receive, a save or a done to take says most of it: nothing is in transit from
    /// a process to itself, nor to or from one that is not there, and that one has no saves left and
    /// none unfinished.
    #[inline]
    pub fn hold_trace(&self) -> bool {
        let procs = self.procs;
        // by receiver: a channel to a process that is not there is past the end
        let mut in_transit = vec![0; procs * MAX_PROCS];
        let channel = |from: usize, to: usize| to << 6 | from;
        let mut saves = [u16::from(MAX_SAVES); MAX_PROCS];
        let saves = &mut saves[..procs];
        let mut unfinished = [0; MAX_PROCS];
        self.events().all(|(word, low, high)| {
            let (kind, at, peer) = unpack(word);
            let value = low | high;
            if kind == u32::from(SEND) {
                let count = in_transit.get_mut(channel(at, peer));
                at < procs && at != peer && count.map(|count| *count += 1).is_some()
            } else if kind == u32::from(RECEIVE) {
                value == 0 && take(in_transit.get_mut(channel(peer, at)))
            } else if value != 0 {
                false
            } else if let Some(process) = word.checked_sub(u32::from(SAVE) << 12) {
                // a save; with a peer, or of a higher kind, this is no process that there is
                let process = process as usize;
                let count = unfinished.get_mut(process);
                take(saves.get_mut(process)) && count.map(|count| *count += 1).is_some()
            } else {
                // a done; with a peer its word is no process that there is
                take(unfinished.get_mut(word as usize))
            }
        })
    }
}
