//! What lent areas hold, as types: the events of a table area, the rows of a list of messages, the
//! messages of a delivery record. Nothing is allocated: the iterators look into the areas.
//! (The examples here call [`reference`](crate::reference), so that they run without the archive.)

use crate::{taken_value, value};
use crate::{EVENT_BASE, MAX_EVENTS, MAX_PROCS, ROW_BASE, ROW_NUMBER_BASE, ROW_PHASE_BASE};
use std::fmt;
use std::ops::RangeInclusive;

/// The two process numbers of six bits each, and the two bits above them, of a word of an event or of
/// a row.
fn parts(word: u32) -> (usize, usize, u32) {
    let six_bits = |shift: u32| (word >> shift) as usize % MAX_PROCS;
    (six_bits(0), six_bits(6), word >> 12 & 3)
}

/// The kind of an event, by its number in a table area: bits 12 and 13 of the event's word.
///
/// ```
/// use hallback::{reference, Kind, AREA_WORDS, EVENT_BASE};
///
/// let mut table = vec![0; AREA_WORDS];
/// reference::read(b"procs=2\nev=save at=1\n", &mut table)?;
/// assert_eq!(Kind::of_word(table[EVENT_BASE + 1]), Kind::Save);
/// assert_eq!(Kind::Save as u32, 3);
/// # Ok::<(), hallback::Refusal>(())
/// ```
#[derive(Clone, Copy, Debug, PartialEq, Eq, Hash)]
#[repr(u8)]
pub enum Kind {
    /// 0: the oldest unfinished save of its process is finished.
    Done = 0,
    /// 1: a send.
    Send = 1,
    /// 2: a receive.
    Recv = 2,
    /// 3: a save.
    Save = 3,
}

impl Kind {
    /// The kind that the word of an event names. A word past the last event is 0, as is that of a done
    /// of process 0: [`events`] knows which is the last.
    pub fn of_word(word: u32) -> Kind {
        [Kind::Done, Kind::Send, Kind::Recv, Kind::Save][parts(word).2 as usize]
    }
}

/// What an event of a trace does.
///
/// Shown ([`Display`](fmt::Display)) it is its line of the text.
///
/// ```
/// use hallback::{Event, Kind};
///
/// let event = Event::Send { at: 0, to: 1, val: 7 };
/// assert_eq!(event.to_string(), "ev=send at=0 to=1 val=7");
/// assert_eq!((event.kind(), event.at(), event.peer()), (Kind::Send, 0, Some(1)));
/// assert_eq!(Event::Done { at: 1 }.peer(), None);
/// ```
#[derive(Clone, Copy, Debug, PartialEq, Eq, Hash)]
pub enum Event {
    /// Process `at` sends a value to process `to`.
    Send {
        /// The sender.
        at: usize,
        /// The receiver.
        to: usize,
        /// The value.
        val: u64,
    },
    /// Process `at` receives the oldest message from process `from`.
    Recv {
        /// The receiver.
        at: usize,
        /// The sender.
        from: usize,
    },
    /// Process `at` saves its state.
    Save {
        /// The process.
        at: usize,
    },
    /// The oldest unfinished save of process `at` is finished.
    Done {
        /// The process.
        at: usize,
    },
}

impl Event {
    /// Its kind.
    pub fn kind(self) -> Kind {
        match self {
            Event::Send { .. } => Kind::Send,
            Event::Recv { .. } => Kind::Recv,
            Event::Save { .. } => Kind::Save,
            Event::Done { .. } => Kind::Done,
        }
    }

    /// The process where it happens.
    pub fn at(self) -> usize {
        match self {
            Event::Send { at, .. }
            | Event::Recv { at, .. }
            | Event::Save { at }
            | Event::Done { at } => at,
        }
    }

    /// The receiver of a send, the sender of a receive.
    pub fn peer(self) -> Option<usize> {
        match self {
            Event::Send { to, .. } => Some(to),
            Event::Recv { from, .. } => Some(from),
            Event::Save { .. } | Event::Done { .. } => None,
        }
    }
}

impl fmt::Display for Event {
    fn fmt(&self, f: &mut fmt::Formatter<'_>) -> fmt::Result {
        match self {
            Event::Send { at, to, val } => write!(f, "ev=send at={at} to={to} val={val}"),
            Event::Recv { at, from } => write!(f, "ev=recv at={at} from={from}"),
            Event::Save { at } => write!(f, "ev=save at={at}"),
            Event::Done { at } => write!(f, "ev=done at={at}"),
        }
    }
}

/// How many processes the trace of a table area has. An area that holds none has at most
/// [`MAX_PROCS`].
///
/// ```
/// use hallback::{reference, AREA_WORDS};
///
/// let mut table = vec![0; AREA_WORDS];
/// reference::read(b"procs=3\n", &mut table)?;
/// assert_eq!(hallback::procs(&table), 3);
/// # Ok::<(), hallback::Refusal>(())
/// ```
///
/// # Panics
///
/// If the area has no word.
pub fn procs(table: &[u32]) -> usize {
    (table[0] as usize).min(MAX_PROCS)
}

/// An event of a table area by its number, from 1; `None` for 0 or past the last event.
///
/// ```
/// use hallback::{reference, Event, AREA_WORDS};
///
/// let mut table = vec![0; AREA_WORDS];
/// reference::read(b"procs=2\nev=send at=0 to=1 val=7\n", &mut table)?;
/// assert_eq!(hallback::event(&table, 1), Some(Event::Send { at: 0, to: 1, val: 7 }));
/// assert_eq!(hallback::event(&table, 2), None);
/// # Ok::<(), hallback::Refusal>(())
/// ```
///
/// # Panics
///
/// If the area ends before its words.
pub fn event(table: &[u32], number: usize) -> Option<Event> {
    events(table).places.contains(&number).then(|| {
        let (at, peer, _) = parts(table[EVENT_BASE + number]);
        match Kind::of_word(table[EVENT_BASE + number]) {
            Kind::Send => Event::Send {
                at,
                to: peer,
                val: value(table, number),
            },
            Kind::Recv => Event::Recv { at, from: peer },
            Kind::Save => Event::Save { at },
            Kind::Done => Event::Done { at },
        }
    })
}

/// The events of a table area, each with its number, from 1.
///
/// ```
/// use hallback::{reference, Event, AREA_WORDS};
///
/// let mut table = vec![0; AREA_WORDS];
/// reference::read(b"procs=2\nev=save at=1\nev=send at=1 to=0 val=7\n", &mut table)?;
/// let sends = hallback::events(&table).filter(|(_, event)| matches!(event, Event::Send { .. }));
/// assert!(sends.eq([(2, Event::Send { at: 1, to: 0, val: 7 })]));
/// # Ok::<(), hallback::Refusal>(())
/// ```
///
/// # Panics
///
/// If the area has fewer than two words; the iterator, if the area ends before the words of an event.
/// An area that holds no trace has at most [`MAX_EVENTS`] events.
pub fn events(table: &[u32]) -> Events<'_> {
    let count = (table[1] as usize).min(MAX_EVENTS);
    Events {
        table,
        places: 1..=count,
    }
}

/// The events of a table area, from [`events`].
#[derive(Clone, Debug)]
pub struct Events<'a> {
    table: &'a [u32],
    places: RangeInclusive<usize>,
}

impl Events<'_> {
    fn numbered(&self, number: usize) -> Option<(usize, Event)> {
        event(self.table, number).map(|event| (number, event))
    }
}

impl Iterator for Events<'_> {
    type Item = (usize, Event);

    fn next(&mut self) -> Option<(usize, Event)> {
        let number = self.places.next()?;
        self.numbered(number)
    }

    fn size_hint(&self) -> (usize, Option<usize>) {
        self.places.size_hint()
    }
}

impl DoubleEndedIterator for Events<'_> {
    fn next_back(&mut self) -> Option<(usize, Event)> {
        let number = self.places.next_back()?;
        self.numbered(number)
    }
}

impl ExactSizeIterator for Events<'_> {}

/// The event that sent a message, which is named by its channel and its number there; `None` if none
/// did. With it a kept message of a list has its value.
///
/// ```
/// use hallback::{reference, AREA_WORDS};
///
/// let mut table = vec![0; AREA_WORDS];
/// let text = b"procs=2\nev=send at=0 to=1 val=7\nev=save at=1\nev=send at=0 to=1 val=8\n";
/// reference::read(text, &mut table)?;
/// assert_eq!(hallback::sent(&table, 0, 1, 2), Some(3));
/// assert_eq!(hallback::value(&table, 3), 8);
/// assert_eq!(hallback::sent(&table, 0, 1, 3), None);
/// # Ok::<(), hallback::Refusal>(())
/// ```
///
/// # Panics
///
/// If the area ends before its words.
pub fn sent(table: &[u32], sender: usize, receiver: usize, number: u32) -> Option<usize> {
    let place = (number as usize).checked_sub(1)?;
    events(table)
        .filter(|(_, event)| matches!(*event, Event::Send { at, to, .. } if (at, to) == (sender, receiver)))
        .map(|(e, _)| e)
        .nth(place)
}

/// What becomes of a message under a line, by its number in a list of messages.
///
/// ```
/// assert_eq!(hallback::Class::Kept.to_string(), "kept");
/// assert_eq!(hallback::Class::Kept as u32, 2);
/// ```
#[derive(Clone, Copy, Debug, PartialEq, Eq, Hash, PartialOrd, Ord)]
#[repr(u8)]
pub enum Class {
    /// 1: its receiver has it, and its sender will send it again; the second copy is dropped.
    Orphan = 1,
    /// 2: it is handed over from what its sender kept.
    Kept = 2,
    /// 3: it is to be received again, and a replay from this line would not have it.
    Lost = 3,
}

impl fmt::Display for Class {
    fn fmt(&self, f: &mut fmt::Formatter<'_>) -> fmt::Result {
        f.pad(match self {
            Class::Orphan => "orphan",
            Class::Kept => "kept",
            Class::Lost => "lost",
        })
    }
}

/// A row of a list of messages: a message, and what becomes of it.
///
/// Shown ([`Display`](fmt::Display)) it is as the program prints it, after its `out=`.
///
/// ```
/// use hallback::{Class, Row};
///
/// let row = Row { class: Class::Kept, sender: 0, receiver: 1, number: 2, phase: 1 };
/// assert_eq!(row.to_string(), "kept from=0 to=1 no=2 phase=1");
/// ```
#[derive(Clone, Copy, Debug, PartialEq, Eq, Hash)]
pub struct Row {
    /// What becomes of it.
    pub class: Class,
    /// Its sender.
    pub sender: usize,
    /// Its receiver.
    pub receiver: usize,
    /// Its number on the channel from its sender to its receiver, from 1.
    pub number: u32,
    /// Its phase: that of its sender at the send.
    pub phase: u32,
}

impl fmt::Display for Row {
    fn fmt(&self, f: &mut fmt::Formatter<'_>) -> fmt::Result {
        let Row {
            class,
            sender,
            receiver,
            number,
            phase,
        } = self;
        write!(
            f,
            "{class} from={sender} to={receiver} no={number} phase={phase}"
        )
    }
}

/// The rows of the list that [`messages`](crate::reference::messages) left in a run area: orphans
/// first, then kept messages, then lost ones, each by sender, receiver and number.
///
/// ```
/// use hallback::{reference, Class, Failure, Row, AREA_WORDS};
///
/// let (mut table, mut run) = (vec![0; AREA_WORDS], vec![0; AREA_WORDS]);
/// reference::read(b"procs=2\nev=send at=0 to=1 val=7\n", &mut table)?;
/// reference::messages(&table, Failure { step: 1, set: 0b10 }, &[32, 1], &mut run)?;
/// for row in hallback::rows(&run).filter(|row| row.class == Class::Kept) {
///     let event = hallback::sent(&table, row.sender, row.receiver, row.number).unwrap();
///     assert_eq!((row.sender, row.receiver, row.number, row.phase), (0, 1, 1, 1));
///     assert_eq!(hallback::value(&table, event), 7);
/// }
/// assert_eq!(hallback::rows(&run).len(), 1);
/// # Ok::<(), hallback::Refusal>(())
/// ```
///
/// # Panics
///
/// If the area has fewer than three words; the iterator, if the area ends before the words of a row,
/// or is no list of messages and has a row of no class.
pub fn rows(run: &[u32]) -> Rows<'_> {
    let count: u64 = run[..3].iter().copied().map(u64::from).sum();
    Rows {
        run,
        places: 1..=count.min(MAX_EVENTS as u64) as usize,
    }
}

/// The rows of a list of messages, from [`rows`].
#[derive(Clone, Debug)]
pub struct Rows<'a> {
    run: &'a [u32],
    places: RangeInclusive<usize>,
}

impl Rows<'_> {
    fn row(&self, place: usize) -> Row {
        let (sender, receiver, class) = parts(self.run[ROW_BASE + place]);
        Row {
            class: match class {
                1 => Class::Orphan,
                2 => Class::Kept,
                3 => Class::Lost,
                _ => panic!("row {place} has no class: the area is no list of messages"),
            },
            sender,
            receiver,
            number: self.run[ROW_NUMBER_BASE + place],
            phase: self.run[ROW_PHASE_BASE + place],
        }
    }
}

impl Iterator for Rows<'_> {
    type Item = Row;

    fn next(&mut self) -> Option<Row> {
        let place = self.places.next()?;
        Some(self.row(place))
    }

    fn size_hint(&self) -> (usize, Option<usize>) {
        self.places.size_hint()
    }
}

impl DoubleEndedIterator for Rows<'_> {
    fn next_back(&mut self) -> Option<Row> {
        let place = self.places.next_back()?;
        Some(self.row(place))
    }
}

impl ExactSizeIterator for Rows<'_> {}

/// A message that was received, in a delivery record.
#[derive(Clone, Copy, Debug, PartialEq, Eq, Hash)]
pub struct Delivery {
    /// The receive that took it.
    pub event: usize,
    /// Its sender.
    pub sender: usize,
    /// Its receiver.
    pub receiver: usize,
    /// Its number on the channel from its sender to its receiver, from 1.
    pub number: u32,
    /// Its value.
    pub value: u64,
}

/// The messages that were received, by the delivery record that a replay left in a run area, in the
/// order of their receives in the trace. The table area is the one that was replayed.
///
/// Receives that took nothing, since the order ended before them or their message was lost, are left
/// out. [`on`](Deliveries::on) gives the list of one channel. Two records of one trace are equal
/// exactly if these are.
///
/// ```
/// use hallback::{reference, Failure, AREA_WORDS};
///
/// let (mut table, mut run) = (vec![0; AREA_WORDS], vec![0; AREA_WORDS]);
/// let text = b"procs=3
/// ev=send at=0 to=1 val=7
/// ev=send at=2 to=1 val=8
/// ev=recv at=1 from=2
/// ev=recv at=1 from=0
/// ";
/// reference::read(text, &mut table)?;
/// let failure = Failure { step: 4, set: 0b111 };
/// reference::lowest(&table, failure, &[1, 1, 1], &mut run)?;
/// let values: Vec<u64> = hallback::deliveries(&table, &run).map(|taken| taken.value).collect();
/// assert_eq!(values, [8, 7]);
///
/// let mut channel = hallback::deliveries(&table, &run).on(0, 1);
/// let taken = channel.next().unwrap();
/// assert_eq!((taken.event, taken.number, taken.value), (4, 1, 7));
/// assert_eq!(channel.next(), None);
/// # Ok::<(), hallback::Refusal>(())
/// ```
///
/// # Panics
///
/// If the table area has fewer than two words; the iterator, if an area ends before its words.
pub fn deliveries<'a>(table: &'a [u32], run: &'a [u32]) -> Deliveries<'a> {
    Deliveries {
        events: events(table),
        run,
    }
}

/// The messages of a delivery record, from [`deliveries`].
#[derive(Clone, Debug)]
pub struct Deliveries<'a> {
    events: Events<'a>,
    run: &'a [u32],
}

impl<'a> Deliveries<'a> {
    /// Those that `receiver` received from `sender`: the list of this channel.
    pub fn on(self, sender: usize, receiver: usize) -> impl Iterator<Item = Delivery> + Clone + 'a {
        self.filter(move |taken| (taken.sender, taken.receiver) == (sender, receiver))
    }
}

impl Iterator for Deliveries<'_> {
    type Item = Delivery;

    fn next(&mut self) -> Option<Delivery> {
        let run = self.run;
        self.events.find_map(|(event, received)| match received {
            Event::Recv { at, from } if run[event] != 0 => Some(Delivery {
                event,
                sender: from,
                receiver: at,
                number: run[event],
                value: taken_value(run, event),
            }),
            _ => None,
        })
    }
}

/// The choice that hands over the oldest kept message from `sender` to `receiver`, in the order that
/// [`replay`](crate::reference::replay) takes. (The choice that is the next event of a process is
/// the number of that process.)
///
/// ```
/// assert_eq!(hallback::hand_over(0, 1), 65);
/// ```
///
/// # Panics
///
/// If a process is not below [`MAX_PROCS`].
pub fn hand_over(sender: usize, receiver: usize) -> u16 {
    assert!(
        sender < MAX_PROCS && receiver < MAX_PROCS,
        "a process is not below {MAX_PROCS}"
    );
    (MAX_PROCS + MAX_PROCS * sender + receiver) as u16
}
