//! Traces of several shapes, made at random, to try calls on.

pub use crate::Event;
use crate::{Failure, MAX_PROCS};
use std::io::Write;

/// Numbers that look random and are the same for the same seed.
#[derive(Clone)]
pub struct Random(u64);

impl Random {
    /// A new row of numbers.
    pub fn new(seed: u64) -> Random {
        Random(seed)
    }

    /// The next 64 bits.
    pub fn bits(&mut self) -> u64 {
        self.0 = self.0.wrapping_add(0x9e37_79b9_7f4a_7c15);
        let mut bits = self.0;
        bits = (bits ^ bits >> 30).wrapping_mul(0xbf58_476d_1ce4_e5b9);
        bits = (bits ^ bits >> 27).wrapping_mul(0x94d0_49bb_1331_11eb);
        bits ^ bits >> 31
    }

    /// A number below `limit`, which is not 0.
    pub fn below(&mut self, limit: usize) -> usize {
        (self.bits() % limit as u64) as usize
    }

    /// Yes, so many times in a hundred.
    pub fn percent(&mut self, times: usize) -> bool {
        self.below(100) < times
    }

    /// One of these.
    pub fn pick<T: Copy>(&mut self, from: &[T]) -> T {
        from[self.below(from.len())]
    }
}

/// Values at the ends of their halves, several of which agree in one half.
pub const LONG_VALUES: [u64; 8] = [
    0,
    1,
    0xffff_ffff,
    0x1_0000_0000,
    0x1_0000_0001,
    0x2_0000_0001,
    0xffff_ffff_0000_0000,
    u64::MAX,
];

/// A trace: how many processes, and what they do.
#[derive(Clone, Debug, PartialEq, Eq)]
pub struct Trace {
    /// How many processes.
    pub procs: usize,
    /// The events in order.
    pub events: Vec<Event>,
}

impl Trace {
    /// The text of this trace.
    pub fn text(&self) -> Vec<u8> {
        let mut text = format!("procs={}\n", self.procs).into_bytes();
        for event in &self.events {
            writeln!(text, "{event}").expect("a vector takes all bytes");
        }
        text
    }

    /// The text of this trace with a failure line.
    pub fn text_with(&self, failure: Failure) -> Vec<u8> {
        let mut text = self.text();
        text.extend(format!("fail={} set={}\n", failure.step, failure.set).bytes());
        text
    }

    /// Gives most sends another value, of up to 64 bits: of [`LONG_VALUES`], or one that has a half in
    /// common with others of this trace.
    pub fn lengthen_values(&mut self, random: &mut Random) {
        let (low, high) = (random.bits() >> 32, random.bits() >> 32 << 32);
        for event in &mut self.events {
            if let Event::Send { val, .. } = event {
                *val = match random.below(4) {
                    0 => random.pick(&LONG_VALUES),
                    1 => random.bits() << 32 | low,
                    2 => random.bits() >> 32 | high,
                    _ => *val,
                };
            }
        }
    }

    /// Puts dones in as `dones` says, and leaves out as many events at the end, so that the trace has
    /// its length of before.
    pub fn finish_saves(&mut self, dones: Dones, random: &mut Random) {
        let count = self.events.len();
        let mut events = Vec::with_capacity(count);
        let mut unfinished = Vec::new();
        for &event in &self.events {
            events.push(event);
            if let Event::Save { at } = event {
                if random.percent(dones.at_once) {
                    // the oldest one, which may be another than this
                    events.push(Event::Done { at });
                } else {
                    unfinished.push(at);
                }
            } else if !unfinished.is_empty() && random.percent(dones.later) {
                let at = unfinished.swap_remove(random.below(unfinished.len()));
                events.push(Event::Done { at });
            }
        }
        events.truncate(count);
        self.events = events;
    }
}

/// When saves are finished.
#[derive(Clone, Copy, Debug)]
pub struct Dones {
    /// How many saves in a hundred are followed by a done.
    pub at_once: usize,
    /// How many of the other events in a hundred are, while a save is unfinished.
    pub later: usize,
}

impl Dones {
    /// A done after each save.
    pub const AT_ONCE: Dones = Dones {
        at_once: 100,
        later: 0,
    };
}

/// Visits all traces of so many processes with at most so many events; a value has the place of its
/// send in one half, the high one where that place is odd, and 0 in the other.
pub fn each_trace(procs: usize, events: usize, mut visit: impl FnMut(&Trace)) {
    let mut trace = Trace {
        procs,
        events: Vec::new(),
    };
    let mut waiting = vec![0; procs * procs];
    each_longer(&mut trace, &mut waiting, events, &mut visit);
}

/// Visits all traces that go on from this one with at most so many events. `waiting` has how many
/// messages are in transit from each process to each, and how many saves of each are unfinished, as
/// if from it to itself.
fn each_longer(
    trace: &mut Trace,
    waiting: &mut [usize],
    more: usize,
    visit: &mut impl FnMut(&Trace),
) {
    visit(trace);
    if more == 0 {
        return;
    }
    let place = trace.events.len() as u64 + 1;
    let val = place << (32 * (place % 2));
    for at in 0..trace.procs {
        for peer in 0..trace.procs {
            let to_peer = at * trace.procs + peer;
            let from_peer = peer * trace.procs + at;
            let (begins, ends) = if at == peer {
                (Event::Save { at }, Event::Done { at })
            } else {
                let send = Event::Send { at, to: peer, val };
                (send, Event::Recv { at, from: peer })
            };
            trace.events.push(begins);
            waiting[to_peer] += 1;
            each_longer(trace, waiting, more - 1, visit);
            waiting[to_peer] -= 1;
            trace.events.pop();
            if waiting[from_peer] > 0 {
                trace.events.push(ends);
                waiting[from_peer] -= 1;
                each_longer(trace, waiting, more - 1, visit);
                waiting[from_peer] += 1;
                trace.events.pop();
            }
        }
    }
}

/// How the processes of a trace behave.
#[derive(Clone, Copy, Debug, PartialEq, Eq)]
pub enum Shape {
    /// Each sends to all others.
    Dense,
    /// Each sends to the next one.
    Ring,
    /// Each sends mostly to those of its own cluster.
    Clusters,
    /// Dense, with many checkpoints.
    Checkpoints,
    /// One half sends and never receives, so that its failure leaves many orphans.
    Orphans,
    /// One half is an epoch ahead of the other, and phases rise with each turn between them.
    Steep,
    /// The same of the last two processes alone, so that there are as many phases as can be.
    Turns,
}

/// How often processes save and receive.
#[derive(Clone, Copy, Debug)]
pub struct Habits {
    /// How many events in a hundred are saves, while a process has one left.
    pub saves: usize,
    /// How many of the others in a hundred are receives, while something is in transit.
    pub receives: usize,
    /// With more messages than this in transit, none is sent.
    pub in_transit: usize,
}

impl Shape {
    /// All shapes.
    pub const ALL: [Shape; 7] = [
        Shape::Dense,
        Shape::Ring,
        Shape::Clusters,
        Shape::Checkpoints,
        Shape::Orphans,
        Shape::Steep,
        Shape::Turns,
    ];

    /// The name of this shape.
    pub fn name(self) -> &'static str {
        match self {
            Shape::Dense => "dense",
            Shape::Ring => "ring",
            Shape::Clusters => "clusters",
            Shape::Checkpoints => "checkpoints",
            Shape::Orphans => "orphans",
            Shape::Steep => "steep",
            Shape::Turns => "turns",
        }
    }

    /// Who sends next, and to whom.
    fn channel(self, procs: usize, random: &mut Random) -> (usize, usize) {
        let half = procs / 2;
        let other = |at: usize, random: &mut Random| (at + 1 + random.below(procs - 1)) % procs;
        let at = random.below(procs);
        match self {
            Shape::Dense | Shape::Checkpoints => (at, other(at, random)),
            Shape::Ring => (at, (at + 1) % procs),
            Shape::Clusters => {
                let start = at / 4 * 4;
                let size = (procs - start).min(4);
                if size == 1 || random.percent(8) {
                    (at, other(at, random))
                } else {
                    (at, start + (at - start + 1 + random.below(size - 1)) % size)
                }
            }
            Shape::Orphans if procs - half > 1 && random.percent(30) => {
                let at = random.below(procs - half);
                let step = 1 + random.below(procs - half - 1);
                (half + at, half + (at + step) % (procs - half))
            }
            Shape::Orphans => (random.below(half), half + random.below(procs - half)),
            Shape::Steep => {
                let low = random.below(half);
                let high = half + random.below(procs - half);
                random.pick(&[(low, high), (high, low)])
            }
            Shape::Turns => random.pick(&[(procs - 2, procs - 1), (procs - 1, procs - 2)]),
        }
    }

    /// How often processes of this shape save and receive, if nothing else is said.
    pub fn habits(self, procs: usize, events: usize) -> Habits {
        let saves = match self {
            Shape::Checkpoints => 30,
            Shape::Steep if events > 256 => 0,
            Shape::Steep => 1,
            Shape::Turns => 0,
            _ => 3,
        };
        match self {
            Shape::Steep => Habits {
                saves,
                receives: 100,
                in_transit: procs / 2,
            },
            Shape::Turns => Habits {
                saves,
                receives: 100,
                in_transit: 1,
            },
            _ => Habits {
                saves,
                receives: 45,
                in_transit: 2 * procs,
            },
        }
    }

    /// How many of the last processes save at first.
    pub(crate) fn ahead(self, procs: usize) -> usize {
        match self {
            Shape::Steep => procs - procs / 2,
            Shape::Turns => 1,
            _ => 0,
        }
    }

    /// A trace of this shape.
    pub fn trace(self, procs: usize, events: usize, random: &mut Random) -> Trace {
        self.trace_with(self.habits(procs, events), procs, events, random)
    }

    /// A trace of this shape, with habits of its own.
    pub fn trace_with(
        self,
        habits: Habits,
        procs: usize,
        events: usize,
        random: &mut Random,
    ) -> Trace {
        let mut maker = Maker::new(procs, events);
        maker.save_ahead(self.ahead(procs));
        maker.go_on(self, habits, procs, events, random);
        maker.trace()
    }

    /// A failure of a trace of this shape.
    pub fn failure(self, trace: &Trace, random: &mut Random) -> Failure {
        let events = trace.events.len();
        let step = match random.below(4) {
            0 => events,
            1 => events - random.below(events / 8 + 1),
            _ => random.below(events + 1),
        };
        // the processes that may fail: from which on, and how many
        let half = trace.procs / 2;
        let (first, count) = match self {
            Shape::Orphans => (0, half),
            Shape::Steep if random.percent(75) => (half, trace.procs - half),
            Shape::Turns if random.percent(75) => (trace.procs - 1, 1),
            _ => (0, trace.procs),
        };
        let all = u64::MAX >> (MAX_PROCS - count) << first;
        let set = match random.below(4) {
            0 => random.bits() & all,
            1 => random.bits() & random.bits() & random.bits() & all,
            _ => 0,
        };
        Failure {
            step: step as u64,
            set: set | 1 << (first + random.below(count)),
        }
    }
}

/// A trace that is being made, of at most so many events.
pub(crate) struct Maker {
    procs: usize,
    most: usize,
    made: Vec<Event>,
    /// Sender and receiver of each message in transit.
    in_transit: Vec<(usize, usize)>,
    saves: [usize; MAX_PROCS],
}

impl Maker {
    pub fn new(procs: usize, most: usize) -> Self {
        Maker {
            procs,
            most,
            made: Vec::with_capacity(most),
            in_transit: Vec::new(),
            saves: [0; MAX_PROCS],
        }
    }

    fn push(&mut self, event: Event) {
        if self.made.len() < self.most {
            self.made.push(event);
        }
    }

    fn save(&mut self, at: usize) {
        self.saves[at] += 1;
        self.push(Event::Save { at });
    }

    /// A value that says where it is sent.
    fn place(&self) -> u64 {
        self.made.len() as u64 + 1
    }

    fn send(&mut self, at: usize, to: usize, val: u64) {
        self.push(Event::Send { at, to, val });
    }

    /// Sends a message, which is received at once.
    fn pass(&mut self, from: usize, to: usize) {
        self.send(from, to, self.place());
        self.push(Event::Recv { at: to, from });
    }

    /// The last processes save, so many of them.
    pub fn save_ahead(&mut self, ahead: usize) {
        for at in self.procs - ahead..self.procs {
            self.save(at);
        }
    }

    /// The last two processes pass a message back and forth, and raise the phase each time, until
    /// there are so many events.
    pub fn rise(&mut self, until: usize) {
        let (low, high) = (self.procs - 2, self.procs - 1);
        while self.made.len() + 4 <= until {
            self.pass(low, high);
            self.pass(high, low);
        }
    }

    /// All others come to know the phase of the last two processes.
    pub fn spread(&mut self) {
        for to in 0..self.procs - 2 {
            self.pass(self.procs - 2, to);
        }
    }

    /// Each process but the last two sends so many messages, none of which is received yet.
    pub fn burst(&mut self, messages: usize) {
        let others = self.procs - 2;
        for message in 0..messages {
            for at in 0..others {
                let to = (at + 1 + message % (self.procs - 1)) % self.procs;
                self.send(at, to, self.place());
                self.in_transit.push((at, to));
            }
        }
    }

    /// Goes on at random until there are so many events. Only the last processes take part, so many of
    /// them.
    pub fn go_on(
        &mut self,
        shape: Shape,
        habits: Habits,
        talkers: usize,
        until: usize,
        random: &mut Random,
    ) {
        let first = self.procs - talkers;
        while self.made.len() < until.min(self.most) {
            let at = first + random.below(talkers);
            let full = self.in_transit.len() > habits.in_transit;
            if self.saves[at] < 30 && random.percent(habits.saves) {
                self.save(at);
            } else if !self.in_transit.is_empty() && (full || random.percent(habits.receives)) {
                let message = random.below(self.in_transit.len());
                let (from, to) = self.in_transit.swap_remove(message);
                self.push(Event::Recv { at: to, from });
            } else {
                let (at, to) = shape.channel(talkers, random);
                let val = u64::from(random.bits() as u32 >> random.pick(&[0, 16, 30]));
                self.in_transit.push((first + at, first + to));
                self.send(first + at, first + to, val);
            }
        }
    }

    pub fn trace(self) -> Trace {
        Trace {
            procs: self.procs,
            events: self.made,
        }
    }
}
