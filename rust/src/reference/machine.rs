//! Replay: which choices are allowed, and what each does.

use super::recorded::{Channel, Event, Recorded, Restarts, NO_KIND};
use super::{members, RECEIVE, SEND};
use crate::MAX_PROCS;

/// The number of the first choice that hands over a kept message.
const FIRST_CHANNEL: usize = MAX_PROCS;

/// The messages of a phase.
#[derive(Clone, Copy, Default)]
struct Phase {
    /// How many orphans of it are yet to be sent again.
    orphans: u16,
    /// The first of its kept messages, handed over or not; they are linked by `next`.
    kept: u16,
}

/// A replay under way.
///
/// A message is named here by the event that sent it. What comes into a channel, and in which order,
/// is known from the start: its kept messages, then those sent again that are not orphans, all of them
/// linked by `link`. A channel's `oldest` is the next of them to be received, its `other` the next to
/// come in; while they are the same, there is none to be received.
pub struct Machine<'a> {
    procs: usize,
    restarts: &'a Restarts,
    events: &'a [Event],
    channels: &'a mut [Channel],
    /// The next event of each process; 0 if it has done all.
    next: [u16; MAX_PROCS],
    /// Of each sender, the receivers for whom messages are kept, handed over or not.
    keeping: [u64; MAX_PROCS],
    phases: Vec<Phase>,
    /// Phases below this one are ready.
    unready: usize,
}

/// What a process did.
enum Did {
    /// Nothing: it has done all, or waits for something else than its gate.
    Nothing,
    /// It sent an orphan again.
    Orphan,
    /// It sent a message to this process.
    Sent(usize),
    /// It received, by this event, the message that this one sent.
    Received(usize, usize),
    /// It saved, or finished a save.
    Other,
}

impl<'a> Machine<'a> {
    /// The machine before the first choice. `received` is told of each receive before the restarts,
    /// with the message taken.
    pub(super) fn new(
        recorded: &'a mut Recorded,
        restarts: &'a Restarts,
        mut received: impl FnMut(&[Event], usize, usize),
    ) -> Self {
        let procs = recorded.procs;
        let events = &mut recorded.events[..];
        let channels = &mut recorded.channels[..];
        channels.fill(Channel::default());
        let mut next = [0; MAX_PROCS];
        let mut keeping = [0; MAX_PROCS];
        let mut phases = vec![Phase::default(); usize::from(recorded.highest_phase) + 2];
        // from the last event on, so that each list begins with its first
        for e in (1..events.len()).rev() {
            let event = events[e];
            let (z, other) = (event.process(), event.other());
            let before = e <= usize::from(restarts.after[z]);
            if !before {
                events[e].next = next[z];
                next[z] = e as u16;
            }
            if event.kind == SEND {
                let phase = &mut phases[usize::from(event.phase)];
                if event.received_up_to(restarts.after[other]) {
                    phase.orphans += u16::from(!before);
                    continue;
                }
                if before {
                    if !event.kept_at(recorded.step) {
                        continue;
                    }
                    events[e].next = phase.kept;
                    phase.kept = e as u16;
                    keeping[z] |= 1 << other;
                }
                let channel = &mut channels[z * procs + other];
                events[e].link = channel.other;
                *channel = Channel {
                    oldest: e as u16,
                    other: e as u16,
                };
            } else if before && event.kind == RECEIVE {
                received(events, e, usize::from(event.partner));
            }
        }
        let mut machine = Machine {
            procs,
            restarts,
            events,
            channels,
            next,
            keeping,
            phases,
            unready: 0,
        };
        machine.find_unready();
        machine
    }

    /// Moves on to the first phase with an orphan yet to be sent again, or past all phases.
    #[inline]
    fn find_unready(&mut self) {
        let rest = &self.phases[self.unready..];
        let passed = rest.iter().position(|phase| phase.orphans != 0);
        self.unready += passed.unwrap_or(rest.len());
    }

    #[inline]
    fn ready(&self, phase: u16) -> bool {
        usize::from(phase) < self.unready
    }

    #[inline]
    fn event(&self, e: u16) -> &'a Event {
        &self.events[usize::from(e)]
    }

    #[inline]
    pub(super) fn events(&self) -> &'a [Event] {
        self.events
    }

    #[inline]
    fn channel(&self, from: usize, to: usize) -> usize {
        from * self.procs + to
    }

    /// Whether the next event of a process is there and waits for nothing but the gate.
    fn able(&self, z: usize) -> bool {
        let e = self.next[z];
        let event = self.event(e);
        let other = event.other();
        match event.kind {
            // where an orphan goes, nothing is kept: it would have been received before the orphan
            SEND if event.received_up_to(self.restarts.after[other]) => true,
            SEND => self.channels[self.channel(z, other)].other == e,
            RECEIVE => {
                let channel = self.channels[self.channel(other, z)];
                channel.oldest != channel.other
            }
            kind => kind != NO_KIND,
        }
    }

    /// Does the next event of a process, if it is able to.
    #[inline(always)]
    fn run(&mut self, z: usize) -> Did {
        let e = self.next[z];
        let event = self.event(e);
        let other = event.other();
        match event.kind {
            SEND if event.received_up_to(self.restarts.after[other]) => {
                self.next[z] = event.next;
                self.phases[usize::from(event.phase)].orphans -= 1;
                self.find_unready();
                Did::Orphan
            }
            SEND => {
                let channel = self.channel(z, other);
                let channel = &mut self.channels[channel];
                if channel.other != e {
                    return Did::Nothing;
                }
                channel.other = event.link;
                self.next[z] = event.next;
                Did::Sent(other)
            }
            RECEIVE => {
                let channel = self.channel(other, z);
                let channel = &mut self.channels[channel];
                let message = channel.oldest;
                if message == channel.other {
                    return Did::Nothing;
                }
                channel.oldest = self.events[usize::from(message)].link;
                self.next[z] = event.next;
                Did::Received(usize::from(e), usize::from(message))
            }
            NO_KIND => Did::Nothing,
            _ => {
                self.next[z] = event.next;
                Did::Other
            }
        }
    }

    /// The next kept message from one process to another, if one is left.
    #[inline]
    fn kept(&self, from: usize, to: usize) -> Option<&'a Event> {
        let message = self.channels[self.channel(from, to)].other;
        // the next message is a kept one if it was sent before the restart
        (message.wrapping_sub(1) < self.restarts.after[from]).then(|| self.event(message))
    }

    #[inline]
    fn hand_over(&mut self, from: usize, to: usize, message: &Event) {
        let channel = self.channel(from, to);
        self.channels[channel].other = message.link;
    }

    #[inline]
    fn channel_allowed(&self, from: usize, to: usize) -> Option<&'a Event> {
        self.kept(from, to).filter(|kept| self.ready(kept.phase))
    }

    /// Does what a choice says, if that is allowed; gives the receive it did, with the message taken.
    #[inline(always)]
    pub fn carry_out(&mut self, choice: u16) -> Result<Option<(usize, usize)>, NotAllowed> {
        match parts(choice) {
            Choice::Process(z) if z < self.procs && self.ready(self.restarts.gate[z]) => {
                match self.run(z) {
                    Did::Nothing => Err(NotAllowed),
                    Did::Received(e, message) => Ok(Some((e, message))),
                    _ => Ok(None),
                }
            }
            Choice::Channel(from, to) if from < self.procs && to < self.procs => {
                let kept = self.channel_allowed(from, to).ok_or(NotAllowed)?;
                self.hand_over(from, to, kept);
                Ok(None)
            }
            _ => Err(NotAllowed),
        }
    }

    /// Whether no choice is allowed.
    pub fn complete(&self) -> bool {
        self.choices().next().is_none()
    }

    /// The choices that are allowed, from the lowest.
    pub fn choices(&self) -> impl Iterator<Item = u16> + '_ {
        let processes = (0..self.procs)
            .filter(|&z| self.ready(self.restarts.gate[z]) && self.able(z))
            .map(|z| z as u16);
        let channels = (0..self.procs).flat_map(move |from| {
            members(self.keeping[from])
                .filter(move |&to| self.channel_allowed(from, to).is_some())
                .map(move |to| (FIRST_CHANNEL + MAX_PROCS * from + to) as u16)
        });
        processes.chain(channels)
    }

    /// Carries out the order that always picks the lowest allowed choice, and gives its length.
    /// `receive` is told of each receive, with the message taken, and `choose` of each choice.
    ///
    /// A process is tried again only where something has changed for it: after a step of its own, a
    /// message for it, a kept message of its own handed over, or when its gate becomes ready.
    pub(super) fn lowest(
        mut self,
        mut receive: impl FnMut(&[Event], usize, usize),
        mut choose: impl FnMut(usize),
    ) -> u64 {
        let mut ready = Ready::new(&self);
        let mut may_run = ready.open;
        let mut steps = 0;
        loop {
            while may_run != 0 {
                let z = may_run.trailing_zeros() as usize;
                let unready = self.unready;
                match self.run(z) {
                    Did::Nothing => {
                        may_run &= may_run - 1;
                        continue;
                    }
                    Did::Orphan if self.unready == unready => {}
                    Did::Orphan => may_run |= ready.rise(&self, unready),
                    Did::Sent(to) => may_run |= 1 << to & ready.open,
                    Did::Received(e, message) => receive(self.events, e, message),
                    Did::Other => {}
                }
                choose(z);
                steps += 1;
            }
            if ready.senders == 0 {
                return steps;
            }
            let from = ready.senders.trailing_zeros() as usize;
            let to = ready.receivers[from].trailing_zeros() as usize;
            let kept = self.kept(from, to).expect("a ready message is kept");
            self.hand_over(from, to, kept);
            if self.channel_allowed(from, to).is_none() {
                ready.remove(from, to);
            }
            may_run = (1 << from | 1 << to) & ready.open;
            choose(FIRST_CHANNEL + MAX_PROCS * from + to);
            steps += 1;
        }
    }
}

/// A choice that is not allowed.
#[derive(Clone, Copy, Debug, PartialEq, Eq)]
pub struct NotAllowed;

/// What a choice number names.
enum Choice {
    Process(usize),
    /// Sender and receiver; the sender is 64 or more where the number names nothing.
    Channel(usize, usize),
}

#[inline]
fn parts(choice: u16) -> Choice {
    match usize::from(choice).checked_sub(FIRST_CHANNEL) {
        None => Choice::Process(usize::from(choice)),
        Some(channel) => Choice::Channel(channel / MAX_PROCS, channel % MAX_PROCS),
    }
}

/// What waits for no phase. It is looked at only where the least phase that is not ready rises, and
/// there each phase, each kept message and each gate once.
struct Ready {
    /// The processes whose gate is ready.
    open: u64,
    /// The processes whose gate is not.
    shut: u64,
    /// No gate of these is below this phase.
    least_gate: usize,
    /// Of each sender, the receivers to whom a message may be handed over.
    receivers: [u64; MAX_PROCS],
    /// The senders of messages that may be handed over.
    senders: u64,
}

impl Ready {
    fn new(machine: &Machine) -> Self {
        let mut ready = Ready {
            open: 0,
            shut: u64::MAX >> (MAX_PROCS - machine.procs),
            least_gate: 0,
            receivers: [0; MAX_PROCS],
            senders: 0,
        };
        ready.rise(machine, 0);
        ready
    }

    /// Takes note that phases from this one on have become ready; gives the processes whose gate has.
    fn rise(&mut self, machine: &Machine, first: usize) -> u64 {
        for phase in &machine.phases[first..machine.unready] {
            let mut kept = phase.kept;
            while kept != 0 {
                let message = machine.event(kept);
                // no message before it in its channel has a higher phase, so the next one is ready
                self.receivers[message.process()] |= 1 << message.other();
                self.senders |= 1 << message.process();
                kept = message.next;
            }
        }
        if machine.unready <= self.least_gate {
            return 0;
        }
        let mut opened = 0;
        self.least_gate = usize::MAX;
        for z in members(self.shut) {
            let gate = machine.restarts.gate[z];
            if machine.ready(gate) {
                opened |= 1 << z;
            } else {
                self.least_gate = self.least_gate.min(usize::from(gate));
            }
        }
        self.open |= opened;
        self.shut &= !opened;
        opened
    }

    /// Takes note that no message may be handed over from one process to another.
    fn remove(&mut self, from: usize, to: usize) {
        self.receivers[from] &= !(1 << to);
        if self.receivers[from] == 0 {
            self.senders &= !(1 << from);
        }
    }
}
