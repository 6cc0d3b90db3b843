//! The family of traces on which speed is measured: a shape, and parameters that change it. A member
//! has a name, which is all that is needed to make it again.

use crate::shapes::{Dones, Event, Habits, Maker, Random, Shape, Trace};
use crate::{Failure, MAX_PROCS};
use std::fmt;

/// What a member of the family is made by.
#[derive(Clone, Copy, Debug, PartialEq, Eq)]
pub enum Key {
    /// What the random numbers begin with; else the number of events.
    Seed,
    /// How many processes; else as many as [`usual_processes`] says.
    Processes,
    /// How many of them take part, the last ones; else all.
    Talkers,
    /// How many events in a hundred are saves, as [`Habits`]; else as the shape has it.
    Saves,
    /// How many of the others in a hundred are receives, as [`Habits`].
    Receives,
    /// With more messages than this in transit, none is sent, as [`Habits`].
    Transit,
    /// How many saves in a hundred are finished at once; else all.
    Finished,
    /// How many events in a hundred finish another one, as [`Dones`]; else none.
    Later,
    /// Whether the saves are left out, 1 or 0.
    Unsaved,
    /// Of a hundred events before the cut that are free for it, how many are those of the last two
    /// processes that pass a message back and forth and raise the phase each time; else none.
    Rise,
    /// Whether all other processes come to know that phase, 1 or 0.
    Spread,
    /// How many messages each of the others sends shortly before the cut.
    Burst,
    /// How many events in a hundred are before the cut; else 75.
    Cut,
    /// How many of the first processes fail; else those that do in this shape.
    First,
    /// How many of the last processes fail.
    Last,
    /// Whether the line is that of all 1, 1 or 0; else it is the greatest.
    Start,
    /// How many sends in a hundred have a value of up to 64 bits; else none, but of up to 32.
    Long,
}

/// A parameter: its key, how it is written, what it may be at random, and how many times in a hundred
/// it is given then.
struct Parameter {
    key: Key,
    name: &'static str,
    picks: &'static [usize],
    percent: usize,
}

const fn parameter(
    key: Key,
    name: &'static str,
    picks: &'static [usize],
    percent: usize,
) -> Parameter {
    Parameter {
        key,
        name,
        picks,
        percent,
    }
}

/// All parameters, in the order of their keys.
const PARAMETERS: [Parameter; 17] = [
    parameter(Key::Seed, "seed", &[], 100),
    parameter(Key::Processes, "procs", &[2, 3, 5, 8, 16, 32, 63, 64], 15),
    parameter(Key::Talkers, "talkers", &[2, 3, 4, 8, 20, 33, 60], 20),
    parameter(Key::Saves, "saves", &[0, 1, 3, 10, 40], 70),
    parameter(Key::Receives, "receives", &[10, 30, 45, 60, 100], 70),
    parameter(Key::Transit, "transit", &[0, 1, 8, 32, 128, 512, 2_048], 70),
    parameter(Key::Finished, "finished", &[0, 50, 100], 30),
    parameter(Key::Later, "later", &[0, 3, 30], 30),
    parameter(Key::Unsaved, "unsaved", &[0], 0),
    parameter(Key::Rise, "rise", &[5, 20, 50, 80, 99, 100], 40),
    parameter(Key::Spread, "spread", &[1], 40),
    parameter(Key::Burst, "burst", &[1, 2, 3, 5, 10, 20], 40),
    parameter(Key::Cut, "cut", &[0, 1, 5, 25, 50, 90, 97, 99, 100], 70),
    parameter(Key::First, "first", &[1, 2, 8, 32, 62, 64], 30),
    parameter(Key::Last, "last", &[1, 2, 8, 32, 63, 64], 40),
    parameter(Key::Start, "start", &[1], 20),
    parameter(Key::Long, "long", &[10, 50, 100], 20),
];

/// Members with a name of their own.
const NAMED: [(&str, &str); 9] = [
    (
        "adverse",
        "turns+rise=100+spread=1+burst=2+cut=97+last=1+saves=0",
    ),
    ("deep", "steep+transit=4+cut=97"),
    ("waiting", "dense+rise=50+spread=1+burst=6+cut=90+last=1"),
    ("bursts", "dense+burst=10"),
    ("two", "dense+talkers=2+last=1"),
    ("failed", "dense+first=64"),
    ("late", "dense+cut=100"),
    ("early", "dense+cut=5"),
    ("start", "dense+start=1"),
];

/// The sizes on which speed is measured.
pub const SIZES: [usize; 4] = [16, 128, 512, 2_048];

/// How many processes a trace of so many events has, if nothing else is said.
pub fn usual_processes(events: usize) -> usize {
    match events {
        0..=16 => 4,
        17..=128 => 16,
        129..=512 => 32,
        _ => MAX_PROCS,
    }
}

/// A member of the family. Its name is what [`fmt::Display`] gives.
#[derive(Clone, Debug, PartialEq, Eq)]
pub struct Member {
    shape: Shape,
    parameters: [Option<usize>; PARAMETERS.len()],
}

impl Member {
    /// A shape as it is.
    pub fn new(shape: Shape) -> Member {
        Member {
            shape,
            parameters: [None; PARAMETERS.len()],
        }
    }

    /// The member of this name: that of a shape, one of those with a name of their own, or `random-`
    /// and a number; with `-unfinished` or `-unsaved` without dones or saves; and, each with a `+`
    /// before it, parameters, such as `dense+cut=90+last=3`.
    pub fn named(name: &str) -> Option<Member> {
        let mut parts = name.split('+');
        let first = parts.next()?;
        let (first, ending) = match first.rsplit_once('-') {
            Some((first, ending @ ("unfinished" | "unsaved"))) => (first, ending),
            _ => (first, ""),
        };
        let mut member = if let Some((_, meant)) = NAMED.iter().find(|(name, _)| *name == first) {
            Member::named(meant)?
        } else if let Some(seed) = first.strip_prefix("random-") {
            Member::random(seed.parse().ok()?)
        } else {
            let shape = Shape::ALL.into_iter().find(|shape| shape.name() == first)?;
            Member::new(shape)
        };
        match ending {
            "unfinished" => member.set(Key::Finished, 0),
            "unsaved" => member.set(Key::Unsaved, 1),
            _ => {}
        }
        for part in parts {
            let (name, number) = part.split_once('=')?;
            let parameter = PARAMETERS.iter().find(|one| one.name == name)?;
            member.set(parameter.key, number.parse().ok()?);
        }
        Some(member)
    }

    /// The shapes as they are, and the members with a name of their own.
    pub fn all_named() -> impl Iterator<Item = Member> {
        let shapes = Shape::ALL.into_iter().map(Member::new);
        let others = NAMED.iter().map(|(_, meant)| Member::named(meant));
        shapes.chain(others.map(|member| member.expect("what is meant is a name")))
    }

    /// What names there are.
    pub fn names() -> String {
        let shapes = Shape::ALL.map(Shape::name).join(", ");
        let named: Vec<_> = NAMED
            .iter()
            .map(|(name, meant)| format!("    {name:8} is {meant}\n"))
            .collect();
        let parameters = PARAMETERS.map(|one| one.name).join(", ");
        format!(
            "shapes: {shapes}\nothers:\n{}    random-N for any number N\neach may end in -unfinished \
             or -unsaved, and have parameters, such as dense+cut=90+last=3:\n    {parameters}\n\
             (src/family.rs says what they are)",
            named.concat()
        )
    }

    /// A member at random.
    pub fn random(seed: u64) -> Member {
        let mut random = Random::new(seed);
        let mut member = Member::new(random.pick(&Shape::ALL));
        for parameter in &PARAMETERS {
            if !parameter.picks.is_empty() && random.percent(parameter.percent) {
                member.set(parameter.key, random.pick(parameter.picks));
            }
        }
        member.set(Key::Seed, seed as usize);
        member
    }

    /// This member with something changed.
    pub fn changed(&self, random: &mut Random) -> Member {
        let mut member = self.clone();
        for _ in 0..1 + random.below(3) {
            let parameter = &PARAMETERS[random.below(PARAMETERS.len())];
            let now = member.parameters[parameter.key as usize];
            let new = match (parameter.key, now) {
                (Key::Seed, _) => Some(random.below(1 << 20)),
                (_, Some(now)) if parameter.picks.len() > 1 && random.percent(40) => {
                    Some((now + random.below(9)).saturating_sub(4))
                }
                (_, Some(_)) if random.percent(20) => None,
                (Key::Unsaved, _) => None,
                _ => Some(random.pick(parameter.picks)),
            };
            member.parameters[parameter.key as usize] = new;
        }
        member
    }

    fn set(&mut self, key: Key, number: usize) {
        self.parameters[key as usize] = Some(number);
    }

    fn get(&self, key: Key) -> Option<usize> {
        self.parameters[key as usize]
    }

    /// A parameter that is a yes or a no.
    fn says(&self, key: Key) -> bool {
        self.get(key) == Some(1)
    }

    /// Whether the line is that of all 1.
    pub fn from_start(&self) -> bool {
        self.says(Key::Start)
    }

    fn processes(&self, events: usize) -> usize {
        let processes = self.get(Key::Processes);
        processes.map_or(usual_processes(events), |n| n.clamp(2, MAX_PROCS))
    }

    /// How many events are before the cut.
    fn cut(&self, events: usize) -> usize {
        events * self.get(Key::Cut).unwrap_or(75).min(100) / 100
    }

    /// The trace of so many events, and its failure.
    pub fn trace(&self, events: usize) -> (Trace, Failure) {
        let seed = self.get(Key::Seed).unwrap_or(events);
        let mut random = Random::new(seed as u64);
        let mut trace = if self.says(Key::Unsaved) {
            // under half of its events are saves
            let mut trace = self.made(2 * events, events, &mut random);
            let saved = |event: &Event| matches!(event, Event::Save { .. });
            trace.events.retain(|event| !saved(event));
            trace.events.truncate(events);
            trace
        } else {
            let mut trace = self.made(events, events, &mut random);
            let dones = Dones {
                at_once: self.get(Key::Finished).unwrap_or(100),
                later: self.get(Key::Later).unwrap_or(0),
            };
            trace.finish_saves(dones, &mut random);
            trace
        };
        let long = self.get(Key::Long).unwrap_or(0);
        for event in &mut trace.events {
            if let Event::Send { val, .. } = event {
                if random.percent(long) {
                    *val = random.bits();
                }
            }
        }
        let failure = Failure {
            step: self.cut(events) as u64,
            set: self.failed(trace.procs),
        };
        (trace, failure)
    }

    /// A trace of `most` events without dones, as is fit where there are to be `events`.
    fn made(&self, most: usize, events: usize, random: &mut Random) -> Trace {
        let procs = self.processes(events);
        let talkers = self.get(Key::Talkers).unwrap_or(procs).clamp(2, procs);
        let usual = self.shape.habits(talkers, events);
        let habits = Habits {
            saves: self.get(Key::Saves).unwrap_or(usual.saves),
            receives: self.get(Key::Receives).unwrap_or(usual.receives),
            in_transit: self.get(Key::Transit).unwrap_or(usual.in_transit),
        };
        let rise = self.get(Key::Rise);
        let burst = self.get(Key::Burst).unwrap_or(0);
        let mut maker = Maker::new(procs, most);
        let ahead = self.shape.ahead(talkers);
        maker.save_ahead(ahead);
        if rise.is_some() && ahead != 1 {
            // the last process alone, for the phase to rise
            maker.save_ahead(1);
        }
        let cut = self.cut(events);
        let messages = burst * (procs - 2);
        let spread = match self.says(Key::Spread) {
            true => 2 * (procs - 2),
            false => 0,
        };
        if let Some(rise) = rise {
            let free = cut.saturating_sub(messages + spread + 2 * ahead);
            maker.rise(free * rise.min(100) / 100);
        }
        if spread > 0 {
            maker.spread();
        }
        if burst > 0 {
            let until = cut.saturating_sub(messages + 2 * ahead);
            maker.go_on(self.shape, habits, talkers, until, random);
            maker.burst(burst);
        }
        maker.go_on(self.shape, habits, talkers, most, random);
        maker.trace()
    }

    /// The set of failed processes.
    fn failed(&self, procs: usize) -> u64 {
        let half = procs / 2;
        let first = |count: usize| match count.min(procs) {
            0 => 0,
            count => u64::MAX >> (MAX_PROCS - count),
        };
        let last = |count: usize| {
            let count = count.min(procs);
            first(count) << (procs - count)
        };
        let set = match (self.get(Key::First), self.get(Key::Last)) {
            (None, None) => match self.shape {
                Shape::Orphans => first(half),
                Shape::Steep => last(half),
                Shape::Turns => last(1),
                _ => first(1),
            },
            (some, others) => first(some.unwrap_or(0)) | last(others.unwrap_or(0)),
        };
        match set {
            0 => 1,
            set => set,
        }
    }
}

impl fmt::Display for Member {
    fn fmt(&self, f: &mut fmt::Formatter<'_>) -> fmt::Result {
        write!(f, "{}", self.shape.name())?;
        for parameter in &PARAMETERS {
            if let Some(number) = self.get(parameter.key) {
                write!(f, "+{}={number}", parameter.name)?;
            }
        }
        Ok(())
    }
}

#[cfg(test)]
mod tests {
    use super::*;
    use crate::{reference, AREA_WORDS};

    /// A number that nearly always differs where texts do.
    fn sum(text: &[u8]) -> u64 {
        text.iter().fold(0xcbf2_9ce4_8422_2325, |sum, &byte| {
            (sum ^ u64::from(byte)).wrapping_mul(0x100_0000_01b3)
        })
    }

    fn table_of(trace: &Trace) -> Vec<u32> {
        let mut table = vec![0; AREA_WORDS];
        reference::read(&trace.text(), &mut table).expect("the trace is fit");
        table
    }

    #[test]
    fn names_give_members_back() {
        for member in Member::all_named().chain((0..500).map(Member::random)) {
            assert_eq!(Member::named(&member.to_string()), Some(member));
        }
        let same = |a, b| assert_eq!(Member::named(a), Member::named(b));
        same("dense-unfinished", "dense+finished=0");
        same(
            "two-unsaved+cut=9",
            "dense+talkers=2+last=1+unsaved=1+cut=9",
        );
        same("random-17+seed=17", "random-17");
        for none in [
            "",
            "dens",
            "dense-",
            "random-",
            "dense+cut",
            "dense+cut=x",
            "dense+x=1",
        ] {
            assert_eq!(Member::named(none), None, "{none}");
        }
    }

    /// What was counted on a shape can be counted again.
    #[test]
    fn shapes_stay() {
        let sums = [
            ("dense", 0x0de5_ad04_b65b_5e75),
            ("dense-unfinished", 0x2f35_ae44_211c_3d75),
            ("dense-unsaved", 0x0aef_62d1_910b_5aa8),
            ("ring", 0xc10f_a104_811c_aba5),
            ("clusters", 0x294a_4e7c_cc5a_72e0),
            ("checkpoints", 0x3897_7a4a_68a1_e69f),
            ("checkpoints-unfinished", 0x04b1_df60_6b6d_f12b),
            ("checkpoints-unsaved", 0x5961_c500_38b6_bebf),
            ("orphans", 0xf3f3_b43d_3648_0347),
            ("steep", 0x85e6_31b0_f99f_12e4),
            ("turns", 0x1470_ec7a_abad_44b5),
        ];
        for (name, wanted) in sums {
            let (trace, failure) = Member::named(name).expect("a name").trace(2_048);
            assert_eq!(sum(&trace.text_with(failure)), wanted, "{name}");
        }
    }

    #[test]
    fn members_are_fit() {
        let mut random = Random::new(0);
        let mut member = Member::random(0);
        for round in 0..400 {
            member = match round % 3 {
                0 => Member::random(round),
                _ => member.changed(&mut random),
            };
            let events = random.pick(&[0, 1, 16, 128]);
            let (trace, failure) = member.trace(events);
            assert_eq!(trace.events.len(), events, "{member}");
            let table = table_of(&trace);
            let restart = reference::restart(&table, failure).expect("the failure is fit");
            let ones = vec![1; trace.procs];
            for line in [restart.line(), &ones] {
                let order = reference::quick_lowest_order(&table, failure, line);
                assert_eq!(
                    order,
                    reference::lowest_order(&table, failure, line),
                    "{member}"
                );
            }
        }
    }

    /// Hundreds of phases become ready one after the other, while all others wait for the last.
    #[test]
    fn the_adverse_one_is_adverse() {
        let (trace, failure) = Member::named("adverse").expect("a name").trace(2_048);
        let table = table_of(&trace);
        let restart = reference::restart(&table, failure).expect("the failure is fit");
        let mut run = vec![0; AREA_WORDS];
        let counts = reference::messages(&table, failure, restart.line(), &mut run);
        let counts = counts.expect("the line is fit");
        // words of the list: row i is at 16 + i, its phase at 4,114 + i, orphans first, kept then
        let orphans = counts.orphans as usize;
        let mut phases = run[4_115..][..orphans].to_vec();
        phases.dedup();
        assert!(phases.len() > 400, "{} phases", phases.len());
        let last = phases[phases.len() - 1];
        let kept = orphans..orphans + counts.kept as usize;
        let waiting = kept.filter(|i| run[4_115 + i] >= last);
        let senders = waiting.fold(0u64, |set, i| set | 1 << (run[17 + i] & 63));
        assert!(senders.count_ones() >= 62, "{senders:b}");
    }
}
