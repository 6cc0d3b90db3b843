//! Compares the archive with the reference: every number of every answer, every word of every area,
//! every byte of every buffer. What the archive writes, it has to read as the same words, and to
//! write as the same bytes what it has read.
//!
//! `cargo test --test differential -- [rounds [first round]]`; or, without these, `HALLBACK_ROUNDS`
//! says how many rounds. A round is made from its number alone, so that one that differs can be run again; before
//! round 1 come texts and areas at the limits and all small traces. Ends with how many calls were compared and
//! how many differ, and fails if any does.

#[cfg(not(hallback_archive))]
fn main() {
    eprintln!(
        "differential: nothing to compare with, since ../target/staticlib/libcapi.a was not there \
         when this was built; build it (tools/build capi), then run this again"
    );
    std::process::exit(1);
}

#[cfg(hallback_archive)]
fn main() {
    let from_environment = std::env::var("HALLBACK_ROUNDS")
        .ok()
        .and_then(|rounds| rounds.parse().ok());
    let mut numbers = std::env::args()
        .skip(1)
        .filter_map(|argument| argument.parse().ok());
    let rounds = numbers
        .next()
        .or(from_environment)
        .unwrap_or(compare::QUICK_ROUNDS);
    let first = numbers.next().unwrap_or(1);
    if !compare::compare(first..first + rounds) {
        std::process::exit(1);
    }
}

#[cfg(hallback_archive)]
mod compare {
    use hallback::family::Member;
    use hallback::shapes::{each_trace, Dones, Event, Random, Shape, Trace, LONG_VALUES};
    use hallback::{raw, reference, set_value};
    use hallback::{Failure, Refusal, Replayed, Restart, STAY};
    use hallback::{AREA_WORDS, EVENT_BASE, HIGH_BASE, VALUE_BASE};
    use hallback::{MAX_EVENTS, MAX_PROCS, TEXT_BYTES};
    use std::collections::BTreeMap;
    use std::fmt::Display;
    use std::ops::Range;
    use std::path::Path;
    use std::time::Instant;

    /// How many rounds are run if nothing is said; under a minute.
    pub const QUICK_ROUNDS: u64 = 2_000;

    /// What words of an answer hold before a call.
    const UNTOUCHED: u64 = 0x5eed_0bad_c0de_f00d;

    /// How many words each answer has.
    const READ: usize = 1;
    const READ_FAILURE: usize = 3;
    const WRITE: usize = 2;
    const RESTART: usize = 4 + 3 * MAX_PROCS;
    const MESSAGES: usize = 4;
    const REPLAY: usize = 3;

    /// The numbers of an accepted answer after its place, or a refusal.
    type Wanted = Result<Vec<u64>, Refusal>;

    /// Of one call, how many were compared, accepted and differ.
    #[derive(Default)]
    struct Tally {
        compared: u64,
        accepted: u64,
        differ: u64,
    }

    /// What is compared, from round to round.
    struct Comparison {
        round: u64,
        random: Random,
        tallies: BTreeMap<&'static str, Tally>,
        refusals: BTreeMap<(&'static str, u32), u64>,
    }

    /// A trace area, a failure, a line, an order and a run area to be given to a call.
    #[derive(Clone, Copy)]
    struct Input<'a> {
        table: &'a [u32],
        failure: Failure,
        line: &'a [u32],
        order: &'a [u16],
        run: &'a [u32],
    }

    pub fn compare(rounds: Range<u64>) -> bool {
        let start = Instant::now();
        let mut comparison = Comparison {
            round: 0,
            random: Random::new(0),
            tallies: BTreeMap::new(),
            refusals: BTreeMap::new(),
        };
        let count = rounds.end - rounds.start;
        if rounds.start == 1 {
            comparison.fixed_texts();
            comparison.bounds_of_keys();
            comparison.halves();
            comparison.unfinished();
            comparison.small_traces();
        }
        for round in rounds {
            comparison.round = round;
            comparison.random = Random::new(round.wrapping_mul(0x0123_4567_89ab_cdef));
            comparison.round();
        }
        comparison.conclude(count, start)
    }

    fn restart_words(restart: Restart) -> Vec<u64> {
        let mut words = vec![restart.count as u64, restart.back, restart.going];
        for numbers in [restart.numbers, restart.epochs, restart.phases] {
            words.extend(numbers.map(u64::from));
        }
        words
    }

    impl Comparison {
        fn conclude(&self, rounds: u64, start: Instant) -> bool {
            for (call, tally) in &self.tallies {
                println!(
                    "{call:13} compared {:8}  accepted {:8}  differ {}",
                    tally.compared, tally.accepted, tally.differ
                );
                let refusals: Vec<_> = self
                    .refusals
                    .iter()
                    .filter(|((refused, _), _)| refused == call)
                    .map(|((_, number), count)| format!("{number}: {count}"))
                    .collect();
                if !refusals.is_empty() {
                    println!("{:13} refused  {}", "", refusals.join(", "));
                }
            }
            let compared: u64 = self.tallies.values().map(|tally| tally.compared).sum();
            let differ: u64 = self.tallies.values().map(|tally| tally.differ).sum();
            println!(
                "{rounds} rounds, {compared} compared, {differ} differ, {:.1} s",
                start.elapsed().as_secs_f64()
            );
            differ == 0
        }

        /// Takes note of a comparison; what differs, if something does, is said by `differences`.
        fn note(
            &mut self,
            call: &'static str,
            wanted: &Wanted,
            differences: Vec<String>,
            input: &dyn Fn() -> String,
        ) {
            let tally = self.tallies.entry(call).or_default();
            tally.compared += 1;
            match wanted {
                Ok(_) => tally.accepted += 1,
                Err(refusal) => {
                    let key = (call, refusal.cause.number());
                    *self.refusals.entry(key).or_default() += 1;
                }
            }
            if differences.is_empty() {
                return;
            }
            tally.differ += 1;
            if tally.differ > 5 {
                return;
            }
            let name = format!("differs-{call}-{}-{}.txt", self.round, tally.differ);
            let path = Path::new(env!("CARGO_TARGET_TMPDIR")).join(name);
            std::fs::write(&path, input()).expect("the input of a difference can be written");
            println!("round {}: {call} differs, input in {path:?}", self.round);
            for difference in differences {
                println!("    {difference}");
            }
        }

        /// Calls the engine with an answer of some length, and compares number and answer.
        fn answer(
            &mut self,
            wanted: &Wanted,
            words: usize,
            engine: impl FnOnce(&mut [u64]) -> u32,
        ) -> Vec<String> {
            let (number, mut numbers) = match wanted {
                Ok(numbers) => (0, [&[0], &numbers[..]].concat()),
                Err(refusal) => (refusal.cause.number(), vec![refusal.place]),
            };
            numbers.resize(words, 0);
            let room = match self.random.below(8) {
                0 => self.random.below(words + 1),
                1 => words + self.random.below(9),
                _ => words,
            };
            numbers.resize(words.max(room), UNTOUCHED);
            numbers.truncate(room);
            let mut answer = vec![UNTOUCHED; room];
            let got = engine(&mut answer);
            let mut differences = Vec::new();
            if got != number {
                differences.push(format!("engine's number {got}, reference's {number}"));
            }
            if answer != numbers {
                differences.push(format!(
                    "engine's answer {answer:?}, reference's {numbers:?}"
                ));
            }
            differences
        }

        /// Words to begin with in a lent area that is long enough.
        fn area(&mut self) -> Vec<u32> {
            let more = self.random.pick(&[0, 0, 1, 17, 4_000]);
            self.area_of(AREA_WORDS + more)
        }

        fn area_of(&mut self, length: usize) -> Vec<u32> {
            let bits = self.random.bits() as u32;
            match self.random.below(3) {
                0 => vec![0; length],
                1 => vec![bits; length],
                _ => (0..length as u32).map(|i| i.wrapping_mul(bits)).collect(),
            }
        }

        /// An area of a length that may be too short.
        fn short_area(&mut self) -> Vec<u32> {
            let length = match self.random.below(4) {
                0 => 0,
                1 => AREA_WORDS - 1,
                2 => AREA_WORDS,
                _ => self.random.below(AREA_WORDS),
            };
            self.area_of(length)
        }

        fn read(&mut self, text: &[u8], area: Vec<u32>) {
            let mut wanted_area = area.clone();
            let wanted = reference::read(text, &mut wanted_area).map(|()| vec![]);
            let mut table = area;
            let mut differences =
                self.answer(&wanted, READ, |answer| raw::read(text, &mut table, answer));
            differences.extend(first_difference("table", &table, &wanted_area));
            let input = || String::from_utf8_lossy(text).into_owned();
            self.note("read", &wanted, differences, &input);
            if wanted.is_ok() {
                self.written_back(text, &table);
            }
        }

        fn read_failure(&mut self, text: &[u8], area: Vec<u32>) {
            let mut wanted_area = area.clone();
            let wanted = reference::read_failure(text, &mut wanted_area)
                .map(|failure| vec![failure.step, failure.set]);
            let mut table = area;
            let mut differences = self.answer(&wanted, READ_FAILURE, |answer| {
                raw::read_failure(text, &mut table, answer)
            });
            differences.extend(first_difference("table", &table, &wanted_area));
            let input = || String::from_utf8_lossy(text).into_owned();
            self.note("read_failure", &wanted, differences, &input);
            if wanted.is_ok() {
                let fail = text.iter().rposition(|&byte| byte == b'f');
                self.written_back(&text[..fail.expect("the last line has `fail`")], &table);
            }
        }

        /// What the engine has read, it writes as the same bytes.
        fn written_back(&mut self, text: &[u8], table: &[u32]) {
            let written = engine_text(table, text.len());
            let mut differences = Vec::new();
            if written.as_deref() != Some(text) {
                let written = String::from_utf8_lossy(written.as_deref().unwrap_or_default());
                differences.push(format!("written again\n{written}"));
            }
            let input = || String::from_utf8_lossy(text).into_owned();
            self.note("read_write", &Ok(vec![]), differences, &input);
        }

        /// What the engine writes, it reads as the same words.
        fn read_back(&mut self, table: &[u32]) {
            let text = engine_text(table, TEXT_BYTES).unwrap_or_default();
            let mut area = self.area();
            let number = raw::read(&text, &mut area, &mut []);
            let mut differences = Vec::new();
            if number != 0 {
                differences.push(format!("read again it is refused with {number}"));
            }
            let difference = first_difference("area", &area[..AREA_WORDS], &table[..AREA_WORDS]);
            differences.extend(difference);
            self.note("write_read", &Ok(vec![]), differences, &|| {
                describe_table(table)
            });
        }

        /// Writes to a buffer of so many bytes, and gives the length of the text if it is accepted.
        fn write_to(&mut self, table: &[u32], room: usize) -> Option<usize> {
            let filled = 1 + self.random.below(255) as u8;
            let mut wanted_out = vec![filled; room];
            let length = reference::write(table, &mut wanted_out);
            let wanted = length.map(|length| vec![length as u64]);
            let mut out = vec![filled; room];
            let mut differences =
                self.answer(&wanted, WRITE, |answer| raw::write(table, &mut out, answer));
            differences.extend(first_difference("buffer", &out, &wanted_out));
            self.note("write", &wanted, differences, &|| describe_table(table));
            length.ok()
        }

        /// Writes to buffers of all lengths that matter.
        fn write(&mut self, table: &[u32]) {
            let written = self.write_to(table, TEXT_BYTES);
            let length = written.unwrap_or_else(|| self.random.below(200));
            let other = self.random.below(2 * length + 2);
            for room in [length, length.saturating_sub(1), length + 1, 0, other] {
                self.write_to(table, room);
            }
            if written.is_some() {
                self.read_back(table);
            }
        }

        fn report(&mut self, text: &[u8]) {
            let room = match self.random.below(8) {
                0 => self.random.below(100),
                1 => self.random.below(5_000),
                _ => hallback::REPORT_BYTES,
            };
            let mut wanted = vec![b'~'; room];
            let mut out = wanted.clone();
            let wanted_length = reference::report(text, &mut wanted);
            let length = raw::report(text, &mut out);
            let mut differences = Vec::new();
            if length != wanted_length || out != wanted {
                differences.push(format!(
                    "engine's report\n{}\nreference's\n{}",
                    String::from_utf8_lossy(&out[..length.min(out.len())]),
                    String::from_utf8_lossy(&wanted[..wanted_length])
                ));
            }
            let input = || String::from_utf8_lossy(text).into_owned();
            self.note("report", &Ok(vec![]), differences, &input);
        }

        /// All calls that take a text.
        fn text(&mut self, text: &[u8]) {
            let area = self.area();
            self.read(text, area);
            let area = self.area();
            self.read_failure(text, area);
            self.report(text);
        }

        fn restart(&mut self, input: Input) {
            let Input { table, failure, .. } = input;
            let wanted = reference::restart(table, failure).map(restart_words);
            let differences = self.answer(&wanted, RESTART, |answer| {
                raw::restart(table, failure.step, failure.set, answer)
            });
            self.note("restart", &wanted, differences, &|| describe(input));
        }

        /// Compares a call that answers in so many words and writes to a run area.
        fn in_run(
            &mut self,
            call: &'static str,
            words: usize,
            input: Input,
            reference: impl FnOnce(&mut [u32]) -> Wanted,
            engine: impl FnOnce(&mut [u32], &mut [u64]) -> u32,
        ) {
            let mut wanted_run = input.run.to_vec();
            let wanted = reference(&mut wanted_run);
            let mut run = input.run.to_vec();
            let mut differences = self.answer(&wanted, words, |answer| engine(&mut run, answer));
            differences.extend(first_difference("run", &run, &wanted_run));
            self.note(call, &wanted, differences, &|| describe(input));
        }

        fn messages(&mut self, input: Input) {
            let Input {
                table,
                failure,
                line,
                ..
            } = input;
            self.in_run(
                "messages",
                MESSAGES,
                input,
                |run| {
                    reference::messages(table, failure, line, run)
                        .map(|counts| vec![counts.orphans, counts.kept, counts.lost])
                },
                |run, answer| raw::messages(table, failure.step, failure.set, line, run, answer),
            );
        }

        fn replay(&mut self, input: Input) {
            let Input {
                table,
                failure: Failure { step, set },
                line,
                order,
                ..
            } = input;
            self.in_run(
                "replay",
                REPLAY,
                input,
                |run| reference::replay(table, input.failure, line, order, run).map(replayed_words),
                |run, answer| raw::replay(table, step, set, line, order, run, answer),
            );
        }

        fn lowest(&mut self, input: Input) {
            let Input {
                table,
                failure,
                line,
                ..
            } = input;
            self.in_run(
                "lowest",
                REPLAY,
                input,
                |run| reference::lowest(table, failure, line, run).map(replayed_words),
                |run, answer| raw::lowest(table, failure.step, failure.set, line, run, answer),
            );
        }

        /// The engine's steps for a complete order: as many as the formula says, if the line loses no
        /// message; else no more than that, and than twice the events.
        fn steps(&mut self, input: Input) {
            let Input {
                table,
                failure: Failure { step, set },
                line,
                order,
                run,
            } = input;
            let mut run = run.to_vec();
            let Ok(counts) = reference::messages(table, input.failure, line, &mut run) else {
                return;
            };
            let exact =
                reference::exact_steps(table, input.failure, line).expect("the line is fit");
            let mut answer = [0; REPLAY];
            raw::replay(table, step, set, line, order, &mut run, &mut answer);
            let [_, steps, complete] = answer;
            let (call, as_promised) = match counts.lost {
                0 => ("steps_exact", steps == exact),
                _ => (
                    "steps_most",
                    steps <= exact && steps <= 2 * u64::from(table[1]),
                ),
            };
            let mut differences = Vec::new();
            if complete != 1 || !as_promised {
                differences.push(format!(
                    "{steps} steps, complete {complete}, {} lost; the formula says {exact}",
                    counts.lost
                ));
            }
            self.note(call, &Ok(vec![]), differences, &|| describe(input));
        }

        /// Texts at the limits, which random ones seldom reach.
        fn fixed_texts(&mut self) {
            let send = "ev=send at=0 to=1 val=18446744073709551615\n";
            let receive = "ev=recv at=1 from=0\n";
            let save = "ev=save at=1\n";
            let done = "ev=done at=1\n";
            let save_done = format!("{save}{done}");
            let failures = [
                "",
                "fail=0 set=1\n",
                "fail=2048 set=3\n",
                "fail=2049 set=1\n",
                "fail=4294967295 set=1\n",
                "fail=4294967296 set=1\n",
                "fail=1 set=0\n",
                "fail=1 set=4\n",
                "fail=1 set=18446744073709551615\n",
                "fail=1 set=18446744073709551616\n",
                "fail=01 set=1\n",
                "fail=1 set=01\n",
                "fail=1 set=1",
                "fail=1 set=1\n\n",
                "fail=1 set=1\nfail=1 set=1\n",
                "x",
            ];
            let longest = "ev=send at=63 to=62 val=18446744073709551615\n".repeat(2_048);
            let counts = ["0", "1", "2", "64", "65", "02", "4294967295", "4294967296"];
            for procs in counts {
                for failure in failures {
                    for events in [
                        String::new(),
                        send.to_string(),
                        send.repeat(2),
                        format!("{send}{receive}{receive}"),
                        save.repeat(30),
                        save.repeat(31),
                        done.to_string(),
                        format!("{save_done}{done}"),
                        format!("{save}ev=done at=0\n"),
                        save_done.repeat(30),
                        save_done.repeat(31),
                        format!("{}{}", save.repeat(30), done.repeat(30)),
                        format!("{}{}", save.repeat(30), done.repeat(31)),
                        send.repeat(2_047),
                        send.repeat(2_048),
                        send.repeat(2_049),
                        format!("{}{}", send.repeat(1_024), receive.repeat(1_024)),
                        format!("{}{}", send.repeat(1_024), receive.repeat(1_025)),
                        format!("{}ev=save at=99\n", send.repeat(2_048)),
                        format!("{}ev=save at=99", send.repeat(2_048)),
                        format!("{}{done}", send.repeat(2_048)),
                        format!("{save}{}{done}", send.repeat(2_046)),
                        format!("{save}{}{done}", send.repeat(2_047)),
                        format!("{}{}", save.repeat(30), send.repeat(2_018)),
                        longest.clone(),
                    ] {
                        self.text(format!("procs={procs}\n{events}{failure}").as_bytes());
                    }
                }
            }
            let mut table = self.area();
            reference::read(format!("procs=64\n{longest}").as_bytes(), &mut table)
                .expect("the trace is fit");
            self.write(&table);
        }

        /// Each key with numbers at the bounds of 32 and 64 bits, and with some that are too large and
        /// would be small or fit if they were cut to so many bits.
        fn bounds_of_keys(&mut self) {
            let numbers = [
                "0",
                "1",
                "4294967295",
                "4294967296",
                "4294967297",
                "18446744069414584320",
                "18446744073709551615",
                "18446744073709551616",
                "18446744073709551617",
                "36893488147419103233",
                "99999999999999999999",
                "100000000000000000000",
                "184467440737095516160",
                "340282366920938463463374607431768211456",
            ];
            for number in numbers {
                for text in [
                    format!("procs={number}\nfail=0 set=1\n"),
                    format!("procs=2\nev=send at={number} to=1 val=1\nfail=0 set=1\n"),
                    format!("procs=2\nev=send at=0 to={number} val=1\nfail=0 set=1\n"),
                    format!("procs=2\nev=send at=0 to=1 val={number}\nfail=1 set=2\n"),
                    format!("procs=2\nev=recv at={number} from=0\nfail=0 set=1\n"),
                    format!("procs=2\nev=recv at=1 from={number}\nfail=0 set=1\n"),
                    format!("procs=2\nev=save at={number}\nfail=0 set=1\n"),
                    format!("procs=2\nev=done at={number}\nfail=0 set=1\n"),
                    format!("procs=2\nev=save at=1\nev=done at={number}\nfail=2 set=2\n"),
                    format!("procs=2\nev=save at=1\nfail={number} set=1\n"),
                    format!("procs=2\nev=save at=1\nfail=1 set={number}\n"),
                ] {
                    self.text(text.as_bytes());
                    let trace = text.split("fail").next();
                    self.text(trace.unwrap_or_default().as_bytes());
                }
            }
        }

        /// A trace whose values agree in one half or the other, on one channel and on two, with all
        /// kinds of lines; and its table area with bits changed in both planes of values, before,
        /// between and after them.
        fn halves(&mut self) {
            let mut events = Vec::new();
            for val in LONG_VALUES {
                events.push(Event::Send { at: 0, to: 1, val });
                events.push(Event::Send { at: 1, to: 0, val });
            }
            events.extend([(0, 1), (1, 0), (0, 1)].map(|(at, from)| Event::Recv { at, from }));
            events.extend([Event::Save { at: 0 }, Event::Done { at: 0 }]);
            events.extend([(1, 0), (0, 1), (1, 0)].map(|(at, from)| Event::Recv { at, from }));
            let trace = Trace { procs: 2, events };
            let count = trace.events.len();
            let mut table = self.area();
            reference::read(&trace.text(), &mut table).expect("the trace is fit");
            for step in 0..=count as u64 {
                for (set, line) in [
                    (1, [1, STAY]),
                    (2, [STAY, 1]),
                    (3, [1, 1]),
                    (3, [2, 1]),
                    (1, [2, STAY]),
                ] {
                    self.line(&table, Failure { step, set }, &line);
                }
            }
            let failure = Failure { step: 21, set: 3 };
            let run = self.area();
            let events = (1..=count + 1).chain([MAX_EVENTS - 1, MAX_EVENTS]);
            let planes = events.flat_map(|event| [VALUE_BASE + event, HIGH_BASE + event]);
            let past = HIGH_BASE + MAX_EVENTS + 1;
            let gaps = [VALUE_BASE, HIGH_BASE, past, past + 1, AREA_WORDS - 1];
            for word in planes.chain(gaps) {
                for bit in [0, 31] {
                    let mut changed = table.clone();
                    changed[word] ^= 1 << bit;
                    self.write(&changed);
                    self.table(Input {
                        table: &changed,
                        failure,
                        line: &[1, 1],
                        order: &[1],
                        run: &run,
                    });
                }
            }
        }

        /// A trace whose saves are finished late or never, with messages between a save and its done
        /// and several saves of a process unfinished at a time: every failure, with every line up to
        /// an epoch that there is not; and its table area with the word of each event changed to that
        /// of a save or a done, or in one bit.
        fn unfinished(&mut self) {
            let text = b"procs=2
ev=save at=0
ev=send at=0 to=1 val=6
ev=done at=0
ev=save at=1
ev=recv at=1 from=0
ev=save at=0
ev=send at=1 to=0 val=7
ev=save at=0
ev=recv at=0 from=1
ev=send at=0 to=1 val=8
ev=done at=1
ev=recv at=1 from=0
ev=done at=0
ev=save at=1
ev=send at=1 to=0 val=9
ev=done at=0
ev=recv at=0 from=1
";
            let mut table = self.area();
            reference::read(text, &mut table).expect("the trace is fit");
            let events = table[1] as usize;
            let numbers = [0, 1, 2, 3, 4, 5, STAY];
            let lines = numbers.map(|first| numbers.map(|second| [first, second]));
            for step in 0..=events as u64 {
                for set in 1..4 {
                    for line in lines.concat() {
                        self.line(&table, Failure { step, set }, &line);
                    }
                }
            }
            let run = self.area();
            for event in 1..=events + 1 {
                let word = table[EVENT_BASE + event];
                let bits = (0..32).map(|bit| word ^ 1 << bit);
                for word in bits.chain([0, 1, 2, 63, 0x40, 0x41, 0x3000, 0x3001, 0x4000]) {
                    let mut changed = table.clone();
                    changed[EVENT_BASE + event] = word;
                    self.write(&changed);
                    for step in [0, events as u64] {
                        self.table(Input {
                            table: &changed,
                            failure: Failure { step, set: 3 },
                            line: &[1, 1],
                            order: &[0, 1],
                            run: &run,
                        });
                    }
                }
            }
        }

        /// All traces of two processes with few events, each with all failures and all lines, those
        /// that name an unfinished epoch too.
        fn small_traces(&mut self) {
            let run = self.area_of(AREA_WORDS);
            let mut table = run.clone();
            each_trace(2, 4, |trace| {
                reference::read(&trace.text(), &mut table).expect("the trace is fit");
                self.write(&table);
                for step in 0..=trace.events.len() as u64 {
                    for set in 1..4 {
                        let failure = Failure { step, set };
                        let restart = reference::restart(&table, failure);
                        let epochs = restart.expect("the failure is fit").epochs;
                        let numbers = |z: usize| (1..=epochs[z]).chain([STAY]);
                        for first in numbers(0) {
                            for second in numbers(1) {
                                let line = [first, second];
                                let order = lowest_order(&table, failure, &line);
                                self.table(Input {
                                    table: &table,
                                    failure,
                                    line: &line,
                                    order: &order,
                                    run: &run,
                                });
                            }
                        }
                    }
                }
            });
        }

        /// All calls that take a table area and a failure.
        fn table(&mut self, input: Input) {
            self.restart(input);
            self.messages(input);
            self.replay(input);
            self.lowest(input);
        }

        fn round(&mut self) {
            let random = &mut self.random;
            let (procs, events) = match random.below(20) {
                0..=8 => (2 + random.below(4), random.below(40)),
                9..=14 => (2 + random.below(15), random.below(300)),
                15..=16 => (MAX_PROCS - random.below(2), random.below(600)),
                17..=18 => (2 + random.below(63), random.below(MAX_EVENTS + 1)),
                _ => (random.pick(&[2, 3, 8, 64]), MAX_EVENTS),
            };
            let shape = random.pick(&Shape::ALL);
            let mut habits = shape.habits(procs, events);
            if random.percent(50) {
                habits.saves = random.pick(&[0, 1, 5, 20, 60]);
                habits.receives = random.pick(&[10, 30, 49, 70]);
                habits.in_transit = random.pick(&[1, procs, MAX_EVENTS]);
            }
            let mut trace = if random.percent(30) {
                Member::random(random.bits()).trace(events).0
            } else {
                let mut trace = shape.trace_with(habits, procs, events, random);
                if random.percent(90) {
                    let dones = Dones {
                        at_once: random.pick(&[0, 0, 50, 90, 100]),
                        later: random.pick(&[0, 1, 5, 30, 100]),
                    };
                    trace.finish_saves(dones, random);
                }
                trace
            };
            if random.percent(70) {
                trace.lengthen_values(random);
            }
            let failure = shape.failure(&trace, random);
            self.texts(&trace, failure);

            let mut table = self.area();
            reference::read(&trace.text(), &mut table).expect("the trace is fit");
            let before = table.clone();
            self.written(&table);
            for _ in 0..2 {
                let failure = shape.failure(&trace, &mut self.random);
                self.lines(&table, failure);
            }
            self.unfit(&trace, failure, &table);
            self.typed(&trace, failure, &table);
            assert_eq!(table, before, "a table that is only read was written");
        }

        /// A table area and edits of it, written.
        fn written(&mut self, table: &[u32]) {
            self.write(table);
            for _ in 0..2 {
                let mut edited = table.to_vec();
                for _ in 0..1 + self.random.below(3) {
                    edit_trace(&mut edited, &mut self.random);
                }
                self.write(&edited);
            }
        }

        /// The calls with answers as types, areas left aside.
        fn typed(&mut self, trace: &Trace, failure: Failure, table: &[u32]) {
            let text = trace.text();
            let with_failure = trace.text_with(failure);
            let restart = reference::restart(table, failure).expect("the failure is fit");
            let line = self.random.pick(&[restart.line(), restart.line(), &[]]);
            let mut order = lowest_order(table, failure, line);
            order.truncate(self.random.below(order.len() + 1));
            let (mut a, mut b) = (self.area(), self.area());
            let (mut out, mut wanted_out) = ([0; 200], [0; 200]);
            let length = reference::report(&with_failure, &mut wanted_out);
            let room = self.random.pick(&[TEXT_BYTES, text.len(), text.len() - 1]);
            let (mut written, mut wanted_text) = (vec![0; room], vec![0; room]);
            let text_length = reference::write(table, &mut wanted_text);
            let equal = [
                hallback::read(&text, &mut a) == reference::read(&text, &mut b),
                hallback::read_failure(&with_failure, &mut a)
                    == reference::read_failure(&with_failure, &mut b),
                hallback::restart(table, failure) == Ok(restart),
                hallback::messages(table, failure, line, &mut a)
                    == reference::messages(table, failure, line, &mut b),
                hallback::lowest(table, failure, line, &mut a)
                    == reference::lowest(table, failure, line, &mut b),
                hallback::replay(table, failure, line, &order, &mut a)
                    == reference::replay(table, failure, line, &order, &mut b),
                hallback::report(&with_failure, &mut out) == &wanted_out[..length],
                hallback::write(table, &mut written)
                    == text_length.map(|length| &wanted_text[..length]),
            ];
            let differences: Vec<_> = (1..)
                .zip(equal)
                .filter(|(_, equal)| !equal)
                .map(|(call, _)| format!("typed call {call}"))
                .collect();
            let run = &b;
            let input = Input {
                table,
                failure,
                line,
                order: &order,
                run,
            };
            self.note("typed", &Ok(vec![]), differences, &|| describe(input));
        }

        /// The texts of a trace, edits of them, and bytes that are none.
        fn texts(&mut self, trace: &Trace, failure: Failure) {
            let text = trace.text();
            let with_failure = trace.text_with(failure);
            self.text(&text);
            self.text(&with_failure);
            for _ in 0..4 {
                let mut edited = self.random.pick(&[&text, &with_failure]).clone();
                for _ in 0..1 + self.random.below(2) {
                    edit(&mut edited, &mut self.random);
                }
                self.text(&edited);
            }
            let length = self.random.below(60);
            let letters: &[u8] = self.random.pick(&[
                b"procs=2\nev=send at=0 to=1 val=5\nev=done at=0\nfail=0 set=1\n" as &[u8],
                b"0123456789\n =",
            ]);
            let from_letters: Vec<u8> = (0..length).map(|_| self.random.pick(letters)).collect();
            let bytes: Vec<u8> = (0..length).map(|_| self.random.bits() as u8).collect();
            let text = self.random.pick(&[from_letters.as_slice(), &bytes]);
            self.text(text);
            if self.random.percent(5) {
                let mut long = with_failure.clone();
                let length = 65_535 + self.random.below(3);
                long.resize(length, b'\n');
                self.report(&long);
                let long = long_text(&mut self.random);
                assert!(long.len() > 65_536);
                self.report(&long);
            }
        }

        /// The greatest line of a failure and others, each with several orders.
        fn lines(&mut self, table: &[u32], failure: Failure) {
            let restart = reference::restart(table, failure).expect("the failure is fit");
            let finished = finished(table, failure.step);
            self.line(table, failure, restart.line());
            for _ in 0..2 {
                let mut line = restart.line().to_vec();
                let changed = self.random.pick(&[10, 50, 100]);
                for (z, number) in line.iter_mut().enumerate() {
                    if self.random.percent(changed) {
                        let stays = failure.set >> z & 1 == 0 && self.random.percent(30);
                        *number = match stays {
                            true => STAY,
                            false => 1 + self.random.below(finished[z] as usize) as u32,
                        };
                    }
                }
                self.line(table, failure, &line);
            }
            let mut line = restart.line().to_vec();
            let z = self.random.below(line.len());
            match self.random.below(8) {
                0 => line.push(1),
                1 => line.truncate(z),
                2 => line[z] = restart.epochs[z] + 1,
                3 => line[z] = STAY,
                4 => line[z] = 0,
                // the latest finished one, the first that is not, the one at the cut
                5 => line[z] = self.random.pick(&[finished[z], finished[z] + 1]),
                6 => line[z] = restart.epochs[z],
                _ => line[z] = self.random.pick(&[31, 33, 1 << 16 | 1, u32::MAX]),
            }
            self.line(table, failure, &line);
        }

        /// A line with several orders.
        fn line(&mut self, table: &[u32], failure: Failure, line: &[u32]) {
            let run = self.area();
            let input = Input {
                table,
                failure,
                line,
                order: &[],
                run: &run,
            };
            self.table(input);
            let order = lowest_order(table, failure, line);
            self.replay(Input {
                order: &order,
                ..input
            });
            let mut order = random_order(table, failure, line, &mut self.random);
            let complete = Input {
                order: &order,
                ..input
            };
            self.replay(complete);
            self.steps(complete);
            let length = self.random.below(order.len() + 1);
            self.replay(Input {
                order: &order[..length],
                ..input
            });
            let choice = match self.random.below(3) {
                0 => self.random.below(MAX_PROCS),
                1 => 64 + 64 * self.random.below(line.len() + 1) + self.random.below(MAX_PROCS),
                _ => self.random.below(1 << 16),
            } as u16;
            match order.get_mut(length) {
                Some(place) if self.random.percent(50) => *place = choice,
                _ => order.insert(length, choice),
            }
            self.replay(Input {
                order: &order,
                ..input
            });
        }

        /// Failures that are none, damaged tables and areas that are too short.
        fn unfit(&mut self, trace: &Trace, failure: Failure, table: &[u32]) {
            let restart = reference::restart(table, failure).expect("the failure is fit");
            let events = trace.events.len() as u64;
            let order = lowest_order(table, failure, restart.line());
            let line = restart.line();
            let run = self.area();
            let input = Input {
                table,
                failure,
                line,
                order: &order,
                run: &run,
            };

            let mut unfit = failure;
            match self.random.below(5) {
                0 => unfit.step = events + 1,
                1 => unfit.step = self.random.bits(),
                2 => unfit.set = 0,
                3 => unfit.set = self.random.bits(),
                _ => unfit.set |= (1u64 << 63) >> self.random.below(MAX_PROCS),
            }
            self.table(Input {
                failure: unfit,
                ..input
            });

            for _ in 0..2 {
                let mut damaged = table.to_vec();
                damage(&mut damaged, &mut self.random);
                self.write(&damaged);
                let failure = self.random.pick(&[failure, failure, unfit]);
                self.table(Input {
                    table: &damaged,
                    failure,
                    ..input
                });
            }

            let short = self.short_area();
            let part = self.random.below(AREA_WORDS);
            let parts = [&short, &table[..part], &table[..AREA_WORDS - 1]];
            let part = self.random.pick(&parts);
            self.write(part);
            let (table, run) = match self.random.below(3) {
                0 => (&short[..], &run[..]),
                1 => (table, &short[..]),
                _ => (&short[..], &short[..]),
            };
            self.table(Input {
                table,
                run,
                ..input
            });
            let area = self.short_area();
            self.read(&trace.text(), area);
            let area = self.short_area();
            self.read_failure(&trace.text_with(failure), area);
        }
    }

    /// A fit text that is longer than the program takes.
    fn long_text(random: &mut Random) -> Vec<u8> {
        let mut sent = Vec::new();
        let mut events = Vec::new();
        while events.len() < MAX_EVENTS {
            let oldest = random.below(sent.len() + 1);
            if oldest < sent.len() && random.percent(15) {
                let (from, at) = sent.remove(oldest);
                events.push(Event::Recv { at, from });
                continue;
            }
            let at = 10 + random.below(MAX_PROCS - 10);
            let to = 10 + (at - 9 + random.below(MAX_PROCS - 11)) % (MAX_PROCS - 10);
            sent.push((at, to));
            let val = 1_000_000_000 + random.below(3_000_000_000) as u64;
            events.push(Event::Send { at, to, val });
        }
        let trace = Trace {
            procs: MAX_PROCS,
            events,
        };
        trace.text_with(Failure {
            step: random.below(MAX_EVENTS + 1) as u64,
            set: 1 << random.below(MAX_PROCS),
        })
    }

    /// The latest finished epoch of each process after so many events, by the words of a table area.
    fn finished(table: &[u32], step: u64) -> [u32; MAX_PROCS] {
        let mut finished = [1; MAX_PROCS];
        for &word in &table[EVENT_BASE + 1..][..step as usize] {
            // the word of a done is its process
            if let Some(epoch) = finished.get_mut(word as usize) {
                *epoch += 1;
            }
        }
        finished
    }

    /// The numbers of an answer after its place.
    fn replayed_words(replayed: Replayed) -> Vec<u64> {
        vec![replayed.steps, u64::from(replayed.complete)]
    }

    /// The order of lowest choices, empty if the line is refused.
    fn lowest_order(table: &[u32], failure: Failure, line: &[u32]) -> Vec<u16> {
        reference::lowest_order(table, failure, line).unwrap_or_default()
    }

    /// A complete order of allowed choices at random, empty if the line is refused.
    fn random_order(
        table: &[u32],
        failure: Failure,
        line: &[u32],
        random: &mut Random,
    ) -> Vec<u16> {
        let order = reference::with_machine(table, failure, line, |machine| {
            let mut order = Vec::new();
            loop {
                let choices: Vec<u16> = machine.choices().collect();
                if choices.is_empty() {
                    return order;
                }
                let choice = random.pick(&choices);
                machine.carry_out(choice).expect("the choice is allowed");
                order.push(choice);
            }
        });
        order.unwrap_or_default()
    }

    /// The first of the places that differ.
    fn first_difference<T: PartialEq + Display>(
        name: &str,
        engine: &[T],
        reference: &[T],
    ) -> Option<String> {
        // nearly all are equal, which is seen at once
        if engine == reference {
            return None;
        }
        let mut places = (0..engine.len()).filter(|&i| engine[i] != reference[i]);
        let first = places.next()?;
        Some(format!(
            "{name}: {} places differ, the first is {first}: engine's {}, reference's {}",
            1 + places.count(),
            engine[first],
            reference[first]
        ))
    }

    /// What the engine writes to a buffer of so many bytes, if it accepts.
    fn engine_text(table: &[u32], room: usize) -> Option<Vec<u8>> {
        let mut out = vec![b'~'; room];
        let mut answer = [0; WRITE];
        let number = raw::write(table, &mut out, &mut answer);
        out.truncate(answer[1] as usize);
        (number == 0).then_some(out)
    }

    /// A table area as its words that are not zero.
    fn describe_table(table: &[u32]) -> String {
        let words: Vec<_> = (0..table.len())
            .filter(|&i| table[i] != 0)
            .map(|i| format!("{i}:{}", table[i]))
            .collect();
        format!(
            "table of {} words, not zero: {}\n",
            table.len(),
            words.join(" ")
        )
    }

    /// An input in words.
    fn describe(input: Input) -> String {
        format!(
            "{:?}\nline {:?}\norder {:?}\n{}run of {} words\n",
            input.failure,
            input.line,
            input.order,
            describe_table(input.table),
            input.run.len()
        )
    }

    /// Changes something small in a text.
    fn edit(text: &mut Vec<u8>, random: &mut Random) {
        if text.is_empty() {
            text.push(random.bits() as u8);
            return;
        }
        let at = random.below(text.len());
        let starts = |text: &[u8]| -> Vec<usize> {
            let after = (0..text.len()).filter(|&i| text[i] == b'\n').map(|i| i + 1);
            std::iter::once(0).chain(after).collect()
        };
        let line = |text: &[u8], random: &mut Random| {
            let starts = starts(text);
            let i = random.below(starts.len());
            starts[i]..starts.get(i + 1).copied().unwrap_or(text.len())
        };
        match random.below(11) {
            0 => text[at] = random.bits() as u8,
            1 => text[at] ^= 1 << random.below(8),
            2 => drop(text.remove(at)),
            3 => text.insert(at, random.pick(b"0123456789 =\nevat")),
            4 => text.truncate(at),
            5 => drop(text.drain(line(text, random))),
            6 => {
                let copied = text[line(text, random)].to_vec();
                let at = random.pick(&starts(text));
                text.splice(at..at, copied);
            }
            7 => {
                let lines: [&[u8]; 12] = [
                    b"ev=save at=1\n",
                    b"ev=done at=1\n",
                    b"ev=done at=0\n",
                    b"ev=save at=0\nev=done at=0\n",
                    b"ev=done at=64\n",
                    b"ev=recv at=0 from=1\n",
                    b"ev=send at=1 to=0 val=18446744073709551615\n",
                    b"ev=send at=1 to=1 val=1\n",
                    b"fail=0 set=1\n",
                    b"procs=3\n",
                    b"\n",
                    b"ev=save at=64\n",
                ];
                let at = random.pick(&starts(text));
                text.splice(at..at, random.pick(&lines).iter().copied());
            }
            8 => {
                let at = random.pick(&starts(text));
                let line = random.pick(&["ev=save at=0\n", "ev=done at=0\n"]);
                let more = line.repeat(1 + random.below(40));
                text.splice(at..at, more.bytes());
            }
            _ => {
                let digits = |i: usize| text.get(i).is_some_and(u8::is_ascii_digit);
                if let Some(first) = (at..text.len()).find(|&i| digits(i)) {
                    let end = (first..).find(|&i| !digits(i)).expect("a text has an end");
                    let numbers: [&[u8]; 16] = [
                        b"0",
                        b"1",
                        b"2",
                        b"00",
                        b"",
                        b"63",
                        b"64",
                        b"65",
                        b"4294967295",
                        b"4294967296",
                        b"18446744073709551615",
                        b"18446744073709551616",
                        b"18446744073709551617",
                        b"99999999999999999999",
                        b"184467440737095516160",
                        b"99999999999999999999999999",
                    ];
                    text.splice(first..end, random.pick(&numbers).iter().copied());
                }
            }
        }
    }

    /// Changes the trace of a table area to another one, which is mostly fit.
    fn edit_trace(table: &mut [u32], random: &mut Random) {
        let procs = table[0] as usize;
        let events = table[1] as usize;
        let event = 1 + random.below(events.max(1));
        let bits = random.bits();
        let few = bits >> random.pick(&[16, 32, 48, 62]);
        let long = random.pick(&LONG_VALUES);
        let new = random.pick(&[bits, few, long, 99_999_999]);
        let at = random.below(procs);
        let to = (at + 1 + random.below(procs - 1)) % procs;
        let save = 0x3000 | at as u32;
        let done = at as u32;
        let send = 0x1000 | (to << 6 | at) as u32;
        let put = |table: &mut [u32], event: usize, word: u32, value: u64| {
            table[EVENT_BASE + event] = word;
            set_value(table, event, value);
        };
        let is_send = table[EVENT_BASE + event] >> 12 == 1;
        match random.below(9) {
            // another value of a send, if it is one, or another half of it
            0 if is_send => set_value(table, event, new),
            1 if is_send => table[HIGH_BASE + event] = bits as u32,
            2 if is_send => table[VALUE_BASE + event] = bits as u32,
            // another event in its place, which may leave a receive without its message or a done
            // without its save
            3 if events > 0 => put(table, event, save, 0),
            8 if events > 0 => put(table, event, done, 0),
            4 if events > 0 => put(table, event, send, new),
            // one event less at the end
            5 if events > 0 => {
                table[1] -= 1;
                put(table, events, 0, 0);
            }
            // one event more, or one process
            6 if events < MAX_EVENTS => {
                table[1] += 1;
                let (word, value) = random.pick(&[(save, 0), (done, 0), (send, new)]);
                put(table, events + 1, word, value);
            }
            _ => table[0] = MAX_PROCS.min(procs + 1) as u32,
        }
    }

    /// Changes something small in a table area.
    fn damage(table: &mut [u32], random: &mut Random) {
        let events = table[1] as usize;
        let event = 1 + random.below(events.max(1));
        let values = random.pick(&[VALUE_BASE, HIGH_BASE]);
        match random.below(13) {
            0 => table[0] = random.pick(&[0, 1, 2, 3, 63, 64, 65, u32::MAX]),
            1 => table[1] = random.pick(&[0, 1, 2_048, 2_049, events as u32 + 1, u32::MAX]),
            2 => table[1] = table[1].saturating_sub(1),
            3 => table[EVENT_BASE + event] ^= 1 << random.below(32),
            4 => table[EVENT_BASE + event] = random.bits() as u32 & 0x3fff,
            5 => table[values + event] ^= 1 << random.below(32),
            6 => {
                let other = 1 + random.below(events.max(1));
                table.swap(EVENT_BASE + event, EVENT_BASE + other);
            }
            7 => table[EVENT_BASE + events + 1] = 0x3000 | random.below(2) as u32,
            8 => {
                let gaps = [2, 3, EVENT_BASE, VALUE_BASE, HIGH_BASE, 6_163, 16_383];
                table[random.pick(&gaps)] ^= 1 << random.below(32);
            }
            9 => table[values + events + 1] ^= 1,
            // the word of a done, with a peer or without
            11 => table[EVENT_BASE + event] = random.bits() as u32 & random.pick(&[0x3f, 0xfff]),
            10 => table[random.below(AREA_WORDS)] = random.bits() as u32,
            _ => {
                // one more event than there was, which may be fit
                if events < MAX_EVENTS {
                    table[1] += 1;
                    table[EVENT_BASE + events + 1] = random.bits() as u32 & 0x30c3;
                }
            }
        }
    }
}
