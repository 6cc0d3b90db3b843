//! Times the same calls on the same inputs, by the archive and by the reference, on members of the
//! family of traces (`hallback::family`).
//!
//! `bench [repeats]` prints the median time of each call, in microseconds, for each shape and size.
//! `bench times NAME EVENTS [repeats]` prints them for one member, as `instructions` takes them.
//!
//! `bench worst [seconds [EVENTS]]` looks for the worst members of the family: among those with a name
//! of their own, at random, and by changing the worst found so far. For each call it prints where the engine takes most times as long
//! as the reference, and where it takes longest, by the least of many times, with the member's name.
//!
//! `bench once engine|reference CALL NAME EVENTS` does one call once, inside the function
//! `bench_engine_once` or `bench_reference_once`, so that its instructions can be counted;
//! `bench count NAME EVENTS` does each call once, the engine's and then the reference's.
//!
//! ```text
//! valgrind --tool=callgrind --callgrind-out-file=/dev/null \
//!     --toggle-collect=bench_engine_once target/release/bench once engine lowest dense 2048
//! ```
//!
//! In a trace each save is followed by a done; `NAME-unfinished` is the same without dones, as shapes
//! were before there were any, and `NAME-unsaved` has no saves either, so that it can be read, and has
//! the same line, whether saves need dones or not.

#[cfg(not(hallback_archive))]
fn main() {
    eprintln!(
        "bench: nothing to compare with, since ../target/staticlib/libcapi.a was not there when \
         this was built; build it (tools/build capi), then run this again"
    );
    std::process::exit(1);
}

#[cfg(hallback_archive)]
fn main() {
    let arguments: Vec<String> = std::env::args().skip(1).collect();
    let words: Vec<&str> = arguments.iter().map(String::as_str).collect();
    if let Err(wrong) = bench::run(&words) {
        eprintln!("bench: {wrong}");
        std::process::exit(2);
    }
}

#[cfg(hallback_archive)]
mod bench {
    use hallback::family::{Member, SIZES};
    use hallback::shapes::{Random, Shape};
    use hallback::{raw, reference};
    use hallback::{Failure, Replayed};
    use hallback::{AREA_WORDS, MAX_EVENTS, MAX_PROCS, REPORT_BYTES, TEXT_BYTES};
    use std::hint::black_box;
    use std::time::{Duration, Instant};

    const USAGE: &str = "usage: bench [REPEATS] | bench times NAME EVENTS [REPEATS] | \
        bench worst [SECONDS [EVENTS]] | bench once engine|reference CALL NAME EVENTS | \
        bench count NAME EVENTS | bench names";

    /// Words of the longest answer.
    const ANSWER_WORDS: usize = 4 + 3 * MAX_PROCS;

    #[derive(Clone, Copy, Debug, PartialEq, Eq)]
    enum Call {
        Read,
        Restart,
        Messages,
        Replay,
        Lowest,
        Report,
        Write,
        WriteExact,
    }

    impl Call {
        const ALL: [Call; 8] = [
            Call::Read,
            Call::Restart,
            Call::Messages,
            Call::Replay,
            Call::Lowest,
            Call::Report,
            Call::Write,
            Call::WriteExact,
        ];

        fn name(self) -> &'static str {
            match self {
                Call::Read => "read",
                Call::Restart => "restart",
                Call::Messages => "messages",
                Call::Replay => "replay",
                Call::Lowest => "lowest",
                Call::Report => "report",
                Call::Write => "write",
                Call::WriteExact => "write-exact",
            }
        }

        /// How many bytes a text is written to.
        fn room(self, text: &[u8]) -> usize {
            match self {
                Call::WriteExact => text.len(),
                _ => TEXT_BYTES,
            }
        }
    }

    /// Does what the arguments say, or says what is wrong with them.
    pub fn run(arguments: &[&str]) -> Result<(), String> {
        match *arguments {
            [] => all(101),
            ["names"] => println!("{}", Member::names()),
            ["times", name, events] => times(&mut input(name, events)?, 101),
            ["times", name, events, repeats] => {
                times(&mut input(name, events)?, number(repeats)?);
            }
            ["worst"] => worst(60, MAX_EVENTS),
            ["worst", seconds] => worst(number(seconds)?, MAX_EVENTS),
            ["worst", seconds, events] => worst(number(seconds)?, number(events)?),
            ["once", who, call, name, events] => {
                let implementation: Implementation = match who {
                    "engine" => bench_engine_once,
                    "reference" => bench_reference_once,
                    _ => return Err(USAGE.to_string()),
                };
                let call = Call::ALL.into_iter().find(|one| one.name() == call);
                let call = call.ok_or_else(|| format!("no such call; {USAGE}"))?;
                let mut input = input(name, events)?;
                let answer = black_box(implementation)(call, &mut input);
                println!("{who} {} {name} {events}: {answer}", call.name());
            }
            ["count", name, events] => {
                let mut input = input(name, events)?;
                for call in Call::ALL {
                    black_box(bench_engine_once)(call, &mut input);
                    black_box(bench_reference_once)(call, &mut input);
                    println!("{}", call.name());
                }
            }
            [repeats] => all(number(repeats)?),
            _ => return Err(USAGE.to_string()),
        }
        Ok(())
    }

    fn number<T: std::str::FromStr>(text: &str) -> Result<T, String> {
        let number = text.parse().ok();
        number.ok_or_else(|| format!("{text} is no fit number; {USAGE}"))
    }

    /// The input of this name and size.
    fn input(name: &str, events: &str) -> Result<Input, String> {
        let events = number(events)?;
        if events > MAX_EVENTS {
            return Err(format!("there are at most {MAX_EVENTS} events"));
        }
        let member = Member::named(name);
        let member = member.ok_or_else(|| format!("no shape {name}; {}", Member::names()))?;
        Ok(Input::new(&member, events))
    }

    /// All that the calls take, and what they write to.
    struct Input {
        procs: usize,
        text: Vec<u8>,
        text_with_failure: Vec<u8>,
        table: Vec<u32>,
        failure: Failure,
        line: Vec<u32>,
        order: Vec<u16>,
        read_table: Vec<u32>,
        run: Vec<u32>,
        out: Vec<u8>,
        answer: Vec<u64>,
    }

    impl Input {
        /// A member's trace and failure, its greatest line or that of all 1, and the lowest order.
        fn new(member: &Member, events: usize) -> Input {
            let (trace, failure) = member.trace(events);
            let text = trace.text();
            let mut table = vec![0; AREA_WORDS];
            reference::read(&text, &mut table).expect("the trace is fit");
            let line = if member.from_start() {
                vec![1; trace.procs]
            } else {
                let restart = reference::restart(&table, failure).expect("the failure is fit");
                restart.line().to_vec()
            };
            let order = reference::quick_lowest_order(&table, failure, &line);
            Input {
                procs: trace.procs,
                text,
                text_with_failure: trace.text_with(failure),
                table,
                failure,
                line,
                order: order.expect("the line is fit"),
                read_table: vec![0; AREA_WORDS],
                run: vec![0; AREA_WORDS],
                out: vec![0; REPORT_BYTES],
                answer: vec![0; ANSWER_WORDS],
            }
        }

        /// What the calls have left.
        fn left(&self) -> (Vec<u32>, Vec<u32>, Vec<u8>) {
            (self.read_table.clone(), self.run.clone(), self.out.clone())
        }
    }

    fn engine(call: Call, input: &mut Input) -> u64 {
        let Failure { step, set } = input.failure;
        let room = call.room(&input.text);
        let Input {
            table,
            line,
            run,
            answer,
            ..
        } = input;
        let number = match call {
            Call::Read => raw::read(&input.text, &mut input.read_table, answer),
            Call::Restart => raw::restart(table, step, set, answer),
            Call::Messages => raw::messages(table, step, set, line, run, answer),
            Call::Replay => raw::replay(table, step, set, line, &input.order, run, answer),
            Call::Lowest => raw::lowest(table, step, set, line, run, answer),
            Call::Report => {
                return raw::report(&input.text_with_failure, &mut input.out) as u64;
            }
            Call::Write | Call::WriteExact => raw::write(table, &mut input.out[..room], answer),
        };
        u64::from(number) + answer[1]
    }

    fn reference(call: Call, input: &mut Input) -> u64 {
        let failure = input.failure;
        let room = call.room(&input.text);
        let Input {
            table, line, run, ..
        } = input;
        let steps = |replayed: Replayed| replayed.steps;
        let answer = match call {
            Call::Read => reference::read(&input.text, &mut input.read_table).map(|()| 0),
            Call::Restart => reference::restart(table, failure).map(|r| black_box(r).back),
            Call::Messages => reference::messages(table, failure, line, run).map(|c| c.kept),
            Call::Replay => reference::replay(table, failure, line, &input.order, run).map(steps),
            Call::Lowest => reference::lowest(table, failure, line, run).map(steps),
            Call::Report => Ok(reference::report(&input.text_with_failure, &mut input.out) as u64),
            Call::Write | Call::WriteExact => {
                reference::write(table, &mut input.out[..room]).map(|length| length as u64)
            }
        };
        answer.unwrap_or(u64::MAX)
    }

    #[inline(never)]
    #[no_mangle]
    fn bench_engine_once(call: Call, input: &mut Input) -> u64 {
        engine(call, input)
    }

    #[inline(never)]
    #[no_mangle]
    fn bench_reference_once(call: Call, input: &mut Input) -> u64 {
        reference(call, input)
    }

    type Implementation = fn(Call, &mut Input) -> u64;

    /// How long a call takes, in microseconds.
    fn time(implementation: Implementation, call: Call, input: &mut Input) -> f64 {
        let start = Instant::now();
        black_box(implementation(call, black_box(input)));
        start.elapsed().as_secs_f64() * 1e6
    }

    /// The median time of a call, in microseconds.
    fn median(
        implementation: Implementation,
        call: Call,
        input: &mut Input,
        repeats: usize,
    ) -> f64 {
        let mut times: Vec<_> = (0..repeats.max(1))
            .map(|_| time(implementation, call, input))
            .collect();
        times.sort_by(f64::total_cmp);
        times[times.len() / 2]
    }

    /// Whether both leave the same.
    fn compare(call: Call, input: &mut Input) {
        bench_engine_once(call, input);
        let left = input.left();
        bench_reference_once(call, input);
        assert!(left == input.left(), "{} differs", call.name());
    }

    fn all(repeats: usize) {
        println!(
            "median of {repeats} calls, in microseconds: engine, reference, how many times as long"
        );
        for shape in Shape::ALL {
            for events in SIZES {
                let mut input = Input::new(&Member::new(shape), events);
                println!(
                    "{}, {events} events, {} processes, {} bytes, {} steps",
                    shape.name(),
                    input.procs,
                    input.text.len(),
                    input.order.len()
                );
                for call in Call::ALL {
                    compare(call, &mut input);
                    let engine = median(bench_engine_once, call, &mut input, repeats);
                    let reference = median(bench_reference_once, call, &mut input, repeats);
                    println!(
                        "    {:11} {engine:10.1} {reference:10.1} {:8.1}",
                        call.name(),
                        engine / reference
                    );
                }
            }
        }
    }

    /// A line for each call: its name, and the median times of engine and reference.
    fn times(input: &mut Input, repeats: usize) {
        for call in Call::ALL {
            compare(call, input);
            let engine = median(bench_engine_once, call, input, repeats);
            let reference = median(bench_reference_once, call, input, repeats);
            println!("{} {engine:.1} {reference:.1}", call.name());
        }
    }

    /// The least times of a call in microseconds, engine's and reference's, and of some work that is
    /// always the same. What else runs on the machine only makes a time longer, so the least of many
    /// says most.
    #[derive(Clone, Copy)]
    struct Least {
        engine: f64,
        reference: f64,
        work: f64,
    }

    impl Least {
        /// By turns, so that a slow moment of the machine is one for all.
        fn of(call: Call, input: &mut Input, repeats: usize) -> Least {
            let mut least = Least {
                engine: f64::INFINITY,
                reference: f64::INFINITY,
                work: f64::INFINITY,
            };
            for _ in 0..repeats {
                least.engine = least.engine.min(time(bench_engine_once, call, input));
                least.reference = least.reference.min(time(bench_reference_once, call, input));
                least.work = least.work.min(time(same_work, call, input));
            }
            least
        }

        fn ratio(self) -> f64 {
            self.engine / self.reference
        }

        /// The engine's time, whatever the speed of the machine at this moment.
        fn long(self) -> f64 {
            self.engine / self.work
        }
    }

    /// Takes some microseconds, always as many instructions.
    #[inline(never)]
    fn same_work(_: Call, _: &mut Input) -> u64 {
        let mut random = Random::new(1);
        (0..2_000).fold(0, |all, _| all ^ random.bits())
    }

    /// The worst member found so far in one regard, and how bad it is.
    struct Worst {
        call: Call,
        badness: fn(Least) -> f64,
        found: Option<(f64, Member)>,
    }

    impl Worst {
        /// Keeps this member if it is worse than the worst so far.
        fn see(&mut self, quick: Least, member: &Member, input: &mut Input) {
            let most = self.found.as_ref().map_or(0.0, |found| found.0);
            // what a few times say is to be true of many
            if (self.badness)(quick) > most {
                let sure = (self.badness)(Least::of(self.call, input, SURE));
                if sure > most {
                    self.found = Some((sure, member.clone()));
                }
            }
        }
    }

    /// How often a call is timed at first, where it may be the worst, and where it is.
    const QUICK: usize = 3;
    const SURE: usize = 31;
    const LAST: usize = 301;

    fn worst(seconds: u64, events: usize) {
        let end = Instant::now() + Duration::from_secs(seconds);
        let mut random = Random::new(seconds);
        let mut worsts: Vec<Worst> = Call::ALL
            .into_iter()
            .flat_map(|call| {
                let badnesses: [fn(Least) -> f64; 2] = [Least::ratio, Least::long];
                badnesses.map(|badness| Worst {
                    call,
                    badness,
                    found: None,
                })
            })
            .collect();
        let mut known = Member::all_named();
        let mut tried = 0;
        while Instant::now() < end {
            let parent = random.below(2 * worsts.len());
            let parent = worsts.get(parent).and_then(|worst| worst.found.as_ref());
            let member = match (known.next(), parent) {
                (Some(member), _) => member,
                (None, Some((_, parent))) => parent.changed(&mut random),
                (None, None) => Member::random(tried),
            };
            let mut input = Input::new(&member, events);
            for pair in worsts.chunks_mut(2) {
                let quick = Least::of(pair[0].call, &mut input, QUICK);
                for worst in pair {
                    worst.see(quick, &member, &mut input);
                }
            }
            tried += 1;
        }
        println!("{tried} traces of {events} events, microseconds: engine / reference = ratio");
        for pair in worsts.chunks(2) {
            for (worst, what) in pair.iter().zip(["worst ratio", "longest"]) {
                let Some((_, member)) = &worst.found else {
                    continue;
                };
                let mut input = Input::new(member, events);
                compare(worst.call, &mut input);
                let least = Least::of(worst.call, &mut input, LAST);
                println!(
                    "{:11} {what:11} {:6.1} / {:6.1} = {:.2}  {member}",
                    worst.call.name(),
                    least.engine,
                    least.reference,
                    least.ratio()
                );
            }
        }
    }
}
