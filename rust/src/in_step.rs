//! Tests that the types tell what the areas hold, and that the C header says what this crate does.

use crate::shapes::{Dones, Random, Shape};
use crate::*;
use std::collections::BTreeMap;
use std::panic::catch_unwind;

/// An area that is full of something else.
fn lent() -> Vec<u32> {
    vec![u32::MAX; AREA_WORDS]
}

/// The types, beside a trace and the report on its text.
fn compare(trace: &shapes::Trace, failure: Failure) {
    let (mut table, mut run) = (lent(), lent());
    reference::read(&trace.text(), &mut table).expect("the trace is fit");
    assert_eq!(procs(&table), trace.procs);
    assert!(events(&table)
        .map(|(_, event)| event)
        .eq(trace.events.iter().copied()));
    assert!(events(&table)
        .map(|(number, _)| number)
        .eq(1..=trace.events.len()));
    assert!(events(&table)
        .rev()
        .map(|(number, _)| number)
        .eq((1..=trace.events.len()).rev()));
    assert_eq!(events(&table).len(), trace.events.len());
    for (number, event) in events(&table) {
        assert_eq!(Kind::of_word(table[EVENT_BASE + number]), event.kind());
        assert_eq!(crate::event(&table, number), Some(event));
    }
    assert_eq!(crate::event(&table, 0), None);
    assert_eq!(crate::event(&table, trace.events.len() + 1), None);

    let restart = reference::restart(&table, failure).expect("the failure is fit");
    let line = restart.recovery_line();
    assert_eq!(line.numbers(), restart.line());
    assert_eq!(RecoveryLine::try_from(restart.line()), Ok(line));
    let mut report = String::new();
    for (z, process) in restart.processes().enumerate() {
        let Process {
            restart,
            epoch,
            phase,
        } = process;
        assert_eq!((line.stays(z), line.epoch(z)), (restart.is_none(), restart));
        let number = restart.unwrap_or(STAY);
        report += &format!("out=proc at={z} epoch={epoch} restart={number} phase={phase}\n");
    }
    assert!(line
        .going_back()
        .all(|(z, epoch)| line.epoch(z) == Some(epoch)));
    assert_eq!(
        line.going_back().map(|(z, _)| 1 << z).sum::<u64>(),
        restart.going
    );

    let counts = reference::messages(&table, failure, line.numbers(), &mut run).expect("it is fit");
    assert_eq!(rows(&run).len() as u64, counts.orphans + counts.kept);
    for row in rows(&run) {
        report += &format!("out={row}\n");
        let send = sent(&table, row.sender, row.receiver, row.number).expect("it was sent");
        let val = value(&table, send);
        let (at, to) = (row.sender, row.receiver);
        assert_eq!(
            crate::event(&table, send),
            Some(Event::Send { at, to, val })
        );
        assert!(send as u64 <= failure.step);
    }
    let mut out = vec![0; REPORT_BYTES];
    let length = reference::report(&trace.text_with(failure), &mut out);
    let reported = std::str::from_utf8(&out[..length]).expect("a report is text");
    let (before_total, _) = reported
        .split_once("out=total")
        .expect("it has a last line");
    assert_eq!(report, before_total);

    let backwards: Vec<Row> = rows(&run).rev().collect();
    assert!(rows(&run).eq(backwards.into_iter().rev()));

    // in the run without failure each channel has the first messages of those that were sent
    let start = RecoveryLine::start(trace.procs);
    reference::lowest(&table, failure, start.numbers(), &mut run).expect("it is fit");
    let mut received: BTreeMap<(usize, usize), u32> = BTreeMap::new();
    for taken in deliveries(&table, &run) {
        let Delivery {
            event,
            sender,
            receiver,
            number,
            value,
        } = taken;
        assert_eq!(
            crate::event(&table, event),
            Some(Event::Recv {
                at: receiver,
                from: sender
            })
        );
        let last = received.entry((sender, receiver)).or_default();
        *last += 1;
        assert_eq!(number, *last);
        let send = sent(&table, sender, receiver, number).expect("it was sent");
        assert_eq!(value, crate::value(&table, send));
    }
    for (&(sender, receiver), &last) in &received {
        let numbers = deliveries(&table, &run)
            .on(sender, receiver)
            .map(|taken| taken.number);
        assert!(numbers.eq(1..=last));
    }
    let receives = trace
        .events
        .iter()
        .filter(|event| event.kind() == Kind::Recv)
        .count();
    assert_eq!(deliveries(&table, &run).count(), receives);
}

#[test]
fn types_tell_what_areas_hold() {
    let mut random = Random::new(1);
    for shape in Shape::ALL {
        for (procs, count) in [(2, 8), (5, 60), (64, 300)] {
            let mut trace = shape.trace(procs, count, &mut random);
            let dones = Dones {
                at_once: 40,
                later: 30,
            };
            trace.finish_saves(dones, &mut random);
            trace.lengthen_values(&mut random);
            let step = random.below(trace.events.len() + 1) as u64;
            let all = u64::MAX >> (64 - procs);
            let set = (random.bits() & random.bits() & all).max(1);
            compare(&trace, Failure { step, set });
        }
    }
}

#[test]
fn lost_messages_are_listed_last() {
    let (mut table, mut run) = (lent(), lent());
    let text = b"procs=2\nev=send at=0 to=1 val=7\nev=recv at=1 from=0\n";
    reference::read(text, &mut table).expect("the trace is fit");
    let failure = Failure { step: 2, set: 2 };
    reference::messages(&table, failure, &[STAY, 1], &mut run).expect("it is fit");
    let lost: Vec<String> = rows(&run).map(|row| row.to_string()).collect();
    assert_eq!(lost, ["lost from=0 to=1 no=1 phase=1"]);
    assert_eq!(
        rows(&run).next_back().map(|row| row.class),
        Some(Class::Lost)
    );

    // the receive waits for it for ever, and has taken nothing
    reference::lowest(&table, failure, &[STAY, 1], &mut run).expect("it is fit");
    assert_eq!(deliveries(&table, &run).count(), 0);
}

#[test]
fn areas_that_hold_something_else() {
    // no more processes than there may be, and no more events or rows than there are words for
    assert_eq!(procs(&lent()), MAX_PROCS);
    assert_eq!(events(&lent()).count(), MAX_EVENTS);
    assert_eq!(rows(&lent()).count(), MAX_EVENTS);
    // a delivery record is no list of messages
    let mut record = vec![0; AREA_WORDS];
    record[2] = 1;
    assert!(catch_unwind(|| rows(&record).count()).is_err());
}

#[test]
fn lines_that_no_trace_has() {
    let refused = |numbers: &[u32]| {
        let refusal = RecoveryLine::try_from(numbers).expect_err("no trace has this line");
        assert_eq!((refusal.cause, refusal.place), (Cause::Line, 0));
    };
    refused(&[]);
    refused(&[1]);
    refused(&[1; 65]);
    refused(&[1, 0]);
    refused(&[1, 33]);
    let line = RecoveryLine::try_from(&[31, STAY][..]).expect("some trace has this line");
    assert_eq!(format!("{line:?}"), "RecoveryLine([31, 32])");
    assert_eq!(line.as_ref(), [31, 32]);
}

/// The C header, with its strings that go over two lines joined.
fn header() -> String {
    let lines = include_str!("../../include/hallback.h").lines();
    let text: Vec<&str> = lines.map(str::trim).collect();
    text.join("\n").replace("\"\n\"", "")
}

#[test]
fn the_header_names_the_same_numbers() {
    let header = header();
    let named = |name: &str| -> usize {
        let (_, rest) = header
            .split_once(&format!("\n{name} = "))
            .expect("the header has it");
        let digits: String = rest.chars().take_while(char::is_ascii_digit).collect();
        digits.parse().expect("it is a number")
    };
    let same = [
        ("HALLBACK_WORDS", AREA_WORDS),
        ("HALLBACK_MAX_PROCS", MAX_PROCS),
        ("HALLBACK_MAX_EVENTS", MAX_EVENTS),
        ("HALLBACK_EVENT_BASE", EVENT_BASE),
        ("HALLBACK_VALUE_BASE", VALUE_BASE),
        ("HALLBACK_HIGH_BASE", HIGH_BASE),
        ("HALLBACK_TAKEN_BASE", TAKEN_BASE),
        ("HALLBACK_TAKEN_HIGH_BASE", TAKEN_HIGH_BASE),
        ("HALLBACK_ROW_BASE", ROW_BASE),
        ("HALLBACK_ROW_NUMBER_BASE", ROW_NUMBER_BASE),
        ("HALLBACK_ROW_PHASE_BASE", ROW_PHASE_BASE),
        ("HALLBACK_SEND", Kind::Send as usize),
        ("HALLBACK_RECV", Kind::Recv as usize),
        ("HALLBACK_SAVE", Kind::Save as usize),
        ("HALLBACK_DONE", Kind::Done as usize),
        ("HALLBACK_ORPHAN", Class::Orphan as usize),
        ("HALLBACK_KEPT", Class::Kept as usize),
        ("HALLBACK_LOST", Class::Lost as usize),
        ("HALLBACK_STAYS", STAY as usize),
        ("HALLBACK_REPORT_BYTES", REPORT_BYTES),
        ("HALLBACK_TEXT_BYTES", TEXT_BYTES),
    ];
    for (name, number) in same {
        assert_eq!(named(name), number, "{name}");
    }
}

#[test]
fn the_header_says_the_same_of_refusals() {
    let header = header();
    for number in 1..=15 {
        let cause = Cause::from_number(number).expect("there are fifteen");
        let is_number = |line: &&str| {
            line.trim_end_matches(',')
                .ends_with(&format!(" = {number}"))
        };
        let named = header
            .lines()
            .filter(|line| line.starts_with("HALLBACK_REFUSED_"));
        let line = named.clone().find(is_number).expect("the header names it");
        let (name, _) = line
            .split_once(' ')
            .expect("a name stands before its number");
        let case = format!("case {name}: return \"{cause}\";");
        assert!(header.contains(&case), "{case}");
        let refusal = Refusal { cause, place: 0 };
        assert_eq!(
            refusal.source().map(|source| source.to_string()),
            Some(cause.to_string())
        );
    }
    assert_eq!(Cause::from_number(0), None);
    assert_eq!(Cause::from_number(16), None);
}
