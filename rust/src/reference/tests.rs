//! The runs of the requirements, and a slow implementation to compare with on small traces.

use super::*;
use crate::shapes::{each_trace, Dones, Event, Random, Shape, Trace, LONG_VALUES};
use crate::{set_value, taken_value, value};
use crate::{EVENT_BASE, HIGH_BASE, MAX_EVENTS, STAY, TEXT_BYTES, VALUE_BASE};
use std::collections::{BTreeMap, VecDeque};

const H: &str = "procs=3
ev=send at=0 to=1 val=5
ev=recv at=1 from=0
ev=save at=1
ev=done at=1
ev=send at=1 to=2 val=7
ev=recv at=2 from=1
ev=save at=0
ev=done at=0
ev=send at=0 to=1 val=9
ev=recv at=1 from=0
ev=send at=1 to=2 val=4
";
const L: &str = "procs=2
ev=send at=0 to=1 val=3
ev=save at=1
ev=done at=1
ev=recv at=1 from=0
";
const S: &str = "procs=2
ev=save at=0
ev=done at=0
ev=send at=0 to=1 val=3
ev=recv at=1 from=0
";
const T: &str = "procs=2\nev=send at=0 to=1 val=3\nev=recv at=1 from=0\n";

fn table_of(text: &str) -> Vec<u32> {
    let mut table = vec![7; AREA_WORDS + 3];
    assert_eq!(read(text.as_bytes(), &mut table), Ok(()));
    assert_eq!(table[AREA_WORDS..], [7; 3]);
    table
}

fn failure(step: u64, set: u64) -> Failure {
    Failure { step, set }
}

fn line_of(text: &str, failure: Failure) -> Vec<u32> {
    let restart = restart(&table_of(text), failure).unwrap();
    restart.line().to_vec()
}

fn new_run() -> Vec<u32> {
    vec![9; AREA_WORDS + 2]
}

fn counts_of(text: &str, failure: Failure, line: &[u32]) -> (u64, u64, u64) {
    let counts = messages(&table_of(text), failure, line, &mut new_run()).unwrap();
    (counts.orphans, counts.kept, counts.lost)
}

fn replay_of(text: &str, failure: Failure, line: &[u32], order: &[u16]) -> Result<bool, Refusal> {
    let replayed = replay(&table_of(text), failure, line, order, &mut new_run())?;
    assert_eq!(replayed.steps, order.len() as u64);
    Ok(replayed.complete)
}

fn steps_of(text: &str, failure: Failure, line: &[u32]) -> u64 {
    let replayed = lowest(&table_of(text), failure, line, &mut new_run()).unwrap();
    assert!(replayed.complete);
    replayed.steps
}

fn not_allowed(place: usize) -> Result<bool, Refusal> {
    Err(Refusal::new(Cause::Choice, place))
}

fn report_of(text: &[u8]) -> String {
    let mut out = vec![0; crate::REPORT_BYTES];
    let length = report(text, &mut out);
    String::from_utf8(out[..length].to_vec()).unwrap()
}

/// What a buffer of so many bytes holds after writing, and the answer; `~` before.
fn written(table: &[u32], room: usize) -> (Result<usize, Refusal>, String) {
    let mut out = vec![b'~'; room];
    let answer = write(table, &mut out);
    (answer, String::from_utf8(out).unwrap())
}

/// Writes a text read before to buffers of some lengths.
fn writes_back(text: &str, rooms: impl IntoIterator<Item = usize>) {
    let table = table_of(text);
    for room in rooms {
        let (answer, out) = written(&table, room);
        match room.checked_sub(text.len()) {
            Some(past) => {
                assert_eq!(answer, Ok(text.len()), "{text}");
                assert_eq!(out, format!("{text}{}", "~".repeat(past)));
            }
            None => {
                assert_eq!(answer, Err(Refusal::new(Cause::Buffer, 0)), "{text}");
                assert_eq!(out, "~".repeat(room));
            }
        }
    }
}

#[test]
fn r1_report_of_h() {
    let wanted = "out=proc at=0 epoch=2 restart=2 phase=2
out=proc at=1 epoch=2 restart=2 phase=2
out=proc at=2 epoch=1 restart=32 phase=2
out=orphan from=1 to=2 no=1 phase=2
out=total back=2 orphans=1 kept=0 steps=6
";
    assert_eq!(report_of(format!("{H}fail=11 set=2\n").as_bytes()), wanted);
    let restart = restart(&table_of(H), failure(11, 2)).unwrap();
    assert_eq!(restart.line(), [2, 2, 32]);
    assert_eq!(restart.epochs[..4], [2, 2, 1, 0]);
    assert_eq!(restart.phases[..4], [2, 2, 2, 0]);
    assert_eq!((restart.back, restart.going), (2, 3));
}

#[test]
fn r2_r3_other_lines_of_h() {
    let mut run = new_run();
    let counts = messages(&table_of(H), failure(11, 2), &[32, 2, 32], &mut run).unwrap();
    assert_eq!(counts.lost, 1);
    let row = ROW_BASE + counts.orphans as usize + counts.kept as usize + 1;
    assert_eq!(run[row], 64 | 3 << 12);
    assert_eq!(run[row + ROW_NUMBER_BASE - ROW_BASE], 2);
    assert_eq!(counts_of(H, failure(11, 2), &[1, 1, 32]).2, 0);
    assert_ne!(line_of(H, failure(11, 2)), [1, 1, 32]);
}

#[test]
fn steps_of_lines_of_h() {
    let exact = |line: &[u32]| exact_steps(&table_of(H), failure(11, 2), line).unwrap();
    assert_eq!(exact(&[2, 2, 32]), 6);
    assert_eq!(exact(&[1, 1, 32]), 10);
    assert_eq!(steps_of(H, failure(11, 2), &[1, 1, 32]), 10);
    // the third of the 4 events waits for the lost message
    assert_eq!(exact(&[32, 2, 32]), 4);
    assert_eq!(steps_of(H, failure(11, 2), &[32, 2, 32]), 2);
}

#[test]
fn r4_before_all() {
    assert_eq!(line_of(H, failure(0, 1)), [1, 32, 32]);
    assert_eq!(steps_of(H, failure(0, 1), &[1, 32, 32]), 11);
}

#[test]
fn r5_r6_a_logged_message() {
    let failure = failure(4, 2);
    assert_eq!(line_of(L, failure), [32, 2]);
    let mut run = new_run();
    messages(&table_of(L), failure, &[32, 2], &mut run).unwrap();
    assert_eq!(run[..3], [0, 1, 0]);
    assert_eq!(run[ROW_BASE + 1], 64 | 2 << 12);
    assert_eq!((run[ROW_NUMBER_BASE + 1], run[ROW_PHASE_BASE + 1]), (1, 1));
    assert_eq!(replay_of(L, failure, &[32, 2], &[65, 1, 1]), Ok(true));
    assert_eq!(replay_of(L, failure, &[32, 2], &[1, 65, 1]), Ok(true));
    assert_eq!(replay_of(L, failure, &[32, 2], &[65, 1]), Ok(false));
    assert_eq!(replay_of(L, failure, &[32, 2], &[1, 1]), not_allowed(2));
}

#[test]
fn r7_r8_a_message_not_logged() {
    assert_eq!(line_of(S, failure(4, 2)), [2, 1]);
    assert_eq!(replay_of(S, failure(4, 2), &[2, 1], &[0, 0, 1]), Ok(true));
    assert_eq!(line_of(S, failure(4, 1)), [2, 32]);
    let mut run = new_run();
    messages(&table_of(S), failure(4, 1), &[2, 32], &mut run).unwrap();
    assert_eq!(run[..3], [1, 0, 0]);
    assert_eq!(run[ROW_PHASE_BASE + 1], 2);
    assert_eq!(steps_of(S, failure(4, 1), &[2, 32]), 2);
}

#[test]
fn r9_r10_a_message_in_transit() {
    assert_eq!(line_of(T, failure(1, 2)), [32, 1]);
    assert_eq!(counts_of(T, failure(1, 2), &[32, 1]), (0, 1, 0));
    assert_eq!(replay_of(T, failure(1, 2), &[32, 1], &[65, 1]), Ok(true));
    assert_eq!(line_of(T, failure(1, 1)), [1, 32]);
    assert_eq!(counts_of(T, failure(1, 1), &[1, 32]).1, 0);
    assert_eq!(replay_of(T, failure(1, 1), &[1, 32], &[0, 1]), Ok(true));
}

#[test]
fn r11_r12_refusals() {
    for set in [0, 8] {
        let refusal = restart(&table_of(H), failure(11, set)).unwrap_err();
        assert_eq!(refusal, Refusal::new(Cause::Set, 0));
        let text = format!("{H}fail=11 set={set}\n");
        assert_eq!(report_of(text.as_bytes()), "refused=9 place=0\n");
    }
    let mut table = vec![5; AREA_WORDS];
    let refusal = read(b"procs=2\nev=recv at=0 from=1\n", &mut table).unwrap_err();
    assert_eq!(refusal, Refusal::new(Cause::NothingInTransit, 2));
    assert_eq!(table, vec![0; AREA_WORDS]);
}

#[test]
fn limits() {
    let refusal = |text: &str| {
        let mut table = vec![1; AREA_WORDS];
        let read = read(text.as_bytes(), &mut table);
        assert_eq!(table[0] == 0, read.is_err());
        read.err()
            .map(|refusal| (refusal.cause.number(), refusal.place))
    };
    let saves = |count: usize| format!("procs=2\n{}", "ev=save at=1\n".repeat(count));
    assert_eq!(refusal(&saves(30)), None);
    assert_eq!(refusal(&saves(31)), Some((6, 32)));
    let by_turns = |count: usize| {
        let save_done = "ev=save at=1\nev=done at=1\n";
        format!("procs=2\n{}", save_done.repeat(count))
    };
    assert_eq!(refusal(&by_turns(30)), None);
    assert_eq!(refusal(&by_turns(31)), Some((6, 62)));
    let then_dones = |count: usize| saves(30) + &"ev=done at=1\n".repeat(count);
    assert_eq!(refusal(&then_dones(30)), None);
    assert_eq!(refusal(&then_dones(31)), Some((15, 62)));
    let sends = |count: usize| {
        let send = "ev=send at=0 to=1 val=1\n";
        format!("procs=2\n{}", send.repeat(count))
    };
    assert_eq!(refusal(&sends(2_048)), None);
    assert_eq!(refusal(&sends(2_049)), Some((7, 2_050)));
    assert_eq!(refusal("procs=1\n"), Some((2, 1)));
    assert_eq!(refusal("procs=2\n"), None);
    assert_eq!(refusal("procs=64\n"), None);
    assert_eq!(refusal("procs=65\n"), Some((2, 1)));
    for unfit in ["ev=recv at=9 from=9\n", "ev=done at=9\n", "ev=done at=1\n"] {
        assert_eq!(refusal(&(sends(2_048) + unfit)), Some((7, 2_050)));
    }
    let mut table = vec![0; AREA_WORDS];
    let with_failure = format!("{}fail=2048 set=1\n", sends(2_048));
    assert_eq!(
        read_failure(with_failure.as_bytes(), &mut table),
        Ok(failure(2_048, 1))
    );
    // a text may be longer than the program takes
    assert_eq!(report_of(&vec![b'x'; 65_537]), "refused=1 place=1\n");
    let sends = "ev=send at=63 to=62 val=18446744073709551615\n".repeat(2_048);
    let report = report_of(format!("procs=64\n{sends}fail=2048 set=1\n").as_bytes());
    assert!(report.ends_with("out=total back=1 orphans=0 kept=2048 steps=2048\n"));
}

#[test]
fn forms() {
    // text; refusal without and with a failure line wanted, 0 at 0 for none
    type Answer = (u32, u64);
    let cases: &[(&str, Answer, Answer)] = &[
        ("", (1, 1), (1, 1)),
        ("\n", (1, 1), (1, 1)),
        ("procs=2", (1, 1), (1, 1)),
        ("procs=2\n", (0, 0), (1, 2)),
        ("procs=02\n", (1, 1), (1, 1)),
        ("procs=\n", (1, 1), (1, 1)),
        ("procs=2 \n", (1, 1), (1, 1)),
        ("procs=2\r\n", (1, 1), (1, 1)),
        ("procs=0\n", (2, 1), (2, 1)),
        ("fail=0 set=1\n", (1, 1), (1, 1)),
        ("ev=save at=0\n", (1, 1), (1, 1)),
        ("procs=2\nprocs=2\n", (1, 2), (1, 2)),
        ("procs=2\n\n", (1, 2), (1, 2)),
        ("procs=2\nev=save at=2\n", (3, 2), (3, 2)),
        ("procs=2\nev=save at=00\n", (1, 2), (1, 2)),
        ("procs=2\nev=save at=0", (1, 2), (1, 2)),
        ("procs=2\nev=done at=0\n", (15, 2), (15, 2)),
        ("procs=2\nev=done at=2\n", (3, 2), (3, 2)),
        ("procs=2\nev=done at=00\n", (1, 2), (1, 2)),
        ("procs=2\nev=done at=0", (1, 2), (1, 2)),
        ("procs=2\nev=done at=0 to=1\n", (1, 2), (1, 2)),
        ("procs=2\nev=save at=0\nev=done at=1\n", (15, 3), (15, 3)),
        ("procs=2\nev=save at=0\nev=done at=0\n", (0, 0), (1, 4)),
        (
            "procs=2\nev=save at=0\nev=done at=0\nev=done at=0\n",
            (15, 4),
            (15, 4),
        ),
        ("procs=2\nev=send at=5 to=5 val=1\n", (3, 2), (3, 2)),
        ("procs=2\nev=send at=0 to=0 val=1\n", (4, 2), (4, 2)),
        ("procs=2\nev=send at=0 to=1 val=01\n", (1, 2), (1, 2)),
        ("procs=2\nev=send to=1 at=0 val=1\n", (1, 2), (1, 2)),
        ("procs=2\nev=recv at=0 from=0\n", (4, 2), (4, 2)),
        ("procs=2\nev=recv at=0 from=2\n", (3, 2), (3, 2)),
        ("procs=2\nfail=0 set=1\n", (1, 2), (0, 0)),
        ("procs=2\nfail=9 set=0\n", (1, 2), (0, 0)),
        ("procs=2\nfail=0 set=1", (1, 2), (1, 2)),
        ("procs=2\nfail=0 set=1\n\n", (1, 2), (1, 3)),
        ("procs=2\nfail=0 set=1\nx", (1, 2), (1, 3)),
        ("procs=2\nfail=0 set=1\nfail=0 set=1\n", (1, 2), (1, 3)),
        ("procs=2\nfail=0 set=01\n", (1, 2), (1, 2)),
    ];
    for &(text, without, with) in cases {
        let answer = |refusal: Option<Refusal>| {
            refusal.map_or((0, 0), |refusal| (refusal.cause.number(), refusal.place))
        };
        let mut table = vec![0; AREA_WORDS];
        let read_without = read(text.as_bytes(), &mut table);
        assert_eq!(answer(read_without.err()), without, "{text:?}");
        let read_with = read_failure(text.as_bytes(), &mut table);
        assert_eq!(answer(read_with.err()), with, "{text:?} with failure");
    }
}

/// The largest number of each key has its place in a line, and the first too large one is no number.
#[test]
fn bounds_of_keys() {
    const WORD: u64 = u32::MAX as u64;
    // the text before and after the number; the largest; what that is refused with, 0 for not at all
    let keys: &[(&str, &str, u64, u32)] = &[
        ("procs=", "\nfail=0 set=1\n", WORD, 2),
        (
            "procs=2\nev=send at=",
            " to=1 val=1\nfail=0 set=1\n",
            WORD,
            3,
        ),
        (
            "procs=2\nev=send at=0 to=",
            " val=1\nfail=0 set=1\n",
            WORD,
            3,
        ),
        (
            "procs=2\nev=send at=0 to=1 val=",
            "\nfail=0 set=1\n",
            u64::MAX,
            0,
        ),
        ("procs=2\nev=recv at=", " from=1\nfail=0 set=1\n", WORD, 3),
        ("procs=2\nev=recv at=0 from=", "\nfail=0 set=1\n", WORD, 3),
        ("procs=2\nev=save at=", "\nfail=0 set=1\n", WORD, 3),
        ("procs=2\nev=done at=", "\nfail=0 set=1\n", WORD, 3),
        ("procs=2\nfail=", " set=1\n", WORD, 0),
        ("procs=2\nfail=0 set=", "\n", u64::MAX, 0),
    ];
    let mut table = vec![0; AREA_WORDS];
    for &(before, after, largest, cause) in keys {
        let place = before.lines().count() as u64;
        let mut refused = |number: &str| {
            let text = format!("{before}{number}{after}");
            let refusal = read_failure(text.as_bytes(), &mut table).err();
            refusal.map(|refusal| (refusal.cause.number(), refusal.place))
        };
        let accepted = (cause != 0).then_some((cause, place));
        assert_eq!(refused(&largest.to_string()), accepted, "{before}");
        let first = u128::from(largest) + 1;
        let too_large = [first, first + 1, 99_999_999_999_999_999_999, 10 * first];
        for number in too_large.map(|number| number.to_string()) {
            assert_eq!(refused(&number), Some((1, place)), "{before}{number}");
        }
        assert_eq!(refused(&"9".repeat(60)), Some((1, place)), "{before}");
    }
}

#[test]
fn values_in_both_halves() {
    let sends = LONG_VALUES.map(|val| format!("ev=send at=0 to=1 val={val}\n"));
    let text = format!("procs=2\n{}ev=save at=1\n", sends.concat());
    let mut table = table_of(&text);
    for (event, wanted) in (1..).zip(LONG_VALUES) {
        assert_eq!(value(&table, event), wanted);
        assert_eq!(table[VALUE_BASE + event], wanted as u32);
        assert_eq!(table[HIGH_BASE + event], (wanted >> 32) as u32);
    }
    assert_eq!(table[HIGH_BASE], 0);
    let past = &table[HIGH_BASE + LONG_VALUES.len() + 1..AREA_WORDS];
    assert!(past.iter().all(|&word| word == 0));
    // a trace has one area: all that was set is set back
    for event in 1..=LONG_VALUES.len() {
        set_value(&mut table, event, u64::MAX - event as u64);
        assert_eq!(value(&table, event), u64::MAX - event as u64);
    }
    for (event, value) in (1..).zip(LONG_VALUES) {
        set_value(&mut table, event, value);
    }
    assert_eq!(table, table_of(&text));
}

#[test]
#[should_panic(expected = "event 2049 is not 1 to 2048")]
fn values_of_events_that_cannot_be() {
    value(&[0; AREA_WORDS], MAX_EVENTS + 1);
}

/// Where no value can be, there is none of its halves.
#[test]
fn halves_where_no_value_is() {
    // 11 events, of which 2, 6 and 10 are receives, 3 and 7 saves, 4 and 8 dones
    let table = table_of(H);
    let past_values = HIGH_BASE + MAX_EVENTS + 1;
    let gaps = [VALUE_BASE, HIGH_BASE, past_values, AREA_WORDS - 1];
    let events = [2, 3, 4, 6, 7, 8, 10, 12, MAX_EVENTS];
    let halves = events.map(|event| [VALUE_BASE + event, HIGH_BASE + event]);
    for word in gaps.into_iter().chain(halves.concat()) {
        for bit in [0, 31] {
            let mut changed = table.clone();
            changed[word] = 1 << bit;
            let refusal = Refusal::new(Cause::Table, 0);
            assert_eq!(restart(&changed, failure(11, 2)), Err(refusal), "{word}");
            assert_eq!(written(&changed, 0).0, Err(refusal), "{word}");
        }
    }
    for send in [1, 5, 9, 11] {
        let mut changed = table.clone();
        changed[HIGH_BASE + send] = 1;
        let (answer, out) = written(&changed, TEXT_BYTES);
        let val = (1 << 32) + value(&table, send);
        assert!(out[..answer.unwrap()].contains(&format!(" val={val}\n")));
        let restart = restart(&changed, failure(11, 2)).unwrap();
        assert_eq!(restart.line(), [2, 2, 32]);
    }
}

#[test]
fn order_of_checks() {
    let (table, mut run) = (table_of(T), new_run());
    let number = |answer: Result<Replayed, Refusal>| answer.unwrap_err().cause.number();
    let short = &mut [0; 5];
    assert_eq!(number(lowest(&[0; 5], failure(9, 0), &[], &mut run)), 12);
    assert_eq!(number(lowest(&table, failure(9, 0), &[], short)), 12);
    assert_eq!(
        number(lowest(&[0; AREA_WORDS], failure(9, 0), &[], short)),
        12
    );
    assert_eq!(
        number(lowest(&[0; AREA_WORDS], failure(9, 0), &[], &mut run)),
        13
    );
    assert_eq!(number(lowest(&table, failure(3, 0), &[], &mut run)), 8);
    assert_eq!(number(lowest(&table, failure(2, 4), &[], &mut run)), 9);
    assert_eq!(
        number(replay(&table, failure(2, 1), &[], &[9], &mut run)),
        10
    );
    assert_eq!(
        number(replay(&table, failure(2, 1), &[32, 1], &[9], &mut run)),
        10
    );
    assert_eq!(
        number(replay(&table, failure(2, 1), &[1, 2], &[9], &mut run)),
        10
    );
    assert_eq!(run, new_run());
    assert_eq!(
        number(replay(&table, failure(2, 1), &[1, 1], &[9], &mut run)),
        11
    );
    assert_eq!(run[..AREA_WORDS], [0; AREA_WORDS]);
    assert_eq!(run[AREA_WORDS..], [9; 2]);
}

#[test]
fn writes_what_was_read() {
    let first_lines = [2, 9, 10, 64].map(|procs| format!("procs={procs}\n"));
    let texts = [H, L, S, T].into_iter();
    for text in texts.chain(first_lines.iter().map(String::as_str)) {
        // up to where a text with so many lines has room whatever its numbers
        let lines = text.lines().count();
        writes_back(text, (0..=40 * lines).chain([TEXT_BYTES]));
    }
    let with_failure = format!("{H}fail=11 set=2\n");
    let mut table = vec![3; AREA_WORDS];
    read_failure(with_failure.as_bytes(), &mut table).unwrap();
    assert_eq!(table[..], table_of(H)[..AREA_WORDS]);
    assert_eq!(written(&table, H.len()), (Ok(H.len()), H.to_string()));
}

#[test]
fn writes_all_numbers() {
    let around = |number: u64| [number - 1, number, number + 1];
    let values = (0..20).flat_map(|digits| around(10u64.pow(digits)));
    let values: Vec<u64> = values.chain(around(1 << 32)).chain(LONG_VALUES).collect();
    assert_eq!(values[0], 0);
    let send = |at: u64, to: u64, val: u64| format!("ev=send at={at} to={to} val={val}\n");
    let sends = values.iter().map(|&val| send(63, 9, val));
    let processes = (0..63).map(|z| send(z, z + 1, z) + &send(z + 1, z, 7));
    let others = (1..64).map(|z| {
        let from = z - 1;
        format!("ev=recv at={z} from={from}\nev=save at={z}\nev=done at={z}\n")
    });
    let text: String = ["procs=64\n".to_string()]
        .into_iter()
        .chain(sends)
        .chain(processes)
        .chain(others)
        .collect();
    let length = text.len();
    writes_back(&text, [length - 1, length, length + 1, TEXT_BYTES]);
    for val in values {
        let text = format!("procs=12\n{}", send(10, 11, val));
        writes_back(&text, [text.len() - 1, text.len(), TEXT_BYTES]);
    }
    let longest = format!("procs=64\n{}", send(63, 62, u64::MAX).repeat(MAX_EVENTS));
    let length = longest.len();
    assert_eq!(length, 92_169);
    assert!(length <= TEXT_BYTES);
    writes_back(&longest, [length - 1, length, TEXT_BYTES]);
}

#[test]
fn writes_random_traces() {
    let mut random = Random::new(4);
    for round in 0..300 {
        let shape = Shape::ALL[round % Shape::ALL.len()];
        let procs = 2 + random.below(63);
        let events = random.below(200);
        let mut trace = shape.trace(procs, events, &mut random);
        trace.lengthen_values(&mut random);
        trace.finish_saves(random_dones(&mut random), &mut random);
        let text = trace.text();
        let length = text.len();
        let rooms = [length - 1, length, length + random.below(99), TEXT_BYTES];
        writes_back(&String::from_utf8(text).unwrap(), rooms);
    }
}

#[test]
fn writes_no_other_area() {
    let refused = |table: &[u32], room: usize, cause: Cause| {
        let untouched = "~".repeat(room);
        assert_eq!(
            written(table, room),
            (Err(Refusal::new(cause, 0)), untouched)
        );
    };
    let table = table_of(H);
    for room in [0, H.len(), TEXT_BYTES] {
        refused(&[], room, Cause::Area);
        refused(&table[..AREA_WORDS - 1], room, Cause::Area);
        refused(&[0; AREA_WORDS], room, Cause::Table);
    }
    let saves = table_of(&format!("procs=2\n{}", "ev=save at=1\n".repeat(30)));
    let mut one_more = saves.clone();
    one_more[1] += 1;
    refused(&one_more, TEXT_BYTES, Cause::Table);
    one_more[EVENT_BASE + 31] = saves[EVENT_BASE + 30];
    refused(&one_more, TEXT_BYTES, Cause::Table);
}

/// The word of a done: its process, and no bit beside it.
#[test]
fn words_of_dones() {
    let text = "procs=2\nev=save at=1\nev=save at=0\nev=done at=0\nev=done at=1\n";
    let table = table_of(text);
    assert_eq!(table[EVENT_BASE + 1..][..5], [0x3001, 0x3000, 0, 1, 0]);
    writes_back(text, [text.len() - 1, text.len(), TEXT_BYTES]);
    let answer = |event: usize, word: u32| {
        let mut changed = table.clone();
        changed[EVENT_BASE + event] = word;
        let answer = restart(&changed, failure(4, 1)).map(|restart| restart.line().to_vec());
        let (written, out) = written(&changed, TEXT_BYTES);
        assert_eq!(written.map(|_| ()), answer.clone().map(|_| ()));
        answer
            .ok()
            .map(|line| (line, out.lines().nth(event).unwrap().to_string()))
    };
    // a second done of a process, a done before its save, a done of a process that there is not
    for (event, word) in [(4, 0), (3, 1), (1, 1), (2, 0), (3, 2), (3, 63)] {
        assert_eq!(answer(event, word), None, "{event} {word:#x}");
    }
    // a peer, or bits past the kind
    for bit in (6..12).chain(14..32) {
        assert_eq!(answer(3, 1 << bit), None, "bit {bit}");
        assert_eq!(answer(4, 1 | 1 << bit), None, "bit {bit}");
    }
    assert_eq!(
        answer(3, 0x3000),
        Some((vec![1, 32], "ev=save at=0".to_string()))
    );
    assert_eq!(
        answer(4, 0x3001),
        Some((vec![2, 32], "ev=save at=1".to_string()))
    );
    // past the last event there is no done, though its word would be 0
    let mut fewer = table.clone();
    fewer[1] = 3;
    assert_eq!(
        restart(&fewer, failure(0, 1)),
        Err(Refusal::new(Cause::Table, 0))
    );
    fewer[EVENT_BASE + 4] = 0;
    assert_eq!(restart(&fewer, failure(3, 2)).unwrap().line(), [32, 1]);
    let mut more = table.clone();
    more[1] = 5;
    assert_eq!(
        restart(&more, failure(0, 1)),
        Err(Refusal::new(Cause::Table, 0))
    );
}

/// Areas with a small change are refused where the other calls refuse them, which have a check of
/// their own; from those that hold another trace its text is written.
#[test]
fn writes_changed_areas() {
    let table = table_of(H);
    let mut random = Random::new(5);
    for round in 0..4_000 {
        let mut changed = table.clone();
        let event = EVENT_BASE + 1 + random.below(12);
        match round % 4 {
            0 => changed[random.below(2)] ^= 1 << random.below(8),
            1 => changed[event] ^= 1 << random.below(32),
            2 => changed[event] = random.bits() as u32 & 0x3fff,
            _ => changed[random.below(AREA_WORDS)] ^= 1 << random.below(32),
        }
        let (answer, out) = written(&changed, TEXT_BYTES);
        match restart(&changed, failure(0, 1)) {
            Ok(_) => {
                let text = &out[..answer.unwrap()];
                assert_eq!(table_of(text)[..AREA_WORDS], changed[..AREA_WORDS]);
            }
            Err(refusal) => assert_eq!(answer, Err(refusal)),
        }
    }
}

/// A trace of two processes in a short form: `v0` a save, `d0` a done, `s01` a
/// send from 0 to 1, `r10` a receive by 1 from 0.
fn short(events: &str) -> String {
    let mut text = "procs=2\n".to_string();
    for event in events.split(' ') {
        let (at, peer) = (&event[1..2], event.get(2..3));
        text += &match (&event[..1], peer) {
            ("v", None) => format!("ev=save at={at}\n"),
            ("d", None) => format!("ev=done at={at}\n"),
            ("s", Some(to)) => format!("ev=send at={at} to={to} val=1\n"),
            ("r", Some(from)) => format!("ev=recv at={at} from={from}\n"),
            _ => panic!("not an event: {event}"),
        };
    }
    text
}

#[test]
fn d1_phase_of_an_orphan() {
    let text = short("v1 d1 s01 r10");
    let line = line_of(&text, failure(4, 1));
    let mut run = new_run();
    messages(&table_of(&text), failure(4, 1), &line, &mut run).unwrap();
    assert_eq!((run[0], run[ROW_PHASE_BASE + 1]), (1, 1));
}

#[test]
fn d2_to_d8_gates() {
    // events, step, set, line, an order refused at 1, an order that is complete
    type Case = (
        &'static str,
        u64,
        u64,
        [u32; 2],
        &'static [u16],
        &'static [u16],
    );
    let cases: [Case; 6] = [
        ("s01 r10 s10", 2, 1, [1, 32], &[1], &[0, 1]),
        ("s01 r10 s10", 3, 1, [1, 32], &[128], &[0, 128]),
        ("s01 r10 v1 d1 s10", 5, 3, [1, 2], &[1], &[0, 1, 1]),
        (
            "v0 d0 s10 r01 s01 r10",
            6,
            1,
            [1, 32],
            &[],
            &[0, 0, 128, 0, 0],
        ),
        (
            "v0 d0 s01 r10 s10 r01 s01 r10",
            8,
            1,
            [2, 32],
            &[],
            &[0, 0, 128, 0, 0],
        ),
        ("s01 s01 r10", 1, 2, [32, 1], &[0], &[65, 0, 1]),
    ];
    for (events, step, set, line, bad, good) in cases {
        let text = short(events);
        let failure = failure(step, set);
        if !bad.is_empty() {
            assert_eq!(replay_of(&text, failure, &line, bad), not_allowed(1));
        }
        assert_eq!(replay_of(&text, failure, &line, good), Ok(true), "{events}");
    }
}

#[test]
fn d9_records_by_number() {
    let text = short("s01 s01 r10");
    let mut run = new_run();
    let replayed = replay(
        &table_of(&text),
        failure(3, 2),
        &[32, 1],
        &[65, 1],
        &mut run,
    );
    assert!(replayed.unwrap().complete);
    assert_eq!((run[3], taken_value(&run, 3)), (2, 1));
}

/// Two messages that differ only above bit 31, from a line that loses the first: the records differ
/// in the number and in the high half, and nowhere else.
#[test]
fn records_by_high_half() {
    let table = table_of(
        "procs=2
ev=send at=0 to=1 val=7
ev=send at=0 to=1 val=4294967303
ev=recv at=1 from=0
",
    );
    let record = |set: u64, line: &[u32]| {
        let mut run = new_run();
        lowest(&table, failure(3, set), line, &mut run).unwrap();
        run
    };
    let lossless = record(3, &[1, 1]);
    assert_eq!((lossless[3], taken_value(&lossless, 3)), (1, 7));
    let lossy = record(2, &[32, 1]);
    assert_eq!((lossy[3], taken_value(&lossy, 3)), (2, 4_294_967_303));
    let differ: Vec<usize> = (0..AREA_WORDS)
        .filter(|&word| lossless[word] != lossy[word])
        .collect();
    assert_eq!(differ, [3, TAKEN_HIGH_BASE + 3]);
}

#[test]
fn unfinished_saves() {
    // events, step, set, line
    type Case = (&'static str, u64, u64, [u32; 2]);
    let cases: [Case; 11] = [
        // a save is of no use until its done
        ("v0", 1, 1, [1, 32]),
        ("v0 d0", 1, 1, [1, 32]),
        ("v0 d0", 2, 1, [2, 32]),
        // a done finishes the oldest
        ("v0 v0 d0", 3, 1, [2, 32]),
        ("v0 v0 d0 d0", 4, 1, [3, 32]),
        ("v0 d0 v0", 3, 1, [2, 32]),
        // a sender whose epoch at the send is unfinished goes back to one before it
        ("v0 s01 r10", 3, 2, [1, 1]),
        ("v0 s01 r10 d0", 4, 2, [2, 1]),
        ("v0 s01 r10 d0", 3, 2, [1, 1]),
        ("v0 d0 v0 s01 r10", 5, 2, [2, 1]),
        // the unfinished save of a process that did not fail
        ("v0 v1 s01 r10 d1", 5, 2, [1, 2]),
    ];
    for (events, step, set, line) in cases {
        assert_eq!(
            line_of(&short(events), failure(step, set)),
            line,
            "{events}"
        );
    }
    let saved = restart(&table_of(&short("v0")), failure(1, 1)).unwrap();
    assert_eq!((saved.epochs[0], saved.phases[0]), (2, 1));
    assert_eq!(
        report_of(format!("{}fail=1 set=1\n", short("v0")).as_bytes()),
        "out=proc at=0 epoch=2 restart=1 phase=1
out=proc at=1 epoch=1 restart=32 phase=1
out=total back=1 orphans=0 kept=0 steps=1
"
    );
}

#[test]
fn lines_with_unfinished_epochs() {
    let refused = Err(Refusal::new(Cause::Line, 0));
    let text = short("v0 v0 d0 d0");
    // the latest epoch that a line may name after each event
    for (step, finished) in [1, 1, 1, 2, 3].into_iter().enumerate() {
        for epoch in 1..=4 {
            let line = [epoch, 32];
            let mut run = new_run();
            let answer = lowest(&table_of(&text), failure(step as u64, 1), &line, &mut run);
            if epoch <= finished {
                assert!(answer.is_ok(), "{step} {epoch}");
            } else {
                assert_eq!(answer, refused, "{step} {epoch}");
                assert_eq!(run, new_run());
            }
        }
    }
    // right after the save, so that its done is listed
    let (failure, line) = (failure(4, 1), [2, 32]);
    assert_eq!(replay_of(&text, failure, &line, &[0, 0, 0]), Ok(true));
    assert_eq!(
        replay_of(&text, failure, &line, &[0, 0, 0, 0]),
        not_allowed(4)
    );
    assert_eq!(steps_of(&text, failure, &[3, 32]), 2);
    // every kind of call
    let table = table_of(&short("v0"));
    let (failure, mut run) = (Failure { step: 1, set: 1 }, new_run());
    let number = |refusal: Refusal| refusal.cause.number();
    assert_eq!(
        messages(&table, failure, &[2, 32], &mut run).map_err(number),
        Err(10)
    );
    assert_eq!(
        replay(&table, failure, &[2, 32], &[9], &mut run).map_err(number),
        Err(10)
    );
    assert_eq!(
        exact_steps(&table, failure, &[2, 32]).map_err(number),
        Err(10)
    );
    assert_eq!(run, new_run());
}

/// A message of the recorded run, as the requirements speak of it.
#[derive(Clone, Debug)]
struct Message {
    from: usize,
    to: usize,
    number: u32,
    value: u64,
    sent: usize,
    received: Option<usize>,
    phase: u32,
    logged: bool,
}

/// Recovery as the requirements word it, without regard to time.
struct Slow<'a> {
    trace: &'a Trace,
    step: usize,
    failed: u64,
    messages: Vec<Message>,
    /// Of each process, after each count of events of the trace, epoch and phase.
    states: Vec<Vec<(u32, u32)>>,
    /// Of each process, the latest epoch that is finished at the cut.
    finished: Vec<u32>,
}

impl<'a> Slow<'a> {
    fn new(trace: &'a Trace, failure: Failure) -> Slow<'a> {
        let mut slow = Slow {
            trace,
            step: failure.step as usize,
            failed: failure.set,
            messages: Vec::new(),
            states: vec![vec![(1, 1); trace.procs]],
            finished: vec![1; trace.procs],
        };
        let mut epochs = BTreeMap::new();
        let mut sent: BTreeMap<(usize, usize), u32> = BTreeMap::new();
        for (i, event) in (1..).zip(&trace.events) {
            let mut now = slow.states.last().unwrap().clone();
            match *event {
                Event::Send { at, to, val } => {
                    let number = sent.entry((at, to)).or_default();
                    *number += 1;
                    epochs.insert(slow.messages.len(), now[at].0);
                    slow.messages.push(Message {
                        from: at,
                        to,
                        number: *number,
                        value: val,
                        sent: i,
                        received: None,
                        phase: now[at].1,
                        logged: false,
                    });
                }
                Event::Recv { at, from } => {
                    let oldest = slow
                        .messages
                        .iter()
                        .position(|m| (m.from, m.to) == (from, at) && m.received.is_none())
                        .unwrap();
                    let message = &mut slow.messages[oldest];
                    message.received = Some(i);
                    message.logged = epochs[&oldest] < now[at].0;
                    now[at].1 = now[at].1.max(message.phase + u32::from(message.logged));
                }
                Event::Save { at } => now[at] = (now[at].0 + 1, now[at].1 + 1),
                Event::Done { at } => slow.finished[at] += u32::from(i <= slow.step),
            }
            slow.states.push(now);
        }
        slow
    }

    /// All lines that are permitted.
    fn lines(&self) -> Vec<Vec<u32>> {
        let mut lines = vec![vec![]];
        for (z, &finished) in self.finished.iter().enumerate() {
            let mut numbers: Vec<u32> = (1..=finished).collect();
            if self.failed >> z & 1 == 0 {
                numbers.push(STAY);
            }
            lines = lines
                .iter()
                .flat_map(|line| {
                    numbers.iter().map(move |&number| {
                        let mut longer = line.clone();
                        longer.push(number);
                        longer
                    })
                })
                .collect();
        }
        lines
    }

    /// How many events of the trace are before the restart of a process.
    fn restart(&self, line: &[u32], z: usize) -> usize {
        if line[z] == STAY {
            return self.step;
        }
        self.states.iter().position(|s| s[z].0 == line[z]).unwrap()
    }

    fn sent_before(&self, line: &[u32], message: &Message) -> bool {
        message.sent <= self.restart(line, message.from)
    }

    fn received_at_cut(&self, message: &Message) -> bool {
        message
            .received
            .is_some_and(|received| received <= self.step)
    }

    fn undone(&self, line: &[u32], message: &Message) -> bool {
        self.received_at_cut(message) && message.received > Some(self.restart(line, message.to))
    }

    fn class(&self, line: &[u32], message: &Message) -> Option<u32> {
        if message.sent > self.step {
            return None;
        }
        let before = self.sent_before(line, message);
        let undone = self.undone(line, message);
        let received = self.received_at_cut(message);
        if before && undone && !message.logged {
            Some(3)
        } else if before && (undone && message.logged || !received) {
            Some(2)
        } else if !before && received && !undone {
            Some(1)
        } else {
            None
        }
    }

    fn listed(&self, line: &[u32], class: u32) -> Vec<&Message> {
        let mut listed: Vec<_> = self
            .messages
            .iter()
            .filter(|message| self.class(line, message) == Some(class))
            .collect();
        listed.sort_by_key(|message| (message.from, message.to, message.number));
        listed
    }

    fn greatest(&self) -> Vec<u32> {
        let lines: Vec<_> = self
            .lines()
            .into_iter()
            .filter(|line| self.listed(line, 3).is_empty())
            .collect();
        let below = |line: &[u32], most: &[u32]| line.iter().zip(most).all(|(a, b)| a <= b);
        let mut greatest = lines
            .iter()
            .filter(|most| lines.iter().all(|line| below(line, most)));
        let found = greatest.next().expect("there is a greatest line").clone();
        assert!(greatest.next().is_none());
        found
    }

    /// The run area that lists the messages of a line.
    fn list(&self, line: &[u32]) -> Vec<u32> {
        let mut run = vec![0; AREA_WORDS];
        let mut row = 0;
        for class in 1..=3 {
            let listed = self.listed(line, class);
            run[class as usize - 1] = listed.len() as u32;
            for message in listed {
                row += 1;
                run[16 + row] = message.from as u32 + 64 * message.to as u32 + 4096 * class;
                run[2065 + row] = message.number;
                run[4114 + row] = message.phase;
            }
        }
        run
    }
}

/// A replay as the requirements word it.
struct SlowReplay<'a> {
    slow: &'a Slow<'a>,
    line: &'a [u32],
    next: Vec<usize>,
    kept: BTreeMap<(usize, usize), VecDeque<&'a Message>>,
    channels: BTreeMap<(usize, usize), VecDeque<&'a Message>>,
    /// Phases of orphans not yet sent again.
    orphans: Vec<u32>,
    run: Vec<u32>,
}

impl<'a> SlowReplay<'a> {
    fn new(slow: &'a Slow<'a>, line: &'a [u32]) -> Self {
        let mut replay = SlowReplay {
            slow,
            line,
            next: (0..line.len()).map(|z| slow.restart(line, z)).collect(),
            kept: BTreeMap::new(),
            channels: BTreeMap::new(),
            orphans: slow.listed(line, 1).iter().map(|m| m.phase).collect(),
            run: vec![0; AREA_WORDS],
        };
        for message in slow.listed(line, 2) {
            let channel = (message.from, message.to);
            replay.kept.entry(channel).or_default().push_back(message);
        }
        for message in &slow.messages {
            if slow.received_at_cut(message) && !slow.undone(line, message) {
                replay.receive(message.received.unwrap(), message);
            }
        }
        for z in 0..line.len() {
            replay.find_next(z);
        }
        replay
    }

    fn receive(&mut self, i: usize, message: &Message) {
        self.run[i] = message.number;
        self.run[2049 + i] = message.value as u32;
        self.run[4098 + i] = (message.value >> 32) as u32;
    }

    /// Moves on to the next event of a process.
    fn find_next(&mut self, z: usize) {
        let events = &self.slow.trace.events;
        self.next[z] += 1;
        while events.get(self.next[z] - 1).is_some_and(|event| {
            let (Event::Send { at, .. }
            | Event::Recv { at, .. }
            | Event::Save { at }
            | Event::Done { at }) = *event;
            at != z
        }) {
            self.next[z] += 1;
        }
    }

    fn ready(&self, phase: u32) -> bool {
        self.orphans.iter().all(|&orphan| orphan > phase)
    }

    fn has(messages: &BTreeMap<(usize, usize), VecDeque<&Message>>, c: (usize, usize)) -> bool {
        messages
            .get(&c)
            .is_some_and(|messages| !messages.is_empty())
    }

    fn allowed(&self, choice: u16) -> bool {
        let choice = usize::from(choice);
        if choice >= 64 {
            let channel = ((choice - 64) / 64, (choice - 64) % 64);
            let oldest = self.kept.get(&channel).and_then(|kept| kept.front());
            return oldest.is_some_and(|message| self.ready(message.phase));
        }
        if choice >= self.line.len() || self.next[choice] > self.slow.trace.events.len() {
            return false;
        }
        let state = self.slow.states[self.slow.restart(self.line, choice)][choice];
        let gate = if self.line[choice] == STAY {
            state.1
        } else {
            state.1 - 1
        };
        self.ready(gate)
            && match self.slow.trace.events[self.next[choice] - 1] {
                Event::Send { at, to, .. } => !Self::has(&self.kept, (at, to)),
                Event::Recv { at, from } => Self::has(&self.channels, (from, at)),
                Event::Save { .. } | Event::Done { .. } => true,
            }
    }

    fn carry_out(&mut self, choice: u16) {
        let choice = usize::from(choice);
        if choice >= 64 {
            let channel = ((choice - 64) / 64, (choice - 64) % 64);
            let message = self.kept.get_mut(&channel).unwrap().pop_front().unwrap();
            self.channels.entry(channel).or_default().push_back(message);
            return;
        }
        let i = self.next[choice];
        match self.slow.trace.events[i - 1] {
            Event::Send { at, to, .. } => {
                let message = self.slow.messages.iter().find(|m| m.sent == i).unwrap();
                let restart = self.slow.restart(self.line, to);
                let received = self.slow.messages.iter().filter(|m| {
                    (m.from, m.to) == (at, to) && m.received.is_some_and(|i| i <= restart)
                });
                if message.number as usize <= received.count() {
                    let place = self.orphans.iter().position(|&p| p == message.phase);
                    self.orphans.swap_remove(place.unwrap());
                } else {
                    self.channels
                        .entry((at, to))
                        .or_default()
                        .push_back(message);
                }
            }
            Event::Recv { at, from } => {
                let channel = self.channels.get_mut(&(from, at)).unwrap();
                let message = channel.pop_front().unwrap();
                self.receive(i, message);
            }
            Event::Save { .. } | Event::Done { .. } => {}
        }
        self.find_next(choice);
    }

    fn choices(&self) -> Vec<u16> {
        let procs = self.line.len() as u16;
        (0..64 + 64 * procs)
            .filter(|&choice| self.allowed(choice))
            .collect()
    }
}

/// Compares all lines of a trace and a failure with the slow implementation.
fn compare(trace: &Trace, failure: Failure, orders: bool, random: &mut Random) {
    let mut table = vec![0; AREA_WORDS];
    read(&trace.text(), &mut table).unwrap();
    let slow = Slow::new(trace, failure);
    let answer = restart(&table, failure).unwrap();
    let name = || format!("{failure:?}\n{}", String::from_utf8(trace.text()).unwrap());
    assert_eq!(answer.line(), slow.greatest(), "{}", name());
    let current = &slow.states[slow.step];
    let floor = (0..trace.procs)
        .filter(|&z| failure.set >> z & 1 == 1 || slow.finished[z] < current[z].0)
        .map(|z| slow.finished[z])
        .min();
    assert!(answer.line().iter().min() >= floor.as_ref());
    let is_done = |event: &Event| matches!(event, Event::Done { .. });
    if !trace.events.iter().any(is_done) {
        let mut numbers = answer.line().iter();
        assert!(numbers.all(|number| [1, STAY].contains(number)));
    }
    for (z, state) in current.iter().enumerate() {
        let at_restart = slow.states[slow.restart(answer.line(), z)][z];
        assert_eq!(answer.epochs[z], state.0);
        assert_eq!(answer.phases[z], at_restart.1);
    }
    if !orders {
        return;
    }
    for line in slow.lines() {
        let mut run = vec![7; AREA_WORDS];
        messages(&table, failure, &line, &mut run).unwrap();
        assert_eq!(run, slow.list(&line), "{line:?} {}", name());

        let mut wanted = SlowReplay::new(&slow, &line);
        let mut order = Vec::new();
        while let Some(&choice) = wanted.choices().first() {
            wanted.carry_out(choice);
            order.push(choice);
        }
        let replayed = lowest(&table, failure, &line, &mut run).unwrap();
        assert_eq!(replayed.steps, order.len() as u64, "{line:?} {}", name());
        assert_eq!(run, wanted.run, "{line:?} {}", name());
        let exact = exact_steps(&table, failure, &line).unwrap();
        assert!(replayed.steps <= exact, "{line:?} {}", name());
        if slow.listed(&line, 3).is_empty() {
            assert!(wanted.next.iter().all(|&i| i == trace.events.len() + 1));
            assert_eq!(replayed.steps, exact, "{line:?} {}", name());
        }
        run.fill(3);
        let replayed = replay(&table, failure, &line, &order, &mut run).unwrap();
        assert!(replayed.complete);
        assert_eq!(run, wanted.run, "{line:?} {}", name());

        let mut wanted = SlowReplay::new(&slow, &line);
        let length = random.below(order.len() + 1);
        let mut order = Vec::new();
        while order.len() < length && !wanted.choices().is_empty() {
            let choice = random.pick(&wanted.choices());
            wanted.carry_out(choice);
            order.push(choice);
        }
        let replayed = replay(&table, failure, &line, &order, &mut run).unwrap();
        assert_eq!(replayed.complete, wanted.choices().is_empty());
        assert_eq!(run, wanted.run, "{line:?} {order:?} {}", name());

        let choice = match random.below(3) {
            0 => random.below(trace.procs) as u16,
            1 => 64 + 64 * random.below(trace.procs) as u16 + random.below(trace.procs) as u16,
            _ => random.bits() as u16,
        };
        order.push(choice);
        let replayed = replay(&table, failure, &line, &order, &mut run);
        if wanted.allowed(choice) {
            wanted.carry_out(choice);
            assert_eq!(run, wanted.run);
            assert_eq!(replayed.unwrap().steps, order.len() as u64);
        } else {
            assert_eq!(replayed, Err(Refusal::new(Cause::Choice, order.len())));
            assert_eq!(run, vec![0; AREA_WORDS]);
        }
    }
}

/// Dones right after their saves, later, both, or none.
fn random_dones(random: &mut Random) -> Dones {
    Dones {
        at_once: random.pick(&[0, 0, 30, 100]),
        later: random.pick(&[0, 10, 40]),
    }
}

#[test]
fn lines_of_all_small_traces() {
    let mut random = Random::new(1);
    for (procs, events) in [(2, 5), (3, 4)] {
        each_trace(procs, events, |trace| {
            for step in 0..=trace.events.len() as u64 {
                for set in 1..1 << procs {
                    let orders = step as usize + 1 >= trace.events.len() && random.percent(2);
                    compare(trace, failure(step, set), orders, &mut random);
                }
            }
        });
    }
}

#[test]
fn replays_of_small_traces() {
    let mut random = Random::new(2);
    for round in 0..1_500 {
        let shape = Shape::ALL[round % Shape::ALL.len()];
        let procs = 2 + random.below(3);
        let events = random.below(24);
        let mut trace = shape.trace(procs, events, &mut random);
        trace.lengthen_values(&mut random);
        trace.finish_saves(random_dones(&mut random), &mut random);
        let failure = shape.failure(&trace, &mut random);
        let finished = Slow::new(&trace, failure).finished;
        let lines: u32 = finished.iter().map(|epoch| epoch + 1).product();
        if lines <= 100 {
            compare(&trace, failure, true, &mut random);
        }
    }
}

#[test]
fn steep_traces_are_steep() {
    let mut random = Random::new(3);
    let mut trace = Shape::Steep.trace(2, MAX_EVENTS, &mut random);
    trace.finish_saves(Dones::AT_ONCE, &mut random);
    let mut table = vec![0; AREA_WORDS];
    read(&trace.text(), &mut table).unwrap();
    let restart = restart(&table, failure(MAX_EVENTS as u64, 2)).unwrap();
    assert_eq!(restart.line(), [32, 2]);
    assert!(restart.phases[..2].iter().max() > Some(&200), "{restart:?}");
}
