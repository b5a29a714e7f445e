//! The longest reports: by the kinds' tables, by the named calls and by the made ones. And that no call answers 8 or 9.

use second::batch::{Answer, Call, Record, Tally};
use second::card::{all_kinds, kind_of, CONFORMS};
use second::generate::{Inputs, EXAMPLE_DAY, EXAMPLE_FASCN};
use second::report::{LONGEST, LONGEST_REFUSED};
use second::samples::{card, UUID};
use second::{desk, faults, longest, named, number, report, CONTAINER_MAX, REPORT_MAX};
use std::collections::BTreeSet;

mod common;
use common::verdict;

fn digits(number: usize) -> usize {
    number.to_string().len()
}

/// The open lines of a kind's report, with any digits: they have one length.
fn open_lines(kind: u64) -> &'static str {
    match kind {
        1 => "model 10\n",
        2 => "agency 0000\nsystem 0000\nexpires 00000000\n",
        3 => "policy 0000\n",
        4 => "issuer 123456789012345\n",
        6 | 7 | 12 => "agency 0000\nsystem 0000\n",
        _ => "",
    }
}

/// The most bytes that the elements of a conforming container can have, each length in five bytes where it is over 127.
fn most_content(kind: u64) -> usize {
    let element = |tag: u16, length: usize| digits_of_tag(tag) / 2 + if length > 127 { 5 } else { 1 } + length;
    let rows = kind_of(kind).unwrap().rows;
    rows.iter().map(|row| element(row.tag, row.longest.min(CONTAINER_MAX))).sum()
}

fn digits_of_tag(tag: u16) -> usize {
    if tag > 0xFF {
        4
    } else {
        2
    }
}

/// The figures, worked out once more by the tables: every row, with the most digits.
#[test]
fn figures_by_the_tables() {
    for kind in all_kinds() {
        let table = kind_of(kind).unwrap();
        let line = |tag, length: usize| digits_of_tag(tag) + 1 + digits(length.min(CONTAINER_MAX)) + 1;
        let lines: usize = table.rows.iter().map(|row| line(row.tag, row.longest)).sum();
        let bytes = digits((most_content(kind) + 6).min(CONTAINER_MAX));
        let words = "CARD 4\nkind \nbytes \ntoday 20260301\nverdict 0 0 --\nELEMENTS \nOPEN 0\n".len();
        let all = words + table.name.len() + bytes + digits(table.rows.len()) + lines + open_lines(kind).len();
        assert_eq!(LONGEST[kind as usize - 1], all, "{}", table.name);
    }
}

/// Those of the refused ones: five digits of bytes, and the place at which all elements that there can be have ended.
#[test]
fn figures_of_refused_ones_by_the_tables() {
    for kind in all_kinds() {
        let table = kind_of(kind).unwrap();
        let place = digits((most_content(kind) + 6).min(CONTAINER_MAX));
        let tag = table.rows.iter().map(|row| digits_of_tag(row.tag)).max().unwrap();
        let words = "CARD 4\nkind \nbytes 32768\ntoday 20260301\nverdict 10  \nELEMENTS 0\nOPEN 0\n".len();
        assert_eq!(LONGEST_REFUSED[kind as usize - 1], words + table.name.len() + place + tag, "{}", table.name);
    }
}

/// The room that a report asks for holds the longest of all, and no refused container has the longest of its kind.
#[test]
fn figures_fit() {
    assert_eq!(LONGEST, [165, 171, 104, 148, 99, 118, 115, 105, 104, 105, 106, 115]);
    assert_eq!(LONGEST_REFUSED, [79, 83, 86, 83, 85, 85, 82, 85, 84, 85, 86, 82]);
    assert_eq!((LONGEST.iter().max(), LONGEST_REFUSED.iter().max()), (Some(&171), Some(&86)));
    assert!(LONGEST.iter().all(|&length| length <= REPORT_MAX) && REPORT_MAX == 512);
    assert!(LONGEST.iter().zip(&LONGEST_REFUSED).all(|(longest, refused)| refused < longest));
}

/// How long a kind's longest reports were: on containers that conform, and on others.
#[derive(Default)]
struct Reached([[usize; 2]; 12]);

impl Reached {
    /// Takes a report's answer. None is longer than the figure, and all behind it are zeros.
    fn take(&mut self, record: &Record, answer: &Answer) {
        let length = answer.length as usize;
        let conforms = verdict(record.kind, record.today, &record.bytes) == CONFORMS;
        let figures = if conforms { &LONGEST } else { &LONGEST_REFUSED };
        let kind = record.kind as usize - 1;
        assert!(0 < length && length <= figures[kind], "{} bytes: {:?}", length, record);
        assert!(answer.room[length..].iter().all(|&byte| byte == 0) && answer.room[length - 1] == b'\n');
        let slot = &mut self.0[kind][usize::from(!conforms)];
        *slot = length.max(*slot);
    }

    /// The report on whatever a record has, if there is one.
    fn report_on(&mut self, record: &Record) {
        let reported = Record { call: Call::Report, room: REPORT_MAX, fill: 0xAA, ..record.clone() };
        let answer = reported.answer();
        if answer.number == number::DONE {
            self.take(&reported, &answer);
        }
    }

    fn conforming(&self) -> Vec<usize> {
        self.0.iter().map(|both| both[0]).collect()
    }

    fn refused(&self) -> Vec<usize> {
        self.0.iter().map(|both| both[1]).collect()
    }
}

/// A named container of each kind reaches both figures, with the whole text given.
#[test]
fn named_ones_reach_them() {
    let mut reached = Reached::default();
    for (record, answer) in named::all().into_iter().flat_map(|(_, cases)| cases) {
        if record.call == Call::Report && answer.number == number::DONE {
            reached.take(&record, &answer);
        }
    }
    assert_eq!(reached.conforming(), LONGEST);
    assert_eq!(reached.refused(), LONGEST_REFUSED);
}

/// So do those at an edge that are made in every run.
#[test]
fn those_at_an_edge_reach_them() {
    let mut reached = Reached::default();
    for record in longest::records() {
        reached.report_on(&record);
    }
    assert_eq!(reached.conforming(), LONGEST);
    assert_eq!(reached.refused(), LONGEST_REFUSED);
}

/// No container of any call that is made has a longer report. Of each kind one reaches the figure, and not only at the front of
/// a batch.
#[test]
fn made_ones_are_no_longer() {
    let mut reached = Reached::default();
    let mut inputs = Inputs::made(12);
    for _ in 0..150_000 {
        reached.report_on(&inputs.record());
    }
    assert_eq!(reached.conforming(), LONGEST);
    for record in faults::records() {
        reached.report_on(&record);
    }
    assert!(reached.refused().iter().all(|&length| length > 0));
}

/// Rooms at the edge are made for reports that are as long as any and for shorter ones, by a byte and by more.
#[test]
fn rooms_of_long_reports() {
    let mut inputs = Inputs::made(13);
    let mut seen = BTreeSet::new();
    // the rarest of them is made twice in 150,000 calls
    for record in (0..600_000).map(|_| inputs.record()).filter(|record| record.call == Call::Report) {
        let answer = Record { room: REPORT_MAX, ..record.clone() }.answer();
        if answer.number == number::DONE {
            let short_by = LONGEST[record.kind as usize - 1] - answer.length as usize;
            seen.insert((record.kind, record.room, short_by.min(2)));
        }
    }
    for kind in all_kinds() {
        for room in [511, 512, 513] {
            // DISCOVERY has one length of a report, and on what is refused a much shorter one
            for short_by in [0, 1, 2].into_iter().filter(|&short_by| kind != 3 || short_by != 1) {
                assert!(seen.contains(&(kind, room, short_by)), "{} {} {}", kind, room, short_by);
            }
        }
    }
}

/// Every length of 3E around those at which the number of digits changes, and the last ones: the report grows with the digits.
#[test]
fn lengths_of_a_signature() {
    let mut before = 0;
    for bytes in (0..1_200).chain(9_800..10_200).chain(32_600..32_665) {
        let signature = vec![7; bytes];
        let values: [&[u8]; 9] =
            [&[1, 2], &EXAMPLE_FASCN, &[3; 4], &[4; 9], &UUID, b"20300131", &UUID, &signature, &[]];
        let container = card(2, &values.map(Some)).container();
        let mut room = [0xAA; 512];
        let (number, length) = report(2, EXAMPLE_DAY, &container, &mut room);
        let expected = 171 - (5 - digits(bytes)) - (5 - digits(container.len()));
        assert_eq!((number, length as usize), (0, expected), "{}", bytes);
        assert!(expected >= before);
        before = expected;
    }
    assert_eq!(before, 171);
}

/// 8 is withdrawn and 9 was never given: no call answers one of them, nor anything behind the last number.
#[test]
fn no_8_and_no_9() {
    assert_eq!(number::UNUSED, [8, 9]);
    let mut tally = Tally::default();
    for (record, answer) in named::all().into_iter().flat_map(|(_, cases)| cases) {
        tally.count(record.call, &answer);
        tally.count(record.call, &record.answer());
    }
    let mut inputs = Inputs::new(14);
    for record in (0..200_000).map(|_| inputs.record()) {
        tally.count(record.call, &record.answer());
    }
    assert_eq!((tally.never(), tally.strange()), (vec![], vec![]));
}

/// A tally tells both of them, and a number behind the last.
#[test]
fn strange_numbers_are_told() {
    for strange in [8, 9, number::LAST + 1, u64::MAX] {
        let mut tally = Tally::default();
        tally.count(Call::Report, &Answer { number: strange, ..Answer::default() });
        assert_eq!(tally.strange(), [strange]);
        let mut tally = Tally::default();
        tally.count(Call::Check, &Answer { short: strange, ..Answer::default() });
        assert_eq!(tally.strange(), [strange]);
    }
    let mut tally = Tally::default();
    for number in (0..=7).chain(10..=32) {
        tally.count(Call::Report, &Answer { number, ..Answer::default() });
    }
    assert_eq!((tally.never(), tally.strange()), (vec![], vec![]));
}

/// The desk program prints the longest whole, and its refusals are 1, 2 and 4.
#[test]
fn the_desk_prints_them() {
    let mut printed = BTreeSet::new();
    for record in longest::records() {
        let head = format!("{:02}{:08}", record.kind, record.today);
        let text = desk(&[head.as_bytes(), &record.bytes].concat());
        if text.starts_with(b"refused ") {
            assert_eq!(text, b"refused 4\n");
            assert!(record.bytes.len() > CONTAINER_MAX);
        } else {
            let mut room = [0xAA; 512];
            let (number, length) = report(record.kind, record.today, &record.bytes, &mut room);
            assert_eq!((number, &room[..length as usize]), (0, &text[..]));
            printed.insert((record.kind, text.len()));
        }
    }
    for kind in all_kinds() {
        assert!(printed.contains(&(kind, LONGEST[kind as usize - 1])), "{}", kind);
    }
}
