//! Lengths in the longer forms of request 2026-01.

use second::batch::{Call, Record};
use second::card::{all_kinds, kind_of, length_at, CONFORMS};
use second::generate::{conforming, conforming_of_size, endless_kinds, lengthened, long_row, personal_twin};
use second::generate::{Card, Form, Forms, Inputs, Rng, EXAMPLE_DAY, LONGEST_FORM};
use second::samples::{certificate, P256, RSA};
use second::trees::Tree;
use second::values::CERTIFICATE_LEVELS;
use second::{check, faults, lengths, report, view, write, CONTAINER_MAX};
use std::collections::BTreeSet;

mod common;
use common::{in_fewest_bytes, verdict};

const ROUNDS: usize = 1_000;

// ---------------------------------------------------------------------------------------------
// A length alone

/// The number in one byte, or behind 81 to 84 in so many, if they hold it.
fn spelled(number: u64, bytes: usize) -> Option<Vec<u8>> {
    match bytes {
        0 if number < 256 => Some(vec![number as u8]),
        0 => None,
        _ if number >> (8 * bytes) > 0 => None,
        _ => Some([&[0x80 + bytes as u8], &number.to_be_bytes()[8 - bytes..]].concat()),
    }
}

/// Each number up to 70,000 and around each power of two, in every form that holds it: 0 to 127 are read in one byte only, and all
/// others in no form that is cut short.
#[test]
fn every_form_of_a_number() {
    let edges = (16..32).flat_map(|bit| (1u64 << bit) - 2..=(1 << bit) + 1).chain([u64::from(u32::MAX)]);
    for number in (0..70_000).chain(edges) {
        for bytes in 0..=LONGEST_FORM {
            let length = match spelled(number, bytes) {
                Some(length) if bytes > 0 || number < 128 => length,
                _ => continue,
            };
            let expected = if (bytes == 0) == (number < 128) { Some((number as usize, 1 + bytes)) } else { None };
            assert_eq!(length_at(&length), expected, "{:02X?}", length);
            assert_eq!(length_at(&[&length[..], &[0x81, 0xFF]].concat()), expected, "{:02X?}", length);
            for cut in 0..length.len() {
                assert_eq!(length_at(&length[..cut]), None, "{:02X?}", &length[..cut]);
            }
        }
    }
}

/// All strings of three bytes, and every first byte with others behind it: nothing else is a length.
#[test]
fn no_other_bytes_are_a_length() {
    for first in 0..=255u8 {
        for second in 0..=255u8 {
            for third in 0..=255u8 {
                let (high, low) = (usize::from(second), usize::from(third));
                let expected = match first {
                    0x00..=0x7F => Some((usize::from(first), 1)),
                    0x81 if high > 127 => Some((high, 2)),
                    0x82 if high * 256 + low > 127 => Some((high * 256 + low, 3)),
                    _ => None,
                };
                assert_eq!(length_at(&[first, second, third]), expected);
            }
        }
    }
    for first in [0x80].into_iter().chain(0x85..=0xFF) {
        for behind in [[0x00; 9], [0x7F; 9], [0x80; 9], [0xFF; 9], [0, 0, 0, 0, 0, 0, 0, 0, 200]] {
            assert_eq!(length_at(&[&[first], &behind[..]].concat()), None);
        }
    }
}

// ---------------------------------------------------------------------------------------------
// Containers that conform

/// A card of the kind with a long value, where it can have one.
fn long_card(rng: &mut Rng, kind: u64) -> Card {
    let card = conforming(rng, kind);
    let length = rng.pick(&[127, 128, 200, 255, 256, 300]);
    lengthened(rng, card, length)
}

fn report_of(kind: u64, today: u64, container: &[u8]) -> String {
    let mut room = [0xAA; 512];
    let (number, length) = report(kind, today, container, &mut room);
    assert_eq!(number, 0);
    String::from_utf8(room[..length as usize].to_vec()).unwrap()
}

/// The report without its line `bytes`, and what that line says.
fn without_bytes(report: &str) -> (Vec<&str>, usize) {
    let (bytes, others): (Vec<_>, Vec<_>) = report.lines().partition(|line| line.starts_with("bytes "));
    (others, bytes[0]["bytes ".len()..].parse().unwrap())
}

/// Whatever its forms, a container conforms with the sheet of its values, is viewed where they stand in it, and has the report of
/// its values and its own length. What is written of the sheet has the fewest bytes.
#[test]
fn every_form_conforms() {
    let mut rng = Rng::new(21);
    for kind in all_kinds() {
        let mut longer = 0;
        for _ in 0..ROUNDS {
            let card = long_card(&mut rng, kind);
            let (fewest, container) = (card.container(), card.container_in(&Forms::mixed(&mut rng)));
            longer += usize::from(container != fewest);
            assert_eq!(in_fewest_bytes(&container), fewest);
            assert_eq!(verdict(kind, card.today, &container), CONFORMS);

            let sheet = card.sheet();
            let mut room = vec![0xAA; sheet.len()];
            assert_eq!(check(kind, card.today, &container, &mut room).length, sheet.len() as u64);
            assert_eq!(room, sheet);
            let mut room = vec![0xAA; fewest.len()];
            assert_eq!(write(kind, card.today, &sheet, &mut room), (CONFORMS, fewest.len() as u64));
            assert_eq!(room, fewest);

            let mut behind = 0;
            for (row, value) in kind_of(kind).unwrap().rows.iter().zip(&card.rows) {
                let (_, part) = view(kind, card.today, &container, u64::from(row.tag));
                if let Some(value) = value {
                    let offset = part.as_ptr() as usize - container.as_ptr() as usize;
                    assert!(part == value && offset >= behind + 2);
                    behind = offset + value.len();
                }
            }
            assert_eq!(behind, container.len());

            let (one, other) = (report_of(kind, card.today, &container), report_of(kind, card.today, &fewest));
            assert_eq!(without_bytes(&one).0, without_bytes(&other).0);
            assert_eq!(without_bytes(&one).1, container.len());
        }
        // no DISCOVERY has anything that is so long
        assert!(if kind == 3 { longer == 0 } else { longer > ROUNDS / 5 }, "{} {}", kind, longer);
    }
}

/// Demand 3: with the forms kept, a report does not change with personal bytes.
#[test]
fn reports_hide_personal_bytes() {
    let mut rng = Rng::new(22);
    for kind in all_kinds() {
        for _ in 0..ROUNDS {
            let (card, forms) = (long_card(&mut rng, kind), Forms::mixed(&mut rng));
            let twin = personal_twin(&mut rng, &card);
            let (one, other) = (card.container_in(&forms), twin.container_in(&forms));
            assert_eq!(report_of(kind, card.today, &one), report_of(kind, card.today, &other));
        }
    }
}

/// 4 counts the bytes that are given. The sheet of a container that is too large by its forms can be written.
#[test]
fn limits() {
    let mut rng = Rng::new(23);
    for kind in endless_kinds() {
        for total in [CONTAINER_MAX, CONTAINER_MAX + 1] {
            for _ in 0..20 {
                let forms = Forms::mixed(&mut rng);
                let card = conforming_of_size(&mut rng, kind, total, &forms);
                let container = card.container_in(&forms);
                assert_eq!(container.len(), total);
                let expected = if total > CONTAINER_MAX { (4, 0, None) } else { CONFORMS };
                assert_eq!(verdict(kind, card.today, &container), expected);
                let fewest = card.container();
                let mut room = vec![0xAA; CONTAINER_MAX];
                let written = write(kind, card.today, &card.sheet(), &mut room);
                if fewest.len() > CONTAINER_MAX {
                    assert_eq!(written, ((4, 0, None), 0));
                } else {
                    assert_eq!(written, (CONFORMS, fewest.len() as u64));
                    assert_eq!(room[..fewest.len()], fewest);
                }
            }
        }
    }
}

// ---------------------------------------------------------------------------------------------
// Forms that are refused

/// How many bytes a length takes that has as many zeros in front as it may.
fn head(length: usize) -> usize {
    if length > 127 {
        1 + LONGEST_FORM
    } else {
        1
    }
}

/// The offsets of the elements' tags by row, where each length has as many zeros in front as it may; and of the end.
fn places(card: &Card) -> Vec<usize> {
    let rows = kind_of(card.kind).unwrap().rows;
    let size = |(row, value): (&second::card::Row, &Option<Vec<u8>>)| match value {
        Some(value) => 1 + usize::from(row.tag > 0xFF) + head(value.len()) + value.len(),
        None => 0,
    };
    let sizes: Vec<usize> = rows.iter().zip(&card.rows).map(size).collect();
    let start = 1 + head(sizes.iter().sum());
    (0..=rows.len()).map(|row| start + sizes[..row].iter().sum::<usize>()).collect()
}

/// Every length of a card, in each form that it may not have: one byte for 128 and more, 81 to 84 for less, 80, and 85 to FF.
#[test]
fn no_damaged_form_is_accepted() {
    let mut rng = Rng::new(24);
    let wrong = |length: usize| {
        let mut forms: Vec<Form> = [0x80].into_iter().chain(0x85..=0xFF).map(Form::Raw).collect();
        forms.extend((5..=8).chain(if length > 127 { 0..0 } else { 1..5 }).map(Form::Long));
        forms
    };
    let all = Forms::all(Form::Padded(LONGEST_FORM));
    for kind in all_kinds() {
        for _ in 0..20 {
            let card = long_card(&mut rng, kind);
            let places = places(&card);
            assert_eq!(places[card.rows.len()], card.container_in(&all).len());
            for form in wrong(places[card.rows.len()] - places[0]) {
                let container = card.container_in(&Forms { outer: form, ..all.clone() });
                assert_eq!(verdict(kind, card.today, &container), (11, 0, None), "{:?}", form);
            }
            for (row, value) in card.rows.iter().enumerate() {
                let value = match value {
                    Some(value) => value,
                    None => continue,
                };
                for form in wrong(value.len()) {
                    let mut forms = all.clone();
                    forms.rows[row] = form;
                    let container = card.container_in(&forms);
                    // the outer length may be the first over 127, or the last under 128, by the form inside
                    let outer = 1 + length_at(&container[1..]).unwrap().1;
                    let place = (places[row] - places[0] + outer) as u64;
                    let tag = kind_of(kind).unwrap().rows[row].tag;
                    assert_eq!(verdict(kind, card.today, &container), (11, place, Some(tag)), "{:?}", form);
                }
            }
        }
    }
}

/// An outer length that is one off is 12 in every form, and so is one that no container has.
#[test]
fn wrong_outer_lengths() {
    let mut rng = Rng::new(25);
    for kind in all_kinds().filter(|&kind| kind != 3) {
        // no row of a PRINTED is so long: it is by its texts together, and not always
        let mut cards = std::iter::repeat_with(|| long_card(&mut rng, kind));
        let card = cards.find(|card| card.container().len() > 150).unwrap();
        let container = card.container();
        let start = 1 + length_at(&container[1..]).unwrap().1;
        let (outer, content) = (container[0], &container[start..]);
        assert!(content.len() > 128);
        for bytes in 1..=LONGEST_FORM {
            let right = content.len() as u64;
            for number in [right - 1, right, right + 1, right + 65_536, right + (1 << 24), right + (1 << 31)] {
                if let Some(length) = spelled(number, bytes).filter(|_| number < 1 << 32) {
                    let given = [&[outer], &length[..], content].concat();
                    let expected = if number == right { CONFORMS } else { (12, 0, None) };
                    assert_eq!(verdict(kind, card.today, &given), expected, "{:02X?}", length);
                }
            }
        }
    }
}

/// DER keeps the fewest bytes, whatever the forms around it.
#[test]
fn der_keeps_the_fewest_bytes() {
    for value in [RSA, P256] {
        let tree = Tree::of(value, CERTIFICATE_LEVELS).unwrap();
        for zeros in 0..LONGEST_FORM {
            let forms = Forms::all(Form::Padded(zeros));
            let said = |value: &[u8]| {
                let container = certificate(8, value, 0, None).container_in(&forms);
                (verdict(8, EXAMPLE_DAY, &container), length_at(&container[1..]).unwrap().1)
            };
            assert_eq!(said(value).0, CONFORMS);
            for number in 0..tree.count() {
                for longer in tree.with_longer_length(number) {
                    let (verdict, outer) = said(&longer);
                    assert_eq!(verdict, (24, 1 + outer as u64, Some(0x70)));
                }
            }
        }
    }
}

// ---------------------------------------------------------------------------------------------
// What is asked for

/// The calls on a container that conforms, among those at the front of a batch and as many made ones as a batch has.
fn asked() -> Vec<Record> {
    let mut inputs = Inputs::made(26);
    let all = lengths::records().into_iter().chain((0..150_000).map(|_| inputs.record()));
    let on_container = |record: &Record| matches!(record.call, Call::Check | Call::View | Call::Report);
    let conforms = |record: &Record| check(record.kind, record.today, &record.bytes, &mut []).number == 0;
    all.filter(|record| on_container(record) && conforms(record)).collect()
}

/// How many bytes the length of the kind's long row takes, if it has one.
fn taken_inside(record: &Record) -> Option<usize> {
    let tag = kind_of(record.kind)?.rows[long_row(record.kind)?].tag;
    let (_, part) = view(record.kind, record.today, &record.bytes, u64::from(tag));
    let offset = part.as_ptr() as usize - record.bytes.as_ptr() as usize;
    (1..=5).find(|&taken| length_at(&record.bytes[offset - taken..]) == Some((part.len(), taken)))
}

/// Containers of every kind are made in each form of the outer length and of an element's, for each call, and checked with rooms at
/// the edges. No DISCOVERY that conforms has a length of more than one byte.
#[test]
fn every_form_is_asked_for() {
    let (mut outer, mut inner, mut rooms) = (BTreeSet::new(), BTreeSet::new(), BTreeSet::new());
    for record in asked() {
        outer.insert((record.call, record.kind, record.bytes[1]));
        inner.extend(taken_inside(&record).map(|taken| (record.call, record.kind, taken)));
        if record.call == Call::Check && in_fewest_bytes(&record.bytes) != record.bytes {
            let answer = record.answer();
            let (enough, exact) = (record.room == record.bytes.len() + 6, record.room as u64 == answer.length);
            rooms.insert((record.kind, answer.short, enough, exact));
        }
    }
    for kind in all_kinds().filter(|&kind| kind != 3) {
        for call in [Call::Check, Call::View, Call::Report] {
            for bytes in 1..=LONGEST_FORM {
                assert!(outer.contains(&(call, kind, 0x80 + bytes as u8)), "{:?} {} {}", call, kind, bytes);
                let there = inner.contains(&(call, kind, 1 + bytes));
                assert_eq!(there, long_row(kind).is_some(), "{:?} {} {}", call, kind, bytes);
            }
        }
        for (short, enough, exact) in [(0, true, false), (0, false, true), (3, false, false)] {
            assert!(rooms.contains(&(kind, short, enough, exact)), "{} {} {}", kind, enough, exact);
        }
    }
}

/// Lengths that are cut short after each of their bytes, in which nothing follows.
const CUT: [&[u8]; 11] = [
    &[],
    &[0x81],
    &[0x82],
    &[0x82, 0],
    &[0x83],
    &[0x83, 0],
    &[0x83, 0, 0],
    &[0x84],
    &[0x84, 0],
    &[0x84, 0, 0],
    &[0x84, 0, 0, 0],
];

/// How lengths begin that are in no permitted form.
const FORMED: [&[u8]; 7] =
    [&[0x80], &[0x81, 0x7F], &[0x82, 0, 0x7F], &[0x83, 0, 0, 0x7F], &[0x84, 0, 0, 0, 0x7F], &[0x85], &[0xFF]];

/// How lengths begin that are far too large: with some of them a sum of 16 or of 32 bits would be small.
const FAR: [&[u8]; 5] =
    [&[0x83, 1, 0, 0], &[0x84, 0, 1], &[0x82, 0xFF, 0xFA], &[0x84, 0xFF, 0xFF, 0xFF, 0xFF], &[0x84, 0x80]];

/// Every row of every kind is refused for each of these.
#[test]
fn every_refused_form_is_asked_for() {
    let mut seen = BTreeSet::new();
    for record in faults::records().into_iter().filter(|record| record.call != Call::Write) {
        let (number, place, tag) = verdict(record.kind, record.today, &record.bytes);
        if let (11 | 12, Some(tag)) = (number, tag) {
            let length = &record.bytes[place as usize + 1 + usize::from(tag > 0xFF)..];
            seen.insert((record.kind, tag, number, length[..length.len().min(5)].to_vec()));
        }
    }
    for kind in all_kinds() {
        for row in kind_of(kind).unwrap().rows {
            let said = |number| {
                let here = seen.iter().filter(move |told| (told.0, told.1, told.2) == (kind, row.tag, number));
                here.map(|told| &told.3[..]).collect::<Vec<_>>()
            };
            let begun = |number, with: &[u8]| said(number).iter().any(|length| length.starts_with(with));
            assert!(CUT.iter().all(|cut| said(11).contains(cut)), "{} {:X}", kind, row.tag);
            assert!(FORMED.iter().all(|formed| begun(11, formed)), "{} {:X}", kind, row.tag);
            assert!(FAR.iter().all(|far| begun(12, far)), "{} {:X}", kind, row.tag);
        }
    }
}
