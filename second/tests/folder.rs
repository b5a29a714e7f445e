//! The order's folder: its summary by a reader of another make, rows and states one at a time, and what a summary does not depend on.
//! And that the made calls ask for all of it.

use second::batch::{pieces, Answer, Call, Record, ANY_SIZES, PIECES};
use second::card::{all_kinds, CONFORMS};
use second::folder::{entries, over};
use second::folders::{self, broken, folder_of, holding, Contained, FASCN_KINDS};
use second::generate::{conforming_on, personal_twin, sweep, Card, Inputs, Rng, EXAMPLE_DAY, EXAMPLE_FASCN};
use second::pairs::with_any_other_digit;
use second::samples::{self, with_fascn};
use second::{faults, folder, last, named, number, row, view, Seen, Verdict};
use std::collections::BTreeSet;

mod common;
use common::{verdict, Fields};

/// How many folders are made.
const ROUNDS: usize = 2_000;

// ---------------------------------------------------------------------------------------------
// A reader of another make: it spells the whole list first, and compares FASC-N as a set

/// A kind, an offset and a container.
type Spelled<'a> = (u64, usize, &'a [u8]);

fn spelled(bytes: &[u8]) -> Option<Vec<Spelled<'_>>> {
    let mut fields = Fields(bytes);
    let count = fields.number(2).filter(|&count| count <= 256)?;
    let mut out = Vec::new();
    for _ in 0..count {
        let (kind, size) = (fields.number(1)?, fields.number(4)?);
        out.push((kind, bytes.len() - fields.0.len(), fields.bytes(size)?));
    }
    fields.0.is_empty().then_some(out)
}

/// A check of a kind that is none says 1.
fn verdict_on(kind: u64, today: u64, container: &[u8]) -> Verdict {
    if (1..=12).contains(&kind) {
        verdict(kind, today, container)
    } else {
        (1, 0, None)
    }
}

fn line_of(today: u64, &(kind, offset, container): &Spelled) -> String {
    let (number, place, tag) = verdict_on(kind, today, container);
    let tag = tag.map_or("--".to_string(), |tag| format!("{:02X}", tag));
    format!("{} {} {} {} {} {}\n", kind, offset, container.len(), number, place, tag)
}

fn fascn_of<'a>(today: u64, &(kind, _, container): &Spelled<'a>) -> Option<&'a [u8]> {
    match kind {
        2 => Some(view(2, today, container, 0x30).1),
        6 | 7 | 12 => Some(&view(kind, today, container, 0xBC).1[59..84]),
        _ => None,
    }
}

fn summary_by_reading(today: u64, bytes: &[u8]) -> Result<Vec<u8>, u64> {
    if !second::values::is_date(today) {
        return Err(2);
    }
    let all = spelled(bytes).ok_or(32u64)?;
    let good: Vec<_> = all.iter().filter(|&&(kind, _, bytes)| verdict_on(kind, today, bytes) == CONFORMS).collect();
    let fascns: BTreeSet<_> = good.iter().filter_map(|spelled| fascn_of(today, spelled)).collect();
    let rows: String = all.iter().map(|spelled| line_of(today, spelled)).collect();
    let agree = if fascns.len() > 1 { "no" } else { "yes" };
    Ok(format!("{}good {}\nagree {}\n", rows, good.len(), agree).into_bytes())
}

/// Both give the same.
fn agreed(today: u64, bytes: &[u8]) -> Result<Vec<u8>, u64> {
    let told = folder(today, bytes);
    assert_eq!(told, summary_by_reading(today, bytes));
    assert_eq!(over(bytes, |_| ()), spelled(bytes).is_some());
    told
}

/// A row with a room of this size that held something: the answer, the room, and what was seen.
fn row_into(record: &Record, room: usize) -> (u64, Vec<u8>, Seen) {
    let Record { today, kind, offset, size, ref bytes, mut seen, .. } = *record;
    let mut left = vec![0xAA; room];
    let (number, length) = row(today, kind as u8, offset, size, bytes, &mut seen, &mut left);
    let behind = left.split_off(length as usize);
    assert!(behind.iter().all(|&byte| byte == 0) && (number == 0) == (length > 0));
    (number, left, seen)
}

/// What a row answers, by what check says of the container and by the words of the request.
fn assert_row(record: &Record) {
    let Record { today, kind, offset, size, ref bytes, seen, room, .. } = *record;
    let long = size > 32_768;
    let refusal = match (second::values::is_date(today), room < 64, !long && size != bytes.len() as u64) {
        (false, _, _) => 2,
        (_, true, _) => 3,
        (_, _, true) => 32,
        _ => 0,
    };
    let (number, line, left) = row_into(record, room);
    assert_eq!(number, refusal);
    if number != 0 {
        assert_eq!((left, line.len()), (seen, 0));
        return;
    }
    let known = all_kinds().contains(&kind);
    let told = if known && long { (4, 0, None) } else { verdict_on(kind, today, bytes) };
    let tag = told.2.map_or("--".to_string(), |tag| format!("{:02X}", tag));
    let expected = format!("{} {} {} {} {} {}\n", kind, offset, size, told.0, told.1, tag);
    assert_eq!((&line[..], line.len() <= 53), (expected.as_bytes(), true));
    let mut after = seen;
    if told == CONFORMS {
        after.good = seen.good.max(seen.good.wrapping_add(1));
        match (fascn_of(today, &(kind, 0, bytes)), seen.agreement) {
            (Some(fascn), 0) => after = Seen { agreement: 1, fascn: fascn.try_into().unwrap(), ..after },
            (Some(fascn), 1) => after.agreement = if fascn == seen.fascn { 1 } else { 2 },
            _ => (),
        }
    }
    assert_eq!(left, after);
}

// ---------------------------------------------------------------------------------------------
// Fixed answers

#[test]
fn the_number() {
    assert_eq!((number::FOLDER, number::LAST, number::LAST_OF_CHECK), (32, 32, 27));
}

#[test]
fn no_containers() {
    assert_eq!(agreed(EXAMPLE_DAY, &[0, 0]), Ok(b"good 0\nagree yes\n".to_vec()));
    assert_eq!(agreed(EXAMPLE_DAY, &[]), Err(32));
    assert_eq!(agreed(0, &[]), Err(2));
}

/// Each sample gets a row, and those that conform are of one card.
#[test]
fn the_samples() {
    let samples = samples::all();
    let contained: Vec<Contained> =
        samples.iter().map(|sample| (sample.kind as u8, sample.container.clone())).collect();
    let text = String::from_utf8(agreed(EXAMPLE_DAY, &folder_of(&contained)).unwrap()).unwrap();
    let good = samples.iter().filter(|sample| !sample.name.ends_with("-broken")).count();
    assert!(text.ends_with(&format!("good {}\nagree yes\n", good)));
    for (line, sample) in text.lines().zip(&samples) {
        // the same words as the report has
        let report = String::from_utf8(sample.report()).unwrap();
        let told = report.lines().find_map(|line| line.strip_prefix("verdict ")).unwrap();
        assert!(line.starts_with(&format!("{} ", sample.kind)) && line.ends_with(&format!(" {}", told)), "{}", line);
    }
}

/// Every folder that is cut off or has bytes left over is refused, and each count but the right one.
#[test]
fn every_end_and_count() {
    let whole = folders::small_folder();
    for end in 0..whole.len() {
        assert_eq!(agreed(EXAMPLE_DAY, &whole[..end]), Err(32), "{}", end);
    }
    for more in 1..300 {
        assert_eq!(agreed(EXAMPLE_DAY, &[&whole[..], &vec![0; more]].concat()), Err(32), "{}", more);
    }
    for count in 0..=u16::MAX {
        let other = [&count.to_be_bytes(), &whole[2..]].concat();
        assert_eq!(agreed(EXAMPLE_DAY, &other).is_ok(), count == 3, "{}", count);
        // of empty containers, as many as it says
        if count < 600 {
            let empty = folder_of(&vec![(2, Vec::new()); count.into()]);
            assert_eq!(agreed(EXAMPLE_DAY, &empty).is_ok(), count <= 256, "{}", count);
        }
    }
    assert!(faults::folders().iter().filter(|bytes| agreed(EXAMPLE_DAY, bytes) == Err(32)).count() > 300);
}

#[test]
fn last_lines() {
    for (good, digits) in [(0, "0"), (7, "7"), (256, "256"), (u64::MAX, "18446744073709551615")] {
        for (agreement, agree) in [(0, "yes"), (1, "yes"), (2, "no"), (7, "no"), (1 << 32, "no"), (u64::MAX, "no")] {
            for size in 0..200 {
                let mut room = vec![0xAA; size];
                let (number, length) = last(good, agreement, &mut room);
                let mut expected = format!("good {}\nagree {}\n", digits, agree).into_bytes();
                assert_eq!((number, length as usize), if size < 64 { (3, 0) } else { (0, expected.len()) });
                expected.truncate(length as usize);
                expected.resize(size, 0);
                assert_eq!(room, expected);
            }
        }
    }
}

// ---------------------------------------------------------------------------------------------
// Properties over made folders

/// Containers that conform, with two FASC-N at the most, and some that are broken.
fn made_cards(rng: &mut Rng, today: u64) -> Vec<Card> {
    let other = with_any_other_digit(rng, &EXAMPLE_FASCN);
    let all = rng.size(0, 5);
    (0..all)
        .map(|_| {
            let kind = if rng.one_in(2) { rng.pick(&FASCN_KINDS) } else { 1 + rng.below(12) };
            let card = conforming_on(rng, kind, today);
            match FASCN_KINDS.contains(&kind) {
                true => with_fascn(card, if rng.one_in(4) { &other } else { &EXAMPLE_FASCN }),
                false => card,
            }
        })
        .collect()
}

fn contained(cards: &[Card], refused: &[bool]) -> Vec<Contained> {
    let of = |card: &Card| (card.kind as u8, card.container());
    cards.iter().zip(refused).map(|(card, &refused)| if refused { broken(of(card)) } else { of(card) }).collect()
}

fn last_two(text: &[u8]) -> Vec<u8> {
    let lines: Vec<_> = text.split_inclusive(|&byte| byte == b'\n').collect();
    lines[lines.len() - 2..].concat()
}

/// Demand 3 for a folder: personal values that are replaced, so that the rules are met and the agreement line stays, leave the whole
/// summary as it was. Refused containers are as they were.
#[test]
fn summaries_hide_personal_values() {
    let mut rng = Rng::new(30);
    let mut seen = BTreeSet::new();
    for _ in 0..ROUNDS {
        let cards = made_cards(&mut rng, EXAMPLE_DAY);
        let refused: Vec<bool> = cards.iter().map(|_| rng.one_in(4)).collect();
        let fascn = with_any_other_digit(&mut rng, &EXAMPLE_FASCN);
        let fascns = [fascn.clone(), with_any_other_digit(&mut rng, &fascn)];
        let mut twins = cards.clone();
        for (card, _) in twins.iter_mut().zip(&refused).filter(|(_, &refused)| !refused) {
            *card = twin_of(&mut rng, card, &fascns);
        }
        let (one, other) = (folder_of(&contained(&cards, &refused)), folder_of(&contained(&twins, &refused)));
        let text = agreed(EXAMPLE_DAY, &one);
        assert_eq!(text, agreed(EXAMPLE_DAY, &other));
        seen.insert((one == other, last_two(&text.unwrap()).ends_with(b"no\n")));
    }
    assert!(seen.contains(&(false, true)) && seen.contains(&(false, false)));
}

/// The card with other personal values, and with the first of these FASC-N for the example's and the second for another.
fn twin_of(rng: &mut Rng, card: &Card, fascns: &[Vec<u8>; 2]) -> Card {
    let (twin, container) = (personal_twin(rng, card), card.container());
    match fascn_of(card.today, &(card.kind, 0, &container)) {
        Some(fascn) => with_fascn(twin, &fascns[usize::from(fascn != EXAMPLE_FASCN)]),
        None => twin,
    }
}

/// The last lines do not depend on the order of the containers, and a row does not depend on the others but for its offset.
#[test]
fn orders_of_containers() {
    let mut rng = Rng::new(31);
    for _ in 0..ROUNDS {
        let cards = made_cards(&mut rng, EXAMPLE_DAY);
        let refused: Vec<bool> = cards.iter().map(|_| rng.one_in(4)).collect();
        let mut all = contained(&cards, &refused);
        let text = agreed(EXAMPLE_DAY, &folder_of(&all)).unwrap();
        all.reverse();
        let turned = agreed(EXAMPLE_DAY, &folder_of(&all)).unwrap();
        assert_eq!(last_two(&text), last_two(&turned));
        let words = |text: &[u8]| -> BTreeSet<String> {
            let text = String::from_utf8(text.to_vec()).unwrap();
            let without_offset = |line: &str| {
                let words: Vec<_> = line.split(' ').collect();
                [&words[..1], &words[words.len().min(2)..]].concat().join(" ")
            };
            text.lines().map(without_offset).collect()
        };
        assert_eq!(words(&text), words(&turned));
    }
}

/// A row is the same whatever was seen before, and however large its room is.
#[test]
fn rows_alone() {
    let mut inputs = Inputs::made(32);
    let any = Seen { good: 77, agreement: 5, fascn: [0xFF; 25] };
    for record in (0..100_000).map(|_| inputs.record()).filter(|record| record.call == Call::Row) {
        let (number, line, _) = row_into(&record, 64);
        for room in [64, 65, 300] {
            for seen in [Seen::default(), any] {
                let (again, same, _) = row_into(&Record { seen, ..record.clone() }, room);
                assert_eq!((again, same), (number, line.clone()));
            }
        }
        let (small, nothing, left) = row_into(&record, 63);
        assert_eq!((small, nothing.len(), left), (if number == 2 { 2 } else { 3 }, 0, record.seen));
    }
}

/// Pieces of each sort are the folder, none is larger than there may be, and of any sizes some are empty and some are long.
#[test]
fn pieces_of_folders() {
    let mut sizes = BTreeSet::new();
    for length in [0, 1, 2, 7, 300, 65_535, 65_536, 65_537, 200_000] {
        let bytes: Vec<u8> = (0..length).map(|at| (at % 251) as u8).collect();
        for size in PIECES {
            let pieces = pieces(&bytes, size);
            assert_eq!(pieces.concat(), bytes);
            assert!(pieces.iter().all(|piece| piece.len() <= if size == ANY_SIZES { 60_000 } else { size }));
            sizes.extend(pieces.iter().map(|piece| (size, piece.len().min(3_000))));
        }
    }
    assert!([0, 1, 3_000].into_iter().all(|length| sizes.contains(&(ANY_SIZES, length))));
}

// ---------------------------------------------------------------------------------------------
// The named and the made calls

/// What the calls ask for: the numbers of each, the verdicts in rows, how the agreement moves, and the last lines of folders.
#[derive(Default)]
struct Asked {
    calls: usize,
    numbers: BTreeSet<(Call, u64)>,
    verdicts: BTreeSet<u64>,
    agreements: BTreeSet<(u64, u64)>,
    ends: BTreeSet<Vec<u8>>,
    rooms: BTreeSet<usize>,
}

impl Asked {
    fn ask(&mut self, record: &Record) {
        if !matches!(record.call, Call::Folder | Call::Row | Call::Last) {
            return;
        }
        self.calls += 1;
        let answer: Answer = record.answer();
        self.numbers.insert((record.call, answer.number));
        match record.call {
            Call::Folder => match agreed(record.today, &record.bytes) {
                Ok(text) => {
                    self.ends.insert(text[text.len() - 4..].to_vec());
                    assert_eq!((answer.number, answer.text), (0, text));
                }
                Err(number) => assert_eq!((answer.number, answer.text.len()), (number, 0)),
            },
            Call::Row => {
                assert_row(record);
                self.rooms.insert(record.room);
                let line = String::from_utf8(answer.room[..answer.length as usize].to_vec()).unwrap();
                if let Some(word) = line.split(' ').nth(3) {
                    self.verdicts.insert(word.parse().unwrap());
                    if FASCN_KINDS.contains(&record.kind) && word == "0" {
                        self.agreements.insert((record.seen.agreement.min(3), answer.seen.agreement.min(3)));
                    }
                }
            }
            _ => (),
        }
    }

    fn assert_all(&self) {
        let numbers = [(Call::Folder, &[0, 2, 32][..]), (Call::Row, &[0, 2, 3, 32]), (Call::Last, &[0, 3])];
        let each = |(call, numbers): (Call, &'static [u64])| numbers.iter().map(move |&number| (call, number));
        assert_eq!(self.numbers, numbers.into_iter().flat_map(each).collect());
        assert!(self.verdicts.iter().copied().eq([0, 1, 4].into_iter().chain(10..=27)), "{:?}", self.verdicts);
        assert!(self.agreements.iter().eq(&[(0, 1), (1, 1), (1, 2), (2, 2), (3, 3)]), "{:?}", self.agreements);
        assert!(self.ends.iter().eq(&[b" no\n".to_vec(), b"yes\n".to_vec()]));
        assert!([0, 63, 64, 65].iter().all(|room| self.rooms.contains(room)));
    }
}

#[test]
fn named_calls_ask_for_all() {
    let mut asked = Asked::default();
    named::all().into_iter().flat_map(|(_, cases)| cases).for_each(|(record, _)| asked.ask(&record));
    asked.assert_all();
}

#[test]
fn calls_at_an_edge_ask_for_all() {
    let mut asked = Asked::default();
    folders::records().iter().for_each(|record| asked.ask(record));
    asked.assert_all();
}

#[test]
fn made_calls_ask_for_all() {
    let (mut asked, mut inputs) = (Asked::default(), Inputs::made(33));
    (0..150_000).for_each(|_| asked.ask(&inputs.record()));
    assert!(asked.calls > 10_000, "{}", asked.calls);
    asked.assert_all();
}

/// Every byte of a small folder and of two rows, with each other value.
#[test]
fn every_byte() {
    let mut asked = Asked::default();
    sweep(|record| asked.ask(record));
    let bytes: usize = folders::small_records().iter().map(|record| record.bytes.len()).sum();
    assert_eq!(asked.calls, 256 * bytes);
    assert!(asked.numbers.contains(&(Call::Folder, 32)) && asked.ends.len() == 2);
    // another good FASC-N
    assert!(asked.agreements.contains(&(1, 2)));
}

/// The smallest containers conform, as long as their last byte is right.
#[test]
fn small_containers() {
    for kind in FASCN_KINDS {
        let (_, container) = holding(kind, &EXAMPLE_FASCN);
        assert_eq!(verdict(kind, EXAMPLE_DAY, &container), CONFORMS);
        assert_eq!(verdict(kind, EXAMPLE_DAY, &broken((kind as u8, container)).1).0, 12);
    }
    assert_eq!(entries(&folders::small_folder()).map(|all| all.len()), Some(3));
}
