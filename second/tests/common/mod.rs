//! What several tests use.
#![allow(dead_code)]

use second::batch::{Call, Record};
use second::card::{kind_of, length_at, CONFORMS};
use second::generate::{conforming, personal_twin, value_of, Card, Inputs, Rng, EXAMPLE_DAY};
use second::records::{saying_length, with_bytes};
use second::samples::{self, wrong_fascn};
use second::{check, report, view, write, Checked, Verdict};
use std::collections::BTreeSet;

/// How many cards or records of a sort are made.
pub const ROUNDS: usize = 20_000;

/// The verdict on a container, asked for with an empty room: beside a 0 there is the 3.
pub fn verdict(kind: u64, today: u64, container: &[u8]) -> Verdict {
    let Checked { number, place, tag, room, length } = check(kind, today, container, &mut []);
    assert_eq!((room, length), (if number == 0 { 3 } else { 0 }, 0));
    (number, place, tag)
}

/// What each call answers on a card of which one row, of the element with this tag, gets this number. So many bytes stand before the
/// element behind the outer length, and as many before the row's count in the sheet. Handed out are the element's place and the report.
pub fn each_call(card: &Card, row: usize, tag: u16, ahead: u64, number: u64) -> (u64, String) {
    let (container, sheet) = (card.container(), card.sheet());
    let place = 1 + length_at(&container[1..]).unwrap().1 as u64 + ahead;
    let told = |place| if number == 0 { CONFORMS } else { (number, place, Some(tag)) };
    let of = |bytes: &[u8]| if number == 0 { bytes.to_vec() } else { Vec::new() };
    let in_room = |bytes: &[u8]| if number == 0 { bytes.to_vec() } else { vec![0; bytes.len()] };

    let mut room = vec![0xAA; sheet.len()];
    let answer = check(card.kind, EXAMPLE_DAY, &container, &mut room);
    assert_eq!((answer.number, answer.place, answer.tag), told(place), "{:?}", card.rows[row]);
    assert_eq!((answer.room, answer.length as usize, room), (0, of(&sheet).len(), in_room(&sheet)));

    let (viewed, part) = view(card.kind, EXAMPLE_DAY, &container, tag.into());
    assert_eq!((viewed, part), (told(place), &of(card.rows[row].as_ref().unwrap())[..]));

    let mut room = vec![0xAA; container.len()];
    let (written, length) = write(card.kind, EXAMPLE_DAY, &sheet, &mut room);
    assert_eq!((written, length as usize, room), (told(ahead), of(&container).len(), in_room(&container)));

    let (room, length) = report_on(card);
    (place, String::from_utf8(room[..length].to_vec()).unwrap())
}

/// The room with the report on a card, and the report's length.
fn report_on(card: &Card) -> ([u8; 512], usize) {
    let mut room = [0xAA; 512];
    let (number, length) = report(card.kind, EXAMPLE_DAY, &card.container(), &mut room);
    assert_eq!(number, 0);
    (room, length as usize)
}

/// The fields of a facial or an iris record, which a reader of another make takes off the front one after the other.
pub struct Fields<'a>(pub &'a [u8]);

impl<'a> Fields<'a> {
    pub fn bytes(&mut self, count: u64) -> Option<&'a [u8]> {
        if count > self.0.len() as u64 {
            return None;
        }
        let (front, rest) = self.0.split_at(count as usize);
        self.0 = rest;
        Some(front)
    }

    pub fn number(&mut self, bytes: u64) -> Option<u64> {
        Some(self.bytes(bytes)?.iter().fold(0, |number, &byte| number * 256 + u64::from(byte)))
    }

    pub fn one_of(&mut self, bytes: u64, good: &[u64]) -> Option<()> {
        good.contains(&self.number(bytes)?).then_some(())
    }
}

/// The number of two bytes at this offset.
pub fn two_bytes(bytes: &[u8], at: usize) -> usize {
    usize::from(bytes[at]) * 256 + usize::from(bytes[at + 1])
}

/// The record of a card with a biometric.
fn record_in(card: &Card) -> &[u8] {
    let value = card.rows[0].as_ref().unwrap();
    &value[88..value.len() - two_bytes(value, 6)]
}

/// A JPEG 2000 file has this width and this height. Handed out is what it says behind them.
pub fn picture_of(file: &[u8], width: u16, height: u16) -> &[u8] {
    assert_eq!(file[..12], [0, 0, 0, 12, b'j', b'P', b' ', b' ', 0x0D, 0x0A, 0x87, 0x0A]);
    let at = file.windows(4).position(|four| four == b"ihdr").unwrap() + 4;
    assert_eq!(file[at..at + 8], [u32::from(height).to_be_bytes(), u32::from(width).to_be_bytes()].concat());
    &file[at + 8..]
}

/// How many parts a good record has, and two counts of the first part.
pub type Counts = (usize, usize, usize);

/// A kind of container with a biometric of which the record is examined.
pub struct Biometric {
    pub kind: u64,
    pub name: &'static str,
    /// The number of data that are no record.
    pub broken: u64,
    /// The card with this quality, this record and so many bytes of signature.
    pub card: fn(u8, &[u8], usize) -> Card,
    /// The smallest record.
    pub least: fn() -> Vec<u8>,
    /// Whether data are a record, by a reader of another make.
    pub is_record: fn(&[u8]) -> bool,
}

impl Biometric {
    fn with(&self, record: &[u8]) -> Card {
        (self.card)(100, record, 1)
    }

    fn verdict(&self, card: &Card) -> Verdict {
        verdict(self.kind, EXAMPLE_DAY, &card.container())
    }

    pub fn number_of(&self, record: &[u8]) -> u64 {
        self.verdict(&self.with(record)).0
    }

    /// 0 for a record, or the number of what is none.
    pub fn expected(&self, good: bool) -> u64 {
        if good {
            0
        } else {
            self.broken
        }
    }

    /// The number by the reader of another make.
    fn judged_by_reading(&self, record: &[u8]) -> u64 {
        self.expected((self.is_record)(record))
    }

    /// The number of a record on which both readers agree.
    fn agreed(&self, record: &[u8]) -> u64 {
        let number = self.number_of(record);
        assert_eq!(number, self.judged_by_reading(record), "{:02X?}", record);
        number
    }

    /// Of the two samples one conforms, and the record of the other is broken.
    pub fn samples(&self) {
        let (samples, name) = (samples::all(), self.name.to_lowercase());
        let on = |name: &str| {
            let sample = samples.iter().find(|sample| sample.name == name).unwrap();
            verdict(self.kind, EXAMPLE_DAY, &sample.container)
        };
        assert_eq!(on(&name), CONFORMS);
        assert_eq!(on(&(name + "-broken")), (self.broken, 4, Some(0xBC)));
    }

    /// Both readers agree on any other value of any byte. Taken are the byte's offset, its value and the number.
    pub fn every_byte(&self, record: &[u8], mut take: impl FnMut(usize, u8, u64)) {
        for (at, &original) in record.iter().enumerate() {
            for byte in (0..=255).filter(|&byte| byte != original) {
                take(at, byte, self.agreed(&with_bytes(record.to_vec(), at, &[byte])));
            }
        }
    }

    /// The record's length is that of the data.
    pub fn every_length(&self, records: [Vec<u8>; 2]) {
        for record in records {
            let right = record.len() as u32;
            let in_so_many_bits = [8, 16, 24, 31].map(|bit| right + (1 << bit));
            for length in (0..400).chain(in_so_many_bits).chain([u32::MAX]) {
                let number = self.number_of(&saying_length(record.clone(), length));
                assert_eq!(number, self.expected(length == right), "{}", length);
            }
        }
    }

    /// A record with a header of so many bytes that is cut off or goes on is none, whatever it says of its length.
    pub fn every_end(&self, records: [Vec<u8>; 2], header: usize) {
        for record in records {
            for length in (1..record.len() + 70).filter(|&length| length != record.len()) {
                let mut other = record.clone();
                other.resize(length, 0);
                assert_eq!(self.number_of(&other), self.broken, "{}", length);
                if length >= header {
                    assert_eq!(self.number_of(&saying_length(other, length as u32)), self.broken, "{}", length);
                }
            }
        }
        // no data at all are the header's fault
        assert_eq!(self.number_of(&[]), 21);
    }

    /// The header's fields up to the FASC-N come first, then that, then the reserved bytes, and the record comes last. Given are
    /// fields of this kind alone, as the offset of a byte and what that is changed to.
    pub fn order(&self, own: &[(usize, u8)]) {
        let of_all = [(0, 2, 21), (5, 0, 21), (19, 0, 21), (41, 0x1F, 21), (83, 0xEA, 17), (87, 1, 21)];
        let own = own.iter().map(|&(at, byte)| (at, byte, 21));
        for (at, byte, number) in of_all.into_iter().chain(own) {
            for record in [(self.least)(), b"RUBBISH".to_vec()] {
                let mut card = self.with(&record);
                card.rows[0].as_mut().unwrap()[at] = byte;
                assert_eq!(self.verdict(&card).0, number, "{}", at);
            }
        }
        let mut card = self.with(b"RUBBISH");
        let value = card.rows[0].as_mut().unwrap();
        value[59..84].copy_from_slice(&wrong_fascn());
        value[87] = 1;
        assert_eq!(self.verdict(&card), (17, 2, Some(0xBC)));
    }

    /// What each call answers on a container with this record.
    pub fn each_call(&self, record: &[u8], number: u64) {
        let card = self.with(record);
        let (place, page) = each_call(&card, 0, 0xBC, 0, number);
        let lines = match number {
            0 => format!("0 0 --\nELEMENTS 2\nBC {}\nFE 0\nOPEN 2\nagency 1234\nsystem 0001\n", 89 + record.len()),
            _ => format!("{} {} BC\nELEMENTS 0\nOPEN 0\n", number, place),
        };
        let head = format!("CARD 4\nkind {}\nbytes {}\ntoday 20260301\n", self.name, card.container().len());
        assert_eq!(page, format!("{}verdict {}", head, lines));
    }

    /// What each call answers on each of these, by the reader of another make. More than so many are good, and more than so many are
    /// broken.
    pub fn each_call_on(&self, records: Vec<Vec<u8>>, [good, broken]: [usize; 2]) {
        let mut counts = [0; 2];
        for record in records {
            let number = self.judged_by_reading(&record);
            self.each_call(&record, number);
            counts[usize::from(number != 0)] += 1;
        }
        assert!(counts[0] > good && counts[1] > broken, "{:?}", counts);
    }

    /// The calls at an edge answer nothing but what may be, of a kind and a number. Those with several faults answer the first.
    pub fn calls_at_an_edge(&self, records: Vec<Record>, may_be: fn(u64, u64) -> bool) {
        let mut seen = BTreeSet::new();
        for record in records {
            let answer = record.answer();
            seen.insert((record.call, answer.number, answer.tag));
            assert!(may_be(record.kind, answer.number), "{} {}", record.kind, answer.number);
        }
        for call in [Call::Check, Call::Write, Call::View] {
            assert!(seen.contains(&(call, 0, None)) && seen.contains(&(call, self.broken, Some(0xBC))), "{:?}", call);
        }
        for number in [17, 21] {
            assert!(seen.contains(&(Call::Check, number, Some(0xBC))), "{}", number);
        }
        assert!(seen.contains(&(Call::Check, 4, None)) && seen.contains(&(Call::Write, 4, None)));
        assert!(seen.contains(&(Call::Report, 0, None)));
    }

    /// Cards are made with good records. One with other personal values has a record of the same length, which need not have as
    /// many parts, and its report is the same. Taken are each record and its counts.
    pub fn made_records(&self, seed: u64, counts: fn(&[u8]) -> Counts, mut take: impl FnMut(&[u8], Counts)) {
        let (mut rng, mut others) = (Rng::new(seed), 0);
        for _ in 0..ROUNDS {
            let card = conforming(&mut rng, self.kind);
            let record = record_in(&card);
            assert_eq!(self.agreed(record), 0);
            take(record, counts(record));
            let twin = personal_twin(&mut rng, &card);
            assert_eq!((self.number_of(record_in(&twin)), record_in(&twin).len()), (0, record.len()));
            assert_eq!(report_on(&twin), report_on(&card));
            others += usize::from(counts(record_in(&twin)).0 != counts(record).0);
        }
        assert!(others > ROUNDS / 10, "{}", others);
    }

    /// Records are made of each of these lengths.
    pub fn records_of(&self, rng: &mut Rng, lengths: impl Iterator<Item = usize>, of: fn(&mut Rng, usize) -> Vec<u8>) {
        for length in lengths {
            for _ in 0..10 {
                let record = of(rng, length);
                assert_eq!((record.len(), self.judged_by_reading(&record)), (length, 0), "{}", length);
            }
        }
    }

    /// Values of BC are made of each of these lengths from the least on.
    pub fn values_of(&self, rng: &mut Rng, lengths: impl Iterator<Item = usize>, least: usize) {
        let rule = kind_of(self.kind).unwrap().rows[0].rule;
        for length in lengths {
            let value = value_of(rng, rule, length);
            assert_eq!(value.map(|value| value.len()), Some(length).filter(|&length| length >= least), "{}", length);
        }
    }

    /// Both readers agree on so many damaged records. Handed out is how many of them are good and how many broken.
    pub fn damaged_records(
        &self,
        seed: u64,
        rounds: usize,
        damaged: fn(&mut Rng) -> Vec<u8>,
        mut take: impl FnMut(&[u8]),
    ) -> [usize; 2] {
        let (mut rng, mut counts) = (Rng::new(seed), [0; 2]);
        for _ in 0..rounds {
            let record = damaged(&mut rng);
            counts[usize::from(self.agreed(&record) != 0)] += 1;
            take(&record);
        }
        counts
    }

    /// A container is refused for its record by every call, and reported so.
    pub fn calls_are_made(&self, seed: u64) {
        let mut inputs = Inputs::made(seed);
        let mut seen = BTreeSet::new();
        for record in (0..80_000).map(|_| inputs.record()).filter(|record| record.kind == self.kind) {
            let answer = record.answer();
            let reported = String::from_utf8_lossy(&answer.room).contains(&format!("\nverdict {} ", self.broken));
            let number = if record.call == Call::Report && reported { self.broken } else { answer.number };
            seen.insert((record.call, number, answer.short));
        }
        for call in [Call::Check, Call::View, Call::Write, Call::Report] {
            assert!(seen.contains(&(call, 0, 0)) && seen.contains(&(call, self.broken, 0)), "{:?}", call);
        }
        assert!(seen.contains(&(Call::Check, 0, 3)));
    }
}

/// What the length at the front says, and what follows it. It is worked out by another way than the program's.
fn length_and_rest(bytes: &[u8]) -> (usize, &[u8]) {
    let digits = usize::from(bytes[0].saturating_sub(0x80));
    let (head, rest) = bytes.split_at(1 + digits);
    if digits == 0 {
        (usize::from(head[0]), rest)
    } else {
        (head[1..].iter().fold(0, |length, &digit| length * 256 + usize::from(digit)), rest)
    }
}

/// A length in its fewest bytes.
fn fewest(length: usize) -> Vec<u8> {
    match length {
        0..=127 => vec![length as u8],
        128..=255 => vec![0x81, length as u8],
        _ => vec![0x82, (length / 256) as u8, (length % 256) as u8],
    }
}

/// A container that conforms, with each length in its fewest bytes instead of the form that it has.
pub fn in_fewest_bytes(container: &[u8]) -> Vec<u8> {
    let (mut rest, mut content) = (length_and_rest(&container[1..]).1, Vec::new());
    while !rest.is_empty() {
        // no other tag begins with 5F
        let (tag, behind) = rest.split_at(if rest[0] == 0x5F { 2 } else { 1 });
        let (length, behind) = length_and_rest(behind);
        content.extend([tag, &fewest(length), &behind[..length]].concat());
        rest = &behind[length..];
    }
    [&container[..1], &fewest(content.len()), &content].concat()
}
