//! What is made of facial and of iris records alike: damage to what both have, and the calls on those at an edge. Both begin with
//! format, version, length and a number of parts, and the parts follow the header.

use crate::batch::{Call, Record};
use crate::generate::{any_length, plain, Card, Rng};
use crate::samples::wrong_fascn;
use crate::values::HEADER_FASCN;
use crate::{CONTAINER_MAX, REPORT_MAX};

/// The record with these bytes at an offset instead of its own.
pub fn with_bytes(mut record: Vec<u8>, at: usize, bytes: &[u8]) -> Vec<u8> {
    record[at..at + bytes.len()].copy_from_slice(bytes);
    record
}

/// The record with this number for its length.
pub fn saying_length(record: Vec<u8>, length: u32) -> Vec<u8> {
    with_bytes(record, 8, &length.to_be_bytes())
}

/// A header: format, version, the length of the record with such parts, and how many it says that there are.
pub fn header(format: [u8; 4], version: [u8; 4], length: usize, parts: u16) -> Vec<u8> {
    [&format[..], &version, &(length as u32).to_be_bytes(), &parts.to_be_bytes()].concat()
}

// ---------------------------------------------------------------------------------------------
// Damage

/// One of several parts, mostly the last.
pub fn which<T>(rng: &mut Rng, parts: &[T]) -> usize {
    let last = parts.len() - 1;
    if rng.one_in(2) {
        last
    } else {
        rng.size(0, last)
    }
}

/// How many there are of what a record mostly has none or few of.
pub fn few(rng: &mut Rng) -> usize {
    match rng.below(8) {
        0..=3 => 0,
        _ => rng.size(1, 4),
    }
}

/// Numbers that are not the length of a record: one off, without the header, and right in so many bits only.
pub fn other_lengths(right: u32, header: usize) -> [u32; 11] {
    let more = |bit: u32| right + (1 << bit);
    let header = header as u32;
    [right - 1, right + 1, right - header, right + header, 0, header, u32::MAX, more(8), more(16), more(24), more(31)]
}

/// Numbers that are not the length of a part which stands so far behind the header: one off, the least of any part, right in so many
/// bits only, and such as lead back to the first part and to the record's start in a sum of 32 bits.
pub fn other_part_lengths(right: u32, least: usize, behind: usize, header: usize) -> [u32; 15] {
    let more = |bit: u32| right + (1 << bit);
    let back = |bytes: usize| (bytes as u32).wrapping_neg();
    let least = least as u32;
    [
        right - 1,
        right + 1,
        right - 8,
        right + 8,
        right + least,
        0,
        1,
        least - 1,
        least,
        more(16),
        more(24),
        more(31),
        back(behind),
        back(header + behind),
        u32::MAX,
    ]
}

/// The record with another format, version or length, or with another bit anywhere in its header.
pub fn with_other_front(rng: &mut Rng, record: Vec<u8>, header: usize, others: [&[[u8; 4]]; 2]) -> Vec<u8> {
    match rng.below(5) {
        0 => with_bytes(record, 0, &rng.pick(others[0])),
        1 => with_bytes(record, 4, &rng.pick(others[1])),
        2 => {
            let at = rng.size(0, header - 1);
            let turned = record[at] ^ 1 << rng.below(8);
            with_bytes(record, at, &[turned])
        }
        _ => {
            let length = rng.pick(&other_lengths(record.len() as u32, header));
            saying_length(record, length)
        }
    }
}

/// The record with bytes behind its last part, which has at least so many, or cut off. The length of the record mostly follows.
pub fn with_another_end(rng: &mut Rng, mut record: Vec<u8>, header: usize, least: usize) -> Vec<u8> {
    let right = record.len() as u32;
    let length = match rng.below(4) {
        0 => record.len() + rng.pick(&[1, 1, 2, 8, least - 1, least]),
        1 => record.len() - 1,
        2 => rng.size(1, header + least),
        _ => rng.size(1, record.len()),
    };
    record.resize(length, 0);
    if length < header {
        return record;
    }
    saying_length(record, if rng.one_in(4) { right } else { length as u32 })
}

/// Bytes of no record at all: any, zeros, and a picture alone.
pub fn rubbish(rng: &mut Rng, picture: &[u8]) -> Vec<u8> {
    let length = any_length(rng, 1, 4_000);
    match rng.below(3) {
        0 => rng.bytes(length),
        1 => vec![rng.pick(&[0x00, 0x20, 0xFF]); length],
        _ => picture.to_vec(),
    }
}

// ---------------------------------------------------------------------------------------------
// Edges

/// Each byte with its lowest bit turned, its highest, and all: some of them are free.
pub fn with_each_byte(record: &[u8]) -> Vec<Vec<u8>> {
    let turned = |at: usize, bits: u8| with_bytes(record.to_vec(), at, &[record[at] ^ bits]);
    (0..record.len()).flat_map(|at| [0x01, 0x80, 0xFF].map(|bits| turned(at, bits))).collect()
}

/// The record cut off after each of its bytes, or with up to 40 bytes more; its length follows, or does not.
pub fn with_each_end(record: &[u8], header: usize) -> Vec<Vec<u8>> {
    let right = record.len() as u32;
    let mut out = Vec::new();
    for length in 1..=record.len() + 40 {
        let mut other = record.to_vec();
        other.resize(length, 0);
        if length >= header {
            out.push(saying_length(other.clone(), right));
            other = saying_length(other, length as u32);
        }
        out.push(other);
    }
    out
}

/// Cards with a fault in the header's fields before the FASC-N, in that, in the reserved bytes and in the record, each or not. The
/// card is made with one of two qualities, of which the second is a fault.
pub fn orders(good: Vec<u8>, broken: &[Vec<u8>], qualities: [u8; 2], card: fn(u8, &[u8], usize) -> Card) -> Vec<Card> {
    let mut out = Vec::new();
    for record in [good].iter().chain(broken) {
        for faults in 0..8 {
            let mut card = card(qualities[faults & 1], record, 1);
            let value = card.rows[0].as_mut().expect("a biometric has a value");
            if faults & 2 != 0 {
                value[HEADER_FASCN].copy_from_slice(&wrong_fascn());
            }
            value[87] = u8::from(faults & 4 != 0);
            out.push(card);
        }
    }
    out
}

// ---------------------------------------------------------------------------------------------
// Calls

/// A check with a room as long as the sheet.
pub fn check(card: &Card) -> Record {
    Record { room: card.sheet().len(), fill: 0xA5, ..plain(Call::Check, card.kind, card.container()) }
}

/// A write, with a room as long as the container, or as long as any may be.
pub fn write(card: &Card) -> Record {
    let room = card.container().len().min(CONTAINER_MAX);
    Record { room, fill: 0xA5, ..plain(Call::Write, card.kind, card.sheet()) }
}

/// A check of each card, and one call more: a write, a view and a report, in turn.
pub fn two_calls(cards: impl Iterator<Item = Card>) -> Vec<Record> {
    let another = |i: usize, card: &Card| match i % 3 {
        0 => write(card),
        1 => Record { element: 0xBC, ..plain(Call::View, card.kind, card.container()) },
        _ => Record { room: REPORT_MAX, fill: 0xA5, ..plain(Call::Report, card.kind, card.container()) },
    };
    cards.enumerate().flat_map(|(i, card)| [check(&card), another(i, &card)]).collect()
}
