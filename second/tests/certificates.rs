//! Certificates, made and damaged.

use second::batch::Call;
use second::der::{self, Fault};
use second::generate::{certificate_kinds, Inputs, Rng, EXAMPLE_DAY};
use second::samples::{certificate, P256, RSA};
use second::trees::{self, Tree};
use second::values::CERTIFICATE_LEVELS;
use std::collections::BTreeSet;

mod common;
use common::verdict;

fn number_of(value: &[u8]) -> u64 {
    verdict(8, EXAMPLE_DAY, &certificate(8, value, 0, None).container()).0
}

/// The tag, the bytes before the content and the length of the item that stands here, in the fewest bytes.
fn head(bytes: &[u8]) -> Option<(u8, usize, usize)> {
    match *bytes {
        [tag, ..] if tag % 32 == 31 => None,
        [tag, short @ 0..=127, ..] => Some((tag, 2, usize::from(short))),
        [tag, 0x81, low @ 128..=255, ..] => Some((tag, 3, usize::from(low))),
        [tag, 0x82, high @ 1..=255, low, ..] => Some((tag, 4, usize::from(high) * 256 + usize::from(low))),
        _ => None,
    }
}

/// A reader of another make: it goes along the bytes with a list of the ends of all items that it is inside.
fn judged_by_ends(value: &[u8]) -> u64 {
    let (mut at, mut ends, mut parts) = (0, vec![value.len()], 0);
    loop {
        while ends.len() > 1 && at == ends[ends.len() - 1] {
            ends.pop();
        }
        if ends.len() == 1 && at > 0 {
            break;
        }
        if ends.len() > 8 {
            return 25;
        }
        parts += u64::from(ends.len() == 2);
        let end = ends[ends.len() - 1];
        let (tag, before, length) = match head(&value[at..end]) {
            Some(head) if at + head.1 + head.2 <= end => head,
            _ => return 24,
        };
        at += before;
        if tag / 32 % 2 == 1 {
            ends.push(at + length);
        } else {
            at += length;
        }
    }
    if at == value.len() && value[0] == 0x30 && parts == 3 {
        0
    } else {
        24
    }
}

#[test]
fn made_certificates_conform() {
    let mut rng = Rng::new(11);
    let mut levels = BTreeSet::new();
    for _ in 0..20_000 {
        let value = trees::certificate(&mut rng);
        assert_eq!(number_of(&value), 0, "{:02X?}", value);
        let tree = Tree::of(&value, CERTIFICATE_LEVELS).unwrap();
        assert_eq!(tree.bytes(), value);
        levels.insert(tree.levels());
        let twin = trees::twin(&mut rng, &value);
        assert_eq!((number_of(&twin), twin.len()), (0, value.len()));
    }
    assert!(levels.iter().copied().eq(2..=CERTIFICATE_LEVELS));
}

#[test]
fn sizes() {
    let mut rng = Rng::new(12);
    for size in 0..700 {
        // three items of two bytes are the least, and 130 and 259 bytes are no item's
        let possible = size >= 8 && size != 130 && size != 259;
        for _ in 0..20 {
            let value = trees::certificate_of(&mut rng, size);
            assert_eq!(value.is_some(), possible, "{}", size);
            assert!(value.map_or(true, |value| value.len() == size && number_of(&value) == 0));
        }
    }
}

#[test]
fn both_readers_agree_on_damaged_ones() {
    let mut rng = Rng::new(13);
    let mut counts = [0; 3];
    let mut judge = |value: &[u8]| {
        let number = number_of(value);
        assert_eq!(number, judged_by_ends(value), "{:02X?}", value);
        counts[usize::from(number == 24) + 2 * usize::from(number == 25)] += 1;
    };
    for _ in 0..100_000 {
        let mut value = trees::certificate(&mut rng);
        trees::damage(&mut rng, &mut value);
        judge(&value);
    }
    trees::edges().iter().for_each(|value| judge(value));
    assert!(counts.iter().all(|&count| count > 5_000), "{:?}", counts);
}

#[test]
fn real_ones() {
    for value in [RSA, P256] {
        assert_eq!(number_of(value), 0);
        let tree = Tree::of(value, CERTIFICATE_LEVELS).unwrap();
        assert_eq!((tree.bytes(), tree.levels()), (value.to_vec(), 6));
        for number in 0..tree.count() {
            for longer in tree.with_longer_length(number) {
                assert_eq!(number_of(&longer), 24);
                assert!(longer.len() > value.len());
            }
        }
        for cut in 0..value.len() {
            assert_eq!(number_of(&value[..cut]), 24);
        }
    }
}

/// Sixteen levels are read as eight are, and without the three parts.
#[test]
fn other_depths() {
    for levels in 2..=20 {
        let value = trees::down_to(levels, 5, &[]).bytes();
        for allowed in 1..=20 {
            let read = der::whole(&value, allowed).map(|item| (item.tag, item.parts));
            assert_eq!(read, if levels <= allowed { Ok((0x30, 3)) } else { Err(Fault::Depth) });
        }
    }
    assert_eq!(der::whole(&[0x04, 1, 0xFF], 16).map(|item| item.parts), Ok(0));
}

#[test]
fn calls_on_certificates_are_made() {
    let mut inputs = Inputs::new(14);
    let mut seen = BTreeSet::new();
    for _ in 0..80_000 {
        let record = inputs.record();
        if certificate_kinds().contains(&record.kind) && !matches!(record.call, Call::FascnDecode | Call::FascnEncode) {
            let answer = record.answer();
            seen.insert((record.kind, record.call, answer.number, answer.short));
        }
    }
    assert_eq!(certificate_kinds(), [8, 9, 10, 11]);
    for kind in certificate_kinds() {
        for call in [Call::Check, Call::Write, Call::View] {
            for number in [0, 15, 16, 20, 24, 25] {
                assert!(seen.contains(&(kind, call, number, 0)), "{} {:?} {}", kind, call, number);
            }
        }
        assert!(seen.contains(&(kind, Call::Check, 0, 3)));
        assert!(seen.contains(&(kind, Call::Report, 0, 0)));
    }
}
