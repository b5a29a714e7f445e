//! FASC-N decoded many at a time (request 2026-09): each string answers what it answers alone, in a list that is long enough.

use second::batch::{Call, Record, ENTRIES_MAX};
use second::generate::{fascn_numbers, turn_bit, Inputs, Rng, EXAMPLE_FASCN};
use second::named;
use second::samples::wrong_fascn;
use second::smears::{EXAMPLE_3301, EXAMPLE_DIGITS};
use second::strings::{million, some, swept, SWEPT};
use second::{fascn_decode, fascn_decode_many, fascn_encode, Decoded};
use std::collections::BTreeSet;

/// What a list holds before a call: no number that an answer has, and none that is zero.
const OLD: Decoded = Decoded { number: u64::MAX, numbers: [u64::MAX; 9] };
const NOTHING: Decoded = Decoded { number: 0, numbers: [0; 9] };

/// The number, and what the list of so many entries then holds.
fn many(strings: &[u8], entries: usize) -> (u64, Vec<Decoded>) {
    let mut list = vec![OLD; entries];
    let number = fascn_decode_many(strings, &mut list);
    (number, list)
}

/// What each whole string answers alone.
fn one_by_one(strings: &[u8]) -> Vec<Decoded> {
    let at = |i: usize| {
        let (number, numbers) = fascn_decode(&strings[25 * i..25 * i + 25]);
        Decoded { number, numbers }
    };
    (0..strings.len() / 25).map(at).collect()
}

/// What a call has to answer, worked out from its meaning.
fn meant(strings: &[u8], entries: usize) -> (u64, Vec<Decoded>) {
    let mut list = if strings.len() % 25 == 0 { one_by_one(strings) } else { vec![] };
    let number = match (strings.len() % 25, strings.len() / 25) {
        (1..=24, _) => 17,
        (_, count) if count > entries => 3,
        _ => 0,
    };
    if number != 0 {
        list.clear();
    }
    list.resize(entries, NOTHING);
    (number, list)
}

// ---------------------------------------------------------------------------------------------
// The call

#[test]
fn in_their_order() {
    let strings = [EXAMPLE_DIGITS, wrong_fascn(), EXAMPLE_FASCN].concat();
    let digits = Decoded { number: 0, numbers: [9876, 5432, 109_876, 5, 4, 9_876_543_210, 9, 8049, 7] };
    let p1 = Decoded { number: 0, numbers: [1234, 1, 5, 1, 1, 7, 1, 1234, 1] };
    let bad = Decoded { number: 17, numbers: [0; 9] };
    assert_eq!(many(&strings, 3), (0, vec![digits, bad, p1]));
    assert_eq!(many(&strings, 5), (0, vec![digits, bad, p1, NOTHING, NOTHING]));
    assert_eq!(many(&strings, 2), (3, vec![NOTHING; 2]));
    assert_eq!(many(&strings[..74], 3), (17, vec![NOTHING; 3]));
    assert_eq!(many(&strings[..74], 1), (17, vec![NOTHING]));
    assert_eq!(many(&[], 0), (0, vec![]));
    assert_eq!(many(&[], 2), (0, vec![NOTHING; 2]));
}

/// Every number of bytes up to four strings, with lists of every length up to six.
#[test]
fn every_length() {
    let strings = [EXAMPLE_FASCN, [0; 25], EXAMPLE_3301, EXAMPLE_DIGITS].concat();
    for length in 0..=100 {
        for entries in 0..=6 {
            assert_eq!(many(&strings[..length], entries), meant(&strings[..length], entries), "{} {}", length, entries);
        }
    }
}

/// P1 six times, read from one to 24 bytes too late, is five bad strings.
#[test]
fn each_begins_behind_the_one_before() {
    let strings = [EXAMPLE_FASCN; 6].concat();
    for first in 1..25 {
        let (number, list) = many(&strings[first..first + 125], 5);
        assert_eq!((number, list), (0, vec![Decoded { number: 17, numbers: [0; 9] }; 5]));
    }
}

#[test]
fn made_calls() {
    let mut inputs = Inputs::made(9);
    let mut seen = BTreeSet::new();
    let records = (0..100_000).map(|_| inputs.record()).filter(|record| record.call == Call::FascnDecodeByTable);
    for Record { bytes, entries, .. } in records {
        let answer = many(&bytes, entries);
        assert_eq!(answer, meant(&bytes, entries));
        let (count, more) = (bytes.len() / 25, bytes.len() % 25);
        let good = answer.1.iter().take(count).filter(|entry| entry.number == 0).count();
        seen.insert((answer.0, "entries", entries.min(count + 2).saturating_sub(count.saturating_sub(1))));
        seen.insert((answer.0, "bytes left over", more));
        seen.insert((answer.0, "good ones", good.min(3)));
        seen.insert((answer.0, "bad ones", (count - good).min(3)));
    }
    for more in 1..25 {
        assert!(seen.contains(&(17, "bytes left over", more)));
    }
    for number in [17, 0] {
        assert!((1..=3).all(|entries| seen.contains(&(number, "entries", entries))), "{:?}", seen);
    }
    assert!(seen.contains(&(3, "entries", 0)));
    assert!((0..=3).all(|count| seen.contains(&(0, "good ones", count)) && seen.contains(&(0, "bad ones", count))));
}

/// The named calls have every number of bytes left over, with a list that suffices and with one that is too short, and every sort of
/// list.
#[test]
fn named_calls_have_every_edge() {
    let mut seen = BTreeSet::new();
    let cases = named::all().into_iter().flat_map(|(_, cases)| cases);
    for (Record { bytes, entries, .. }, answer) in cases.filter(|case| case.0.call == Call::FascnDecodeByTable) {
        assert_eq!((answer.number, answer.decoded), meant(&bytes, entries));
        let (count, more) = (bytes.len() / 25, bytes.len() % 25);
        seen.insert((answer.number, "bytes left over", more));
        seen.insert((answer.number, "entries", if entries < count { 0 } else { (entries - count).min(2) + 1 }));
        seen.insert((answer.number, "strings", count.min(3)));
        seen.insert((answer.number, "at most", usize::from(entries == ENTRIES_MAX)));
    }
    assert!((1..25).all(|more| seen.contains(&(17, "bytes left over", more))));
    assert!((0..=3).all(|entries| seen.contains(&(17, "entries", entries))));
    assert!((1..=3).all(|entries| seen.contains(&(0, "entries", entries))));
    assert!((0..=3).all(|count| seen.contains(&(0, "strings", count))));
    assert!((1..=3).all(|count| seen.contains(&(3, "strings", count))));
    assert!(seen.contains(&(0, "at most", 1)));
}

// ---------------------------------------------------------------------------------------------
// The strings

#[test]
fn a_million() {
    let strings = million(1);
    assert_eq!(strings.len(), 25_000_000);
    assert!(strings == million(1) && strings != million(2));
    let (number, list) = many(&strings, 1_000_000);
    assert_eq!(number, 0);
    let good = list.iter().filter(|entry| entry.number == 0).count();
    assert!((498_000..502_000).contains(&good), "{}", good);
}

/// Whether one bit turned makes a FASC-N of the string.
fn is_one_bit_off(string: &[u8]) -> bool {
    let is_fascn = |at| {
        let mut other = string.to_vec();
        turn_bit(&mut other, at);
        fascn_decode(&other).0 == 0
    };
    (0..200).any(is_fascn)
}

/// About half are a FASC-N, a quarter is one but for a bit, and a quarter is any bytes.
#[test]
fn shares() {
    let mut counts = [0; 3];
    for string in some(2, 20_000).chunks(25) {
        let sort = match fascn_decode(string).0 {
            0 => 0,
            _ if is_one_bit_off(string) => 1,
            _ => 2,
        };
        counts[sort] += 1;
    }
    for (count, share) in counts.into_iter().zip([10_000, 5_000, 5_000]) {
        assert!((share - 300..share + 300).contains(&count), "{:?}", counts);
    }
}

#[test]
fn fewer_begin_alike() {
    assert_eq!(some(5, 0), []);
    assert!(some(5, 2_000).starts_with(&some(5, 1_999)));
    assert!(million(5).starts_with(&some(5, 2_000)));
}

/// The characters of P1: its digits, and others for the start, the separators, the end and the check.
const CHARACTERS: &[u8; 40] = b"(1234|0001|000005|1|1|0000000007112341)?";

/// In how many ways two neighbouring characters of P1 can be others, or the same, and leave a FASC-N: two digits keep the check where
/// both change alike, and else nothing but P1 does.
fn ways(pair: &[u8]) -> usize {
    if !pair.iter().all(u8::is_ascii_digit) {
        return 1;
    }
    (0..16).filter(|turned| pair.iter().all(|digit| (digit - b'0') ^ turned <= 9)).count()
}

/// The neighbours of P1: each bit turned, which never leaves a FASC-N; and each pair of its characters as each of 1,024 numbers.
#[test]
fn neighbours_of_p1() {
    let strings = swept();
    assert_eq!((SWEPT, strings.len()), (20_680, 25 * SWEPT));
    let (number, list) = many(&strings, SWEPT);
    assert_eq!(number, 0);
    let (bits, pairs) = list.split_at(200);
    assert!(bits.iter().all(|entry| entry.number == 17));
    let others = strings[25 * 200..].chunks(25 * 1_024).zip(pairs.chunks(1_024));
    for ((strings, entries), characters) in others.zip(CHARACTERS.chunks(2)) {
        let distinct: BTreeSet<&[u8]> = strings.chunks(25).collect();
        assert!(distinct.len() == 1_024 && distinct.contains(&EXAMPLE_FASCN[..]));
        let good = entries.iter().filter(|entry| entry.number == 0).count();
        assert_eq!(good, ways(characters), "{:?}", characters);
    }
    assert_eq!(CHARACTERS.chunks(2).map(ways).sum::<usize>(), 133);
}

/// What is encoded comes back, wherever it stands.
#[test]
fn encoded_ones_come_back() {
    let mut rng = Rng::new(12);
    let numbers: Vec<[u64; 9]> = (0..3_000).map(|_| fascn_numbers(&mut rng)).collect();
    let mut strings = vec![0; 25 * numbers.len()];
    for (numbers, room) in numbers.iter().zip(strings.chunks_mut(25)) {
        assert_eq!(fascn_encode(numbers, room), 0);
    }
    let expected: Vec<Decoded> = numbers.into_iter().map(|numbers| Decoded { number: 0, numbers }).collect();
    assert_eq!(many(&strings, expected.len()), (0, expected));
}
