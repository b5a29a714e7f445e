//! Strings of 25 bytes one after the other, each of which may be a FASC-N: as many as a yearly re-check reads, made by a seed; P1 with
//! all that one place of it can hold; and the calls that decode several of them into a list.

use crate::batch::{Call, Record, ENTRIES_MAX};
use crate::generate::{any_fill, damage_fascn, fascn, flip_bit, plain, Rng, EXAMPLE_FASCN};
use crate::samples::wrong_fascn;
use crate::smears::{self, Smear, BITS};
use crate::values::FASCN_BYTES;

// ---------------------------------------------------------------------------------------------
// Many

/// A million strings, of which about half are a FASC-N.
pub fn million(seed: u64) -> Vec<u8> {
    some(seed, 1_000_000)
}

/// So many strings: about half of them are a FASC-N, a quarter one with a bit turned, and the others any bytes. A longer row of the
/// same seed begins with the same strings.
pub fn some(seed: u64, count: usize) -> Vec<u8> {
    let mut rng = Rng::new(seed);
    let mut out = Vec::with_capacity(FASCN_BYTES * count);
    (0..count).for_each(|_| out.extend(one(&mut rng)));
    out
}

fn one(rng: &mut Rng) -> Vec<u8> {
    match rng.below(4) {
        0 | 1 => fascn(rng),
        2 => {
            let mut string = fascn(rng);
            flip_bit(rng, &mut string);
            string
        }
        _ => rng.bytes(FASCN_BYTES),
    }
}

// ---------------------------------------------------------------------------------------------
// P1 and its neighbours

/// Two characters have so many bits, and stand for a number below 1,024.
const PAIR_BITS: usize = 10;

/// How many strings [`swept`] has: 200 with a bit turned, and for each of 20 pairs of characters 1,024, of which one is P1.
pub const SWEPT: usize = BITS + BITS / PAIR_BITS * (1 << PAIR_BITS);

/// P1 with each of its bits turned, and with each of its twenty pairs of characters as every number that ten bits can be.
pub fn swept() -> Vec<u8> {
    let every = |first| (0..1 << PAIR_BITS).map(move |turned| Smear { first, width: PAIR_BITS, turned });
    let pairs = (0..BITS).step_by(PAIR_BITS).flat_map(every);
    smears::all(1).chain(pairs).flat_map(|smear| smear.on(EXAMPLE_FASCN)).collect()
}

// ---------------------------------------------------------------------------------------------
// Made calls

/// A few strings, good and bad, rarely very many; at times with bytes left over; and a list that is mostly near what they need.
pub fn record(rng: &mut Rng) -> Record {
    let count = match rng.below(60) {
        0..=2 => 0,
        3..=44 => rng.size(1, 6),
        45..=58 => rng.size(0, 40),
        _ => rng.size(0, ENTRIES_MAX),
    };
    let mut strings: Vec<u8> = (0..count).flat_map(|_| any_string(rng)).collect();
    if rng.one_in(6) {
        let more = rng.size(1, FASCN_BYTES - 1);
        strings.extend(&any_string(rng)[..more]);
    }
    Record { entries: any_entries(rng, count), fill: any_fill(rng), ..call(strings, 0) }
}

fn any_string(rng: &mut Rng) -> Vec<u8> {
    let mut string = fascn(rng);
    match rng.below(8) {
        0..=3 => (),
        4..=6 => damage_fascn(rng, &mut string),
        _ => string = rng.bytes(FASCN_BYTES),
    }
    string
}

/// A list for so many strings: just long enough, too short or longer.
fn any_entries(rng: &mut Rng, strings: usize) -> usize {
    let entries = match rng.below(12) {
        0..=4 => strings,
        5 | 6 => strings.saturating_sub(1),
        7 | 8 => strings + 1,
        9 => strings + rng.size(2, 20),
        10 => 0,
        _ => rng.size(0, strings),
    };
    entries.min(ENTRIES_MAX)
}

// ---------------------------------------------------------------------------------------------
// Calls at an edge

/// A call with a list of so many entries, which held something before.
fn call(strings: Vec<u8>, entries: usize) -> Record {
    Record { today: 0, entries, fill: 0xA5, ..plain(Call::FascnDecodeByTable, 0, strings) }
}

pub fn records() -> Vec<Record> {
    [counts_and_lists(), left_over(), good_and_bad(), neighbours()].concat()
}

/// No string, few and the most, with lists of every sort.
fn counts_and_lists() -> Vec<Record> {
    let of = |count: usize| {
        let entries = [0, 1, count.saturating_sub(1), count, count + 1, count + 7, ENTRIES_MAX];
        entries.map(|entries| call(some(2, count), entries.min(ENTRIES_MAX)))
    };
    [0, 1, 2, 3, 4, 5, 39, 40, 41, ENTRIES_MAX - 1, ENTRIES_MAX].into_iter().flat_map(of).collect()
}

/// One to 24 bytes left over behind none, one, two or five strings, with lists that are too short, just long enough and longer.
fn left_over() -> Vec<Record> {
    let of = |(count, more): (usize, usize)| {
        let strings = some(3, count + 1)[..FASCN_BYTES * count + more].to_vec();
        [0, count.saturating_sub(1), count, count + 1, count + 2].map(|entries| call(strings.clone(), entries))
    };
    let counts = [0, 1, 2, 5].into_iter();
    counts.flat_map(|count| (1..FASCN_BYTES).map(move |more| (count, more))).flat_map(of).collect()
}

/// P1 and P2 at up to five places, in every order.
fn good_and_bad() -> Vec<Record> {
    let of = |(count, which): (usize, usize)| {
        let string = |at: usize| if which >> at & 1 == 1 { wrong_fascn() } else { EXAMPLE_FASCN };
        call((0..count).flat_map(string).collect(), count)
    };
    (1..=5).flat_map(|count| (0..1 << count).map(move |which| (count, which))).map(of).collect()
}

/// P1 and its neighbours, as many in a call as a list can hold.
fn neighbours() -> Vec<Record> {
    let most = |strings: &[u8]| call(strings.to_vec(), strings.len() / FASCN_BYTES);
    swept().chunks(FASCN_BYTES * ENTRIES_MAX).map(most).collect()
}
