//! What a mistaken program would answer to a FASC-N that is smeared, or that conforms though it was; and whether the sweep of smears
//! would tell it.

use super::Mistake;
use crate::trial::native;
use crate::Comparison;
use second::batch::{Answer, Record};
use second::folders::holding;
use second::generate::EXAMPLE_FASCN;
use second::named::{swept_smears, Case, SWEPT_SMEARS};
use second::smears::EXAMPLE_3301;
use second::{fascn_decode, number};
use std::iter::empty;

/// The kind of the last container in the sweep.
const IRIS: u64 = 12;

/// The number of a program that takes a smeared FASC-N for a good one, in any call that judges one.
pub(super) const TAKEN: (&str, u64) = ("0 for no FASC-N", number::DONE);

/// The mistakes that are made, each with the name of what is lent.
pub(super) const MISTAKES: [(&str, &str); 4] = [
    ("number", TAKEN.0),
    ("number", "17 for a FASC-N"),
    ("numbers", "left by a refusal"),
    ("numbers", "those before the smear"),
];

/// All of them in a decoding. The smeared ones are made of P1.
pub(super) fn mistakes(expected: &Answer) -> Vec<Mistake> {
    let (_, before) = fascn_decode(&EXAMPLE_FASCN);
    let (how, number, left) = match expected.number {
        number::DONE => ("17 for a FASC-N", number::FASCN, "those before the smear"),
        _ => (TAKEN.0, TAKEN.1, "left by a refusal"),
    };
    vec![
        Mistake::number("number", how, 0, number, expected.number),
        Mistake { name: "numbers", how: left, from: 0, wrong: native(&before), right: native(&expected.numbers) },
    ]
}

/// The sweep with other bytes in one of its calls.
fn with_other_bytes(which: usize, bytes: Vec<u8>) -> impl Iterator<Item = Case> {
    swept_smears().enumerate().map(move |(i, (record, refused))| {
        let bytes = if i == which { bytes.clone() } else { record.bytes };
        (Record { bytes, ..record }, refused)
    })
}

/// How many differences are told of a sweep.
fn told(seed: u64, smears: impl Iterator<Item = Case>) -> u64 {
    let mut comparison = Comparison::new(seed, 0);
    comparison.compare_smears(smears);
    comparison.differences
}

/// Whether the sweep tells what it has to: nothing as it is, what conforms instead of its first smear or its last on both sides, which
/// answer alike there, a smear that is left out, and that there are none. The first is told of both readers.
pub(super) fn are_judged(seed: u64) -> bool {
    let (first, last) = (0, SWEPT_SMEARS as usize - 1);
    let (_, iris) = holding(IRIS, &EXAMPLE_3301);
    let outcomes = [
        ("as it is", told(seed, swept_smears()), 0),
        ("with a FASC-N that conforms", told(seed, with_other_bytes(first, EXAMPLE_3301.to_vec())), 3),
        ("with a container that conforms", told(seed, with_other_bytes(last, iris)), 2),
        ("without the first", told(seed, swept_smears().skip(1)), 1),
        ("without any", told(seed, empty()), 1),
    ];
    let texts: Vec<String> = outcomes.iter().map(|(how, told, _)| format!("{}: {}", how, told)).collect();
    println!("differences told of the sweep of smears, {}", texts.join(", "));
    outcomes.iter().all(|(_, told, right)| told == right)
}
