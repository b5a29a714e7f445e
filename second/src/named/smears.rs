//! Smears of a FASC-N (2026-08): seven neighbouring bits are too many, of which fewer are refused, and every smear within six for the
//! sweep.

use super::*;
use crate::folders::card_holding;
use crate::generate::turn_bit;
use crate::smears::{each_once, slipping, Smear, BITS, EXAMPLE_3301, EXAMPLE_DIGITS, REFUSED_WIDTH};

pub fn all() -> Vec<Group> {
    vec![
        seven_bits(),
        seven_bits_in_containers(),
        seven_bits_in_a_report(),
        other_pairs(),
        pairs_across_numbers(),
        other_digits(),
        no_digits(),
        other_characters(),
        some_of_seven(),
        ends(),
        ends_in_containers(),
        two_smears(),
    ]
}

// ---------------------------------------------------------------------------------------------
// The FASC-N and the cards that several groups have

type Fascn = [u8; 25];

/// P1 with another number in one place.
fn with(field: usize, number: u64) -> [u64; 9] {
    let mut numbers = P1;
    numbers[field] = number;
    numbers
}

fn fascn_of(numbers: &[u64; 9]) -> Fascn {
    let mut fascn = [0; 25];
    assert_eq!(crate::fascn_encode(numbers, &mut fascn), 0);
    fascn
}

/// The FASC-N with these bits turned.
fn turned(mut fascn: Fascn, bits: &[usize]) -> Fascn {
    bits.iter().for_each(|&bit| turn_bit(&mut fascn, bit));
    fascn
}

/// A container that is checked and a sheet that is written with this FASC-N, of each kind that has one, with this number.
fn held(fascn: &Fascn, number: u64) -> Vec<Case> {
    let both =
        |(kind, place, tag, in_sheet)| checked_and_written(&card_holding(kind, fascn), number, tag, [place, in_sheet]);
    HOLDERS.into_iter().flat_map(both).collect()
}

/// The kinds of the containers that hold a FASC-N: where its element stands in a small one, its tag, and where its count stands in the
/// sheet. The outer length of the last three has two bytes; in a CHUID's sheet an absent row is the first.
const HOLDERS: [(u64, u64, u16, u64); 4] = [(2, 2, 0x30, 2), (6, 3, 0xBC, 0), (7, 3, 0xBC, 0), (12, 3, 0xBC, 0)];

/// Both are decoded, and a CHUID with either conforms: the one of these numbers, and the one that a smear of seven bits from this bit
/// on makes of it, with those.
fn slips(before: [u64; 9], first: usize, after: [u64; 9]) -> Vec<Case> {
    let fascn = fascn_of(&before);
    let smeared = slipping(first).on(fascn);
    let checked = |fascn: &Fascn| check(2, &chuid(fascn, EXPIRES, &[]).container(), CONFORMS);
    vec![
        decode(&fascn, Ok(before)),
        decode(&smeared, Ok(after)),
        encode(&after, 25, Ok(&smeared)),
        checked(&fascn),
        checked(&smeared),
    ]
}

/// It is refused alone and in a CHUID.
fn refused(fascn: &Fascn) -> [Case; 2] {
    [decode(fascn, Err(17)), check(2, &chuid(fascn, EXPIRES, &[]).container(), (17, 2, Some(0x30)))]
}

/// P1 with these bits turned is refused.
fn refused_with(bits: &[usize]) -> [Case; 2] {
    refused(&turned(EXAMPLE_FASCN, bits))
}

// ---------------------------------------------------------------------------------------------
// Seven bits

/// A 0 is 00001 and a 3 is 11001. The two digits are the characters 6 and 7, so the bits 30, 31, 35 and 36 differ.
fn seven_bits() -> Group {
    (
        "P1, and P1 with 33 for two neighbouring 00 of its system, seven bits from bit 30 on: decoded, encoded, and each made of the \
         other",
        vec![
            decode(&EXAMPLE_FASCN, Ok(P1)),
            decode(&EXAMPLE_3301, Ok([1234, 3301, 5, 1, 1, 7, 1, 1234, 1])),
            encode(&P1, 25, Ok(&EXAMPLE_FASCN)),
            encode(&[1234, 3301, 5, 1, 1, 7, 1, 1234, 1], 25, Ok(&EXAMPLE_3301)),
            decode(&turned(EXAMPLE_FASCN, &[30, 31, 35, 36]), Ok(with(1, 3301))),
            decode(&turned(EXAMPLE_3301, &[30, 31, 35, 36]), Ok(P1)),
        ],
    )
}

fn seven_bits_in_containers() -> Group {
    (
        "CHUID, FINGERS, FACE and IRIS with P1 and with the system 3301, checked and written",
        [held(&EXAMPLE_FASCN, 0), held(&EXAMPLE_3301, 0)].concat(),
    )
}

fn seven_bits_in_a_report() -> Group {
    let container = chuid(&EXAMPLE_3301, EXPIRES, &[]).container();
    (
        "case R with the system 3301, reported and viewed",
        vec![
            report(2, &container, 512, Ok(&CASE_R.replace("system 0001", "system 3301"))),
            view(2, &container, 0x30, Ok((4, 25))),
        ],
    )
}

fn other_pairs() -> Group {
    (
        "33 for two neighbouring 00 elsewhere: at either end of an agency, and in system, credential and person",
        [
            slips(with(0, 12), 5, with(0, 3312)),
            slips(with(0, 1200), 15, with(0, 1233)),
            slips(P1, 35, with(1, 331)),
            slips(P1, 55, with(2, 330_005)),
            slips(P1, 70, with(2, 335)),
            slips(P1, 110, with(5, 3_300_000_007)),
            slips(P1, 145, with(5, 337)),
        ]
        .concat(),
    )
}

fn pairs_across_numbers() -> Group {
    (
        "33 for 00 across two numbers without a separator: person and category, category and organisation, organisation and \
         association; and across the first two where all is zero",
        [
            slips([1234, 1, 5, 1, 1, 70, 0, 1234, 1], 155, [1234, 1, 5, 1, 1, 73, 3, 1234, 1]),
            slips([1234, 1, 5, 1, 1, 7, 0, 234, 1], 160, [1234, 1, 5, 1, 1, 7, 3, 3234, 1]),
            slips([1234, 1, 5, 1, 1, 7, 1, 1230, 0], 180, [1234, 1, 5, 1, 1, 7, 1, 1233, 3]),
            slips([0; 9], 155, [0, 0, 0, 0, 0, 3, 3, 0, 0]),
        ]
        .concat(),
    )
}

/// The same two bits of both characters: the first two, the next, the third and the fourth, the fourth and the parity.
fn other_digits() -> Group {
    (
        "other digits by seven bits: 71 becomes 42 across person and category, 00 becomes 66, 98 becomes 54, 00 becomes 88",
        [
            slips(P1, 155, [1234, 1, 5, 1, 1, 4, 2, 1234, 1]),
            slips(P1, 31, with(1, 6601)),
            slips(with(0, 9834), 7, with(0, 5434)),
            slips(P1, 33, with(1, 8801)),
        ]
        .concat(),
    )
}

fn no_digits() -> Group {
    let without_digits = |numbers, first| refused(&slipping(first).on(fascn_of(numbers)));
    (
        "both parities and the check stay, and the two are no digits: 00 becomes 12 and 12, 88 and 99 become 11 and 10, 22 becomes 10",
        [
            without_digits(&P1, 32),
            without_digits(&with(0, 8834), 5),
            without_digits(&with(0, 9934), 5),
            without_digits(&with(0, 2234), 8),
            without_digits(&with(0, 34), 7),
        ]
        .concat(),
    )
}

fn other_characters() -> Group {
    let characters = [0, 4, 5, 9, 10, 16, 17, 18, 19, 20, 21, 37, 38];
    (
        "both parities and the check stay, and one of the two is the start, a separator, the end or the check",
        characters.iter().flat_map(|at| refused(&slipping(5 * at).on(EXAMPLE_FASCN))).collect(),
    )
}

fn some_of_seven() -> Group {
    (
        "of the seven bits from bit 30 on: three of the four, two, one, all seven, and the four with each other one",
        [
            refused_with(&[30, 31, 35]),
            refused_with(&[30, 31, 36]),
            refused_with(&[30, 35, 36]),
            refused_with(&[31, 35, 36]),
            refused_with(&[30, 31]),
            refused_with(&[35, 36]),
            refused_with(&[30, 35]),
            refused_with(&[31, 36]),
            refused_with(&[31, 35]),
            refused_with(&[30, 36]),
            refused_with(&[30]),
            refused_with(&[36]),
            refused_with(&[30, 31, 32, 33, 34, 35, 36]),
            refused_with(&[30, 31, 32, 35, 36]),
            refused_with(&[30, 31, 33, 35, 36]),
            refused_with(&[30, 31, 34, 35, 36]),
        ]
        .concat(),
    )
}

// ---------------------------------------------------------------------------------------------
// Both ends, and two smears

/// Bits at both ends: the first window of six and the last, whole, each of their bits alone, and their two outer bits.
fn bits_at_the_ends() -> Vec<Vec<usize>> {
    let windows = [0, BITS - REFUSED_WIDTH].map(|first| (first..first + REFUSED_WIDTH).collect::<Vec<usize>>());
    let parts = |window: &Vec<usize>| {
        let outer = vec![window[0], window[REFUSED_WIDTH - 1]];
        window.iter().map(|&bit| vec![bit]).chain([window.clone(), outer]).collect::<Vec<_>>()
    };
    windows.iter().flat_map(parts).collect()
}

fn ends() -> Group {
    let whole = |first: u8, last: u8| {
        let mut fascn = EXAMPLE_FASCN;
        (fascn[0], fascn[24]) = (first, last);
        fascn
    };
    // written out: the first bit, the last, the first six and the last six
    let written = [(0x54, 0xEB), (0xD4, 0xEA), (0x28, 0xEB), (0xD4, 0xD4)].map(|(first, last)| whole(first, last));
    let turned = bits_at_the_ends().into_iter().map(|bits| turned(EXAMPLE_FASCN, &bits));
    (
        "P1 with bits turned at either end: the first six and the last six, each of them alone, and two of them",
        written.into_iter().chain(turned).flat_map(|fascn| refused(&fascn)).collect(),
    )
}

fn ends_in_containers() -> Group {
    let ends = [&[0][..], &[BITS - 1], &[0, 1, 2, 3, 4, 5], &[194, 195, 196, 197, 198, 199]];
    (
        "the same in CHUID, FINGERS, FACE and IRIS, checked and written: the first bit, the last, the first six and the last six",
        ends.iter().flat_map(|bits| held(&turned(EXAMPLE_FASCN, bits), 17)).collect(),
    )
}

fn two_smears() -> Group {
    let both = turned(EXAMPLE_FASCN, &[30, 31, 55, 56]);
    (
        "two smears of two bits each that undo each other in the check, and either alone: system 3001 and credential 300005; system \
         3001 and another check",
        [
            vec![decode(&both, Ok([1234, 3001, 300_005, 1, 1, 7, 1, 1234, 1]))],
            held(&both, 0),
            refused_with(&[30, 31]).to_vec(),
            refused_with(&[55, 56]).to_vec(),
            vec![decode(&turned(EXAMPLE_FASCN, &[30, 31, 195, 196]), Ok(with(1, 3001)))],
            refused_with(&[195, 196]).to_vec(),
        ]
        .concat(),
    )
}

// ---------------------------------------------------------------------------------------------
// Every smear within six bits

/// How many calls [`swept`] has: three FASC-N with 63 changes in each of 195 windows; and a container of each of four kinds with each
/// of those strings once, which are 32 for each window and 31 more for the last.
pub const SWEPT: u64 = 3 * 195 * 63 + 4 * (195 * 32 + 31);

/// Every smear within six neighbouring bits of three FASC-N, decoded: 17, and nine zeros. And those of P1 in a small container of each
/// kind that holds one, each damaged string once, checked with a room that would hold its sheet: 17 at the element.
pub fn swept() -> impl Iterator<Item = Case> {
    let smeared = [EXAMPLE_FASCN, EXAMPLE_3301, EXAMPLE_DIGITS];
    let decoded = |fascn| crate::smears::all(REFUSED_WIDTH).map(move |smear: Smear| decode(&smear.on(fascn), Err(17)));
    let checked = |(kind, place, tag, _)| {
        let refused = move |smear: Smear| {
            let card = card_holding(kind, &smear.on(EXAMPLE_FASCN));
            check_into(kind, &card.container(), card.sheet().len(), Err((17, place, Some(tag))))
        };
        each_once(REFUSED_WIDTH).map(refused)
    };
    smeared.into_iter().flat_map(decoded).chain(HOLDERS.into_iter().flat_map(checked))
}
