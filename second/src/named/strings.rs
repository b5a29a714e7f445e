//! FASC-N decoded many at a time (2026-09): what each string answers, which lists are long enough, and bytes left over.

use super::*;
use crate::batch::ENTRIES_MAX;
use crate::smears::{Smear, EXAMPLE_3301, EXAMPLE_DIGITS};
use crate::values::{fascn_pack, fascn_values, is_digit_place};
use crate::Decoded;

pub fn all() -> Vec<Group> {
    vec![
        no_strings(),
        one_string(),
        several(),
        a_bad_one_among_others(),
        left_over(),
        lists(),
        left_over_first(),
        ends_of_numbers(),
        start_separators_and_end(),
        no_digits(),
        parities(),
        checks(),
        pairs(),
    ]
}

// ---------------------------------------------------------------------------------------------
// The call, and the strings that several groups have

type Fascn = [u8; 25];

/// What a string answers that is no FASC-N.
const BAD: Decoded = Decoded { number: 17, numbers: [0; 9] };

const fn good(numbers: [u64; 9]) -> Decoded {
    Decoded { number: 0, numbers }
}

/// A call with a list of so many entries, which held FF: what the strings answer and zeros behind that, or zeros after a refusal.
fn call(strings: &[u8], entries: usize, outcome: Result<&[Decoded], u64>) -> Case {
    let (number, decoded) = match outcome {
        Ok(decoded) => (0, decoded),
        Err(number) => (number, &[][..]),
    };
    let mut decoded = decoded.to_vec();
    assert!(decoded.len() <= entries, "the answer is longer than the list");
    decoded.resize(entries, Decoded { number: 0, numbers: [0; 9] });
    let record = Record { today: 0, entries, fill: 0xFF, ..given(Call::FascnDecodeByTable, 0, strings) };
    (record, Answer { number, decoded, ..Answer::default() })
}

/// The strings answer this, with a list that is just long enough.
fn decoded(strings: &[Fascn], answers: &[Decoded]) -> Case {
    assert_eq!(strings.len(), answers.len());
    call(&strings.concat(), strings.len(), Ok(answers))
}

/// Each string is no FASC-N, and P1 before them and behind them is one: all in one call.
fn all_bad(strings: &[Fascn]) -> Case {
    let p1 = [EXAMPLE_FASCN];
    let answers = [vec![good(P1)], vec![BAD; strings.len()], vec![good(P1)]].concat();
    decoded(&[&p1, strings, &p1].concat(), &answers)
}

/// P1 with another value in one of its forty characters, each with its parity; and with the check that fits, or with that of P1.
fn with_character(at: usize, value: u8, check_fits: bool) -> Fascn {
    let mut characters = fascn_values(&P1);
    let turned = characters[at] ^ value;
    characters[at] = value;
    if check_fits {
        characters[39] ^= turned;
    }
    fascn_pack(&characters)
}

/// P1 with this change of so many bits from this character on.
fn turned(at: usize, width: usize, turned: u64) -> Fascn {
    Smear { first: 5 * at, width, turned }.on(EXAMPLE_FASCN)
}

const NUMBERS_3301: [u64; 9] = [1234, 3301, 5, 1, 1, 7, 1, 1234, 1];
const NUMBERS_OF_DIGITS: [u64; 9] = [9876, 5432, 109_876, 5, 4, 9_876_543_210, 9, 8049, 7];

/// All digits 0, and all digits 9.
const ZEROS: Fascn = [
    0xD0, 0x42, 0x10, 0xD8, 0x21, 0x08, 0x6C, 0x10, 0x84, 0x21, 0x0D, 0x83, 0x60, 0xD8, 0x21, 0x08, 0x42, 0x10, 0x84,
    0x21, 0x08, 0x42, 0x10, 0x87, 0xF3,
];
const NINES: Fascn = [
    0xD4, 0xE7, 0x39, 0xDA, 0x73, 0x9C, 0xED, 0x39, 0xCE, 0x73, 0x9D, 0xA7, 0x69, 0xDA, 0x73, 0x9C, 0xE7, 0x39, 0xCE,
    0x73, 0x9C, 0xE7, 0x39, 0xCF, 0xF3,
];
const MOST: [u64; 9] = [9999, 9999, 999_999, 9, 9, 9_999_999_999, 9, 9999, 9];

// ---------------------------------------------------------------------------------------------
// Strings

fn no_strings() -> Group {
    (
        "no strings into no list, and into lists of one, three and the most entries",
        vec![call(&[], 0, Ok(&[])), call(&[], 1, Ok(&[])), call(&[], 3, Ok(&[])), call(&[], ENTRIES_MAX, Ok(&[]))],
    )
}

fn one_string() -> Group {
    (
        "one string: P1, P2, 25 bytes that are all 00 or FF, P1 with the system 3301, one with every digit",
        vec![
            decoded(&[EXAMPLE_FASCN], &[good([1234, 1, 5, 1, 1, 7, 1, 1234, 1])]),
            decoded(&[wrong_fascn()], &[BAD]),
            decoded(&[[0; 25]], &[BAD]),
            decoded(&[[0xFF; 25]], &[BAD]),
            decoded(&[EXAMPLE_3301], &[good(NUMBERS_3301)]),
            decoded(&[EXAMPLE_DIGITS], &[good(NUMBERS_OF_DIGITS)]),
        ],
    )
}

fn several() -> Group {
    let [p1, p2, other, digits] = [EXAMPLE_FASCN, wrong_fascn(), EXAMPLE_3301, EXAMPLE_DIGITS];
    (
        "several strings in their order: the same one twice, good ones, bad ones, and as many as a list has entries",
        vec![
            decoded(&[p1, p1], &[good(P1), good(P1)]),
            decoded(&[p1, other, digits], &[good(P1), good(NUMBERS_3301), good(NUMBERS_OF_DIGITS)]),
            decoded(&[digits, other, p1], &[good(NUMBERS_OF_DIGITS), good(NUMBERS_3301), good(P1)]),
            decoded(&[p2, p2], &[BAD, BAD]),
            decoded(&[[0; 25], p2, [0xFF; 25]], &[BAD, BAD, BAD]),
            decoded(&[digits; ENTRIES_MAX], &[good(NUMBERS_OF_DIGITS); ENTRIES_MAX]),
            decoded(&[p2; ENTRIES_MAX], &[BAD; ENTRIES_MAX]),
        ],
    )
}

fn a_bad_one_among_others() -> Group {
    let [p1, p2, digits] = [EXAMPLE_FASCN, wrong_fascn(), EXAMPLE_DIGITS];
    let [one, other] = [good(P1), good(NUMBERS_OF_DIGITS)];
    (
        "a bad string before, between and behind good ones, a good one between bad ones, and all in turn",
        vec![
            decoded(&[p2, p1, digits], &[BAD, one, other]),
            decoded(&[p1, p2, digits], &[one, BAD, other]),
            decoded(&[p1, digits, p2], &[one, other, BAD]),
            decoded(&[p2, digits, p2], &[BAD, other, BAD]),
            decoded(&[p1, p2, p2, digits], &[one, BAD, BAD, other]),
            decoded(&[p1, [0; 25], digits, [0xFF; 25], p1], &[one, BAD, other, BAD, one]),
        ],
    )
}

// ---------------------------------------------------------------------------------------------
// Lengths of strings and of lists

fn left_over() -> Group {
    let pair = [EXAMPLE_FASCN, EXAMPLE_DIGITS].concat();
    let each = |more: usize| {
        [
            call(&pair[..more], 0, Err(17)),
            call(&pair[..more], 1, Err(17)),
            call(&pair[..25 + more], 1, Err(17)),
            call(&pair[..25 + more], 2, Err(17)),
            call(&pair[..25 + more], 5, Err(17)),
            call(&[&[0; 50][..], &pair[..more]].concat(), 3, Err(17)),
        ]
    };
    (
        "one to 24 bytes left over, behind nothing, behind P1 and behind two bad strings",
        (1..25).flat_map(each).collect(),
    )
}

fn lists() -> Group {
    let [one, two] = [[EXAMPLE_FASCN, wrong_fascn()].concat(), [EXAMPLE_DIGITS; 2].concat()];
    let (first, second) = ([good(P1), BAD], [good(NUMBERS_OF_DIGITS); 2]);
    let (four, answers) = ([&one[..], &two].concat(), [first, second].concat());
    (
        "lists that are one entry too short, or have none, that are just long enough, and that are longer, with zeros behind the \
         last",
        vec![
            call(&EXAMPLE_FASCN, 0, Err(3)),
            call(&EXAMPLE_FASCN, 1, Ok(&first[..1])),
            call(&EXAMPLE_FASCN, 2, Ok(&first[..1])),
            call(&EXAMPLE_FASCN, ENTRIES_MAX, Ok(&first[..1])),
            call(&wrong_fascn(), 0, Err(3)),
            call(&wrong_fascn(), 3, Ok(&[BAD])),
            call(&one, 0, Err(3)),
            call(&one, 1, Err(3)),
            call(&one, 2, Ok(&first)),
            call(&one, 3, Ok(&first)),
            call(&four, 3, Err(3)),
            call(&four, 4, Ok(&answers)),
            call(&four, 5, Ok(&answers)),
            call(&four, 100, Ok(&answers)),
            call(&[EXAMPLE_FASCN; ENTRIES_MAX].concat(), ENTRIES_MAX - 1, Err(3)),
        ],
    )
}

fn left_over_first() -> Group {
    let strings = [EXAMPLE_FASCN, wrong_fascn(), EXAMPLE_DIGITS].concat();
    (
        "bytes left over and a list that is too short as well: 17 before 3",
        vec![
            call(&strings[..26], 0, Err(17)),
            call(&strings[..49], 0, Err(17)),
            call(&strings[..51], 0, Err(17)),
            call(&strings[..51], 1, Err(17)),
            call(&strings[..74], 1, Err(17)),
            call(&strings[..75], 2, Err(3)),
        ],
    )
}

// ---------------------------------------------------------------------------------------------
// Characters

fn ends_of_numbers() -> Group {
    let only = |field: usize| {
        let mut numbers = [0; 9];
        numbers[field] = MOST[field];
        decoded(&[ZEROS, fascn_pack(&fascn_values(&numbers))], &[good([0; 9]), good(numbers)])
    };
    let all = vec![decoded(&[ZEROS], &[good([0; 9])]), decoded(&[NINES, ZEROS], &[good(MOST), good([0; 9])])];
    (
        "all digits 0, all digits 9, and the digits 9 of one of the nine numbers alone",
        [all, (0..9).map(only).collect()].concat(),
    )
}

fn start_separators_and_end() -> Group {
    let each = |at: usize| {
        let right = fascn_values(&P1)[at];
        let others: Vec<Fascn> =
            (0..16).filter(|&value| value != right).map(|value| with_character(at, value, true)).collect();
        all_bad(&others)
    };
    (
        "the start, a separator or the end as each other value, with the check that fits",
        [0, 5, 10, 17, 19, 21, 38].into_iter().map(each).collect(),
    )
}

fn no_digits() -> Group {
    let each = |at: usize| all_bad(&[10, 11, 12, 13, 14, 15].map(|value| with_character(at, value, true)));
    (
        "10 to 15 in the place of each digit, with the check that fits",
        (0..40).filter(|&at| is_digit_place(at)).map(each).collect(),
    )
}

fn parities() -> Group {
    let each: Vec<Fascn> = (0..40).map(|at| turned(at, 5, 1)).collect();
    ("P1 with the parity of one of its characters turned, which is all that is wrong", vec![all_bad(&each)])
}

fn checks() -> Group {
    let check = fascn_values(&P1)[39];
    let others: Vec<Fascn> =
        (0..16).filter(|&value| value != check).map(|value| with_character(39, value, false)).collect();
    let other_digits: Vec<Fascn> = (0..40)
        .filter(|&at| is_digit_place(at))
        .map(|at| with_character(at, if fascn_values(&P1)[at] == 0 { 1 } else { 0 }, false))
        .collect();
    (
        "P1 with another check, and with another digit that its check does not fit, which is all that is wrong",
        vec![all_bad(&others), all_bad(&other_digits)],
    )
}

fn pairs() -> Group {
    let each = |at: usize| {
        let others: Vec<Fascn> = (1..1024).map(|other| turned(at, 10, other)).collect();
        others.chunks(ENTRIES_MAX - 2).map(all_bad).collect::<Vec<_>>()
    };
    (
        "P1 with every other ten bits where the start, a separator or the end stands: the first ten, the last ten, and five \
         between",
        [0, 4, 10, 16, 18, 20, 38].into_iter().flat_map(each).collect(),
    )
}
