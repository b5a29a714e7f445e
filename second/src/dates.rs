//! Printed dates for the generator: as they should be and damaged. The calls on those at an edge are made in every run, and those on
//! days at an edge in the other forms of a date.

use crate::batch::{Call, Record};
use crate::generate::{damage_digits, date, eight, plain, Card, Rng, EXAMPLE_DAY, EXAMPLE_FASCN, YEARS};
use crate::values::{days, MONTHS};
use crate::{faces, samples};

/// A year, three letters and a day, whether or not they make a date.
fn text(year: u64, letters: &[u8; 3], day: u64) -> Vec<u8> {
    [format!("{:04}", year).as_bytes(), letters, format!("{:02}", day).as_bytes()].concat()
}

/// A printed date, at times the first of all or the last.
pub fn printed(rng: &mut Rng) -> Vec<u8> {
    let date = if rng.one_in(12) { rng.pick(&[10101, 99991231]) } else { date(rng) };
    text(date / 10_000, &MONTHS[(date / 100 % 100) as usize - 1], date % 100)
}

// ---------------------------------------------------------------------------------------------
// Damaged ones

/// What is no printed date, or nearly none; it mostly has nine characters.
pub fn damaged(rng: &mut Rng) -> Vec<u8> {
    match rng.below(6) {
        0 | 1 => any_day(rng),
        2 => with_other_letters(rng),
        3 => with_no_digit(rng),
        _ => in_another_form(rng),
    }
}

/// A day of a month that need not have so many, in a year that need not be one.
fn any_day(rng: &mut Rng) -> Vec<u8> {
    let year = if rng.one_in(8) { 0 } else { rng.pick(&YEARS) };
    let month = if rng.one_in(3) { 2 } else { 1 + rng.below(12) };
    let day = match rng.below(6) {
        0 => 0,
        1 | 2 => days(year, month) + 1,
        3 | 4 => rng.pick(&[1, 28, 29, 30, 31, 32]),
        _ => rng.below(100),
    };
    text(year, &MONTHS[month as usize - 1], day)
}

/// One with other letters.
fn with_other_letters(rng: &mut Rng) -> Vec<u8> {
    let mut out = printed(rng);
    match rng.below(3) {
        0 => small_letters(&mut out, rng.size(1, 7)),
        1 => out[4..7].copy_from_slice(&rng.pick(&NO_MONTHS)),
        _ => out[4..7].copy_from_slice(&mixed(rng.pick(&MONTHS), rng.pick(&MONTHS), rng.size(1, 2))),
    }
    out
}

/// Makes some of the three letters small: those whose bits are set.
fn small_letters(text: &mut [u8], which: usize) {
    for at in (0..3).filter(|at| which >> at & 1 == 1) {
        text[4 + at].make_ascii_lowercase();
    }
}

/// Letters that are near to a month's, or that another language has, and none at all.
const NO_MONTHS: [[u8; 3]; 14] = [
    *b"MAI", *b"JAM", *b"JAL", *b"MRZ", *b"OKT", *b"DEZ", *b"DEB", *b"AUN", *b"JA ", *b" JA", *b"   ", *b"001", [0; 3],
    [0xFF; 3],
];

/// So many letters of one month, and the others of another.
fn mixed(one: [u8; 3], other: [u8; 3], letters: usize) -> [u8; 3] {
    let mut out = other;
    out[..letters].copy_from_slice(&one[..letters]);
    out
}

/// One with another byte in the place of a digit.
fn with_no_digit(rng: &mut Rng) -> Vec<u8> {
    let mut out = printed(rng);
    let digits = if rng.one_in(2) { 0..4 } else { 7..9 };
    damage_digits(rng, &mut out[digits]);
    out
}

/// One in another order, of digits alone or of another length.
fn in_another_form(rng: &mut Rng) -> Vec<u8> {
    let mut out = printed(rng);
    match rng.below(3) {
        0 => out = rng.pick(&other_orders(&out)).concat(),
        1 => out.resize(rng.pick(&[0, 8, 10]), b'1'),
        _ => {
            // eight digits, and mostly one character more
            out = eight(date(rng));
            if !rng.one_in(4) {
                out.insert(rng.size(0, 8), rng.pick(b" 0-/\0"));
            }
        }
    }
    out
}

/// Year, month and day of a printed date in every order but the right one.
fn other_orders(text: &[u8]) -> [[&[u8]; 3]; 5] {
    let (year, month, day) = (&text[..4], &text[4..7], &text[7..]);
    [[year, day, month], [month, year, day], [month, day, year], [day, year, month], [day, month, year]]
}

// ---------------------------------------------------------------------------------------------
// Edges

/// Years of which some are leap years, and one is none; and the days around the ends of a month.
const EDGE_YEARS: [u64; 8] = [0, 1, 1900, 2000, 2028, 2030, 2100, 9999];
const EDGE_DAYS: [u64; 7] = [0, 1, 28, 29, 30, 31, 32];

/// A check and a write for each text at an edge, and checks of the days at an edge in the other forms.
pub fn records() -> Vec<Record> {
    let mut out = Vec::new();
    for text in edges() {
        let card = samples::printed(b"AGENT", &text);
        let (container, sheet) = (card.container(), card.sheet());
        for (call, bytes, room) in [(Call::Check, &container, sheet.len()), (Call::Write, &sheet, container.len())] {
            out.push(Record { room, fill: 0xA5, ..plain(call, card.kind, bytes.clone()) });
        }
    }
    out.extend(edges_in_numbers().into_iter().flat_map(in_numbers));
    out
}

/// Days at an edge, as year, month and day.
pub fn edges_in_numbers() -> Vec<(u64, u64, u64)> {
    edges_of_years(&EDGE_YEARS)
}

/// Those of these years, of each month and of those that would come before the first and after the last.
pub fn edges_of_years(years: &[u64]) -> Vec<(u64, u64, u64)> {
    let months = |&year| (0..=13).map(move |month| (year, month));
    let days = |(year, month)| EDGE_DAYS.map(|day| (year, month, day));
    years.iter().flat_map(months).flat_map(days).collect()
}

/// The check of a day in each form in which the month is a number: as today, as the expiry of a CHUID, on New Year's Day of that year,
/// and as the creation of a biometric.
pub fn in_numbers((year, month, day): (u64, u64, u64)) -> [Record; 3] {
    let number = year * 10_000 + month * 100 + day;
    let check = |today, card: Card| Record { today, ..plain(Call::Check, card.kind, card.container()) };
    let mut biometric = samples::face(0xFE, &faces::least(), 1);
    let value = biometric.rows[0].as_mut().expect("a biometric has a value");
    value[12..16].copy_from_slice(&[year / 100, year % 100, month, day].map(|part| part as u8));
    [
        check(number, samples::discovery([0x40, 0])),
        check(year.max(1) * 10_000 + 101, samples::chuid(&EXAMPLE_FASCN, &eight(number), &[0x30])),
        check(EXAMPLE_DAY, biometric),
    ]
}

/// Texts that are printed dates and others that are nearly so.
pub fn edges() -> Vec<Vec<u8>> {
    [edges_of_days(), edges_of_letters(), edges_of_digits(), edges_of_form()].concat()
}

/// The days at an edge, of each month.
fn edges_of_days() -> Vec<Vec<u8>> {
    let mut out = Vec::new();
    for year in EDGE_YEARS {
        for letters in &MONTHS {
            out.extend(EDGE_DAYS.map(|day| text(year, letters, day)));
        }
    }
    out
}

/// The letters of each month, some of them small, or one of them another, or with those of another month.
fn edges_of_letters() -> Vec<Vec<u8>> {
    let mut out = Vec::new();
    for letters in MONTHS {
        for which in 1..=7 {
            let mut small = text(2030, &letters, 1);
            small_letters(&mut small, which);
            out.push(small);
        }
        for at in 0..3 {
            out.extend((b'A'..=b'Z').map(|capital| {
                let mut other = letters;
                other[at] = capital;
                text(2030, &other, 1)
            }));
        }
        for count in [1, 2] {
            out.extend(MONTHS.map(|other| text(2030, &mixed(letters, other, count), 1)));
        }
    }
    out.extend(NO_MONTHS.map(|letters| text(2030, &letters, 1)));
    out
}

/// The bytes beside the digits in the place of each, and a digit with a bit more.
fn edges_of_digits() -> Vec<Vec<u8>> {
    let mut out = Vec::new();
    for at in [0, 1, 2, 3, 7, 8] {
        out.extend([b'/', b':', 0xB1].map(|byte| {
            let mut other = text(2011, &MONTHS[0], 11);
            other[at] = byte;
            other
        }));
    }
    out
}

/// Other orders, digits alone, and every length up to twelve.
fn edges_of_form() -> Vec<Vec<u8>> {
    let good = b"2030JAN31";
    let digits: [&[u8]; 9] = [
        b"20300131",
        b"20300131 ",
        b" 20300131",
        b"2030 0131",
        b"020300131",
        b"203001310",
        b"2030JAN 1",
        b"2030JAN1 ",
        b"2030 JAN1",
    ];
    let mut out: Vec<_> = other_orders(good).iter().map(|parts| parts.concat()).collect();
    out.extend(digits.iter().map(|text| text.to_vec()));
    for length in 0..=12 {
        let mut text = good.to_vec();
        text.resize(length, b'0');
        out.push(text);
    }
    out
}
