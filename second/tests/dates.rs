//! The printed date of request 2026-03, and the days of the calendar in every form.

use second::batch::Call;
use second::dates;
use second::generate::{Inputs, Rng};
use second::samples::printed;
use second::values::is_printed_date;
use std::collections::BTreeSet;

mod common;

const ROUNDS: usize = 20_000;

// ---------------------------------------------------------------------------------------------
// What is a date

/// The months, with their days in a common year.
const CALENDAR: [(&[u8; 3], u64); 12] = [
    (b"JAN", 31),
    (b"FEB", 28),
    (b"MAR", 31),
    (b"APR", 30),
    (b"MAY", 31),
    (b"JUN", 30),
    (b"JUL", 31),
    (b"AUG", 31),
    (b"SEP", 30),
    (b"OCT", 31),
    (b"NOV", 30),
    (b"DEC", 31),
];

/// The months of a year, with their days; none of the year 0, which is no year.
fn months_of(year: u64) -> Vec<(&'static [u8; 3], u64)> {
    if year == 0 {
        return Vec::new();
    }
    let leap = (year % 4 == 0) ^ (year % 100 == 0) ^ (year % 400 == 0);
    CALENDAR.iter().map(|&(month, days)| (month, days + u64::from(leap && month == b"FEB"))).collect()
}

fn text(year: u64, month: &[u8; 3], day: u64) -> [u8; 9] {
    let digit = |number: u64| b'0' + (number % 10) as u8;
    let [a, b, c] = *month;
    [digit(year / 1000), digit(year / 100), digit(year / 10), digit(year), a, b, c, digit(day / 10), digit(day)]
}

/// The number by a reader of another make: it looks for the text among all days of its year.
fn judged_by_calendar(date: &[u8]) -> u64 {
    if date.len() != 9 {
        return 16;
    }
    // what is no digit makes some year, whose days are spelled otherwise
    let year = date[..4].iter().fold(0, |year, &byte| year * 10 + u64::from(byte % 16));
    let mut months = months_of(year).into_iter();
    if months.any(|(month, days)| (1..=days).any(|day| text(year, month, day) == date)) {
        0
    } else {
        19
    }
}

#[test]
fn examples_of_the_request() {
    for date in ["2030JAN31", "2028FEB29", "2000FEB29", "0001JAN01", "9999DEC31"] {
        assert!(is_printed_date(date.as_bytes()), "{}", date);
    }
    for date in ["2030jan31", "2030FEB30", "2100FEB29", "0000JAN01", "2030JAN3x", "20300131 ", "31JAN2030"] {
        assert!(!is_printed_date(date.as_bytes()), "{}", date);
    }
}

/// Every year, month and day that can be written in as many digits. There are 3,652,059 days in 9,999 years.
#[test]
fn every_day() {
    let mut days = 0;
    for year in 0..10_000 {
        let months = months_of(year);
        for (i, (month, _)) in CALENDAR.iter().enumerate() {
            let last = months.get(i).map_or(0, |month| month.1);
            for day in 0..100 {
                let good = is_printed_date(&text(year, month, day));
                assert_eq!(good, 1 <= day && day <= last, "{} {} {}", year, i, day);
                days += u64::from(good);
            }
        }
    }
    assert_eq!(days, 3_652_059);
}

/// All three bytes that are letters, capitals or small, and each month with any byte in each place.
#[test]
fn every_letter() {
    let is_month = |letters: &[u8; 3]| CALENDAR.iter().any(|(month, _)| *month == letters);
    let judge = |letters: [u8; 3]| {
        let good = is_printed_date(&text(2030, &letters, 28));
        assert_eq!(good, is_month(&letters), "{:?}", letters);
        usize::from(good)
    };
    let letters: Vec<u8> = (b'A'..=b'Z').chain(b'a'..=b'z').collect();
    let mut months = 0;
    for &first in &letters {
        for &second in &letters {
            months += letters.iter().map(|&third| judge([first, second, third])).sum::<usize>();
        }
    }
    assert_eq!(months, 12);
    for (month, _) in CALENDAR {
        for at in 0..3 {
            for byte in 0..=255 {
                let mut letters = *month;
                letters[at] = byte;
                judge(letters);
            }
        }
    }
}

/// Any byte in the place of each digit.
#[test]
fn every_digit() {
    for at in [0, 1, 2, 3, 7, 8] {
        for byte in 0..=255 {
            let mut date = *b"2028FEB11";
            date[at] = byte;
            assert_eq!(is_printed_date(&date), judged_by_calendar(&date) == 0, "{:?}", date);
            assert!(byte.is_ascii_digit() || !is_printed_date(&date), "{:?}", date);
        }
    }
}

// ---------------------------------------------------------------------------------------------
// Containers and sheets

/// What each call answers on a PRINTED with this date: 16, 19 or none. There are 18 bytes between the outer length and 04.
fn each_call(date: &[u8], number: u64) {
    let (place, page) = common::each_call(&printed(b"AGENT", date), 2, 0x04, 18, number);
    assert_eq!(page.contains("\n04 9\n"), number == 0);
    assert_eq!(page.contains(&format!("\nverdict {} {} 04\n", number, place)), number != 0);
}

#[test]
fn every_length() {
    for length in 0..300 {
        let mut date = b"2030JAN31".to_vec();
        date.resize(length, b'1');
        each_call(&date, if length == 9 { 0 } else { 16 });
    }
}

#[test]
fn edges() {
    let mut numbers = BTreeSet::new();
    for date in dates::edges() {
        let number = judged_by_calendar(&date);
        each_call(&date, number);
        numbers.insert(number);
    }
    assert!(numbers.into_iter().eq([0, 16, 19]));
}

/// As today, as the expiry of a CHUID and as the creation of a biometric a day is refused exactly where the calendar has none.
#[test]
fn edges_in_numbers() {
    for (year, month, day) in dates::edges_in_numbers() {
        let days = month.checked_sub(1).and_then(|before| months_of(year).get(before as usize).map(|&(_, days)| days));
        let there = days.map_or(false, |days| (1..=days).contains(&day));
        let numbers = dates::in_numbers((year, month, day)).map(|record| record.answer().number);
        assert_eq!(numbers, if there { [0, 0, 0] } else { [2, 19, 21] }, "{:?}", (year, month, day));
    }
}

// ---------------------------------------------------------------------------------------------
// What is made

/// The first and the last day of each month are made, the last of February in both sorts of years, and the first and last date.
#[test]
fn made_dates() {
    let mut rng = Rng::new(31);
    let (mut days, mut whole) = (BTreeSet::new(), BTreeSet::new());
    for _ in 0..ROUNDS {
        let date = dates::printed(&mut rng);
        assert_eq!(judged_by_calendar(&date), 0, "{:?}", date);
        days.insert(date[4..].to_vec());
        whole.insert(date);
    }
    for (month, last) in CALENDAR.into_iter().chain([(b"FEB", 29)]) {
        for day in [1, last] {
            assert!(days.contains(&text(2030, month, day)[4..]), "{:?} {}", month, day);
        }
    }
    assert!(whole.contains(&b"0001JAN01"[..]) && whole.contains(&b"9999DEC31"[..]));
}

/// Whether each of these bytes is a digit, a capital, a small letter or another one, as 9, A, a and a dot.
fn shape(date: &[u8]) -> String {
    let sort = |&byte: &u8| match byte {
        b'0'..=b'9' => '9',
        b'A'..=b'Z' => 'A',
        b'a'..=b'z' => 'a',
        _ => '.',
    };
    date.iter().map(sort).collect()
}

/// Shapes of damaged dates: small letters, others than digits or letters, other orders, digits alone, and other lengths.
const SHAPES: [&str; 23] = [
    "9999aAA99",
    "9999AaA99",
    "9999AAa99",
    "9999aaA99",
    "9999aAa99",
    "9999Aaa99",
    "9999aaa99",
    ".999AAA99",
    "999.AAA99",
    "9999AAA.9",
    "9999AAA9.",
    "9999...99",
    "99AAA9999",
    "999999AAA",
    "AAA999999",
    "99999999.",
    ".99999999",
    "9999.9999",
    "999999999",
    "99999999",
    "9999AAA9",
    "9999AAA999",
    "",
];

/// Both readers agree on damaged ones, among which is every sort of damage.
#[test]
fn damaged_dates() {
    let mut rng = Rng::new(32);
    let (mut counts, mut shapes, mut parts) = ([0; 20], BTreeSet::new(), BTreeSet::new());
    for _ in 0..ROUNDS {
        let date = dates::damaged(&mut rng);
        let number = judged_by_calendar(&date);
        assert_eq!(number == 0, date.len() == 9 && is_printed_date(&date), "{:?}", date);
        counts[number as usize] += 1;
        let shape = shape(&date);
        if number == 19 && shape == "9999AAA99" {
            parts.extend([date[..4].to_vec(), date[4..7].to_vec(), date[4..].to_vec()]);
        }
        shapes.insert(shape);
    }
    assert!([0, 16, 19].iter().all(|&number| counts[number] > 500), "{:?}", counts);
    for sort in SHAPES {
        assert!(shapes.contains(sort), "{}", sort);
    }
    for part in ["0000", "MAI", "JAM", "JAN00", "JAN32", "FEB29", "FEB30", "APR31", "DEC32"] {
        assert!(parts.contains(part.as_bytes()), "{}", part);
    }
}

/// The date of a PRINTED is refused by every call, for its length and for itself.
#[test]
fn calls_on_dates_are_made() {
    let mut inputs = Inputs::made(33);
    let mut seen = BTreeSet::new();
    for record in (0..80_000).map(|_| inputs.record()).filter(|record| record.kind == 4) {
        let answer = record.answer();
        seen.insert((record.call, answer.number, answer.tag));
    }
    for call in [Call::Check, Call::View, Call::Write] {
        for number in [16, 19] {
            assert!(seen.contains(&(call, number, Some(0x04))), "{:?} {}", call, number);
        }
    }
}
