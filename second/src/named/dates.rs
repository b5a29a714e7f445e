//! The printed date: what is one and what is none, which lengths are refused, and what each call answers on a PRINTED with it.

use super::*;

pub fn all() -> Vec<Group> {
    vec![
        date_cases(),
        request_words(),
        last_days(),
        leap_days(),
        first_days(),
        years(),
        small_letters(),
        letters_of_no_month(),
        months_mixed(),
        no_digits(),
        other_forms(),
        other_lengths(),
        no_window(),
        order_of_rules(),
        order_of_elements(),
        viewed_dates(),
        reported_dates(),
    ]
}

/// Each of these as the date of a PRINTED that is checked, and of a sheet that is written, in rooms that suffice. 04 stands at 20
/// of the container, and its count at 18 of the sheet.
fn each(number: u64, dates: impl IntoIterator<Item = impl AsRef<[u8]>>) -> Vec<Case> {
    let both = |date: &[u8]| checked_and_written(&printed(b"AGENT", date), number, 0x04, [20, 18]);
    dates.into_iter().flat_map(|date| both(date.as_ref())).collect()
}

/// The container of the worked cases with this date, whose tag stands at 7.
fn case_of(date: &[u8]) -> Vec<u8> {
    let front = [0x01, 1, b'N', 0x02, 0, 0x04, date.len() as u8];
    let content = [&front, date, &[0x05, 0, 0x06, 15], ISSUER, &[0xFE, 0]].concat();
    [&[0x53, content.len() as u8], &content[..]].concat()
}

const ISSUER: &[u8] = b"ISSUER-ABCDEFGH";

/// The worked cases of request 2026-03, in their order; what the desk prints there is a report here.
fn date_cases() -> Group {
    let kept = |date: &[u8]| check(4, &case_of(date), CONFORMS);
    let refused = |date: &[u8], number| check(4, &case_of(date), (number, 7, Some(0x04)));
    let sheet = [&[0, 2, b'N', 0, 1, 0, 10], &b"2030FEB30"[..], &[0, 1, 0, 16], ISSUER, &[0, 0, 0, 0, 0, 1]].concat();
    let text = "CARD 4\nkind PRINTED\nbytes 39\ntoday 20260301\nverdict 0 0 --\nELEMENTS 6\n01 1\n02 0\n04 9\n05 0\n06 15\nFE 0\nOPEN 1\nissuer ISSUER-ABCDEFGH\n";
    (
        "the worked cases of 2026-03",
        vec![
            kept(b"2030JAN31"),
            refused(b"20300131", 16),
            refused(b"2030JAN310", 16),
            refused(b"", 16),
            refused(b"020300131", 19),
            refused(b"2030jan31", 19),
            refused(b"2030MAI05", 19),
            refused(b"31JAN2030", 19),
            refused(b"2030JAN00", 19),
            refused(b"2030SEP31", 19),
            kept(b"2030SEP30"),
            kept(b"2028FEB29"),
            refused(b"2030FEB29", 19),
            refused(b"2100FEB29", 19),
            kept(b"2000FEB29"),
            refused(b"0000JAN01", 19),
            kept(b"0001JAN01"),
            kept(b"9999DEC31"),
            report(4, &case_of(b"2030JAN31"), 512, Ok(text)),
            write(4, &sheet, 99, Err((19, 5, Some(0x04)))),
        ],
    )
}

fn request_words() -> Group {
    (
        "2030JAN31; small letters, 30 February, year 0000, a letter for a digit, eight digits and a space; eight digits alone",
        [
            each(0, ["2030JAN31"]),
            each(19, ["2030jan31", "2030FEB30", "0000JAN01", "2030JAN3x", "20300131 "]),
            each(16, ["20300131"]),
        ]
        .concat(),
    )
}

/// Each month of 2030 with its last day.
const LAST_DAYS: [&str; 12] = [
    "2030JAN31",
    "2030FEB28",
    "2030MAR31",
    "2030APR30",
    "2030MAY31",
    "2030JUN30",
    "2030JUL31",
    "2030AUG31",
    "2030SEP30",
    "2030OCT31",
    "2030NOV30",
    "2030DEC31",
];

/// The same with the day after that.
const DAYS_AFTER: [&str; 12] = [
    "2030JAN32",
    "2030FEB29",
    "2030MAR32",
    "2030APR31",
    "2030MAY32",
    "2030JUN31",
    "2030JUL32",
    "2030AUG32",
    "2030SEP31",
    "2030OCT32",
    "2030NOV31",
    "2030DEC32",
];

fn last_days() -> Group {
    (
        "each month on its last day and on the day after; the days 40 and 99",
        [each(0, LAST_DAYS), each(19, DAYS_AFTER), each(19, ["2030JAN40", "2030JAN99"])].concat(),
    )
}

fn leap_days() -> Group {
    (
        "29 February of leap years and of others, and 30 February of a leap year",
        [
            each(0, ["2028FEB29", "2000FEB29", "2400FEB29", "1600FEB29", "0004FEB29", "9996FEB29"]),
            each(19, ["2030FEB29", "2100FEB29", "1900FEB29", "0100FEB29", "9999FEB29", "2028FEB30", "2000FEB30"]),
        ]
        .concat(),
    )
}

fn first_days() -> Group {
    let first = |date: &str| date[..7].to_string() + "01";
    let before = |date: &str| date[..7].to_string() + "00";
    (
        "each month on its first day and on the day 00",
        [each(0, LAST_DAYS.map(first)), each(19, LAST_DAYS.map(before))].concat(),
    )
}

fn years() -> Group {
    (
        "the first date and the last, the first and the last year; the year 0000, which would be a leap year",
        [
            each(0, ["0001JAN01", "0001DEC31", "0009MAY09", "0999JUL31", "1000AUG01", "9999JAN01", "9999DEC31"]),
            each(19, ["0000JAN01", "0000FEB29", "0000DEC31", "0001JAN00", "9999DEC32"]),
        ]
        .concat(),
    )
}

fn small_letters() -> Group {
    (
        "small letters in one, two and three places",
        each(
            19,
            ["2030jAN31", "2030JaN31", "2030JAn31", "2030jaN31", "2030jAn31", "2030Jan31", "2030may31", "2030Dec31"],
        ),
    )
}

fn letters_of_no_month() -> Group {
    let with = |letters: [u8; 3]| [b"2030", &letters[..], b"01"].concat();
    (
        "letters of no month: one beside the right one, of another language, spaces, digits, with a bit more and zeros",
        [
            each(19, ["IAN", "KAN", "J@N", "JBN", "JAM", "JAO", "MAI", "DEZ", "OKT", "AAA", "ZZZ"].map(month_of_2030)),
            each(19, ["JA ", " JA", "   ", "001", "JA1", "JA-"].map(month_of_2030)),
            each(19, [[0xCA, 0x41, 0x4E], [0x4A, 0x41, 0xCE], [0x4A, 0x41, 0], [0; 3], [0xFF; 3]].map(with)),
        ]
        .concat(),
    )
}

/// The first day of what should be a month of 2030.
fn month_of_2030(letters: &str) -> String {
    ["2030", letters, "01"].concat()
}

fn months_mixed() -> Group {
    (
        "first letters of one month and last ones of another, those that make a month and others; turned round",
        [
            each(0, ["JUN", "JUL", "MAR", "MAY"].map(month_of_2030)),
            each(19, ["JEB", "JAB", "JAR", "FAN", "FEC", "MAN", "MAG", "APN", "APY", "AUL"].map(month_of_2030)),
            each(19, ["AUR", "SEB", "SEC", "OEC", "OCV", "NOP", "NCT", "DEB", "DAN", "JUG"].map(month_of_2030)),
            each(19, ["NAJ", "ANJ", "JNA", "BEF", "YAM", "CED"].map(month_of_2030)),
        ]
        .concat(),
    )
}

/// The date with this byte in the place of a digit.
fn with_byte(at: usize, byte: u8) -> Vec<u8> {
    let mut date = PRINTED_DATE.to_vec();
    date[at] = byte;
    date
}

fn no_digits() -> Group {
    let places = [0, 1, 2, 3, 7, 8];
    let in_each_place = |byte| each(19, places.map(|at| with_byte(at, byte)));
    (
        "in the place of each digit the bytes beside the digits, a space, a sign, a zero byte, and a digit with a bit more",
        [b'/', b':', b' ', b'+', 0x00, 0xB1].iter().flat_map(|&byte| in_each_place(byte)).collect(),
    )
}

fn other_forms() -> Group {
    (
        "the parts in other orders, digits alone, and a part that is too short, with a character more",
        [
            each(19, ["31JAN2030", "JAN312030", "203031JAN", "JAN203031", "312030JAN"]),
            each(19, [" 20300131", "2030 0131", "020300131", "203001310", "2030-0131", "000000000"]),
            each(19, ["2030JAN 1", "2030JAN1 ", "2030 JAN1", " 2030JAN1", "02030JAN1", "30JAN0031"]),
        ]
        .concat(),
    )
}

fn other_lengths() -> Group {
    let of = |length: usize| {
        let mut date = PRINTED_DATE.to_vec();
        date.resize(length, b'1');
        date
    };
    (
        "lengths of 0 to 20 characters, of which 9 are good; eight digits; ten characters with a date in them",
        [
            each(16, (0..9).map(of)),
            each(0, [of(9)]),
            each(16, (10..=20).map(of)),
            each(16, ["20300131", "20260301", "2030JAN1", "30JAN031"]),
            each(16, [" 2030JAN31", "02030JAN31", "2030JAN31 ", "2030JAN031", "2030 JAN31", "2030JAN310"]),
        ]
        .concat(),
    )
}

fn no_window() -> Group {
    let days = [10101, 20231231, 20240130, 20300131, 20300201, 99991231];
    let dates = ["2030JAN31", "0001JAN01", "9999DEC31"];
    let on_day = |today: u64| each(0, dates).into_iter().map(move |case| on(today, case));
    (
        "2030JAN31 long before that day, over six years before it, on it and after it; the first and the last date on these days",
        days.into_iter().flat_map(on_day).collect(),
    )
}

fn order_of_rules() -> Group {
    let with = |affiliation: &[u8], date: &[u8], serial: &[u8], verdict| {
        let texts: [&[u8]; 5] = [b"DOE, JANE", affiliation, date, serial, b"GENERIC SENDER "];
        let mut values = texts.map(Some).to_vec();
        values.extend([None, None, Some(&[][..])]);
        check(4, &card(4, &values).container(), verdict)
    };
    let at_04 = |number| (number, 20, Some(0x04));
    (
        "a fault before the date and one behind it; 16 before 19, and 19 for a byte that a text may not have",
        vec![
            with(b"AGEN\x7F", b"2030FEB30", b"1234", (23, 13, Some(0x02))),
            with(b"AGENT", b"2030FEB30", b"123\x7F", at_04(19)),
            with(b"AGENT", b"20300230", b"123\x7F", at_04(16)),
            with(b"AGENT", PRINTED_DATE, b"123\x7F", (23, 31, Some(0x05))),
            with(b"AGENT", b"\x1F030JAN31", b"1234", at_04(19)),
            with(b"AGENT", b"2030JAN3\x7F", b"1234", at_04(19)),
        ],
    )
}

fn order_of_elements() -> Group {
    let front = |end: &[u8], number, place, tag| {
        check(4, &[&[0x53, 4 + end.len() as u8, 0x01, 0, 0x02, 0], end].concat(), (number, place, tag))
    };
    (
        "04 without a length, with one in a form that is refused or beyond the end, before 16 and 19; twice, missing, and last",
        vec![
            front(&[0x04], 11, 6, Some(0x04)),
            front(b"\x04\x81\x092030JAN31", 11, 6, Some(0x04)),
            front(b"\x04\x0920300131", 12, 6, Some(0x04)),
            front(b"\x04\x0820300131\x06", 16, 6, Some(0x04)),
            front(b"\x04\x092030FEB30\x06", 19, 6, Some(0x04)),
            front(b"\x04\x092030JAN31\x04\x092030FEB30", 14, 17, Some(0x04)),
            front(b"\x04\x092030JAN31\x06", 15, 17, Some(0x06)),
            front(b"\x04\x092030JAN31", 15, 17, None),
            front(&[0x05, 0], 15, 6, Some(0x05)),
        ],
    )
}

fn viewed_dates() -> Group {
    let of = |date: &[u8], element, outcome| view(4, &printed(b"AGENT", date).container(), element, outcome);
    let refused = |number| Err((number, 20, Some(0x04)));
    (
        "views of a PRINTED: the date, and what stands before and behind it; no part where the date is none",
        vec![
            of(PRINTED_DATE, 0x02, Ok((15, 5))),
            of(PRINTED_DATE, 0x04, Ok((22, 9))),
            of(PRINTED_DATE, 0x05, Ok((33, 4))),
            of(PRINTED_DATE, 0x06, Ok((39, 15))),
            of(PRINTED_DATE, 0xFE, Ok((56, 0))),
            of(PRINTED_DATE, 0x35, Err(alone(6))),
            of(b"2030FEB30", 0x04, refused(19)),
            of(b"2030FEB30", 0x01, refused(19)),
            of(b"20300131", 0x04, refused(16)),
            of(b"20300131", 0x06, refused(16)),
        ],
    )
}

fn reported_dates() -> Group {
    let page = |date: &[u8], bytes: usize, lines: &str| {
        let head = format!("CARD 4\nkind PRINTED\nbytes {}\ntoday 20260301\nverdict ", bytes);
        report(4, &printed(b"AGENT", date).container(), 512, Ok(&(head + lines)))
    };
    let good = "0 0 --\nELEMENTS 6\n01 9\n02 5\n04 9\n05 4\n06 15\nFE 0\nOPEN 1\nissuer GENERIC SENDER \n";
    let broken = |verdict: &str| verdict.to_string() + "\nELEMENTS 0\nOPEN 0\n";
    (
        "reports of a PRINTED: one for every date; what is refused, with the bytes that are given",
        vec![
            page(PRINTED_DATE, 56, good),
            page(b"0001JAN01", 56, good),
            page(b"9999DEC31", 56, good),
            page(b"2030FEB30", 56, &broken("19 20 04")),
            page(b"20300131 ", 56, &broken("19 20 04")),
            page(b"20300131", 55, &broken("16 20 04")),
            page(b"2030JAN310", 57, &broken("16 20 04")),
            page(b"", 47, &broken("16 20 04")),
        ],
    )
}
