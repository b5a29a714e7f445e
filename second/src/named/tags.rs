//! The tag of a verdict: calls whose answers name one, by every number that carries a tag, and calls whose answers name none.

use super::*;
use crate::card::all_kinds;

pub fn all() -> Vec<Group> {
    vec![
        tag_cases(),
        unknown_tags(),
        lone_first_bytes(),
        tags_out_of_order(),
        tags_passed_over(),
        nothing_found(),
        tags_of_lengths(),
        outer_faults(),
        missing_sections(),
        tags_of_sections(),
        reported_tags(),
        viewed_tags(),
    ]
}

/// A container with these elements, of at most 127 bytes.
fn holding(kind: u64, elements: &[&[u8]]) -> Vec<u8> {
    let content = elements.concat();
    [&[if kind == 3 { 0x7E } else { 0x53 }, content.len() as u8], &content[..]].concat()
}

/// A check of a container with these elements.
fn check_of(kind: u64, elements: &[&[u8]], number: u64, place: u64, tag: Option<u16>) -> Case {
    check(kind, &holding(kind, elements), (number, place, tag))
}

/// The first element of case R.
fn element_30() -> Vec<u8> {
    [&[0x30, 25], &EXAMPLE_FASCN[..]].concat()
}

/// The two elements of P13.
const ELEMENT_4F: [u8; 13] = [0x4F, 11, 0xA0, 0, 0, 3, 8, 0, 0, 0x10, 0, 1, 0];
const ELEMENT_5F2F: [u8; 5] = [0x5F, 0x2F, 2, 0x40, 0];

/// The worked cases of request 2026-02, in their order; what the desk prints there is a report here.
fn tag_cases() -> Group {
    let fascn = element_30();
    let case_r = holding(2, &[&head(&GUID), &[0x3E, 0, 0xFE, 0]]);
    let wrong = [&[0x30, 25], &wrong_fascn()[..], &[0x34, 16], &GUID].concat();
    let front = [&[0, 0, 0, 26], &EXAMPLE_FASCN[..], &[0, 0, 0, 0]].concat();
    let sheet = |end: &[u8]| [&front[..], &[0, 17], &GUID, &[0, 9], EXPIRES, &[0, 0, 0, 1], end].concat();
    let short_uuid = [&front[..], &[0, 16], &[0; 15], &[0; 6], &[0, 1]].concat();
    (
        "the worked cases of 2026-02",
        vec![
            report(2, &case_r, 512, Ok(CASE_R)),
            check_of(2, &[&wrong], 17, 2, Some(0x30)),
            check(2, &[], alone(10)),
            check(2, &[&case_r[..], &[0]].concat(), alone(12)),
            check_of(2, &[&fascn, &[0, 0]], 13, 29, Some(0x00)),
            check_of(3, &[&ELEMENT_4F, &[0x5F, 0x2E]], 13, 15, Some(0x5F)),
            check_of(3, &[&ELEMENT_4F, &[0x5F, 0x2F, 2, 0x60, 0]], 20, 15, Some(0x5F2F)),
            check_of(2, &[&fascn, &fascn], 14, 29, Some(0x30)),
            check_of(2, &[&fascn, &[0x35, 8], EXPIRES], 15, 29, Some(0x35)),
            check_of(2, &[&head(&GUID), &[0x3E, 0]], 15, 59, None),
            check_of(2, &[], 15, 2, None),
            check_of(2, &[&fascn, &[0x34, 0x81]], 11, 29, Some(0x34)),
            check(2, &[0; 32_769], alone(4)),
            view(2, &case_r, 0x36, Err(alone(6))),
            check_short(2, &case_r, 66),
            write(2, &[0; 18], 99, Err((15, 2, Some(0x30)))),
            write(2, &sheet(&[0, 0]), 99, Err((15, 65, Some(0xFE)))),
            write(2, &short_uuid, 99, Err((16, 33, Some(0x34)))),
            write(2, &sheet(&[0]), 99, Err(alone(5))),
            on(20260229, report(2, &case_r, 512, Err(2))),
        ],
    )
}

fn unknown_tags() -> Group {
    let first = |kind: u64, byte: u8| check_of(kind, &[&[byte, 0]], 13, 2, Some(u16::from(byte)));
    let kinds = all_kinds().flat_map(|kind| {
        // 01 is a tag of PRINTED
        let bytes: &[u8] = if kind == 4 { &[0x00, 0x5F, 0xFF, 0x2F] } else { &[0x00, 0x01, 0x5F, 0xFF, 0x2F] };
        bytes.iter().map(move |&byte| first(kind, byte)).collect::<Vec<_>>()
    });
    let later = vec![
        check_of(5, &[&[0xBA, 0, 0x00, 0, 0xFE, 0]], 13, 4, Some(0x00)),
        check_of(5, &[&[0xBA, 0, 0xBB, 0, 0xFE, 0, 0x00]], 13, 8, Some(0x00)),
        check_of(5, &[&[0xBA, 0, 0xBB, 0, 0xFE, 0, 0x53]], 13, 8, Some(0x53)),
        check_of(11, &[&ELEMENT_70, &[0x5F, 0x2F, 0]], 13, 12, Some(0x5F)),
        check_of(3, &[&ELEMENT_4F, &ELEMENT_5F2F, &[0]], 13, 20, Some(0x00)),
    ];
    (
        "13 names the card's byte: 00, 01, 5F, FF and 2F first in every kind, and 00, 53 and 5F further behind",
        kinds.chain(later).collect(),
    )
}

fn lone_first_bytes() -> Group {
    let unknown = |elements: &[&[u8]], place, byte| check_of(3, elements, 13, place, Some(byte));
    (
        "5F in DISCOVERY, first and behind 4F: with nothing behind it, with 00, 2E, 30, 5F 2F and FF behind it",
        vec![
            unknown(&[&[0x5F]], 2, 0x5F),
            unknown(&[&[0x5F, 0x00]], 2, 0x5F),
            unknown(&[&[0x5F, 0x2E]], 2, 0x5F),
            unknown(&[&[0x5F, 0x5F, 0x2F]], 2, 0x5F),
            unknown(&[&ELEMENT_4F, &[0x5F]], 15, 0x5F),
            unknown(&[&ELEMENT_4F, &[0x5F, 0x00]], 15, 0x5F),
            unknown(&[&ELEMENT_4F, &[0x5F, 0x30]], 15, 0x5F),
            unknown(&[&ELEMENT_4F, &[0x5F, 0x5F, 0x2F]], 15, 0x5F),
            unknown(&[&ELEMENT_4F, &[0x5F, 0xFF]], 15, 0x5F),
            unknown(&[&ELEMENT_4F, &ELEMENT_5F2F, &[0x5F]], 20, 0x5F),
        ],
    )
}

fn tags_out_of_order() -> Group {
    (
        "14 names the element found: one that is there twice, and one that stands behind another",
        vec![
            check_of(3, &[&ELEMENT_4F, &ELEMENT_4F], 14, 15, Some(0x4F)),
            check_of(3, &[&ELEMENT_4F, &ELEMENT_5F2F, &ELEMENT_5F2F], 14, 20, Some(0x5F2F)),
            check_of(3, &[&ELEMENT_4F, &ELEMENT_5F2F, &ELEMENT_4F], 14, 20, Some(0x4F)),
            check_of(5, &[&[0xBA, 0, 0xBB, 0, 0xFE, 0, 0xFE, 0]], 14, 8, Some(0xFE)),
            check_of(5, &[&[0xBA, 0, 0xBB, 0, 0xFE, 0, 0xBA, 0]], 14, 8, Some(0xBA)),
            check_of(11, &[&ELEMENT_70, &ELEMENT_71, &ELEMENT_FE, &[0x72, 0]], 14, 17, Some(0x72)),
        ],
    )
}

fn tags_passed_over() -> Group {
    (
        "15 names the element found, not the one passed over, also where several are",
        vec![
            check_of(3, &[&ELEMENT_5F2F, &ELEMENT_4F], 15, 2, Some(0x5F2F)),
            check_of(3, &[&[0x5F, 0x2F]], 15, 2, Some(0x5F2F)),
            check_of(1, &[&[0xF1, 0]], 15, 2, Some(0xF1)),
            check_of(1, &[&[0xFE, 0]], 15, 2, Some(0xFE)),
            check_of(1, &[&[0xF0, 0, 0xB4]], 15, 4, Some(0xB4)),
            check_of(2, &[&[0xEE, 2, 1, 2, 0x32, 4]], 15, 6, Some(0x32)),
            check_of(2, &[&element_30(), &[0x36, 0x80]], 15, 29, Some(0x36)),
            check_of(4, &[&[0x01, 0, 0x07, 0]], 15, 4, Some(0x07)),
            check_of(6, &[&[0xFE, 0]], 15, 2, Some(0xFE)),
            check_of(8, &[&[0x72, 0]], 15, 2, Some(0x72)),
        ],
    )
}

fn nothing_found() -> Group {
    let empty = all_kinds().map(|kind| check_of(kind, &[], 15, 2, None));
    let ends = vec![
        check_of(3, &[&ELEMENT_4F], 15, 15, None),
        check_of(5, &[&[0xBA, 0]], 15, 4, None),
        check_of(2, &[&[0xEE, 2, 1, 2]], 15, 6, None),
        check_of(11, &[&ELEMENT_70, &ELEMENT_71], 15, 15, None),
    ];
    (
        "15 at the end names none: in every kind without an element, behind an optional one, and with FE alone missing",
        empty.chain(ends).collect(),
    )
}

fn tags_of_lengths() -> Group {
    (
        "11, 12 and 16 of the tag of two bytes, of an optional element and of FE",
        vec![
            check_of(3, &[&ELEMENT_4F, &[0x5F, 0x2F]], 11, 15, Some(0x5F2F)),
            check_of(3, &[&ELEMENT_4F, &[0x5F, 0x2F, 0x81, 0x02]], 11, 15, Some(0x5F2F)),
            check_of(3, &[&ELEMENT_4F, &[0x5F, 0x2F, 3, 0x40, 0]], 12, 15, Some(0x5F2F)),
            check_of(3, &[&ELEMENT_4F, &[0x5F, 0x2F, 1, 0x40]], 16, 15, Some(0x5F2F)),
            check_of(2, &[&[0xEE, 0x80]], 11, 2, Some(0xEE)),
            check_of(2, &[&[0xEE, 3, 1, 2]], 12, 2, Some(0xEE)),
            check_of(2, &[&[0xEE, 0]], 16, 2, Some(0xEE)),
            check_of(5, &[&[0xBA, 0, 0xBB, 0, 0xFE]], 11, 6, Some(0xFE)),
            check_of(5, &[&[0xBA, 0, 0xBB, 0, 0xFE, 1]], 12, 6, Some(0xFE)),
            check_of(5, &[&[0xBA, 0, 0xBB, 0, 0xFE, 1, 0]], 16, 6, Some(0xFE)),
        ],
    )
}

fn outer_faults() -> Group {
    let outer = |kind, container: &[u8], number| check(kind, container, alone(number));
    (
        "faults of the outer tag and length name no tag, whatever is inside",
        vec![
            outer(2, &[0x7E, 2, 0x30, 0], 10),
            outer(3, &[0x53, 2, 0x4F, 0], 10),
            outer(3, &[0x5F, 0x2F, 0], 10),
            outer(2, &[0], 10),
            outer(2, &[0x53], 11),
            outer(2, &[0x53, 0x80, 0x30, 0], 11),
            outer(3, &[0x7E, 0x81, 2, 0x4F, 0], 11),
            outer(2, &[0x53, 0x82, 0x01], 11),
            outer(2, &[0x53, 1, 0x30, 0], 12),
            outer(2, &[0x53, 3, 0x30, 0], 12),
            outer(3, &[0x7E, 0, 0x5F, 0x2F], 12),
        ],
    )
}

/// Sheets without one of their mandatory rows, which is named, in a room that would do.
fn missing_sections() -> Group {
    let without = |card: &Card, row: usize, place: u64, tag: u16| {
        let mut card = card.clone();
        card.rows[row] = None;
        write(card.kind, &card.sheet(), 700, Err((15, place, Some(tag))))
    };
    let (ccc, chuid, discovery, printed) = (ccc(0x10), case_r(), discovery([0x40, 0]), printed(b"AGENT", PRINTED_DATE));
    let (security, face, cardauth) =
        (security(&[1, 2], &[3]), face(100, &least(), 1), certificate(11, &LEAST, 0, None));
    (
        "15 of a sheet names the row that is missing: the first, one in the middle and the last of a kind",
        vec![
            without(&ccc, 0, 0, 0xF0),
            without(&ccc, 6, 37, 0xF6),
            without(&ccc, 14, 70, 0xFE),
            without(&chuid, 1, 2, 0x30),
            without(&chuid, 5, 51, 0x35),
            without(&chuid, 8, 65, 0xFE),
            without(&discovery, 0, 0, 0x4F),
            without(&discovery, 1, 13, 0x5F2F),
            without(&printed, 0, 0, 0x01),
            without(&printed, 7, 56, 0xFE),
            without(&security, 0, 0, 0xBA),
            without(&security, 2, 7, 0xFE),
            without(&face, 0, 0, 0xBC),
            without(&face, 1, 137, 0xFE),
            without(&cardauth, 1, 10, 0x71),
            without(&cardauth, 3, 15, 0xFE),
        ],
    )
}

/// Sheets with a row that breaks a rule, which is named, in a room that would do.
fn tags_of_sections() -> Group {
    let with = |card: &Card, row: usize, value: &[u8], number: u64, place: u64, tag: u16| {
        let mut card = card.clone();
        card.rows[row] = Some(value.to_vec());
        write(card.kind, &card.sheet(), 700, Err((number, place, Some(tag))))
    };
    let (ccc, chuid, discovery, printed) = (ccc(0x10), case_r(), discovery([0x40, 0]), printed(b"AGENT", PRINTED_DATE));
    (
        "16 and the rules of values name the row of a sheet, an optional one too",
        vec![
            with(&ccc, 0, &[1], 16, 0, 0xF0),
            with(&ccc, 5, &[0x11], 20, 34, 0xF5),
            with(&ccc, 12, &[0; 47], 16, 66, 0xE3),
            with(&chuid, 0, &[1], 16, 0, 0xEE),
            with(&chuid, 4, &[0; 16], 18, 33, 0x34),
            with(&chuid, 6, &[0; 16], 18, 61, 0x36),
            with(&chuid, 8, &[0], 16, 65, 0xFE),
            with(&discovery, 0, &[0; 11], 20, 0, 0x4F),
            with(&discovery, 1, &[0x60, 0], 20, 13, 0x5F2F),
            with(&discovery, 1, &[0x40], 16, 13, 0x5F2F),
            with(&printed, 1, &[0x7F], 23, 11, 0x02),
            with(&printed, 2, b"2030FEB30", 19, 18, 0x04),
            with(&printed, 5, &[0], 23, 52, 0x07),
        ],
    )
}

/// The report of a container that breaks a rule.
fn broken_page(kind: u64, name: &str, container: &[u8], verdict: &str) -> Case {
    let (bytes, today) = (container.len(), EXAMPLE_DAY);
    let head = format!("CARD 4\nkind {}\nbytes {}\ntoday {}\n", name, bytes, today);
    report(kind, container, 512, Ok(&format!("{}verdict {}\nELEMENTS 0\nOPEN 0\n", head, verdict)))
}

fn reported_tags() -> Group {
    let discovery = |elements: &[&[u8]], verdict| broken_page(3, "DISCOVERY", &holding(3, elements), verdict);
    let security = |elements: &[u8], verdict| broken_page(5, "SECURITY", &holding(5, &[elements]), verdict);
    (
        "the line verdict: two digits, four for the tag of two bytes, 00 for a byte 00, and -- for none",
        vec![
            security(&[0xBA, 0, 0x00, 0], "13 4 00"),
            security(&[0xBA, 0, 0x0F, 0], "13 4 0F"),
            security(&[0xBA, 0, 0xF0, 0], "13 4 F0"),
            security(&[0xBB, 0], "15 2 BB"),
            security(&[], "15 2 --"),
            security(&[0xBA, 0x80], "11 2 BA"),
            discovery(&[&ELEMENT_4F, &[0x5F]], "13 15 5F"),
            discovery(&[&ELEMENT_4F, &[0x5F, 0x2F]], "11 15 5F2F"),
            discovery(&[&ELEMENT_5F2F], "15 2 5F2F"),
            discovery(&[&ELEMENT_4F], "15 15 --"),
            broken_page(3, "DISCOVERY", &[0x5F, 0x2F], "10 0 --"),
            broken_page(5, "SECURITY", &[0x53, 0x80], "11 0 --"),
            broken_page(5, "SECURITY", &[0x53, 2, 0xBA], "12 0 --"),
        ],
    )
}

fn viewed_tags() -> Group {
    let broken = |kind, elements: &[&[u8]], element, number, place, tag| {
        view(kind, &holding(kind, elements), element, Err((number, place, tag)))
    };
    (
        "a view hands on the tag of the check, not of the element that is asked for; its own 6 names none",
        vec![
            broken(5, &[&[0xBA, 0, 0x00, 0]], 0xBA, 13, 4, Some(0x00)),
            broken(5, &[&[0xBA, 0, 0xBA, 0]], 0xBB, 14, 4, Some(0xBA)),
            broken(5, &[&[0xBA, 0, 0xFE, 0]], 0xBB, 15, 4, Some(0xFE)),
            broken(5, &[&[0xBA, 0, 0xBB, 0]], 0xFE, 15, 6, None),
            broken(3, &[&ELEMENT_4F, &[0x5F, 0x2F, 2, 0, 0]], 0x4F, 20, 15, Some(0x5F2F)),
            broken(3, &[&ELEMENT_4F, &[0x5F]], 0x5F2F, 13, 15, Some(0x5F)),
            view(3, &[0x5F, 0x2F], 0x5F2F, Err(alone(10))),
            view(0, &SMALL, 0xBA, Err(alone(1))),
            on(0, view(5, &SMALL, 0xBA, Err(alone(2)))),
            view(5, &[0; 32_769], 0xBA, Err(alone(4))),
            view(5, &SMALL, 0x70, Err(alone(6))),
            view(5, &SMALL, 65_536, Err(alone(6))),
        ],
    )
}
