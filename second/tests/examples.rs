//! 01's examples, and the cases that it names to be run.

use second::card::{all_kinds, length_at, CONFORMS, LAST_KIND};
use second::generate::{example_chuid, small, EXAMPLE_DAY, EXAMPLE_DISCOVERY, EXAMPLE_FASCN};
use second::named::{self, CASE_R};
use second::report::DESK_INPUT_MAX;
use second::values::{is_expiry, text_date};
use second::{check, desk, fascn_decode, fascn_encode, report, view, write, Checked};

mod common;
use common::verdict;

#[test]
fn named_calls() {
    for (name, cases) in named::all() {
        for (record, answer) in cases {
            assert_eq!(record.answer(), answer, "{}: {:?}", name, record);
        }
    }
}

#[test]
fn p1_p2_fascn() {
    let numbers = [1234, 1, 5, 1, 1, 7, 1, 1234, 1];
    assert_eq!(fascn_decode(&EXAMPLE_FASCN), (0, numbers));
    let mut wrong = EXAMPLE_FASCN;
    wrong[24] = 0xEA;
    assert_eq!(fascn_decode(&wrong), (17, [0; 9]));
    let mut room = [0xAA; 27];
    assert_eq!(fascn_encode(&numbers, &mut room), 0);
    assert_eq!(room[..25], EXAMPLE_FASCN);
    assert_eq!(room[25..], [0, 0]);
}

#[test]
fn fascn_refusals() {
    for length in (0..60).filter(|&length| length != 25) {
        let mut bytes = EXAMPLE_FASCN.to_vec();
        bytes.resize(length, 0);
        assert_eq!(fascn_decode(&bytes), (17, [0; 9]));
    }
    // Any single wrong bit is found by parity, any two as well unless in one character.
    for at in 0..200 {
        let mut bytes = EXAMPLE_FASCN;
        bytes[at / 8] ^= 0x80 >> (at % 8);
        assert_eq!(fascn_decode(&bytes), (17, [0; 9]));
        for other in at + 1..200 {
            let mut bytes = bytes;
            bytes[other / 8] ^= 0x80 >> (other % 8);
            assert_eq!(fascn_decode(&bytes).0, 17, "bits {} and {}", at, other);
        }
    }
    let widths = [4, 4, 6, 1, 1, 10, 1, 4, 1];
    for which in 0..9 {
        let limit = 10u64.pow(widths[which]);
        let mut numbers = [0; 9];
        numbers[which] = limit - 1;
        let mut room = [0xAA; 25];
        assert_eq!(fascn_encode(&numbers, &mut room), 0);
        assert_eq!(fascn_decode(&room), (0, numbers));
        assert_eq!(fascn_encode(&numbers, &mut room[..24]), 3);
        assert_eq!(room[..24], [0; 24]);
        for over in [limit, u64::MAX] {
            numbers[which] = over;
            let mut room = [0xAA; 24];
            assert_eq!(fascn_encode(&numbers, &mut room), 7);
            assert_eq!(room, [0; 24]);
        }
    }
    assert_eq!(fascn_decode(&[0; 25]).0, 17);
    let mut room = [0; 25];
    assert_eq!(fascn_encode(&[0; 9], &mut room), 0);
    assert_eq!(fascn_decode(&room), (0, [0; 9]));
}

#[test]
fn p3_to_p8_lengths() {
    assert_eq!(length_at(&[0x7F]), Some((127, 1)));
    assert_eq!(length_at(&[0x81, 0x7F]), None);
    assert_eq!(length_at(&[0x81, 0x80]), Some((128, 2)));
    // P6 as 2026-01 has it
    assert_eq!(length_at(&[0x82, 0x00, 0xFF]), Some((255, 3)));
    assert_eq!(length_at(&[0x82, 0x01, 0x00]), Some((256, 3)));
    assert_eq!(length_at(&[0x80]), None);
    for cut in [&[][..], &[0x81], &[0x82], &[0x82, 0x01], &[0x83, 0, 1], &[0x84, 0, 0, 1], &[0xFF]] {
        assert_eq!(length_at(cut), None);
    }
}

#[test]
fn p9_to_p12_dates() {
    assert_eq!(text_date(b"20000229"), Some(20000229));
    assert_eq!(text_date(b"21000229"), None);
    assert!(is_expiry(b"20320301", EXAMPLE_DAY));
    assert!(!is_expiry(b"20320302", EXAMPLE_DAY));
    assert_eq!(verdict(2, EXAMPLE_DAY, &example_chuid(b"20320301")), CONFORMS);
    assert_eq!(verdict(2, EXAMPLE_DAY, &example_chuid(b"20320302")), (19, 47, Some(0x35)));
    assert_eq!(verdict(2, EXAMPLE_DAY, &example_chuid(b"20260301")), CONFORMS);
    assert_eq!(verdict(2, EXAMPLE_DAY, &example_chuid(b"20260228")), (19, 47, Some(0x35)));
    for (today, number) in
        [(0, 2), (10_101, 0), (99991231, 0), (99999999, 2), (20230229, 2), (10_100, 2), (100_000_101, 2), (u64::MAX, 2)]
    {
        assert_eq!(verdict(3, today, &EXAMPLE_DISCOVERY), (number, 0, None));
    }
}

#[test]
fn p13_p14_discovery() {
    assert_eq!(verdict(3, EXAMPLE_DAY, &EXAMPLE_DISCOVERY), CONFORMS);
    let mut wrong = EXAMPLE_DISCOVERY;
    wrong[18] = 0x60;
    assert_eq!(verdict(3, EXAMPLE_DAY, &wrong), (20, 15, Some(0x5F2F)));
    // 5F without 2F is 13 at its own offset, at the end too.
    assert_eq!(verdict(3, EXAMPLE_DAY, &[0x7E, 0x01, 0x5F]), (13, 2, Some(0x5F)));
    let mut lone = EXAMPLE_DISCOVERY;
    lone[16] = 0x2E;
    assert_eq!(verdict(3, EXAMPLE_DAY, &lone), (13, 15, Some(0x5F)));
    // 5F2F first: 4F was passed over.
    assert_eq!(verdict(3, EXAMPLE_DAY, &[0x7E, 0x05, 0x5F, 0x2F, 0x02, 0x40, 0x00]), (15, 2, Some(0x5F2F)));
    // Every tag of another kind has one byte.
    assert_eq!(verdict(2, EXAMPLE_DAY, &[0x53, 0x05, 0x5F, 0x2F, 0x02, 0x40, 0x00]), (13, 2, Some(0x5F)));
}

#[test]
fn case_r() {
    let container = example_chuid(b"20300131");
    assert_eq!(container.len(), 61);
    let mut input = b"0220260301".to_vec();
    input.extend(&container);
    assert_eq!(desk(&input), CASE_R.as_bytes());
    for size in [512, 513, 600] {
        let mut room = vec![0xAA; size];
        assert_eq!(report(2, EXAMPLE_DAY, &container, &mut room), (0, CASE_R.len() as u64));
        assert_eq!(&room[..CASE_R.len()], CASE_R.as_bytes());
        assert!(room[CASE_R.len()..].iter().all(|&byte| byte == 0));
    }
    for size in [0, 1, 511] {
        let mut room = vec![0xAA; size];
        assert_eq!(report(2, EXAMPLE_DAY, &container, &mut room), (3, 0));
        assert!(room.iter().all(|&byte| byte == 0));
    }
}

#[test]
fn other_reports() {
    let text = |kind: u64, container: &[u8]| {
        let mut room = [0xAA; 512];
        let (number, length) = report(kind, 10_101, container, &mut room);
        assert_eq!(number, 0);
        String::from_utf8(room[..length as usize].to_vec()).unwrap()
    };
    assert_eq!(
        text(3, &EXAMPLE_DISCOVERY),
        "CARD 4\nkind DISCOVERY\nbytes 20\ntoday 00010101\nverdict 0 0 --\nELEMENTS 2\n4F 11\n5F2F 2\nOPEN 1\npolicy 4000\n"
    );
    assert_eq!(text(3, &[]), "CARD 4\nkind DISCOVERY\nbytes 0\ntoday 00010101\nverdict 10 0 --\nELEMENTS 0\nOPEN 0\n");
    assert_eq!(
        text(1, &small(1)),
        "CARD 4\nkind CCC\nbytes 29\ntoday 00010101\nverdict 0 0 --\nELEMENTS 13\nF0 0\nF1 0\nF2 0\nF3 0\nF4 0\nF5 1\nF6 0\nF7 0\nFA 0\nFB 0\nFC 0\nFD 0\nFE 0\nOPEN 1\nmodel 10\n"
    );
    assert_eq!(
        text(4, &small(4)),
        "CARD 4\nkind PRINTED\nbytes 58\ntoday 00010101\nverdict 0 0 --\nELEMENTS 6\n01 11\n02 5\n04 9\n05 4\n06 15\nFE 0\nOPEN 1\nissuer ISSUER 00000001\n"
    );
    assert_eq!(
        text(5, &small(5)),
        "CARD 4\nkind SECURITY\nbytes 10\ntoday 00010101\nverdict 0 0 --\nELEMENTS 3\nBA 1\nBB 1\nFE 0\nOPEN 0\n"
    );
    let mut face = small(7);
    let at = face.len() - 2 - 135;
    assert_eq!(face[at..at + 2], [0x03, 0x0D]);
    face[at + 59..at + 84].copy_from_slice(&EXAMPLE_FASCN);
    assert_eq!(
        text(7, &face),
        "CARD 4\nkind FACE\nbytes 143\ntoday 00010101\nverdict 0 0 --\nELEMENTS 2\nBC 135\nFE 0\nOPEN 2\nagency 1234\nsystem 0001\n"
    );
}

#[test]
fn report_order() {
    let long = vec![0x53; 32_769];
    let mut room = [0xAA; 600];
    assert_eq!(report(0, 0, &long, &mut room[..0]), (1, 0));
    assert_eq!(report(2, 0, &long, &mut room[..0]), (2, 0));
    assert_eq!(report(2, EXAMPLE_DAY, &long, &mut room[..511]), (3, 0));
    assert_eq!(report(2, EXAMPLE_DAY, &long, &mut room), (4, 0));
    assert_eq!(room, [0; 600]);
}

#[test]
fn desk_inputs() {
    // no byte, a lone one, and a pair that is no kind
    for head in ["", "0", "2", "8", "00", "13", "20", "99", "2 ", " 2", "+2", "x2", "2x"] {
        assert_eq!(desk(head.as_bytes()), b"refused 1\n", "{}", head);
        assert_eq!(desk(&[head.as_bytes(), b"\x0020260301"].concat()), b"refused 1\n", "{}", head);
    }
    // with one digit for the kind the date is cut short
    assert_eq!(desk(b"020260301"), b"refused 2\n");
    for kind in all_kinds() {
        let input = format!("{:02}20260301", kind).into_bytes();
        for length in 2..10 {
            assert_eq!(desk(&input[..length]), b"refused 2\n");
        }
        let report = String::from_utf8(desk(&input)).unwrap();
        assert!(report.ends_with("\nbytes 0\ntoday 20260301\nverdict 10 0 --\nELEMENTS 0\nOPEN 0\n"), "{}", report);
    }
    assert_eq!(desk(b"02202603O1"), b"refused 2\n");
    assert_eq!(desk(b"0220230229"), b"refused 2\n");
    let mut long = b"0220260301".to_vec();
    long.resize(10 + 32_768, 0);
    assert_eq!(
        desk(&long),
        &b"CARD 4\nkind CHUID\nbytes 32768\ntoday 20260301\nverdict 10 0 --\nELEMENTS 0\nOPEN 0\n"[..]
    );
    long.push(0);
    assert_eq!(long.len(), DESK_INPUT_MAX);
    assert_eq!(desk(&long), b"refused 4\n");
    long[9] = b'x';
    assert_eq!(desk(&long), b"refused 2\n");
    long[0] = b'9';
    assert_eq!(desk(&long), b"refused 1\n");
}

#[test]
fn quality_bytes() {
    for kind in [6, 7] {
        let (good, header) = (small(kind), 6);
        assert_eq!(good[header..header + 2], [0x03, 0x0D]);
        assert_eq!(verdict(kind, EXAMPLE_DAY, &good), CONFORMS);
        for quality in 0..=255u8 {
            let mut container = good.clone();
            container[header + 40] = quality;
            let kept = match quality {
                0xFE | 0..=100 => true,
                0xFF => kind == 6,
                _ => false,
            };
            let expected = if kept { CONFORMS } else { (21, 3, Some(0xBC)) };
            assert_eq!(verdict(kind, EXAMPLE_DAY, &container), expected);
        }
    }
}

#[test]
fn empty_and_outer() {
    for kind in all_kinds() {
        let outer = if kind == 3 { 0x7E } else { 0x53 };
        assert_eq!(verdict(kind, EXAMPLE_DAY, &[]), (10, 0, None));
        assert_eq!(verdict(kind, EXAMPLE_DAY, &[outer ^ 1, 0]), (10, 0, None));
        assert_eq!(verdict(kind, EXAMPLE_DAY, &[outer]), (11, 0, None));
        assert_eq!(verdict(kind, EXAMPLE_DAY, &[outer, 0x80]), (11, 0, None));
        assert_eq!(verdict(kind, EXAMPLE_DAY, &[outer, 0x81, 0x01]), (11, 0, None));
        assert_eq!(verdict(kind, EXAMPLE_DAY, &[outer, 0x82, 0x01]), (11, 0, None));
        assert_eq!(verdict(kind, EXAMPLE_DAY, &[outer, 0x01]), (12, 0, None));
        assert_eq!(verdict(kind, EXAMPLE_DAY, &[outer, 0x00, 0x00]), (12, 0, None));
        assert_eq!(verdict(kind, EXAMPLE_DAY, &[outer, 0x00]), (15, 2, None));
    }
    for kind in [0, LAST_KIND + 1, 256 + 2, u64::MAX] {
        assert_eq!(verdict(kind, 0, &vec![0; 40_000]), (1, 0, None));
        assert_eq!(view(kind, 0, &[1, 2], 0x30).0, (1, 0, None));
    }
    assert_eq!(verdict(2, 0, &vec![0; 40_000]), (2, 0, None));
    assert_eq!(verdict(2, EXAMPLE_DAY, &vec![0; 32_769]), (4, 0, None));
    assert_eq!(verdict(2, EXAMPLE_DAY, &vec![0; 32_768]), (10, 0, None));
}

#[test]
fn element_orders() {
    let said = |content: &[u8]| verdict(5, EXAMPLE_DAY, &[&[0x53, content.len() as u8], content].concat());
    // SECURITY: BA, BB, FE.
    assert_eq!(said(&[0xBA, 0, 0xBB, 0, 0xFE, 0]), CONFORMS);
    assert_eq!(said(&[0xBA, 0, 0xFE, 0]), (15, 4, Some(0xFE)));
    assert_eq!(said(&[0xBA, 0, 0xBB, 0]), (15, 6, None));
    assert_eq!(said(&[0xBA, 0, 0xBA, 0]), (14, 4, Some(0xBA)));
    assert_eq!(said(&[0xBA, 0, 0xBB, 0, 0xBA, 0]), (14, 6, Some(0xBA)));
    // 13 before 15, 15 before 11, 11 before 12, 12 before 16.
    assert_eq!(said(&[0x30, 0]), (13, 2, Some(0x30)));
    assert_eq!(said(&[0xBB]), (15, 2, Some(0xBB)));
    assert_eq!(said(&[0xBA]), (11, 2, Some(0xBA)));
    assert_eq!(said(&[0xBA, 0x81]), (11, 2, Some(0xBA)));
    assert_eq!(said(&[0xBA, 0x81, 31]), (11, 2, Some(0xBA)));
    assert_eq!(said(&[0xBA, 31]), (12, 2, Some(0xBA)));
    let mut long = vec![0xBA, 31];
    long.extend([0; 31]);
    assert_eq!(said(&long), (16, 2, Some(0xBA)));
    // After the last row everything known is 14.
    assert_eq!(said(&[0xBA, 0, 0xBB, 0, 0xFE, 0, 0xFE, 0]), (14, 8, Some(0xFE)));
    assert_eq!(said(&[0xBA, 0, 0xBB, 0, 0xFE, 0, 0x00, 0]), (13, 8, Some(0x00)));
}

#[test]
fn views() {
    let container = example_chuid(b"20300131");
    let start = container.as_ptr() as usize;
    for (tag, at, length) in [(0x30, 4, 25), (0x34, 31, 16), (0x35, 49, 8), (0x3E, 59, 0), (0xFE, 61, 0)] {
        let (verdict, part) = view(2, EXAMPLE_DAY, &container, tag);
        assert_eq!((verdict, part.len()), (CONFORMS, length));
        assert_eq!(part.as_ptr() as usize, start + at);
    }
    for tag in [0, 0x32, 0x36, 0xBC, 0x5F, 0x2F, 0x5F2F, 0x130, 0x3000, u64::MAX] {
        let (verdict, part) = view(2, EXAMPLE_DAY, &container, tag);
        assert_eq!((verdict, part.len()), ((6, 0, None), 0));
        assert_eq!(part.as_ptr() as usize, start);
    }
    let (verdict, part) = view(2, EXAMPLE_DAY + 60_000, &container, 0x30);
    assert_eq!((verdict, part.len()), ((19, 47, Some(0x35)), 0));
    assert_eq!(part.as_ptr() as usize, start);
    assert_eq!(view(3, EXAMPLE_DAY, &EXAMPLE_DISCOVERY, 0x5F2F), (CONFORMS, &[0x40, 0x00][..]));
    assert_eq!(view(3, EXAMPLE_DAY, &EXAMPLE_DISCOVERY, 0x5F).0, (6, 0, None));
    assert_eq!(view(3, EXAMPLE_DAY, &EXAMPLE_DISCOVERY, 0x2F).0, (6, 0, None));
}

#[test]
fn sheets() {
    let sheet = [0, 1, 0, 3, 7, 8, 0, 1];
    let mut room = [0xAA; 20];
    assert_eq!(write(5, EXAMPLE_DAY, &sheet, &mut room), (CONFORMS, 10));
    assert_eq!(room[..10], [0x53, 8, 0xBA, 0, 0xBB, 2, 7, 8, 0xFE, 0]);
    assert_eq!(room[10..], [0; 10]);
    let container = room[..10].to_vec();
    let mut room = [0xAA; 9];
    assert_eq!(write(5, EXAMPLE_DAY, &sheet, &mut room), ((3, 0, None), 0));
    assert_eq!(room, [0; 9]);
    let conforms = |room, length| Checked { number: 0, place: 0, tag: None, room, length };
    let mut room = [0xAA; 9];
    assert_eq!(check(5, EXAMPLE_DAY, &container, &mut room), conforms(0, 8));
    assert_eq!(room, [0, 1, 0, 3, 7, 8, 0, 1, 0]);
    let mut room = [0xAA; 7];
    assert_eq!(check(5, EXAMPLE_DAY, &container, &mut room), conforms(3, 0));
    assert_eq!(room, [0; 7]);
    // Cut short, left over, a missing row, a length.
    for cut in 0..8 {
        assert_eq!(write(5, EXAMPLE_DAY, &sheet[..cut], &mut room), ((5, 0, None), 0));
    }
    assert_eq!(write(5, EXAMPLE_DAY, &[0, 1, 0, 3, 7, 8, 0, 1, 0], &mut room), ((5, 0, None), 0));
    assert_eq!(write(5, EXAMPLE_DAY, &[0, 1, 0, 0, 0, 1], &mut room), ((15, 2, Some(0xBB)), 0));
    assert_eq!(write(5, EXAMPLE_DAY, &[0, 1, 0, 3, 7, 8, 0, 2, 0], &mut room), ((16, 6, Some(0xFE)), 0));
    assert_eq!(write(5, EXAMPLE_DAY, &[0, 0, 0, 0, 0, 0, 0], &mut room), ((5, 0, None), 0));
    assert_eq!(write(0, 0, &[], &mut room), ((1, 0, None), 0));
    assert_eq!(write(5, 0, &[], &mut room), ((2, 0, None), 0));
}
