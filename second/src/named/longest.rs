//! The longest reports: on a conforming container of each kind one that is as long as any, those around each length at which
//! the number of digits changes, and the longest on a container that is refused. And the order of a report's own refusals.

use super::*;
use crate::generate::{Form, Forms, LONGEST_FORM};
use crate::irises::pair_of;
use crate::report::{LONGEST, LONGEST_REFUSED};
use crate::values::fascn_encode;

pub fn all() -> Vec<Group> {
    vec![
        longest_ccc(),
        longest_chuid(),
        longest_others(),
        longest_biometrics(),
        longest_certificates(),
        longest_in_longer_forms(),
        first_and_last_day(),
        digits_of_agency_and_system(),
        digits_of_a_ccc(),
        digits_of_a_chuid(),
        digits_of_a_printed(),
        digits_of_a_security(),
        digits_of_biometrics(),
        digits_of_a_certificate(),
        digits_of_other_certificates(),
        shortest(),
        longest_refused(),
        refused_at_the_end(),
        digits_of_places(),
        largest_and_too_large(),
        order_of_refusals(),
    ]
}

// ---------------------------------------------------------------------------------------------
// The containers, with every element

fn whole_ccc(f3: usize) -> Card {
    let (f0, f3, f6, end) = (&[0; 21], vec![5; f3], &[0; 17], &[7; 48]);
    let values: [&[u8]; 15] = [f0, &[0x21], &[0x21], &f3, &[0], &[0x10], f6, &[], &[], &[], &[], &[], end, end, &[]];
    card(1, &values.map(Some))
}

/// A PRINTED with so many bytes of 01 and of 02, and with the most of every other element.
fn whole_printed(name: usize, affiliation: usize) -> Card {
    let (name, affiliation) = (vec![b'A'; name], vec![b'B'; affiliation]);
    let texts: [&[u8]; 8] =
        [&name, &affiliation, PRINTED_DATE, &[b'C'; 20], b"GENERIC SENDER ", &[b'D'; 20], &[b'E'; 20], &[]];
    card(4, &texts.map(Some))
}

/// A FINGERS whose BC has so many bytes, by its signature; with the most minutiae or with none.
fn fingers_of(minutiae: u8, bytes: usize) -> Card {
    let mut card = fingers(100, b'0', [minutiae; 2]);
    let value = card.rows[0].as_mut().expect("a BC");
    // it is made with a signature of one byte
    let signature = 1 + bytes - value.len();
    value[6..8].copy_from_slice(&(signature as u16).to_be_bytes());
    value.resize(bytes, 0x30);
    card
}

/// The same of a FACE, of 46 bytes of record.
fn face_of(bytes: usize) -> Card {
    face(100, &least(), bytes - 88 - 46)
}

/// The same of an IRIS, with a record of the most bytes.
fn iris_of(bytes: usize) -> Card {
    iris(100, &iris_record(&pair_of(6_144, 3_000)), bytes - 88 - 6_144)
}

/// A card with a certificate of so many bytes, and with the most of 72.
fn whole_certificate(kind: u64, bytes: usize) -> Card {
    certificate(kind, &certificate_bytes(bytes), 0, Some(&[0x41; 38]))
}

fn certificate_bytes(bytes: usize) -> Vec<u8> {
    match bytes {
        0..=127 => with_part(&[&[4, bytes as u8 - 8], &vec![0; bytes - 8][..]].concat()),
        _ => of_pairs(bytes),
    }
}

fn without_end(mut card: Card) -> Card {
    *card.rows.last_mut().expect("a last row") = None;
    card
}

/// A container of 32,768 bytes with these elements and the filling, as often as it fits.
fn filled_up(outer: u8, elements: &[u8], filling: &[u8]) -> Vec<u8> {
    let mut out = [&[outer, 0x82, 0x7F, 0xFC], elements].concat();
    out.extend(filling.iter().cycle().take(CONTAINER_MAX - out.len()));
    out
}

/// The elements of a card whose container has its outer length in three bytes or, with 128 to 255 bytes, in two.
fn elements_of(card: &Card) -> Vec<u8> {
    let container = card.container();
    container[first_place(&container) as usize..].to_vec()
}

// ---------------------------------------------------------------------------------------------
// The longest of each kind

/// The report into rooms of 511, 512 and 600 bytes. It is as long as any of its kind.
fn into_rooms(card: &Card, text: &str) -> Vec<Case> {
    assert_eq!(text.len(), LONGEST[card.kind as usize - 1], "{}", text);
    let container = card.container();
    vec![
        report(card.kind, &container, 511, Err(3)),
        report(card.kind, &container, 512, Ok(text)),
        report(card.kind, &container, 600, Ok(text)),
    ]
}

/// The reports on containers with every element, and with the most of each.
const CCC: &str = "CARD 4\nkind CCC\nbytes 301\ntoday 20260301\nverdict 0 0 --\nELEMENTS 15\n\
    F0 21\nF1 1\nF2 1\nF3 128\nF4 1\nF5 1\nF6 17\nF7 0\nFA 0\nFB 0\nFC 0\nFD 0\nE3 48\nB4 48\nFE 0\nOPEN 1\nmodel 10\n";

const CHUID: &str = "CARD 4\nkind CHUID\nbytes 32768\ntoday 20260301\nverdict 0 0 --\nELEMENTS 9\n\
    EE 2\n30 25\n32 4\n33 9\n34 16\n35 8\n36 16\n3E 32664\nFE 0\nOPEN 3\nagency 1234\nsystem 0001\nexpires 20300131\n";

const DISCOVERY: &str = "CARD 4\nkind DISCOVERY\nbytes 20\ntoday 20260301\nverdict 0 0 --\n\
    ELEMENTS 2\n4F 11\n5F2F 2\nOPEN 1\npolicy 4000\n";

const PRINTED: &str = "CARD 4\nkind PRINTED\nbytes 248\ntoday 20260301\nverdict 0 0 --\n\
    ELEMENTS 8\n01 125\n02 20\n04 9\n05 20\n06 15\n07 20\n08 20\nFE 0\nOPEN 1\nissuer GENERIC SENDER \n";

const SECURITY: &str = "CARD 4\nkind SECURITY\nbytes 1340\ntoday 20260301\nverdict 0 0 --\n\
    ELEMENTS 3\nBA 30\nBB 1298\nFE 0\nOPEN 0\n";

/// Those of the three biometrics differ in their name alone, and so do those of the four certificates.
const BIOMETRIC: &str = "CARD 4\nkind NAME\nbytes 32768\ntoday 20260301\nverdict 0 0 --\n\
    ELEMENTS 2\nBC 32758\nFE 0\nOPEN 2\nagency 1234\nsystem 0001\n";

const CERTIFICATE: &str = "CARD 4\nkind NAME\nbytes 32768\ntoday 20260301\nverdict 0 0 --\n\
    ELEMENTS 4\n70 32715\n71 1\n72 38\nFE 0\nOPEN 0\n";

/// The report with this name.
fn named(text: &str, name: &str) -> String {
    text.replace("NAME", name)
}

fn longest_ccc() -> Group {
    ("the longest report on a CCC, 165 bytes, into rooms of 511, 512 and 600", into_rooms(&whole_ccc(128), CCC))
}

fn longest_chuid() -> Group {
    (
        "the longest on a CHUID, 171 bytes, which is the longest of all: a container of 32,768 bytes",
        into_rooms(&whole_chuid(&[7; 32_664]), CHUID),
    )
}

fn longest_others() -> Group {
    (
        "the longest on a DISCOVERY, 104 bytes, on a PRINTED, 148, and on a SECURITY, 99",
        [
            into_rooms(&discovery([0x40, 0]), DISCOVERY),
            into_rooms(&whole_printed(125, 20), PRINTED),
            into_rooms(&security(&[1; 30], &[2; 1_298]), SECURITY),
        ]
        .concat(),
    )
}

fn longest_biometrics() -> Group {
    (
        "the longest on FINGERS, 118 bytes, and on a FACE and an IRIS, 115: containers of 32,768 bytes by their signature",
        [
            into_rooms(&fingers_of(128, 32_758), &named(BIOMETRIC, "FINGERS")),
            into_rooms(&face_of(32_758), &named(BIOMETRIC, "FACE")),
            into_rooms(&iris_of(32_758), &named(BIOMETRIC, "IRIS")),
        ]
        .concat(),
    )
}

fn longest_certificates() -> Group {
    let of = |kind, name| into_rooms(&whole_certificate(kind, 32_715), &named(CERTIFICATE, name));
    (
        "the longest on a PIVAUTH and a KEYMGMT, 105 bytes, on a DIGSIG, 104, and on a CARDAUTH, 106",
        [of(8, "PIVAUTH"), of(9, "DIGSIG"), of(10, "KEYMGMT"), of(11, "CARDAUTH")].concat(),
    )
}

/// In the longest forms a container has more bytes, or an element fewer. Its report is as long.
fn longest_in_longer_forms() -> Group {
    let of = |card: Card, text: &str, [from, to]: [&str; 2]| {
        let text = text.replace(from, to);
        assert_eq!(text.len(), LONGEST[card.kind as usize - 1], "{}", text);
        report(card.kind, &card.container_in(&Forms::all(Form::Padded(LONGEST_FORM))), 512, Ok(&text))
    };
    let bc = ["BC 32758", "BC 32754"];
    let of_70 = |kind, name| of(whole_certificate(kind, 32_711), &named(CERTIFICATE, name), ["70 32715", "70 32711"]);
    (
        "the longest in the longest forms, of every kind that has a length over 127",
        vec![
            of(whole_ccc(128), CCC, ["bytes 301", "bytes 306"]),
            of(whole_chuid(&[7; 32_660]), CHUID, ["3E 32664", "3E 32660"]),
            of(whole_printed(125, 20), PRINTED, ["bytes 248", "bytes 251"]),
            of(security(&[1; 30], &[2; 1_298]), SECURITY, ["bytes 1340", "bytes 1344"]),
            of(fingers_of(128, 32_754), &named(BIOMETRIC, "FINGERS"), bc),
            of(face_of(32_754), &named(BIOMETRIC, "FACE"), bc),
            of(iris_of(32_754), &named(BIOMETRIC, "IRIS"), bc),
            of_70(8, "PIVAUTH"),
            of_70(9, "DIGSIG"),
            of_70(10, "KEYMGMT"),
            of_70(11, "CARDAUTH"),
        ],
    )
}

fn first_and_last_day() -> Group {
    let of = |today, day: &str, card: Card, text: &str| {
        let text = text.replace("20260301", day).replace("20300131", day);
        on(today, report(card.kind, &card.container(), 512, Ok(&text)))
    };
    let chuid_of = |expires: &[u8]| {
        let mut card = whole_chuid(&[7; 32_664]);
        card.rows[5] = Some(expires.to_vec());
        card
    };
    (
        "the longest on the first day and on the last, which have eight digits: a CHUID that expires then, and a CCC",
        vec![
            of(10101, "00010101", chuid_of(b"00010101"), CHUID),
            of(99991231, "99991231", chuid_of(b"99991231"), CHUID),
            of(10101, "00010101", whole_ccc(128), CCC),
            of(99991231, "99991231", whole_ccc(128), CCC),
        ],
    )
}

fn digits_of_agency_and_system() -> Group {
    let of = |agency, system, lines: &str| {
        let mut fascn = vec![0; 25];
        fascn_encode(&[agency, system, 5, 1, 1, 7, 1, 1234, 1], &mut fascn);
        let mut card = whole_chuid(&[7; 32_664]);
        card.rows[1] = Some(fascn);
        report(2, &card.container(), 512, Ok(&CHUID.replace("agency 1234\nsystem 0001\n", lines)))
    };
    (
        "agency and system have four digits, whatever they are",
        vec![
            of(0, 0, "agency 0000\nsystem 0000\n"),
            of(9, 10, "agency 0009\nsystem 0010\n"),
            of(99, 100, "agency 0099\nsystem 0100\n"),
            of(999, 1_000, "agency 0999\nsystem 1000\n"),
            of(9_999, 9_999, "agency 9999\nsystem 9999\n"),
        ],
    )
}

// ---------------------------------------------------------------------------------------------
// Where the number of digits changes

/// The report on a card whose container has so many bytes: this text with that number in it, and with one line or more instead
/// of others behind it. It has this length.
fn page(card: &Card, text: &str, [from, to]: [&str; 2], bytes: usize, length: usize) -> Case {
    let at = text.find("bytes ").map_or(0, |at| at + 6);
    let rest = &text[at..];
    let lines = rest[rest.find('\n').unwrap_or(0)..].replace(from, to);
    let text = format!("{}{}{}", &text[..at], bytes, lines);
    let container = card.container();
    assert_eq!((container.len(), text.len()), (bytes, length), "{}", text);
    report(card.kind, &container, 512, Ok(&text))
}

fn digits_of_a_ccc() -> Group {
    let whole = |f3, to, bytes, length| page(&whole_ccc(f3), CCC, ["F3 128", to], bytes, length);
    let text = "CARD 4\nkind CCC\nbytes 29\ntoday 20260301\nverdict 0 0 --\nELEMENTS 13\n\
        F0 0\nF1 0\nF2 0\nF3 0\nF4 0\nF5 1\nF6 0\nF7 0\nFA 0\nFB 0\nFC 0\nFD 0\nFE 0\nOPEN 1\nmodel 10\n";
    let least = |f3, to, bytes, length| {
        let mut card = card(1, &[Some(&[][..]); 15]);
        card.rows[3] = Some(vec![5; f3]);
        card.rows[5] = Some(vec![0x10]);
        card.rows[12..14].fill(None);
        page(&card, text, ["F3 0", to], bytes, length)
    };
    (
        "CCC with every element and 9, 10, 99, 100, 127 and 128 bytes of F3; the least, and containers of 99 and 100 bytes",
        vec![
            whole(9, "F3 9", 180, 163),
            whole(10, "F3 10", 181, 164),
            whole(99, "F3 99", 271, 164),
            whole(100, "F3 100", 272, 165),
            whole(127, "F3 127", 299, 165),
            whole(128, "F3 128", 301, 165),
            least(0, "F3 0", 29, 148),
            least(70, "F3 70", 99, 149),
            least(71, "F3 71", 100, 150),
        ],
    )
}

fn digits_of_a_chuid() -> Group {
    let whole = |bytes, to, all, length| page(&whole_chuid(&vec![7; bytes]), CHUID, ["3E 32664", to], all, length);
    let least = |bytes, to, all, length| {
        page(&chuid(&EXAMPLE_FASCN, EXPIRES, &vec![7; bytes]), CASE_R, ["3E 0", to], all, length)
    };
    (
        "CHUID with every element and 9, 10, 99, 100, 999, 1,000, 9,999, 10,000 bytes of 3E, and of the container; the least",
        vec![
            whole(0, "3E 0", 100, 165),
            whole(9, "3E 9", 109, 165),
            whole(10, "3E 10", 110, 166),
            whole(99, "3E 99", 200, 166),
            whole(100, "3E 100", 201, 167),
            whole(895, "3E 895", 999, 167),
            whole(896, "3E 896", 1_000, 168),
            whole(999, "3E 999", 1_103, 168),
            whole(1_000, "3E 1000", 1_104, 169),
            whole(9_895, "3E 9895", 9_999, 169),
            whole(9_896, "3E 9896", 10_000, 170),
            whole(9_999, "3E 9999", 10_103, 170),
            whole(10_000, "3E 10000", 10_104, 171),
            whole(32_663, "3E 32663", 32_767, 171),
            least(0, "3E 0", 61, 143),
            least(38, "3E 38", 99, 144),
            least(39, "3E 39", 100, 145),
        ],
    )
}

fn digits_of_a_printed() -> Group {
    let whole = |name, to, bytes, length| page(&whole_printed(name, 20), PRINTED, ["01 125", to], bytes, length);
    let other =
        |affiliation, to, bytes, length| page(&whole_printed(125, affiliation), PRINTED, ["02 20", to], bytes, length);
    let text = "CARD 4\nkind PRINTED\nbytes 38\ntoday 20260301\nverdict 0 0 --\nELEMENTS 6\n\
        01 0\n02 0\n04 9\n05 0\n06 15\nFE 0\nOPEN 1\nissuer GENERIC SENDER \n";
    let least = |name, to, bytes, length| {
        let mut card = whole_printed(name, 0);
        card.rows[3] = Some(Vec::new());
        card.rows[5..7].fill(None);
        page(&card, text, ["01 0", to], bytes, length)
    };
    (
        "PRINTED with every element and 9, 10, 99, 100 bytes of 01, 9, 10 of 02; the least; containers of 99 and 100 bytes",
        vec![
            whole(0, "01 0", 122, 146),
            whole(9, "01 9", 132, 146),
            whole(10, "01 10", 133, 147),
            whole(99, "01 99", 222, 147),
            whole(100, "01 100", 223, 148),
            whole(124, "01 124", 247, 148),
            other(0, "02 0", 228, 147),
            other(9, "02 9", 237, 147),
            other(10, "02 10", 238, 148),
            least(0, "01 0", 38, 131),
            least(61, "01 61", 99, 132),
            least(62, "01 62", 100, 133),
        ],
    )
}

fn digits_of_a_security() -> Group {
    let with_ba = |ba: usize, to, bytes, length| {
        page(&security(&vec![1; ba], &[2; 1_298]), SECURITY, ["BA 30", to], bytes, length)
    };
    let with_bb = |bb: usize, to, bytes, length| {
        page(&security(&[1; 30], &vec![2; bb]), SECURITY, ["BB 1298", to], bytes, length)
    };
    let least = |bb: usize, to, bytes, length| {
        page(&security(&[], &vec![2; bb]), SECURITY, ["BA 30\nBB 1298", to], bytes, length)
    };
    (
        "SECURITY with 9 and 10 bytes of BA, 9 to 1,000 of BB, and 99 to 1,000 of the container; the least, of 8 to 10 bytes",
        vec![
            with_ba(9, "BA 9", 1_319, 98),
            with_ba(10, "BA 10", 1_320, 99),
            with_bb(9, "BB 9", 47, 94),
            with_bb(10, "BB 10", 48, 95),
            with_bb(61, "BB 61", 99, 95),
            with_bb(62, "BB 62", 100, 96),
            with_bb(99, "BB 99", 138, 96),
            with_bb(100, "BB 100", 139, 97),
            with_bb(957, "BB 957", 999, 97),
            with_bb(958, "BB 958", 1_000, 98),
            with_bb(999, "BB 999", 1_041, 98),
            with_bb(1_000, "BB 1000", 1_042, 99),
            with_bb(1_297, "BB 1297", 1_339, 99),
            least(0, "BA 0\nBB 0", 8, 92),
            least(1, "BA 0\nBB 1", 9, 92),
            least(2, "BA 0\nBB 2", 10, 93),
        ],
    )
}

fn digits_of_biometrics() -> Group {
    // the bytes of BC and of the container, and how much shorter than the longest the report is
    let edges = [
        (989, "BC 989", 999, 4),
        (990, "BC 990", 1_000, 3),
        (999, "BC 999", 1_009, 3),
        (1_000, "BC 1000", 1_010, 2),
        (9_989, "BC 9989", 9_999, 2),
        (9_990, "BC 9990", 10_000, 1),
        (9_999, "BC 9999", 10_009, 1),
        (10_000, "BC 10000", 10_010, 0),
        (32_757, "BC 32757", 32_767, 0),
    ];
    let of = |card: &dyn Fn(usize) -> Card, name, longest: usize| {
        let text = named(BIOMETRIC, name);
        edges.map(|(bc, to, bytes, less)| page(&card(bc), &text, ["BC 32758", to], bytes, longest - less))
    };
    let least_iris_of = |bytes: usize| iris(100, &least_iris(), bytes - 88 - 68);
    (
        "FINGERS, FACE and IRIS with 999, 1,000, 9,999 and 10,000 bytes of BC, and of the container",
        [of(&|bc| fingers_of(0, bc), "FINGERS", 118), of(&face_of, "FACE", 115), of(&least_iris_of, "IRIS", 115)]
            .concat(),
    )
}

fn digits_of_a_certificate() -> Group {
    let text = named(CERTIFICATE, "PIVAUTH");
    let with_70 = |bytes, to, all, length| page(&whole_certificate(8, bytes), &text, ["70 32715", to], all, length);
    let with_72 = |extra: usize, to, all, length| {
        let card = certificate(8, &of_pairs(10_000), 0, Some(&vec![0x41; extra]));
        page(&card, &text, ["70 32715\n71 1\n72 38", to], all, length)
    };
    let without_72 = certificate(8, &of_pairs(10_000), 0, None);
    (
        "PIVAUTH with 8 to 10,000 bytes of 70, and 99 to 10,000 of the container; with 0, 9 and 10 bytes of 72, and without it",
        vec![
            with_70(8, "70 8", 57, 98),
            with_70(9, "70 9", 58, 98),
            with_70(10, "70 10", 59, 99),
            with_70(50, "70 50", 99, 99),
            with_70(51, "70 51", 100, 100),
            with_70(99, "70 99", 149, 100),
            with_70(100, "70 100", 150, 101),
            with_70(946, "70 946", 999, 101),
            with_70(947, "70 947", 1_000, 102),
            with_70(999, "70 999", 1_052, 102),
            with_70(1_000, "70 1000", 1_053, 103),
            with_70(9_946, "70 9946", 9_999, 103),
            with_70(9_947, "70 9947", 10_000, 104),
            with_70(9_999, "70 9999", 10_052, 104),
            with_70(10_000, "70 10000", 10_053, 105),
            with_72(0, "70 10000\n71 1\n72 0", 10_015, 104),
            with_72(9, "70 10000\n71 1\n72 9", 10_024, 104),
            with_72(10, "70 10000\n71 1\n72 10", 10_025, 105),
            page(&without_72, &text, ["4\n70 32715\n71 1\n72 38", "3\n70 10000\n71 1"], 10_013, 99),
        ],
    )
}

fn digits_of_other_certificates() -> Group {
    let of = |kind, name, longest: usize| {
        let text = named(CERTIFICATE, name);
        let with_70 =
            |bytes, to, all, length| page(&whole_certificate(kind, bytes), &text, ["70 32715", to], all, length);
        [
            with_70(9_946, "70 9946", 9_999, longest - 2),
            with_70(9_947, "70 9947", 10_000, longest - 1),
            with_70(9_999, "70 9999", 10_052, longest - 1),
            with_70(10_000, "70 10000", 10_053, longest),
        ]
    };
    (
        "DIGSIG, KEYMGMT and CARDAUTH with 9,999 and 10,000 bytes of 70, and of the container",
        [of(9, "DIGSIG", 104), of(10, "KEYMGMT", 105), of(11, "CARDAUTH", 106)].concat(),
    )
}

// ---------------------------------------------------------------------------------------------
// Refused ones

/// The report on a container that is refused, of this length.
fn refused(kind: u64, name: &str, container: &[u8], bytes: usize, verdict: &str, length: usize) -> Case {
    let head = format!("CARD 4\nkind {}\nbytes {}\ntoday 20260301\n", name, bytes);
    let text = format!("{}verdict {}\nELEMENTS 0\nOPEN 0\n", head, verdict);
    assert_eq!((container.len(), text.len()), (bytes, length), "{}", text);
    report(kind, container, 512, Ok(&text))
}

/// The shortest reports are on no bytes, and ask for as large a room.
fn shortest() -> Group {
    let of = |kind, name, length| [refused(kind, name, &[], 0, "10 0 --", length), report(kind, &[], 511, Err(3))];
    (
        "the shortest report of all, 73 bytes on a CCC of none; on a CHUID, a DISCOVERY and an IRIS of none",
        [of(1, "CCC", 73), of(2, "CHUID", 75), of(3, "DISCOVERY", 79), of(12, "IRIS", 74)].concat(),
    )
}

/// The longest on one that is refused of each kind: a fault as far behind as there can be one, in 32,768 bytes.
fn longest_refused() -> Group {
    let filled = |card: &Card, outer, filling: &[u8]| filled_up(outer, &elements_of(card), filling);
    let of = |kind, name, container: &[u8], verdict, length: usize| {
        assert_eq!(length, LONGEST_REFUSED[kind as usize - 1], "{}", name);
        refused(kind, name, container, 32_768, verdict, length)
    };
    let end = |card: Card, name, length| of(card.kind, name, &without_end(card).container(), "15 32768 --", length);
    let discovery = filled_up(0x7E, &EXAMPLE_DISCOVERY[2..], &[0x5F, 0x2F]);
    (
        "the longest report on a refused container of each kind: 86 bytes on DISCOVERY and CARDAUTH, and less on the others",
        vec![
            of(1, "CCC", &filled(&whole_ccc(128), 0x53, &[0]), "13 301 00", 79),
            end(whole_chuid(&[7; 32_666]), "CHUID", 83),
            of(3, "DISCOVERY", &discovery, "14 22 5F2F", 86),
            of(4, "PRINTED", &filled(&whole_printed(125, 20), 0x53, &[0]), "13 249 00", 83),
            of(5, "SECURITY", &filled(&security(&[1; 30], &[2; 1_298]), 0x53, &[0]), "13 1340 00", 85),
            end(fingers_of(128, 32_760), "FINGERS", 85),
            end(face_of(32_760), "FACE", 82),
            end(whole_certificate(8, 32_717), "PIVAUTH", 85),
            end(whole_certificate(9, 32_717), "DIGSIG", 84),
            end(whole_certificate(10, 32_717), "KEYMGMT", 85),
            end(whole_certificate(11, 32_717), "CARDAUTH", 86),
            end(iris_of(32_760), "IRIS", 82),
        ],
    )
}

/// A CHUID of 32,768 bytes that has these at its end instead of FE.
fn refused_at_the_end() -> Group {
    let of = |end: &[u8], verdict| {
        let mut container = without_end(whole_chuid(&vec![7; 32_666 - end.len()])).container();
        container.extend(end);
        container[2..4].copy_from_slice(&[0x7F, 0xFC]);
        refused(2, "CHUID", &container, 32_768, verdict, 83)
    };
    let outer = |first: &[u8], verdict| {
        let mut container = whole_chuid(&[7; 32_664]).container();
        container[..first.len()].copy_from_slice(first);
        refused(2, "CHUID", &container, 32_768, verdict, 79)
    };
    (
        "numbers from 11 to 16 at the end of a CHUID of 32,768 bytes, and 10, 11 and 12 of its front",
        vec![
            of(&[0xFE], "11 32767 FE"),
            of(&[0xFE, 1], "12 32766 FE"),
            of(&[0, 0], "13 32766 00"),
            of(&[0x36, 0], "14 32766 36"),
            of(&[0xFE, 0, 0xFE, 0], "14 32766 FE"),
            of(&[], "15 32768 --"),
            of(&[0xFE, 1, 0], "16 32765 FE"),
            outer(&[0x7E], "10 0 --"),
            outer(&[0x53, 0x85], "11 0 --"),
            outer(&[0x53, 0x82, 0x7F, 0xFD], "12 0 --"),
        ],
    )
}

fn digits_of_places() -> Group {
    let end = |bytes, all, verdict, length| {
        refused(11, "CARDAUTH", &without_end(whole_certificate(11, bytes)).container(), all, verdict, length)
    };
    let filled = |kind, name, card: Card, verdict, length| {
        refused(kind, name, &filled_up(0x53, &elements_of(&card), &[0]), 32_768, verdict, length)
    };
    let cardauth = |bytes, verdict, length| filled(11, "CARDAUTH", whole_certificate(11, bytes), verdict, length);
    let security_of =
        |bb: usize, verdict, length| filled(5, "SECURITY", security(&[1; 30], &vec![2; bb]), verdict, length);
    let printed_of = |name, verdict, length| {
        let mut card = whole_printed(name, 0);
        card.rows[5..7].fill(None);
        filled(4, "PRINTED", card, verdict, length)
    };
    let discovery = |elements: &[u8], verdict, length| {
        refused(3, "DISCOVERY", &filled_up(0x7E, elements, &[0x5F, 0x2F]), 32_768, verdict, length)
    };
    (
        "places of 9,999 and 10,000 in a CARDAUTH, at its end too, of 999 and 1,000 in a SECURITY, of 99 and 100 in a PRINTED, \
         and of one digit and two in a DISCOVERY",
        vec![
            end(9_948, 9_999, "15 9999 --", 84),
            end(9_949, 10_000, "15 10000 --", 86),
            cardauth(9_946, "13 9999 00", 85),
            cardauth(9_947, "13 10000 00", 86),
            security_of(957, "13 999 00", 84),
            security_of(958, "13 1000 00", 85),
            printed_of(39, "13 99 00", 82),
            printed_of(40, "13 100 00", 83),
            discovery(&[], "15 4 5F2F", 85),
            discovery(&EXAMPLE_DISCOVERY[2..15], "16 17 5F2F", 86),
        ],
    )
}

// ---------------------------------------------------------------------------------------------
// Refusals of the report

fn largest_and_too_large() -> Group {
    let of = |card: Card, text: &str| {
        let (kind, largest) = (card.kind, card.container());
        let mut too_large = largest.clone();
        too_large.push(0);
        [
            report(kind, &largest, 512, Ok(text)),
            report(kind, &too_large, 512, Err(4)),
            report(kind, &too_large, 511, Err(3)),
        ]
    };
    let one_more = |card: Card| report(card.kind, &card.container(), 512, Err(4));
    (
        "containers of 32,768 bytes, and with a byte behind them; those of 32,769 that would conform",
        [
            of(whole_chuid(&[7; 32_664]), CHUID),
            of(fingers_of(0, 32_758), &named(BIOMETRIC, "FINGERS")),
            of(whole_certificate(11, 32_715), &named(CERTIFICATE, "CARDAUTH")),
            [one_more(whole_chuid(&[7; 32_665])), one_more(face_of(32_759)), one_more(iris_of(32_759))],
            [8, 9, 10].map(|kind| one_more(whole_certificate(kind, 32_716))),
        ]
        .concat(),
    )
}

/// Whatever else is wrong, the first of 1, 2, 3 and 4 is answered. Rooms have 511 bytes or 512, containers 32,769 or 32,768.
fn order_of_refusals() -> Group {
    let (good, too_large) = (whole_chuid(&[7; 32_664]).container(), whole_chuid(&[7; 32_665]).container());
    let (day, no_day) = (EXAMPLE_DAY, 20260229);
    let of = |kind, today, room, container: &[u8], outcome| on(today, report(kind, container, room, outcome));
    (
        "a report with every set of faults: no such kind, no such date, a room of 511 bytes and a container of 32,769",
        vec![
            of(13, no_day, 511, &too_large, Err(1)),
            of(13, no_day, 511, &good, Err(1)),
            of(13, no_day, 512, &too_large, Err(1)),
            of(13, no_day, 512, &good, Err(1)),
            of(0, day, 511, &too_large, Err(1)),
            of(0, day, 511, &good, Err(1)),
            of(0, day, 512, &too_large, Err(1)),
            of(0, day, 512, &good, Err(1)),
            of(2, no_day, 511, &too_large, Err(2)),
            of(2, no_day, 511, &good, Err(2)),
            of(2, no_day, 512, &too_large, Err(2)),
            of(2, no_day, 512, &good, Err(2)),
            of(2, day, 511, &too_large, Err(3)),
            of(2, day, 511, &good, Err(3)),
            of(2, day, 0, &too_large, Err(3)),
            of(2, day, 511, &[], Err(3)),
            of(2, day, 512, &too_large, Err(4)),
            of(2, day, 512, &good, Ok(CHUID)),
        ],
    )
}
