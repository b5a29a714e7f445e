//! Lengths in the longer forms: those that are taken and those that are refused, of an element and of the whole container, and what
//! each call answers on containers that have them.

use super::*;
use crate::generate::{Form, Forms, LONGEST_FORM};

pub fn all() -> Vec<Group> {
    vec![
        length_cases(),
        forms_of_an_element(),
        refused_forms(),
        forms_outside(),
        cut_lengths(),
        far_lengths(),
        discovery_lengths(),
        places_behind(),
        biometrics_inside(),
        certificates_inside(),
        longer_views(),
        longer_reports(),
        largest_as_given(),
    ]
    .into_iter()
    .chain(there_and_fewest())
    .collect()
}

/// A card in the longest forms.
fn longest(card: &Card) -> Vec<u8> {
    card.container_in(&Forms::all(Form::Padded(LONGEST_FORM)))
}

/// A CHUID with this outer length, and with a 3E of this length that has so many bytes; both in the form given.
fn chuid_of(outer: &[u8], length: &[u8], bytes: usize) -> Vec<u8> {
    [&[0x53], outer, &head(&GUID), &[0x3E], length, &vec![0xAA; bytes], &[0xFE, 0]].concat()
}

/// The worked cases of request 2026-01, in their order; what the desk prints there is a report here.
fn length_cases() -> Group {
    let said = |outer: &[u8], length: &[u8], bytes, verdict| check(2, &chuid_of(outer, length, bytes), verdict);
    let at = |number, place| (number, place, Some(0x3E));
    let (fewest, longer) = (chuid_of(&[0x82, 1, 4], &[0x81, 200], 200), chuid_of(&[0x82, 1, 5], &[0x82, 0, 200], 200));
    let cut = [&[0x53, 59], &head(&GUID)[..], &[0x3E, 0x84, 0, 0]].concat();
    let too_long = [&[0x53, 0x82, 0, 204, 0x30, 0x82, 0, 200], &[0; 200][..]].concat();
    let der = [&[0x30, 0x81, 208, 5, 0, 5, 0, 4, 0x82, 0, 200], &[0xAA; 200][..]].concat();
    let (front, signature) =
        ([&[0, 0, 0, 26], &EXAMPLE_FASCN[..]].concat(), [&[0, 0, 0, 201], &[0xAA; 200][..]].concat());
    let sheet = [&front[..], &[0, 0, 0, 0, 0, 17], &GUID, &[0, 9], EXPIRES, &signature, &[0, 1]].concat();
    let text = CASE_R.replace("bytes 61", "bytes 265").replace("3E 0", "3E 200");
    (
        "the worked cases of 2026-01",
        vec![
            check(2, &fewest, CONFORMS),
            check(2, &longer, CONFORMS),
            said(&[0x83, 0, 1, 7], &[0x84, 0, 0, 0, 200], 200, CONFORMS),
            said(&[0x82, 1, 60], &[0x82, 0, 255], 255, CONFORMS),
            said(&[0x81, 190], &[0x83, 0, 0, 128], 128, CONFORMS),
            said(&[0x81, 187], &[0x81, 127], 127, at(11, 58)),
            said(&[0x81, 190], &[0x84, 0, 0, 0, 127], 127, at(11, 58)),
            said(&[0x82, 1, 8], &[0x85, 0, 0, 0, 0, 200], 200, at(11, 59)),
            said(&[59], &[0x80], 0, at(11, 57)),
            check(2, &cut, at(11, 57)),
            said(&[62], &[0x83, 1, 0, 0], 0, at(12, 57)),
            said(&[63], &[0x84, 255, 255, 255, 255], 0, at(12, 57)),
            said(&[0x81, 59], &[0], 0, alone(11)),
            said(&[0x84, 255, 255, 255, 255], &[0], 0, alone(12)),
            check(2, &too_long, (16, 4, Some(0x30))),
            said(&[0x84, 0, 0, 0x7F, 0xFB], &[0x84, 0, 0, 0x7F, 0xBC], 32_700, alone(4)),
            check(8, &certificate(8, &der, 0, None).container(), (24, 3, Some(0x70))),
            view(2, &longer, 0x3E, Ok((63, 200))),
            report(2, &longer, 512, Ok(&text)),
            write(2, &sheet, 300, Ok(&fewest)),
        ],
    )
}

/// A number in so many bytes behind the first; in none it is that byte itself.
fn spelled(number: usize, bytes: usize) -> Vec<u8> {
    match bytes {
        0 => vec![number as u8],
        _ => [&[0x80 + bytes as u8], &(number as u64).to_be_bytes()[8 - bytes..]].concat(),
    }
}

/// A SECURITY with this outer length around these elements.
fn around(outer: &[u8], elements: &[&[u8]]) -> Vec<u8> {
    [&[0x53], outer, &elements.concat()].concat()
}

/// A SECURITY with this length of BB, which has so many bytes: 255 in all at the most, so that BB stands at 5.
fn with_bb(length: &[u8], bytes: usize) -> Vec<u8> {
    let elements = [&[0xBA, 0, 0xBB], length, &vec![9; bytes], &[0xFE, 0]].concat();
    around(&spelled(elements.len(), 1), &[&elements])
}

fn forms_of_an_element() -> Group {
    let taken = |bytes: usize, form: usize| {
        let elements = [&[0xBA, 0, 0xBB], &spelled(bytes, form)[..], &vec![9; bytes], &[0xFE, 0]].concat();
        let sheet = security(&[], &vec![9; bytes]).sheet();
        check_into(5, &around(&spelled(elements.len(), 2), &[&elements]), sheet.len(), Ok(&sheet))
    };
    (
        "P3, P5, P6, P7 and all other forms of 127, 128, 255 and 256 that are taken, each with its sheet",
        [
            vec![taken(127, 0)],
            (1..=4).map(|form| taken(128, form)).collect(),
            (1..=4).map(|form| taken(255, form)).collect(),
            (2..=4).map(|form| taken(256, form)).collect(),
        ]
        .concat(),
    )
}

fn refused_forms() -> Group {
    let refused = |length: &[u8], bytes| check(5, &with_bb(length, bytes), (11, 5, Some(0xBB)));
    let under_128 = |number: usize| (1..=4).map(move |form| refused(&spelled(number, form), number.max(121)));
    let first = |byte: u8| refused(&[byte, 0, 0, 0, 128], 128);
    (
        "P4, P8 and all other forms of 0, 1 and 127 that are refused; 85 to 88, 80, 90 and FF with bytes that say 128",
        under_128(0)
            .chain(under_128(1))
            .chain(under_128(127))
            .chain((5..=8).map(|form| refused(&spelled(128, form), 128)))
            .chain([0x80, 0x90, 0xFF].map(first))
            .collect(),
    )
}

fn forms_outside() -> Group {
    // so many bytes of BB, and the content that they make
    let sizes = [(121, 127), (122, 128), (248, 255), (249, 256)];
    let mut cases = Vec::new();
    for (bytes, content) in sizes {
        let card = security(&[], &vec![9; bytes]);
        let container = card.container();
        let elements = &container[container.len() - content..];
        for form in 0..=4 {
            for said in [content - 1, content, content + 1] {
                if (form == 0 && said > 127) || (form == 1 && said > 255) {
                    continue;
                }
                let verdict = match said {
                    0..=127 if form > 0 => alone(11),
                    _ if said == content => CONFORMS,
                    _ => alone(12),
                };
                cases.push(check(5, &around(&spelled(said, form), &[elements]), verdict));
            }
        }
    }
    ("the outer length around 127, 128, 255 and 256 bytes, right and one off, in every form that holds it", cases)
}

/// Lengths that lack one of their bytes or more.
const CUT: [&[u8]; 12] = [
    &[],
    &[0x81],
    &[0x82],
    &[0x82, 1],
    &[0x83],
    &[0x83, 0],
    &[0x83, 0, 1],
    &[0x84],
    &[0x84, 0],
    &[0x84, 0, 0],
    &[0x84, 0, 0, 1],
    &[0x84, 255, 255, 255],
];

fn cut_lengths() -> Group {
    let inside = |length: &&[u8]| {
        let content = 3 + length.len();
        check(5, &around(&spelled(content, 0), &[&[0xBA, 0, 0xBB], length]), (11, 4, Some(0xBB)))
    };
    let outside = |length: &&[u8]| check(5, &around(length, &[]), alone(11));
    (
        "lengths that are cut short after each of their bytes, of an element and of the container",
        CUT.iter().map(inside).chain(CUT.iter().map(outside)).collect(),
    )
}

/// Lengths that are too large for any container. The last eight say 5 in 8, 16, 24 or 31 bits, or lead back into the container in
/// a sum of 16 or of 32 bits.
const FAR: [&[u8]; 12] = [
    &[0x82, 255, 255],
    &[0x83, 1, 0, 0],
    &[0x83, 255, 255, 255],
    &[0x84, 255, 255, 255, 255],
    &[0x82, 1, 5],
    &[0x83, 1, 0, 5],
    &[0x84, 0, 1, 0, 5],
    &[0x84, 1, 0, 0, 5],
    &[0x84, 128, 0, 0, 5],
    &[0x82, 255, 0xFA],
    &[0x84, 255, 255, 255, 0xF6],
    &[0x84, 255, 255, 255, 0xFC],
];

fn far_lengths() -> Group {
    let inside = |length: &&[u8]| {
        let elements = [&[0xBA, 0, 0xBB], *length, &[9; 5], &[0xFE, 0]].concat();
        check(5, &around(&spelled(elements.len(), 0), &[&elements]), (12, 4, Some(0xBB)))
    };
    let outside = |length: &&[u8]| check(5, &around(length, &[&[0xBA, 0, 0xBB]]), alone(12));
    (
        "lengths far beyond the end, of an element and of the container: nothing wraps",
        FAR.iter().map(inside).chain(FAR.iter().map(outside)).collect(),
    )
}

fn discovery_lengths() -> Group {
    let (first, second) = (&EXAMPLE_DISCOVERY[4..15], &EXAMPLE_DISCOVERY[18..]);
    let with = |outer: &[u8], one: &[u8], other: &[u8]| {
        [&[0x7E], outer, &[0x4F], one, first, &[0x5F, 0x2F], other, second].concat()
    };
    let long = |length: &[u8], number, tag| {
        let elements = [&[0x4F], length, &[0; 128][..]].concat();
        check(3, &[&[0x7E, 0x81, elements.len() as u8], &elements[..]].concat(), (number, 3, Some(tag)))
    };
    (
        "DISCOVERY, whose lengths are all under 128: outside, of 4F and of 5F2F in longer forms; 4F of 128 bytes",
        vec![
            check(3, &with(&[18], &[11], &[2]), CONFORMS),
            check(3, &with(&[0x81, 18], &[11], &[2]), alone(11)),
            check(3, &with(&[0x84, 0, 0, 0, 18], &[11], &[2]), alone(11)),
            check(3, &with(&[19], &[0x81, 11], &[2]), (11, 2, Some(0x4F))),
            check(3, &with(&[21], &[0x83, 0, 0, 11], &[2]), (11, 2, Some(0x4F))),
            check(3, &with(&[20], &[11], &[0x82, 0, 2]), (11, 15, Some(0x5F2F))),
            long(&[0x81, 128], 16, 0x4F),
            long(&[0x83, 0, 0, 128], 16, 0x4F),
        ],
    )
}

fn places_behind() -> Group {
    // the outer length in five bytes and a 3E of 200 bytes in six: 3E stands at 61, and what follows it at 267
    let behind = |end: &[u8], verdict| {
        let elements = [&head(&GUID)[..], &[0x3E, 0x84, 0, 0, 0, 200], &[0xAA; 200], end].concat();
        check(2, &[&[0x53], &spelled(elements.len(), 4)[..], &elements].concat(), verdict)
    };
    (
        "places behind longer lengths: of every number from 11 to 16, of nothing at the end, and of a value's rule",
        vec![
            behind(&[0xFE, 0], CONFORMS),
            behind(&[0xFE], (11, 267, Some(0xFE))),
            behind(&[0xFE, 0x82, 0], (11, 267, Some(0xFE))),
            behind(&[0xFE, 1], (12, 267, Some(0xFE))),
            behind(&[0xFE, 0x84, 0, 0, 0, 200], (12, 267, Some(0xFE))),
            behind(&[0x77, 0], (13, 267, Some(0x77))),
            behind(&[0x36, 0], (14, 267, Some(0x36))),
            behind(&[0x3E, 0], (14, 267, Some(0x3E))),
            behind(&[], (15, 267, None)),
            behind(&[0xFE, 1, 0], (16, 267, Some(0xFE))),
            behind(&[0xFE, 0, 0xFE, 0], (14, 269, Some(0xFE))),
            check(2, &longest(&chuid(&wrong_fascn(), EXPIRES, &[0xAA; 200])), (17, 6, Some(0x30))),
            check(2, &longest(&chuid(&EXAMPLE_FASCN, b"20260228", &[0xAA; 200])), (19, 51, Some(0x35))),
            check(10, &longest(&certificate(10, P256, 1, None)), (20, 447, Some(0x71))),
        ],
    )
}

/// A FACE whose record has 300 bytes.
fn long_face() -> Card {
    face(100, &with_pixels(254), 40)
}

fn biometrics_inside() -> Group {
    let broken = |card: Card, number| check(card.kind, &longest(&card), (number, 6, Some(0xBC)));
    let with = |mut card: Card, at: usize, byte: u8| {
        card.rows[0].as_mut().expect("a BC")[at] = byte;
        card
    };
    (
        "BC in the longest forms: good ones, and data and signature lengths, FASC-N, minutiae and a record that are not",
        vec![
            check(6, &longest(&fingers(100, b'0', [3, 5])), CONFORMS),
            check(7, &longest(&long_face()), CONFORMS),
            broken(with(fingers(100, b'0', [3, 5]), 5, 87), 21),
            broken(with(long_face(), 7, 41), 21),
            broken(with(long_face(), 83, 0xEA), 17),
            broken(fingers(100, 0, [3, 5]), 22),
            broken(with(long_face(), 88, 0x47), 26),
            broken(face(100, &RUBBISH, 40), 26),
        ],
    )
}

fn certificates_inside() -> Group {
    let of = |length: &[u8], bytes| with_part(&[&[4], length, &vec![0; bytes][..]].concat());
    let said = |value: &[u8], verdict| check(8, &longest(&certificate(8, value, 0, None)), verdict);
    let refused = (24, 6, Some(0x70));
    (
        "70 in the longest forms: certificates that conform, and DER lengths in more than the fewest bytes, which do not",
        vec![
            said(RSA, CONFORMS),
            said(P256, CONFORMS),
            said(&of(&[0x81, 200], 200), CONFORMS),
            said(&of(&[0x82, 0, 200], 200), refused),
            said(&of(&[0x83, 0, 0, 200], 200), refused),
            said(&of(&[0x84, 0, 0, 0, 200], 200), refused),
            said(&of(&[0x83, 0, 1, 0], 256), refused),
            said(&[&[0x30, 0x82, 0, 206, 5, 0, 5, 0, 4, 0x81, 199], &[0; 199][..]].concat(), refused),
            said(&of(&[0x84, 255, 255, 255, 255], 200), refused),
        ],
    )
}

fn longer_views() -> Group {
    let chuid = longest(&whole_chuid(&[0x30; 200]));
    let chuid_view = |element, offset, length| view(2, &chuid, element, Ok((offset, length)));
    let pivauth = longest(&certificate(8, RSA, 0, None));
    let mut ccc = ccc(0x10);
    ccc.rows[3] = Some(vec![5; 128]);
    (
        "views in the longest forms: each element of a CHUID, of CCC behind F3, of SECURITY, FINGERS and PIVAUTH; absent ones",
        vec![
            chuid_view(0xEE, 8, 2),
            chuid_view(0x30, 12, 25),
            chuid_view(0x32, 39, 4),
            chuid_view(0x33, 45, 9),
            chuid_view(0x34, 56, 16),
            chuid_view(0x35, 74, 8),
            chuid_view(0x36, 84, 16),
            chuid_view(0x3E, 106, 200),
            chuid_view(0xFE, 308, 0),
            view(2, &chuid, 0xBC, Err(alone(6))),
            view(1, &longest(&ccc), 0xF3, Ok((41, 128))),
            view(1, &longest(&ccc), 0xF5, Ok((174, 1))),
            view(1, &longest(&ccc), 0xE3, Err(alone(6))),
            view(5, &longest(&security(&[1, 2], &[3; 300])), 0xBB, Ok((16, 300))),
            view(6, &longest(&fingers(100, b'0', [3, 5])), 0xBC, Ok((12, 175))),
            view(8, &pivauth, 0x70, Ok((12, 1_091))),
            view(8, &pivauth, 0x71, Ok((1_105, 1))),
            view(8, &pivauth, 0x72, Err(alone(6))),
            view(8, &pivauth, 0xFE, Ok((1_108, 0))),
        ],
    )
}

fn longer_reports() -> Group {
    let page = |card: &Card, name: &str, bytes: usize, lines: &str| {
        let head = format!("CARD 4\nkind {}\nbytes {}\ntoday 20260301\nverdict ", name, bytes);
        report(card.kind, &longest(card), 512, Ok(&(head + lines)))
    };
    let agency = "agency 1234\nsystem 0001\n";
    (
        "reports in the longest forms: the bytes are those given, and the lengths those of the values",
        vec![
            page(
                &chuid(&EXAMPLE_FASCN, EXPIRES, &[7; 200]),
                "CHUID",
                269,
                &format!("0 0 --\nELEMENTS 5\n30 25\n34 16\n35 8\n3E 200\nFE 0\nOPEN 3\n{}expires 20300131\n", agency),
            ),
            page(&security(&[1, 2], &[3; 140]), "SECURITY", 158, "0 0 --\nELEMENTS 3\nBA 2\nBB 140\nFE 0\nOPEN 0\n"),
            page(
                &fingers(100, b'0', [3, 5]),
                "FINGERS",
                189,
                &format!("0 0 --\nELEMENTS 2\nBC 175\nFE 0\nOPEN 2\n{}", agency),
            ),
            page(&long_face(), "FACE", 442, &format!("0 0 --\nELEMENTS 2\nBC 428\nFE 0\nOPEN 2\n{}", agency)),
            page(&certificate(8, RSA, 0, None), "PIVAUTH", 1_108, "0 0 --\nELEMENTS 3\n70 1091\n71 1\nFE 0\nOPEN 0\n"),
            page(&certificate(8, COMPRESSED, 1, None), "PIVAUTH", 977, "24 6 70\nELEMENTS 0\nOPEN 0\n"),
        ],
    )
}

fn largest_as_given() -> Group {
    // 3E has six bytes of tag and length, and so has the container
    let rest = 6 + 55 + 6 + 2;
    let of = |total: usize| chuid(&EXAMPLE_FASCN, EXPIRES, &vec![7; total - rest]);
    let (largest, too_large) = (of(CONTAINER_MAX), of(CONTAINER_MAX + 1));
    let (container, sheet) = (longest(&largest), largest.sheet());
    let written = too_large.container();
    (
        "a CHUID of 32,768 bytes in the longest forms; one of 32,769, which would have 32,765 in fewest bytes and is written so",
        vec![
            check(2, &container, CONFORMS),
            check_short(2, &container, sheet.len() - 1),
            check_into(2, &container, sheet.len(), Ok(&sheet)),
            check_into(2, &container, SHEET_ROOM, Ok(&sheet)),
            view(2, &container, 0x3E, Ok((67, 32_699))),
            check(2, &longest(&too_large), alone(4)),
            check_into(2, &longest(&too_large), SHEET_ROOM, Err(alone(4))),
            view(2, &longest(&too_large), 0x3E, Err(alone(4))),
            report(2, &longest(&too_large), 512, Err(4)),
            write(2, &too_large.sheet(), 32_764, Err(alone(3))),
            write(2, &too_large.sheet(), 32_765, Ok(&written)),
        ],
    )
}

/// What is read of a container in the longest forms is written in the fewest bytes.
fn there_and_fewest() -> Vec<Group> {
    let group = |name, card: Card| {
        let (given, fewest, sheet) = (longest(&card), card.container(), card.sheet());
        let check = |room| check_into(card.kind, &given, room, Ok(&sheet));
        let write = |room, outcome| write(card.kind, &sheet, room, outcome);
        let cases = vec![
            check_short(card.kind, &given, 0),
            check_short(card.kind, &given, sheet.len() - 1),
            check(sheet.len()),
            check(given.len() + 6),
            write(fewest.len() - 1, Err(alone(3))),
            write(fewest.len(), Ok(&fewest)),
            write(given.len(), Ok(&fewest)),
        ];
        (name, cases)
    };
    let mut ccc = ccc(0x10);
    ccc.rows[3] = Some(vec![5; 128]);
    let mut printed = printed(b"AGENT", PRINTED_DATE);
    printed.rows[0] = Some(vec![b'A'; 125]);
    vec![
        group("CCC in the longest forms, written in the fewest bytes", ccc),
        group("CHUID in the longest forms, written in the fewest bytes", whole_chuid(&[0x30; 200])),
        group("PRINTED in the longest forms, written in the fewest bytes", printed),
        group("SECURITY in the longest forms, written in the fewest bytes", security(&[1, 2], &[3; 256])),
        group("FINGERS in the longest forms, written in the fewest bytes", fingers(100, b'0', [3, 5])),
        group("FACE in the longest forms, written in the fewest bytes", long_face()),
        group("PIVAUTH in the longest forms, written in the fewest bytes", certificate(8, RSA, 0, None)),
        group("DIGSIG in the longest forms, written in the fewest bytes", certificate(9, P256, 0, Some(&[]))),
        group("KEYMGMT in the longest forms, written in the fewest bytes", certificate(10, P256, 0, Some(&[0x41; 38]))),
        group("CARDAUTH in the longest forms, written in the fewest bytes", certificate(11, P256, 0, None)),
    ]
}
