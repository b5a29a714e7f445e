//! Named calls with the answers that 01 and 02 give them, written out: examples that a program has to run, refusals of every call,
//! and rooms at their edges. The tests of this program run them, and the comparison runs them through both programs.

use crate::batch::{Answer, Call, Record};
use crate::card::{Verdict, CONFORMS};
use crate::faces::{facial, least, with_pixels};
use crate::generate::{plain, Card, EXAMPLE_DAY, EXAMPLE_DISCOVERY, EXAMPLE_FASCN};
use crate::irises::{iris_record, least as least_iris};
use crate::samples::{card, ccc, certificate, chuid, discovery, face, fingers, iris, printed, security, wrong_fascn};
use crate::samples::{eye, eyes, portrait, COMPRESSED, P256, RSA, UUID};
use crate::{CONTAINER_MAX, SHEET_ROOM};

mod dates;
mod faces;
mod folder;
mod irises;
mod lengths;
mod longest;
mod points;
mod signer;
mod smears;
mod strings;
mod tags;

pub use smears::{swept as swept_smears, SWEPT as SWEPT_SMEARS};

/// A call and its answer.
pub type Case = (Record, Answer);

/// Calls of one sort, with a name.
pub type Group = (&'static str, Vec<Case>);

pub fn all() -> Vec<Group> {
    [
        fascns(),
        smears::all(),
        strings::all(),
        biometrics(),
        certificates(),
        limits(),
        conforming(),
        broken(),
        there_and_back(),
        rooms(),
        refused_sheets(),
        tags::all(),
        lengths::all(),
        dates::all(),
        faces::all(),
        irises::all(),
        views(),
        reports(),
        longest::all(),
        points::all(),
        signer::all(),
        folder::all(),
    ]
    .concat()
}

// ---------------------------------------------------------------------------------------------
// The calls

fn given(call: Call, kind: u64, bytes: &[u8]) -> Record {
    plain(call, kind, bytes.to_vec())
}

fn on(today: u64, (record, answer): Case) -> Case {
    (Record { today, ..record }, answer)
}

fn told((number, place, tag): Verdict) -> Answer {
    Answer { number, place, tag, ..Answer::default() }
}

/// A number that carries no place, and so no tag.
fn alone(number: u64) -> Verdict {
    (number, 0, None)
}

/// What a call leaves in a room that held FF: its output and zeros behind it, or zeros after a refusal.
fn into_room(record: Record, room: usize, outcome: Result<&[u8], Verdict>) -> Case {
    let (verdict, output) = match outcome {
        Ok(output) => (CONFORMS, output),
        Err(refusal) => (refusal, &[][..]),
    };
    let mut left = output.to_vec();
    left.resize(room, 0);
    (Record { room, fill: 0xFF, ..record }, Answer { length: output.len() as u64, room: left, ..told(verdict) })
}

/// A check with an empty room, for the verdict alone. Beside a 0 there is the 3.
fn check(kind: u64, container: &[u8], verdict: Verdict) -> Case {
    match verdict {
        CONFORMS => check_short(kind, container, 0),
        broken => check_into(kind, container, 0, Err(broken)),
    }
}

/// A check with a room: the sheet that is written there, or the first broken rule.
fn check_into(kind: u64, container: &[u8], room: usize, outcome: Result<&[u8], Verdict>) -> Case {
    into_room(given(Call::Check, kind, container), room, outcome)
}

/// A check of a conforming container with a room that is too short for the sheet, of which nothing is written.
fn check_short(kind: u64, container: &[u8], room: usize) -> Case {
    let (record, answer) = check_into(kind, container, room, Ok(&[]));
    (record, Answer { short: 3, ..answer })
}

fn write(kind: u64, sheet: &[u8], room: usize, outcome: Result<&[u8], Verdict>) -> Case {
    into_room(given(Call::Write, kind, sheet), room, outcome)
}

/// A card's container that is checked and its sheet that is written, in rooms that suffice. Where the number is not 0, the element
/// with this tag is refused, at one place of the container and at the other of the sheet.
fn checked_and_written(card: &Card, number: u64, tag: u16, [place, in_sheet]: [u64; 2]) -> [Case; 2] {
    let (container, sheet) = (card.container(), card.sheet());
    let outcome = |output, place| if number == 0 { Ok(output) } else { Err((number, place, Some(tag))) };
    [
        check_into(card.kind, &container, sheet.len(), outcome(&sheet[..], place)),
        write(card.kind, &sheet, container.len(), outcome(&container[..], in_sheet)),
    ]
}

/// A view is told by the offset and the length of its part.
fn view(kind: u64, container: &[u8], element: u64, outcome: Result<(usize, usize), Verdict>) -> Case {
    let record = Record { element, ..given(Call::View, kind, container) };
    let answer = match outcome {
        Ok((offset, length)) => {
            let part = container[offset..offset + length].to_vec();
            Answer { offset: offset as u64, length: length as u64, part, ..Answer::default() }
        }
        Err(refusal) => told(refusal),
    };
    (record, answer)
}

fn report(kind: u64, container: &[u8], room: usize, outcome: Result<&str, u64>) -> Case {
    into_room(given(Call::Report, kind, container), room, outcome.map(str::as_bytes).map_err(alone))
}

fn decode(bytes: &[u8], outcome: Result<[u64; 9], u64>) -> Case {
    let answer = match outcome {
        Ok(numbers) => Answer { numbers, ..Answer::default() },
        Err(number) => told(alone(number)),
    };
    (Record { today: 0, ..given(Call::FascnDecode, 0, bytes) }, answer)
}

fn encode(numbers: &[u64; 9], room: usize, outcome: Result<&[u8], u64>) -> Case {
    let bytes: Vec<u8> = numbers.iter().flat_map(|number| number.to_be_bytes()).collect();
    let record = Record { today: 0, ..given(Call::FascnEncode, 0, &bytes) };
    let (record, answer) = into_room(record, room, outcome.map_err(alone));
    // an encoding tells no length
    (record, Answer { length: 0, ..answer })
}

// ---------------------------------------------------------------------------------------------
// The containers that several groups have

const EXPIRES: &[u8] = b"20300131";

/// The same day as a card's face has it.
const PRINTED_DATE: &[u8] = b"2030JAN31";

/// The smallest SECURITY.
const SMALL: [u8; 8] = [0x53, 6, 0xBA, 0, 0xBB, 0, 0xFE, 0];

/// Bytes that are no record.
const RUBBISH: [u8; 300] = [0xFF; 300];

/// A FACE with the portrait.
fn portrait_face() -> Card {
    face(100, &facial(&[portrait()]), 40)
}

/// An IRIS with the pictures of two eyes.
fn eyes_iris() -> Card {
    iris(100, &eyes(), 40)
}

/// Case R.
fn case_r() -> Card {
    chuid(&EXAMPLE_FASCN, EXPIRES, &[])
}

/// A CHUID with each optional element.
fn whole_chuid(signature: &[u8]) -> Card {
    let values: [&[u8]; 9] = [&[1, 2], &EXAMPLE_FASCN, &[3; 4], &[4; 9], &UUID, EXPIRES, &UUID, signature, &[]];
    card(2, &values.map(Some))
}

/// A conforming CHUID of so many bytes, when its 3E is written in three bytes of length.
fn large_chuid(total: usize) -> Card {
    let rest = case_r().container().len() + 4;
    chuid(&EXAMPLE_FASCN, EXPIRES, &vec![7; total - rest])
}

// ---------------------------------------------------------------------------------------------
// FASC-N alone

const P1: [u64; 9] = [1234, 1, 5, 1, 1, 7, 1, 1234, 1];

/// The FASC-N of P1 with another number in one place: the credential, the series and so on, each one more in its last digit and in
/// its first. Beside each stands which number it is.
fn other_fascns() -> Vec<(usize, [u8; 25])> {
    let mut others = Vec::new();
    for (field, unit) in
        [(0, 1_000), (1, 1_000), (2, 100_000), (3, 1), (4, 1), (5, 1_000_000_000), (6, 1), (7, 1_000), (8, 1)]
    {
        for more in [1, unit] {
            let mut numbers = P1;
            numbers[field] += more;
            let mut fascn = [0; 25];
            assert_eq!(crate::fascn_encode(&numbers, &mut fascn), 0);
            others.push((field, fascn));
        }
    }
    others
}

fn fascns() -> Vec<Group> {
    let mut long = EXAMPLE_FASCN.to_vec();
    long.push(0);
    let with = |field: usize, number: u64| {
        let mut numbers = P1;
        numbers[field] = number;
        numbers
    };
    let mut most = with(2, 999_999);
    most[5] = 9_999_999_999;
    let most_bytes = [
        0xD4, 0x11, 0x92, 0x58, 0x21, 0x0C, 0x2D, 0x39, 0xCE, 0x73, 0x9D, 0xA1, 0x68, 0x5A, 0x73, 0x9C, 0xE7, 0x39,
        0xCE, 0x73, 0x84, 0x11, 0x92, 0x43, 0xE2,
    ];
    vec![
        (
            "FASC-N decoded: P1, P2, 25 zero bytes, 24 bytes, 26 bytes, nothing",
            vec![
                decode(&EXAMPLE_FASCN, Ok(P1)),
                decode(&wrong_fascn(), Err(17)),
                decode(&[0; 25], Err(17)),
                decode(&EXAMPLE_FASCN[..24], Err(17)),
                decode(&long, Err(17)),
                decode(&[], Err(17)),
            ],
        ),
        (
            "FASC-N encoded: P1 into rooms of 40, 25 and 24 bytes",
            vec![encode(&P1, 40, Ok(&EXAMPLE_FASCN)), encode(&P1, 25, Ok(&EXAMPLE_FASCN)), encode(&P1, 24, Err(3))],
        ),
        (
            "seven digits of credential, eleven of person, the most of two fields, a room that is too small as well",
            vec![
                encode(&with(2, 1_000_000), 40, Err(7)),
                encode(&with(5, 10_000_000_000), 40, Err(7)),
                encode(&most, 26, Ok(&most_bytes)),
                encode(&with(0, 10_000), 24, Err(7)),
            ],
        ),
    ]
}

// ---------------------------------------------------------------------------------------------
// Biometric records

/// A container of the worked cases with these fields from the format's owner to the data type and this FASC-N, these reserved bytes
/// and this record. The quality is FE, and the signature has three bytes.
fn case_of(kind: u64, head: &[u8], fascn: &[u8; 25], reserved: [u8; 4], record: &[u8]) -> Vec<u8> {
    let data = (record.len() as u32).to_be_bytes();
    let header = [&[0x03, 0x0D], &data[..], &[0, 3], head, &[0xFE], b"MAKER", &[0; 13], fascn, &reserved];
    card(kind, &[Some(&[&header.concat(), record, b"SIG"].concat()), Some(&[])]).container()
}

/// The fields of a header from the owner to the data type, with the three dates of the worked cases.
fn head_of(owner_and_format: [u8; 4], type_and_data_type: [u8; 4]) -> Vec<u8> {
    let moment = [0x14, 0x1A, 0x03, 0x01, 0x0A, 0x1E, 0x3B, 0x5A];
    [&owner_and_format, &moment.repeat(3)[..], &type_and_data_type].concat()
}

/// A biometric that is checked, and whose sheet is written, in rooms that suffice. The count of BC is the first of the sheet.
fn both_calls(card: &Card, number: u64) -> [Case; 2] {
    checked_and_written(card, number, 0xBC, [first_place(&card.container()), 0])
}

/// The biometric with this byte at the end of its FASC-N, and this one at the end of the reserved bytes.
fn with_ends(mut card: Card, fascn: u8, reserved: u8) -> Card {
    let value = card.rows[0].as_mut().expect("a BC");
    value[83] = fascn;
    value[87] = reserved;
    card
}

/// 21 of a field of the header, 17, 21 of the reserved bytes and this number in one BC: each alone, each pair, and all of them. The
/// card is made with a quality, of which this one is a fault.
fn order_in_header(card: impl Fn(u8) -> Card, quality: u8, number: u64) -> Vec<Case> {
    let both = |quality, fascn, reserved, number| both_calls(&with_ends(card(quality), fascn, reserved), number);
    [
        both(100, 0xEB, 0, number),
        both(quality, 0xEB, 0, 21),
        both(100, 0xEA, 0, 17),
        both(100, 0xEB, 1, 21),
        both(quality, 0xEA, 0, 21),
        both(100, 0xEA, 1, 17),
        both(quality, 0xEB, 1, 21),
        both(quality, 0xEA, 1, 21),
    ]
    .concat()
}

/// 11, 12, 16 and 21 of the lengths come before the number of a record, and that before all that is wrong behind BC. The card has a
/// record of seven bytes that is none, and one byte of signature.
fn order_around_record(card: &Card, number: u64) -> Vec<Case> {
    // BC of 96 bytes; it stands at 2, and what follows it at 100
    let bc = card.rows[0].clone().unwrap_or_default();
    let with = |length: u8, value: &[u8], end: &[u8], number| {
        let content = [&[0xBC, length], value, end].concat();
        check(card.kind, &[&[0x53, content.len() as u8], &content[..]].concat(), (number, 2, Some(0xBC)))
    };
    let mut no_data = bc.clone();
    no_data[5] = 0;
    let mut other_length = bc.clone();
    other_length[5] = 8;
    vec![
        with(96, &bc, &[0xFE, 0], number),
        with(96, &bc, &[], number),
        with(96, &bc, &[0xFE, 1, 0], number),
        with(96, &bc, &[0xBC, 0, 0xFE, 0], number),
        with(96, &bc, &[0x00], number),
        with(96, &bc, &[0xFE], number),
        with(0x80, &bc, &[0xFE, 0], 11),
        with(99, &bc, &[0xFE, 0], 12),
        with(87, &bc[..87], &[0xFE, 0], 16),
        with(95, &bc[..95], &[0xFE, 0], 21),
        with(96, &no_data, &[0xFE, 0], 21),
        with(96, &other_length, &[0xFE, 0], 21),
    ]
}

/// The minutiae record of a card with FINGERS.
fn minutiae_of(card: Card) -> Vec<u8> {
    card.rows[0].as_ref().expect("a BC")[88..].split_last().expect("a signature").1.to_vec()
}

fn biometrics() -> Vec<Group> {
    let at_bc = |number, place| if number == 0 { CONFORMS } else { (number, place, Some(0xBC)) };
    let fingers_of = |quality, number| check(6, &fingers(quality, b'0', [0, 0]).container(), at_bc(number, 3));
    let face_of = |quality, number| check(7, &face(quality, &least(), 1).container(), at_bc(number, 3));
    let iris_of = |quality, number| check(12, &iris(quality, &least_iris(), 1).container(), at_bc(number, 3));
    let views = |counts| check(6, &fingers(100, b'0', counts).container(), CONFORMS);
    let value_of = |record: &[u8]| face(100, record, 1).rows[0].clone().unwrap_or_default();
    let (of_one_byte, of_least) = (value_of(&[0xFF]), value_of(&least()));
    let bc_of =
        |value: &[u8], number, place| check(7, &card(7, &[Some(value), Some(&[])]).container(), at_bc(number, place));
    vec![
        (
            "quality FD, FE, FF, 64, 65 in FINGERS",
            [(0xFD, 21), (0xFE, 0), (0xFF, 0), (0x64, 0), (0x65, 21)].map(|(q, number)| fingers_of(q, number)).to_vec(),
        ),
        (
            "quality FD, FE, FF, 64, 65 in FACE",
            [(0xFD, 21), (0xFE, 0), (0xFF, 21), (0x64, 0), (0x65, 21)].map(|(q, number)| face_of(q, number)).to_vec(),
        ),
        (
            "quality FD, FE, FF, 64, 65 in IRIS",
            [(0xFD, 21), (0xFE, 0), (0xFF, 0), (0x64, 0), (0x65, 21)].map(|(q, number)| iris_of(q, number)).to_vec(),
        ),
        ("FINGERS with 0 and with 128 minutiae in a view", vec![views([0, 0]), views([128, 128]), views([0, 128])]),
        (
            "the old version number in the minutiae",
            vec![check(6, &fingers(100, 0, [0, 0]).container(), (22, 3, Some(0xBC)))],
        ),
        (
            "BC of 87 to 90 bytes, FACE, with a record of one byte; of 134 and 135, which is the least",
            vec![
                bc_of(&of_one_byte[..87], 16, 2),
                bc_of(&of_one_byte[..88], 21, 2),
                bc_of(&of_one_byte[..89], 21, 2),
                bc_of(&of_one_byte, 26, 2),
                bc_of(&of_least[..134], 21, 3),
                bc_of(&of_least, 0, 3),
            ],
        ),
    ]
}

// ---------------------------------------------------------------------------------------------
// Certificates

/// The least certificate.
const LEAST: [u8; 8] = [0x30, 6, 5, 0, 5, 0, 5, 0];

/// One with an item at level 8, and one with an item at level 9.
const LEVEL_8: [u8; 20] = [0x30, 18, 0x30, 12, 0x30, 10, 0x30, 8, 0x30, 6, 0x30, 4, 0x30, 2, 5, 0, 5, 0, 5, 0];
const LEVEL_9: [u8; 22] =
    [0x30, 20, 0x30, 14, 0x30, 12, 0x30, 10, 0x30, 8, 0x30, 6, 0x30, 4, 0x30, 2, 5, 0, 5, 0, 5, 0];

/// One with a SEQUENCE at level 8 that has one byte inside.
const HALF_AN_ITEM: [u8; 21] =
    [0x30, 19, 0x30, 13, 0x30, 11, 0x30, 9, 0x30, 7, 0x30, 5, 0x30, 3, 0x30, 1, 5, 5, 0, 5, 0];

/// A certificate of so many bytes, most of them in items of two bytes.
fn of_pairs(bytes: usize) -> Vec<u8> {
    let length = |bytes: usize| (bytes as u16).to_be_bytes();
    let pairs = bytes - 12;
    let mut out = vec![0x30, 0x82];
    out.extend(length(bytes - 4));
    // the first part has two bytes, or three
    out.extend_from_slice(if pairs % 2 == 0 { &[5, 0] } else { &[2, 1, 7] });
    out.extend([5, 0, 0x30, 0x82]);
    out.extend(length(pairs / 2 * 2));
    out.extend([5, 0].repeat(pairs / 2));
    out
}

/// A certificate of three parts, the second of which is these bytes.
fn with_part(part: &[u8]) -> Vec<u8> {
    let length = part.len() + 4;
    let length = match length {
        0..=127 => vec![length as u8],
        128..=255 => vec![0x81, length as u8],
        _ => vec![0x82, (length >> 8) as u8, length as u8],
    };
    [&[0x30], &length[..], &[5, 0], part, &[5, 0]].concat()
}

/// Where the first tag stands, behind an outer length of one, two or three bytes.
fn first_place(container: &[u8]) -> u64 {
    match container[1] {
        0x81 => 3,
        0x82 => 4,
        _ => 2,
    }
}

/// A check of PIVAUTH with this value of 70.
fn check_70(value: &[u8], number: u64) -> Case {
    let container = certificate(8, value, 0, None).container();
    let broken = (number, first_place(&container), Some(0x70));
    check(8, &container, if number == 0 { CONFORMS } else { broken })
}

fn certificates() -> Vec<Group> {
    let least = |kind| check(kind, &certificate(kind, &LEAST, 0, None).container(), CONFORMS);
    vec![
        ("the least certificate as PIVAUTH, DIGSIG, KEYMGMT, CARDAUTH", vec![least(8), least(9), least(10), least(11)]),
        certificate_levels(),
        certificate_parts(),
        torn_certificates(),
        certificate_tags(),
        opened_items(),
        torn_items(),
        item_lengths(),
        first_fault(),
        certificate_information(),
        certificate_extras(),
        certificate_rows(),
        (
            "certificates of two-byte items in containers of exactly 32,768 bytes and of 32,769",
            vec![
                check(9, &certificate(9, &of_pairs(32_755), 0, None).container(), CONFORMS),
                check(9, &certificate(9, &of_pairs(32_756), 0, None).container(), alone(4)),
            ],
        ),
    ]
}

fn certificate_levels() -> Group {
    let with_9 = |tag: u8, length: u8| [&LEVEL_9[..16], &[tag, length], &LEVEL_9[18..]].concat();
    (
        "an item at level 8 and at level 9; there a tag 1F, a length 80 and half an item are not looked at",
        vec![
            check_70(&LEVEL_8, 0),
            check_70(&LEVEL_9, 25),
            check_70(&with_9(0x1F, 0), 25),
            check_70(&with_9(5, 0x80), 25),
            check_70(&HALF_AN_ITEM, 25),
        ],
    )
}

fn certificate_parts() -> Group {
    let parts = |outer: u8, count: usize| [&[outer, 2 * count as u8], &[5, 0].repeat(count)[..]].concat();
    (
        "no, one, two, three, four and five parts; a SET, a primitive 10 and another class outside",
        vec![
            check_70(&parts(0x30, 0), 24),
            check_70(&parts(0x30, 1), 24),
            check_70(&parts(0x30, 2), 24),
            check_70(&parts(0x30, 3), 0),
            check_70(&parts(0x30, 4), 24),
            check_70(&parts(0x30, 5), 24),
            check_70(&parts(0x31, 3), 24),
            check_70(&parts(0x10, 3), 24),
            check_70(&parts(0x70, 3), 24),
        ],
    )
}

fn torn_certificates() -> Group {
    (
        "an empty 70, a tag alone, a byte behind the outermost item and one too few",
        vec![
            check_70(&[], 24),
            check_70(&[0x30], 24),
            check_70(&[&LEAST[..], &[0]].concat(), 24),
            check_70(&LEAST[..7], 24),
        ],
    )
}

fn certificate_tags() -> Group {
    let tag = |tag: u8, number| check_70(&with_part(&[tag, 0]), number);
    (
        "tags of number 31 in each class, and of number 30; tag 00",
        vec![
            tag(0x1F, 24),
            tag(0x3F, 24),
            tag(0x5F, 24),
            tag(0x9F, 24),
            tag(0xFF, 24),
            tag(0x1E, 0),
            tag(0xBE, 0),
            tag(0x00, 0),
        ],
    )
}

fn opened_items() -> Group {
    (
        "only constructed items are opened: 04 and 24 with the same bytes inside, and 24 with an item inside",
        vec![
            check_70(&with_part(&[0x04, 2, 0xFF, 0xFF]), 0),
            check_70(&with_part(&[0x24, 2, 0xFF, 0xFF]), 24),
            check_70(&with_part(&[0x24, 2, 5, 0]), 0),
        ],
    )
}

fn torn_items() -> Group {
    (
        "a part that runs past its item, one that leaves a byte over, a length that is cut off, 80",
        vec![
            check_70(&with_part(&[0x30, 2, 5, 1]), 24),
            check_70(&with_part(&[0x30, 3, 5, 0, 5]), 24),
            check_70(&[0x30, 6, 5, 0, 5, 0, 4, 0x81], 24),
            check_70(&with_part(&[0x30, 0x80, 5, 0, 0, 0]), 24),
        ],
    )
}

fn item_lengths() -> Group {
    let long = |length: &[u8], bytes: usize, number| {
        check_70(&with_part(&[&[4], length, &vec![0; bytes][..]].concat()), number)
    };
    (
        "contents of 127, 128, 255 and 256 bytes, and the same lengths in a byte more",
        vec![
            long(&[0x7F], 127, 0),
            long(&[0x81, 0x7F], 127, 24),
            long(&[0x81, 0x80], 128, 0),
            long(&[0x82, 0x00, 0x80], 128, 24),
            long(&[0x81, 0xFF], 255, 0),
            long(&[0x82, 0x00, 0xFF], 255, 24),
            long(&[0x82, 0x01, 0x00], 256, 0),
            long(&[0x83, 0x00, 0x01, 0x00], 256, 24),
        ],
    )
}

fn first_fault() -> Group {
    let parts = &LEVEL_9[2..];
    (
        "the first fault in byte order: 1F before level 9 and behind it; level 9 before four parts, a SET and a byte behind; \
         an outermost item that is cut off before level 9",
        vec![
            check_70(&[&[0x30, 22, 0x1F, 0], parts].concat(), 24),
            check_70(&[&[0x30, 22], parts, &[0x1F, 0]].concat(), 25),
            check_70(&[&[0x30, 22, 5, 0], parts].concat(), 25),
            check_70(&[&[0x31, 20], parts].concat(), 25),
            check_70(&[&[0x30, 20], parts, &[0]].concat(), 25),
            check_70(&[&[0x30, 21], parts].concat(), 24),
        ],
    )
}

/// A check of CARDAUTH with these elements.
fn check_elements(elements: &[&[u8]], verdict: Verdict) -> Case {
    let content = elements.concat();
    check(11, &[&[0x53, content.len() as u8], &content[..]].concat(), verdict)
}

/// The first element with the least certificate, and the second and the last as they should be.
const ELEMENT_70: [u8; 10] = [0x70, 8, 0x30, 6, 5, 0, 5, 0, 5, 0];
const ELEMENT_71: [u8; 3] = [0x71, 1, 0];
const ELEMENT_FE: [u8; 2] = [0xFE, 0];

fn certificate_information() -> Group {
    (
        "71 of 01; of 01 with a certificate that is compressed; of no bytes and of two",
        vec![
            check(10, &certificate(10, &LEAST, 1, None).container(), (20, 12, Some(0x71))),
            check(10, &certificate(10, COMPRESSED, 1, None).container(), (24, 4, Some(0x70))),
            check_elements(&[&ELEMENT_70, &[0x71, 0], &ELEMENT_FE], (16, 12, Some(0x71))),
            check_elements(&[&ELEMENT_70, &[0x71, 2, 0, 0], &ELEMENT_FE], (16, 12, Some(0x71))),
        ],
    )
}

fn certificate_extras() -> Group {
    let of =
        |length: usize, verdict| check(10, &certificate(10, &LEAST, 0, Some(&vec![0x41; length])).container(), verdict);
    ("72 of 0, 38 and 39 bytes", vec![of(0, CONFORMS), of(38, CONFORMS), of(39, (16, 15, Some(0x72)))])
}

fn certificate_rows() -> Group {
    let extra = [0x72, 0];
    (
        "70 missing, 71 missing, 72 before 71, 71 twice, FE missing, a tag that is none",
        vec![
            check_elements(&[&ELEMENT_71, &ELEMENT_FE], (15, 2, Some(0x71))),
            check_elements(&[&ELEMENT_70, &ELEMENT_FE], (15, 12, Some(0xFE))),
            check_elements(&[&ELEMENT_70, &extra, &ELEMENT_71, &ELEMENT_FE], (15, 12, Some(0x72))),
            check_elements(&[&ELEMENT_70, &ELEMENT_71, &ELEMENT_71, &ELEMENT_FE], (14, 15, Some(0x71))),
            check_elements(&[&ELEMENT_70, &ELEMENT_71, &extra], (15, 17, None)),
            check_elements(&[&ELEMENT_70, &ELEMENT_71, &[0x73, 0], &ELEMENT_FE], (13, 15, Some(0x73))),
        ],
    )
}

// ---------------------------------------------------------------------------------------------
// Limits, kinds and broken containers

fn limits() -> Vec<Group> {
    let day = |today, number| on(today, check(5, &SMALL, alone(number)));
    vec![
        (
            "an empty container, and one without elements",
            vec![check(2, &[], alone(10)), check(2, &[0x53, 0], (15, 2, None))],
        ),
        (
            "conforming containers of exactly 32,768 bytes and of 32,769",
            vec![
                check(2, &large_chuid(CONTAINER_MAX).container(), CONFORMS),
                check(2, &large_chuid(CONTAINER_MAX + 1).container(), alone(4)),
            ],
        ),
        (
            "kind 0, 13 and the largest number; 12 is one",
            vec![
                check(0, &SMALL, alone(1)),
                check(13, &SMALL, alone(1)),
                check(u64::MAX, &SMALL, alone(1)),
                check(12, &SMALL, (13, 2, Some(0xBA))),
            ],
        ),
        (
            "today 0, 20230229, 10101, 99991231, 99999999 and the largest number, SECURITY",
            vec![day(0, 2), day(20230229, 2), day(10101, 0), day(99991231, 0), day(99999999, 2), day(u64::MAX, 2)],
        ),
    ]
}

/// Checks of a conforming card, without a room and with one that is as long as its sheet.
fn conforms(card: Card) -> [Case; 2] {
    let container = card.container();
    let sheet = card.sheet();
    [check(card.kind, &container, CONFORMS), check_into(card.kind, &container, sheet.len(), Ok(&sheet))]
}

fn conforming() -> Vec<Group> {
    vec![
        (
            "one of every kind: CCC, CHUID, DISCOVERY, PRINTED, SECURITY, FINGERS, FACE, certificates, and IRIS",
            [
                conforms(ccc(0x10)),
                conforms(case_r()),
                conforms(discovery([0x40, 0])),
                conforms(printed(b"AGENT", PRINTED_DATE)),
                conforms(security(&[1, 2], &[3; 200])),
                conforms(fingers(100, b'0', [3, 5])),
                conforms(portrait_face()),
                conforms(certificate(8, RSA, 0, None)),
                conforms(certificate(9, P256, 0, None)),
                conforms(certificate(10, P256, 0, Some(&[1]))),
                conforms(certificate(11, &LEAST, 0, None)),
                conforms(eyes_iris()),
            ]
            .concat(),
        ),
        ("a CHUID with each optional element", conforms(whole_chuid(&[])).to_vec()),
        (
            "an expiry on the first and on the last day of its window",
            [conforms(chuid(&EXAMPLE_FASCN, b"20260301", &[])), conforms(chuid(&EXAMPLE_FASCN, b"20320301", &[]))]
                .concat(),
        ),
    ]
}

fn broken() -> Vec<Group> {
    let breaks = |card: Card, verdict| check(card.kind, &card.container(), verdict);
    let security_of = |elements: &[u8], verdict| {
        let container = [&[0x53, elements.len() as u8], elements].concat();
        check(5, &container, verdict)
    };
    let with_length = |length: &[u8], bytes: usize| {
        let elements = [&[0xBA, 0, 0xBB], length, &vec![1; bytes], &[0xFE, 0]].concat();
        check(5, &[&[0x53, 0x81, elements.len() as u8], &elements[..]].concat(), (11, 5, Some(0xBB)))
    };
    vec![
        (
            "a CHUID with a bad FASC-N, with an expiry before and after its window",
            vec![
                breaks(chuid(&wrong_fascn(), EXPIRES, &[]), (17, 2, Some(0x30))),
                breaks(chuid(&EXAMPLE_FASCN, b"20260228", &[]), (19, 47, Some(0x35))),
                breaks(chuid(&EXAMPLE_FASCN, b"20320302", &[]), (19, 47, Some(0x35))),
            ],
        ),
        (
            "P14; a 5F without 2F; bytes after the outer end",
            vec![
                breaks(discovery([0x60, 0]), (20, 15, Some(0x5F2F))),
                check(3, &[0x7E, 2, 0x5F, 0], (13, 2, Some(0x5F))),
                check(5, &[&SMALL[..], &[0]].concat(), alone(12)),
            ],
        ),
        (
            "tags swapped, doubled, unknown, missing at the end",
            vec![
                security_of(&[0xBB, 0, 0xBA, 0, 0xFE, 0], (15, 2, Some(0xBB))),
                security_of(&[0xBA, 0, 0xBA, 0, 0xFE, 0], (14, 4, Some(0xBA))),
                security_of(&[0xBA, 0, 0x99, 0, 0xFE, 0], (13, 4, Some(0x99))),
                security_of(&[0xBA, 0, 0xBB, 0], (15, 6, None)),
            ],
        ),
        (
            "lengths 81 7F, 82 00 7F, 80 and 85 of an element",
            vec![
                with_length(&[0x81, 0x7F], 127),
                with_length(&[0x82, 0x00, 0x7F], 127),
                with_length(&[0x80], 127),
                with_length(&[0x85, 0, 0, 0, 0], 128),
            ],
        ),
        ("PRINTED with a byte 7F in 02", vec![breaks(printed(b"AGEN\x7F", PRINTED_DATE), (23, 13, Some(0x02)))]),
    ]
}

// ---------------------------------------------------------------------------------------------
// Sheets

fn there_and_back() -> Vec<Group> {
    let group = |name, card: Card| {
        let (container, sheet) = (card.container(), card.sheet());
        let short = |room| check_short(card.kind, &container, room);
        let check = |room| check_into(card.kind, &container, room, Ok(&sheet));
        let write = |room, outcome| write(card.kind, &sheet, room, outcome);
        let cases = vec![
            short(1),
            short(sheet.len() - 1),
            check(sheet.len()),
            check(sheet.len() + 1),
            check(sheet.len() + 5),
            check(container.len() + 6),
            check(SHEET_ROOM),
            write(container.len() - 1, Err(alone(3))),
            write(container.len(), Ok(&container)),
            write(container.len() + 5, Ok(&container)),
        ];
        (name, cases)
    };
    // rooms one byte short, exact and larger, and such as hold every sheet
    vec![
        group("CCC checked and written", ccc(0x10)),
        group("CHUID checked and written", whole_chuid(&[0x30, 3, 1, 1, 0xFF])),
        group("DISCOVERY checked and written", discovery([0x60, 0x10])),
        group("PRINTED checked and written", printed(b"AGENT", PRINTED_DATE)),
        group("SECURITY checked and written", security(&[1, 2], &[3; 140])),
        group("FINGERS checked and written", fingers(100, b'0', [1, 2])),
        group("FACE checked and written", face(100, &least(), 4)),
        group("PIVAUTH checked and written", certificate(8, RSA, 0, None)),
        group("DIGSIG checked and written", certificate(9, P256, 0, Some(&[]))),
        group("KEYMGMT checked and written", certificate(10, &LEVEL_8, 0, Some(&[0x41; 38]))),
        group("CARDAUTH checked and written", certificate(11, &LEAST, 0, None)),
        group("IRIS checked and written", iris(100, &least_iris(), 4)),
    ]
}

// ---------------------------------------------------------------------------------------------
// The room of a check

fn rooms() -> Vec<Group> {
    vec![worked_cases(), every_room(), largest_into_rooms(), broken_into_rooms(), refused_into_rooms(), small_rooms()]
}

const GUID: [u8; 16] = [0x00, 0x11, 0x22, 0x33, 0x44, 0x55, 0x46, 0x77, 0x88, 0x99, 0xAA, 0xBB, 0xCC, 0xDD, 0xEE, 0xFF];

/// The first three elements of a CHUID, 55 bytes.
fn head(uuid: &[u8; 16]) -> Vec<u8> {
    [&[0x30, 25], &EXAMPLE_FASCN[..], &[0x34, 16], uuid, &[0x35, 8], EXPIRES].concat()
}

/// The worked cases of request 2026-13, in their order; what the desk prints there is a report here.
fn worked_cases() -> Group {
    let container = |uuid| [&[0x53, 59], &head(uuid)[..], &[0x3E, 0, 0xFE, 0]].concat();
    let (good, bad) = (container(&GUID), container(&[0; 16]));
    let sheet =
        [&[0, 0, 0, 26], &EXAMPLE_FASCN[..], &[0, 0, 0, 0, 0, 17], &GUID, &[0, 9], EXPIRES, &[0, 0, 0, 1, 0, 1]]
            .concat();
    let longer = [&[0x53, 0x82, 1, 5], &head(&GUID)[..], &[0x3E, 0x82, 0, 200], &[0xAA; 200], &[0xFE, 0]].concat();
    let longer_sheet = [&sheet[..sheet.len() - 4], &[0, 201], &[0xAA; 200], &[0, 1]].concat();
    let told = "CARD 4\nkind CHUID\nbytes 61\ntoday 20260301\nverdict 18 29 34\nELEMENTS 0\nOPEN 0\n";
    (
        "the worked cases of 2026-13",
        vec![
            check_into(2, &good, 67, Ok(&sheet)),
            check_into(2, &good, 70, Ok(&sheet)),
            check_short(2, &good, 66),
            check_short(2, &good, 0),
            check_into(2, &bad, 0, Err((18, 29, Some(0x34)))),
            check_into(2, &bad, 99, Err((18, 29, Some(0x34)))),
            check_into(0, &good, 0, Err(alone(1))),
            on(20260229, check_into(2, &good, 99, Err(alone(2)))),
            check_into(2, &[0; 32_769], 0, Err(alone(4))),
            check_into(2, &[], 0, Err(alone(10))),
            check_into(3, &EXAMPLE_DISCOVERY, 17, Ok(&DISCOVERY_SHEET)),
            check_into(2, &longer, 300, Ok(&longer_sheet)),
            view(2, &good, 0x30, Ok((4, 25))),
            report(2, &bad, 512, Ok(told)),
        ],
    )
}

/// The sheet of P13.
const DISCOVERY_SHEET: [u8; 17] = [0, 12, 0xA0, 0, 0, 3, 8, 0, 0, 0x10, 0, 1, 0, 0, 3, 0x40, 0];

fn every_room() -> Group {
    let short = (0..17).map(|room| check_short(3, &EXAMPLE_DISCOVERY, room));
    let enough = (17..20).map(|room| check_into(3, &EXAMPLE_DISCOVERY, room, Ok(&DISCOVERY_SHEET)));
    ("DISCOVERY with each room from none to three bytes more than its sheet", short.chain(enough).collect())
}

fn largest_into_rooms() -> Group {
    let card = large_chuid(CONTAINER_MAX);
    let (container, sheet) = (card.container(), card.sheet());
    (
        "a CHUID of 32,768 bytes, whose sheet has 32,770, with rooms of 32,769, 32,770 and 32,774 bytes",
        vec![
            check_short(2, &container, 32_769),
            check_into(2, &container, 32_770, Ok(&sheet)),
            check_into(2, &container, SHEET_ROOM, Ok(&sheet)),
        ],
    )
}

fn broken_into_rooms() -> Group {
    let breaks = |card: Card, number, place, tag| {
        let container = card.container();
        [0, 1, SHEET_ROOM].map(|room| check_into(card.kind, &container, room, Err((number, place, tag))))
    };
    (
        "a broken one of every kind, each with rooms of 0, 1 and 32,774 bytes",
        [
            breaks(ccc(0x11), 20, 36, Some(0xF5)),
            breaks(chuid(&wrong_fascn(), EXPIRES, &[]), 17, 2, Some(0x30)),
            breaks(discovery([0x60, 0]), 20, 15, Some(0x5F2F)),
            breaks(printed(b"AGENT", b"2030FEB30"), 19, 20, Some(0x04)),
            breaks(card(5, &[Some(&[]), Some(&[]), None]), 15, 6, None),
            breaks(fingers(100, 0, [3, 5]), 22, 3, Some(0xBC)),
            breaks(face(0xFF, &with_pixels(254), 40), 21, 4, Some(0xBC)),
            breaks(face(100, &RUBBISH, 40), 26, 4, Some(0xBC)),
            breaks(certificate(8, COMPRESSED, 1, None), 24, 4, Some(0x70)),
            breaks(certificate(9, &LEVEL_9, 0, None), 25, 2, Some(0x70)),
            breaks(certificate(10, &LEAST, 1, None), 20, 12, Some(0x71)),
            breaks(certificate(11, &LEAST, 0, Some(&[0x41; 39])), 16, 15, Some(0x72)),
            breaks(iris(0xFD, &least_iris(), 40), 21, 3, Some(0xBC)),
            breaks(iris(100, &RUBBISH, 40), 27, 4, Some(0xBC)),
        ]
        .concat(),
    )
}

fn refused_into_rooms() -> Group {
    let too_large = large_chuid(CONTAINER_MAX + 1).container();
    let refuses = |kind, today, container: &[u8], number| {
        [0, 1, 60, SHEET_ROOM].map(|room| on(today, check_into(kind, container, room, Err(alone(number)))))
    };
    (
        "kind 0, no date, 32,769 bytes, each alone and with those that come later; an empty container; bytes after the outer end: \
         each with rooms of 0, 1, 60 and 32,774 bytes",
        [
            refuses(0, EXAMPLE_DAY, &SMALL, 1),
            refuses(13, 20260229, &too_large, 1),
            refuses(12, 20260229, &too_large, 2),
            refuses(5, 20260229, &SMALL, 2),
            refuses(2, 20260229, &too_large, 2),
            refuses(2, EXAMPLE_DAY, &too_large, 4),
            refuses(2, EXAMPLE_DAY, &[], 10),
            refuses(5, EXAMPLE_DAY, &[&SMALL[..], &[0]].concat(), 12),
        ]
        .concat(),
    )
}

fn small_rooms() -> Group {
    (
        "a broken container with a room of 80 bytes; an empty one, kind 0 and no date with one of 4",
        vec![
            check_into(2, &chuid(&wrong_fascn(), EXPIRES, &[]).container(), 80, Err((17, 2, Some(0x30)))),
            check_into(2, &[], 4, Err(alone(10))),
            check_into(0, &SMALL, 4, Err(alone(1))),
            on(0, check_into(5, &SMALL, 4, Err(alone(2)))),
        ],
    )
}

// ---------------------------------------------------------------------------------------------
// Sheets that are refused

fn refuses_certificate(value: &[u8], information: u8, extra: Option<&[u8]>, refusal: Verdict) -> Case {
    write(8, &certificate(8, value, information, extra).sheet(), 70, Err(refusal))
}

fn refused_sheets() -> Vec<Group> {
    let sheet = case_r().sheet();
    let refuses = |sheet: &[u8], refusal| write(2, sheet, 70, Err(refusal));
    let mut past_the_end = sheet.clone();
    past_the_end[2..4].fill(0xFF);
    let mut no_end = sheet.clone();
    *no_end.last_mut().unwrap() = 0;
    let with_uuid = |uuid| {
        let values = [None, Some(&EXAMPLE_FASCN[..]), None, None, uuid, Some(EXPIRES), None, Some(&[]), Some(&[])];
        card(2, &values).sheet()
    };
    vec![
        (
            "CHUID sheets: a byte left over, cut short, a count that runs past the end, empty",
            vec![
                refuses(&[&sheet[..], &[0]].concat(), alone(5)),
                refuses(&sheet[..sheet.len() - 1], alone(5)),
                refuses(&past_the_end, alone(5)),
                refuses(&[], alone(5)),
            ],
        ),
        (
            "a mandatory row absent, a length that is not permitted, an expiry outside the window, a bad FASC-N, no FE",
            vec![
                refuses(&with_uuid(None), (15, 33, Some(0x34))),
                refuses(&with_uuid(Some(&[1; 15])), (16, 33, Some(0x34))),
                refuses(&chuid(&EXAMPLE_FASCN, b"20330101", &[]).sheet(), (19, 51, Some(0x35))),
                refuses(&chuid(&wrong_fascn(), EXPIRES, &[]).sheet(), (17, 2, Some(0x30))),
                refuses(&no_end, (15, 65, Some(0xFE))),
            ],
        ),
        (
            "a container over 32,768 bytes to be written (4 before 3), kind 13, no date",
            vec![
                write(2, &chuid(&EXAMPLE_FASCN, EXPIRES, &[7; 33_000]).sheet(), 10, Err(alone(4))),
                write(13, &sheet, 10, Err(alone(1))),
                on(20260230, write(2, &sheet, 10, Err(alone(2)))),
            ],
        ),
        (
            "PIVAUTH sheets: two parts, level 9, 71 of 01, 72 of 39 bytes, no 71, and 70 too large for a container",
            vec![
                refuses_certificate(&[0x30, 4, 5, 0, 5, 0], 0, None, (24, 0, Some(0x70))),
                refuses_certificate(&LEVEL_9, 0, None, (25, 0, Some(0x70))),
                refuses_certificate(&LEAST, 1, None, (20, 10, Some(0x71))),
                refuses_certificate(&LEAST, 0, Some(&[0x41; 39]), (16, 13, Some(0x72))),
                write(8, &card(8, &[Some(&LEAST), None, None, Some(&[])]).sheet(), 70, Err((15, 10, Some(0x71)))),
                refuses_certificate(&of_pairs(32_756), 0, None, alone(4)),
            ],
        ),
    ]
}

// ---------------------------------------------------------------------------------------------
// Views and reports

fn views() -> Vec<Group> {
    let chuid_view = |tag, outcome| view(2, &case_r().container(), tag, outcome);
    let discovery_view = |tag, outcome| view(3, &EXAMPLE_DISCOVERY, tag, outcome);
    let keymgmt = certificate(10, &LEAST, 0, Some(&[1, 2])).container();
    let keymgmt_view = |tag, outcome| view(10, &keymgmt, tag, outcome);
    vec![
        (
            "views of a CHUID: 30, 36 absent, FE (empty), BA of another kind, 5F2F; of a broken CHUID",
            vec![
                chuid_view(0x30, Ok((4, 25))),
                chuid_view(0x36, Err(alone(6))),
                chuid_view(0xFE, Ok((61, 0))),
                chuid_view(0xBA, Err(alone(6))),
                chuid_view(0x5F2F, Err(alone(6))),
                view(2, &chuid(&wrong_fascn(), EXPIRES, &[]).container(), 0x30, Err((17, 2, Some(0x30)))),
            ],
        ),
        (
            "views of 34 and 36, which have the same bytes",
            vec![
                view(2, &whole_chuid(&[]).container(), 0x34, Ok((52, 16))),
                view(2, &whole_chuid(&[]).container(), 0x36, Ok((80, 16))),
            ],
        ),
        (
            "views of DISCOVERY: 5F2F, 4F, 5F, 2F, and the largest number",
            vec![
                discovery_view(0x5F2F, Ok((18, 2))),
                discovery_view(0x4F, Ok((4, 11))),
                discovery_view(0x5F, Err(alone(6))),
                discovery_view(0x2F, Err(alone(6))),
                discovery_view(u64::MAX, Err(alone(6))),
            ],
        ),
        (
            "views of KEYMGMT: 70, 71, 72, FE, 30 of another kind; 72 absent; of a certificate that is too deep",
            vec![
                keymgmt_view(0x70, Ok((4, 8))),
                keymgmt_view(0x71, Ok((14, 1))),
                keymgmt_view(0x72, Ok((17, 2))),
                keymgmt_view(0xFE, Ok((21, 0))),
                keymgmt_view(0x30, Err(alone(6))),
                view(10, &certificate(10, &LEAST, 0, None).container(), 0x72, Err(alone(6))),
                view(10, &certificate(10, &LEVEL_9, 0, None).container(), 0x70, Err((25, 2, Some(0x70)))),
            ],
        ),
    ]
}

/// The report of case R.
pub const CASE_R: &str = "CARD 4\nkind CHUID\nbytes 61\ntoday 20260301\nverdict 0 0 --\nELEMENTS 5\n30 25\n34 16\n35 8\n3E 0\nFE 0\nOPEN 3\nagency 1234\nsystem 0001\nexpires 20300131\n";

/// A conforming card's report and a broken one's, each told by what differs from others.
fn pair(name: &'static str, conforming: Card, lines: &str, broken: Card, verdict: &str) -> Group {
    let kind = name.split(' ').next().unwrap_or_default();
    let page = |card: Card, verdict: &str, lines: &str| {
        let container = card.container();
        let text =
            format!("CARD 4\nkind {}\nbytes {}\ntoday 20260301\nverdict {}\n{}", kind, container.len(), verdict, lines);
        report(card.kind, &container, 512, Ok(&text))
    };
    (name, vec![page(conforming, "0 0 --", lines), page(broken, verdict, "ELEMENTS 0\nOPEN 0\n")])
}

fn reports() -> Vec<Group> {
    let case_r = case_r().container();
    let too_large = large_chuid(CONTAINER_MAX + 1).container();
    let agency = "OPEN 2\nagency 1234\nsystem 0001\n";
    vec![
        (
            "report of case R into rooms of 511, 512 and 600 bytes",
            vec![
                report(2, &case_r, 511, Err(3)),
                report(2, &case_r, 512, Ok(CASE_R)),
                report(2, &case_r, 600, Ok(CASE_R)),
            ],
        ),
        pair(
            "CCC reported, conforming and broken",
            ccc(0x10),
            "ELEMENTS 13\nF0 21\nF1 1\nF2 1\nF3 0\nF4 1\nF5 1\nF6 17\nF7 0\nFA 0\nFB 0\nFC 0\nFD 0\nFE 0\nOPEN 1\nmodel 10\n",
            ccc(0x11),
            "20 36 F5",
        ),
        pair(
            "CHUID reported, conforming and broken",
            whole_chuid(&[0x30, 3, 1, 1, 0xFF]),
            "ELEMENTS 9\nEE 2\n30 25\n32 4\n33 9\n34 16\n35 8\n36 16\n3E 5\nFE 0\nOPEN 3\nagency 1234\nsystem 0001\nexpires 20300131\n",
            chuid(&wrong_fascn(), EXPIRES, &[]),
            "17 2 30",
        ),
        pair(
            "DISCOVERY reported, conforming and broken",
            discovery([0x60, 0x10]),
            "ELEMENTS 2\n4F 11\n5F2F 2\nOPEN 1\npolicy 6010\n",
            discovery([0x60, 0]),
            "20 15 5F2F",
        ),
        pair(
            "PRINTED reported, conforming and broken",
            printed(b"AGENT", PRINTED_DATE),
            "ELEMENTS 6\n01 9\n02 5\n04 9\n05 4\n06 15\nFE 0\nOPEN 1\nissuer GENERIC SENDER \n",
            printed(b"AGENT", b"2030FEB30"),
            "19 20 04",
        ),
        pair(
            "SECURITY reported, conforming and broken",
            security(&[1, 2], &[3; 140]),
            "ELEMENTS 3\nBA 2\nBB 140\nFE 0\nOPEN 0\n",
            card(5, &[Some(&[]), Some(&[]), None]),
            "15 6 --",
        ),
        pair(
            "FINGERS reported, conforming and broken",
            fingers(100, b'0', [1, 2]),
            &format!("ELEMENTS 2\nBC 145\nFE 0\n{}", agency),
            fingers(100, 0, [3, 5]),
            "22 3 BC",
        ),
        pair(
            "FACE reported, conforming and broken",
            face(100, &least(), 4),
            &format!("ELEMENTS 2\nBC 138\nFE 0\n{}", agency),
            face(100, &RUBBISH, 40),
            "26 4 BC",
        ),
        pair(
            "PIVAUTH reported, conforming and broken",
            certificate(8, RSA, 0, None),
            "ELEMENTS 3\n70 1091\n71 1\nFE 0\nOPEN 0\n",
            certificate(8, COMPRESSED, 1, None),
            "24 4 70",
        ),
        pair(
            "DIGSIG reported, conforming and broken",
            certificate(9, P256, 0, Some(&[])),
            "ELEMENTS 4\n70 435\n71 1\n72 0\nFE 0\nOPEN 0\n",
            certificate(9, &LEVEL_9, 0, None),
            "25 2 70",
        ),
        pair(
            "KEYMGMT reported, conforming and broken",
            certificate(10, &LEAST, 0, Some(&[0x41; 38])),
            "ELEMENTS 4\n70 8\n71 1\n72 38\nFE 0\nOPEN 0\n",
            certificate(10, &LEAST, 1, None),
            "20 12 71",
        ),
        pair(
            "CARDAUTH reported, conforming and broken",
            certificate(11, &LEAST, 0, None),
            "ELEMENTS 3\n70 8\n71 1\nFE 0\nOPEN 0\n",
            certificate(11, &LEAST, 0, Some(&[0x41; 39])),
            "16 15 72",
        ),
        pair(
            "IRIS reported, conforming and broken",
            iris(100, &least_iris(), 4),
            &format!("ELEMENTS 2\nBC 160\nFE 0\n{}", agency),
            iris(100, &RUBBISH, 40),
            "27 4 BC",
        ),
        (
            "report refused: kinds 0 and 13, no date, and a container of 32,769 bytes; the room is judged before that",
            vec![
                report(0, &SMALL, 512, Err(1)),
                report(13, &SMALL, 512, Err(1)),
                on(20230229, report(5, &SMALL, 512, Err(2))),
                report(2, &too_large, 512, Err(4)),
                report(2, &too_large, 100, Err(3)),
            ],
        ),
    ]
}
