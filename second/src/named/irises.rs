//! The iris record: what is one and what is none, which rules come before it, and what each call answers on an IRIS with it.

use super::*;
use crate::generate::{Form, Forms, LONGEST_FORM};
use crate::irises::{around, pair_of, with_flag_and_eyes, with_image, Representation};
use crate::records::with_bytes;

pub fn all() -> Vec<Group> {
    [what_is_a_record(), fields(), lengths(), orders(), calls()].concat()
}

// ---------------------------------------------------------------------------------------------
// The worked cases

/// A container of the worked cases with this owner, this FASC-N and this record.
fn iris_of(owner: [u8; 2], fascn: &[u8; 25], record: &[u8]) -> Vec<u8> {
    let head = head_of([owner[0], owner[1], 0x00, 0x09], [0, 0, 0x10, 0x40]);
    case_of(12, &head, fascn, [0; 4], record)
}

/// A representation of the worked cases with this length, quality blocks and number.
fn written(length: u8, blocks: &[u8], number: u8) -> Vec<u8> {
    let when = [0x07, 0xEA, 0x03, 0x01, 0x0A, 0x1E, 0x3B, 0x01, 0xF4, 0xEE, 0xEE, 0xEE, 0xEE, 0xEE];
    let front = [0, number, 0x01, 0x07, 0x0A, 0x55, 0x01, 0x20, 0x00, 0xD8, 0x08];
    let centre = [0x00, 0x90, 0x00, 0x91, 0x00, 0x6C, 0x00, 0x6D, 0x00, 0xA0, 0x01, 0x18];
    [&[0, 0, 0, length], &when[..], blocks, &front, &[0xDD; 6], &centre, &[0, 0, 0, 3], b"jp2"].concat()
}

/// Format, version, this length and this number of representations, one eye, and what follows.
fn record_of(length: u8, count: u8, representations: &[&[u8]]) -> Vec<u8> {
    [b"IIR\x00020\0", &[0, 0, 0, length, 0, count, 0, 1][..], &representations.concat()].concat()
}

/// The record with one representation.
fn one() -> Vec<u8> {
    record_of(71, 1, &[&written(55, &[0], 1)])
}

/// That with other bytes at an offset. The representation begins at 16, its date at 20, its properties stand at 40, its size at 41,
/// the centre at 52, the diameters at 60, and the image at 68.
fn one_with(at: usize, bytes: &[u8]) -> Vec<u8> {
    with_bytes(one(), at, bytes)
}

/// That with so many bytes of image.
fn one_of(image: u16) -> Vec<u8> {
    let [high, low] = image.to_be_bytes();
    let [record_high, record_low] = (image + 68).to_be_bytes();
    let [length_high, length_low] = (image + 52).to_be_bytes();
    let record = with_bytes(one_with(64, &[0, 0, high, low]), 8, &[0, 0, record_high, record_low]);
    let record = with_bytes(record, 16, &[0, 0, length_high, length_low]);
    [&record[..68], &vec![0xAA; image.into()]].concat()
}

/// The worked cases of request 2026-06, in their order; what the desk prints there is a report here.
fn worked_iris_cases() -> Group {
    let container = |record: &[u8]| iris_of([1, 1], &EXAMPLE_FASCN, record);
    let kept = |record: &[u8]| check(12, &container(record), CONFORMS);
    let refused = |record: &[u8]| {
        let container = container(record);
        check(12, &container, (27, first_place(&container), Some(0xBC)))
    };
    let quality = |quality, verdict| check(12, &with_bytes(container(&one()), 46, &[quality]), verdict);
    let text = "CARD 4\nkind IRIS\nbytes 170\ntoday 20260301\nverdict 0 0 --\nELEMENTS 2\nBC 162\nFE 0\nOPEN 2\nagency 1234\nsystem 0001\n";
    let block = [1, 0xEE, 0xEE, 0xEE, 0xEE, 0xEE];
    let numbered = |number| written(55, &[0], number);
    (
        "the worked cases of 2026-06",
        vec![
            kept(&one()),
            report(12, &container(&one()), 512, Ok(text)),
            report(13, &container(&one()), 512, Err(1)),
            kept(&record_of(131, 2, &[&numbered(1), &written(60, &block, 2)])),
            quality(0xFF, CONFORMS),
            quality(0xFD, (21, 3, Some(0xBC))),
            check(12, &iris_of([0x00, 0x1B], &EXAMPLE_FASCN, &one()), (21, 3, Some(0xBC))),
            check(12, &iris_of([1, 1], &wrong_fascn(), b"RUBBISH"), (17, 2, Some(0xBC))),
            refused(&record_of(181, 3, &[&numbered(1), &numbered(2), &numbered(3)])),
            refused(&record_of(126, 2, &[&numbered(2), &numbered(1)])),
            refused(&record_of(70, 1, &[&numbered(1)])),
            kept(&one_of(3_004)),
            refused(&one_of(3_005)),
            refused(&record_of(71, 1, &[&written(54, &[0], 1)])),
            refused(&one_with(20, &[0x07, 0xDA, 0x0C, 0x1F, 0x17, 0x3B, 0x3B, 0x03, 0xE7])),
            refused(&one_with(22, &[2, 29])),
            refused(&one_with(40, &[0x65])),
            kept(&one_with(41, &[0x01, 0x21, 0x00, 0xD8, 8, 0, 0, 0, 0, 0, 0, 0x00, 0x91, 0x00, 0x91])),
            refused(&one_with(41, &[0x01, 0x21])),
            kept(&one_with(60, &[0x01, 0x2C, 0x00, 0x00])),
        ],
    )
}

// ---------------------------------------------------------------------------------------------
// What is a record

/// Each of these as the record of an IRIS that is checked, and of a sheet that is written.
fn each(number: u64, records: impl IntoIterator<Item = impl AsRef<[u8]>>) -> Vec<Case> {
    records.into_iter().flat_map(|record| both_calls(&iris(100, record.as_ref(), 1), number)).collect()
}

/// A representation that is good, with a quality block and an image.
fn good() -> Representation {
    Representation::plain(1, 1, 3)
}

fn what_is_a_record() -> Vec<Group> {
    vec![
        worked_iris_cases(),
        representations(),
        free_fields(),
        formats_and_versions(),
        record_lengths(),
        numbers_of_representations(),
        representation_numbers(),
        flags_and_eyes(),
        every_representation(),
    ]
}

fn representations() -> Group {
    let of = |sizes: &[(usize, usize)]| {
        let of = |(i, &(blocks, image))| Representation::plain(i as u16 + 1, blocks, image);
        iris_record(&sizes.iter().enumerate().map(of).collect::<Vec<_>>())
    };
    (
        "one representation and two, with no quality block, one, two and 255; with an image and without; a real picture",
        [
            each(0, [least_iris(), of(&[(0, 1)]), of(&[(1, 0)]), of(&[(2, 7)]), of(&[(255, 7)])]),
            each(0, [of(&[(0, 0); 2]), of(&[(0, 4), (2, 0)]), of(&[(255, 0); 2]), of(&[(1, 300), (0, 0)])]),
            each(0, [iris_record(&[eye(1)]), iris_record(&[eye(1), eye(2)])]),
        ]
        .concat(),
    )
}

fn free_fields() -> Group {
    let filled = |byte: u8| {
        let (blocks, image) = (vec![[byte; 5]; 2], vec![byte; 9]);
        iris_record(&[Representation { device: [byte; 5], blocks, range_and_roll: [byte; 6], image, ..good() }])
    };
    (
        "device, quality blocks, range, roll angle, roll uncertainty and image, with 00, 01, 7F, 80 and FF",
        each(0, [0x00, 0x01, 0x7F, 0x80, 0xFF].map(filled)),
    )
}

fn formats_and_versions() -> Group {
    let front = |bytes: &[u8; 8]| [&bytes[..], &least_iris()[8..]].concat();
    let formats: [&[u8; 8]; 7] = [
        b"IIR 020\0",
        b"IIR0020\0",
        b"FMR\x00020\0",
        b"FAC\x00020\0",
        b"iir\x00020\0",
        b"\0IIR020\0",
        b"\0\0\0\x00020\0",
    ];
    let versions: [&[u8; 8]; 6] =
        [b"IIR\x000200", b"IIR\0 20\0", b"IIR\x00010\0", b"IIR\x00021\0", b"IIR\0\x00020", b"IIR\0\0\0\0\0"];
    (
        "formats that are not IIR and 00, and versions that are not 020 and 00",
        [each(0, [front(b"IIR\x00020\0")]), each(27, formats.map(front)), each(27, versions.map(front))].concat(),
    )
}

fn record_lengths() -> Group {
    let said = |length: u32| with_bytes(least_iris(), 8, &length.to_be_bytes());
    (
        "a record of 68 bytes that says 68, 67, 69, 52, 84, 0 and 16, the same in 8, 16 and 24 bits only, and the largest number",
        [
            each(0, [said(68)]),
            each(27, [67, 69, 52, 84, 0, 16, 68 + 256, 68 + 65_536, 68 + (1 << 24), u32::MAX].map(said)),
        ]
        .concat(),
    )
}

fn numbers_of_representations() -> Group {
    let of = |said, count: u16| {
        let all = (1..=count).flat_map(|number| Representation::plain(number, 0, 1).bytes());
        around(said, &all.collect::<Vec<_>>())
    };
    (
        "none, one, two and three representations, with none to three said; the largest number, and 256 more",
        [
            each(0, [of(1, 1), of(2, 2)]),
            each(27, [of(0, 0), of(1, 0), of(2, 0), of(0, 1), of(2, 1), of(0, 2), of(1, 2), of(3, 2), of(3, 3)]),
            each(27, [of(4, 4), of(257, 1), of(258, 2), of(256, 1), of(0x8001, 1), of(u16::MAX, 1)]),
        ]
        .concat(),
    )
}

fn representation_numbers() -> Group {
    let of = |numbers: &[u16]| {
        iris_record(&numbers.iter().map(|&number| Representation::plain(number, 0, 1)).collect::<Vec<_>>())
    };
    (
        "numbers 1, and 1 then 2; 2 alone, 0, 3 and 257; 2 then 1, 1 twice, 2 twice, 0 then 1, 1 then 3 and 1 then 258",
        [
            each(0, [of(&[1]), of(&[1, 2])]),
            each(27, [of(&[2]), of(&[0]), of(&[3]), of(&[257])]),
            each(27, [of(&[2, 1]), of(&[1, 1]), of(&[2, 2]), of(&[0, 1]), of(&[1, 3]), of(&[1, 258])]),
        ]
        .concat(),
    )
}

fn flags_and_eyes() -> Group {
    let both = || iris_record(&[good(), Representation { number: 2, ..good() }]);
    let of_one = |(flag, eyes)| with_flag_and_eyes(least_iris(), flag, eyes);
    let of_two = |(flag, eyes)| with_flag_and_eyes(both(), flag, eyes);
    let bad = [(0, 0), (0, 3), (0, 0x81), (0, 0xFF), (1, 1), (1, 2), (0x80, 1), (0xFF, 2)];
    (
        "one eye and two, of one representation and of two; no eye, three and more; a certification flag that is not 00",
        [
            each(0, [(0, 1), (0, 2)].map(of_one)),
            each(0, [(0, 1), (0, 2)].map(of_two)),
            each(27, bad.map(of_one)),
            each(27, bad.map(of_two)),
        ]
        .concat(),
    )
}

/// One with one fault, of each field.
fn broken() -> [Representation; 15] {
    [
        Representation { year: 2010, ..good() },
        Representation { month: 13, ..good() },
        Representation { day: 32, ..good() },
        Representation { hour: 24, ..good() },
        Representation { minute: 60, ..good() },
        Representation { second: 60, ..good() },
        Representation { milliseconds: 1_000, ..good() },
        Representation { label: 0, ..good() },
        Representation { image_type: 6, ..good() },
        Representation { image_format: 9, ..good() },
        Representation { properties: 0x54, ..good() },
        Representation { depth: 7, ..good() },
        Representation { centre: [144, 145, 108, 108], ..good() },
        Representation { diameter: [159, 280], ..good() },
        Representation { diameter: [160, 281], ..good() },
    ]
}

fn every_representation() -> Group {
    let first = |broken| iris_record(&[broken, Representation::plain(2, 0, 2)]);
    let last = |broken| iris_record(&[Representation::plain(1, 0, 2), Representation { number: 2, ..broken }]);
    (
        "two representations, of which the first or the second has one fault, in each field",
        [each(0, [first(good()), last(good())]), each(27, broken().map(first)), each(27, broken().map(last))].concat(),
    )
}

// ---------------------------------------------------------------------------------------------
// The fields of a representation

fn fields() -> Vec<Group> {
    vec![
        years(),
        months_and_days(),
        times(),
        labels_and_types(),
        image_properties(),
        widths(),
        heights(),
        centres(),
        diameters(),
    ]
}

/// The record of one representation.
fn of(representation: Representation) -> Vec<u8> {
    iris_record(&[representation])
}

fn years() -> Group {
    let on = |year| of(Representation { year, month: 1, day: 1, ..good() });
    (
        "captured on 1 January 2011, 2012 and 9999; of the years 0, 1, 1999, 2010, 10000, 34779 and 65535",
        [each(0, [2011, 2012, 9999].map(on)), each(27, [0, 1, 1999, 2010, 10_000, 34_779, 65_535].map(on))].concat(),
    )
}

fn months_and_days() -> Group {
    let on = |(year, month, day)| of(Representation { year, month, day, ..good() });
    let dates =
        [(2012, 2, 29), (2400, 2, 29), (2100, 2, 28), (2026, 2, 28), (2026, 12, 31), (2026, 4, 30), (9999, 12, 31)];
    let no_months = [(2026, 0, 1), (2026, 13, 1), (2026, 255, 1)];
    let no_days =
        [(2026, 1, 0), (2026, 1, 32), (2026, 4, 31), (2026, 6, 31), (2026, 9, 31), (2026, 11, 31), (2026, 1, 255)];
    let february = [(2026, 2, 29), (2100, 2, 29), (2012, 2, 30), (2026, 2, 30), (2026, 2, 0)];
    (
        "captured on the last days of February, of long months and of short ones; months 0, 13 and 255; days that no month has",
        [each(0, dates.map(on)), each(27, no_months.map(on)), each(27, no_days.map(on)), each(27, february.map(on))]
            .concat(),
    )
}

fn times() -> Group {
    let at = |(hour, minute, second, milliseconds)| of(Representation { hour, minute, second, milliseconds, ..good() });
    let bad = [
        (24, 0, 0, 0),
        (255, 0, 0, 0),
        (0, 60, 0, 0),
        (0, 255, 0, 0),
        (0, 0, 60, 0),
        (0, 0, 255, 0),
        (0, 0, 0, 1_000),
        (0, 0, 0, 33_767),
        (0, 0, 0, 65_535),
    ];
    (
        "captured at 0:00:00.000 and at 23:59:59.999; hour 24, minute 60, second 60, 1,000 milliseconds, and more",
        [each(0, [(0, 0, 0, 0), (23, 59, 59, 999)].map(at)), each(27, bad.map(at))].concat(),
    )
}

fn labels_and_types() -> Group {
    let label = |label| of(Representation { label, ..good() });
    let image_type = |image_type| of(Representation { image_type, ..good() });
    let image_format = |image_format| of(Representation { image_format, ..good() });
    let depth = |depth| of(Representation { depth, ..good() });
    (
        "labels 1, 2, 0, 3, 81 and FF; image types 7, 6, 8 and 87; image formats 10, 9, 11 and 8A; bit depths 8, 7, 9 and 88",
        [
            each(0, [1, 2].map(label)),
            each(27, [0, 3, 0x81, 0xFF].map(label)),
            each(0, [image_type(7), image_format(10), depth(8)]),
            each(27, [6, 8, 0, 0x87].map(image_type)),
            each(27, [9, 11, 0, 0x8A].map(image_format)),
            each(27, [7, 9, 0, 0x88].map(depth)),
        ]
        .concat(),
    )
}

fn image_properties() -> Group {
    let of = |properties| of(Representation { properties, ..good() });
    let bad =
        [0x00, 0x50, 0x51, 0x54, 0x57, 0x58, 0x5B, 0x5C, 0x5F, 0x45, 0x65, 0x75, 0x15, 0x95, 0xA5, 0xAA, 0xD5, 0xFF];
    (
        "properties 55, 56, 59 and 5A, and others that differ from them in one pair of bits",
        [each(0, [0x55, 0x56, 0x59, 0x5A].map(of)), each(27, bad.map(of))].concat(),
    )
}

fn widths() -> Group {
    let wide = |width| of(good().sized(width, 216));
    (
        "widths 288, 289, 447 and 448; 0, 32, 287, 449, 544 and 65535, each with the centre of its own",
        [each(0, [288, 289, 447, 448].map(wide)), each(27, [0, 32, 287, 449, 544, 65_535].map(wide))].concat(),
    )
}

fn heights() -> Group {
    let high = |height| of(good().sized(288, height));
    (
        "heights 216, 217, 335 and 336; 0, 215, 337, 472 and 65535, each with the centre of its own",
        [each(0, [216, 217, 335, 336].map(high)), each(27, [0, 215, 337, 472, 65_535].map(high))].concat(),
    )
}

/// The record of a representation with this size and this centre.
fn centred(width: u16, height: u16, centre: [u16; 4]) -> Vec<u8> {
    of(Representation { width, height, centre, ..good() })
}

fn centres() -> Group {
    let even = |centre| centred(288, 216, centre);
    let odd = |centre| centred(289, 217, centre);
    (
        "the centres of 288 and 289 by 216 and 217, and of the largest size; each number one less and one more, and 256 more",
        [
            each(0, [even([144, 145, 108, 109]), odd([145, 145, 109, 109]), centred(448, 336, [224, 225, 168, 169])]),
            each(0, [centred(289, 216, [145, 145, 108, 109]), centred(288, 217, [144, 145, 109, 109])]),
            each(27, [[143, 145, 108, 109], [145, 145, 108, 109], [144, 144, 108, 109], [144, 146, 108, 109]].map(even)),
            each(27, [[144, 145, 107, 109], [144, 145, 109, 109], [144, 145, 108, 108], [144, 145, 108, 110]].map(even)),
            each(27, [[144, 145, 109, 109], [146, 145, 109, 109], [145, 144, 109, 109], [145, 146, 109, 109]].map(odd)),
            each(27, [[145, 145, 108, 109], [145, 145, 110, 109], [145, 145, 109, 108], [145, 145, 109, 110]].map(odd)),
            each(27, [[400, 145, 108, 109], [144, 401, 108, 109], [144, 145, 364, 109], [144, 145, 108, 365]].map(even)),
            each(27, [[145, 144, 108, 109], [144, 145, 109, 108], [108, 109, 144, 145], [0, 0, 0, 0]].map(even)),
        ]
        .concat(),
    )
}

fn diameters() -> Group {
    let of = |diameter| of(Representation { diameter, ..good() });
    let kept = [[160, 280], [161, 279], [280, 160], [300, 0], [160, 0], [65_535, 280], [415, 24]];
    let refused = [[159, 280], [160, 281], [159, 281], [0, 0], [159, 0], [300, 281], [160, 536], [160, 65_535]];
    (
        "lowest diameters 160 and more with highest ones of 280 and less, whichever is larger; 159, 281 and such as are far from it",
        [each(0, kept.map(of)), each(27, refused.map(of))].concat(),
    )
}

// ---------------------------------------------------------------------------------------------
// Lengths

fn lengths() -> Vec<Group> {
    vec![
        quality_blocks(),
        representation_lengths(),
        image_lengths(),
        representations_taken_in(),
        most_bytes(),
        short_records(),
        bytes_behind(),
        rubbish(),
    ]
}

/// The record of one representation that says these three numbers.
fn saying(one: &Representation, length: u32, blocks: u8, image: u32) -> Vec<u8> {
    around(1, &one.bytes_saying(length, blocks, image))
}

fn quality_blocks() -> Group {
    let with = |blocks| of(Representation::plain(1, blocks, 20));
    let (none, two) = (Representation::plain(1, 0, 20), Representation::plain(1, 2, 20));
    (
        "0, 1, 2, 254 and 255 quality blocks; two that are said to be none, one, three and 255, and none that are said to be one",
        [
            each(0, [0, 1, 2, 254, 255].map(with)),
            each(27, [0, 1, 3, 4, 255].map(|said| saying(&two, 82, said, 20))),
            each(27, [(0, 30), (1, 25), (3, 15), (6, 0)].map(|(said, image)| saying(&two, 82, said, image))),
            each(27, [saying(&none, 72, 1, 20), saying(&none, 77, 1, 20), saying(&none, 72, 1, 15)]),
            each(27, [saying(&none, 1_347, 255, 20), saying(&none, 72, 255, 0)]),
        ]
        .concat(),
    )
}

fn representation_lengths() -> Group {
    let one = Representation::plain(1, 1, 6);
    let alone = |length| saying(&one, length, 1, 6);
    let before_another =
        |length| around(2, &[one.bytes_saying(length, 1, 6), Representation::plain(2, 0, 0).bytes()].concat());
    let behind_another = |length| {
        let second = Representation { number: 2, ..one.clone() };
        around(2, &[Representation::plain(1, 0, 0).bytes(), second.bytes_saying(length, 1, 6)].concat())
    };
    let others = [0, 1, 52, 57, 62, 64, 115, 63 + 256, 63 + 65_536, 63 + (1 << 24), u32::MAX - 15, u32::MAX];
    (
        "a representation of 63 bytes that says less or more: alone, before another one and behind it",
        [
            each(0, [alone(63), before_another(63), behind_another(63)]),
            each(27, others.map(alone)),
            each(27, others.map(before_another)),
            each(27, others.map(behind_another)),
        ]
        .concat(),
    )
}

fn image_lengths() -> Group {
    let one = Representation::plain(1, 0, 3);
    let alone = |image| saying(&one, 55, 0, image);
    // the length of the representation follows, in a sum of 32 bits
    let followed = |image: u32| saying(&one, image.wrapping_add(52), 0, image);
    let others = [0, 1, 2, 4, 3 + 256, 3 + 65_536, 3 + (1 << 24), 1 << 31, u32::MAX - 51, u32::MAX - 48, u32::MAX];
    (
        "an image of no bytes, and one of three that is said to have less or more, with the representation's length and with its own",
        [
            each(0, [with_image(0), with_image(3), alone(3)]),
            each(27, others.map(alone)),
            each(27, others.map(followed)),
        ]
        .concat(),
    )
}

fn representations_taken_in() -> Group {
    let both = |length, image| {
        let first = Representation::plain(1, 0, 1).bytes_saying(length, 0, image);
        [first, Representation::plain(2, 0, 0).bytes()].concat()
    };
    (
        "an image is not examined: it may take in the representation behind it, which is then none, but not half of it",
        [
            each(0, [around(2, &both(53, 1)), around(1, &both(105, 53))]),
            each(
                27,
                [
                    around(1, &both(53, 1)),
                    around(2, &both(105, 53)),
                    around(1, &both(80, 28)),
                    around(2, &both(80, 28)),
                ],
            ),
        ]
        .concat(),
    )
}

fn most_bytes() -> Group {
    let one = |length: usize| with_image(length - 68);
    let of_blocks = |length: usize| of(Representation::plain(1, 255, length - 68 - 5 * 255));
    let two = |(length, first)| iris_record(&pair_of(length, first));
    (
        "3,072 bytes with one representation and 3,073; both with two, and 6,144 and 6,145, wherever most of them are",
        [
            each(0, [one(3_071), one(3_072), of_blocks(3_072)]),
            each(27, [one(3_073), of_blocks(3_073), one(6_144)]),
            each(0, [(3_072, 0), (3_073, 0), (6_143, 10), (6_144, 0), (6_144, 3_000), (6_144, 6_024)].map(two)),
            each(27, [(6_145, 0), (6_145, 3_000), (6_145, 6_025), (7_000, 0)].map(two)),
        ]
        .concat(),
    )
}

fn short_records() -> Group {
    let cut = |length: usize| least_iris()[..length].to_vec();
    let with_length = |length: usize| around(1, &least_iris()[16..length]);
    (
        "the least record cut off after 1 to 67 bytes; the same with the length that it has",
        [
            each(27, [1, 4, 8, 12, 14, 15, 16, 20, 29, 34, 35, 37, 41, 46, 60, 64, 67].map(cut)),
            each(27, [16, 17, 20, 29, 34, 35, 37, 41, 46, 60, 64, 67].map(with_length)),
            each(0, [with_length(68)]),
        ]
        .concat(),
    )
}

fn bytes_behind() -> Group {
    let more = |bytes: usize| [&least_iris()[..], &vec![0; bytes]].concat();
    let with_length = |bytes: usize| around(1, &more(bytes)[16..]);
    (
        "one byte behind the last representation, and more; the same with the length that the record has",
        [each(27, [1, 2, 5, 51, 52, 53].map(more)), each(27, [1, 2, 5, 51, 52, 53].map(with_length))].concat(),
    )
}

fn rubbish() -> Group {
    let picture = eye(1).image;
    let behind_header = |byte: u8| around(1, &[byte; 100]);
    (
        "a good header and rubbish after it: text, one byte, zeros, FF, a picture without a record; and in the representations",
        [
            each(27, [&b"RUBBISH"[..], &[0], &[0; 68], &RUBBISH, &picture]),
            each(27, [0x00, 0x01, 0x20, 0xFF].map(behind_header)),
        ]
        .concat(),
    )
}

// ---------------------------------------------------------------------------------------------
// The order, and the other kinds

fn orders() -> Vec<Group> {
    vec![
        header_fields(),
        order_of_fields(),
        (
            "21 of a field of the header, 17, 21 of the reserved bytes and 27 in one BC: each alone, each pair, and all of them",
            order_in_header(|quality| iris(quality, b"RUBBISH", 1), 0xFD, 27),
        ),
        (
            "11, 12, 16 and 21 of the lengths come before 27, and 27 before all that is wrong behind BC",
            order_around_record(&iris(100, b"RUBBISH", 1), 27),
        ),
        records_of_the_other_kinds(),
        containers_of_the_other_kinds(),
    ]
}

/// An IRIS with this record, and with these bytes at an offset of BC.
fn with_field(record: &[u8], at: usize, bytes: &[u8]) -> Card {
    let mut card = iris(100, record, 1);
    card.rows[0] = card.rows[0].take().map(|value| with_bytes(value, at, bytes));
    card
}

fn header_fields() -> Group {
    let field = |(number, at, bytes): (u64, usize, &[u8])| both_calls(&with_field(&least_iris(), at, bytes), number);
    let fields: [(u64, usize, &[u8]); 26] = [
        (0, 8, &[0x01, 0x01]),
        (21, 8, &[0x00, 0x1B]),
        (21, 8, &[0x00, 0x01]),
        (21, 8, &[0x01, 0x00]),
        (0, 10, &[0x00, 0x09]),
        (21, 10, &[0x02, 0x01]),
        (21, 10, &[0x05, 0x01]),
        (21, 10, &[0x09, 0x00]),
        (21, 10, &[0x01, 0x09]),
        (0, 36, &[0x00, 0x00, 0x10]),
        (21, 36, &[0x00, 0x00, 0x02]),
        (21, 36, &[0x00, 0x00, 0x08]),
        (21, 36, &[0x00, 0x00, 0x11]),
        (21, 36, &[0x10, 0x00, 0x00]),
        (0, 39, &[0x40]),
        (0, 39, &[0x5F]),
        (21, 39, &[0x20]),
        (21, 39, &[0x80]),
        (21, 39, &[0x60]),
        (21, 39, &[0xC0]),
        (0, 41, &[0x41, 0x00, 0x1F, 0xFF]),
        (21, 41, &[0x1F, 0x00]),
        (21, 41, &[0x41; 18]),
        (21, 28, &[19]),
        (21, 2, &[0, 0, 0, 0]),
        (21, 6, &[0, 0]),
    ];
    (
        "the header of an IRIS: owners, formats, types, data types, creators, a validity that ends before it begins, no data and \
         no signature",
        fields.into_iter().flat_map(field).collect(),
    )
}

fn order_of_fields() -> Group {
    let before = |at, bytes: &[u8], number| both_calls(&with_field(b"RUBBISH", at, bytes), number);
    (
        "each field of the header that is wrong comes before a record that is none",
        [
            before(0, &[2], 21),
            before(1, &[0x0C], 21),
            before(5, &[0], 21),
            before(7, &[0], 21),
            before(8, &[0x00, 0x1B], 21),
            before(10, &[0x05, 0x01], 21),
            before(14, &[13], 21),
            before(19, &[0], 21),
            before(28, &[19], 21),
            before(38, &[2], 21),
            before(39, &[0x20], 21),
            before(40, &[0x65], 21),
            before(41, &[0x1F], 21),
            before(83, &[0xEA], 17),
            before(84, &[1], 21),
            before(0, &[3], 27),
        ]
        .concat(),
    )
}

/// A card's BC with another record in place of its own, of so many bytes.
fn with_record(mut card: Card, own: usize, record: &[u8]) -> Card {
    let value = card.rows[0].as_mut().expect("a BC");
    value.splice(88..88 + own, record.iter().copied());
    value[2..6].copy_from_slice(&(record.len() as u32).to_be_bytes());
    card
}

fn records_of_the_other_kinds() -> Group {
    (
        "minutiae and facial records in an IRIS, and an iris record in FINGERS and in a FACE",
        [
            each(27, [minutiae_of(fingers(100, b'0', [0, 0])), minutiae_of(fingers(100, b'0', [3, 5]))]),
            each(27, [least(), facial(&[portrait()])]),
            both_calls(&with_record(fingers(100, b'0', [0, 0]), 38, &least_iris()), 22).to_vec(),
            both_calls(&face(100, &least_iris(), 1), 26).to_vec(),
        ]
        .concat(),
    )
}

fn containers_of_the_other_kinds() -> Group {
    let (of_fingers, of_face, of_iris) =
        (fingers(100, b'0', [0, 0]), face(100, &least(), 1), iris(100, &least_iris(), 1));
    let other = |card: &Card, kind| check(kind, &card.container(), (21, 3, Some(0xBC)));
    (
        "an IRIS as FINGERS and as FACE, and these as an IRIS: the header's owner, format and types tell",
        vec![other(&of_iris, 6), other(&of_iris, 7), other(&of_fingers, 12), other(&of_face, 12)],
    )
}

// ---------------------------------------------------------------------------------------------
// What each call answers

fn calls() -> Vec<Group> {
    vec![
        rooms_of_irises(),
        written_irises(),
        viewed_irises(),
        reported_irises(),
        irises_in_longer_forms(),
        largest_irises(),
    ]
}

/// Two representations, of which the second is this one.
fn second_one(representation: Representation) -> Card {
    iris(100, &iris_record(&[eye(1), Representation { number: 2, ..representation }]), 40)
}

fn rooms_of_irises() -> Group {
    let good_card = second_one(good());
    let (container, sheet) = (good_card.container(), good_card.sheet());
    let broken = second_one(Representation { label: 3, ..good() }).container();
    let short = [0, 1, sheet.len() - 1].map(|room| check_short(12, &container, room));
    let enough = [sheet.len(), sheet.len() + 1, SHEET_ROOM].map(|room| check_into(12, &container, room, Ok(&sheet)));
    let refused = [0, 1, sheet.len() - 1, sheet.len(), SHEET_ROOM]
        .map(|room| check_into(12, &broken, room, Err((27, 4, Some(0xBC)))));
    (
        "the merged call on two representations, with rooms from none to the largest; the same where the second has a label 3",
        [&short[..], &enough, &refused].concat(),
    )
}

fn written_irises() -> Group {
    let (good, broken) = (second_one(good()), second_one(Representation { depth: 7, ..good() }));
    let (container, sheet) = (good.container(), good.sheet());
    let at_bc = |number| Err((number, 0, Some(0xBC)));
    let mut without_end = iris(100, b"RUBBISH", 1);
    without_end.rows[1] = None;
    // a signature that a sheet can hold and a container cannot
    let (large, large_broken) = (iris(100, &least_iris(), 40_000), iris(100, b"RUBBISH", 40_000));
    (
        "sheets of irises: 27 at the count of BC, before 15 of FE, 4 and 3; 5 before it",
        vec![
            write(12, &sheet, container.len(), Ok(&container)),
            write(12, &sheet, container.len() - 1, Err(alone(3))),
            write(12, &broken.sheet(), container.len(), at_bc(27)),
            write(12, &broken.sheet(), 0, at_bc(27)),
            write(12, &without_end.sheet(), 200, at_bc(27)),
            write(12, &[&broken.sheet()[..], &[0]].concat(), 200, Err(alone(5))),
            write(12, &large.sheet(), 200, Err(alone(4))),
            write(12, &large_broken.sheet(), 200, at_bc(27)),
            write(12, &iris(0xFD, b"RUBBISH", 1).sheet(), 200, at_bc(21)),
            write(12, &with_ends(iris(100, b"RUBBISH", 1), 0xEA, 0).sheet(), 200, at_bc(17)),
        ],
    )
}

fn viewed_irises() -> Group {
    let good = iris(100, &with_image(4), 2).container();
    let broken = iris(100, b"RUBBISH", 2).container();
    (
        "views of an IRIS: BC, FE, a tag of another kind; no part where the record is none",
        vec![
            view(12, &good, 0xBC, Ok((6, 162))),
            view(12, &good, 0xFE, Ok((170, 0))),
            view(12, &good, 0x30, Err(alone(6))),
            view(12, &broken, 0xBC, Err((27, 2, Some(0xBC)))),
            view(12, &broken, 0xFE, Err((27, 2, Some(0xBC)))),
            view(12, &broken, 0x30, Err((27, 2, Some(0xBC)))),
            view(13, &good, 0xBC, Err(alone(1))),
        ],
    )
}

fn reported_irises() -> Group {
    let page = |card: &Card, bytes: usize, lines: &str| {
        let head = format!("CARD 4\nkind IRIS\nbytes {}\ntoday 20260301\nverdict ", bytes);
        report(12, &card.container(), 512, Ok(&(head + lines)))
    };
    let good = "0 0 --\nELEMENTS 2\nBC 216\nFE 0\nOPEN 2\nagency 1234\nsystem 0001\n";
    let broken = |verdict: &str| verdict.to_string() + "\nELEMENTS 0\nOPEN 0\n";
    let of = |all: &[Representation]| iris(100, &iris_record(all), 2);
    let other = Representation { year: 2011, label: 2, properties: 0x5A, ..Representation::plain(1, 2, 48) };
    let other = Representation { diameter: [300, 0], ..other.sized(447, 335) };
    let no_record = || iris(100, b"RUBBISH", 1);
    (
        "reports of an IRIS: one for every record of 126 bytes that is good; what is refused, with the bytes that are given",
        vec![
            page(&of(&[Representation::plain(1, 0, 58)]), 224, good),
            page(&of(&[Representation::plain(1, 11, 3)]), 224, good),
            page(&of(&[Representation::plain(1, 0, 6), Representation::plain(2, 0, 0)]), 224, good),
            page(&of(&[other]), 224, good),
            page(&of(&[Representation { label: 3, ..Representation::plain(1, 0, 58) }]), 224, &broken("27 3 BC")),
            page(&of(&[]), 112, &broken("27 2 BC")),
            page(&iris(100, b"RUBBISH", 2), 103, &broken("27 2 BC")),
            page(&iris(100, &RUBBISH, 40), 438, &broken("27 4 BC")),
            page(&with_ends(no_record(), 0xEA, 1), 102, &broken("17 2 BC")),
            page(&with_ends(no_record(), 0xEB, 1), 102, &broken("21 2 BC")),
        ],
    )
}

fn irises_in_longer_forms() -> Group {
    let given = |card: &Card| card.container_in(&Forms::all(Form::Padded(LONGEST_FORM)));
    let (good, broken) = (second_one(good()), second_one(Representation { image_type: 6, ..good() }));
    let refused = (27, 6, Some(0xBC));
    (
        "an IRIS in the longest forms: its sheet and its part, and 27 behind an outer length of five bytes",
        vec![
            check_into(12, &given(&good), good.sheet().len(), Ok(&good.sheet())),
            view(12, &given(&good), 0xBC, Ok((12, good.rows[0].as_ref().map_or(0, Vec::len)))),
            check(12, &given(&broken), refused),
            view(12, &given(&broken), 0xBC, Err(refused)),
        ],
    )
}

fn largest_irises() -> Group {
    // what the container has beside BC, and that beside record and signature
    let of = |record: &[u8], total: usize| iris(100, record, total - 10 - 88 - record.len()).container();
    let most = iris_record(&pair_of(6_144, 3_000));
    let mut broken = pair_of(6_144, 3_000);
    broken[1].centre[3] += 1;
    (
        "the least record and the largest in a container of exactly 32,768 bytes and of 32,769; the largest with a fault",
        vec![
            check(12, &of(&least_iris(), CONTAINER_MAX), CONFORMS),
            check(12, &of(&least_iris(), CONTAINER_MAX + 1), alone(4)),
            check(12, &of(&most, CONTAINER_MAX), CONFORMS),
            check(12, &of(&most, CONTAINER_MAX + 1), alone(4)),
            check(12, &of(&iris_record(&broken), CONTAINER_MAX), (27, 4, Some(0xBC))),
        ],
    )
}
