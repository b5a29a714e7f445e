//! The facial record: what is one and what is none, which rules come before it, and what each call answers on a FACE with it.

use super::*;
use crate::faces::{around, block_for_any_points, torn, Image};
use crate::generate::{Form, Forms, LONGEST_FORM};

pub fn all() -> Vec<Group> {
    vec![
        face_cases(),
        images_and_points(),
        free_fields(),
        formats_and_versions(),
        record_lengths(),
        numbers_of_images(),
        image_types(),
        data_types(),
        colour_spaces(),
        source_types(),
        every_image(),
        block_lengths(),
        blocks_taken_in(),
        numbers_of_points(),
        torn_blocks(),
        short_records(),
        bytes_behind(),
        rubbish(),
        order_of_rules(),
        order_of_elements(),
        records_of_the_other_kind(),
        rooms_of_faces(),
        written_faces(),
        viewed_faces(),
        reported_faces(),
        faces_in_longer_forms(),
        largest_faces(),
    ]
}

// ---------------------------------------------------------------------------------------------
// The worked cases

/// A container of the worked cases with this FASC-N, these reserved bytes and this record.
fn face_of(fascn: &[u8; 25], reserved: [u8; 4], record: &[u8]) -> Vec<u8> {
    case_of(7, &head_of([0x00, 0x1B, 0x05, 0x01], [0, 0, 2, 0x20]), fascn, reserved, record)
}

/// Format, version, this length and this number of images, and what follows them.
fn record_of(length: u8, images: u8, blocks: &[&[u8]]) -> Vec<u8> {
    [b"FAC\x00010\0", &[0, 0, 0, length, 0, images][..], &blocks.concat()].concat()
}

/// A block of the worked cases with this length and this number of feature points, without any.
fn block_of(length: u8, points: u8, information: &[u8; 12], pixels: &[u8]) -> Vec<u8> {
    [&[0, 0, 0, length, 0, points], &[0xEE; 14][..], information, pixels].concat()
}

/// Type 1, data type 0, 256 by 320, colour space 1, source type 2.
const INFORMATION: [u8; 12] = [1, 0, 1, 0, 1, 64, 1, 2, 0, 0, 0, 0];

/// That with another byte.
fn with_field(at: usize, byte: u8) -> [u8; 12] {
    let mut information = INFORMATION;
    information[at] = byte;
    information
}

/// The worked cases of request 2026-05, in their order.
fn face_cases() -> Group {
    let container = |record: &[u8]| face_of(&EXAMPLE_FASCN, [0; 4], record);
    let kept = |record: &[u8]| check(7, &container(record), CONFORMS);
    let refused = |record: &[u8]| {
        let container = container(record);
        check(7, &container, (26, first_place(&container), Some(0xBC)))
    };
    let one = |information: &[u8; 12]| record_of(52, 1, &[&block_of(38, 0, information, b"pixels")]);
    let good = one(&INFORMATION);
    let front = |bytes: &[u8; 8]| [bytes, &good[8..]].concat();
    let two_points = [&[0, 0, 0, 54, 0, 2], &[0xEE; 14][..], &[0xDD; 16], &INFORMATION, b"pixels"].concat();
    let free =
        [&[0, 0, 0, 38, 0, 0], &[0xFF; 14][..], &[1, 1, 0xFF, 0xFF, 0, 0, 1, 6, 0xFF, 0xFF, 0xFF, 0xFF], b"pixels"];
    let image = block_of(38, 0, &INFORMATION, b"pixels");
    let both = |fascn, reserved, number| check(7, &face_of(fascn, reserved, b"RUBBISH"), (number, 2, Some(0xBC)));
    (
        "the worked cases of 2026-05",
        vec![
            kept(&good),
            kept(&record_of(100, 2, &[&two_points, &block_of(32, 0, &INFORMATION, b"")])),
            kept(&record_of(52, 1, &free)),
            refused(&front(b"FAC 010\0")),
            refused(&front(b"FAC\x000100")),
            refused(&record_of(53, 1, &[&image])),
            refused(&[&good[..], &[0]].concat()),
            refused(&record_of(14, 0, &[])),
            refused(&record_of(52, 2, &[&image])),
            refused(&record_of(46, 1, &[&block_of(31, 0, &INFORMATION, b"")])),
            refused(&record_of(52, 1, &[&block_of(37, 0, &INFORMATION, b"pixels")])),
            refused(&record_of(52, 1, &[&block_of(38, 1, &INFORMATION, b"pixels")])),
            refused(&one(&with_field(0, 2))),
            refused(&one(&with_field(1, 2))),
            refused(&one(&with_field(6, 0))),
            refused(&one(&with_field(7, 3))),
            refused(&record_of(90, 2, &[&image, &block_of(38, 0, &with_field(7, 3), b"pixels")])),
            both(&EXAMPLE_FASCN, [0; 4], 26),
            both(&wrong_fascn(), [0; 4], 17),
            both(&EXAMPLE_FASCN, [0, 0, 0, 1], 21),
        ],
    )
}

// ---------------------------------------------------------------------------------------------
// What is a record

/// Each of these as the record of a FACE that is checked, and of a sheet that is written.
fn each(number: u64, records: impl IntoIterator<Item = impl AsRef<[u8]>>) -> Vec<Case> {
    records.into_iter().flat_map(|record| both_calls(&face(100, record.as_ref(), 1), number)).collect()
}

/// The record of one image with these numbers at the front of its block: the length, and how many feature points there are.
fn saying(image: &Image, length: u32, points: u16) -> Vec<u8> {
    around(1, &image.block_saying(length, points))
}

fn images_and_points() -> Group {
    let of = |images: &[(usize, usize)]| {
        facial(&images.iter().map(|&(points, pixels)| Image::plain(points, pixels)).collect::<Vec<_>>())
    };
    (
        "one image, two and five; with no feature points, one, three and two hundred; with pixels and without; a real picture",
        [
            each(0, [least(), of(&[(0, 1)]), of(&[(1, 0)]), of(&[(3, 0)]), of(&[(200, 7)]), facial(&[portrait()])]),
            each(0, [of(&[(0, 0); 2]), of(&[(0, 4), (2, 0)]), of(&[(2, 0), (0, 4)]), of(&[(1, 1); 2]), of(&[(0, 0); 5])]),
        ]
        .concat(),
    )
}

fn free_fields() -> Group {
    let filled = |byte: u8| {
        let two = u16::from_be_bytes([byte; 2]);
        let (width, height, device_type, quality) = (two, two, two, two);
        let (points, pixels) = (vec![[byte; 8]; 2], vec![byte; 9]);
        facial(&[Image { free: [byte; 14], points, width, height, device_type, quality, pixels, ..Image::plain(0, 0) }])
    };
    (
        "every field that 9.6 does not name, with 00, 01, 7F, 80 and FF",
        each(0, [0x00, 0x01, 0x7F, 0x80, 0xFF].map(filled)),
    )
}

fn formats_and_versions() -> Group {
    let front = |bytes: &[u8; 8]| [&bytes[..], &least()[8..]].concat();
    let formats: [&[u8; 8]; 8] = [
        b"FAC 010\0",
        b"FAC0010\0",
        b"FMR\x00010\0",
        b"IIR\x00010\0",
        b"fac\x00010\0",
        b"\0FAC010\0",
        b"\0\0\0\x00010\0",
        b"CAF\x00010\0",
    ];
    let versions: [&[u8; 8]; 6] =
        [b"FAC\x000100", b"FAC\0 10\0", b"FAC\x00020\0", b"FAC\x00011\0", b"FAC\0\x00010", b"FAC\0\0\0\0\0"];
    (
        "formats that are not FAC and 00, and versions that are not 010 and 00",
        [each(0, [front(b"FAC\x00010\0")]), each(26, formats.map(front)), each(26, versions.map(front))].concat(),
    )
}

fn record_lengths() -> Group {
    let said = |length: u32| [&least()[..8], &length.to_be_bytes(), &least()[12..]].concat();
    (
        "a record of 46 bytes that says 46, 45, 47, 32, 60, 0 and 14, the same in 8, 16 and 24 bits only, and the largest number",
        [
            each(0, [said(46)]),
            each(26, [45, 47, 32, 60, 0, 14, 46 + 256, 46 + 65_536, 46 + (1 << 24), u32::MAX].map(said)),
        ]
        .concat(),
    )
}

fn numbers_of_images() -> Group {
    let of = |said, images: usize| around(said, &Image::plain(0, 0).block().repeat(images));
    (
        "no image; none, one, two and three said of none to three; the largest number, and 256 more",
        [
            each(0, [of(1, 1), of(2, 2), of(3, 3)]),
            each(26, [of(0, 0), of(0, 1), of(0, 2), of(1, 0), of(1, 2), of(1, 3), of(2, 1), of(2, 3), of(3, 2)]),
            each(26, [of(u16::MAX, 1), of(257, 1), of(256, 1), of(0x8001, 1)]),
        ]
        .concat(),
    )
}

fn image_types() -> Group {
    let of = |image_type| facial(&[Image { image_type, ..Image::plain(1, 1) }]);
    ("image types 1, 0, 2, 3, 81 and FF", [each(0, [of(1)]), each(26, [0, 2, 3, 0x81, 0xFF].map(of))].concat())
}

fn data_types() -> Group {
    let of = |data_type| facial(&[Image { data_type, ..Image::plain(1, 1) }]);
    ("data types 0, 1, 2, 3, 80 and FF", [each(0, [0, 1].map(of)), each(26, [2, 3, 0x80, 0xFF].map(of))].concat())
}

fn colour_spaces() -> Group {
    let of = |colour_space| facial(&[Image { colour_space, ..Image::plain(1, 1) }]);
    ("colour spaces 1, 0, 2, 3, 81 and FF", [each(0, [of(1)]), each(26, [0, 2, 3, 0x81, 0xFF].map(of))].concat())
}

fn source_types() -> Group {
    let of = |source_type| facial(&[Image { source_type, ..Image::plain(1, 1) }]);
    (
        "source types 2 and 6, 0, 1, 3, 4, 5, 7, 8, 82 and FF",
        [each(0, [2, 6].map(of)), each(26, [0, 1, 3, 4, 5, 7, 8, 0x82, 0xFF].map(of))].concat(),
    )
}

/// An image with one field that is not good, of each.
fn broken_images() -> [Image; 4] {
    let good = Image::plain(1, 3);
    [
        Image { image_type: 2, ..good.clone() },
        Image { data_type: 2, ..good.clone() },
        Image { colour_space: 0, ..good.clone() },
        Image { source_type: 3, ..good },
    ]
}

fn every_image() -> Group {
    let good = || Image::plain(0, 2);
    let first = |broken| facial(&[broken, good(), good()]);
    let middle = |broken| facial(&[good(), broken, good()]);
    let last = |broken| facial(&[good(), good(), broken]);
    (
        "three images, of which the first, the second or the last has image type 2, data type 2, colour space 0 or source type 3",
        [
            each(0, [facial(&[good(), good(), good()])]),
            each(26, broken_images().map(first)),
            each(26, broken_images().map(middle)),
            each(26, broken_images().map(last)),
        ]
        .concat(),
    )
}

fn block_lengths() -> Group {
    let (bare, whole) = (Image::plain(0, 0), Image::plain(2, 6));
    let (of_bare, of_whole) = (|length| saying(&bare, length, 0), |length| saying(&whole, length, 2));
    let before_another = |length| around(2, &[whole.block_saying(length, 2), bare.block()].concat());
    let behind_another = |length| around(2, &[bare.block(), whole.block_saying(length, 2)].concat());
    (
        "blocks of 32 bytes and of 54 with two feature points that say less or more: alone, before another one and behind it",
        [
            each(0, [of_bare(32), of_whole(54), before_another(54), behind_another(54)]),
            each(26, [0, 1, 19, 20, 31, 33, 64, 32 + 65_536, 32 + (1 << 24), u32::MAX - 13, u32::MAX].map(of_bare)),
            each(26, [0, 31, 32, 47, 48, 53, 55, 86, 54 + 65_536, u32::MAX - 13, u32::MAX].map(of_whole)),
            each(26, [0, 32, 47, 48, 53, 55, 86, u32::MAX - 53, u32::MAX].map(before_another)),
            each(26, [0, 32, 47, 48, 53, 55, 86, u32::MAX - 31, u32::MAX].map(behind_another)),
        ]
        .concat(),
    )
}

fn blocks_taken_in() -> Group {
    let blocks = |length| [Image::plain(0, 1).block_saying(length, 0), Image::plain(0, 0).block()].concat();
    (
        "pixels are not examined: a block may take in the one behind it, which is then no image, but not half of it",
        [
            each(0, [around(2, &blocks(33)), around(1, &blocks(65))]),
            each(26, [around(1, &blocks(33)), around(2, &blocks(65)), around(1, &blocks(49)), around(2, &blocks(49))]),
        ]
        .concat(),
    )
}

fn numbers_of_points() -> Group {
    let block = |(length, points)| block_for_any_points(length, points);
    let of = |said| around(1, &block(said));
    let before_another = |said| around(2, &[block(said), block((32, 0))].concat());
    let room = [(32, 0), (39, 0), (40, 0), (40, 1), (47, 1), (48, 2), (55, 2), (56, 3)];
    let none = [(32, 1), (33, 1), (39, 1), (40, 2), (47, 2), (48, 3), (55, 3), (56, 4), (56, 5)];
    let far = [(32, 0x2000), (40, 0x2001), (40, 0x8000), (40, 0xE001), (56, 0x0100), (56, 0x0203), (56, u16::MAX)];
    (
        "as many feature points as have room in a block, one more and many more, where the image information would be good",
        [
            each(0, room.map(of)),
            each(0, room.map(before_another)),
            each(26, none.map(of)),
            each(26, none.map(before_another)),
            each(26, far.map(of)),
        ]
        .concat(),
    )
}

fn torn_blocks() -> Group {
    let block = |short| torn(&Image::plain(1, 0), short);
    let alone = |short| around(1, &block(short));
    let before_another = |short| around(2, &[block(short), Image::plain(0, 0).block()].concat());
    (
        "blocks that lack their last bytes and say so, alone and before another one: of what is free, and of all image information",
        [each(26, [1, 2, 3, 4, 5, 11, 12, 20].map(alone)), each(26, [1, 2, 3, 4, 5, 11, 12, 20].map(before_another))]
            .concat(),
    )
}

fn short_records() -> Group {
    let cut = |length: usize| least()[..length].to_vec();
    let with_length = |length: usize| around(1, &least()[14..length]);
    (
        "the least record cut off after 1 to 45 bytes; the same with the length that it has",
        [
            each(26, [1, 4, 8, 12, 13, 14, 17, 18, 20, 33, 34, 41, 42, 45].map(cut)),
            each(26, [14, 17, 18, 20, 33, 34, 41, 42, 45].map(with_length)),
            each(0, [with_length(46)]),
        ]
        .concat(),
    )
}

fn bytes_behind() -> Group {
    let more = |bytes: usize| [&least()[..], &vec![0; bytes]].concat();
    let with_length = |bytes: usize| around(1, &more(bytes)[14..]);
    (
        "one byte behind the last block, and more; the same with the length that the record has",
        [each(26, [1, 2, 8, 31, 32, 33].map(more)), each(26, [1, 2, 8, 31, 32, 33].map(with_length))].concat(),
    )
}

fn rubbish() -> Group {
    let picture = portrait().pixels;
    let behind_header = |byte: u8| around(1, &[byte; 100]);
    (
        "a good header and rubbish after it: text, one byte, zeros, FF, a picture without a record; and in the record's blocks",
        [
            each(26, [&b"RUBBISH"[..], &[0], &[0; 46], &RUBBISH, &picture]),
            each(26, [0x00, 0x01, 0x20, 0xFF].map(behind_header)),
        ]
        .concat(),
    )
}

// ---------------------------------------------------------------------------------------------
// The order

/// A FACE with no record, this byte at the end of its FASC-N and this one at the end of the reserved bytes.
fn with_faults(fascn: u8, reserved: u8) -> Card {
    with_ends(face(100, b"RUBBISH", 1), fascn, reserved)
}

fn order_of_rules() -> Group {
    (
        "21 of a field of the header, 17, 21 of the reserved bytes and 26 in one BC: each alone, each pair, and all of them",
        order_in_header(|quality| face(quality, b"RUBBISH", 1), 0xFF, 26),
    )
}

fn order_of_elements() -> Group {
    (
        "11, 12, 16 and 21 of the lengths come before 26, and 26 before all that is wrong behind BC",
        order_around_record(&face(100, b"RUBBISH", 1), 26),
    )
}

fn records_of_the_other_kind() -> Group {
    let mut of_fingers = fingers(100, b'0', [0, 0]);
    let value = of_fingers.rows[0].as_mut().expect("a BC");
    value.splice(88..88 + 38, least());
    value[5] = 46;
    (
        "a minutiae record in a FACE, and a facial record in FINGERS",
        [
            each(26, [minutiae_of(fingers(100, b'0', [0, 0])), minutiae_of(fingers(100, b'0', [3, 5]))]),
            checked_and_written(&of_fingers, 22, 0xBC, [3, 0]).to_vec(),
        ]
        .concat(),
    )
}

// ---------------------------------------------------------------------------------------------
// What each call answers

/// Two images, of which the second is this one.
fn second_image(image: Image) -> Card {
    face(100, &facial(&[portrait(), image]), 40)
}

fn rooms_of_faces() -> Group {
    let good = second_image(Image::plain(2, 0));
    let (container, sheet) = (good.container(), good.sheet());
    let broken = second_image(Image { source_type: 3, ..Image::plain(2, 0) }).container();
    let short = [0, 1, sheet.len() - 1].map(|room| check_short(7, &container, room));
    let enough = [sheet.len(), sheet.len() + 1, SHEET_ROOM].map(|room| check_into(7, &container, room, Ok(&sheet)));
    let refused = [0, 1, sheet.len() - 1, sheet.len(), SHEET_ROOM]
        .map(|room| check_into(7, &broken, room, Err((26, 4, Some(0xBC)))));
    (
        "the merged call on two images, with rooms from none to the largest; the same where the second one has a source type 3",
        [&short[..], &enough, &refused].concat(),
    )
}

fn written_faces() -> Group {
    let (good, broken) = (second_image(Image::plain(2, 0)), second_image(Image { data_type: 2, ..Image::plain(2, 0) }));
    let (container, sheet) = (good.container(), good.sheet());
    let at_bc = |number| Err((number, 0, Some(0xBC)));
    let mut without_end = face(100, b"RUBBISH", 1);
    without_end.rows[1] = None;
    // a record that a sheet can hold and a container cannot
    let (large, image) = (Image::plain(8_000, 0), Image { colour_space: 0, ..Image::plain(8_000, 0) });
    (
        "sheets of faces: 26 at the count of BC, before 15 of FE, 4 and 3; 5 before it",
        vec![
            write(7, &sheet, container.len(), Ok(&container)),
            write(7, &sheet, container.len() - 1, Err(alone(3))),
            write(7, &broken.sheet(), container.len(), at_bc(26)),
            write(7, &broken.sheet(), 0, at_bc(26)),
            write(7, &without_end.sheet(), 200, at_bc(26)),
            write(7, &[&broken.sheet()[..], &[0]].concat(), 200, Err(alone(5))),
            write(7, &face(100, &facial(&[large]), 1).sheet(), 200, Err(alone(4))),
            write(7, &face(100, &facial(&[image]), 1).sheet(), 200, at_bc(26)),
            write(7, &face(0xFF, b"RUBBISH", 1).sheet(), 200, at_bc(21)),
            write(7, &with_faults(0xEA, 0).sheet(), 200, at_bc(17)),
        ],
    )
}

fn viewed_faces() -> Group {
    let good = face(100, &with_pixels(4), 2).container();
    let broken = face(100, b"RUBBISH", 2).container();
    (
        "views of a FACE: BC, FE, a tag of another kind; no part where the record is none",
        vec![
            view(7, &good, 0xBC, Ok((6, 140))),
            view(7, &good, 0xFE, Ok((148, 0))),
            view(7, &good, 0x30, Err(alone(6))),
            view(7, &broken, 0xBC, Err((26, 2, Some(0xBC)))),
            view(7, &broken, 0xFE, Err((26, 2, Some(0xBC)))),
            view(7, &broken, 0x30, Err((26, 2, Some(0xBC)))),
        ],
    )
}

fn reported_faces() -> Group {
    let page = |card: &Card, bytes: usize, lines: &str| {
        let head = format!("CARD 4\nkind FACE\nbytes {}\ntoday 20260301\nverdict ", bytes);
        report(7, &card.container(), 512, Ok(&(head + lines)))
    };
    let good = "0 0 --\nELEMENTS 2\nBC 184\nFE 0\nOPEN 2\nagency 1234\nsystem 0001\n";
    let broken = |verdict: &str| verdict.to_string() + "\nELEMENTS 0\nOPEN 0\n";
    let of = |images: &[Image]| face(100, &facial(images), 2);
    (
        "reports of a FACE: one for every record of 94 bytes that is good; what is refused, with the bytes that are given",
        vec![
            page(&of(&[Image::plain(0, 48)]), 192, good),
            page(&of(&[Image::plain(6, 0)]), 192, good),
            page(&of(&[Image::plain(1, 0), Image::plain(1, 0)]), 192, good),
            page(&of(&[Image { data_type: 1, source_type: 6, ..Image::plain(5, 8) }]), 192, good),
            page(&of(&[Image { source_type: 3, ..Image::plain(0, 48) }]), 192, &broken("26 3 BC")),
            page(&of(&[]), 110, &broken("26 2 BC")),
            page(&face(100, b"RUBBISH", 2), 103, &broken("26 2 BC")),
            page(&face(100, &RUBBISH, 40), 438, &broken("26 4 BC")),
            page(&with_faults(0xEA, 1), 102, &broken("17 2 BC")),
            page(&with_faults(0xEB, 1), 102, &broken("21 2 BC")),
        ],
    )
}

fn faces_in_longer_forms() -> Group {
    let given = |card: &Card| card.container_in(&Forms::all(Form::Padded(LONGEST_FORM)));
    let (good, broken) =
        (second_image(Image::plain(2, 0)), second_image(Image { image_type: 0, ..Image::plain(2, 0) }));
    let refused = (26, 6, Some(0xBC));
    (
        "a FACE in the longest forms: its sheet and its part, and 26 behind an outer length of five bytes",
        vec![
            check_into(7, &given(&good), good.sheet().len(), Ok(&good.sheet())),
            view(7, &given(&good), 0xBC, Ok((12, good.rows[0].as_ref().map_or(0, Vec::len)))),
            check(7, &given(&broken), refused),
            view(7, &given(&broken), 0xBC, Err(refused)),
        ],
    )
}

fn largest_faces() -> Group {
    // what BC has beside the pixels of one image, and what the container has beside BC
    let pixels = |total: usize| total - 10 - 88 - 46 - 1;
    let of = |image| face(100, &facial(&[image]), 1).container();
    let many =
        |last: Image| face(100, &facial(&[vec![Image::plain(0, 0); 1_019], vec![last]].concat()), 16).container();
    let refused = (26, 4, Some(0xBC));
    (
        "one image in a container of exactly 32,768 bytes and of 32,769; 1,020 images in 32,768, and with the last one broken",
        vec![
            check(7, &of(Image::plain(0, pixels(CONTAINER_MAX))), CONFORMS),
            check(7, &of(Image::plain(0, pixels(CONTAINER_MAX) + 1)), alone(4)),
            check(7, &of(Image { colour_space: 2, ..Image::plain(0, pixels(CONTAINER_MAX)) }), refused),
            check(7, &many(Image::plain(0, 0)), CONFORMS),
            check(7, &many(Image { source_type: 5, ..Image::plain(0, 0) }), refused),
        ],
    )
}
