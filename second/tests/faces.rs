//! The facial record of request 2026-05.

use second::faces::{self, around, block_for_any_points, facial, least, Image, FIELDS, LEAST_RECORD};
use second::generate::Rng;
use second::samples::{face, portrait, PICTURE};
use std::collections::BTreeSet;

mod common;
use common::{picture_of, two_bytes, Biometric, Counts, Fields, ROUNDS};

// ---------------------------------------------------------------------------------------------
// What is a record

const FACE: Biometric =
    Biometric { kind: 7, name: "FACE", broken: 26, card: face, least, is_record: |record| read(record).is_some() };

/// Goes through a record to its end, if it is one.
fn read(record: &[u8]) -> Option<()> {
    let mut fields = Fields(record);
    fields.one_of(4, &[0x46414300])?;
    fields.one_of(4, &[0x30313000])?;
    fields.one_of(4, &[record.len() as u64])?;
    let images = fields.number(2).filter(|&images| images > 0)?;
    for _ in 0..images {
        let length = fields.number(4)?;
        let mut block = Fields(fields.bytes(length.checked_sub(4)?)?);
        let points = block.number(2)?;
        block.bytes(14)?;
        block.bytes(8 * points)?;
        block.one_of(1, &[1])?;
        block.one_of(1, &[0, 1])?;
        block.bytes(4)?;
        block.one_of(1, &[1])?;
        block.one_of(1, &[2, 6])?;
        block.bytes(4)?;
    }
    fields.0.is_empty().then_some(())
}

/// A record written out: 14 bytes of header, and for each image 20, 8 for each feature point, 12, and the pixels.
#[test]
fn layout() {
    let one: [&[u8]; 5] = [
        &[0x46, 0x41, 0x43, 0x00, 0x30, 0x31, 0x30, 0x00, 0, 0, 0, 46, 0, 1],
        &[0, 0, 0, 32, 0, 0],
        &[0xEE; 14],
        &[1, 0, 0, 240, 1, 64, 1, 2],
        &[0, 0, 0, 0],
    ];
    assert_eq!(least(), one.concat());
    assert_eq!((least().len(), FACE.number_of(&least())), (LEAST_RECORD, 0));

    let two: [&[u8]; 9] = [
        &[0x46, 0x41, 0x43, 0x00, 0x30, 0x31, 0x30, 0x00, 0, 0, 1, 101, 0, 2],
        &[0, 0, 0, 48, 0, 2],
        &[0xEE; 14],
        &[0xDD; 16],
        &[1, 1, 0, 1, 0, 2, 1, 6, 0, 3, 0, 4],
        &[0, 0, 1, 39, 0, 0],
        &[0xEE; 14],
        &[1, 0, 0, 240, 1, 64, 1, 2, 0, 0, 0, 0],
        &[0xFF; 263],
    ];
    let first = Image { data_type: 1, source_type: 6, ..Image::plain(2, 0) };
    let first = Image { width: 1, height: 2, device_type: 3, quality: 4, ..first };
    assert_eq!(facial(&[first, Image::plain(0, 263)]), two.concat());
    assert_eq!(FACE.number_of(&two.concat()), 0);
}

/// The sample with a picture: a JPEG 2000 file of the width and the height that the record says.
#[test]
fn portrait_is_true() {
    let image = portrait();
    assert_eq!(image.pixels, PICTURE);
    picture_of(PICTURE, image.width, image.height);
    assert_eq!((image.data_type, image.points.len()), (1, 3));
    FACE.samples();
}

// ---------------------------------------------------------------------------------------------
// Each field and each boundary

fn two() -> [Image; 2] {
    [Image::plain(2, 3), Image::plain(1, 2)]
}

/// The values of the fields that are examined, in their order.
const GOOD: [&[u8]; 4] = [&[1], &[0, 1], &[1], &[2, 6]];

/// Each value of each field, in the first image and in the last.
#[test]
fn every_value_of_a_field() {
    for which in 0..2 {
        for (field, good) in FIELDS.into_iter().zip(GOOD) {
            for value in 0..=255 {
                let mut images = two();
                *field(&mut images[which]) = value;
                let number = FACE.number_of(&facial(&images));
                assert_eq!(number, FACE.expected(good.contains(&value)), "{} {}", which, value);
            }
        }
    }
}

/// Any other byte of the header breaks it. In the block of a last image with a feature point and no pixels only the bytes that are
/// free may be others.
#[test]
fn every_byte() {
    let record = facial(&[Image::plain(2, 3), Image::plain(1, 0)]);
    let last = 14 + 51;
    FACE.every_byte(&record, |at, byte, number| {
        let free = match at.checked_sub(last) {
            None if at < 14 => false,
            None => return,
            Some(6..=27 | 30..=33 | 36..=39) => true,
            Some(29) => byte < 2,
            Some(35) => byte == 6,
            Some(_) => false,
        };
        assert_eq!(number, FACE.expected(free), "{} {}", at, byte);
    });
}

#[test]
fn every_record_length() {
    FACE.every_length([least(), facial(&two())]);
}

/// There is an image at least, and there are as many as are said.
#[test]
fn every_number_of_images() {
    for images in 0..=5 {
        for points in 0..=3 {
            let blocks: Vec<u8> = (0..images).flat_map(|pixels| Image::plain(points, pixels).block()).collect();
            for said in (0..300).chain([0x0100 + images as u16, 0x8000, u16::MAX]) {
                let good = images > 0 && usize::from(said) == images;
                assert_eq!(FACE.number_of(&around(said, &blocks)), FACE.expected(good), "{} {}", images, said);
            }
        }
    }
}

/// The length of a block is that of its parts, alone, before another one and behind it.
#[test]
fn every_block_length() {
    let other = Image::plain(0, 0).block();
    for points in 0..=3 {
        for pixels in 0..=9 {
            let image = Image::plain(points, pixels);
            let right = image.block().len() as u32;
            let in_so_many_bits = [16, 24, 31].map(|bit| right + (1 << bit));
            for length in (0..=right + 40).chain(in_so_many_bits).chain([u32::MAX]) {
                let block = image.block_saying(length, points as u16);
                let number = FACE.expected(length == right);
                assert_eq!(FACE.number_of(&around(1, &block)), number, "{} {} {}", points, pixels, length);
                assert_eq!(FACE.number_of(&around(2, &[&other, &block[..]].concat())), number);
                assert_eq!(FACE.number_of(&around(2, &[&block, &other[..]].concat())), number);
            }
        }
    }
}

/// A block has at least 32 bytes and 8 for each feature point: with image information that is good behind any number of them, it is
/// its length alone that decides.
#[test]
fn room_of_feature_points() {
    for length in 20..100usize {
        for points in (0..20).chain([0x1FFF, 0x2000, 0x2001, 0x2005, 0x8000, 0xE000, u16::MAX]) {
            let block = block_for_any_points(length, points);
            let good = 32 + 8 * usize::from(points) <= length;
            assert_eq!(FACE.number_of(&around(1, &block)), FACE.expected(good), "{} {}", length, points);
            // what stands behind the block is none of it
            let followed = [&block[..], &Image { free: [1; 14], ..Image::plain(0, 0) }.block()].concat();
            assert_eq!(FACE.number_of(&around(2, &followed)), FACE.expected(good), "{} {}", length, points);
        }
    }
}

#[test]
fn every_end() {
    FACE.every_end([least(), facial(&two())], 14);
}

/// Pixels are whatever they are, and so is all else that is free.
#[test]
fn free_bytes() {
    for byte in 0..=255u8 {
        let two = u16::from_be_bytes([byte; 2]);
        let image =
            Image { free: [byte; 14], points: vec![[byte; 8]; 3], pixels: vec![byte; 20], ..Image::plain(0, 0) };
        let image = Image { width: two, height: two, device_type: two, quality: two, ..image };
        assert_eq!(FACE.number_of(&facial(&[image.clone(), image])), 0, "{}", byte);
    }
}

#[test]
fn order() {
    FACE.order(&[(7, 2), (8, 1), (40, 0xFF)]);
}

// ---------------------------------------------------------------------------------------------
// Containers and sheets

#[test]
fn edges() {
    FACE.each_call_on(faces::edges(), [100, 2_000]);
}

/// The largest are refused for their size or for the last image.
#[test]
fn calls_at_an_edge() {
    FACE.calls_at_an_edge(faces::records(), |_, number| matches!(number, 0 | 3 | 4 | 17 | 21 | 26));
}

// ---------------------------------------------------------------------------------------------
// What is made

/// How many images a good record has, and how many feature points and pixels the first has.
fn counts(record: &[u8]) -> Counts {
    let points = two_bytes(record, 18);
    (two_bytes(record, 12), points, two_bytes(record, 16) - 32 - 8 * points)
}

/// One image is made and several, each with no feature points and with some, without pixels and with some, and every good value of
/// the fields.
#[test]
fn made_records() {
    let (mut shapes, mut types) = (BTreeSet::new(), BTreeSet::new());
    FACE.made_records(41, counts, |record, (images, points, pixels)| {
        shapes.insert((images.min(3), points.min(3), pixels.min(2)));
        types.insert((record[34 + 8 * points + 1], record[34 + 8 * points + 7]));
    });
    assert_eq!((shapes.len(), types.len()), (3 * 4 * 3, 4), "{:?}", shapes);
}

/// Records are made of every length from the least on, and so are values of BC.
#[test]
fn sizes() {
    let mut rng = Rng::new(42);
    FACE.records_of(&mut rng, (LEAST_RECORD..700).chain([5_000, 32_600, 60_000]), faces::record_of);
    FACE.values_of(&mut rng, 0..400, 135);
}

/// Of the damaged ones some have no whole header.
#[test]
fn damaged_records() {
    let mut lengths = BTreeSet::new();
    let [good, broken] = FACE.damaged_records(43, ROUNDS, faces::damaged, |record| {
        lengths.insert(record.len());
    });
    assert!(good > 1_000 && broken > 10_000, "{} {}", good, broken);
    assert!((1..14).all(|length| lengths.contains(&length)));
}

/// The sorts of damage, told by what a reader finds at its end: every rule of the record is broken alone.
#[test]
fn every_damage_is_made() {
    let mut found = BTreeSet::new();
    FACE.damaged_records(44, ROUNDS, faces::damaged, |record| found.extend(first_fault(record)));
    for sort in OF_A_HEADER.iter().chain(&OF_AN_IMAGE).chain(&["bytes behind"]) {
        assert!(found.contains(&(sort, 0)), "{}", sort);
    }
    for sort in OF_AN_IMAGE {
        assert!(found.contains(&(sort, 1)), "{}", sort);
    }
}

const OF_A_HEADER: [&str; 5] = ["short", "format", "version", "length", "no image"];

const OF_AN_IMAGE: [&str; 8] =
    ["image missing", "block short", "block long", "points", "image type", "data type", "colour space", "source type"];

/// Which rule a record breaks first, and whether that is in its first image, 0, or in a later one, 1.
fn first_fault(record: &[u8]) -> Option<(&'static str, usize)> {
    let number = |bytes: &[u8]| bytes.iter().fold(0, |number, &byte| number * 256 + usize::from(byte));
    if record.len() < 14 {
        return Some(("short", 0));
    }
    let images = number(&record[12..14]);
    let of_header = [
        ("format", &record[..4] == b"FAC\0"),
        ("version", &record[4..8] == b"010\0"),
        ("length", number(&record[8..12]) == record.len()),
        ("no image", images > 0),
    ];
    if let Some((fault, _)) = of_header.into_iter().find(|(_, good)| !good) {
        return Some((fault, 0));
    }
    let mut at = 14;
    for image in 0..images {
        let rest = &record[at..];
        let later = image.min(1);
        if rest.is_empty() {
            return Some(("image missing", later));
        }
        if rest.len() < 32 || number(&rest[..4]) < 32 {
            return Some(("block short", later));
        }
        let (length, points) = (number(&rest[..4]), number(&rest[4..6]));
        if length > rest.len() {
            return Some(("block long", later));
        }
        if 32 + 8 * points > length {
            return Some(("points", later));
        }
        let image = &rest[20 + 8 * points..];
        let names = ["image type", "data type", "colour space", "source type"];
        let good =
            [image[0], image[1], image[6], image[7]].into_iter().zip(GOOD).map(|(byte, good)| good.contains(&byte));
        if let Some((name, _)) = names.into_iter().zip(good).find(|(_, good)| !good) {
            return Some((name, later));
        }
        at += length;
    }
    (at < record.len()).then_some(("bytes behind", 0))
}

#[test]
fn calls_on_records_are_made() {
    FACE.calls_are_made(45);
}
