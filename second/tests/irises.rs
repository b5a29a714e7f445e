//! The iris container and its record, of request 2026-06.

use second::card::CONFORMS;
use second::generate::{Rng, EXAMPLE_DAY};
use second::irises::{
    self, around, iris_record, least, pair_of, with_flag_and_eyes, with_image, Representation, BYTE_FIELDS,
    LEAST_RECORD, NUMBER_FIELDS,
};
use second::records::with_bytes;
use second::samples::{eye, iris, EYE};
use std::collections::BTreeSet;

mod common;
use common::{picture_of, two_bytes, verdict, Biometric, Counts, Fields, ROUNDS};

// ---------------------------------------------------------------------------------------------
// What is a record

const IRIS: Biometric = Biometric {
    kind: 12,
    name: "IRIS",
    broken: 27,
    card: iris,
    least,
    is_record: |record| first_fault(record).is_none(),
};

/// The next number of so many bytes, if it is good.
fn next(fields: &mut Fields, bytes: u64, name: &'static str, good: impl Fn(u64) -> bool) -> Result<u64, &'static str> {
    fields.number(bytes).ok_or("cut short").and_then(|number| if good(number) { Ok(number) } else { Err(name) })
}

const OF_A_HEADER: [&str; 7] = ["format", "version", "length", "representations", "too large", "flag", "eyes"];

fn read_header(fields: &mut Fields) -> Result<u64, &'static str> {
    let length = fields.0.len() as u64;
    next(fields, 4, "format", |number| number == 0x49495200)?;
    next(fields, 4, "version", |number| number == 0x30323000)?;
    next(fields, 4, "length", |number| number == length)?;
    let count = next(fields, 2, "representations", |number| number == 1 || number == 2)?;
    if length > 3_072 * count {
        return Err("too large");
    }
    next(fields, 1, "flag", |number| number == 0)?;
    next(fields, 1, "eyes", |number| number == 1 || number == 2)?;
    Ok(count)
}

const OF_A_REPRESENTATION: [&str; 21] = [
    "cut short",
    "year",
    "month",
    "day",
    "hour",
    "minute",
    "second",
    "milliseconds",
    "number",
    "label",
    "image type",
    "image format",
    "properties",
    "width",
    "height",
    "depth",
    "centre",
    "lowest diameter",
    "highest diameter",
    "image",
    "its length",
];

fn last_day(year: u64, month: u64) -> u64 {
    match month {
        4 | 6 | 9 | 11 => 30,
        2 if year % 400 == 0 || year % 4 == 0 && year % 100 != 0 => 29,
        2 => 28,
        _ => 31,
    }
}

/// Takes the representation with this number off the front.
fn read_representation(fields: &mut Fields, number: u64) -> Result<(), &'static str> {
    let before = fields.0.len() as u64;
    let length = next(fields, 4, "", |_| true)?;
    let year = next(fields, 2, "year", |year| (2011..10_000).contains(&year))?;
    let month = next(fields, 1, "month", |month| (1..13).contains(&month))?;
    next(fields, 1, "day", |day| day > 0 && day <= last_day(year, month))?;
    next(fields, 1, "hour", |hour| hour < 24)?;
    next(fields, 1, "minute", |minute| minute < 60)?;
    next(fields, 1, "second", |second| second < 60)?;
    next(fields, 2, "milliseconds", |milliseconds| milliseconds < 1_000)?;
    fields.bytes(5).ok_or("cut short")?;
    let blocks = next(fields, 1, "", |_| true)?;
    fields.bytes(5 * blocks).ok_or("cut short")?;
    next(fields, 2, "number", |found| found == number)?;
    next(fields, 1, "label", |label| label == 1 || label == 2)?;
    next(fields, 1, "image type", |image_type| image_type == 7)?;
    next(fields, 1, "image format", |image_format| image_format == 10)?;
    // pairs of bits, the highest first: 01, 01, then twice 01 or 10
    let pair = |bits: u64| bits % 4 == 1 || bits % 4 == 2;
    next(fields, 1, "properties", |bits| bits / 16 == 5 && pair(bits / 4) && pair(bits))?;
    let width = next(fields, 2, "width", |width| (288..=448).contains(&width))?;
    let height = next(fields, 2, "height", |height| (216..=336).contains(&height))?;
    next(fields, 1, "depth", |depth| depth == 8)?;
    fields.bytes(6).ok_or("cut short")?;
    for size in [width, height] {
        let middle = if size % 2 == 0 { [size / 2, size / 2 + 1] } else { [(size + 1) / 2; 2] };
        for right in middle {
            next(fields, 2, "centre", |number| number == right)?;
        }
    }
    next(fields, 2, "lowest diameter", |lowest| lowest >= 160)?;
    next(fields, 2, "highest diameter", |highest| highest <= 280)?;
    let image = next(fields, 4, "", |_| true)?;
    fields.bytes(image).ok_or("image")?;
    if before - fields.0.len() as u64 == length {
        Ok(())
    } else {
        Err("its length")
    }
}

/// Which rule a record breaks first, as a reader of another make goes through it, and in which representation; 0 is none of them.
fn first_fault(record: &[u8]) -> Option<(&'static str, u64)> {
    let mut fields = Fields(record);
    let count = match read_header(&mut fields) {
        Ok(count) => count,
        Err(fault) => return Some((fault, 0)),
    };
    for number in 1..=count {
        if let Err(fault) = read_representation(&mut fields, number) {
            return Some((fault, number));
        }
    }
    (!fields.0.is_empty()).then_some(("bytes behind", 0))
}

/// A record written out: 16 bytes of header, and for each representation 19, 5 for each quality block, 33, and the image.
#[test]
fn layout() {
    let header = |length: u8, count: u8| [&b"IIR\x00020\0"[..], &[0, 0, 0, length, 0, count, 0, 1]].concat();
    let capture = [&[0x07, 0xEA, 1, 31, 10, 30, 59, 0x01, 0xF4][..], &[0xEE; 5]].concat();
    let information =
        [&[1, 7, 10, 0x55, 1, 32, 0, 216, 8][..], &[0xCC; 6], &[0, 144, 0, 145, 0, 108, 0, 109, 0, 160, 1, 24]]
            .concat();
    let one = [&header(68, 1)[..], &[0, 0, 0, 52], &capture, &[0, 0, 1], &information, &[0; 4]].concat();
    assert_eq!(least(), one);
    assert_eq!((least().len(), IRIS.number_of(&one)), (LEAST_RECORD, 0));

    let first = [&[0, 0, 0, 62][..], &capture, &[2], &[0xDD; 10], &[0, 1], &information, &[0; 4]].concat();
    let second = [&[0, 0, 0, 55][..], &capture, &[0, 0, 2], &information, &[0, 0, 0, 3], &[0xFF; 3]].concat();
    let two = [header(133, 2), first, second].concat();
    assert_eq!(iris_record(&[Representation::plain(1, 2, 0), Representation::plain(2, 0, 3)]), two);
    assert_eq!(IRIS.number_of(&two), 0);
}

/// The sample with pictures: a JPEG 2000 file of the width and the height that the record says, in grey of eight bits.
#[test]
fn eyes_are_true() {
    let eye = eye(1);
    assert_eq!(picture_of(EYE, eye.width, eye.height)[..3], [0, 1, eye.depth - 1]);
    assert_eq!(eye.image, EYE);
    IRIS.samples();
}

// ---------------------------------------------------------------------------------------------
// Each field and each boundary

fn two() -> [Representation; 2] {
    [Representation::plain(1, 2, 3), Representation::plain(2, 1, 2)]
}

/// The number of the two with a change in each of them alone, which is the same.
fn number_with(change: impl Fn(&mut Representation)) -> u64 {
    let with = |which: usize| {
        let mut both = two();
        change(&mut both[which]);
        IRIS.number_of(&iris_record(&both))
    };
    assert_eq!(with(0), with(1));
    with(0)
}

/// Each value of each field of one byte, in the first representation and in the last.
#[test]
fn every_value_of_a_byte() {
    let good: [&[u8]; 10] = [
        &[1, 3, 5, 7, 8, 10, 12],
        &(1..32).collect::<Vec<_>>(),
        &(0..24).collect::<Vec<_>>(),
        &(0..60).collect::<Vec<_>>(),
        &(0..60).collect::<Vec<_>>(),
        &[1, 2],
        &[7],
        &[10],
        &[0x55, 0x56, 0x59, 0x5A],
        &[8],
    ];
    for (i, (field, good)) in BYTE_FIELDS.into_iter().zip(good).enumerate() {
        for value in 0..=255 {
            assert_eq!(number_with(|one| *field(one) = value), IRIS.expected(good.contains(&value)), "{} {}", i, value);
        }
    }
}

/// Each value of each field of two bytes but the number, among those the centre of 288 by 216.
#[test]
fn every_value_of_a_number() {
    let good: [fn(u16) -> bool; 11] = [
        |year| (2011..=9999).contains(&year),
        |milliseconds| milliseconds <= 999,
        |_| unreachable!(),
        |width| width == 288,
        |height| height == 216,
        |lowest_x| lowest_x == 144,
        |highest_x| highest_x == 145,
        |lowest_y| lowest_y == 108,
        |highest_y| highest_y == 109,
        |lowest| lowest >= 160,
        |highest| highest <= 280,
    ];
    for (i, (field, good)) in NUMBER_FIELDS.into_iter().zip(good).enumerate().filter(|(i, _)| *i != 2) {
        for value in (0..2_100).chain(9_990..10_010).chain([0x8000, u16::MAX]) {
            assert_eq!(number_with(|one| *field(one) = value), IRIS.expected(good(value)), "{} {}", i, value);
        }
    }
}

/// A size is good between its bounds, and one centre is right for it: what is beside that is not.
#[test]
fn every_size() {
    for width in (0..600).chain([u16::MAX - 1, u16::MAX]) {
        let good = (288..=448).contains(&width);
        assert_eq!(number_with(|one| *one = one.clone().sized(width, 216)), IRIS.expected(good), "{}", width);
    }
    for height in (0..600).chain([u16::MAX - 1, u16::MAX]) {
        let good = (216..=336).contains(&height);
        assert_eq!(number_with(|one| *one = one.clone().sized(288, height)), IRIS.expected(good), "{}", height);
    }
    for (width, height, centre) in
        [(288, 216, [144, 145, 108, 109]), (289, 217, [145, 145, 109, 109]), (448, 335, [224, 225, 168, 168])]
    {
        for off in 0..81 {
            // each of the four one less, right or one more
            let steps = [off / 27 % 3, off / 9 % 3, off / 3 % 3, off % 3];
            let mut other = centre;
            other.iter_mut().zip(steps).for_each(|(number, step)| *number += step - 1);
            let number =
                number_with(|one| (one.width, one.height, one.centre) = (width, height, other.map(|n| n as u16)));
            assert_eq!(number, IRIS.expected(other == centre), "{:?}", other);
        }
    }
}

/// Days around each month's end and each year at an edge.
#[test]
fn every_day() {
    for year in (2009..=2013).chain([0, 1, 2024, 2026, 2100, 2399, 2400, 9999, 10_000]) {
        for month in 0..=14 {
            for day in 0..=33 {
                let good = (2011..10_000).contains(&year)
                    && (1..=12).contains(&month)
                    && (1..=last_day(year, month)).contains(&day);
                let number = number_with(|one| (one.year, one.month, one.day) = (year as u16, month as u8, day as u8));
                assert_eq!(number, IRIS.expected(good), "{} {} {}", year, month, day);
            }
        }
    }
    let on = |year, month, day| number_with(|one| (one.year, one.month, one.day) = (year, month, day));
    assert_eq!(
        [on(2010, 12, 31), on(2011, 1, 1), on(2012, 2, 29), on(2012, 2, 30), on(2026, 2, 29)],
        [27, 0, 0, 27, 27]
    );
}

/// What is free stays good.
#[test]
fn every_byte() {
    let record = iris_record(&two());
    // the second representation behind the first: device, quality block, range and roll, image
    let second = 16 + 65;
    let free = [second + 13..second + 18, second + 19..second + 24, second + 35..second + 41, second + 57..second + 59];
    IRIS.every_byte(&record, |at, byte, number| {
        assert!(number == 0 || !free.iter().any(|range| range.contains(&at)), "{} {}", at, byte);
    });
}

/// Representations are one or two, as many as are said, with the numbers 1, then 2; eyes are one or two, and the flag is 00.
#[test]
fn every_header() {
    for numbers in [&[][..], &[1], &[2], &[1, 2], &[2, 1], &[1, 1], &[2, 2], &[1, 3], &[1, 2, 3]] {
        let all: Vec<u8> = numbers.iter().flat_map(|&number| Representation::plain(number, 0, 1).bytes()).collect();
        for said in (0..5).chain([0x0100, 0x0101, 0x0102, 0x8001, u16::MAX]) {
            let good = usize::from(said) == numbers.len() && (numbers == [1] || numbers == [1, 2]);
            assert_eq!(IRIS.number_of(&around(said, &all)), IRIS.expected(good), "{:?} {}", numbers, said);
        }
    }
    for record in [least(), iris_record(&two())] {
        for value in 0..=255 {
            let eyes = with_flag_and_eyes(record.clone(), 0, value);
            assert_eq!(IRIS.number_of(&eyes), IRIS.expected(value == 1 || value == 2), "{}", value);
            let flag = with_flag_and_eyes(record.clone(), value, 1);
            assert_eq!(IRIS.number_of(&flag), IRIS.expected(value == 0), "{}", value);
        }
    }
}

#[test]
fn every_length_and_end() {
    IRIS.every_length([least(), iris_record(&two())]);
    IRIS.every_end([least(), iris_record(&two())], 16);
}

/// The three numbers that follow from a representation: each other value of one, and of its length with one of the two.
#[test]
fn every_length_of_a_part() {
    let (one, other) = (Representation::plain(1, 2, 20), Representation::plain(2, 0, 0).bytes());
    for blocks in 0..10 {
        for image in 0..60 {
            for length in 50..150 {
                let bytes = one.bytes_saying(length, blocks, image);
                let good = (length, blocks, image) == (82, 2, 20);
                assert_eq!(
                    IRIS.number_of(&around(2, &[&bytes, &other[..]].concat())),
                    IRIS.expected(good),
                    "{} {} {}",
                    length,
                    blocks,
                    image
                );
                assert_eq!(IRIS.number_of(&around(1, &bytes)), IRIS.expected(good), "{} {} {}", length, blocks, image);
            }
        }
    }
    // a sum of 32 bits would be right
    for (length, image) in [(82, 20 + (1 << 31)), (51, u32::MAX - 10), (62, 0), (61, u32::MAX), (0, u32::MAX - 61)] {
        assert_eq!(IRIS.number_of(&around(1, &one.bytes_saying(length, 2, image))), 27, "{} {}", length, image);
    }
}

/// 3,072 bytes for each representation, wherever they are.
#[test]
fn most_bytes() {
    let one = |length: usize| with_image(length - LEAST_RECORD);
    let pair = |(length, first)| iris_record(&pair_of(length, first));
    for record in
        [one(3_071), one(3_072), pair((3_073, 0)), pair((6_144, 0)), pair((6_144, 3_012)), pair((6_144, 6_024))]
    {
        IRIS.each_call(&record, 0);
    }
    for record in [one(3_073), one(6_144), pair((6_145, 0)), pair((6_145, 3_012)), pair((6_145, 6_025))] {
        IRIS.each_call(&record, 27);
    }
}

/// Each value of each byte of the header. The quality is -2 to 100, and of the data type the low five bits are free.
#[test]
fn every_byte_of_the_header() {
    let card = iris(100, &least(), 1);
    let value = card.rows[0].clone().unwrap();
    for at in 0..88 {
        for byte in 0..=255 {
            let mut other = card.clone();
            other.rows[0] = Some(with_bytes(value.clone(), at, &[byte]));
            let number = verdict(12, EXAMPLE_DAY, &other.container()).0;
            let good = match at {
                39 => byte >> 5 == 0b010,
                40 => (-2..=100).contains(&(byte as i8)),
                8..=11 | 36..=38 => byte == [1, 1, 0, 9, 0, 0, 0x10][if at < 12 { at - 8 } else { at - 32 }],
                // dates, creator and FASC-N are the same as in the other kinds
                12..=35 | 41..=83 => continue,
                _ => byte == value[at],
            };
            assert_eq!(number, if good { 0 } else { 21 }, "{} {}", at, byte);
        }
    }
    let with = |at, bytes: &[u8]| {
        let mut other = card.clone();
        other.rows[0] = Some(with_bytes(value.clone(), at, bytes));
        verdict(12, EXAMPLE_DAY, &other.container())
    };
    assert_eq!([with(40, &[0xFF]), with(40, &[0xFD]), with(8, &[0x00, 0x1B])], [CONFORMS, HEADER, HEADER]);
    // the creator's bytes behind its 00 are not looked at
    assert_eq!([with(41, &[0x41, 0x00, 0xFF]), with(41, &[0x1F])], [CONFORMS, HEADER]);
}

const HEADER: (u64, u64, Option<u16>) = (21, 3, Some(0xBC));

#[test]
fn order() {
    IRIS.order(&[(9, 0x1B), (40, 0xFD)]);
}

// ---------------------------------------------------------------------------------------------
// Containers and sheets

#[test]
fn edges() {
    IRIS.each_call_on(irises::edges(), [500, 2_000]);
}

/// The largest are refused for their size or for the last representation. Two are made of a FACE with another record.
#[test]
fn calls_at_an_edge() {
    IRIS.calls_at_an_edge(irises::records(), |kind, number| {
        matches!((kind, number), (12, 0 | 3 | 4 | 17 | 21 | 27) | (6 | 7, 0 | 21) | (7, 26))
    });
}

// ---------------------------------------------------------------------------------------------
// What is made

/// How many representations a good record has, how many quality blocks the first has and how many bytes its image.
fn counts(record: &[u8]) -> Counts {
    let blocks = usize::from(record[34]);
    (two_bytes(record, 12), blocks, two_bytes(record, 18) - 52 - 5 * blocks)
}

/// One representation is made and two, each with no quality blocks and with some, without an image and with one, and records of the
/// most bytes.
#[test]
fn made_records() {
    let (mut shapes, mut lengths) = (BTreeSet::new(), BTreeSet::new());
    IRIS.made_records(61, counts, |record, (count, blocks, image)| {
        shapes.insert((count, blocks.min(3), image.min(2)));
        lengths.insert(record.len());
    });
    assert_eq!(shapes.len(), 2 * 4 * 3, "{:?}", shapes);
    assert!([3_071, 3_072, 6_143, 6_144].iter().all(|length| lengths.contains(length)));
}

/// Records are made of every length that there is, and values of BC of every length from the least on.
#[test]
fn sizes() {
    let mut rng = Rng::new(62);
    IRIS.records_of(&mut rng, (LEAST_RECORD..700).chain(3_060..3_090).chain(6_100..=6_144), irises::record_of);
    IRIS.values_of(&mut rng, (0..400).chain([3_000, 7_000, 32_000, 40_000]), 157);
}

/// Every rule is broken first by some damaged ones: those of a representation in one alone and in each of two. Of those that stay
/// good some are at each edge.
#[test]
fn damaged_records() {
    let (mut found, mut edges) = (BTreeSet::new(), BTreeSet::new());
    let [good, _] = IRIS.damaged_records(63, 5 * ROUNDS, irises::damaged, |record| {
        let fault = first_fault(record);
        let count = record.get(13).filter(|_| fault.map_or(true, |(_, at)| at > 0)).copied();
        found.insert((fault, count));
        if fault.is_none() {
            let at = 35 + 5 * usize::from(record[34]);
            let two = |at| two_bytes(record, at);
            edges.extend([("year", two(20)), ("width", two(at + 6)), ("height", two(at + 8))]);
            edges.extend([("lowest", two(at + 25)), ("highest", two(at + 27)), ("milliseconds", two(27))]);
        }
    });
    let seen = |fault, at, count| found.contains(&(Some((fault, at)), count));
    for fault in OF_A_HEADER.into_iter().chain(["cut short", "bytes behind"]) {
        assert!(seen(fault, 0, None), "{}", fault);
    }
    for fault in OF_A_REPRESENTATION {
        assert!(seen(fault, 1, Some(1)) && seen(fault, 1, Some(2)) && seen(fault, 2, Some(2)), "{}", fault);
    }
    for edge in [("year", 2011), ("year", 9999), ("width", 288), ("width", 448), ("height", 216), ("height", 336)] {
        assert!(edges.contains(&edge), "{:?}", edge);
    }
    for edge in [("lowest", 160), ("highest", 280), ("milliseconds", 0), ("milliseconds", 999)] {
        assert!(edges.contains(&edge), "{:?}", edge);
    }
    assert!((ROUNDS / 4..3 * ROUNDS).contains(&good), "{}", good);
}

#[test]
fn calls_on_records_are_made() {
    IRIS.calls_are_made(65);
}
