//! Iris records for the samples and the generator: as they should be and damaged. The calls on those at an edge are made in every
//! run.

use crate::batch::{Call, Record};
use crate::dates::edges_of_years;
use crate::faces;
use crate::generate::{any_length, date, plain, Card, Rng};
use crate::records::{self, check, few, other_lengths, other_part_lengths, saying_length, which, with_bytes, write};
use crate::samples::{face, fingers, iris, EYE};
use crate::values::{
    CAPTURE_BYTES, HEADER_BYTES, IRIS_FORMAT, IRIS_HEADER_BYTES, IRIS_INFORMATION_BYTES, IRIS_MOST_BYTES, IRIS_VERSION,
    QUALITY_BLOCK_BYTES,
};
use crate::CONTAINER_MAX;

/// A representation with all that it has beside three numbers, which follow from it: its own length, how many quality blocks there
/// are, and the length of the image.
#[derive(Clone)]
pub struct Representation {
    pub year: u16,
    pub month: u8,
    pub day: u8,
    pub hour: u8,
    pub minute: u8,
    pub second: u8,
    pub milliseconds: u16,
    pub device: [u8; 5],
    pub blocks: Vec<[u8; QUALITY_BLOCK_BYTES]>,
    pub number: u16,
    pub label: u8,
    pub image_type: u8,
    pub image_format: u8,
    pub properties: u8,
    pub width: u16,
    pub height: u16,
    pub depth: u8,
    /// Range, roll angle and roll uncertainty.
    pub range_and_roll: [u8; 6],
    /// Lowest X, highest X, lowest Y, highest Y.
    pub centre: [u16; 4],
    /// The lowest and the highest.
    pub diameter: [u16; 2],
    pub image: Vec<u8>,
}

/// A representation has at least so many bytes.
const LEAST_REPRESENTATION: usize = CAPTURE_BYTES + IRIS_INFORMATION_BYTES;

/// A record has at least so many bytes.
pub const LEAST_RECORD: usize = IRIS_HEADER_BYTES + LEAST_REPRESENTATION;

/// So many bytes of quality blocks and image have room in each representation.
const SPARE: usize = IRIS_MOST_BYTES - LEAST_RECORD;

impl Representation {
    /// A good one with this number, so many quality blocks and so many bytes of image.
    pub fn plain(number: u16, blocks: usize, image: usize) -> Representation {
        Representation {
            year: 2026,
            month: 1,
            day: 31,
            hour: 10,
            minute: 30,
            second: 59,
            milliseconds: 500,
            device: [0xEE; 5],
            blocks: vec![[0xDD; QUALITY_BLOCK_BYTES]; blocks],
            number,
            label: 1,
            image_type: 7,
            image_format: 10,
            properties: 0x55,
            width: 288,
            height: 216,
            depth: 8,
            range_and_roll: [0xCC; 6],
            centre: [144, 145, 108, 109],
            diameter: [160, 280],
            image: vec![0xFF; image],
        }
    }

    /// The same with another size, and with the centre of that.
    pub fn sized(self, width: u16, height: u16) -> Representation {
        let middle = |size: u16| if size % 2 == 0 { [size / 2, size / 2 + 1] } else { [size / 2 + 1; 2] };
        let ([left, right], [low, high]) = (middle(width), middle(height));
        Representation { width, height, centre: [left, right, low, high], ..self }
    }

    /// How many bytes it has.
    fn length(&self) -> u32 {
        (LEAST_REPRESENTATION + QUALITY_BLOCK_BYTES * self.blocks.len() + self.image.len()) as u32
    }

    pub fn bytes(&self) -> Vec<u8> {
        self.bytes_saying(self.length(), self.blocks.len() as u8, self.image.len() as u32)
    }

    /// Its bytes with these three numbers, whether or not they are right: the length, how many quality blocks there are, and the
    /// length of the image.
    pub fn bytes_saying(&self, length: u32, blocks: u8, image: u32) -> Vec<u8> {
        let numbers = |numbers: &[u16]| numbers.iter().flat_map(|number| number.to_be_bytes()).collect::<Vec<_>>();
        let mut out = length.to_be_bytes().to_vec();
        out.extend(self.year.to_be_bytes());
        out.extend([self.month, self.day, self.hour, self.minute, self.second]);
        out.extend(self.milliseconds.to_be_bytes());
        out.extend(self.device);
        out.push(blocks);
        out.extend(self.blocks.concat());
        out.extend(self.number.to_be_bytes());
        out.extend([self.label, self.image_type, self.image_format, self.properties]);
        out.extend(numbers(&[self.width, self.height]));
        out.push(self.depth);
        out.extend(self.range_and_roll);
        out.extend(numbers(&self.centre));
        out.extend(numbers(&self.diameter));
        out.extend(image.to_be_bytes());
        out.extend(&self.image);
        out
    }
}

/// The record of these representations.
pub fn iris_record(representations: &[Representation]) -> Vec<u8> {
    around(representations.len() as u16, &representations.iter().flat_map(Representation::bytes).collect::<Vec<_>>())
}

/// The record that has these representations, of one eye, and says that they are so many. Its length is right.
pub fn around(count: u16, representations: &[u8]) -> Vec<u8> {
    let header = records::header(IRIS_FORMAT, IRIS_VERSION, IRIS_HEADER_BYTES + representations.len(), count);
    [&header[..], &[0, 1], representations].concat()
}

/// The record with this certification flag and this number of eyes.
pub fn with_flag_and_eyes(record: Vec<u8>, flag: u8, eyes: u8) -> Vec<u8> {
    with_bytes(record, 14, &[flag, eyes])
}

/// The record of one representation without quality blocks, with so many bytes of image.
pub fn with_image(bytes: usize) -> Vec<u8> {
    iris_record(&[Representation::plain(1, 0, bytes)])
}

/// The least record.
pub fn least() -> Vec<u8> {
    with_image(0)
}

// ---------------------------------------------------------------------------------------------
// Records that conform

/// A record of one representation or two, mostly with few quality blocks and a small image, and at times as large as can be.
pub fn record(rng: &mut Rng) -> Vec<u8> {
    if rng.one_in(60) {
        let length = rng.pick(&[IRIS_MOST_BYTES - 1, IRIS_MOST_BYTES, 2 * IRIS_MOST_BYTES - 1, 2 * IRIS_MOST_BYTES]);
        return record_of(rng, length);
    }
    let record = iris_record(&representations(rng));
    of_any_eyes(rng, record)
}

fn of_any_eyes(rng: &mut Rng, record: Vec<u8>) -> Vec<u8> {
    with_flag_and_eyes(record, 0, rng.pick(&[1, 2]))
}

fn representations(rng: &mut Rng) -> Vec<Representation> {
    let count = rng.pick(&[1, 2]);
    let one = |number| {
        let blocks = if rng.one_in(40) { rng.size(0, 255) } else { few(rng) };
        let image = any_length(rng, 0, SPARE - QUALITY_BLOCK_BYTES * blocks);
        representation(rng, number, blocks, image)
    };
    (1..=count).map(one).collect()
}

/// A number between two others, often one of them.
fn between(rng: &mut Rng, low: u16, high: u16) -> u16 {
    match rng.below(6) {
        0 => low,
        1 => high,
        _ => rng.size(low.into(), high.into()) as u16,
    }
}

/// A good one in which all that is free is any.
fn representation(rng: &mut Rng, number: u16, blocks: usize, image: usize) -> Representation {
    let day = captured(rng);
    let widest = rng.pick(&[300, 300, 300, u16::MAX]);
    let (mut device, mut range_and_roll) = ([0; 5], [0; 6]);
    device.fill_with(|| rng.byte());
    range_and_roll.fill_with(|| rng.byte());
    let block = |rng: &mut Rng| [(); QUALITY_BLOCK_BYTES].map(|_| rng.byte());
    Representation {
        year: (day / 10_000) as u16,
        month: (day / 100 % 100) as u8,
        day: (day % 100) as u8,
        hour: between(rng, 0, 23) as u8,
        minute: between(rng, 0, 59) as u8,
        second: between(rng, 0, 59) as u8,
        milliseconds: between(rng, 0, 999),
        device,
        blocks: (0..blocks).map(|_| block(rng)).collect(),
        label: rng.pick(&[1, 2]),
        properties: rng.pick(&[0x55, 0x56, 0x59, 0x5A]),
        range_and_roll,
        diameter: [between(rng, 160, widest), between(rng, 0, 280)],
        image: rng.bytes(image),
        ..Representation::plain(number, 0, 0).sized(between(rng, 288, 448), between(rng, 216, 336))
    }
}

/// A day from 2011 on.
fn captured(rng: &mut Rng) -> u64 {
    if rng.one_in(8) {
        return rng.pick(&[20110101, 20111231, 20120229, 99991231]);
    }
    loop {
        let day = date(rng);
        if day >= 20110101 {
            return day;
        }
    }
}

/// A record of exactly so many bytes, of which the least has 68 and the largest 6,144. It has one representation or two, whichever
/// can be.
pub fn record_of(rng: &mut Rng, length: usize) -> Vec<u8> {
    let fewest = if length > IRIS_MOST_BYTES { 2 } else { 1 };
    let most = (length - IRIS_HEADER_BYTES) / LEAST_REPRESENTATION;
    let count = rng.size(fewest, most.min(2));
    let mut left = length - IRIS_HEADER_BYTES - LEAST_REPRESENTATION * count;
    let mut representations = Vec::new();
    for number in 1..=count {
        // the last one has what the other leaves
        let share = if number == count { left } else { rng.size(0, left) };
        let room = (share / QUALITY_BLOCK_BYTES).min(255);
        let blocks = if rng.one_in(4) { rng.size(0, room) } else { few(rng).min(room) };
        representations.push(representation(rng, number as u16, blocks, share - QUALITY_BLOCK_BYTES * blocks));
        left -= share;
    }
    of_any_eyes(rng, iris_record(&representations))
}

// ---------------------------------------------------------------------------------------------
// Damaged ones

/// What is no record, or nearly none.
pub fn damaged(rng: &mut Rng) -> Vec<u8> {
    match rng.below(20) {
        0..=8 => with_other_field(rng),
        9..=11 => with_other_header(rng),
        12..=14 => with_other_lengths(rng),
        15 => too_large(rng),
        16 | 17 => {
            let record = record(rng);
            records::with_another_end(rng, record, IRIS_HEADER_BYTES, LEAST_REPRESENTATION)
        }
        18 => iris_record(&with_other_numbers(rng)),
        _ => records::rubbish(rng, EYE),
    }
}

/// The examined fields of a representation that have one byte, in their order.
pub const BYTE_FIELDS: [fn(&mut Representation) -> &mut u8; 10] = [
    |one| &mut one.month,
    |one| &mut one.day,
    |one| &mut one.hour,
    |one| &mut one.minute,
    |one| &mut one.second,
    |one| &mut one.label,
    |one| &mut one.image_type,
    |one| &mut one.image_format,
    |one| &mut one.properties,
    |one| &mut one.depth,
];

/// Those that have two.
pub const NUMBER_FIELDS: [fn(&mut Representation) -> &mut u16; 11] = [
    |one| &mut one.year,
    |one| &mut one.milliseconds,
    |one| &mut one.number,
    |one| &mut one.width,
    |one| &mut one.height,
    |one| &mut one.centre[0],
    |one| &mut one.centre[1],
    |one| &mut one.centre[2],
    |one| &mut one.centre[3],
    |one| &mut one.diameter[0],
    |one| &mut one.diameter[1],
];

/// Numbers beside this one, and such as differ from it in their high byte.
fn beside(right: u16) -> [u16; 6] {
    [right.wrapping_sub(1), right.wrapping_add(1), right ^ 0x0100, right ^ 0x8000, right & 0xFF, right.swap_bytes()]
}

/// The numbers at the edges of every field that has two bytes.
const EDGE_NUMBERS: [u16; 23] = [
    0, 1, 2, 3, 159, 160, 215, 216, 280, 281, 287, 288, 336, 337, 448, 449, 999, 1_000, 2_010, 2_011, 9_999, 10_000,
    65_535,
];

/// Those of one byte.
const EDGE_BYTES: [u8; 24] =
    [0, 1, 2, 3, 6, 7, 8, 9, 10, 11, 12, 13, 23, 24, 29, 30, 31, 32, 59, 60, 0x56, 0x65, 0x95, 0xFF];

/// One with another value in a field of a representation, or with a size at an edge and the centre of that.
fn with_other_field(rng: &mut Rng) -> Vec<u8> {
    let mut all = representations(rng);
    let at = which(rng, &all);
    let one = &mut all[at];
    match rng.below(8) {
        0 => *one = one.clone().sized(rng.pick(&[287, 288, 448, 449]), one.height),
        1 => *one = one.clone().sized(one.width, rng.pick(&[215, 216, 336, 337])),
        2..=4 => {
            let field = rng.pick(&BYTE_FIELDS)(one);
            *field = if rng.one_in(4) { rng.byte() } else { rng.pick(&EDGE_BYTES) };
        }
        _ => {
            let field = rng.pick(&NUMBER_FIELDS)(one);
            *field = if rng.one_in(2) { rng.pick(&beside(*field)) } else { rng.pick(&EDGE_NUMBERS) };
        }
    }
    iris_record(&all)
}

/// Formats and versions of other records, and such as are near.
const OTHER_FORMATS: [[u8; 4]; 6] = [*b"FMR\0", *b"FAC\0", *b"IIR ", *b"IRIS", *b"iir\0", *b"\0IIR"];
const OTHER_VERSIONS: [[u8; 4]; 6] = [*b"010\0", *b"0200", *b"020 ", *b" 20\0", *b"030\0", *b"\x00020"];

/// One with another format, version, length, number of representations, certification flag or number of eyes, or a header alone.
fn with_other_header(rng: &mut Rng) -> Vec<u8> {
    let all = representations(rng);
    let (record, count) = (iris_record(&all), all.len() as u16);
    match rng.below(12) {
        0..=4 => records::with_other_front(rng, record, IRIS_HEADER_BYTES, [&OTHER_FORMATS, &OTHER_VERSIONS]),
        5 => around(rng.pick(&[0, 0, 1]), &[]),
        6 | 7 => with_flag_and_eyes(record, rng.pick(&[0, 1, 2, 0x80, 0xFF]), rng.pick(&[1, 2])),
        8 | 9 => with_flag_and_eyes(record, 0, rng.pick(&[0, 1, 2, 3, 4, 0x80, 0xFF])),
        _ => {
            let other = rng.pick(&[0, count - 1, count + 1, 3, count ^ 0x100, u16::MAX]);
            with_bytes(record, 12, &other.to_be_bytes())
        }
    }
}

/// Numbers that are not the length of a representation which stands so far behind the header.
fn other_representation_lengths(right: u32, behind: usize) -> [u32; 15] {
    other_part_lengths(right, LEAST_REPRESENTATION, behind, IRIS_HEADER_BYTES)
}

/// Numbers that are not the length of an image: one off, right in so many bits only, and the largest.
fn other_image_lengths(right: u32) -> [u32; 9] {
    let more = |bit: u32| right + (1 << bit);
    [right.wrapping_sub(1), right + 1, 0, more(8), more(16), more(24), more(31), 1 << 31, u32::MAX]
}

/// How many bytes a representation would have with these two numbers, in a sum of 32 bits.
fn length_by(blocks: u8, image: u32) -> u32 {
    let before = LEAST_REPRESENTATION + QUALITY_BLOCK_BYTES * usize::from(blocks);
    (before as u32).wrapping_add(image)
}

/// One with another length of a representation or of an image, or another number of quality blocks; the others may follow it.
fn with_other_lengths(rng: &mut Rng) -> Vec<u8> {
    let all = representations(rng);
    let which = which(rng, &all);
    let mut out = Vec::new();
    for (i, one) in all.iter().enumerate() {
        let (mut length, mut blocks, mut image) = (one.length(), one.blocks.len() as u8, one.image.len() as u32);
        if i == which {
            match rng.below(3) {
                0 => length = rng.pick(&other_representation_lengths(length, out.len())),
                1 => image = rng.pick(&other_image_lengths(image)),
                _ => blocks = rng.pick(&[blocks.wrapping_sub(1), blocks.wrapping_add(1), 0, 1, 254, 255]),
            }
            if rng.one_in(3) {
                length = length_by(blocks, image);
            }
        }
        out.extend(one.bytes_saying(length, blocks, image));
    }
    around(all.len() as u16, &out)
}

/// Representations with other numbers than 1, then 2, or one more of them than there may be.
fn with_other_numbers(rng: &mut Rng) -> Vec<Representation> {
    let numbers: &[u16] =
        rng.pick(&[&[2][..], &[0], &[1, 1], &[2, 1], &[2, 2], &[1, 3], &[0, 1], &[1, 2, 3], &[1, 2, 2]]);
    numbers.iter().map(|&number| representation(rng, number, 0, 1)).collect()
}

/// One that has more bytes than it may, or as many.
fn too_large(rng: &mut Rng) -> Vec<u8> {
    let more = rng.pick(&[0, 1, 2, 100]);
    let first = representation(rng, 1, 0, SPARE + more);
    if rng.one_in(2) {
        return iris_record(&[first]);
    }
    // the second has all that the first leaves, with the bytes of a header more
    let second = representation(rng, 2, 0, SPARE + IRIS_HEADER_BYTES);
    iris_record(&[first, second])
}

// ---------------------------------------------------------------------------------------------
// Edges

/// The calls on the records at an edge: a check, and for all but the fields of one byte and the days one call more. What comes before
/// the record is judged with it, and so are the records of the other kinds.
pub fn records() -> Vec<Record> {
    let card = |record: &Vec<u8>| iris(100, record, 1);
    let mut out: Vec<Record> = checked_edges().iter().map(|record| check(&card(record))).collect();
    out.extend(records::two_calls(other_edges().iter().map(card)));
    out.extend(records::orders(least(), &broken(), [100, 0xFD], iris).iter().map(check));
    out.extend(headers().iter().map(check));
    out.extend(of_other_kinds());
    out.extend(largest());
    out
}

/// Records that conform and others that nearly do.
pub fn edges() -> Vec<Vec<u8>> {
    [checked_edges(), other_edges()].concat()
}

fn checked_edges() -> Vec<Vec<u8>> {
    [edges_of_bytes(), edges_of_days()].concat()
}

fn other_edges() -> Vec<Vec<u8>> {
    [
        records::with_each_byte(&iris_record(&two())),
        edges_of_header(),
        edges_of_counts(),
        edges_of_times(),
        edges_of_numbers(),
        edges_of_sizes(),
        edges_of_centres(),
        edges_of_diameters(),
        edges_of_blocks(),
        edges_of_lengths(),
        edges_of_image_lengths(),
        edges_of_most(),
        records::with_each_end(&iris_record(&two()), IRIS_HEADER_BYTES),
        edges_of_rubbish(),
    ]
    .concat()
}

/// Two representations with quality blocks and an image.
fn two() -> [Representation; 2] {
    [Representation::plain(1, 2, 3), Representation::plain(2, 1, 2)]
}

/// The record of the two with one of them changed.
fn two_with(which: usize, change: impl Fn(&mut Representation)) -> Vec<u8> {
    let mut both = two();
    change(&mut both[which]);
    iris_record(&both)
}

/// That with the first changed, and with the second.
fn either_with(change: impl Fn(&mut Representation)) -> [Vec<u8>; 2] {
    [two_with(0, &change), two_with(1, &change)]
}

/// Each value of label, image type, image format, properties and bit depth in the last representation; of the properties in the
/// first one too.
fn edges_of_bytes() -> Vec<Vec<u8>> {
    let mut out = Vec::new();
    for value in 0..=255 {
        out.extend(BYTE_FIELDS[5..].iter().map(|field| two_with(1, |one| *field(one) = value)));
        out.push(two_with(0, |one| one.properties = value));
    }
    out
}

/// The years around the first and the last, leap years, and a century that is none.
const YEARS: [u64; 8] = [0, 2010, 2011, 2012, 2100, 2400, 9999, 10_000];

/// Days at an edge, in one representation and in the other by turns.
fn edges_of_days() -> Vec<Vec<u8>> {
    let captured = |(i, (year, month, day))| {
        two_with(i % 2, |one| (one.year, one.month, one.day) = (year as u16, month as u8, day as u8))
    };
    edges_of_years(&YEARS).into_iter().enumerate().map(captured).collect()
}

/// Hours, minutes, seconds and milliseconds around their last ones, and the largest.
fn edges_of_times() -> Vec<Vec<u8>> {
    let mut out = Vec::new();
    for (field, last) in BYTE_FIELDS[2..5].iter().zip([23, 59, 59]) {
        for value in [0, last, last + 1, 0x80, 0xFF] {
            out.extend(either_with(|one| *field(one) = value));
        }
    }
    for milliseconds in [0, 1, 255, 256, 999, 1_000, 1_023, 0x83E7, u16::MAX] {
        out.extend(either_with(|one| one.milliseconds = milliseconds));
    }
    out
}

/// Another length of the record, another number of representations, flag, number of eyes, format and version.
fn edges_of_header() -> Vec<Vec<u8>> {
    let record = iris_record(&two());
    let lengths = other_lengths(record.len() as u32, IRIS_HEADER_BYTES);
    let mut out = lengths.map(|length| saying_length(record.clone(), length)).to_vec();
    let counts = [0, 1, 2, 3, 0x0100, 0x0102, 0x0200, 0x8002, u16::MAX];
    out.extend(counts.map(|count| around(count, &record[IRIS_HEADER_BYTES..])));
    out.extend([0, 1, 2, 0x80, 0xFF].map(|flag| with_flag_and_eyes(record.clone(), flag, 1)));
    for eyes in [0, 1, 2, 3, 4, 0x81, 0x82, 0xFF] {
        out.extend([&record, &least()].map(|record| with_flag_and_eyes(record.clone(), 0, eyes)));
    }
    out.extend(OTHER_FORMATS.map(|format| with_bytes(record.clone(), 0, &format)));
    out.extend(OTHER_VERSIONS.map(|version| with_bytes(record.clone(), 4, &version)));
    out
}

/// No representation to four, and every number of them around that.
fn edges_of_counts() -> Vec<Vec<u8>> {
    let mut out = Vec::new();
    for count in 0..=4 {
        let all: Vec<u8> = (1..=count).flat_map(|number| Representation::plain(number, 0, 1).bytes()).collect();
        out.extend((0..=5).map(|said| around(said, &all)));
    }
    out
}

/// The numbers of one representation, and of two.
fn edges_of_numbers() -> Vec<Vec<u8>> {
    let of = |numbers: &[u16]| {
        iris_record(&numbers.iter().map(|&number| Representation::plain(number, 0, 1)).collect::<Vec<_>>())
    };
    let values = [0, 1, 2, 3, 0x0100, 0x0101, 0x0102, u16::MAX];
    let pairs = values.iter().flat_map(|&first| values.map(|second| [first, second]));
    values.iter().map(|&number| of(&[number])).chain(pairs.map(|pair| of(&pair))).collect()
}

/// Widths and heights around their least and their most, each with the centre of its own.
fn edges_of_sizes() -> Vec<Vec<u8>> {
    let mut out = Vec::new();
    for width in [0, 1, 32, 287, 288, 289, 447, 448, 449, 450, 544, 0x8120, u16::MAX] {
        out.extend(either_with(|one| *one = one.clone().sized(width, 216)));
    }
    for height in [0, 1, 214, 215, 216, 217, 335, 336, 337, 338, 472, 0x80D8, u16::MAX] {
        out.extend(either_with(|one| *one = one.clone().sized(288, height)));
    }
    out
}

/// Sizes that are even and odd.
const SIZES: [(u16, u16); 6] = [(288, 216), (289, 216), (288, 217), (289, 217), (448, 336), (447, 335)];

/// Each of the four numbers of a centre beside the right one, and both of a pair: in their other order, one more and one less.
fn edges_of_centres() -> Vec<Vec<u8>> {
    let mut out = Vec::new();
    for (i, (width, height)) in SIZES.into_iter().enumerate() {
        let mut add = |change: &dyn Fn(&mut [u16; 4])| {
            out.push(two_with(i % 2, |one| {
                *one = one.clone().sized(width, height);
                change(&mut one.centre);
            }))
        };
        add(&|_| ());
        for at in 0..4 {
            (0..6).for_each(|other| add(&|centre| centre[at] = beside(centre[at])[other]));
        }
        for pair in [0, 2] {
            add(&|centre| centre.swap(pair, pair + 1));
            add(&|centre| centre[pair..pair + 2].iter_mut().for_each(|number| *number += 1));
            add(&|centre| centre[pair..pair + 2].iter_mut().for_each(|number| *number -= 1));
            add(&|centre| centre[pair] = centre[pair + 1]);
            add(&|centre| centre[pair + 1] = centre[pair]);
        }
        add(&|centre| centre.rotate_left(2));
    }
    out
}

/// Diameters around their bounds, every lowest one with every highest.
fn edges_of_diameters() -> Vec<Vec<u8>> {
    let mut out = Vec::new();
    for (i, lowest) in [0, 159, 160, 161, 280, 300, 415, u16::MAX].into_iter().enumerate() {
        for (j, highest) in [0, 159, 160, 279, 280, 281, 300, 536, u16::MAX].into_iter().enumerate() {
            out.push(two_with((i + j) % 2, |one| one.diameter = [lowest, highest]));
        }
    }
    out
}

/// As many quality blocks as are said, up to the most; and other numbers of them, with the length that this makes and without.
fn edges_of_blocks() -> Vec<Vec<u8>> {
    let mut out = Vec::new();
    for blocks in [0, 1, 2, 3, 127, 128, 254, 255] {
        out.push(iris_record(&[Representation::plain(1, blocks, 1)]));
        out.push(iris_record(&[Representation::plain(1, blocks, 0), Representation::plain(2, 255 - blocks, 1)]));
    }
    for said in [0, 1, 2, 3, 4, 5, 6, 51, 52, 128, 255] {
        let one = Representation::plain(1, 2, 20);
        let lengths = [one.length(), length_by(said, 20), length_by(said, 0)];
        out.extend(lengths.iter().map(|&length| around(1, &one.bytes_saying(length, said, 20))));
        // the same length, with what the blocks take off the image
        let image = 30_u32.wrapping_sub(5 * u32::from(said));
        out.push(around(1, &one.bytes_saying(one.length(), said, image)));
    }
    out
}

/// Records with a representation that is made with a number: alone, before another one and behind it; and before another one with
/// the number of them that there would be if it took that in.
fn in_each_place(bytes: impl Fn(u16) -> Vec<u8>) -> [Vec<u8>; 4] {
    let other = |number| Representation::plain(number, 0, 0).bytes();
    let pair = [bytes(1), other(2)].concat();
    [around(1, &bytes(1)), around(2, &pair), around(2, &[other(1), bytes(2)].concat()), around(1, &pair)]
}

/// Each number around the right length of a representation, and such as none has.
fn edges_of_lengths() -> Vec<Vec<u8>> {
    let mut out = Vec::new();
    for (blocks, image) in [(0, 0), (1, 8)] {
        let right = Representation::plain(1, blocks, image).length();
        for length in (right - 6..=right + 2).chain(other_representation_lengths(right, 0)) {
            out.extend(in_each_place(|number| {
                Representation::plain(number, blocks, image).bytes_saying(length, blocks as u8, image as u32)
            }));
        }
    }
    out
}

/// Lengths of an image that are not its own: with the length of the representation that this makes, in 32 bits, and without. One of
/// them takes in the representation behind it.
fn edges_of_image_lengths() -> Vec<Vec<u8>> {
    let mut out = Vec::new();
    let around_image = other_image_lengths(3).into_iter().chain([1, 3, 8, 3 + LEAST_REPRESENTATION as u32]);
    // with these a sum of 32 bits is 0, 1 and what the parts have without an image
    let back = [u32::MAX - 51, u32::MAX - 50, u32::MAX - 56, u32::MAX - 55, u32::MAX - 1];
    for image in around_image.chain(back) {
        for follows in [false, true] {
            out.extend(in_each_place(|number| {
                let one = Representation::plain(number, 1, 3);
                one.bytes_saying(if follows { length_by(1, image) } else { one.length() }, 1, image)
            }));
        }
    }
    out
}

/// The record of one representation with so many bytes, of an image or of as many quality blocks as there can be.
fn one_of(length: usize, blocks: usize) -> Vec<u8> {
    iris_record(&[Representation::plain(1, blocks, length - LEAST_RECORD - QUALITY_BLOCK_BYTES * blocks)])
}

/// Two representations whose record has so many bytes. The image of the first has so many of them.
pub fn pair_of(length: usize, first: usize) -> [Representation; 2] {
    let second = length - LEAST_RECORD - LEAST_REPRESENTATION - first;
    [Representation::plain(1, 0, first), Representation::plain(2, 0, second)]
}

/// Records around the most bytes that one representation may have, and two.
fn edges_of_most() -> Vec<Vec<u8>> {
    let mut out = Vec::new();
    for more in 0..4 {
        let (one, both) = (IRIS_MOST_BYTES - 1 + more, 2 * IRIS_MOST_BYTES - 1 + more);
        out.extend([one_of(one, 0), one_of(one, 255), one_of(both, 0)]);
        let all = both - LEAST_RECORD - LEAST_REPRESENTATION;
        let pairs = [pair_of(one, 0), pair_of(one, 3), pair_of(both, 0), pair_of(both, 3_000), pair_of(both, all)];
        out.extend(pairs.map(|pair| iris_record(&pair)));
    }
    out
}

/// What issuers send: a text, a picture alone, the records of the other kinds, and a good header with rubbish behind it.
fn edges_of_rubbish() -> Vec<Vec<u8>> {
    let mut out = vec![b"RUBBISH".to_vec(), EYE.to_vec(), faces::least(), minutiae()];
    out.extend([0x00, 0x20, 0xFF].map(|byte| vec![byte; 300]));
    out.extend([0x00, 0x20, 0xFF].map(|byte| around(1, &[byte; 300])));
    out
}

/// A minutiae record.
fn minutiae() -> Vec<u8> {
    let value = fingers(100, b'0', [3, 5]).rows[0].clone().unwrap_or_default();
    // a byte of signature is behind it
    value[HEADER_BYTES..value.len() - 1].to_vec()
}

/// Records with one fault.
fn broken() -> [Vec<u8>; 3] {
    let label = Representation { label: 3, ..Representation::plain(1, 0, 0) };
    [b"RUBBISH".to_vec(), iris_record(&[label]), least()[..LEAST_RECORD - 1].to_vec()]
}

/// Fields of a CBEFF header with other values: an offset, and bytes that stand there. Of the qualities FE, FF and 64 are good, and of
/// the data type the low bits are free.
const HEADER_FAULTS: [(usize, &[u8]); 47] = [
    (0, &[0x02]),
    (1, &[0x0C]),
    (2, &[0, 0, 0, 0]),
    (2, &[0, 1]),
    (2, &[0x80]),
    (6, &[0, 0]),
    (6, &[0, 2]),
    (8, &[0x00, 0x1B]),
    (8, &[0x01, 0x00]),
    (8, &[0x00, 0x01]),
    (8, &[0x01, 0x02]),
    (10, &[0x02, 0x01]),
    (10, &[0x05, 0x01]),
    (10, &[0x09, 0x00]),
    (10, &[0x01, 0x09]),
    (10, &[0x00, 0x08]),
    (12, &[100]),
    (14, &[13]),
    (15, &[32]),
    (19, &[0x00]),
    (20, &[21]),
    (24, &[24]),
    (28, &[19]),
    (36, &[0, 0, 2]),
    (36, &[0, 0, 8]),
    (36, &[0, 0x10, 0]),
    (36, &[0x10, 0, 0]),
    (36, &[0, 0, 0x11]),
    (39, &[0x20]),
    (39, &[0x80]),
    (39, &[0x5F]),
    (39, &[0x60]),
    (39, &[0xC0]),
    (40, &[0xFD]),
    (40, &[0xFE]),
    (40, &[0xFF]),
    (40, &[0x64]),
    (40, &[0x65]),
    (40, &[0x80]),
    (41, &[0x1F, 0x00]),
    (41, &[0x41; 18]),
    (41, &[0x41, 0x00, 0x1F]),
    (59, &[0x00]),
    (84, &[0x01]),
    (85, &[0x80]),
    (86, &[0x01]),
    (87, &[0xFF]),
];

/// Cards with each of these, before a record and before none.
fn headers() -> Vec<Card> {
    let mut out = Vec::new();
    for record in [least(), b"RUBBISH".to_vec()] {
        out.extend(HEADER_FAULTS.map(|(at, bytes)| {
            let mut card = iris(100, &record, 1);
            card.rows[0] = card.rows[0].take().map(|value| with_bytes(value, at, bytes));
            card
        }));
    }
    out
}

/// Each record in each kind that has a header, and each whole container as one of the others.
fn of_other_kinds() -> Vec<Record> {
    let cards = [fingers(100, b'0', [3, 5]), face(100, &faces::least(), 1), iris(100, &least(), 1)];
    let mut out: Vec<_> = [face(100, &least(), 1), face(100, &minutiae(), 1)].iter().map(check).collect();
    for card in &cards {
        let asked = cards.iter().map(|other| plain(Call::Check, other.kind, card.container()));
        out.extend(asked.map(|record| Record { room: card.sheet().len(), fill: 0xA5, ..record }));
    }
    out
}

/// A BC of so many bytes makes the largest container.
const LARGEST_VALUE: usize = CONTAINER_MAX - 10;

/// Checks and writes of the largest container with the least record and with the largest, of one a byte too large, and of one that
/// hardly fits into a sheet. Each is there again with its last representation broken.
fn largest() -> Vec<Record> {
    let mut out = Vec::new();
    for mut all in [vec![Representation::plain(1, 0, 0)], pair_of(2 * IRIS_MOST_BYTES, 1_000).to_vec()] {
        let good = iris_record(&all);
        all.iter_mut().last().expect("a representation").properties = 0x65;
        for record in [good, iris_record(&all)] {
            for total in [LARGEST_VALUE, LARGEST_VALUE + 1, 65_534] {
                let card = iris(100, &record, total - HEADER_BYTES - record.len());
                out.extend([check(&card), write(&card)]);
            }
        }
    }
    out
}
