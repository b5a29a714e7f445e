//! Facial records for the samples and the generator: as they should be and damaged. The calls on those at an edge are made in every
//! run.

use crate::batch::Record;
use crate::generate::{any_length, Rng};
use crate::records::{self, check, few, other_lengths, other_part_lengths, saying_length, which, with_bytes, write};
use crate::samples::{face, PICTURE};
use crate::values::{
    FACIAL_FORMAT, FACIAL_HEADER_BYTES, FACIAL_INFORMATION_BYTES, FACIAL_VERSION, FEATURE_POINT_BYTES, HEADER_BYTES,
    IMAGE_INFORMATION_BYTES,
};
use crate::CONTAINER_MAX;

/// An image with all that its block has behind the two numbers at the front, which follow from it.
#[derive(Clone)]
pub struct Image {
    /// Behind the number of feature points.
    pub free: [u8; 14],
    pub points: Vec<[u8; FEATURE_POINT_BYTES]>,
    pub image_type: u8,
    pub data_type: u8,
    pub width: u16,
    pub height: u16,
    pub colour_space: u8,
    pub source_type: u8,
    pub device_type: u16,
    pub quality: u16,
    pub pixels: Vec<u8>,
}

/// A block has at least so many bytes, and those of its feature points.
pub const LEAST_BLOCK: usize = FACIAL_INFORMATION_BYTES + IMAGE_INFORMATION_BYTES;

/// A record has at least so many bytes.
pub const LEAST_RECORD: usize = FACIAL_HEADER_BYTES + LEAST_BLOCK;

impl Image {
    /// A good one with so many feature points and so many bytes of pixels.
    pub fn plain(points: usize, pixels: usize) -> Image {
        Image {
            free: [0xEE; 14],
            points: vec![[0xDD; FEATURE_POINT_BYTES]; points],
            image_type: 1,
            data_type: 0,
            width: 240,
            height: 320,
            colour_space: 1,
            source_type: 2,
            device_type: 0,
            quality: 0,
            pixels: vec![0xFF; pixels],
        }
    }

    /// How many bytes its block has.
    fn length(&self) -> u32 {
        (LEAST_BLOCK + FEATURE_POINT_BYTES * self.points.len() + self.pixels.len()) as u32
    }

    /// Its block.
    pub fn block(&self) -> Vec<u8> {
        self.block_saying(self.length(), self.points.len() as u16)
    }

    /// Its block with these two numbers, whether or not they are right: the length, and how many feature points there are.
    pub fn block_saying(&self, length: u32, points: u16) -> Vec<u8> {
        let mut out = length.to_be_bytes().to_vec();
        out.extend(points.to_be_bytes());
        out.extend(self.free);
        out.extend(self.points.concat());
        out.extend([self.image_type, self.data_type]);
        out.extend([self.width.to_be_bytes(), self.height.to_be_bytes()].concat());
        out.extend([self.colour_space, self.source_type]);
        out.extend([self.device_type.to_be_bytes(), self.quality.to_be_bytes()].concat());
        out.extend(&self.pixels);
        out
    }
}

/// The record of these images.
pub fn facial(images: &[Image]) -> Vec<u8> {
    around(images.len() as u16, &images.iter().flat_map(Image::block).collect::<Vec<_>>())
}

/// The record that has these blocks and says that they are of so many images. Its length is right.
pub fn around(images: u16, blocks: &[u8]) -> Vec<u8> {
    let header = records::header(FACIAL_FORMAT, FACIAL_VERSION, FACIAL_HEADER_BYTES + blocks.len(), images);
    [&header, blocks].concat()
}

/// The record of one image without feature points, with so many bytes of pixels.
pub fn with_pixels(bytes: usize) -> Vec<u8> {
    facial(&[Image::plain(0, bytes)])
}

/// The least record.
pub fn least() -> Vec<u8> {
    with_pixels(0)
}

// ---------------------------------------------------------------------------------------------
// Records that conform

/// A record of mostly few images, with few feature points and few pixels.
pub fn record(rng: &mut Rng) -> Vec<u8> {
    facial(&images(rng))
}

fn images(rng: &mut Rng) -> Vec<Image> {
    let count = match rng.below(40) {
        0..=23 => 1,
        24..=31 => 2,
        32..=38 => rng.size(2, 5),
        _ => rng.size(6, 40),
    };
    let mut one = || {
        let points = if rng.one_in(40) { rng.size(0, 300) } else { few(rng) };
        let pixels = any_length(rng, 0, 4_000);
        image(rng, points, pixels)
    };
    (0..count).map(|_| one()).collect()
}

/// A good one in which all that is free is any.
fn image(rng: &mut Rng, points: usize, pixels: usize) -> Image {
    let mut free = [0; 14];
    free.fill_with(|| rng.byte());
    Image {
        free,
        points: (0..points).map(|_| rng.word().to_be_bytes()).collect(),
        image_type: 1,
        data_type: rng.pick(&[0, 1]),
        width: rng.word() as u16,
        height: rng.word() as u16,
        colour_space: 1,
        source_type: rng.pick(&[2, 6]),
        device_type: rng.word() as u16,
        quality: rng.word() as u16,
        pixels: rng.bytes(pixels),
    }
}

/// A record of exactly so many bytes, of which the least has 46, with any number of images and of feature points.
pub fn record_of(rng: &mut Rng, length: usize) -> Vec<u8> {
    let most = (length - FACIAL_HEADER_BYTES) / LEAST_BLOCK;
    let count = match rng.below(8) {
        0 => most,
        1 => rng.size(1, most),
        _ => rng.size(1, most.min(3)),
    };
    let mut left = length - FACIAL_HEADER_BYTES - LEAST_BLOCK * count;
    let mut images = Vec::new();
    for behind in (0..count).rev() {
        // the last image has what the others leave
        let share = if behind == 0 { left } else { rng.size(0, left) };
        let room = share / FEATURE_POINT_BYTES;
        let points = if rng.one_in(4) { rng.size(0, room) } else { few(rng).min(room) };
        images.push(image(rng, points, share - FEATURE_POINT_BYTES * points));
        left -= share;
    }
    facial(&images)
}

// ---------------------------------------------------------------------------------------------
// Damaged ones

/// What is no record, or nearly none.
pub fn damaged(rng: &mut Rng) -> Vec<u8> {
    match rng.below(16) {
        0..=5 => with_other_field(rng),
        6..=8 => with_other_header(rng),
        9..=11 => with_other_block(rng),
        12 => with_torn_block(rng),
        13 | 14 => with_another_end(rng),
        _ => records::rubbish(rng, PICTURE),
    }
}

/// The fields of an image that are examined, in their order.
pub const FIELDS: [fn(&mut Image) -> &mut u8; 4] = [
    |image| &mut image.image_type,
    |image| &mut image.data_type,
    |image| &mut image.colour_space,
    |image| &mut image.source_type,
];

/// One with another value in a field of an image.
fn with_other_field(rng: &mut Rng) -> Vec<u8> {
    let mut images = images(rng);
    let at = which(rng, &images);
    let field = rng.pick(&FIELDS)(&mut images[at]);
    *field = if rng.one_in(4) { rng.byte() } else { rng.pick(&[0, 1, 2, 3, 5, 6, 7, 0xFF]) };
    facial(&images)
}

/// Formats and versions of other records, and such as are near.
const OTHER_FORMATS: [[u8; 4]; 6] = [*b"FMR\0", *b"IIR\0", *b"FAC ", *b"FACE", *b"fac\0", *b"\0FAC"];
const OTHER_VERSIONS: [[u8; 4]; 6] = [*b" 200", *b"020\0", *b"0100", *b"010 ", *b" 10\0", *b"\x00010"];

/// One with another format, version, length or number of images, or a header alone.
fn with_other_header(rng: &mut Rng) -> Vec<u8> {
    let images = images(rng);
    let (record, count) = (facial(&images), images.len() as u16);
    match rng.below(8) {
        0..=4 => records::with_other_front(rng, record, FACIAL_HEADER_BYTES, [&OTHER_FORMATS, &OTHER_VERSIONS]),
        5 => around(rng.pick(&[0, 0, 1]), &[]),
        _ => {
            let other = rng.pick(&[0, count - 1, count + 1, count + 2, count ^ 0x100, u16::MAX]);
            with_bytes(record, 12, &other.to_be_bytes())
        }
    }
}

/// Numbers that are not the length of a block which stands so far behind the header.
fn other_block_lengths(right: u32, behind: usize) -> [u32; 15] {
    other_part_lengths(right, LEAST_BLOCK, behind, FACIAL_HEADER_BYTES)
}

/// Numbers of feature points, around the most that a block of this length has room for: with the others a sum of 16 bits is small,
/// or they are as many as can be said.
fn other_points(right: u16, length: u32) -> [u16; 8] {
    let most = ((length as usize - LEAST_BLOCK) / FEATURE_POINT_BYTES) as u16;
    [most, most + 1, most + 2, right + 1, right.saturating_sub(1), right + 0x2000, right + 0x8000, u16::MAX]
}

/// One with another number at the front of a block.
fn with_other_block(rng: &mut Rng) -> Vec<u8> {
    let images = images(rng);
    let which = which(rng, &images);
    let mut blocks = Vec::new();
    for (i, image) in images.iter().enumerate() {
        let (mut length, mut points) = (image.length(), image.points.len() as u16);
        if i == which && rng.one_in(2) {
            length = rng.pick(&other_block_lengths(length, blocks.len()));
        } else if i == which {
            points = rng.pick(&other_points(points, length));
        }
        blocks.extend(image.block_saying(length, points));
    }
    around(images.len() as u16, &blocks)
}

/// The image's block without so many of its last bytes, which says so.
pub fn torn(image: &Image, short: usize) -> Vec<u8> {
    let length = image.length() as usize - short;
    let mut block = image.block_saying(length as u32, image.points.len() as u16);
    block.truncate(length);
    block
}

/// One whose first image has no pixels and lacks some of its image information too. The last four bytes of that are free.
fn with_torn_block(rng: &mut Rng) -> Vec<u8> {
    let mut images = images(rng);
    images[0].pixels.clear();
    let short = rng.pick(&[1, 2, 3, 4, 5, 8, IMAGE_INFORMATION_BYTES]);
    let others = images[1..].iter().flat_map(Image::block);
    let blocks: Vec<u8> = torn(&images[0], short).into_iter().chain(others).collect();
    around(images.len() as u16, &blocks)
}

/// One with bytes behind its last block, or cut off.
fn with_another_end(rng: &mut Rng) -> Vec<u8> {
    let record = record(rng);
    records::with_another_end(rng, record, FACIAL_HEADER_BYTES, LEAST_BLOCK)
}

// ---------------------------------------------------------------------------------------------
// Edges

/// The calls on the records at an edge: a check, and for all but the fields of an image one call more.
pub fn records() -> Vec<Record> {
    let card = |record: &Vec<u8>| face(100, record, 1);
    let mut out: Vec<Record> = edges_of_fields().iter().map(|record| check(&card(record))).collect();
    out.extend(records::two_calls(other_edges().iter().map(card)));
    // -1 is no quality of a face
    out.extend(records::orders(least(), &broken(), [100, 0xFF], face).iter().map(check));
    out.extend(largest());
    out
}

/// Records that conform and others that nearly do.
pub fn edges() -> Vec<Vec<u8>> {
    [edges_of_fields(), other_edges()].concat()
}

fn other_edges() -> Vec<Vec<u8>> {
    [
        records::with_each_byte(&facial(&two())),
        edges_of_header(),
        edges_of_counts(),
        edges_of_block_lengths(),
        edges_of_points(),
        edges_of_torn_blocks(),
        records::with_each_end(&facial(&two()), FACIAL_HEADER_BYTES),
        edges_of_rubbish(),
    ]
    .concat()
}

/// Two images with feature points and pixels.
fn two() -> [Image; 2] {
    [Image::plain(2, 3), Image::plain(1, 2)]
}

/// Each value in each field of the first and of the last image.
fn edges_of_fields() -> Vec<Vec<u8>> {
    let mut out = Vec::new();
    for which in 0..2 {
        for field in FIELDS {
            out.extend((0..=255).map(|value| {
                let mut images = two();
                *field(&mut images[which]) = value;
                facial(&images)
            }));
        }
    }
    out
}

/// Another length of the record, and another number of images.
fn edges_of_header() -> Vec<Vec<u8>> {
    let record = facial(&two());
    let blocks = &record[FACIAL_HEADER_BYTES..];
    let lengths = other_lengths(record.len() as u32, FACIAL_HEADER_BYTES);
    let mut out = lengths.map(|length| saying_length(record.clone(), length)).to_vec();
    out.extend([0, 1, 2, 3, 0x0100, 0x0102, 0x0200, 0x8002, u16::MAX].map(|images| around(images, blocks)));
    out
}

/// No image to four, with no feature point to three each, and every number of images around that.
fn edges_of_counts() -> Vec<Vec<u8>> {
    let mut out = Vec::new();
    for images in 0..=4 {
        for points in 0..=3 {
            let blocks: Vec<u8> = (0..images).flat_map(|pixels| Image::plain(points, pixels).block()).collect();
            out.extend((0..=6).map(|said| around(said, &blocks)));
        }
    }
    out
}

/// Records with an image whose block has these bytes: alone, before another one and behind it; and before another one with the
/// number of images that there would be if the block took it in.
fn in_each_place(block: &[u8]) -> [Vec<u8>; 4] {
    let other = Image::plain(0, 0).block();
    let pair = [block, &other].concat();
    [around(1, block), around(2, &pair), around(2, &[&other, block].concat()), around(1, &pair)]
}

/// Each number around the least length of a block and around the right one, and such as no block has.
fn edges_of_block_lengths() -> Vec<Vec<u8>> {
    let mut out = Vec::new();
    for points in [0, 1, 3] {
        for pixels in [0, 8] {
            let image = Image::plain(points, pixels);
            let right = image.length();
            for length in (right - 10..=right + 2).chain(other_block_lengths(right, 0)) {
                out.extend(in_each_place(&image.block_saying(length, points as u16)));
            }
        }
    }
    out
}

/// Type, data type, width, height, colour space and source type, again and again, from this offset behind a block's free bytes on.
/// So image information is good at every eighth byte.
fn every_eighth(from: usize) -> impl Iterator<Item = u8> {
    [1, 0, 0, 0, 0, 0, 1, 2].into_iter().cycle().skip(from % 8)
}

/// A block of this length that says so many feature points. The image information is good behind any number of them, so that the
/// length alone decides.
pub fn block_for_any_points(length: usize, points: u16) -> Vec<u8> {
    let mut block = Image::plain(0, 0).block_saying(length as u32, points);
    block.truncate(FACIAL_INFORMATION_BYTES);
    block.into_iter().chain(every_eighth(0)).take(length).collect()
}

/// Numbers of feature points that have room in a block and that have not, alone and before another one, whose free bytes would do.
fn edges_of_points() -> Vec<Vec<u8>> {
    let mut out = Vec::new();
    for length in [32, 33, 36, 39, 40, 41, 47, 48] {
        let mut next = Image::plain(0, 0);
        let goes_on = every_eighth(length + 6 - FACIAL_INFORMATION_BYTES);
        next.free.iter_mut().zip(goes_on).for_each(|(free, byte)| *free = byte);
        for points in (0..=4).chain([0x1FFF, 0x2000, 0x2001, 0x8000, u16::MAX]) {
            let block = block_for_any_points(length, points);
            out.extend([around(1, &block), around(2, &[block, next.block()].concat())]);
        }
    }
    out
}

/// Blocks without pixels that lack some of their image information too, and say so.
fn edges_of_torn_blocks() -> Vec<Vec<u8>> {
    let mut out = Vec::new();
    for points in 0..=2 {
        for short in 1..=IMAGE_INFORMATION_BYTES {
            out.extend(in_each_place(&torn(&Image::plain(points, 0), short)));
        }
    }
    out
}

/// What issuers send: a text, a picture alone, a minutiae record's header, and a good header with rubbish behind it.
fn edges_of_rubbish() -> Vec<Vec<u8>> {
    let mut out = vec![b"RUBBISH".to_vec(), PICTURE.to_vec(), [b"FMR\0 200", &[0; 92][..]].concat()];
    out.extend([0x00, 0x20, 0xFF].map(|byte| vec![byte; 300]));
    out.extend([0x00, 0x20, 0xFF].map(|byte| around(1, &[byte; 300])));
    out
}

/// Records with one fault.
fn broken() -> [Vec<u8>; 3] {
    let source = Image { source_type: 3, ..Image::plain(0, 0) };
    [b"RUBBISH".to_vec(), facial(&[source]), least()[..LEAST_RECORD - 1].to_vec()]
}

/// A BC of so many bytes makes the largest container.
const LARGEST_VALUE: usize = CONTAINER_MAX - 10;

/// Checks and writes of the largest record with one image, of pixels and of feature points, and with as many images as there can
/// be; of one that makes the container a byte too large, and of one that hardly fits into a sheet. Each is there again with its last
/// image broken.
fn largest() -> Vec<Record> {
    let spare = LARGEST_VALUE - HEADER_BYTES - 1 - LEAST_RECORD;
    let mut many = vec![Image::plain(0, 0); 1 + spare / LEAST_BLOCK];
    many[0].pixels = vec![0xFF; spare % LEAST_BLOCK];
    let of_points = Image::plain(spare / FEATURE_POINT_BYTES, spare % FEATURE_POINT_BYTES);
    let ones = [Image::plain(0, spare), of_points, Image::plain(0, spare + 1), Image::plain(8_000, 0)];
    let mut out = Vec::new();
    for mut images in ones.map(|image| vec![image]).into_iter().chain([many]) {
        let good = facial(&images);
        images.iter_mut().last().expect("an image").source_type = 3;
        for record in [good, facial(&images)] {
            let card = face(100, &record, 1);
            out.extend([check(&card), write(&card)]);
        }
    }
    out
}
