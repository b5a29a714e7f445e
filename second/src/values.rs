//! The rules on single values: FASC-N, UUID, dates, policy, text, CBEFF header, minutiae, facial and iris records, certificates.

use crate::{der, number};

// ---------------------------------------------------------------------------------------------
// FASC-N

pub const FASCN_BYTES: usize = 25;

/// First character and number of digits of agency, system, credential, series, issue, person,
/// category, organisation, association.
const FIELDS: [(usize, usize); 9] = [(1, 4), (6, 4), (11, 6), (18, 1), (20, 1), (22, 10), (32, 1), (33, 4), (37, 1)];
const SEPARATORS: [usize; 5] = [5, 10, 17, 19, 21];
const START: u8 = 11;
const SEPARATOR: u8 = 13;
const END: u8 = 15;

const BAD: u8 = 0x80;

/// Whether a digit stands at this one of the forty characters.
pub fn is_digit_place(at: usize) -> bool {
    FIELDS.iter().any(|&(first, digits)| (first..first + digits).contains(&at))
}

/// The value of each five-bit character, or `BAD` where the number of ones is even.
const CHARACTERS: [u8; 32] = character_table();

const fn character_table() -> [u8; 32] {
    let mut table = [BAD; 32];
    let mut code = 0u8;
    while code < 32 {
        if code.count_ones() % 2 == 1 {
            // Four value bits, lowest first, stand before the parity bit.
            table[code as usize] = (code >> 1).reverse_bits() >> 4;
        }
        code += 1;
    }
    table
}

/// The forty values of a conforming FASC-N.
fn fascn_characters(bytes: &[u8]) -> Option<[u8; 40]> {
    if bytes.len() != FASCN_BYTES {
        return None;
    }
    let mut values = [0u8; 40];
    let mut any = 0u8;
    let mut xor = 0u8;
    for (five, eight) in bytes.chunks_exact(5).zip(values.chunks_exact_mut(8)) {
        let bits = five.iter().fold(0u64, |bits, &byte| bits << 8 | u64::from(byte));
        for (i, slot) in eight.iter_mut().enumerate() {
            let value = CHARACTERS[(bits >> (35 - 5 * i)) as usize & 31];
            any |= value;
            xor ^= value;
            *slot = value;
        }
    }
    let good = any & BAD == 0
        && xor == 0
        && values[0] == START
        && values[38] == END
        && SEPARATORS.iter().all(|&at| values[at] == SEPARATOR)
        && FIELDS.iter().all(|&(at, n)| values[at..at + n].iter().all(|&v| v <= 9));
    if good {
        Some(values)
    } else {
        None
    }
}

pub fn is_fascn(bytes: &[u8]) -> bool {
    fascn_characters(bytes).is_some()
}

/// The nine numbers of a FASC-N: agency, system, credential, series, issue, person, category,
/// organisation, association.
pub fn fascn_decode(bytes: &[u8]) -> (u64, [u64; 9]) {
    match fascn_characters(bytes) {
        None => (number::FASCN, [0; 9]),
        Some(values) => {
            let mut numbers = [0u64; 9];
            for (slot, &(at, n)) in numbers.iter_mut().zip(&FIELDS) {
                *slot = values[at..at + n].iter().fold(0, |sum, &v| sum * 10 + u64::from(v));
            }
            (number::DONE, numbers)
        }
    }
}

/// What one of several strings answers: the number, and the nine numbers of a FASC-N. The default is what is behind the last string.
/// It lies as `struct prosianek_decoded` does in C.
#[repr(C)]
#[derive(Clone, Copy, Debug, Default, PartialEq, Eq)]
pub struct Decoded {
    pub number: u64,
    pub numbers: [u64; 9],
}

/// Decodes strings of 25 bytes that follow each other, each as if it were alone, into the entries of a list. Zeros are behind the last
/// of them, or in the whole list after a refusal: 17 for bytes left over, or then 3 for a list that is too short.
pub fn fascn_decode_many(strings: &[u8], list: &mut [Decoded]) -> u64 {
    let strings = strings.chunks_exact(FASCN_BYTES);
    let number = match strings.remainder() {
        [] if strings.len() <= list.len() => number::DONE,
        [] => number::ROOM,
        _ => number::FASCN,
    };
    let count = if number == number::DONE { strings.len() } else { 0 };
    let (entries, behind) = list.split_at_mut(count);
    for (entry, string) in entries.iter_mut().zip(strings) {
        let (number, numbers) = fascn_decode(string);
        *entry = Decoded { number, numbers };
    }
    behind.fill(Decoded::default());
    number
}

/// Packs forty values under 16, each with its parity bit.
pub fn fascn_pack(values: &[u8; 40]) -> [u8; FASCN_BYTES] {
    let mut out = [0u8; FASCN_BYTES];
    for (five, eight) in out.chunks_exact_mut(5).zip(values.chunks_exact(8)) {
        let mut bits = 0u64;
        for &value in eight {
            let low_first = (value & 15).reverse_bits() >> 4;
            let parity = 1 - (value & 15).count_ones() as u64 % 2;
            bits = bits << 5 | u64::from(low_first) << 1 | parity;
        }
        five.copy_from_slice(&bits.to_be_bytes()[3..]);
    }
    out
}

/// The forty values for nine numbers that have few enough digits.
pub fn fascn_values(numbers: &[u64; 9]) -> [u8; 40] {
    let mut values = [0u8; 40];
    values[0] = START;
    values[38] = END;
    for &at in &SEPARATORS {
        values[at] = SEPARATOR;
    }
    for (&number, &(at, n)) in numbers.iter().zip(&FIELDS) {
        let mut rest = number;
        for slot in values[at..at + n].iter_mut().rev() {
            *slot = (rest % 10) as u8;
            rest /= 10;
        }
    }
    values[39] = values[..39].iter().fold(0, |xor, &v| xor ^ v);
    values
}

/// Writes the 25 bytes for nine numbers into the room.
pub fn fascn_encode(numbers: &[u64; 9], room: &mut [u8]) -> u64 {
    room.fill(0);
    let fits = numbers.iter().zip(&FIELDS).all(|(&number, &(_, n))| number < 10u64.pow(n as u32));
    if !fits {
        return number::DIGITS;
    }
    if room.len() < FASCN_BYTES {
        return number::ROOM;
    }
    room[..FASCN_BYTES].copy_from_slice(&fascn_pack(&fascn_values(numbers)));
    number::DONE
}

// ---------------------------------------------------------------------------------------------
// UUID, dates, policy, text

/// Version 1, 4 or 5, variant bits 10; the length (16) is judged before.
pub fn is_uuid(bytes: &[u8]) -> bool {
    matches!(bytes[6] >> 4, 1 | 4 | 5) && bytes[8] >> 6 == 0b10
}

/// The days of a month, counted from 1 to 12.
pub fn days(year: u64, month: u64) -> u64 {
    match month {
        4 | 6 | 9 | 11 => 30,
        2 if year % 4 == 0 && (year % 100 != 0 || year % 400 == 0) => 29,
        2 => 28,
        _ => 31,
    }
}

fn is_calendar_day(year: u64, month: u64, day: u64) -> bool {
    (1..=9999).contains(&year) && (1..=12).contains(&month) && day >= 1 && day <= days(year, month)
}

/// Whether an eight-digit number YYYYMMDD is a date.
pub fn is_date(date: u64) -> bool {
    is_calendar_day(date / 10_000, date / 100 % 100, date % 100)
}

/// The number that ASCII digits make.
pub fn digits(text: &[u8]) -> Option<u64> {
    if text.iter().all(u8::is_ascii_digit) {
        Some(text.iter().fold(0, |sum, &c| sum * 10 + u64::from(c - b'0')))
    } else {
        None
    }
}

/// The number that eight ASCII digits make.
pub fn eight_digits(text: &[u8]) -> Option<u64> {
    if text.len() == 8 {
        digits(text)
    } else {
        None
    }
}

/// A date as eight ASCII digits.
pub fn text_date(text: &[u8]) -> Option<u64> {
    eight_digits(text).filter(|&date| is_date(date))
}

/// An expiry date of a card that is read today: not past, and at most six years ahead.
pub fn is_expiry(text: &[u8], today: u64) -> bool {
    text_date(text).map_or(false, |date| today <= date && date <= today + 60_000)
}

/// The months as a card's face has them.
pub const MONTHS: [[u8; 3]; 12] =
    [*b"JAN", *b"FEB", *b"MAR", *b"APR", *b"MAY", *b"JUN", *b"JUL", *b"AUG", *b"SEP", *b"OCT", *b"NOV", *b"DEC"];

/// A date as a card's face has it, such as 2030JAN31: four digits, three capitals JAN to DEC, two digits, a real date. It may lie
/// in the past. The length (9) is judged before.
pub fn is_printed_date(text: &[u8]) -> bool {
    let month = MONTHS.iter().position(|month| text[4..7] == *month);
    match (digits(&text[..4]), month, digits(&text[7..9])) {
        (Some(year), Some(months_before), Some(day)) => is_calendar_day(year, months_before as u64 + 1, day),
        _ => false,
    }
}

/// The two bytes of the PIN usage policy; the length is judged before.
pub fn is_policy(bytes: &[u8]) -> bool {
    let (first, second) = (bytes[0], bytes[1]);
    let first_good = first & 0x83 == 0 && first & 0x40 != 0 && (first & 0x04 == 0 || first & 0x08 != 0);
    let second_good = if first & 0x20 != 0 { matches!(second, 0x10 | 0x20) } else { second == 0 };
    first_good && second_good
}

fn is_text_byte(byte: u8) -> bool {
    (0x20..=0x7E).contains(&byte)
}

pub fn is_text(bytes: &[u8]) -> bool {
    bytes.iter().all(|&byte| is_text_byte(byte))
}

// ---------------------------------------------------------------------------------------------
// CBEFF header, minutiae, facial and iris records

pub const HEADER_BYTES: usize = 88;
/// Where the FASC-N stands in the header.
pub const HEADER_FASCN: core::ops::Range<usize> = 59..84;

/// 01 says 20 32 30 00; section 9.4.1 of document 004 says 0x20323030 and decides.
pub const MINUTIAE_VERSION: [u8; 4] = [0x20, 0x32, 0x30, 0x30];
pub const MINUTIAE_FORMAT: [u8; 4] = [0x46, 0x4D, 0x52, 0x00];
/// What a minutiae record has before its two views.
pub const MINUTIAE_HEADER_BYTES: usize = 26;
pub const MINUTIA_BYTES: usize = 6;
/// A view has at most so many minutiae.
pub const MINUTIAE_MOST: usize = 128;

/// Section 9.6.1 of document 004. The layout of a facial record is that of INCITS 385.
pub const FACIAL_FORMAT: [u8; 4] = [0x46, 0x41, 0x43, 0x00];
pub const FACIAL_VERSION: [u8; 4] = [0x30, 0x31, 0x30, 0x00];
/// Format, version, record length and number of images.
pub const FACIAL_HEADER_BYTES: usize = 14;
/// What an image has before its feature points: the length of its block, their number, and bytes that are free.
pub const FACIAL_INFORMATION_BYTES: usize = 20;
pub const FEATURE_POINT_BYTES: usize = 8;
/// What it has behind them: type, data type, width, height, colour space, source type, device type and quality. Pixels follow.
pub const IMAGE_INFORMATION_BYTES: usize = 12;

/// Section 9.7 of document 004. The layout of an iris record is that of ISO/IEC 19794-6:2011.
pub const IRIS_FORMAT: [u8; 4] = [0x49, 0x49, 0x52, 0x00];
pub const IRIS_VERSION: [u8; 4] = [0x30, 0x32, 0x30, 0x00];
/// Format, version, record length, number of representations, certification flag and number of eyes.
pub const IRIS_HEADER_BYTES: usize = 16;
/// A record has at most so many bytes for each of its representations.
pub const IRIS_MOST_BYTES: usize = 3_072;
/// What a representation has before its quality blocks: its length, when and with what it was captured, and their number.
pub const CAPTURE_BYTES: usize = 19;
pub const QUALITY_BLOCK_BYTES: usize = 5;
/// What it has behind them: its number, what the image is and how large, and where in it the iris is. The image follows.
pub const IRIS_INFORMATION_BYTES: usize = 33;

/// What differs from one biometric to the other: fields of the header, and the record behind it.
pub struct Format {
    pub owner: [u8; 2],
    pub format: [u8; 2],
    pub biometric_type: [u8; 3],
    /// The top three bits of the data type.
    pub data_type: u8,
    /// Whether a quality of -1 is kept.
    pub minus_one: bool,
    is_record: fn(&[u8]) -> bool,
    /// That of a record that breaks a rule.
    number: u64,
}

pub static FINGERS: Format = Format {
    owner: [0x00, 0x1B],
    format: [0x02, 0x01],
    biometric_type: [0x00, 0x00, 0x08],
    data_type: 0b100,
    minus_one: true,
    is_record: is_minutiae,
    number: number::MINUTIAE,
};

pub static FACE: Format = Format {
    owner: [0x00, 0x1B],
    format: [0x05, 0x01],
    biometric_type: [0x00, 0x00, 0x02],
    data_type: 0b001,
    minus_one: false,
    is_record: is_facial,
    number: number::FACE_RECORD,
};

pub static IRIS: Format = Format {
    owner: [0x01, 0x01],
    format: [0x00, 0x09],
    biometric_type: [0x00, 0x00, 0x10],
    data_type: 0b010,
    minus_one: true,
    is_record: is_iris,
    number: number::IRIS_RECORD,
};

fn two_at(bytes: &[u8], at: usize) -> u16 {
    u16::from_be_bytes([bytes[at], bytes[at + 1]])
}

fn four_at(bytes: &[u8], at: usize) -> u32 {
    u32::from_be_bytes([bytes[at], bytes[at + 1], bytes[at + 2], bytes[at + 3]])
}

/// Hour, minute and second.
fn is_time(bytes: &[u8]) -> bool {
    bytes[0] <= 23 && bytes[1] <= 59 && bytes[2] <= 59
}

/// Century, year, month, day, hour, minute, second, and 5A.
fn is_binary_date(bytes: &[u8]) -> bool {
    bytes[0] <= 99
        && bytes[1] <= 99
        && is_calendar_day(u64::from(bytes[0]) * 100 + u64::from(bytes[1]), u64::from(bytes[2]), u64::from(bytes[3]))
        && is_time(&bytes[4..7])
        && bytes[7] == 0x5A
}

fn is_creator(bytes: &[u8]) -> bool {
    match bytes.iter().position(|&byte| byte == 0) {
        Some(k) => is_text(&bytes[..k]),
        None => false,
    }
}

fn is_quality(byte: u8, minus_one: bool) -> bool {
    let quality = byte as i8;
    (-2..=100).contains(&quality) && (minus_one || quality != -1)
}

/// The rules on the value of BC, which has at least 88 bytes: 0, or 21, 17, and then the number of the format's record.
pub fn biometric(value: &[u8], format: &Format) -> u64 {
    let (header, body) = value.split_at(HEADER_BYTES);
    let data_length = u64::from(four_at(header, 2));
    let signature_length = u64::from(two_at(header, 6));

    let before_fascn = header[0] == 0x03
        && header[1] == 0x0D
        && data_length != 0
        && signature_length != 0
        && data_length + signature_length == body.len() as u64
        && header[8..10] == format.owner
        && header[10..12] == format.format
        && is_binary_date(&header[12..20])
        && is_binary_date(&header[20..28])
        && is_binary_date(&header[28..36])
        && header[20..27] <= header[28..35]
        && header[36..39] == format.biometric_type
        && header[39] >> 5 == format.data_type
        && is_quality(header[40], format.minus_one)
        && is_creator(&header[41..59]);
    if !before_fascn {
        return number::HEADER;
    }
    if !is_fascn(&header[HEADER_FASCN]) {
        return number::FASCN;
    }
    if header[84..88] != [0; 4] {
        return number::HEADER;
    }
    if (format.is_record)(&body[..data_length as usize]) {
        number::DONE
    } else {
        format.number
    }
}

/// The signature block in a value of BC that conforms: it stands behind the header and the data, up to the end.
pub fn signature_of(value: &[u8]) -> &[u8] {
    &value[value.len() - usize::from(two_at(value, 6))..]
}

/// A minutiae record of two views that fills the data part.
fn is_minutiae(record: &[u8]) -> bool {
    if record.len() < MINUTIAE_HEADER_BYTES {
        return false;
    }
    let (header, views) = record.split_at(MINUTIAE_HEADER_BYTES);
    let header_good = header[..4] == MINUTIAE_FORMAT
        && header[4..8] == MINUTIAE_VERSION
        && usize::from(two_at(header, 8)) == record.len()
        && header[20..24] == [0, 197, 0, 197]
        && header[24] == 2
        && header[25] == 0;
    header_good && after_view(views).and_then(after_view).map_or(false, <[u8]>::is_empty)
}

/// What follows a conforming finger view.
fn after_view(bytes: &[u8]) -> Option<&[u8]> {
    if bytes.len() < 6 {
        return None;
    }
    let count = usize::from(bytes[3]);
    let end = 4 + MINUTIA_BYTES * count;
    let good = bytes[0] <= 10
        && matches!(bytes[1], 0x00 | 0x02)
        && matches!(bytes[2], 20 | 40 | 60 | 80 | 100 | 254 | 255)
        && count <= MINUTIAE_MOST
        && bytes.len() >= end + 2
        && bytes[4..end].chunks_exact(MINUTIA_BYTES).all(is_minutia)
        && bytes[end] == 0
        && bytes[end + 1] == 0;
    if good {
        Some(&bytes[end + 2..])
    } else {
        None
    }
}

/// The minutiae of the first view and those of the second, in a value of BC that conforms as FINGERS.
pub fn minutiae_of(value: &[u8]) -> [&[u8]; 2] {
    let (header, body) = value.split_at(HEADER_BYTES);
    let record = &body[..four_at(header, 2) as usize];
    let (first, second_view) = minutiae_and_rest(&record[MINUTIAE_HEADER_BYTES..]);
    let (second, _) = minutiae_and_rest(second_view);
    [first, second]
}

/// The minutiae of a conforming finger view, and what follows the view.
fn minutiae_and_rest(bytes: &[u8]) -> (&[u8], &[u8]) {
    let end = 4 + MINUTIA_BYTES * usize::from(bytes[3]);
    (&bytes[4..end], &bytes[end + 2..])
}

/// Type and x, zero bits and y, angle, quality.
fn is_minutia(m: &[u8]) -> bool {
    m[0] >> 6 != 3 && m[2] >> 6 == 0 && m[4] <= 179 && m[5] <= 100
}

/// A facial record of one image or more that fills the data part.
fn is_facial(record: &[u8]) -> bool {
    if record.len() < FACIAL_HEADER_BYTES {
        return false;
    }
    let (header, blocks) = record.split_at(FACIAL_HEADER_BYTES);
    let images = two_at(header, 12);
    let header_good = header[..4] == FACIAL_FORMAT
        && header[4..8] == FACIAL_VERSION
        && four_at(header, 8) as usize == record.len()
        && images >= 1;
    header_good && (0..images).try_fold(blocks, |rest, _| after_image(rest)).map_or(false, <[u8]>::is_empty)
}

/// What follows the block of a conforming image. Section 9.6.2 of document 004 names four of its fields, and all others are free.
fn after_image(bytes: &[u8]) -> Option<&[u8]> {
    if bytes.len() < FACIAL_INFORMATION_BYTES {
        return None;
    }
    let block_length = four_at(bytes, 0) as usize;
    let points = usize::from(two_at(bytes, 4));
    let image_at = FACIAL_INFORMATION_BYTES + FEATURE_POINT_BYTES * points;
    let pixels_at = image_at + IMAGE_INFORMATION_BYTES;
    if block_length < pixels_at || block_length > bytes.len() {
        return None;
    }
    let image = &bytes[image_at..pixels_at];
    let good = image[0] == 1 && matches!(image[1], 0 | 1) && image[6] == 1 && matches!(image[7], 2 | 6);
    if good {
        Some(&bytes[block_length..])
    } else {
        None
    }
}

/// An iris record of one representation or two that fills the data part.
fn is_iris(record: &[u8]) -> bool {
    if record.len() < IRIS_HEADER_BYTES {
        return false;
    }
    let (header, representations) = record.split_at(IRIS_HEADER_BYTES);
    let count = two_at(header, 12);
    let header_good = header[..4] == IRIS_FORMAT
        && header[4..8] == IRIS_VERSION
        && four_at(header, 8) as usize == record.len()
        && matches!(count, 1 | 2)
        && record.len() <= IRIS_MOST_BYTES * usize::from(count)
        && header[14] == 0
        && matches!(header[15], 1 | 2);
    header_good && (1..=count).try_fold(representations, after_representation).map_or(false, <[u8]>::is_empty)
}

/// What follows a conforming representation with this number. Its length is what its parts make.
fn after_representation(bytes: &[u8], number: u16) -> Option<&[u8]> {
    if bytes.len() < CAPTURE_BYTES {
        return None;
    }
    let (capture, rest) = bytes.split_at(CAPTURE_BYTES);
    let blocks = QUALITY_BLOCK_BYTES * usize::from(capture[18]);
    let information = rest.get(blocks..blocks + IRIS_INFORMATION_BYTES)?;
    let image_at = CAPTURE_BYTES + blocks + IRIS_INFORMATION_BYTES;
    let length = image_at as u64 + u64::from(four_at(information, 29));
    let good = u64::from(four_at(capture, 0)) == length
        && length <= bytes.len() as u64
        && is_capture_date(&capture[4..13])
        && two_at(information, 0) == number
        && is_iris_information(information);
    if good {
        Some(&bytes[length as usize..])
    } else {
        None
    }
}

/// Year, month, day, hour, minute, second and milliseconds: a real date, from 2011 on.
fn is_capture_date(bytes: &[u8]) -> bool {
    let year = u64::from(two_at(bytes, 0));
    year >= 2011
        && is_calendar_day(year, u64::from(bytes[2]), u64::from(bytes[3]))
        && is_time(&bytes[4..7])
        && two_at(bytes, 7) <= 999
}

/// Behind the number: label, image type, image format, properties, width, height, bit depth, six bytes that are free, the centre's
/// lowest and highest X and Y, and the lowest and the highest diameter, each with a bound of its own.
fn is_iris_information(information: &[u8]) -> bool {
    let (width, height) = (two_at(information, 6), two_at(information, 8));
    matches!(information[2], 1 | 2)
        && information[3] == 7
        && information[4] == 10
        && matches!(information[5], 0x55 | 0x56 | 0x59 | 0x5A)
        && (288..=448).contains(&width)
        && (216..=336).contains(&height)
        && information[10] == 8
        && is_centre(&information[17..21], width)
        && is_centre(&information[21..25], height)
        && two_at(information, 25) >= 160
        && two_at(information, 27) <= 280
}

/// The lowest and the highest centre of a size: the two numbers in the middle, or the one there is twice if the size is odd.
fn is_centre(bytes: &[u8], size: u16) -> bool {
    two_at(bytes, 0) == (size + 1) / 2 && two_at(bytes, 2) == size / 2 + 1
}

// ---------------------------------------------------------------------------------------------
// Certificates

/// A certificate has at most this many levels of items, the outermost counted.
pub const CERTIFICATE_LEVELS: usize = 8;

const SEQUENCE: u8 = 0x30;

/// The rules on the value of 70: 0, or 24, 25. That it is a SEQUENCE of three parts is judged after all parts.
pub fn certificate(value: &[u8]) -> u64 {
    match der::whole(value, CERTIFICATE_LEVELS) {
        Err(der::Fault::Depth) => number::TOO_DEEP,
        Err(der::Fault::Item) => number::DER,
        Ok(item) if item.tag == SEQUENCE && item.parts == 3 => number::DONE,
        Ok(_) => number::DER,
    }
}
