//! A deterministic generator of conforming and damaged inputs.

use crate::batch::{Call, Record, BYTES_MAX, ROOM_MAX};
use crate::card::{self, all_kinds, Rule, LAST_KIND, ROWS_MAX};
use crate::folder::Seen;
use crate::values::{self, fascn_encode, fascn_pack, fascn_values, is_date, Format, FACE, FINGERS, IRIS};
use crate::{dates, faces, faults, fingers, folders, irises, lengths, longest, pairs, smears, strings, trees};
use crate::{CONTAINER_MAX, NO_TAG, REPORT_MAX, SHEET_ROOM};

/// splitmix64.
pub struct Rng(u64);

impl Rng {
    pub fn new(seed: u64) -> Rng {
        Rng(seed)
    }

    pub fn word(&mut self) -> u64 {
        self.0 = self.0.wrapping_add(0x9E37_79B9_7F4A_7C15);
        let mut z = self.0;
        z = (z ^ (z >> 30)).wrapping_mul(0xBF58_476D_1CE4_E5B9);
        z = (z ^ (z >> 27)).wrapping_mul(0x94D0_49BB_1331_11EB);
        z ^ (z >> 31)
    }

    /// A number under `n`.
    pub fn below(&mut self, n: u64) -> u64 {
        ((u128::from(self.word()) * u128::from(n)) >> 64) as u64
    }

    /// A size from `low` to `high`, both included.
    pub fn size(&mut self, low: usize, high: usize) -> usize {
        low + self.below((high - low + 1) as u64) as usize
    }

    pub fn one_in(&mut self, n: u64) -> bool {
        self.below(n) == 0
    }

    pub fn pick<T: Copy>(&mut self, from: &[T]) -> T {
        from[self.below(from.len() as u64) as usize]
    }

    pub fn byte(&mut self) -> u8 {
        self.word() as u8
    }

    pub fn bytes(&mut self, n: usize) -> Vec<u8> {
        (0..n).map(|_| self.byte()).collect()
    }

    pub fn text(&mut self, n: usize) -> Vec<u8> {
        (0..n).map(|_| if self.one_in(12) { self.pick(&[0x20, 0x7E]) } else { self.size(0x20, 0x7E) as u8 }).collect()
    }
}

// ---------------------------------------------------------------------------------------------
// The forms of lengths

/// How a length is written.
#[derive(Clone, Copy, Debug, PartialEq, Eq)]
pub enum Form {
    Fewest,
    /// So many zeros in front of the fewest bytes, as far as 84 has room for them; none if the length is under 128. A container
    /// may have its lengths in each of these forms.
    Padded(usize),
    /// One byte, the length modulo 128.
    Short,
    /// So many bytes behind the first, whether or not fewer would do or more are needed. Eight are the most.
    Long(usize),
    /// This byte and none after it.
    Raw(u8),
}

/// The longest form, 84, has so many bytes behind the first.
pub const LONGEST_FORM: usize = 4;

/// How many bytes a length has behind its first one, in the fewest bytes.
pub fn fewest(length: usize) -> usize {
    match length {
        0..=0x7F => 0,
        0x80..=0xFF => 1,
        0x100..=0xFFFF => 2,
        0x1_0000..=0xFF_FFFF => 3,
        _ => 4,
    }
}

/// Writes a length, so much larger than the right one, in this form.
pub fn put_length(out: &mut Vec<u8>, length: usize, delta: i64, form: Form) {
    let length = (length as i64 + delta).max(0) as usize;
    let bytes = match (form, fewest(length)) {
        (Form::Raw(byte), _) => return out.push(byte),
        (Form::Long(bytes), _) => bytes,
        (Form::Short, _) | (_, 0) => return out.push(length as u8 & 0x7F),
        (Form::Fewest, fewest) => fewest,
        (Form::Padded(zeros), fewest) => (fewest + zeros).min(LONGEST_FORM),
    };
    out.push(0x80 + bytes as u8);
    out.extend(&(length as u64).to_be_bytes()[8 - bytes..]);
}

/// How the lengths of a container are written: the outer one, and that of each row.
#[derive(Clone, Debug)]
pub struct Forms {
    pub outer: Form,
    pub rows: [Form; ROWS_MAX],
}

impl Forms {
    pub fn all(form: Form) -> Forms {
        Forms { outer: form, rows: [form; ROWS_MAX] }
    }

    /// Each length in a form that a container may have, mostly in a longer one than it needs.
    pub fn mixed(rng: &mut Rng) -> Forms {
        let mut forms = Forms::all(padded(rng));
        forms.rows.fill_with(|| padded(rng));
        forms
    }
}

fn padded(rng: &mut Rng) -> Form {
    Form::Padded(rng.size(0, LONGEST_FORM - 1))
}

// ---------------------------------------------------------------------------------------------
// Conforming values

/// A card's values by row of its kind's table; `None` for an absent element.
#[derive(Clone)]
pub struct Card {
    pub kind: u64,
    pub today: u64,
    pub rows: Vec<Option<Vec<u8>>>,
}

impl Card {
    fn table(&self) -> &'static [card::Row] {
        card::kind_of(self.kind).expect("a card has a kind").rows
    }

    fn loose(&self, forms: &Forms) -> Loose {
        let rows = self.table().iter().zip(&forms.rows).zip(&self.rows);
        let items = rows
            .filter_map(|((row, &form), value)| Some(Item { tag: row.tag, form, delta: 0, value: value.clone()? }))
            .collect();
        Loose {
            outer: if self.kind == 3 { 0x7E } else { 0x53 },
            form: forms.outer,
            delta: 0,
            items,
            cut: 0,
            content_tail: Vec::new(),
            tail: Vec::new(),
        }
    }

    /// The container, each length in the fewest bytes.
    pub fn container(&self) -> Vec<u8> {
        self.container_in(&Forms::all(Form::Fewest))
    }

    /// The container with its lengths in these forms.
    pub fn container_in(&self, forms: &Forms) -> Vec<u8> {
        self.loose(forms).bytes()
    }

    pub fn sheet(&self) -> Vec<u8> {
        let mut out = Vec::new();
        for value in &self.rows {
            match value {
                None => out.extend([0, 0]),
                Some(value) => {
                    out.extend((value.len() as u16 + 1).to_be_bytes());
                    out.extend(value);
                }
            }
        }
        out
    }
}

const LIMITS: [u64; 9] = [10_000, 10_000, 1_000_000, 10, 10, 10_000_000_000, 10, 10_000, 10];

pub fn fascn_numbers(rng: &mut Rng) -> [u64; 9] {
    let mut numbers = [0; 9];
    for (number, &limit) in numbers.iter_mut().zip(&LIMITS) {
        *number = match rng.below(8) {
            0 => 0,
            1 => limit - 1,
            2 => rng.below(10),
            _ => rng.below(limit),
        };
    }
    numbers
}

pub fn fascn(rng: &mut Rng) -> Vec<u8> {
    let mut out = vec![0; 25];
    let numbers = if rng.one_in(16) { [0; 9] } else { fascn_numbers(rng) };
    fascn_encode(&numbers, &mut out);
    out
}

fn uuid(rng: &mut Rng) -> Vec<u8> {
    let mut out = rng.bytes(16);
    out[6] = rng.pick(&[0x10, 0x40, 0x50]) | out[6] & 15;
    out[8] = 0x80 | out[8] & 0x3F;
    out
}

/// The first year and the last, leap years, years beside them, and centuries.
pub const YEARS: [u64; 20] =
    [1, 4, 99, 100, 400, 1600, 1700, 1900, 1999, 2000, 2023, 2024, 2026, 2028, 2099, 2100, 2400, 9993, 9996, 9999];

/// A date, often at a month's end.
pub fn date(rng: &mut Rng) -> u64 {
    loop {
        let year = match rng.below(4) {
            0 => rng.pick(&YEARS),
            1 => 1 + rng.below(9999),
            _ => 2000 + rng.below(60),
        };
        let day = match rng.below(3) {
            0 => rng.pick(&[1, 28, 29, 30, 31]),
            _ => 1 + rng.below(31),
        };
        let month = if rng.one_in(4) { 2 } else { 1 + rng.below(12) };
        let date = year * 10_000 + month * 100 + day;
        if is_date(date) {
            return date;
        }
    }
}

/// An eight-digit number that is a date or nearly one.
fn nearly_date(rng: &mut Rng) -> u64 {
    let year = match rng.below(8) {
        0 => 0,
        1 => rng.below(10_000),
        _ => rng.pick(&YEARS),
    };
    let month = if rng.one_in(2) { rng.pick(&[0, 1, 2, 2, 2, 4, 12, 13, 99]) } else { rng.below(14) };
    let day = if rng.one_in(3) { rng.below(40) } else { rng.pick(&[0, 1, 28, 29, 30, 31, 32]) };
    year * 10_000 + month * 100 + day
}

pub fn today(rng: &mut Rng) -> u64 {
    match rng.below(12) {
        0..=4 => 20260301,
        5 => rng.pick(&[10101, 99991231, 20240229, 20000229, 99931231, 99940101, 20251231, 20260101]),
        _ => date(rng),
    }
}

/// A date, or another number, as eight digits.
pub fn eight(number: u64) -> Vec<u8> {
    format!("{:08}", number).into_bytes()
}

/// A date in the window of `today`.
fn expiry(rng: &mut Rng, today: u64) -> u64 {
    loop {
        let date = match rng.below(8) {
            0 => today,
            1 => today + 60_000,
            2 => today + rng.below(40),
            3 => today + 59_900 + rng.below(101),
            _ => today + rng.below(60_001),
        };
        if is_date(date) {
            return date;
        }
    }
}

fn binary_date(rng: &mut Rng) -> [u8; 8] {
    let day = date(rng);
    [
        (day / 1_000_000) as u8,
        (day / 10_000 % 100) as u8,
        (day / 100 % 100) as u8,
        (day % 100) as u8,
        if rng.one_in(4) { rng.pick(&[0, 23]) } else { rng.below(24) as u8 },
        if rng.one_in(4) { rng.pick(&[0, 59]) } else { rng.below(60) as u8 },
        if rng.one_in(4) { rng.pick(&[0, 59]) } else { rng.below(60) as u8 },
        0x5A,
    ]
}

fn creator(rng: &mut Rng) -> Vec<u8> {
    let k = if rng.one_in(3) { rng.pick(&[0, 1, 16, 17]) } else { rng.size(0, 17) };
    let mut out = rng.text(k);
    out.push(0);
    while out.len() < 18 {
        out.push(if rng.one_in(3) { rng.byte() } else { 0 });
    }
    out
}

/// A value of BC with these data bytes and a signature of `signature` bytes.
fn biometric(rng: &mut Rng, format: &Format, data: &[u8], signature: usize) -> Vec<u8> {
    let mut out = vec![0x03, 0x0D];
    out.extend((data.len() as u32).to_be_bytes());
    out.extend((signature as u16).to_be_bytes());
    out.extend([format.owner, format.format].concat());
    out.extend(binary_date(rng));
    let (one, other) = (binary_date(rng), binary_date(rng));
    out.extend(one.min(other));
    out.extend(if rng.one_in(8) { one.min(other) } else { one.max(other) });
    out.extend(format.biometric_type);
    out.push(format.data_type << 5 | rng.byte() & 31);
    let qualities: &[u8] = if format.minus_one { &[0xFE, 0xFF, 0, 1, 99, 100] } else { &[0xFE, 0, 1, 99, 100] };
    out.push(if rng.one_in(2) { rng.pick(qualities) } else { rng.below(101) as u8 });
    out.extend(creator(rng));
    out.extend(fascn(rng));
    out.extend([0; 4]);
    out.extend(data);
    out.extend(rng.bytes(signature));
    out
}

/// A number of 14 bits.
fn fourteen_bits(rng: &mut Rng) -> u16 {
    if rng.one_in(6) {
        rng.pick(&[0, 0x3FFF])
    } else {
        rng.word() as u16 & 0x3FFF
    }
}

fn minutia(rng: &mut Rng, out: &mut Vec<u8>) {
    out.extend(((rng.below(3) as u16) << 14 | fourteen_bits(rng)).to_be_bytes());
    out.extend(fourteen_bits(rng).to_be_bytes());
    out.push(if rng.one_in(6) { rng.pick(&[0, 179]) } else { rng.below(180) as u8 });
    out.push(if rng.one_in(6) { rng.pick(&[0, 100]) } else { rng.below(101) as u8 });
}

/// A minutiae record; conforming if both counts are at most 128.
pub fn minutiae(rng: &mut Rng, counts: [usize; 2]) -> Vec<u8> {
    let mut out = vec![0x46, 0x4D, 0x52, 0x00];
    out.extend(values::MINUTIAE_VERSION);
    out.extend(((38 + 6 * (counts[0] + counts[1])) as u16).to_be_bytes());
    out.extend(rng.bytes(10));
    out.extend([0, 197, 0, 197, 2, 0]);
    for &count in &counts {
        out.push(rng.below(11) as u8);
        out.push(rng.pick(&[0, 2]));
        out.push(rng.pick(&[20, 40, 60, 80, 100, 254, 255]));
        out.push(count as u8);
        for _ in 0..count {
            minutia(rng, &mut out);
        }
        out.extend([0, 0]);
    }
    out
}

/// A minutiae record of exactly so many bytes, of which there are those of whole minutiae.
fn minutiae_of(rng: &mut Rng, length: usize) -> Vec<u8> {
    let points = (length - 38) / 6;
    let first = rng.size(points.saturating_sub(128), points.min(128));
    minutiae(rng, [first, points - first])
}

fn minutiae_count(rng: &mut Rng) -> usize {
    match rng.below(40) {
        0..=11 => 0,
        12..=29 => rng.size(1, 3),
        30..=36 => rng.size(0, 12),
        37 | 38 => rng.size(0, 128),
        _ => rng.size(127, 128),
    }
}

/// A length of mostly few bytes, at times one where the length form changes, rarely a long one.
pub fn any_length(rng: &mut Rng, low: usize, high: usize) -> usize {
    let n = match rng.below(200) {
        0..=23 => low,
        24..=38 => rng.pick(&[127, 128, 129, 255, 256, 257]),
        39 => rng.size(0, 3000),
        _ => rng.size(0, 40),
    };
    n.max(low).min(high)
}

fn up_to(rng: &mut Rng, high: usize) -> usize {
    match rng.below(10) {
        0 | 1 => 0,
        2 => high,
        _ => rng.size(0, high),
    }
}

/// A conforming card of the kind, for a day of its own.
pub fn conforming(rng: &mut Rng, kind: u64) -> Card {
    let today = today(rng);
    conforming_on(rng, kind, today)
}

pub fn conforming_on(rng: &mut Rng, kind: u64, today: u64) -> Card {
    let table = card::kind_of(kind).expect("a kind").rows;
    let mut rows = Vec::new();
    for row in table {
        if row.optional && rng.one_in(2) {
            rows.push(None);
            continue;
        }
        let length = if row.longest > 2_000 {
            any_length(rng, 0, 4_000)
        } else if row.longest > 200 {
            if rng.one_in(12) {
                rng.pick(&[row.longest, row.longest - 1, 255, 256])
            } else {
                any_length(rng, 0, row.longest)
            }
        } else if row.or_empty {
            rng.pick(&[0, row.longest])
        } else if row.shortest == row.longest {
            row.longest
        } else {
            up_to(rng, row.longest)
        };
        rows.push(Some(match row.rule {
            Rule::Any => rng.bytes(length),
            Rule::Exactly(bytes) => bytes.to_vec(),
            Rule::Fascn => fascn(rng),
            Rule::Uuid => uuid(rng),
            Rule::Expiry => eight(expiry(rng, today)),
            Rule::PrintedDate => dates::printed(rng),
            Rule::Policy => policy(rng),
            Rule::Text => rng.text(length),
            Rule::Fingers => {
                let counts = [minutiae_count(rng), minutiae_count(rng)];
                let data = minutiae(rng, counts);
                signed(rng, &FINGERS, &data)
            }
            Rule::Face => {
                let data = faces::record(rng);
                signed(rng, &FACE, &data)
            }
            Rule::Iris => {
                let data = irises::record(rng);
                signed(rng, &IRIS, &data)
            }
            Rule::Certificate => trees::certificate(rng),
        }));
    }
    Card { kind, today, rows }
}

/// A value of BC with these data bytes and a signature of any length.
pub fn signed(rng: &mut Rng, format: &Format, data: &[u8]) -> Vec<u8> {
    let signature = any_length(rng, 1, 4_000);
    biometric(rng, format, data, signature)
}

fn policy(rng: &mut Rng) -> Vec<u8> {
    let first = rng.pick(&[0x40, 0x48, 0x4C, 0x50, 0x58, 0x5C, 0x60, 0x68, 0x6C, 0x70, 0x78, 0x7C]);
    let second = if first & 0x20 != 0 { rng.pick(&[0x10, 0x20]) } else { 0 };
    vec![first, second]
}

/// The kind's row that has no longest value, if there is one.
pub fn endless_row(kind: u64) -> Option<usize> {
    card::kind_of(kind)?.rows.iter().position(|row| row.longest > CONTAINER_MAX)
}

/// The kinds whose containers can be of any size from some hundred bytes on.
pub fn endless_kinds() -> Vec<u64> {
    all_kinds().filter(|&kind| endless_row(kind).is_some()).collect()
}

/// The kinds that hold a certificate. They have one table.
pub fn certificate_kinds() -> Vec<u64> {
    let first_rule = |kind| card::kind_of(kind).map(|kind| kind.rows[0].rule);
    all_kinds().filter(|&kind| first_rule(kind) == Some(Rule::Certificate)).collect()
}

/// A conforming value of exactly so many bytes for a row that can be long, if there is one.
pub fn value_of(rng: &mut Rng, rule: Rule, length: usize) -> Option<Vec<u8>> {
    let body = length.saturating_sub(values::HEADER_BYTES);
    Some(match rule {
        Rule::Fingers => {
            let counts = [minutiae_count(rng), minutiae_count(rng)];
            let record = minutiae(rng, counts);
            let data = if record.len() < body { record } else { minutiae(rng, [0, 0]) };
            // a byte of signature at least
            let signature = body.checked_sub(data.len()).filter(|&signature| signature > 0)?;
            biometric(rng, &FINGERS, &data, signature)
        }
        Rule::Face => {
            // what is left by the least record and a byte of signature
            let spare = body.checked_sub(faces::LEAST_RECORD + 1)?;
            let signature = 1 + rng.size(0, spare.min(20_000));
            let data = faces::record_of(rng, body - signature);
            biometric(rng, &FACE, &data, signature)
        }
        Rule::Iris => {
            let spare = body.checked_sub(irises::LEAST_RECORD + 1)?;
            let more = rng.size(0, spare.min(2 * values::IRIS_MOST_BYTES - irises::LEAST_RECORD));
            let data = irises::record_of(rng, irises::LEAST_RECORD + more);
            biometric(rng, &IRIS, &data, body - data.len())
        }
        Rule::Certificate => trees::certificate_of(rng, length)?,
        _ => rng.bytes(length),
    })
}

/// The kind's row that can have a length that is no longer written in one byte, if there is one.
pub fn long_row(kind: u64) -> Option<usize> {
    card::kind_of(kind)?.rows.iter().position(|row| row.permits(128))
}

/// A card whose long row, where its kind has one, has so many bytes, or as many as it may.
pub fn lengthened(rng: &mut Rng, mut card: Card, length: usize) -> Card {
    if let Some(at) = long_row(card.kind) {
        let row = &card.table()[at];
        if let Some(value) = value_of(rng, row.rule, length.min(row.longest)) {
            card.rows[at] = Some(value);
        }
    }
    card
}

/// A card of an endless kind whose container has exactly `total` bytes in these forms, 4,000 or more.
pub fn conforming_of_size(rng: &mut Rng, kind: u64, total: usize, forms: &Forms) -> Card {
    let mut card = conforming(rng, kind);
    let row = endless_row(kind).expect("a kind with a row that can be long");
    // with 2,000 bytes, and later with more, a length has as many bytes
    card.rows[row] = Some(vec![0; 2_000]);
    let length = 2_000 + total - card.container_in(forms).len();
    card.rows[row] = value_of(rng, card.table()[row].rule, length);
    assert!(card.rows[row].is_some(), "a value of {} bytes", length);
    card
}

/// A card with the same tags, lengths, day and open values; all personal bytes are new.
pub fn personal_twin(rng: &mut Rng, card: &Card) -> Card {
    let mut twin = card.clone();
    let table = card.table();
    for (row, slot) in table.iter().zip(twin.rows.iter_mut()) {
        let value = match slot {
            None => continue,
            Some(value) => value,
        };
        match row.rule {
            Rule::Any => *value = rng.bytes(value.len()),
            Rule::Uuid => *value = uuid(rng),
            Rule::PrintedDate => *value = dates::printed(rng),
            Rule::Text if row.tag != 0x06 => *value = rng.text(value.len()),
            Rule::Fascn => *value = fascn_twin(rng, value),
            Rule::Fingers => *value = biometric_twin(rng, &FINGERS, value, minutiae_of),
            Rule::Face => *value = biometric_twin(rng, &FACE, value, faces::record_of),
            Rule::Iris => *value = biometric_twin(rng, &IRIS, value, irises::record_of),
            Rule::Certificate => *value = trees::twin(rng, value),
            Rule::Exactly(_) | Rule::Expiry | Rule::Policy | Rule::Text => (),
        }
    }
    twin
}

/// A value of BC with the same lengths, agency and system, and with another record of its length, as `record` makes it.
fn biometric_twin(rng: &mut Rng, format: &Format, value: &[u8], record: fn(&mut Rng, usize) -> Vec<u8>) -> Vec<u8> {
    let data_length = u32::from_be_bytes([value[2], value[3], value[4], value[5]]) as usize;
    let data = record(rng, data_length);
    let fascn = fascn_twin(rng, &value[values::HEADER_FASCN]);
    let mut twin = biometric(rng, format, &data, value.len() - 88 - data_length);
    twin[values::HEADER_FASCN].copy_from_slice(&fascn);
    twin
}

fn fascn_twin(rng: &mut Rng, bytes: &[u8]) -> Vec<u8> {
    let (_, old) = values::fascn_decode(bytes);
    let mut numbers = fascn_numbers(rng);
    numbers[0] = old[0];
    numbers[1] = old[1];
    let mut out = vec![0; 25];
    fascn_encode(&numbers, &mut out);
    out
}

// ---------------------------------------------------------------------------------------------
// Damage to values

pub fn flip_bit(rng: &mut Rng, bytes: &mut [u8]) {
    if !bytes.is_empty() {
        let at = rng.below(bytes.len() as u64 * 8) as usize;
        turn_bit(bytes, at);
    }
}

/// Turns one bit. They are counted in the order of the bytes, the most significant one of each byte first.
pub fn turn_bit(bytes: &mut [u8], at: usize) {
    bytes[at / 8] ^= 0x80 >> (at % 8);
}

pub fn damage_fascn(rng: &mut Rng, bytes: &mut [u8]) {
    if rng.one_in(8) {
        return smears::damage(rng, bytes);
    }
    let numbers = fascn_numbers(rng);
    let mut characters = fascn_values(&numbers);
    match rng.below(10) {
        0 | 1 => flip_bit(rng, bytes),
        2 => {
            flip_bit(rng, bytes);
            flip_bit(rng, bytes);
        }
        3 => bytes.fill(rng.pick(&[0x00, 0xFF, 0x84, 0x21])),
        4 => bytes.copy_from_slice(&fascn_pack(&characters)),
        5 => {
            // The check character alone, with good parity.
            characters[39] ^= rng.pick(&[1, 2, 4, 8, 15]);
            bytes.copy_from_slice(&fascn_pack(&characters));
        }
        6 => {
            // Two bits of one character, so that its parity stays good.
            let character = rng.size(0, 39);
            for _ in 0..2 {
                turn_bit(bytes, 5 * character + rng.size(0, 4));
            }
        }
        _ => {
            // Any character with good parity, and mostly a check that fits.
            let at = if rng.one_in(2) { rng.pick(&[0, 5, 10, 17, 19, 21, 38]) } else { rng.size(0, 38) };
            characters[at] = if rng.one_in(2) { rng.size(9, 15) as u8 } else { rng.size(0, 15) as u8 };
            if !rng.one_in(4) {
                characters[39] = characters[..39].iter().fold(0, |xor, &v| xor ^ v);
            }
            bytes.copy_from_slice(&fascn_pack(&characters));
        }
    }
}

fn damage_uuid(rng: &mut Rng, bytes: &mut [u8]) {
    if bytes.len() != 16 {
        return;
    }
    match rng.below(5) {
        0 | 1 => bytes[6] = (rng.below(16) as u8) << 4 | bytes[6] & 15,
        2 => bytes[8] = rng.pick(&[0x00, 0x3F, 0x40, 0x7F, 0x80, 0xBF, 0xC0, 0xFF]),
        3 => bytes.fill(rng.pick(&[0x00, 0xFF])),
        _ => flip_bit(rng, &mut bytes[6..9]),
    }
}

/// Puts another byte in the place of one digit, or another digit.
pub fn damage_digits(rng: &mut Rng, bytes: &mut [u8]) {
    if !bytes.is_empty() {
        let at = rng.below(bytes.len() as u64) as usize;
        bytes[at] = rng.pick(&[0x2F, 0x30, 0x39, 0x3A, 0x20, 0x00, 0xB0, 0xFF, 0x2D, 0x4F]);
    }
}

fn damage_expiry(rng: &mut Rng, bytes: &mut Vec<u8>, today: u64) {
    let near = |n: u64| eight(n.min(99_999_999));
    match rng.below(8) {
        0 => *bytes = near(today - 1),
        1 => *bytes = near(today + rng.below(3)),
        2 => *bytes = near(today + 59_999 + rng.below(3)),
        3 => *bytes = near(today + 59_900 + rng.below(200)),
        4 => *bytes = eight(nearly_date(rng)),
        5 => {
            // A day of a year in the window that need not be one.
            let year = today / 10_000 + rng.below(7);
            *bytes = near(year * 10_000 + nearly_date(rng) % 10_000);
        }
        _ => damage_digits(rng, bytes),
    }
}

fn damage_text(rng: &mut Rng, bytes: &mut [u8]) {
    if !bytes.is_empty() {
        let at = match rng.below(3) {
            0 => 0,
            1 => bytes.len() - 1,
            _ => rng.below(bytes.len() as u64) as usize,
        };
        bytes[at] = rng.pick(&[0x1F, 0x20, 0x7E, 0x7F, 0x00, 0x0A, 0x80, 0xA0, 0xFF]);
    }
}

fn damage_binary_date(rng: &mut Rng, bytes: &mut [u8]) {
    match rng.below(8) {
        0 | 1 => {
            let date = nearly_date(rng);
            bytes[0] = (date / 1_000_000) as u8;
            bytes[1] = (date / 10_000 % 100) as u8;
            bytes[2] = (date / 100 % 100) as u8;
            bytes[3] = (date % 100) as u8;
        }
        2 => bytes[0] = rng.pick(&[0, 1, 19, 20, 99, 100, 255]),
        3 => bytes[1] = rng.pick(&[0, 1, 99, 100, 255]),
        4 => bytes[4] = rng.pick(&[0, 23, 24, 255]),
        5 => bytes[5] = rng.pick(&[0, 59, 60, 255]),
        6 => bytes[6] = rng.pick(&[0, 59, 60, 255]),
        _ => bytes[7] = rng.pick(&[0x5A, 0x5B, 0x59, 0x7A, 0x00]),
    }
}

fn set_lengths(bc: &mut [u8], data: u32, signature: u16) {
    bc[2..6].copy_from_slice(&data.to_be_bytes());
    bc[6..8].copy_from_slice(&signature.to_be_bytes());
}

/// Damages one field of the header of BC, or puts it at an edge.
fn damage_header(rng: &mut Rng, bc: &mut Vec<u8>) {
    if bc.len() < 88 {
        return;
    }
    let body = bc.len() - 88;
    let data = u32::from_be_bytes([bc[2], bc[3], bc[4], bc[5]]);
    let signature = u16::from_be_bytes([bc[6], bc[7]]);
    match rng.below(26) {
        0 => bc[0] = rng.pick(&[0x00, 0x02, 0x03, 0x04, 0x83, 0xFF]),
        1 => bc[1] = rng.pick(&[0x00, 0x0C, 0x0D, 0x0E, 0x0F, 0x1D, 0xFF]),
        2 => set_lengths(
            bc,
            rng.pick(&[data.wrapping_add(1), data.wrapping_sub(1), 0, u32::MAX, data ^ 1 << 16, data ^ 1 << 24]),
            signature,
        ),
        3 => set_lengths(bc, data, rng.pick(&[signature.wrapping_add(1), signature.wrapping_sub(1), 0, u16::MAX])),
        // The sum is right: none in one of the parts, one byte, or the border moved.
        4 => set_lengths(bc, 0, body as u16),
        5 => set_lengths(bc, body as u32, 0),
        6 => {
            let data = if rng.one_in(2) { rng.size(0, body.min(40)) } else { rng.size(0, body) };
            set_lengths(bc, data as u32, (body - data) as u16);
        }
        // The sum is right in 32 or in 16 bits only.
        7 => {
            let signature = (body + 1 + rng.size(0, 300)).min(65_535) as u16;
            set_lengths(bc, (body as u32).wrapping_sub(u32::from(signature)), signature);
        }
        8 => set_lengths(bc, data.wrapping_add(65_536), signature),
        // Both lengths at 0 or 1.
        9 => {
            let (data, signature) = rng.pick(&[(0, 0), (1, 0), (0, 1), (1, 1), (2, 1)]);
            if !rng.one_in(4) {
                bc.truncate(88 + data as usize + signature as usize);
                bc.resize(88 + data as usize + signature as usize, 0);
            }
            set_lengths(bc, data, signature);
        }
        10 => {
            let owner = rng.pick(&[[0x00, 0x1B], [0x01, 0x01], [0x00, 0x1A], [0x00, 0x1C], [0x01, 0x1B], [0x00, 0x01]]);
            bc[8..10].copy_from_slice(&owner);
        }
        11 => {
            let format = rng.pick(&[[2, 1], [5, 1], [0, 9], [2, 2], [1, 2], [0, 1], [2, 0], [8, 1], [9, 0], [1, 9]]);
            bc[10..12].copy_from_slice(&format);
        }
        12 => damage_binary_date(rng, &mut bc[12..20]),
        13 => damage_binary_date(rng, &mut bc[20..28]),
        14 => damage_binary_date(rng, &mut bc[28..36]),
        15 => {
            // Validity dates that differ in one number by one, or not at all.
            let start = [20, 26, 5, 15, 12, 30, 30, 0x5A];
            bc[20..28].copy_from_slice(&start);
            bc[28..36].copy_from_slice(&start);
            let at = 20 + rng.size(0, 15);
            if (at - 20) % 8 != 7 {
                bc[at] = bc[at].wrapping_add(rng.pick(&[1, 255, 0]));
            }
            // A later number that goes the other way must not matter.
            if rng.one_in(2) {
                let later = 20 + rng.size(0, 15);
                if (later - 20) % 8 != 7 {
                    bc[later] = bc[later].wrapping_add(rng.pick(&[1, 255]));
                }
            }
        }
        16 => {
            let at = rng.size(36, 38);
            bc[at] = rng.pick(&[0, 1, 2, 8, 0x10, 0x0A, 0x80]);
        }
        17 => {
            let other = rng.pick(&[[0, 0, 2], [0, 0, 8], [0, 0, 0x10], [0, 8, 0], [2, 0, 0], [0x10, 0, 0]]);
            bc[36..39].copy_from_slice(&other);
        }
        18 => bc[39] = (rng.below(8) as u8) << 5 | bc[39] & 31,
        19 | 20 => bc[40] = rng.pick(&[0xFD, 0xFE, 0xFF, 0x00, 0x01, 0x63, 0x64, 0x65, 0x7F, 0x80, 0x9C]),
        21 => {
            let k = rng.pick(&[0, 1, 8, 16, 17, 18]);
            let text = rng.text(k);
            bc[41..41 + k].copy_from_slice(&text);
            if k < 18 {
                bc[41 + k] = 0;
            }
            if k > 0 && !rng.one_in(3) {
                damage_text(rng, &mut bc[41..41 + k]);
            }
        }
        22 | 23 => damage_fascn(rng, &mut bc[values::HEADER_FASCN]),
        24 => {
            let at = rng.size(84, 87);
            bc[at] = rng.pick(&[1, 0x80, 0xFF]);
        }
        _ => {
            // The value is longer or shorter than it says.
            match rng.below(4) {
                0 => bc.push(0),
                1 => {
                    bc.pop();
                }
                2 => bc.truncate(rng.pick(&[87, 88, 89, 90])),
                _ => {
                    let more = rng.size(1, 200);
                    bc.extend(rng.bytes(more));
                }
            }
        }
    }
    // Two faults on either side of the FASC-N at times.
    if bc.len() >= 88 && rng.one_in(12) {
        match rng.below(3) {
            0 => bc[59] ^= 0x80,
            1 => bc[87] ^= 1,
            _ => damage_header(rng, bc),
        }
    }
}

/// Damages one field of the minutiae record in BC, or puts it at an edge.
fn damage_minutiae(rng: &mut Rng, bc: &mut Vec<u8>) {
    if bc.len() < 88 + 38 {
        return;
    }
    let data = u32::from_be_bytes([bc[2], bc[3], bc[4], bc[5]]) as usize;
    if data < 38 || bc.len() <= 88 + data {
        return;
    }
    if rng.one_in(12) {
        // A record that is consistent, but with counts over 128, or with all the points in one view.
        let counts = rng.pick(&[
            [129, 0],
            [0, 129],
            [128, 129],
            [129, 128],
            [128, 128],
            [200, 100],
            [255, 0],
            [256, 0],
            [0, 300],
        ]);
        let record = minutiae(rng, counts);
        let signature = rng.size(1, 4);
        *bc = biometric(rng, &FINGERS, &record, signature);
        return;
    }
    let record = &mut bc[88..88 + data];
    let first = usize::from(record[29]);
    let second_view = (26 + 6 + 6 * first).min(data - 6);
    let second = usize::from(record[second_view + 3]);
    let (view, count) = if rng.one_in(2) { (26, first) } else { (second_view, second) };
    match rng.below(22) {
        0 => {
            let at = rng.size(0, 3);
            record[at] = rng.pick(&[0x00, 0x46, 0x4D, 0x52, 0x20]);
        }
        1 => {
            let version = rng.pick(&[*b" 20\0", *b" 200", *b" 201", *b"020\0", *b" 30\0", *b" 2 \0"]);
            record[4..8].copy_from_slice(&version);
        }
        2 => {
            let length = u16::from_be_bytes([record[8], record[9]]);
            let length =
                rng.pick(&[length + 1, length.wrapping_sub(1), 0, 26, 38, u16::MAX, length ^ 0x100, length + 6]);
            record[8..10].copy_from_slice(&length.to_be_bytes());
        }
        3 => {
            let at = rng.size(10, 19);
            record[at] = rng.pick(&[0x00, 0xFF, 0x80]);
        }
        4 | 5 => {
            let at = rng.size(20, 23);
            record[at] = rng.pick(&[0, 1, 196, 197, 198]);
        }
        6 => record[24] = rng.pick(&[0, 1, 2, 3, 255]),
        7 => record[25] = rng.pick(&[0, 1, 255]),
        8 => record[view] = rng.pick(&[0, 9, 10, 11, 12, 13, 255]),
        9 => record[view + 1] = rng.pick(&[0x00, 0x01, 0x02, 0x03, 0x08, 0x0F, 0x10, 0x12, 0x20, 0x80, 0xF2]),
        10 => record[view + 2] = rng.pick(&[0, 1, 10, 19, 20, 21, 39, 40, 60, 80, 99, 100, 101, 252, 253, 254, 255]),
        11 => record[view + 2] = rng.byte(),
        12 => {
            record[view + 3] =
                rng.pick(&[0, 1, 2, 127, 128, 129, 255, (count as u8).wrapping_add(1), (count as u8).wrapping_sub(1)])
        }
        13 => {
            // Both counts, with their sum as it was.
            if view + 3 < data && second_view + 3 < data && second > 0 && first < 128 {
                record[29] += 1;
                record[second_view + 3] -= 1;
            }
        }
        14 => {
            let at = view + 4 + 6 * count + rng.size(0, 1);
            if at < data {
                record[at] = rng.pick(&[1, 0x80, 0]);
            }
        }
        15 => {
            // The data part is longer or shorter by a few bytes; the header agrees.
            let old_signature = u16::from_be_bytes([bc[6], bc[7]]);
            let extra = rng.pick(&[1, 2, 6, 12]);
            if rng.one_in(2) {
                let insert = rng.bytes(extra);
                let at = 88 + data;
                bc.splice(at..at, insert);
                set_lengths(bc, (data + extra) as u32, old_signature);
                if rng.one_in(2) {
                    bc[96..98].copy_from_slice(&((data + extra) as u16).to_be_bytes());
                }
            } else {
                bc.drain(88 + data - extra..88 + data);
                set_lengths(bc, (data - extra) as u32, old_signature);
                if rng.one_in(2) {
                    bc[96..98].copy_from_slice(&((data - extra) as u16).to_be_bytes());
                }
            }
        }
        16 => {
            // The data part ends early, anywhere; the rest counts as signature.
            let body = bc.len() - 88;
            let kept = if rng.one_in(2) { rng.size(1, 40) } else { rng.size(1, data) };
            if body - kept <= 65_535 {
                set_lengths(bc, kept as u32, (body - kept) as u16);
                if kept >= 10 && rng.one_in(2) {
                    bc[96..98].copy_from_slice(&(kept as u16).to_be_bytes());
                }
            }
        }
        _ => {
            if count > 0 {
                let which = match rng.below(3) {
                    0 => 0,
                    1 => count - 1,
                    _ => rng.below(count as u64) as usize,
                };
                let at = view + 4 + 6 * which;
                if at + 6 <= data {
                    match rng.below(6) {
                        0 => record[at] = rng.pick(&[0x00, 0x3F, 0x40, 0x7F, 0x80, 0xBF, 0xC0, 0xFF]),
                        1 => record[at + 1] = rng.byte(),
                        2 => record[at + 2] = rng.pick(&[0x00, 0x3F, 0x40, 0x80, 0xC0, 0xFF]),
                        3 => record[at + 3] = rng.byte(),
                        4 => record[at + 4] = rng.pick(&[0, 178, 179, 180, 181, 255]),
                        _ => record[at + 5] = rng.pick(&[0, 99, 100, 101, 128, 254, 255]),
                    }
                }
            } else {
                flip_bit(rng, &mut record[view..view + 6]);
            }
        }
    }
}

/// Puts a damaged facial record into BC.
fn damage_facial(rng: &mut Rng, bc: &mut Vec<u8>) {
    put_record(bc, faces::damaged(rng));
}

/// Puts a damaged iris record into BC.
fn damage_iris(rng: &mut Rng, bc: &mut Vec<u8>) {
    put_record(bc, irises::damaged(rng));
}

/// Puts another record into BC, whose data length follows.
fn put_record(bc: &mut Vec<u8>, record: Vec<u8>) {
    if bc.len() < 88 {
        return;
    }
    let data = u32::from_be_bytes([bc[2], bc[3], bc[4], bc[5]]) as usize;
    if bc.len() <= 88 + data {
        return;
    }
    let signature = u16::from_be_bytes([bc[6], bc[7]]);
    set_lengths(bc, record.len() as u32, signature);
    bc.splice(88..88 + data, record);
}

/// Damages the header of BC or its record, and rarely both.
fn damage_biometric(rng: &mut Rng, bc: &mut Vec<u8>, damage_record: fn(&mut Rng, &mut Vec<u8>)) {
    if rng.one_in(2) {
        damage_header(rng, bc);
    } else {
        damage_record(rng, bc);
    }
    if rng.one_in(20) {
        damage_record(rng, bc);
        damage_header(rng, bc);
    }
}

/// Damages one value of the card, or its length or presence.
fn damage_value(rng: &mut Rng, card: &mut Card) {
    let table = card.table();
    // Rows with a value rule come more often.
    let mut row = rng.below(table.len() as u64) as usize;
    for _ in 0..4 {
        if table[row].rule != Rule::Any && card.rows[row].is_some() {
            break;
        }
        row = rng.below(table.len() as u64) as usize;
    }
    let today = card.today;
    let value = match &mut card.rows[row] {
        Some(value) => value,
        slot => {
            if rng.one_in(2) {
                let length = rng.size(0, 30);
                *slot = Some(rng.bytes(length));
            }
            return;
        }
    };
    match rng.below(if table[row].rule == Rule::Any { 3 } else { 16 }) {
        0 => {
            if rng.one_in(2) {
                card.rows[row] = None;
            } else if rng.one_in(2) {
                value.clear();
            } else {
                value.push(0x20);
            }
        }
        1 => {
            let row = &table[row];
            let longest = row.longest.min(4_000);
            let length = match rng.below(8) {
                0 => 0,
                1 => row.shortest,
                2 => row.shortest.saturating_sub(1),
                3 => longest,
                4 => longest + 1,
                5 => value.len() + 1,
                6 => value.len().saturating_sub(1),
                _ => rng.size(0, 60),
            };
            value.resize(length, 0x20);
        }
        2 => {
            flip_bit(rng, value);
        }
        _ => match table[row].rule {
            Rule::Any => (),
            Rule::Exactly(_) => match rng.below(3) {
                0 => flip_bit(rng, value),
                1 => {
                    let at = value.len().saturating_sub(1);
                    if let Some(byte) = value.get_mut(at) {
                        *byte = rng.pick(&[0x00, 0x01, 0x0F, 0x10, 0x11, 0xFF]);
                    }
                }
                _ => (),
            },
            Rule::Fascn => {
                if value.len() == 25 {
                    damage_fascn(rng, value);
                }
            }
            Rule::Uuid => damage_uuid(rng, value),
            Rule::Expiry => damage_expiry(rng, value, today),
            Rule::PrintedDate => *value = dates::damaged(rng),
            Rule::Policy => match rng.below(3) {
                0 => *value = vec![rng.byte(), rng.pick(&[0x00, 0x10, 0x20, 0x30])],
                1 => {
                    if value.len() == 2 {
                        value[0] ^= rng.pick(&[0x01, 0x02, 0x04, 0x08, 0x10, 0x20, 0x40, 0x80]);
                    }
                }
                _ => {
                    *value = policy(rng);
                    value[1] = if rng.one_in(2) { rng.pick(&[0x00, 0x01, 0x10, 0x11, 0x20, 0x30]) } else { rng.byte() };
                }
            },
            Rule::Text => damage_text(rng, value),
            Rule::Fingers => damage_biometric(rng, value, damage_minutiae),
            Rule::Face => damage_biometric(rng, value, damage_facial),
            Rule::Iris => damage_biometric(rng, value, damage_iris),
            Rule::Certificate => trees::damage(rng, value),
        },
    }
}

// ---------------------------------------------------------------------------------------------
// Damage to the form

#[derive(Clone)]
struct Item {
    tag: u16,
    form: Form,
    delta: i64,
    value: Vec<u8>,
}

/// A container in pieces.
#[derive(Clone)]
struct Loose {
    outer: u8,
    form: Form,
    delta: i64,
    items: Vec<Item>,
    /// So many bytes of the content's end are left out, before the outer length is made.
    cut: usize,
    content_tail: Vec<u8>,
    tail: Vec<u8>,
}

impl Loose {
    fn bytes(&self) -> Vec<u8> {
        let mut content = Vec::new();
        for item in &self.items {
            if item.tag > 0xFF {
                content.push((item.tag >> 8) as u8);
            }
            content.push(item.tag as u8);
            put_length(&mut content, item.value.len(), item.delta, item.form);
            content.extend(&item.value);
        }
        content.truncate(content.len().saturating_sub(self.cut));
        content.extend(&self.content_tail);
        let mut out = vec![self.outer];
        put_length(&mut out, content.len(), self.delta, self.form);
        out.extend(content);
        out.extend(&self.tail);
        out
    }
}

const TAGS: [u16; 43] = [
    0xF0, 0xF1, 0xF2, 0xF3, 0xF4, 0xF5, 0xF6, 0xF7, 0xFA, 0xFB, 0xFC, 0xFD, 0xE3, 0xB4, 0xFE, 0xEE, 0x30, 0x32, 0x33,
    0x34, 0x35, 0x36, 0x3E, 0x4F, 0x5F2F, 0x01, 0x02, 0x04, 0x05, 0x06, 0x07, 0x08, 0xBA, 0xBB, 0xBC, 0x5F, 0x2F, 0x53,
    0x7E, 0x00, 0x70, 0x71, 0x72,
];

fn any_tag(rng: &mut Rng, kind: u64) -> u16 {
    let rows = card::kind_of(kind).map_or(&[][..], |kind| kind.rows);
    match rng.below(10) {
        0 => u16::from(rng.byte()),
        1..=4 => rng.pick(&TAGS),
        5 if kind == 3 => rng.pick(&[0x5F, 0x2F, 0x5F2F, 0x5F2E, 0x5F30, 0x5F00, 0x5F5F, 0x4F2F]),
        _ if rows.is_empty() => 0x30,
        _ => rng.pick(rows).tag,
    }
}

/// A form that a length may have, or not.
pub fn any_form(rng: &mut Rng) -> Form {
    match rng.below(16) {
        0..=2 => Form::Long(1),
        3..=5 => Form::Long(2),
        6 | 7 => Form::Long(3),
        8 | 9 => Form::Long(4),
        10 => Form::Long(rng.size(5, 8)),
        11 | 12 => Form::Short,
        13 => Form::Raw(0x80),
        14 => Form::Raw(rng.pick(&[0x81, 0x82, 0x83, 0x84, 0x85, 0xFF, 0x7F])),
        _ => Form::Raw(rng.byte()),
    }
}

pub fn any_delta(rng: &mut Rng) -> i64 {
    match rng.below(12) {
        0..=3 => 1,
        4..=7 => -1,
        8 => rng.pick(&[2, -2, 3, 100, 128, 256, 65_535, -20]),
        // right in so many bits only, or with a sum that is inside the container again
        9 => rng.pick(&[256, 65_536, 1 << 24, 1 << 31]),
        10 => (1 << 32) - rng.below(600) as i64,
        _ => rng.below(40) as i64 - 20,
    }
}

fn damage_form(rng: &mut Rng, loose: &mut Loose, kind: u64) {
    let count = loose.items.len() as u64;
    let at = if count == 0 { 0 } else { rng.below(count) as usize };
    match rng.below(24) {
        0..=2 if count > 0 => {
            loose.items.remove(at);
        }
        3 | 4 if count > 0 => {
            let item = loose.items[at].clone();
            let to = if rng.one_in(2) { at } else { rng.size(0, loose.items.len()) };
            loose.items.insert(to, item);
        }
        5 | 6 if count > 1 => {
            let other = if rng.one_in(2) { (at + 1) % count as usize } else { rng.below(count) as usize };
            loose.items.swap(at, other);
        }
        7 | 8 if count > 0 => loose.items[at].tag = any_tag(rng, kind),
        9 | 10 => {
            let length = rng.pick(&[0, 0, 1, 2, 8, 15, 16]);
            let item = Item { tag: any_tag(rng, kind), form: Form::Fewest, delta: 0, value: rng.bytes(length) };
            let to = rng.size(0, loose.items.len());
            loose.items.insert(to, item);
        }
        11..=13 if count > 0 => loose.items[at].form = any_form(rng),
        14 | 15 if count > 0 => loose.items[at].delta = any_delta(rng),
        16 => loose.outer = rng.pick(&[0x53, 0x7E, 0x5F, 0x00, 0x30, 0x52, 0x54, 0x73, 0xFE]),
        17 => loose.form = any_form(rng),
        18 => loose.delta = any_delta(rng),
        19 => {
            let more = rng.pick(&[1, 1, 2, 3, 10]);
            loose.tail = if rng.one_in(2) { vec![0; more] } else { rng.bytes(more) };
        }
        20 => loose.cut = if rng.one_in(2) { rng.size(1, 4) } else { rng.size(1, 40) },
        21 => {
            // A last element whose length is cut short, or that lacks one.
            let tag = any_tag(rng, kind);
            let tag = if rng.one_in(2) { 0xFE } else { tag };
            if rng.one_in(2) {
                loose.items.pop();
            }
            loose.content_tail = if tag > 0xFF { vec![(tag >> 8) as u8, tag as u8] } else { vec![tag as u8] };
            let more: &[u8] = rng.pick(&[
                &[][..],
                &[0x81],
                &[0x82],
                &[0x82, 0x01],
                &[0x83],
                &[0x83, 0x00, 0x01],
                &[0x84, 0x00],
                &[0x84, 0x00, 0x00, 0x01],
                &[0x80],
                &[0x01],
                &[0x05, 0x00],
                &[0x81, 0x80],
                &[0x82, 0x01, 0x00],
                &[0x83, 0x01, 0x00, 0x00],
                &[0x84, 0xFF, 0xFF, 0xFF, 0xFF],
                &[0x81, 0x7F],
                &[0x82, 0x00, 0x00],
                &[0x84, 0, 0, 0, 0],
                &[0x85, 0, 0, 0, 0, 0x80],
            ]);
            loose.content_tail.extend(more);
            if kind == 3 && rng.one_in(2) {
                loose.content_tail = rng
                    .pick(&[
                        &[0x5F][..],
                        &[0x5F, 0x2F],
                        &[0x5F, 0x2E, 0x00],
                        &[0x2F, 0x02, 0x40, 0x00],
                        &[0x5F, 0x02, 0x40, 0x00],
                    ])
                    .to_vec();
            }
        }
        22 => {
            let more = rng.size(1, 6);
            loose.content_tail = rng.bytes(more);
        }
        _ if count > 0 => {
            let length =
                rng.pick(&[0, 1, 7, 8, 9, 15, 16, 17, 20, 21, 22, 25, 26, 30, 31, 48, 49, 125, 126, 127, 128, 129]);
            loose.items[at].value.resize(length, 0x20);
        }
        _ => loose.items.clear(),
    }
}

pub fn damage_bytes(rng: &mut Rng, bytes: &mut Vec<u8>) {
    if bytes.is_empty() {
        return;
    }
    // The front matters more than the end in long ones.
    let span = if rng.one_in(3) { bytes.len().min(12) } else { bytes.len() };
    let at = rng.below(span as u64) as usize;
    match rng.below(12) {
        0..=3 => bytes[at] ^= 1 << rng.below(8),
        4 | 5 => bytes[at] = rng.byte(),
        6 => bytes[at] = rng.pick(&[0x00, 0x01, 0x7F, 0x80, 0x81, 0x82, 0x83, 0x84, 0x85, 0xFE, 0xFF]),
        7 | 8 => bytes.truncate(at),
        9 => {
            bytes.remove(at);
        }
        10 => {
            let new = rng.byte();
            bytes.insert(at, new);
        }
        _ => {
            let new = rng.byte();
            bytes.push(new);
        }
    }
}

fn damage_sheet(rng: &mut Rng, sheet: &mut Vec<u8>, card: &Card) {
    match rng.below(9) {
        0 => {
            let length = rng.size(0, sheet.len());
            sheet.truncate(length);
        }
        1 => {
            let length = sheet.len().saturating_sub(rng.size(1, 3));
            sheet.truncate(length);
        }
        2 => {
            let more = rng.pick(&[1, 1, 2, 3, 20]);
            let more = if rng.one_in(2) { vec![0; more] } else { rng.bytes(more) };
            sheet.extend(more);
        }
        3..=5 => {
            // The count of one row.
            let row = rng.below(card.rows.len() as u64) as usize;
            let at: usize = card.rows[..row].iter().map(|value| 2 + value.as_ref().map_or(0, Vec::len)).sum();
            let old = u16::from_be_bytes([sheet[at], sheet[at + 1]]);
            let left = (sheet.len() - at - 2) as u16;
            let new = rng.pick(&[
                0,
                1,
                old.wrapping_add(1),
                old.wrapping_sub(1),
                u16::MAX,
                left,
                left.wrapping_add(1),
                left.wrapping_add(2),
                0x0100,
                old ^ 0x0100,
            ]);
            sheet[at..at + 2].copy_from_slice(&new.to_be_bytes());
        }
        6 => sheet.clear(),
        _ => damage_bytes(rng, sheet),
    }
}

// ---------------------------------------------------------------------------------------------
// Records

fn strange_kind(rng: &mut Rng, kind: u64) -> u64 {
    rng.pick(&[
        0,
        LAST_KIND + 1,
        LAST_KIND + 2,
        2 * LAST_KIND,
        255,
        256 + kind,
        65_536 + kind,
        (1 << 32) + kind,
        (1 << 63) + kind,
        u64::MAX,
        u64::MAX - kind,
        kind << 8,
        kind << 32,
        48 + kind,
    ])
}

fn strange_today(rng: &mut Rng, today: u64) -> u64 {
    match rng.below(3) {
        0 => nearly_date(rng),
        1 => rng.pick(&[
            today + (1 << 32),
            today + (1 << 33),
            today.wrapping_sub(1 << 32),
            today + 100_000_000,
            today % 10_000,
            today / 100,
        ]),
        _ => rng.pick(&[
            0,
            1,
            100,
            101,
            9_999,
            10_000,
            10_001,
            10_100,
            10_101,
            10_132,
            10_200,
            11_301,
            20230229,
            21000229,
            20000229,
            20240229,
            20260001,
            20261301,
            20260100,
            20260132,
            20260431,
            20260430,
            20260631,
            20260931,
            20261131,
            20261231,
            20261232,
            99991231,
            99991232,
            99999999,
            100_000_101,
            100_010_101,
            1_000_000_000,
            u64::MAX,
            u64::MAX - 1,
            1 << 63,
            u64::MAX / 10_000 * 10_000 + 101,
        ]),
    }
}

pub fn any_fill(rng: &mut Rng) -> u8 {
    if rng.one_in(2) {
        rng.pick(&[0x00, 0xFF, 0xAA])
    } else {
        rng.byte()
    }
}

/// A room near what is needed.
fn any_room(rng: &mut Rng, needed: usize) -> usize {
    let room = match rng.below(40) {
        0..=13 => needed,
        14..=19 => needed + 1,
        20..=25 => needed.saturating_sub(1),
        26..=31 => needed + rng.size(2, 24),
        32..=34 => rng.size(0, needed),
        35 => 0,
        36 => rng.pick(&[1, 2, 3, 4, 25]),
        37 => rng.pick(&[511, 512, 513, 600]),
        _ => needed + 64,
    };
    room.min(ROOM_MAX)
}

/// A room for the sheet of a container: often none at all, else at an edge, of the sheet that is needed or of all sheets.
fn sheet_room(rng: &mut Rng, needed: usize, container: usize) -> usize {
    match rng.below(200) {
        0..=39 => 0,
        40..=43 => 1,
        44..=51 => container + 5 + rng.size(0, 2),
        52 => rng.pick(&[SHEET_ROOM - 1, SHEET_ROOM, SHEET_ROOM, SHEET_ROOM + 1]),
        _ => any_room(rng, needed),
    }
}

fn report_room(rng: &mut Rng) -> usize {
    match rng.below(20) {
        0..=8 => REPORT_MAX,
        9 | 10 => REPORT_MAX + 1,
        11 => 600,
        12..=14 => REPORT_MAX - 1,
        15 => 0,
        16 => rng.size(0, REPORT_MAX - 1),
        17 => rng.pick(&[1, 255, 256, 510]),
        _ => rng.size(REPORT_MAX, REPORT_MAX + 40),
    }
}

fn view_tag(rng: &mut Rng, kind: u64) -> u64 {
    let rows = card::kind_of(kind).map_or(&[][..], |kind| kind.rows);
    match rng.below(20) {
        0..=12 if !rows.is_empty() => u64::from(rng.pick(rows).tag),
        13 | 14 => u64::from(rng.pick(&TAGS)),
        15 => rng.pick(&[0x5F, 0x2F, 0x5F2F, 0x2F5F, 0xFE, 0, u64::MAX, 0x0100, 0xFEFE, NO_TAG]),
        16 if !rows.is_empty() => {
            let tag = u64::from(rng.pick(rows).tag);
            rng.pick(&[
                tag + 256,
                tag << 8,
                tag + 65_536,
                tag + (1 << 32),
                tag + (1 << 63),
                tag.wrapping_neg(),
                tag | 0x5F00,
                tag & 0xFF,
            ])
        }
        17 => rng.below(256),
        _ => rng.pick(&[0xFE, 0x30, 0xBC, 0x5F2F, 0x06, 0x70, 0x72]),
    }
}

/// How often each kind is made, beside the others. Those with a certificate, 8 to 11, have one table.
const SHARES: [u64; LAST_KIND as usize] = [2, 3, 2, 2, 1, 4, 2, 2, 1, 1, 1, 2];

pub fn any_kind(rng: &mut Rng) -> u64 {
    let mut left = rng.below(SHARES.iter().sum());
    for (kind, share) in all_kinds().zip(SHARES) {
        if left < share {
            return kind;
        }
        left -= share;
    }
    LAST_KIND
}

/// The inputs of a batch, one after the other.
pub struct Inputs {
    rng: Rng,
    fixed: std::vec::IntoIter<Record>,
}

impl Inputs {
    /// A batch begins with examples and edges, whatever the seed.
    pub fn new(seed: u64) -> Inputs {
        Inputs { fixed: fixed_records().into_iter(), ..Inputs::made(seed) }
    }

    /// A batch of made inputs alone.
    pub fn made(seed: u64) -> Inputs {
        Inputs { rng: Rng::new(seed), fixed: Vec::new().into_iter() }
    }

    pub fn record(&mut self) -> Record {
        match self.fixed.next() {
            Some(record) => record,
            None => random_record(&mut self.rng),
        }
    }
}

fn random_record(rng: &mut Rng) -> Record {
    let mut record = match rng.below(1_000) {
        0 | 1 => big_record(rng),
        2..=31 => longest_record(rng),
        32..=69 => fascn_decode_record(rng),
        70..=89 => strings::record(rng),
        90..=139 => fascn_encode_record(rng),
        140..=319 => write_record(rng),
        320..=419 => fingers::record(rng),
        420..=529 => pairs::record(rng),
        530..=609 => folders::record(rng),
        _ => container_record(rng),
    };
    if matches!(record.call, Call::FascnDecode | Call::FascnDecodeByTable | Call::FascnEncode | Call::Last) {
        return record;
    }
    // a call that fills lists has no kind, nor has one on a folder, and that of a row is a byte
    if !matches!(record.call, Call::Lists | Call::Folder | Call::Row) {
        if rng.one_in(40) {
            record.kind = strange_kind(rng, record.kind);
        } else if rng.one_in(50) {
            record.kind = any_kind(rng);
        }
    }
    if rng.one_in(25) {
        record.today = strange_today(rng, record.today);
    }
    record
}

/// A length at which the form of lengths changes, or one of those that follow.
fn edge_length(rng: &mut Rng) -> usize {
    match rng.below(4) {
        0 => rng.size(128, 600),
        _ => rng.pick(&[126, 127, 128, 129, 200, 254, 255, 256, 257]),
    }
}

/// A container, conforming or damaged. One in three has its lengths in any forms, and mostly one that can have several.
pub fn any_container(rng: &mut Rng, kind: u64) -> (Card, Vec<u8>) {
    let mut card = conforming(rng, kind);
    let mut forms = Forms::all(Form::Fewest);
    if rng.one_in(3) {
        forms = Forms::mixed(rng);
        let length = edge_length(rng);
        card = lengthened(rng, card, length);
    }
    let bytes = good_or_damaged(rng, &mut card, &forms);
    (card, bytes)
}

/// The container of a card in these forms, mostly with damage to the card's values, to the form or to the bytes.
pub fn good_or_damaged(rng: &mut Rng, card: &mut Card, forms: &Forms) -> Vec<u8> {
    let kind = card.kind;
    let plan = rng.below(20);
    if (4..=11).contains(&plan) {
        damage_value(rng, card);
        while rng.one_in(8) {
            damage_value(rng, card);
        }
    }
    let mut loose = card.loose(forms);
    if (11..=16).contains(&plan) {
        damage_form(rng, &mut loose, kind);
        while rng.one_in(4) {
            damage_form(rng, &mut loose, kind);
        }
    }
    let mut bytes = loose.bytes();
    if (16..=19).contains(&plan) {
        damage_bytes(rng, &mut bytes);
        while rng.one_in(8) {
            damage_bytes(rng, &mut bytes);
        }
    }
    bytes.truncate(BYTES_MAX);
    bytes
}

fn container_record(rng: &mut Rng) -> Record {
    let kind = any_kind(rng);
    let (card, bytes) = any_container(rng, kind);
    let mut record = Record { today: card.today, ..plain(Call::Check, kind, bytes) };
    aim(rng, &mut record, &card);
    record
}

/// Makes a record with a container a call of check, view or report.
fn aim(rng: &mut Rng, record: &mut Record, card: &Card) {
    match rng.below(16) {
        0..=10 => {
            record.call = Call::Check;
            record.room = sheet_room(rng, card.sheet().len(), record.bytes.len());
            record.fill = any_fill(rng);
        }
        11..=13 => {
            record.call = Call::View;
            record.element = view_tag(rng, record.kind);
        }
        _ => {
            record.call = Call::Report;
            record.room = report_room(rng);
            record.fill = any_fill(rng);
        }
    }
}

fn write_record(rng: &mut Rng) -> Record {
    let kind = any_kind(rng);
    let mut card = conforming(rng, kind);
    if rng.one_in(6) {
        let length = edge_length(rng);
        card = lengthened(rng, card, length);
    }
    let plan = rng.below(20);
    if plan >= 12 {
        damage_value(rng, &mut card);
        while rng.one_in(4) {
            damage_value(rng, &mut card);
        }
    }
    let mut sheet = card.sheet();
    if (6..=12).contains(&plan) {
        damage_sheet(rng, &mut sheet, &card);
    }
    let room = any_room(rng, card.container().len());
    Record { today: card.today, room, fill: any_fill(rng), ..plain(Call::Write, kind, sheet) }
}

/// A report that is as long as its kind has any, or nearly so, on a container that is mostly good, with a room at the edge.
fn longest_record(rng: &mut Rng) -> Record {
    let kind = any_kind(rng);
    let today = today(rng);
    let card = longest::nearly_longest(rng, kind, today);
    let forms = if rng.one_in(3) { Forms::mixed(rng) } else { Forms::all(Form::Fewest) };
    let mut bytes = card.container_in(&forms);
    match rng.below(8) {
        0 => flip_bit(rng, &mut bytes),
        1 => damage_front(rng, &mut bytes),
        2 => bytes.truncate(bytes.len() - rng.size(1, 3)),
        3 => bytes = longest::filled_up(&bytes, kind, rng.pick(&longest::TOTALS)),
        _ => (),
    }
    let room = rng.pick(&longest::ROOMS);
    Record { today, room, fill: any_fill(rng), ..plain(Call::Report, kind, bytes) }
}

/// A container or a sheet near the limit of 32,768 bytes.
fn big_record(rng: &mut Rng) -> Record {
    let kind = rng.pick(&endless_kinds());
    let total = match rng.below(10) {
        0..=2 => CONTAINER_MAX,
        3..=5 => CONTAINER_MAX + 1,
        6 => CONTAINER_MAX - 1,
        7 => CONTAINER_MAX + 2,
        8 => rng.size(20_000, CONTAINER_MAX),
        _ => rng.size(CONTAINER_MAX, 65_000),
    };
    let forms = if rng.one_in(2) { Forms::mixed(rng) } else { Forms::all(Form::Fewest) };
    let card = conforming_of_size(rng, kind, total, &forms);
    if rng.one_in(3) {
        return big_write_record(rng, card);
    }
    let mut bytes = card.container_in(&forms);
    if rng.one_in(3) {
        match rng.below(3) {
            0 => damage_front(rng, &mut bytes),
            1 => bytes[0] ^= 1,
            _ => bytes.push(0),
        }
    }
    let mut record = Record { today: card.today, ..plain(Call::Check, kind, bytes) };
    aim(rng, &mut record, &card);
    record
}

/// The sheet of such a card, to be written.
fn big_write_record(rng: &mut Rng, mut card: Card) -> Record {
    let total = card.container().len();
    if rng.one_in(12) {
        // The longest section that a sheet can hold.
        let row = endless_row(card.kind).expect("it has such a row");
        card.rows[row] = value_of(rng, card.table()[row].rule, 65_534);
    }
    let rooms = if total > CONTAINER_MAX { [0, 0, 100, total] } else { [0, total - 1, total, total + 1] };
    let room = rng.pick(&rooms).min(ROOM_MAX);
    let mut bytes = card.sheet();
    if rng.one_in(12) {
        damage_front(rng, &mut bytes);
    }
    bytes.truncate(BYTES_MAX);
    Record { today: card.today, room, fill: any_fill(rng), ..plain(Call::Write, card.kind, bytes) }
}

/// Changes a bit of the first 201 bytes, or of all where there are fewer.
fn damage_front(rng: &mut Rng, bytes: &mut [u8]) {
    let at = rng.size(0, 200.min(bytes.len() - 1));
    bytes[at] ^= 1 << rng.below(8);
}

fn fascn_decode_record(rng: &mut Rng) -> Record {
    let mut bytes = fascn(rng);
    match rng.below(12) {
        0..=2 => (),
        3..=9 => damage_fascn(rng, &mut bytes),
        10 => {
            let length = rng.pick(&[0, 1, 5, 20, 24, 26, 30, 50]);
            bytes.resize(length, 0);
        }
        _ => bytes = rng.bytes(25),
    }
    Record { today: 0, ..plain(Call::FascnDecode, 0, bytes) }
}

fn fascn_encode_record(rng: &mut Rng) -> Record {
    let mut numbers = fascn_numbers(rng);
    if rng.one_in(3) {
        let which = rng.below(9) as usize;
        let limit = LIMITS[which];
        numbers[which] = rng.pick(&[limit, limit - 1, limit + 1, limit * 10, u64::MAX, 1 << 32, 1 << 63, 0]);
    }
    let room = match rng.below(12) {
        0..=5 => 25,
        6 => 24,
        7 => 26,
        8 => 0,
        9 => rng.size(0, 24),
        _ => rng.size(25, 60),
    };
    encode_record(&numbers, room, any_fill(rng))
}

fn encode_record(numbers: &[u64; 9], room: usize, fill: u8) -> Record {
    let bytes = numbers.iter().flat_map(|number| number.to_be_bytes()).collect();
    Record { today: 0, room, fill, ..plain(Call::FascnEncode, 0, bytes) }
}

// ---------------------------------------------------------------------------------------------
// Fixed inputs

/// Today in 01's examples.
pub const EXAMPLE_DAY: u64 = 20260301;

/// The FASC-N of P1.
pub const EXAMPLE_FASCN: [u8; 25] = [
    0xD4, 0x11, 0x92, 0x58, 0x21, 0x0C, 0x2C, 0x10, 0x84, 0x21, 0xAD, 0xA1, 0x68, 0x58, 0x21, 0x08, 0x42, 0x10, 0x84,
    0x3C, 0x84, 0x11, 0x92, 0x43, 0xEB,
];

/// The container of P13.
pub const EXAMPLE_DISCOVERY: [u8; 20] = [
    0x7E, 0x12, 0x4F, 0x0B, 0xA0, 0x00, 0x00, 0x03, 0x08, 0x00, 0x00, 0x10, 0x00, 0x01, 0x00, 0x5F, 0x2F, 0x02, 0x40,
    0x00,
];

/// The container of case R, with another expiry date if asked.
pub fn example_chuid(expiry: &[u8; 8]) -> Vec<u8> {
    let mut out = vec![0x53, 59, 0x30, 25];
    out.extend(EXAMPLE_FASCN);
    out.extend([0x34, 16, 0, 1, 2, 3, 4, 5, 0x46, 7, 0x88, 9, 10, 11, 12, 13, 14, 15, 0x35, 8]);
    out.extend(expiry);
    out.extend([0x3E, 0, 0xFE, 0]);
    out
}

/// A conforming container that is as small as its kind allows, or nearly so.
pub fn small(kind: u64) -> Vec<u8> {
    match kind {
        1 => Card {
            kind,
            today: EXAMPLE_DAY,
            rows: (0..15)
                .map(|row| match row {
                    5 => Some(vec![0x10]),
                    12 | 13 => None,
                    _ => Some(Vec::new()),
                })
                .collect(),
        }
        .container(),
        2 => example_chuid(b"20300131"),
        3 => EXAMPLE_DISCOVERY.to_vec(),
        4 => {
            let texts: [&[u8]; 5] = [b"ANN EXAMPLE", b"STAFF", b"2030DEC31", b"0042", b"ISSUER 00000001"];
            let mut rows: Vec<_> = texts.iter().map(|text| Some(text.to_vec())).collect();
            rows.extend([None, None, Some(Vec::new())]);
            Card { kind, today: EXAMPLE_DAY, rows }.container()
        }
        5 => vec![0x53, 0x08, 0xBA, 0x01, 0x07, 0xBB, 0x01, 0x09, 0xFE, 0x00],
        6 => {
            let data = minutiae(&mut Rng::new(kind), [1, 0]);
            small_biometric(kind, &FINGERS, &data)
        }
        7 => small_biometric(kind, &FACE, &faces::least()),
        8 => certificate_card(kind, trees::least().bytes(), None).container(),
        9 => certificate_card(kind, trees::down_to(8, 5, &[]).bytes(), Some(0)).container(),
        10 => certificate_card(kind, trees::down_to(4, 4, &[0x30; 128]).bytes(), Some(1)).container(),
        11 => certificate_card(kind, trees::skeleton().bytes(), None).container(),
        _ => small_biometric(kind, &IRIS, &irises::least()),
    }
}

/// The container of a biometric with these data and a byte of signature.
fn small_biometric(kind: u64, format: &Format, data: &[u8]) -> Vec<u8> {
    let bc = biometric(&mut Rng::new(kind), format, data, 1);
    Card { kind, today: EXAMPLE_DAY, rows: vec![Some(bc), Some(Vec::new())] }.container()
}

/// A card with a certificate, and with so many bytes of 72 if it has any.
pub fn certificate_card(kind: u64, certificate: Vec<u8>, extra: Option<usize>) -> Card {
    let rows = vec![Some(certificate), Some(vec![0]), extra.map(|length| vec![0x41; length]), Some(Vec::new())];
    Card { kind, today: EXAMPLE_DAY, rows }
}

/// A call on the example's day, without a room, or with empty lists.
pub fn plain(call: Call, kind: u64, bytes: Vec<u8>) -> Record {
    Record {
        call,
        kind,
        today: EXAMPLE_DAY,
        element: 0,
        room: 0,
        lists: [0; 5],
        entries: 0,
        fill: 0,
        bytes,
        chuid: Vec::new(),
        piece: 0,
        offset: 0,
        size: 0,
        seen: Seen::default(),
    }
}

/// Certificates at their edges, each kind in turn: of 70 itself, of the length of 72, and of the whole container.
fn fixed_certificates() -> Vec<Record> {
    let kinds = certificate_kinds();
    let mut cards: Vec<Card> = Vec::new();
    let mut kind = kinds.iter().copied().cycle();
    let mut add = |certificate, extra| cards.extend(kind.next().map(|kind| certificate_card(kind, certificate, extra)));
    for certificate in trees::edges() {
        add(certificate, None);
    }
    for extra in [0, 1, 37, 38, 39, 40, 127, 128] {
        add(trees::least().bytes(), Some(extra));
    }
    // 13 bytes of the container are not the certificate's
    for total in [CONTAINER_MAX - 1, CONTAINER_MAX, CONTAINER_MAX + 1] {
        for _ in &kinds {
            add(trees::certificate_of_pairs(total - 13).expect("a certificate of so many bytes"), None);
        }
    }
    let check = |card: &Card| Record {
        room: card.sheet().len(),
        fill: 0xA5,
        ..plain(Call::Check, card.kind, card.container())
    };
    let write = |card: &Card| Record { room: 100, fill: 0xA5, ..plain(Call::Write, card.kind, card.sheet()) };
    cards.iter().map(check).chain(cards.iter().map(write)).collect()
}

/// The length of the sheet of a container that conforms on the example's day.
fn sheet_length(kind: u64, container: &[u8]) -> usize {
    card::check(kind, EXAMPLE_DAY, container, &mut [0; SHEET_ROOM]).length as usize
}

/// Checks with rooms at their edges, of a conforming container and of one whose last byte breaks a rule.
fn fixed_rooms(kind: u64) -> Vec<Record> {
    let container = small(kind);
    let mut broken = container.clone();
    *broken.last_mut().expect("no container is empty") ^= 1;
    let sheet = sheet_length(kind, &container);
    let enough = container.len() + 6;
    let mut out = Vec::new();
    for room in [0, 1, 2, sheet - 1, sheet, sheet + 1, enough, enough + 1, SHEET_ROOM] {
        for bytes in [&container, &broken] {
            out.push(Record { room, fill: 0xA5, ..plain(Call::Check, kind, bytes.clone()) });
        }
    }
    out
}

fn fixed_records() -> Vec<Record> {
    let mut out = Vec::new();
    let mut wrong = EXAMPLE_FASCN.to_vec();
    wrong[24] = 0xEA;
    for bytes in [EXAMPLE_FASCN.to_vec(), wrong] {
        out.push(Record { today: 0, ..plain(Call::FascnDecode, 0, bytes) });
    }
    out.push(encode_record(&[1234, 1, 5, 1, 1, 7, 1, 1234, 1], 25, 0xA5));
    for room in [24, 25] {
        out.push(encode_record(&[10_000, 1, 5, 1, 1, 7, 1, 1234, 1], room, 0xA5));
    }
    for expiry in [b"20300131", b"20320301", b"20320302", b"20260301", b"20260228", b"20280229", b"20290229"] {
        out.push(plain(Call::Check, 2, example_chuid(expiry)));
    }
    out.push(plain(Call::Check, 3, EXAMPLE_DISCOVERY.to_vec()));
    let mut wrong = EXAMPLE_DISCOVERY.to_vec();
    wrong[18] = 0x60;
    out.push(plain(Call::Check, 3, wrong));
    for kind in all_kinds() {
        let container = small(kind);
        for bytes in [
            Vec::new(),
            vec![0x53],
            vec![0x7E],
            vec![0x53, 0x00],
            vec![0x7E, 0x00],
            vec![0x53, 0x80],
            container.clone(),
        ] {
            out.push(plain(Call::Check, kind, bytes));
        }
        out.extend(fixed_rooms(kind));
        for room in [0, 511, 512, 513, 600] {
            out.push(Record { room, fill: 0xA5, ..plain(Call::Report, kind, container.clone()) });
            out.push(Record { room, fill: 0xA5, ..plain(Call::Report, kind, vec![0x53, 0x00]) });
        }
        for row in card::kind_of(kind).map_or(&[][..], |kind| kind.rows) {
            out.push(Record { element: u64::from(row.tag), ..plain(Call::View, kind, container.clone()) });
        }
        for element in [0x5F, 0x2F, 0x5F2F, 0xFE, 0, NO_TAG, u64::MAX] {
            out.push(Record { element, ..plain(Call::View, kind, container.clone()) });
        }
        if matches!(kind, 6 | 7 | 12) {
            for quality in [0xFD, 0xFE, 0xFF, 0x00, 0x64, 0x65, 0x7F, 0x80] {
                let mut bytes = container.clone();
                let header = bytes.iter().position(|&byte| byte == 0xBC).unwrap_or(0) + 3;
                let header = header - usize::from(bytes[header - 1] == 0x03);
                bytes[header + 40] = quality;
                out.push(plain(Call::Check, kind, bytes));
            }
        }
        for strange in [0, LAST_KIND + 1, u64::MAX] {
            for today in [EXAMPLE_DAY, 0] {
                out.push(Record {
                    kind: strange,
                    today,
                    ..plain(Call::Check, kind, vec![0; 32_769 * usize::from(kind == 1)])
                });
            }
        }
    }
    for today in [0, 10_101, 99991231, 20230229, 99999999, u64::MAX] {
        out.push(Record { today, ..plain(Call::Check, 3, EXAMPLE_DISCOVERY.to_vec()) });
        out.push(Record { today, room: 512, fill: 0xA5, ..plain(Call::Report, 3, EXAMPLE_DISCOVERY.to_vec()) });
    }
    out.extend(fixed_certificates());
    out.extend(dates::records());
    out.extend(faces::records());
    out.extend(fingers::records());
    out.extend(irises::records());
    out.extend(faults::records());
    out.extend(lengths::records());
    out.extend(longest::records());
    out.extend(pairs::records());
    out.extend(folders::records());
    out.extend(smears::records());
    out.extend(strings::records());
    out
}

/// A SECURITY of few bytes with two lengths in their longest form.
pub fn small_in_longest_forms() -> Vec<u8> {
    let rows = vec![Some(vec![7]), Some(vec![9; 128]), Some(Vec::new())];
    Card { kind: 5, today: EXAMPLE_DAY, rows }.container_in(&Forms::all(Form::Padded(LONGEST_FORM)))
}

/// Every container that differs from a small conforming one in one byte, and itself: checks, with a room that is as long as the
/// sheet of that one. And calls that fill lists, with as many entries as it has points, such as ask for a signer, with either
/// container changed, and such as go through a folder or write a row.
pub fn sweep<F: FnMut(&Record)>(mut take: F) {
    let small = all_kinds().map(|kind| (kind, small(kind)));
    for (kind, container) in small.chain([(5, small_in_longest_forms())]) {
        let room = sheet_length(kind, &container);
        take_each_byte(Record { room, fill: 0xA5, ..plain(Call::Check, kind, container) }, &mut take);
    }
    take_each_byte(fingers::small_record(), &mut take);
    for pair in pairs::small_records() {
        take_each_byte_of(pair.clone(), |record| &mut record.chuid, &mut take);
        take_each_byte(pair, &mut take);
    }
    for record in folders::small_records() {
        take_each_byte(record, &mut take);
    }
}

/// The call with each value of each byte that it is given.
fn take_each_byte<F: FnMut(&Record)>(record: Record, take: &mut F) {
    take_each_byte_of(record, |record| &mut record.bytes, take);
}

/// The call with each value of each byte of one of its inputs.
fn take_each_byte_of<F: FnMut(&Record)>(mut record: Record, input: fn(&mut Record) -> &mut Vec<u8>, take: &mut F) {
    for at in 0..input(&mut record).len() {
        let original = input(&mut record)[at];
        for value in 0..=255 {
            input(&mut record)[at] = value;
            take(&record);
        }
        input(&mut record)[at] = original;
    }
}
