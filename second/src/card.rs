//! Containers: check, with the value sheet of one that conforms, write from a value sheet, view of one element.

use crate::values;
use crate::{number, CONTAINER_MAX};
use std::ops::RangeInclusive;

/// A verdict: its number, its place, and the tag that it names, where it names one. A tag over FF has two bytes, any other has one.
pub type Verdict = (u64, u64, Option<u16>);

/// That of a container that conforms, and of a call that is done.
pub const CONFORMS: Verdict = without_place(number::DONE);

/// A number that carries no place, and so no tag.
pub(crate) const fn without_place(number: u64) -> Verdict {
    (number, 0, None)
}

/// What is asked of an element's value beyond its length.
#[derive(Clone, Copy, Debug, PartialEq, Eq)]
pub enum Rule {
    Any,
    Exactly(&'static [u8]),
    Fascn,
    Uuid,
    Expiry,
    PrintedDate,
    Policy,
    Text,
    Fingers,
    Face,
    Iris,
    Certificate,
}

/// A row of a kind's table.
#[derive(Clone, Copy, Debug)]
pub struct Row {
    pub tag: u16,
    pub optional: bool,
    pub shortest: usize,
    pub longest: usize,
    /// Length 0 is permitted too.
    pub or_empty: bool,
    pub rule: Rule,
}

const fn row(tag: u16, shortest: usize, longest: usize, rule: Rule) -> Row {
    Row { tag, optional: false, shortest, longest, or_empty: false, rule }
}

const fn fixed(tag: u16, length: usize, rule: Rule) -> Row {
    row(tag, length, length, rule)
}

impl Row {
    const fn optional(self) -> Row {
        Row { optional: true, ..self }
    }

    const fn or_empty(self) -> Row {
        Row { or_empty: true, ..self }
    }

    pub fn permits(&self, length: usize) -> bool {
        (self.shortest <= length && length <= self.longest) || (self.or_empty && length == 0)
    }

    /// 0, or the number of the first rule that the value breaks: that of its length, and then its own.
    fn judge(&self, value: &[u8], today: u64) -> u64 {
        if !self.permits(value.len()) {
            return number::ELEMENT_LENGTH;
        }
        let (good, number) = match self.rule {
            Rule::Any => return number::DONE,
            Rule::Exactly(bytes) => (value == bytes, number::FIXED),
            Rule::Fascn => (values::is_fascn(value), number::FASCN),
            Rule::Uuid => (values::is_uuid(value), number::UUID),
            Rule::Expiry => (values::is_expiry(value, today), number::DATE),
            Rule::PrintedDate => (values::is_printed_date(value), number::DATE),
            Rule::Policy => (values::is_policy(value), number::FIXED),
            Rule::Text => (values::is_text(value), number::TEXT),
            Rule::Fingers => return values::biometric(value, &values::FINGERS),
            Rule::Face => return values::biometric(value, &values::FACE),
            Rule::Iris => return values::biometric(value, &values::IRIS),
            Rule::Certificate => return values::certificate(value),
        };
        if good {
            number::DONE
        } else {
            number
        }
    }
}

/// A kind of container: its name, outer tag and rows.
#[derive(Debug)]
pub struct Kind {
    pub name: &'static str,
    pub outer: u8,
    pub rows: &'static [Row],
}

/// No kind has more rows.
pub const ROWS_MAX: usize = 15;

const MANY: usize = usize::MAX;
const CHECKSUM: Row = fixed(0xFE, 0, Rule::Any);
const AID: &[u8] = &[0xA0, 0x00, 0x00, 0x03, 0x08, 0x00, 0x00, 0x10, 0x00, 0x01, 0x00];

/// The one table of the certificates.
const CERTIFICATE: &[Row] = &[
    row(0x70, 0, MANY, Rule::Certificate),
    fixed(0x71, 1, Rule::Exactly(&[0x00])),
    row(0x72, 0, 38, Rule::Any).optional(),
    CHECKSUM,
];

/// Kinds are counted from 1 to this one.
pub const LAST_KIND: u64 = 12;

static KINDS: [Kind; LAST_KIND as usize] = [
    Kind {
        name: "CCC",
        outer: 0x53,
        rows: &[
            fixed(0xF0, 21, Rule::Any).or_empty(),
            row(0xF1, 0, 1, Rule::Any),
            row(0xF2, 0, 1, Rule::Any),
            row(0xF3, 0, 128, Rule::Any),
            row(0xF4, 0, 1, Rule::Any),
            fixed(0xF5, 1, Rule::Exactly(&[0x10])),
            fixed(0xF6, 17, Rule::Any).or_empty(),
            fixed(0xF7, 0, Rule::Any),
            fixed(0xFA, 0, Rule::Any),
            fixed(0xFB, 0, Rule::Any),
            fixed(0xFC, 0, Rule::Any),
            fixed(0xFD, 0, Rule::Any),
            fixed(0xE3, 48, Rule::Any).optional(),
            fixed(0xB4, 48, Rule::Any).optional(),
            CHECKSUM,
        ],
    },
    Kind {
        name: "CHUID",
        outer: 0x53,
        rows: &[
            fixed(0xEE, 2, Rule::Any).optional(),
            fixed(0x30, 25, Rule::Fascn),
            fixed(0x32, 4, Rule::Any).optional(),
            fixed(0x33, 9, Rule::Any).optional(),
            fixed(0x34, 16, Rule::Uuid),
            fixed(0x35, 8, Rule::Expiry),
            fixed(0x36, 16, Rule::Uuid).optional(),
            row(0x3E, 0, MANY, Rule::Any),
            CHECKSUM,
        ],
    },
    Kind {
        name: "DISCOVERY",
        outer: 0x7E,
        rows: &[fixed(0x4F, 11, Rule::Exactly(AID)), fixed(0x5F2F, 2, Rule::Policy)],
    },
    Kind {
        name: "PRINTED",
        outer: 0x53,
        rows: &[
            row(0x01, 0, 125, Rule::Text),
            row(0x02, 0, 20, Rule::Text),
            fixed(0x04, 9, Rule::PrintedDate),
            row(0x05, 0, 20, Rule::Text),
            fixed(0x06, 15, Rule::Text),
            row(0x07, 0, 20, Rule::Text).optional(),
            row(0x08, 0, 20, Rule::Text).optional(),
            CHECKSUM,
        ],
    },
    Kind {
        name: "SECURITY",
        outer: 0x53,
        rows: &[row(0xBA, 0, 30, Rule::Any), row(0xBB, 0, 1_298, Rule::Any), CHECKSUM],
    },
    Kind { name: "FINGERS", outer: 0x53, rows: &[row(0xBC, values::HEADER_BYTES, MANY, Rule::Fingers), CHECKSUM] },
    Kind { name: "FACE", outer: 0x53, rows: &[row(0xBC, values::HEADER_BYTES, MANY, Rule::Face), CHECKSUM] },
    Kind { name: "PIVAUTH", outer: 0x53, rows: CERTIFICATE },
    Kind { name: "DIGSIG", outer: 0x53, rows: CERTIFICATE },
    Kind { name: "KEYMGMT", outer: 0x53, rows: CERTIFICATE },
    Kind { name: "CARDAUTH", outer: 0x53, rows: CERTIFICATE },
    Kind { name: "IRIS", outer: 0x53, rows: &[row(0xBC, values::HEADER_BYTES, MANY, Rule::Iris), CHECKSUM] },
];

/// Every kind, in order.
pub fn all_kinds() -> RangeInclusive<u64> {
    1..=LAST_KIND
}

/// The kind's table; none for a number that is no kind.
pub fn kind_of(kind: u64) -> Option<&'static Kind> {
    let index = usize::try_from(kind.checked_sub(1)?).ok()?;
    KINDS.get(index)
}

/// The kind's table, if the first two rules of every call hold.
pub fn admit(kind: u64, today: u64) -> Result<&'static Kind, u64> {
    let kind = kind_of(kind).ok_or(number::KIND)?;
    if values::is_date(today) {
        Ok(kind)
    } else {
        Err(number::TODAY)
    }
}

/// The value and the byte count of the length field at the front of `bytes`. A byte up to 7F is the length itself; a longer one
/// stands behind 81 to 84 in as many bytes, whether or not fewer would hold it.
pub fn length_at(bytes: &[u8]) -> Option<(usize, usize)> {
    let (length, taken) = match *bytes {
        [short @ 0..=0x7F, ..] => return Some((usize::from(short), 1)),
        [0x81, a, ..] => ([0, 0, 0, a], 2),
        [0x82, a, b, ..] => ([0, 0, a, b], 3),
        [0x83, a, b, c, ..] => ([0, a, b, c], 4),
        [0x84, a, b, c, d, ..] => ([a, b, c, d], 5),
        _ => return None,
    };
    let length = u32::from_be_bytes(length) as usize;
    // what one byte holds has no other form
    if length > 0x7F {
        Some((length, taken))
    } else {
        None
    }
}

/// Where the values of a container's or a sheet's elements lie, by row.
pub struct Spans([Option<(usize, usize)>; ROWS_MAX]);

impl Spans {
    pub fn none() -> Spans {
        Spans([None; ROWS_MAX])
    }

    pub fn set(&mut self, row: usize, start: usize, end: usize) {
        self.0[row] = Some((start, end));
    }

    /// The value in row `row` of the bytes that the spans belong to.
    pub fn value<'a>(&self, row: usize, of: &'a [u8]) -> Option<&'a [u8]> {
        self.0[row].map(|(start, end)| &of[start..end])
    }
}

/// Where the content starts, if the outer tag and length are right. What is wrong with them carries no tag.
#[inline]
fn content_start(kind: &Kind, container: &[u8]) -> Result<usize, u64> {
    if container.first() != Some(&kind.outer) {
        return Err(number::OUTER_TAG);
    }
    let (content, taken) = length_at(&container[1..]).ok_or(number::LENGTH_FORM)?;
    let start = 1 + taken;
    if content == container.len() - start {
        Ok(start)
    } else {
        Err(number::PAST_END)
    }
}

/// The row of a tag, where the rows before `next` are behind.
#[inline]
fn row_of(rows: &[Row], next: usize, tag: u16) -> Result<usize, u64> {
    let here = match rows[next..].iter().position(|row| row.tag == tag) {
        Some(skipped) => next + skipped,
        None if rows[..next].iter().any(|row| row.tag == tag) => return Err(number::ORDER),
        None => return Err(number::UNKNOWN_TAG),
    };
    if rows[next..here].iter().all(|row| row.optional) {
        Ok(here)
    } else {
        Err(number::MISSING)
    }
}

/// Goes over a container in the order of the rules and hands each conforming element on as its
/// row, start and end of value; gives the first broken rule. 1, 2 and 4 are judged before.
#[inline]
pub fn walk<F>(kind: &'static Kind, today: u64, container: &[u8], mut element: F) -> Result<(), Verdict>
where
    F: FnMut(usize, usize, usize),
{
    let mut at = content_start(kind, container).map_err(without_place)?;
    let end = container.len();
    let rows = kind.rows;
    let mut next = 0;
    while at < end {
        let place = at as u64;
        let (tag, tag_bytes) = match container[at..] {
            [0x5F, 0x2F, ..] if kind.outer == 0x7E => (0x5F2F, 2),
            _ => (u16::from(container[at]), 1),
        };
        // whatever is wrong from here on is named by the tag found, also where another was expected or where it is none
        let broken = |number| (number, place, Some(tag));
        let here = row_of(rows, next, tag).map_err(broken)?;
        at += tag_bytes;
        let (length, taken) = length_at(&container[at..]).ok_or(broken(number::LENGTH_FORM))?;
        at += taken;
        // nothing is added to the length before it is known to be no larger than the container
        if length > end - at {
            return Err(broken(number::PAST_END));
        }
        let number = rows[here].judge(&container[at..at + length], today);
        if number != number::DONE {
            return Err(broken(number));
        }
        element(here, at, at + length);
        at += length;
        next = here + 1;
    }
    if rows[next..].iter().any(|row| !row.optional) {
        // nothing was found here that could be named
        return Err((number::MISSING, end as u64, None));
    }
    Ok(())
}

/// All that check asks, before the elements go to `element`.
pub(crate) fn checked<F>(kind: u64, today: u64, container: &[u8], element: F) -> Result<&'static Kind, Verdict>
where
    F: FnMut(usize, usize, usize),
{
    let kind = admit(kind, today).map_err(without_place)?;
    if container.len() > CONTAINER_MAX {
        return Err(without_place(number::TOO_LONG));
    }
    walk(kind, today, container, element)?;
    Ok(kind)
}

/// What check answers.
#[derive(Clone, Copy, Debug, PartialEq, Eq)]
pub struct Checked {
    /// The verdict's number, place and tag.
    pub number: u64,
    pub place: u64,
    pub tag: Option<u16>,
    /// 3 beside a verdict of 0 where the room is shorter than the sheet; else 0.
    pub room: u64,
    /// The length of the sheet; 0 where none was written.
    pub length: u64,
}

/// Gives the verdict on a container and, where that is 0 and the room suffices, writes the container's value sheet into the
/// room. Zeros are behind the sheet, or in the whole room where none is written.
pub fn check(kind: u64, today: u64, container: &[u8], room: &mut [u8]) -> Checked {
    let mut spans = Spans::none();
    let mut values = 0;
    let outcome = checked(kind, today, container, |row, start, end| {
        spans.set(row, start, end);
        values += end - start;
    });
    let ((number, place, tag), short, length) = match outcome {
        Err(broken) => (broken, number::DONE, 0),
        Ok(kind) if room.len() < 2 * kind.rows.len() + values => (CONFORMS, number::ROOM, 0),
        Ok(kind) => (CONFORMS, number::DONE, put_sheet(kind, &spans, container, room)),
    };
    room[length..].fill(0);
    Checked { number, place, tag, room: short, length: length as u64 }
}

/// Writes the sections of a conforming container's sheet into a room that suffices, and gives the length of them all.
fn put_sheet(kind: &Kind, spans: &Spans, container: &[u8], room: &mut [u8]) -> usize {
    let mut at = 0;
    for row in 0..kind.rows.len() {
        match spans.value(row, container) {
            None => {
                room[at..at + 2].fill(0);
                at += 2;
            }
            Some(value) => {
                room[at..at + 2].copy_from_slice(&(value.len() as u16 + 1).to_be_bytes());
                at += 2;
                room[at..at + value.len()].copy_from_slice(value);
                at += value.len();
            }
        }
    }
    at
}

/// Writes the container that a value sheet describes, each length in the fewest bytes: the verdict, and the length of the
/// container. Zeros are behind it, or in the whole room after a refusal.
pub fn write(kind: u64, today: u64, sheet: &[u8], room: &mut [u8]) -> (Verdict, u64) {
    let (verdict, length) = match try_write(kind, today, sheet, room) {
        Ok(length) => (CONFORMS, length),
        Err(refusal) => (refusal, 0),
    };
    room[length..].fill(0);
    (verdict, length as u64)
}

fn try_write(kind: u64, today: u64, sheet: &[u8], room: &mut [u8]) -> Result<usize, Verdict> {
    let kind = admit(kind, today).map_err(without_place)?;
    let spans = sections(kind.rows.len(), sheet).ok_or(without_place(number::SHEET))?;
    let content = content_of(kind, today, sheet, &spans)?;
    let total = 1 + length_bytes(content) + content;
    if total > CONTAINER_MAX {
        return Err(without_place(number::TOO_LONG));
    }
    if room.len() < total {
        return Err(without_place(number::ROOM));
    }

    room[0] = kind.outer;
    let mut at = 1 + put_length(content, &mut room[1..]);
    for (i, row) in kind.rows.iter().enumerate() {
        if let Some(value) = spans.value(i, sheet) {
            at += put_element(row.tag, value, &mut room[at..]);
        }
    }
    Ok(at)
}

/// How many bytes the elements of a sheet have together, if its rows keep the rules.
#[inline]
fn content_of(kind: &Kind, today: u64, sheet: &[u8], spans: &Spans) -> Result<usize, Verdict> {
    let mut content = 0;
    let mut at = 0;
    for (i, row) in kind.rows.iter().enumerate() {
        let place = at as u64;
        // a sheet has a section for every row, so that a missing one has its place too
        let broken = |number| (number, place, Some(row.tag));
        at += 2;
        let value = match spans.value(i, sheet) {
            Some(value) => value,
            None if row.optional => continue,
            None => return Err(broken(number::MISSING)),
        };
        let number = row.judge(value, today);
        if number != number::DONE {
            return Err(broken(number));
        }
        at += value.len();
        content += tag_bytes(row.tag) + length_bytes(value.len()) + value.len();
    }
    Ok(content)
}

/// Where the sections of a sheet of so many rows lie, if the sheet is neither short nor long.
fn sections(rows: usize, sheet: &[u8]) -> Option<Spans> {
    let mut spans = Spans::none();
    let mut at = 0;
    for row in 0..rows {
        let count = usize::from(u16::from_be_bytes([*sheet.get(at)?, *sheet.get(at + 1)?]));
        at += 2;
        if count > 0 {
            let length = count - 1;
            if length > sheet.len() - at {
                return None;
            }
            spans.set(row, at, at + length);
            at += length;
        }
    }
    if at == sheet.len() {
        Some(spans)
    } else {
        None
    }
}

fn tag_bytes(tag: u16) -> usize {
    if tag > 0xFF {
        2
    } else {
        1
    }
}

/// How many bytes a length takes that is written: the fewest.
fn length_bytes(length: usize) -> usize {
    match length {
        0..=0x7F => 1,
        0x80..=0xFF => 2,
        _ => 3,
    }
}

fn put_length(length: usize, out: &mut [u8]) -> usize {
    let [high, low] = (length as u16).to_be_bytes();
    match length_bytes(length) {
        1 => out[0] = low,
        2 => out[..2].copy_from_slice(&[0x81, low]),
        _ => out[..3].copy_from_slice(&[0x82, high, low]),
    }
    length_bytes(length)
}

fn put_element(tag: u16, value: &[u8], out: &mut [u8]) -> usize {
    let mut at = tag_bytes(tag);
    out[..at].copy_from_slice(&tag.to_be_bytes()[2 - at..]);
    at += put_length(value.len(), &mut out[at..]);
    out[at..at + value.len()].copy_from_slice(value);
    at + value.len()
}

/// The value of the element with this tag, as a part of the container: the verdict, and the part.
pub fn view(kind: u64, today: u64, container: &[u8], element: u64) -> (Verdict, &[u8]) {
    let mut found = None;
    let outcome = match kind_of(kind) {
        Some(table) => {
            let wanted = table.rows.iter().position(|row| u64::from(row.tag) == element);
            checked(kind, today, container, |row, start, end| {
                if Some(row) == wanted {
                    found = Some((start, end));
                }
            })
        }
        None => Err(without_place(number::KIND)),
    };
    match (outcome, found) {
        (Err(broken), _) => (broken, &container[..0]),
        (Ok(_), None) => (without_place(number::NO_ELEMENT), &container[..0]),
        (Ok(_), Some((start, end))) => (CONFORMS, &container[start..end]),
    }
}
