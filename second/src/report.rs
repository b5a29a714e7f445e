//! The desk report and the desk program.

use crate::card::{self, Row, Spans, LAST_KIND};
use crate::{number, page, values, CONTAINER_MAX, REPORT_MAX};

/// No report fills its page.
type Page<'a> = page::Page<'a, REPORT_MAX>;

/// How many bytes the longest report on a container of each kind has. It is that of a container which conforms, has every row,
/// and has each row at a length with the most digits. The lines `CARD 4`, today, `verdict 0 0 --` and `OPEN n`, and the words
/// of the other three with their spaces and ends, make 67 bytes; then come the name, the digits of the container's length and
/// of the count of elements, four bytes and the digits of its length for each element, two more for a tag of two bytes, and the
/// open values, of which no line has two lengths:
///
/// | Kind | 67 + name | bytes | count | elements | open |
/// |---|---|---|---|---|---|
/// | CCC | 67 + 3 | 3 | 2 | 15 of 4, digits 2 1 1 3 1 1 2, five of 1, 2 2 1 | 9 |
/// | CHUID | 67 + 5 | 5 | 1 | 9 of 4, digits 1 2 1 1 2 1 2 5 1 | 12 + 12 + 17 |
/// | DISCOVERY | 67 + 9 | 2 | 1 | 2 of 4, digits 2 1, and 2 | 12 |
/// | PRINTED | 67 + 7 | 3 | 1 | 8 of 4, digits 3 2 1 2 2 2 2 1 | 23 |
/// | SECURITY | 67 + 8 | 4 | 1 | 3 of 4, digits 2 4 1 | 0 |
/// | FINGERS, FACE, IRIS | 67 + 7, 4, 4 | 5 | 1 | 2 of 4, digits 5 1 | 12 + 12 |
/// | PIVAUTH, DIGSIG, KEYMGMT, CARDAUTH | 67 + 7, 6, 7, 8 | 5 | 1 | 4 of 4, digits 5 1 2 1 | 0 |
///
/// A longer form of a length changes no count of digits: a CCC has 306 bytes at the most, a PRINTED 251 and a SECURITY 1,344.
/// Those that are refused have shorter reports, see [`LONGEST_REFUSED`]. A kind that is added has to keep to [`REPORT_MAX`].
pub const LONGEST: [usize; LAST_KIND as usize] = [165, 171, 104, 148, 99, 118, 115, 105, 104, 105, 106, 115];

/// The same of the containers that are refused. The words and their ends, `CARD 4`, today, the two sections without a line, and
/// a number of two digits make 66 bytes; then come the name, up to five digits of the container's length, those of the place,
/// and the tag or two hyphens. A place is where conforming elements end: these have under 1,000 bytes in a CCC and a PRINTED,
/// under 10,000 in a SECURITY and under 100 in a DISCOVERY, whose tag of two bytes has four digits; in every other kind there
/// is one that can be as long as the container allows.
pub const LONGEST_REFUSED: [usize; LAST_KIND as usize] = [79, 83, 86, 83, 85, 85, 82, 85, 84, 85, 86, 82];

/// Writes the report on a container into the room: number and length of the report.
pub fn report(kind: u64, today: u64, container: &[u8], room: &mut [u8]) -> (u64, u64) {
    match try_report(kind, today, container, room) {
        Ok(length) => {
            room[length..].fill(0);
            (number::DONE, length as u64)
        }
        Err(number) => {
            room.fill(0);
            (number, 0)
        }
    }
}

fn try_report(kind_number: u64, today: u64, container: &[u8], room: &mut [u8]) -> Result<usize, u64> {
    let kind = card::admit(kind_number, today)?;
    let mut page = Page::of(room).ok_or(number::ROOM)?;
    if container.len() > CONTAINER_MAX {
        return Err(number::TOO_LONG);
    }

    let mut spans = Spans::none();
    let mut count = 0;
    let outcome = card::walk(kind, today, container, |row, start, end| {
        spans.set(row, start, end);
        count += 1;
    });

    page.text("CARD 4\nkind ");
    page.text(kind.name);
    page.end_line();
    page.line("bytes", container.len() as u64, 1);
    page.line("today", today, 8);
    if let Err(broken) = outcome {
        page.text("verdict ");
        page.verdict(broken);
        page.text("ELEMENTS 0\nOPEN 0\n");
    } else {
        page.text("verdict 0 0 --\n");
        page.line("ELEMENTS", count, 1);
        elements(&mut page, kind.rows, |row| spans.value(row, container));
        open_values(&mut page, kind_number, |tag| {
            let row = kind.rows.iter().position(|row| row.tag == tag);
            row.and_then(|row| spans.value(row, container)).unwrap_or(&[])
        });
    }
    Ok(page.length())
}

/// The lines of the section ELEMENTS of a conforming container, whose values `value` finds by row.
fn elements<'a, F>(page: &mut Page, rows: &[Row], value: F)
where
    F: Fn(usize) -> Option<&'a [u8]>,
{
    for (i, row) in rows.iter().enumerate() {
        if let Some(value) = value(i) {
            page.tag(row.tag);
            page.bytes(b" ");
            page.decimal(value.len() as u64, 1);
            page.end_line();
        }
    }
}

/// The section OPEN of a conforming container, whose mandatory values `value` finds by tag.
fn open_values<'a, F>(page: &mut Page, kind: u64, value: F)
where
    F: Fn(u16) -> &'a [u8],
{
    match kind {
        1 => {
            page.text("OPEN 1\nmodel ");
            page.hex(value(0xF5));
            page.end_line();
        }
        2 => {
            page.text("OPEN 3\n");
            agency_and_system(page, value(0x30));
            page.text("expires ");
            page.bytes(value(0x35));
            page.end_line();
        }
        3 => {
            page.text("OPEN 1\npolicy ");
            page.hex(value(0x5F2F));
            page.end_line();
        }
        4 => {
            page.text("OPEN 1\nissuer ");
            page.bytes(value(0x06));
            page.end_line();
        }
        6 | 7 | 12 => {
            page.text("OPEN 2\n");
            agency_and_system(page, &value(0xBC)[values::HEADER_FASCN]);
        }
        _ => page.text("OPEN 0\n"),
    }
}

fn agency_and_system(page: &mut Page, fascn: &[u8]) {
    let (_, numbers) = values::fascn_decode(fascn);
    page.line("agency", numbers[0], 4);
    page.line("system", numbers[1], 4);
}

/// The bytes of standard input that the desk program looks at.
pub const DESK_INPUT_MAX: usize = CONTAINER_MAX + 11;

/// What the desk program prints for its standard input.
pub fn desk(input: &[u8]) -> Vec<u8> {
    let mut room = [0u8; REPORT_MAX];
    match try_desk(input, &mut room) {
        Ok(length) => room[..length as usize].to_vec(),
        Err(number) => format!("refused {}\n", number).into_bytes(),
    }
}

fn try_desk(input: &[u8], room: &mut [u8]) -> Result<u64, u64> {
    let kind =
        input.get(..2).and_then(values::digits).filter(|&kind| card::kind_of(kind).is_some()).ok_or(number::KIND)?;
    let today = input.get(2..10).and_then(values::eight_digits).ok_or(number::TODAY)?;
    match report(kind, today, &input[10..], room) {
        (number::DONE, length) => Ok(length),
        (number, _) => Err(number),
    }
}
