//! The order's folder (2026-14), a file of containers: a count in two bytes, then for each container its kind in a byte, its length in
//! four, and its bytes. Counts and lengths are gone over first. Then each container gets a row, and two last lines say how many
//! conform and whether their FASC-N agree.

use crate::card::{self, Verdict, CONFORMS};
use crate::signer::{CHUID_KIND, FASCN_ROW, KINDS as BIOMETRIC_KINDS};
use crate::values::{self, FASCN_BYTES, HEADER_FASCN};
use crate::{number, page, CONTAINER_MAX};

/// A folder has at most this many containers.
pub const MOST_CONTAINERS: usize = 256;

/// The bytes of the count, and those of a kind with a length.
pub const COUNT_BYTES: usize = 2;
pub const HEAD_BYTES: usize = 5;

/// A row asks for a room of at least this many bytes, and so do the two last lines. The longest row is that of a kind of three digits
/// with an offset and a length of twenty each, and has 53 bytes; the longest last lines have 36.
pub const ROW_ROOM: usize = 64;

type Page<'a> = page::Page<'a, ROW_ROOM>;

// ---------------------------------------------------------------------------------------------
// The whole folder

/// A container in a folder: its kind, the offset of its first byte, and its length.
#[derive(Clone, Copy, Debug, PartialEq, Eq)]
pub struct Entry {
    pub kind: u8,
    pub offset: usize,
    pub size: usize,
}

impl Entry {
    pub fn container<'a>(&self, folder: &'a [u8]) -> &'a [u8] {
        &folder[self.offset..self.offset + self.size]
    }
}

/// The summary of a folder, or the number of its refusal.
pub fn folder(today: u64, folder: &[u8]) -> Result<Vec<u8>, u64> {
    if !values::is_date(today) {
        return Err(number::TODAY);
    }
    let entries = entries(folder).ok_or(number::FOLDER)?;
    let (mut text, mut seen, mut room) = (Vec::new(), Seen::default(), [0; ROW_ROOM]);
    for entry in entries {
        let (offset, size) = (entry.offset as u64, entry.size as u64);
        let (_, length) = row(today, entry.kind, offset, size, entry.container(folder), &mut seen, &mut room);
        text.extend(&room[..length as usize]);
    }
    let (_, length) = last(seen.good, seen.agreement, &mut room);
    text.extend(&room[..length as usize]);
    Ok(text)
}

/// The containers that a folder's bytes spell; none where it is cut short, has bytes left over or a count above 256.
pub fn entries(folder: &[u8]) -> Option<Vec<Entry>> {
    let mut entries = Vec::new();
    over(folder, |entry| entries.push(entry)).then_some(entries)
}

/// Goes over a folder's count and lengths and hands each container on; gives whether the bytes are a folder.
pub fn over<F: FnMut(Entry)>(folder: &[u8], entry: F) -> bool {
    spelled(folder, entry) == Some(folder.len())
}

/// Where the last container ends, if none is cut short.
fn spelled<F: FnMut(Entry)>(folder: &[u8], mut entry: F) -> Option<usize> {
    let count = usize::from(u16::from_be_bytes([*folder.first()?, *folder.get(1)?]));
    if count > MOST_CONTAINERS {
        return None;
    }
    let mut at = COUNT_BYTES;
    for _ in 0..count {
        let head = folder.get(at..at + HEAD_BYTES)?;
        let size = u32::from_be_bytes([head[1], head[2], head[3], head[4]]) as usize;
        at += HEAD_BYTES;
        // nothing is added to the length before it is known to be no larger than the folder
        if size > folder.len() - at {
            return None;
        }
        entry(Entry { kind: head[0], offset: at, size });
        at += size;
    }
    Some(at)
}

// ---------------------------------------------------------------------------------------------
// A container's row

/// What the rows of a folder have seen so far: how many containers conform; of the FASC-N in them 0 where there was none, 1 where all
/// are alike, and any other number where they differ; and the first of them.
#[derive(Clone, Copy, Debug, Default, PartialEq, Eq)]
pub struct Seen {
    pub good: u64,
    pub agreement: u64,
    pub fascn: [u8; FASCN_BYTES],
}

impl Seen {
    /// A container more that conforms, with its FASC-N where its kind has one.
    fn add(&mut self, fascn: Option<&[u8]>) {
        self.good = self.good.saturating_add(1);
        match (fascn, self.agreement) {
            (Some(fascn), 0) => {
                self.fascn.copy_from_slice(fascn);
                self.agreement = 1;
            }
            (Some(fascn), 1) if self.fascn != *fascn => self.agreement = 2,
            _ => (),
        }
    }
}

/// Writes the row of a container, which begins at this offset of the folder and has this length there, into the room: number and
/// length of the row. One over 32,768 bytes is told by its length alone, whatever is given of it.
pub fn row(
    today: u64,
    kind: u8,
    offset: u64,
    size: u64,
    container: &[u8],
    seen: &mut Seen,
    room: &mut [u8],
) -> (u64, u64) {
    into_room(room, |room| {
        if !values::is_date(today) {
            return Err(number::TODAY);
        }
        let mut page = Page::of(room).ok_or(number::ROOM)?;
        let (verdict, fascn) = judged(today, u64::from(kind), size, container)?;
        if verdict == CONFORMS {
            seen.add(fascn);
        }
        for number in [u64::from(kind), offset, size] {
            page.decimal(number, 1);
            page.bytes(b" ");
        }
        page.verdict(verdict);
        Ok(page.length())
    })
}

/// The verdict on a container of a folder, with its FASC-N where it conforms and has one. An unknown kind wins over a length that is
/// too long.
fn judged(today: u64, kind: u64, size: u64, container: &[u8]) -> Result<(Verdict, Option<&[u8]>), u64> {
    let too_long = size > CONTAINER_MAX as u64;
    if !too_long && container.len() as u64 != size {
        return Err(number::FOLDER);
    }
    if card::kind_of(kind).is_none() {
        return Ok((card::without_place(number::KIND), None));
    }
    if too_long {
        return Ok((card::without_place(number::TOO_LONG), None));
    }
    let mut fascn = None;
    let outcome = card::checked(kind, today, container, |row, start, end| {
        if kind == CHUID_KIND && row == FASCN_ROW {
            fascn = Some(&container[start..end]);
        } else if BIOMETRIC_KINDS.contains(&kind) && row == 0 {
            // BC is the first row
            fascn = Some(&container[start..end][HEADER_FASCN]);
        }
    });
    Ok(match outcome {
        Ok(_) => (CONFORMS, fascn),
        Err(broken) => (broken, None),
    })
}

/// Writes the two last lines into the room: number and length of both.
pub fn last(good: u64, agreement: u64, room: &mut [u8]) -> (u64, u64) {
    into_room(room, |room| {
        let mut page = Page::of(room).ok_or(number::ROOM)?;
        page.line("good", good, 1);
        page.text(if agreement <= 1 { "agree yes\n" } else { "agree no\n" });
        Ok(page.length())
    })
}

/// Zeros are behind what is written, or in the whole room after a refusal.
fn into_room(room: &mut [u8], write: impl FnOnce(&mut [u8]) -> Result<usize, u64>) -> (u64, u64) {
    let (number, length) = match write(room) {
        Ok(length) => (number::DONE, length),
        Err(number) => (number, 0),
    };
    room[length..].fill(0);
    (number, length as u64)
}
