//! The calls of a batch, what is answered to them, and how often each number is.

use crate::card::{self, Checked};
use crate::folder::{self, Seen};
use crate::generate::Rng;
use crate::{number, points, report, signer, values, Decoded, Which};
use std::collections::BTreeMap;
use std::fmt;

#[derive(Clone, Copy, Debug, PartialEq, Eq, PartialOrd, Ord)]
pub enum Call {
    Check,
    Write,
    View,
    Report,
    Lists,
    Signer,
    FascnDecode,
    FascnDecodeByTable,
    FascnEncode,
    Folder,
    Row,
    Last,
}

impl Call {
    pub const ALL: [Call; 12] = [
        Call::Check,
        Call::Write,
        Call::View,
        Call::Report,
        Call::Lists,
        Call::Signer,
        Call::FascnDecode,
        Call::FascnDecodeByTable,
        Call::FascnEncode,
        Call::Folder,
        Call::Row,
        Call::Last,
    ];

    pub fn name(self) -> &'static str {
        match self {
            Call::Check => "check",
            Call::Write => "write",
            Call::View => "view",
            Call::Report => "report",
            Call::Lists => "lists",
            Call::Signer => "signer",
            Call::FascnDecode => "decode",
            Call::FascnDecodeByTable => "decode by table",
            Call::FascnEncode => "encode",
            Call::Folder => "folder",
            Call::Row => "row",
            Call::Last => "last",
        }
    }
}

/// No record has a larger room, more bytes, or a list of more numbers or entries. A folder may have more, which comes in pieces.
pub const ROOM_MAX: usize = 70_000;
pub const BYTES_MAX: usize = 66_000;
pub const LIST_MAX: usize = 1_000;
pub const ENTRIES_MAX: usize = 500;
pub const FOLDER_MAX: usize = 200_000;

/// A folder comes in pieces of so many bytes: of one, as a program reads a file, or each of another size.
pub const PIECES: [usize; 3] = [1, 65_536, ANY_SIZES];

/// What stands for pieces of any sizes, of which some are empty.
pub const ANY_SIZES: usize = 0;

/// A call with all that it is given.
#[derive(Clone, Debug, PartialEq, Eq)]
pub struct Record {
    pub call: Call,
    /// The call that fills lists has none: there it is [`points::KIND`], by which that call checks. That of a row is a byte. A folder
    /// and its last lines have none.
    pub kind: u64,
    pub today: u64,
    /// The tag of the element that a view asks for.
    pub element: u64,
    /// The size of the room.
    pub room: usize,
    /// How many numbers each of the five lists has.
    pub lists: [usize; 5],
    /// How many entries the list has that strings are decoded into.
    pub entries: usize,
    /// What the room or the lists hold before the second program's call, in each byte.
    pub fill: u8,
    /// The container, the sheet or the FASC-N; strings of 25 bytes one after the other; nine numbers of eight bytes for an encoding;
    /// the biometric whose signer is asked for; the whole folder.
    pub bytes: Vec<u8>,
    /// The CHUID that goes with that biometric. No other call has a second container: there it is empty.
    pub chuid: Vec<u8>,
    /// Of how many bytes the pieces are in which a folder comes, as [`PIECES`] has them.
    pub piece: usize,
    /// Where a row's container begins in its folder, and how many bytes it has there.
    pub offset: u64,
    pub size: u64,
    /// What the rows before have seen, and those before the last lines.
    pub seen: Seen,
}

/// All that a call answers; 0 or nothing for what it does not answer.
#[derive(Clone, Debug, Default, PartialEq, Eq)]
pub struct Answer {
    pub number: u64,
    pub place: u64,
    /// The tag that the verdict names. A report, a decoding and an encoding name none.
    pub tag: Option<u16>,
    /// A check's 3 for a room that is too short, beside a verdict of 0.
    pub short: u64,
    /// The container that a certificate lies in or a refusal is about, as a number: 1 the CHUID, 2 the biometric.
    pub which: u64,
    /// Where the part starts in the container: that of a view, or a certificate in the one that is named.
    pub offset: u64,
    /// The length of what was written into the room, or of the part.
    pub length: u64,
    /// The bytes of the part.
    pub part: Vec<u8>,
    /// The nine numbers of a FASC-N.
    pub numbers: [u64; 9],
    /// What each of several strings answers: the list whole, to its end.
    pub decoded: Vec<Decoded>,
    /// The whole room, to its end.
    pub room: Vec<u8>,
    /// How many points the first view has, and the second.
    pub counts: points::Counts,
    /// Their types, x, y, angles and qualities: each list whole, to its end.
    pub lists: [Vec<u64>; 5],
    /// The whole summary of a folder; nothing where that is refused.
    pub text: Vec<u8>,
    /// What the rows have seen, with this one.
    pub seen: Seen,
}

impl Record {
    /// The nine numbers that an encoding is given.
    pub fn numbers(&self) -> [u64; 9] {
        let mut numbers = [0; 9];
        for (slot, eight) in numbers.iter_mut().zip(self.bytes.chunks(8)) {
            *slot = eight.iter().fold(0, |n, &byte| n << 8 | u64::from(byte));
        }
        numbers
    }

    /// Makes the call.
    pub fn answer(&self) -> Answer {
        let (kind, today, bytes) = (self.kind, self.today, &self.bytes[..]);
        let mut room = vec![self.fill; self.room];
        match self.call {
            Call::Check => {
                let Checked { number, place, tag, room: short, length } = card::check(kind, today, bytes, &mut room);
                Answer { number, place, tag, short, length, room, ..Answer::default() }
            }
            Call::Write => {
                let ((number, place, tag), length) = card::write(kind, today, bytes, &mut room);
                Answer { number, place, tag, length, room, ..Answer::default() }
            }
            Call::View => {
                let ((number, place, tag), part) = card::view(kind, today, bytes, self.element);
                Answer { number, place, tag, ..part_of(bytes, part) }
            }
            Call::Report => {
                let (number, length) = report::report(kind, today, bytes, &mut room);
                Answer { number, length, room, ..Answer::default() }
            }
            Call::Lists => {
                let old = u64::from_ne_bytes([self.fill; 8]);
                let mut lists = self.lists.map(|size| vec![old; size]);
                let [types, xs, ys, angles, qualities] = &mut lists;
                let ((number, place, tag), counts) = points::lists(today, bytes, [types, xs, ys, angles, qualities]);
                Answer { number, place, tag, counts, lists, ..Answer::default() }
            }
            Call::Signer => {
                let ((number, place, tag), which, part) = signer::signer(kind, today, &self.chuid, bytes);
                // a refusal's part is the biometric's, whichever container it is about
                let in_chuid = number == number::DONE && which == Which::Chuid;
                let container = if in_chuid { &self.chuid } else { bytes };
                Answer { number, place, tag, which: which as u64, ..part_of(container, part) }
            }
            Call::FascnDecode => {
                let (number, numbers) = values::fascn_decode(bytes);
                Answer { number, numbers, ..Answer::default() }
            }
            Call::FascnDecodeByTable => {
                let old = u64::from_ne_bytes([self.fill; 8]);
                let mut decoded = vec![Decoded { number: old, numbers: [old; 9] }; self.entries];
                let number = values::fascn_decode_many(bytes, &mut decoded);
                Answer { number, decoded, ..Answer::default() }
            }
            Call::FascnEncode => {
                let number = values::fascn_encode(&self.numbers(), &mut room);
                Answer { number, room, ..Answer::default() }
            }
            Call::Folder => match folder::folder(today, bytes) {
                Ok(text) => Answer { text, ..Answer::default() },
                Err(number) => Answer { number, ..Answer::default() },
            },
            Call::Row => {
                let mut seen = self.seen;
                let (kind, offset, size) = (kind as u8, self.offset, self.size);
                let (number, length) = folder::row(today, kind, offset, size, bytes, &mut seen, &mut room);
                Answer { number, length, room, seen, ..Answer::default() }
            }
            Call::Last => {
                let (number, length) = folder::last(self.seen.good, self.seen.agreement, &mut room);
                Answer { number, length, room, ..Answer::default() }
            }
        }
    }
}

/// The pieces of so many bytes in which a folder comes. Those of any sizes depend on its length alone.
pub fn pieces(folder: &[u8], size: usize) -> Vec<&[u8]> {
    if size != ANY_SIZES {
        return folder.chunks(size).collect();
    }
    let (mut rng, mut out, mut rest) = (Rng::new(folder.len() as u64), Vec::new(), folder);
    while !rest.is_empty() {
        let most = rng.pick(&[0, 1, 7, 60, 3_000, 60_000]);
        let (piece, behind) = rest.split_at(rng.size(0, most).min(rest.len()));
        out.push(piece);
        rest = behind;
    }
    out
}

/// A part of a container, with its offset there and its length.
fn part_of(container: &[u8], part: &[u8]) -> Answer {
    let offset = (part.as_ptr() as usize - container.as_ptr() as usize) as u64;
    Answer { offset, length: part.len() as u64, part: part.to_vec(), ..Answer::default() }
}

/// How often each number was answered, by call. A check's 3 is counted beside its 0.
#[derive(Default)]
pub struct Tally(BTreeMap<Call, BTreeMap<u64, u64>>);

impl Tally {
    pub fn count(&mut self, call: Call, answer: &Answer) {
        let numbers = self.0.entry(call).or_default();
        *numbers.entry(answer.number).or_default() += 1;
        if answer.short != number::DONE {
            *numbers.entry(answer.short).or_default() += 1;
        }
    }

    /// The numbers of the table that were never answered.
    pub fn never(&self) -> Vec<u64> {
        (0..=number::LAST).filter(|&number| number::is_used(number) && !self.answered(number)).collect()
    }

    /// Those that were answered and are not in the table: withdrawn ones, and any behind the last.
    pub fn strange(&self) -> Vec<u64> {
        self.0.values().flat_map(BTreeMap::keys).copied().filter(|&number| !number::is_used(number)).collect()
    }

    fn answered(&self, number: u64) -> bool {
        self.0.values().any(|numbers| numbers.contains_key(&number))
    }
}

impl fmt::Display for Tally {
    fn fmt(&self, out: &mut fmt::Formatter) -> fmt::Result {
        for (call, numbers) in &self.0 {
            write!(out, "  {}", call.name())?;
            for (number, count) in numbers {
                write!(out, " {}:{}", number, count)?;
            }
            writeln!(out)?;
        }
        Ok(())
    }
}
