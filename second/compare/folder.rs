//! An order's folder: the library's answers by the functions for Rust, and those that are expected.

use crate::prosianek::{self, Row, State, Tally, LARGEST_CONTAINER, ROW_ROOM};
use second::batch::{pieces, Answer, Call, Record, PIECES};
use second::folder::Seen;

/// What stands for a folder that is none though the library took it for one. No call answers it.
const NO_FOLDER: u64 = u64::MAX;

/// What a room holds before a call.
const OLD: u8 = 0xA5;

/// The number of going over a folder that comes in these pieces.
fn over(today: u64, pieces: &[&[u8]]) -> u64 {
    let state = pieces.iter().fold(State::default(), |state, piece| prosianek::folder_step(state, piece));
    prosianek::folder_end(today, state).map_or_else(|refused| refused.number, |()| 0)
}

/// The bytes of a folder, which are taken off the front as a program reads them.
struct Reading<'a>(&'a [u8]);

impl<'a> Reading<'a> {
    fn bytes(&mut self, count: u64) -> Result<&'a [u8], u64> {
        if count > self.0.len() as u64 {
            return Err(NO_FOLDER);
        }
        let (front, rest) = self.0.split_at(count as usize);
        self.0 = rest;
        Ok(front)
    }

    fn number(&mut self, bytes: u64) -> Result<u64, u64> {
        Ok(self.bytes(bytes)?.iter().fold(0, |number, &byte| number << 8 | u64::from(byte)))
    }
}

/// The summary by the library of a folder that was gone over, or the number of a refusal. What is too long is lent as nothing.
fn summary(today: u64, folder: &[u8]) -> Result<Vec<u8>, u64> {
    let (mut reading, mut tally, mut text) = (Reading(folder), Tally::default(), Vec::new());
    let mut room = [OLD; ROW_ROOM];
    for _ in 0..reading.number(2)? {
        let (kind, size) = (reading.number(1)? as u8, reading.number(4)?);
        let offset = (folder.len() - reading.0.len()) as u64;
        let bytes = reading.bytes(size)?;
        let lent = if size > LARGEST_CONTAINER as u64 { &bytes[..0] } else { bytes };
        let row =
            prosianek::row(today, kind, offset, size, lent, tally, &mut room).map_err(|refused| refused.number)?;
        text.extend(&room[..row.length]);
        tally = row.tally;
    }
    let length = prosianek::last(tally, &mut room).map_err(|refused| refused.number)?;
    text.extend(&room[..length]);
    Ok(text)
}

/// What is told of a whole folder: the number of going over it in pieces of each sort, and then the summary.
fn whole(record: &Record) -> Answer {
    let numbers = PIECES.map(|piece| over(record.today, &pieces(&record.bytes, piece)));
    let number = numbers[0];
    if numbers != [number; 3] {
        return Answer { number: NO_FOLDER, ..Answer::default() };
    }
    match number {
        0 => match summary(record.today, &record.bytes) {
            Ok(text) => Answer { text, ..Answer::default() },
            Err(number) => Answer { number, ..Answer::default() },
        },
        _ => Answer { number, ..Answer::default() },
    }
}

/// The same of a row. A refusal leaves the tally to its caller.
fn row(record: &Record) -> Answer {
    let Seen { good, agreement, fascn } = record.seen;
    let given = Tally { good, agreement, fascn };
    let mut room = vec![OLD; record.room];
    let Record { today, kind, offset, size, bytes, .. } = record;
    let (number, Row { length, tally }) =
        match prosianek::row(*today, *kind as u8, *offset, *size, bytes, given, &mut room) {
            Ok(row) => (0, row),
            Err(refused) => (refused.number, Row { length: 0, tally: given }),
        };
    let Tally { good, agreement, fascn } = tally;
    Answer { number, length: length as u64, room, seen: Seen { good, agreement, fascn }, ..Answer::default() }
}

/// And of the last lines.
fn last(record: &Record) -> Answer {
    let Seen { good, agreement, fascn } = record.seen;
    let mut room = vec![OLD; record.room];
    let (number, length) = match prosianek::last(Tally { good, agreement, fascn }, &mut room) {
        Ok(length) => (0, length),
        Err(refused) => (refused.number, 0),
    };
    Answer { number, length: length as u64, room, ..Answer::default() }
}

/// What differs between the two, in words.
pub fn difference(record: &Record, expected: &Answer) -> Option<String> {
    let told = match record.call {
        Call::Folder => whole(record),
        Call::Row => row(record),
        Call::Last => last(record),
        _ => return None,
    };
    if told == *expected {
        return None;
    }
    let text = |answer: &Answer| {
        let lines = [&answer.text[..], &answer.room].concat();
        let (lines, seen) = (String::from_utf8_lossy(&lines).into_owned(), answer.seen);
        format!("{}, length {}, {:?}, {:?}", answer.number, answer.length, seen, lines)
    };
    let name = record.call.name();
    Some(format!("different: the {} for Rust\n  expected {}\n  got      {}", name, text(expected), text(&told)))
}
