//! folder TODAY FILE: goes through an order's folder, which is one file of containers, and prints its summary under the date
//! TODAY, or `refused N`. examples/c/folder.c prints the same text.
//!
//! The folder is read twice, as the header says of its calls: in pieces, to see that it is one, and then container by
//! container. So it is no pipe, and has to stay as it is meanwhile. It may be of any size: what is kept of it is one container
//! at a time, and the text, which is printed only when it is whole.
//!
//! Exit status: 0 for a summary, whatever stands in it; 1 for `refused N`; 2 for bad words, a file that cannot be read twice,
//! or text that cannot be written.
mod prosianek;
use prosianek::{Refused, State, Tally};
use std::fs::File;
use std::io::{self, ErrorKind, Read, Seek, SeekFrom, Write};
use std::process::exit;

/// The bytes of the count, and those of a kind with a length.
const COUNT_BYTES: usize = 2;
const HEAD_BYTES: usize = 5;

/// What a folder is refused with that has become shorter since it was gone over, or has another count.
const TORN_FOLDER: u64 = 32;

/// Why there is no summary: the number of a refusal, or a file that cannot be read.
enum No {
    Refused(u64),
    Read,
}

impl From<Refused> for No {
    fn from(refused: Refused) -> No {
        No::Refused(refused.number)
    }
}

impl From<io::Error> for No {
    fn from(_: io::Error) -> No {
        No::Read
    }
}

fn stop(why: &str) -> ! {
    eprintln!("{why}");
    exit(2)
}

/// A word of digits. parse alone would take a plus sign too.
fn number_of(word: &str) -> Option<u64> {
    if word.len() > 19 || !word.bytes().all(|b| b.is_ascii_digit()) {
        return None;
    }
    word.parse().ok()
}

/// The number that stands in these bytes, the high byte first.
fn number_in(bytes: &[u8]) -> u64 {
    bytes.iter().fold(0, |n, &b| n * 256 + u64::from(b))
}

/// The next bytes of the file, as many as there is room for, or as there are.
fn read(file: &mut File, room: &mut [u8]) -> io::Result<usize> {
    let mut got = 0;
    while got < room.len() {
        match file.read(&mut room[got..]) {
            Ok(0) => break,
            Ok(more) => got += more,
            Err(error) if error.kind() == ErrorKind::Interrupted => {}
            Err(error) => return Err(error),
        }
    }
    Ok(got)
}

/// The next bytes of the file, all that there is room for.
fn read_all(file: &mut File, room: &mut [u8]) -> Result<(), No> {
    if read(file, room)? < room.len() {
        return Err(No::Refused(TORN_FOLDER));
    }
    Ok(())
}

fn main() {
    let words: Vec<String> = std::env::args().collect();
    let today = match words.len() {
        3 => number_of(&words[1]),
        _ => None,
    };
    let today = today.unwrap_or_else(|| stop("folder TODAY FILE"));
    let found = File::open(&words[2])
        .map_err(No::from)
        .and_then(|mut file| {
            go_over(&mut file, today)?;
            go_through(&mut file, today)
        });
    let (text, status) = match found {
        Ok(text) => (text, 0),
        Err(No::Refused(number)) => (format!("refused {number}\n").into_bytes(), 1),
        Err(No::Read) => stop(&format!(
            "the file '{}' cannot be read, or not twice",
            words[2]
        )),
    };
    let mut out = io::stdout();
    if out.write_all(&text).and_then(|()| out.flush()).is_err() {
        stop("not all could be written");
    }
    exit(status)
}

/// The first time: over the folder, in pieces, to see that it is one.
fn go_over(file: &mut File, today: u64) -> Result<(), No> {
    let mut piece = [0; prosianek::LARGEST_CONTAINER];
    let mut state = State::default();
    loop {
        let got = read(file, &mut piece)?;
        if got == 0 {
            break;
        }
        state = prosianek::folder_step(state, &piece[..got]);
    }
    Ok(prosianek::folder_end(today, state)?)
}

/// The second time: a row for each container, and the last lines. A container that is too long to be looked at is not read, and
/// nothing of it is lent. Where the file has become shorter meanwhile, fewer bytes are lent than the folder says, which is
/// refused.
fn go_through(file: &mut File, today: u64) -> Result<Vec<u8>, No> {
    file.seek(SeekFrom::Start(0))?;
    let mut count = [0; COUNT_BYTES];
    read_all(file, &mut count)?;
    let count = number_in(&count);
    // tested again, so that the text stays short whatever became of the file
    if count > prosianek::MOST_CONTAINERS as u64 {
        return Err(No::Refused(TORN_FOLDER));
    }

    let mut container = [0; prosianek::LARGEST_CONTAINER];
    let mut room = [0; prosianek::ROW_ROOM];
    let mut text = Vec::new();
    let mut offset = (COUNT_BYTES + HEAD_BYTES) as u64;
    let mut tally = Tally::default();
    for _ in 0..count {
        let mut head = [0; HEAD_BYTES];
        read_all(file, &mut head)?;
        let (kind, size) = (head[0], number_in(&head[1..]));
        let lent = if size <= container.len() as u64 {
            read(file, &mut container[..size as usize])?
        } else {
            file.seek(SeekFrom::Current(size as i64))?;
            0
        };
        let container = &container[..lent];
        let row = prosianek::row(today, kind, offset, size, container, tally, &mut room)?;
        text.extend_from_slice(&room[..row.length]);
        tally = row.tally;
        offset += size + HEAD_BYTES as u64;
    }
    let length = prosianek::last(tally, &mut room)?;
    text.extend_from_slice(&room[..length]);
    Ok(text)
}
