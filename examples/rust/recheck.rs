//! recheck PLACE SIZE FILE: the yearly re-check of many FASC-N. The file has records of SIZE bytes, one behind the other, each with
//! its FASC-N from byte PLACE on, counted from 0: `recheck 59 88` is for the headers of biometrics, and `recheck 0 25` for FASC-N
//! alone. A folder with a header in each file is such a file by a pipe: `cat FOLDER/* | recheck 59 88 /dev/stdin`. The file may
//! be of any size: a batch of its records is kept at a time.
//!
//! Printed are the numbers of the records, from 0 on, whose FASC-N is not good, a line each, and then how many records there are
//! and how many of them are good. Of what a FASC-N says nothing is printed, agency and system neither. tests/linking runs it.
//!
//! Exit status: 0 if all are good; 1 if some are not; 2 for bad words, a file that cannot be read or ends within a record, or
//! text that cannot be written.
mod prosianek;
use prosianek::{Decoded, FASCN_BYTES};
use std::fs::File;
use std::io::{self, Read, Write};
use std::process::exit;

/// So many records are read at a time, and their FASC-N are decoded by one call.
const BATCH: usize = 1_000;

fn stop(why: &str) -> ! {
    eprintln!("{why}");
    exit(2)
}

/// Where the FASC-N stands in a record, and the bytes of one. A record is at most as long as a container, so that a batch of them
/// can be kept.
fn form_of(words: &[String]) -> Option<(usize, usize)> {
    let (place, size) = match words {
        [_, place, size, _] => (place.parse::<usize>().ok()?, size.parse().ok()?),
        _ => return None,
    };
    let fits = size <= prosianek::LARGEST_CONTAINER && place < size && FASCN_BYTES <= size - place;
    fits.then(|| (place, size))
}

/// The next records of the file, a batch or what is left of it: none at its end.
fn read(file: &mut File, size: usize, records: &mut Vec<u8>) -> io::Result<()> {
    records.clear();
    file.take((BATCH * size) as u64).read_to_end(records)?;
    if records.len() % size != 0 {
        return Err(io::ErrorKind::UnexpectedEof.into());
    }
    Ok(())
}

/// The numbers of the records that are not good, and how many there are.
fn recheck(mut file: File, place: usize, size: usize) -> io::Result<(Vec<u64>, u64)> {
    // All three are used again for each batch, the list too: the call clears what it does not fill.
    let (mut records, mut strings) = (Vec::new(), Vec::new());
    let mut list = vec![Decoded::default(); BATCH];
    let (mut bad, mut count) = (Vec::new(), 0);
    loop {
        read(&mut file, size, &mut records)?;
        if records.is_empty() {
            return Ok((bad, count));
        }
        strings.clear();
        for record in records.chunks_exact(size) {
            strings.extend_from_slice(&record[place..place + FASCN_BYTES]);
        }
        if let Err(r) = prosianek::decode_by_table(&strings, &mut list) {
            stop(&format!("refused {}", r.number));
        }
        // The entries behind the last are those of no FASC-N, though their number is 0.
        for entry in &list[..strings.len() / FASCN_BYTES] {
            if entry.number != 0 {
                bad.push(count);
            }
            count += 1;
        }
    }
}

fn main() {
    let words: Vec<String> = std::env::args().collect();
    let (place, size) = form_of(&words).unwrap_or_else(|| stop("recheck PLACE SIZE FILE"));
    let (bad, count) = File::open(&words[3])
        .and_then(|file| recheck(file, place, size))
        .unwrap_or_else(|error| stop(&format!("the file '{}' cannot be read whole: {error}", words[3])));
    let mut text: String = bad.iter().map(|number| format!("not good: {number}\n")).collect();
    text += &format!("{count} records, {} good\n", count - bad.len() as u64);
    if io::stdout().write_all(text.as_bytes()).is_err() {
        stop("not all could be written");
    }
    exit(i32::from(!bad.is_empty()))
}
