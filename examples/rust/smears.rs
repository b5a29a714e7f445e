//! smears WIDTH KIND TODAY FILE: whether a printer's smear of WIDTH neighbouring bits (1 to 16) is seen in the FASC-N of a
//! container that conforms, a CHUID (kind 2) or a biometric (6, 7 or 12). In every window of so many of the 200 bits one or more
//! are turned, in every way, and each time the FASC-N is decoded and the whole container checked. Printed are the numbers of
//! the bits that were turned, from 0 on, of each smear that is not refused, and then how many were tried and refused. Up to six
//! bits all are refused, which is proved; of seven some are not. tests/damage runs it.
//!
//! Which smears are not refused tells something of the digits, which are personal: this is an example for an engineer, and not
//! the desk.
//!
//! Exit status: 0 if each is refused; 1 if some are not; 2 for bad words, a file that cannot be read, a container that does not
//! conform or has no FASC-N, or an answer other than these.
mod prosianek;
use std::io::{self, Write};
use std::ops::Range;
use std::process::exit;

const BITS: usize = 200;
const BAD_FASCN: u64 = 17;

fn stop(why: &str) -> ! {
    eprintln!("{why}");
    exit(2)
}

/// Where the FASC-N stands, and the tag of its element: it is the value of 30 of a CHUID, and in a biometric it stands in the
/// value of BC, behind 59 bytes.
fn fascn_of(kind: u64, today: u64, container: &[u8]) -> (Range<usize>, u64) {
    let (tag, skipped) = match kind {
        2 => (0x30, 0),
        6 | 7 | 12 => (0xBC, 59),
        _ => stop("a kind without a FASC-N"),
    };
    match prosianek::view(kind, today, container, tag) {
        Ok(value) => (value.start + skipped..value.start + skipped + BITS / 8, tag),
        Err(r) => stop(&format!("the container does not conform: {}", r.number)),
    }
}

/// The numbers of the bits that a smear turns: for every window of so many bits, every way to turn one or more of them.
fn smears(width: usize) -> impl Iterator<Item = Vec<usize>> {
    let turned = move |first: usize, way: u32| {
        (0..width).filter(|k| way >> k & 1 == 1).map(|k| first + k).collect()
    };
    (0..=BITS - width).flat_map(move |first| (1..1 << width).map(move |way| turned(first, way)))
}

fn turn(fascn: &mut [u8], bits: &[usize]) {
    for bit in bits {
        fascn[bit / 8] ^= 0x80 >> (bit % 8);
    }
}

/// Whether the FASC-N is refused with 17, both alone and in the container, there in the element with the tag; or in neither.
fn is_refused(kind: u64, today: u64, container: &[u8], fascn: &Range<usize>, tag: u64) -> bool {
    let decoded = prosianek::decode(&container[fascn.clone()]).map_err(|r| r.number);
    let checked = prosianek::check(kind, today, container, &mut []).map_err(|r| (r.number, r.tag));
    match (decoded, checked) {
        (Ok(_), Ok(_)) => false,
        (Err(BAD_FASCN), Err((BAD_FASCN, Some(named)))) if named == tag => true,
        (decoded, checked) => stop(&format!(
            "decoded with {}, checked with {checked:?}",
            decoded.err().unwrap_or(0)
        )),
    }
}

fn main() {
    let words: Vec<String> = std::env::args().collect();
    let numbers: Vec<u64> = words.iter().skip(1).take(3).filter_map(|word| word.parse().ok()).collect();
    let (width, kind, today) = match (words.len(), &numbers[..]) {
        (5, [width @ 1..=16, kind, today]) => (*width as usize, *kind, *today),
        _ => stop("smears WIDTH KIND TODAY FILE"),
    };
    let mut container =
        std::fs::read(&words[4]).unwrap_or_else(|_| stop(&format!("the file '{}' cannot be read", words[4])));
    let (fascn, tag) = fascn_of(kind, today, &container);

    let (mut tried, mut refused, mut text) = (0, 0, String::new());
    for bits in smears(width) {
        turn(&mut container[fascn.clone()], &bits);
        tried += 1;
        if is_refused(kind, today, &container, &fascn, tag) {
            refused += 1;
        } else {
            text += &format!("not refused: bits {bits:?}\n");
        }
        turn(&mut container[fascn.clone()], &bits);
    }
    text += &format!("{tried} smears within {width} bits, {refused} refused\n");
    if io::stdout().write_all(text.as_bytes()).is_err() {
        stop("not all could be written");
    }
    exit(i32::from(refused < tried))
}
