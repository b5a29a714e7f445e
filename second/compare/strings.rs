//! Strings of 25 bytes one after the other: what the library's two readers answer, the first to each string alone, and the second, by
//! the function for Rust, to many in one call; and what is expected, which is the second program's answer.

use crate::prosianek::{self, decode, decode_by_table, Refused};
use crate::SHOWN;
use second::batch::{Answer, Record};
use second::strings::{million, swept, SWEPT};
use second::values::FASCN_BYTES;
use second::{fascn_decode_many, number, Decoded};

/// What an entry of a list holds before a call: no number that an answer has, and none that is zero.
const OLD_NUMBER: u64 = 0xA5A5_A5A5_A5A5_A5A5;
const OLD: prosianek::Decoded = prosianek::Decoded { number: OLD_NUMBER, numbers: [OLD_NUMBER; 9] };

/// A call has so many strings, or all of them.
const PIECES: [usize; 5] = [1, 2, 7, 1_000, usize::MAX];

/// So many of the neighbours of P1 are a FASC-N: in each of twenty pairs of characters P1 itself, and two digits that change alike.
const SWEPT_GOOD: usize = 133;

const MILLION: usize = 1_000_000;

// ---------------------------------------------------------------------------------------------
// Both readers

/// What the first reader answers to a string, as an entry has it.
fn alone(outcome: Result<[u64; 9], Refused>) -> Decoded {
    match outcome {
        Ok(numbers) => Decoded { number: number::DONE, numbers },
        Err(refused) => Decoded { number: refused.number, numbers: [0; 9] },
    }
}

fn as_second(entry: &prosianek::Decoded) -> Decoded {
    let prosianek::Decoded { number, numbers } = *entry;
    Decoded { number, numbers }
}

fn number_of(outcome: Result<(), Refused>) -> u64 {
    outcome.map_or_else(|refused| refused.number, |()| number::DONE)
}

/// What differs in a call that decodes one string, in words: the second reader has to answer the same to it. What has not 25 bytes is
/// no string for that.
pub fn difference_of_one(record: &Record, expected: &Answer) -> Option<String> {
    if record.bytes.len() != FASCN_BYTES {
        return None;
    }
    let mut list = [OLD];
    let told = (number_of(decode_by_table(&record.bytes, &mut list)), as_second(&list[0]));
    let right = (number::DONE, Decoded { number: expected.number, numbers: expected.numbers });
    if told == right {
        None
    } else {
        Some(format!("different: one FASC-N by table\n  expected {:?}\n  got      {:?}", right, told))
    }
}

/// What differs in a call that decodes many, in words.
pub fn difference(record: &Record, expected: &Answer) -> Option<String> {
    let mut list = vec![OLD; record.entries];
    let number = number_of(decode_by_table(&record.bytes, &mut list));
    let list: Vec<Decoded> = list.iter().map(as_second).collect();
    if number != expected.number || list != expected.decoded {
        let told = (number, list);
        return Some(format!("different: many FASC-N for Rust\n  expected {:?}\n  got      {:?}", expected, told));
    }
    if number != number::DONE {
        return None;
    }
    let each: Vec<Decoded> = record.bytes.chunks(FASCN_BYTES).map(|string| alone(decode(string))).collect();
    if list.starts_with(&each) {
        None
    } else {
        Some(format!("different: each FASC-N alone\n  expected {:?}\n  got      {:?}", list, each))
    }
}

// ---------------------------------------------------------------------------------------------
// Many strings

/// What is told of many strings: how many there are, how many of them are a FASC-N, and how often something differed.
#[derive(Clone, Copy, Debug, Default, PartialEq, Eq)]
pub struct Told {
    pub strings: usize,
    pub good: usize,
    pub differences: u64,
}

/// What decodes a string, and what decodes many into a list, as the functions for Rust do.
pub type First = fn(&[u8]) -> Result<[u64; 9], Refused>;
pub type Second = fn(&[u8], &mut [prosianek::Decoded]) -> Result<(), Refused>;

/// The two readers that are compared.
#[derive(Clone, Copy)]
pub struct Readers {
    pub first: First,
    pub second: Second,
}

/// Those of the library.
pub const LIBRARY: Readers = Readers { first: decode, second: decode_by_table };

struct Strings<'a> {
    bytes: &'a [u8],
    expected: Vec<Decoded>,
    differences: u64,
    /// So many of them are shown.
    shown: u64,
}

impl Strings<'_> {
    fn differs(&mut self, text: impl FnOnce() -> String) {
        self.differences += 1;
        if self.differences <= self.shown {
            println!("{}", text());
        }
    }

    /// Compares what a reader tells of the string at this place.
    fn compare(&mut self, reader: &str, at: usize, told: Decoded) {
        let expected = self.expected[at];
        if told != expected {
            let string = &self.bytes[FASCN_BYTES * at..][..FASCN_BYTES];
            self.differs(|| format!("{}: {:?}, expected {:?}, string {}: {:02X?}", reader, told, expected, at, string));
        }
    }

    /// The first reader, string by string.
    fn by_first(&mut self, readers: Readers) {
        for (at, string) in self.bytes.chunks(FASCN_BYTES).enumerate() {
            self.compare("the first reader", at, alone((readers.first)(string)));
        }
    }

    /// The second reader, with so many strings in a call. The list has two entries more, where zeros have to be.
    fn by_second(&mut self, readers: Readers, piece: usize) {
        let piece = piece.min(self.expected.len());
        let mut list = vec![OLD; piece + 2];
        for (call, strings) in self.bytes.chunks(FASCN_BYTES * piece).enumerate() {
            list.fill(OLD);
            let number = number_of((readers.second)(strings, &mut list));
            if number != number::DONE {
                self.differs(|| format!("the second reader: {}, call {} with {} strings", number, call, piece));
            }
            let (entries, behind) = list.split_at(strings.len() / FASCN_BYTES);
            for (i, entry) in entries.iter().enumerate() {
                self.compare("the second reader", piece * call + i, as_second(entry));
            }
            if behind.iter().any(|entry| *entry != prosianek::Decoded::default()) {
                self.differs(|| format!("the second reader: no zeros behind call {} with {} strings", call, piece));
            }
        }
    }
}

/// Decodes the strings, of which there is one at least, by the second program, by the first reader each alone, and by the second one
/// in calls of each size. So many differences are shown.
pub fn told_of(bytes: &[u8], readers: Readers, shown: u64) -> Told {
    let mut expected = vec![Decoded::default(); bytes.len() / FASCN_BYTES];
    let number = fascn_decode_many(bytes, &mut expected);
    let good = expected.iter().filter(|entry| entry.number == number::DONE).count();
    let mut strings = Strings { bytes, expected, differences: 0, shown };
    if number != number::DONE {
        strings.differs(|| format!("the second program: {}", number));
    }
    strings.by_first(readers);
    PIECES.into_iter().for_each(|piece| strings.by_second(readers, piece));
    Told { strings: strings.expected.len(), good, differences: strings.differences }
}

/// Compares the library's readers with the second program, and says what is told of these strings.
fn tell(which: &str, bytes: &[u8]) -> Told {
    let told = told_of(bytes, LIBRARY, SHOWN);
    let outcome = match told.differences {
        0 => "both readers and the second program agree".to_string(),
        differences => format!("{} differ", differences),
    };
    println!("{} {}, {} of them good: {}", told.strings, which, told.good, outcome);
    told
}

/// Compares both readers on the neighbours of P1 and on a million strings of this seed; gives whether all agree.
pub fn all_agree(seed: u64) -> bool {
    let neighbours = tell("strings beside P1", &swept());
    let million = tell("strings", &million(seed));
    neighbours == Told { strings: SWEPT, good: SWEPT_GOOD, differences: 0 }
        && (million.strings, million.differences) == (MILLION, 0)
}
