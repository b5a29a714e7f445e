//! The signer: the library's answer by the function for Rust, and the one that is expected.

use crate::points::one_or_two_bytes;
use crate::prosianek::{self, Refused};
use second::batch::{Answer, Record};
use second::card::CONFORMS;
use second::{Verdict, Which};
use std::ops::Range;

/// What is answered: the verdict, which container, and where the certificate stands there.
type Told = (Verdict, Which, Range<usize>);

fn by_library(record: &Record) -> Told {
    let which = |which| match which {
        prosianek::Which::Chuid => Which::Chuid,
        prosianek::Which::Biometric => Which::Biometric,
    };
    match prosianek::signer(record.kind, record.today, &record.chuid, &record.bytes) {
        Ok((container, range)) => (CONFORMS, which(container), range),
        Err((container, Refused { number, place, tag })) => {
            ((number, place, tag.map(one_or_two_bytes)), container.map_or(Which::Neither, which), 0..0)
        }
    }
}

/// What differs between the two, in words.
pub fn difference(record: &Record, expected: &Answer) -> Option<String> {
    let (verdict, which, range) = by_library(record);
    let (offset, length) = (expected.offset as usize, expected.length as usize);
    let same = verdict == (expected.number, expected.place, expected.tag)
        && which as u64 == expected.which
        && range == (offset..offset + length);
    if same {
        None
    } else {
        let told: Told = (verdict, which, range);
        Some(format!("different: the signer for Rust\n  expected {:?}\n  got      {:?}", expected, told))
    }
}
