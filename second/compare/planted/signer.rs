//! What a mistaken program would answer to a call that asks for a signer.

use super::{mistakes_of_verdict, Mistake};
use second::batch::{Answer, Call, Record};
use second::card::CONFORMS;
use second::generate::fewest;
use second::signer::{certificates_in, CHUID_KIND};
use second::values::{signature_of, CERTIFICATE_LEVELS, FASCN_BYTES, HEADER_FASCN};
use second::{check, der, number, tag_number, view, Which};

const CHUID: u64 = Which::Chuid as u64;
const BIOMETRIC: u64 = Which::Biometric as u64;

/// The mistakes that are made, each with the name of what is lent.
pub(super) const MISTAKES: [(&str, &str); 33] = [
    ("number", "the check's before 1"),
    ("number", "the biometric's first"),
    ("number", "without the FASC-N"),
    ("number", "17 for another FASC-N"),
    ("number", "29 before 28"),
    ("number", "0 for the CHUID's certificate"),
    ("number", "24 for a block"),
    ("number", "25 for a block"),
    ("number", "30 for the biometric's block"),
    ("number", "29 for the CHUID's block"),
    ("number", "31 for an empty block"),
    ("number", "30 for a block without certificates"),
    ("number", "0 for an empty field"),
    ("number", "30 for a block that is not needed"),
    ("number", "29 for nine levels"),
    ("tag", "the block's"),
    ("place", "of the block"),
    ("place", "of the biometric's fault"),
    ("which", "the other container"),
    ("which", "neither beside a certificate"),
    ("which", "neither beside a check"),
    ("which", "one beside no check"),
    ("which", "the block's container"),
    ("which", "the biometric for another FASC-N"),
    ("offset", "behind the tag and length"),
    ("offset", "in the block"),
    ("offset", "in the value"),
    ("offset", "of the field"),
    ("offset", "beside a refusal"),
    ("length", "of the content"),
    ("length", "of the whole field"),
    ("length", "of the block"),
    ("length", "beside a refusal"),
];

/// All of them in a call: what is wrong with the verdict as with that of a check, and what is wrong with a signer.
pub(super) fn mistakes(record: &Record, expected: &Answer) -> Vec<Mistake> {
    let mut out = match check_of(record, expected.which) {
        Some(check) => mistakes_of_verdict(&check, expected),
        None => Vec::new(),
    };
    out.extend(match expected.number {
        0 => beside_a_certificate(record, expected),
        1 => beside_no_kind(record, expected),
        28 => beside_other_fascns(record, expected),
        29 | 30 => beside_no_block(record, expected),
        31 => beside_neither(expected),
        _ => beside_a_check(record, expected),
    });
    out
}

/// The check of the container that an answer names, if it names one.
fn check_of(record: &Record, which: u64) -> Option<Record> {
    let check = |kind, bytes: &[u8]| {
        let (bytes, chuid) = (bytes.to_vec(), Vec::new());
        Record { call: Call::Check, kind, bytes, chuid, ..record.clone() }
    };
    match which {
        CHUID => Some(check(CHUID_KIND, &record.chuid)),
        BIOMETRIC => Some(check(record.kind, &record.bytes)),
        _ => None,
    }
}

/// Mistakes in the numbers of an answer.
struct Mistakes<'a> {
    expected: &'a Answer,
    out: Vec<Mistake>,
}

impl<'a> Mistakes<'a> {
    fn beside(expected: &'a Answer) -> Mistakes<'a> {
        Mistakes { expected, out: Vec::new() }
    }

    fn add(&mut self, name: &'static str, how: &'static str, number: u64) {
        let Answer { number: told, place, which, offset, length, .. } = *self.expected;
        let right = match name {
            "number" => told,
            "place" => place,
            "tag" => tag_number(self.expected.tag),
            "which" => which,
            "offset" => offset,
            _ => length,
        };
        self.out.push(Mistake::number(name, how, 0, number, right));
    }

    /// Where the certificate is that a refusal leaves.
    fn leaves(&mut self, other: &Answer) {
        self.add("offset", "beside a refusal", other.offset);
        self.add("length", "beside a refusal", other.length);
    }
}

/// The element with the block in one of the containers: where its value stands, and the block at the end of it.
struct Element<'a> {
    tag: u64,
    value_at: usize,
    value: &'a [u8],
    block: &'a [u8],
}

impl Element<'_> {
    fn block_at(&self) -> usize {
        self.value_at + self.value.len() - self.block.len()
    }
}

/// That of a container which conforms.
fn element_of(record: &Record, which: u64) -> Element<'_> {
    let (kind, container, tag) = match which {
        CHUID => (CHUID_KIND, &record.chuid, 0x3E),
        _ => (record.kind, &record.bytes, 0xBC),
    };
    let (verdict, value) = view(kind, record.today, container, tag);
    assert_eq!(verdict, CONFORMS, "the {:X} of a container that does not conform", tag);
    let value_at = value.as_ptr() as usize - container.as_ptr() as usize;
    Element { tag, value_at, value, block: if which == CHUID { value } else { signature_of(value) } }
}

/// A program that names the other container or none, takes the certificate without its tag and length or with those behind it, counts
/// from elsewhere, reads a block that is not needed, or opens eight levels only.
fn beside_a_certificate(record: &Record, expected: &Answer) -> Vec<Mistake> {
    let mut mistakes = Mistakes::beside(expected);
    let element = element_of(record, expected.which);
    let (_, content, _) = der::front(&expected.part).expect("a certificate is an item");
    let head = expected.length - content.len() as u64;
    let field = certificates_in(element.block).expect("a certificate lies in a SignedData").len();
    let field_head = 2 + fewest(field);
    mistakes.add("which", "the other container", CHUID + BIOMETRIC - expected.which);
    mistakes.add("which", "neither beside a certificate", 0);
    mistakes.add("offset", "behind the tag and length", expected.offset + head);
    mistakes.add("offset", "in the block", expected.offset - element.block_at() as u64);
    mistakes.add("offset", "in the value", expected.offset - element.value_at as u64);
    mistakes.add("offset", "of the field", expected.offset - field_head as u64);
    mistakes.add("length", "of the content", content.len() as u64);
    mistakes.add("length", "of the whole field", field as u64);
    mistakes.add("length", "of the block", element.block.len() as u64);
    if expected.which == BIOMETRIC && certificates_in(element_of(record, CHUID).block).is_none() {
        mistakes.add("number", "30 for a block that is not needed", number::CHUID_BLOCK);
    }
    if der::whole(element.block, CERTIFICATE_LEVELS).is_err() {
        mistakes.add("number", "29 for nine levels", number::BIOMETRIC_BLOCK);
    }
    mistakes.out
}

/// A program that looks at the containers first.
fn beside_no_kind(record: &Record, expected: &Answer) -> Vec<Mistake> {
    let mut mistakes = Mistakes::beside(expected);
    let checked = check(CHUID_KIND, record.today, &record.chuid, &mut []);
    mistakes.add("number", "the check's before 1", checked.number);
    mistakes.add("which", "one beside no check", CHUID);
    mistakes.add("tag", "the block's", 0xBC);
    mistakes.out
}

/// A program that names the other container or none, or that checks the biometric first.
fn beside_a_check(record: &Record, expected: &Answer) -> Vec<Mistake> {
    let mut mistakes = Mistakes::beside(expected);
    mistakes.add("which", "the other container", CHUID + BIOMETRIC - expected.which);
    mistakes.add("which", "neither beside a check", 0);
    let checked = check(record.kind, record.today, &record.bytes, &mut []);
    if expected.which == CHUID && checked.number != number::DONE {
        mistakes.add("number", "the biometric's first", checked.number);
        mistakes.add("place", "of the biometric's fault", checked.place);
    }
    mistakes.out
}

/// A program that does not compare the FASC-N, or does so later, or takes another one for a bad one.
fn beside_other_fascns(record: &Record, expected: &Answer) -> Vec<Mistake> {
    let mut mistakes = Mistakes::beside(expected);
    let element = element_of(record, BIOMETRIC);
    let (_, fascn) = view(CHUID_KIND, record.today, &record.chuid, 0x30);
    let from = element.value_at + HEADER_FASCN.start;
    let mut same = record.clone();
    same.bytes[from..from + FASCN_BYTES].copy_from_slice(fascn);
    let without = same.answer();
    mistakes.add("number", "without the FASC-N", without.number);
    mistakes.add("number", "17 for another FASC-N", number::FASCN);
    if without.number == number::BIOMETRIC_BLOCK {
        mistakes.add("number", "29 before 28", without.number);
    }
    mistakes.add("which", "the biometric for another FASC-N", BIOMETRIC);
    mistakes.add("which", "one beside no check", CHUID);
    mistakes.add("place", "of the block", element.value_at as u64);
    mistakes.leaves(&without);
    mistakes.out
}

/// A program that says where the block is which is none, gives it the number of a certificate or of the other block, or goes on with
/// the CHUID's.
fn beside_no_block(record: &Record, expected: &Answer) -> Vec<Mistake> {
    let mut mistakes = Mistakes::beside(expected);
    let which = if expected.number == number::BIOMETRIC_BLOCK { BIOMETRIC } else { CHUID };
    let element = element_of(record, which);
    mistakes.add("which", "the block's container", which);
    mistakes.add("tag", "the block's", element.tag);
    mistakes.add("place", "of the block", element.value_at as u64);
    mistakes.add("number", "24 for a block", number::DER);
    mistakes.add("number", "25 for a block", number::TOO_DEEP);
    if which == BIOMETRIC {
        mistakes.add("number", "30 for the biometric's block", number::CHUID_BLOCK);
        if certificates_in(element_of(record, CHUID).block).map_or(false, |field| !field.is_empty()) {
            mistakes.add("number", "0 for the CHUID's certificate", number::DONE);
        }
    } else {
        mistakes.add("number", "29 for the CHUID's block", number::BIOMETRIC_BLOCK);
        if element.block.is_empty() {
            mistakes.add("number", "31 for an empty block", number::NEITHER_HOLDS);
        }
    }
    mistakes.out
}

/// A program that takes an empty field for a certificate, or a block without one for none.
fn beside_neither(expected: &Answer) -> Vec<Mistake> {
    let mut mistakes = Mistakes::beside(expected);
    mistakes.add("number", "0 for an empty field", number::DONE);
    mistakes.add("number", "30 for a block without certificates", number::CHUID_BLOCK);
    mistakes.add("which", "the block's container", CHUID);
    mistakes.out
}
