//! Smears of a FASC-N (2026-08): a printer's fault turns bits that lie within a few neighbouring ones of the 200. No smear within six
//! leaves a FASC-N that conforms; within seven some do.

use crate::batch::{Call, Record};
use crate::folder::Seen;
use crate::folders::{self, card_holding, FASCN_KINDS};
use crate::generate::{plain, turn_bit, Rng, EXAMPLE_FASCN};
use crate::pairs::Pair;
use crate::samples::with_fascn;
use crate::signer::{CHUID_KIND, KINDS as BIOMETRIC_KINDS};
use crate::values::{fascn_decode, fascn_pack, fascn_values, is_digit_place, FASCN_BYTES};
use crate::REPORT_MAX;

// ---------------------------------------------------------------------------------------------
// What a smear is

/// A FASC-N has so many bits: those of its bytes in order, the most significant one of each byte first.
pub const BITS: usize = 8 * FASCN_BYTES;

/// A character of a FASC-N has so many of them.
const CHARACTER_BITS: usize = 5;

/// Whatever is turned within so many neighbouring bits, the FASC-N is refused.
pub const REFUSED_WIDTH: usize = 6;

/// A window of neighbouring bits that does not go round the end, and which of its bits are turned.
#[derive(Clone, Copy, Debug, PartialEq, Eq)]
pub struct Smear {
    /// The window's first bit of the 200.
    pub first: usize,
    /// How many bits the window has.
    pub width: usize,
    /// From 1 to 2^width - 1: the most significant of so many bits stands for the window's first.
    pub turned: u64,
}

impl Smear {
    /// The bits of the 200 that are turned, in order.
    pub fn bits(self) -> impl Iterator<Item = usize> {
        let Smear { first, width, turned } = self;
        (0..width).filter(move |bit| turned >> (width - 1 - bit) & 1 == 1).map(move |bit| first + bit)
    }

    pub fn apply(self, fascn: &mut [u8]) {
        self.bits().for_each(|at| turn_bit(fascn, at));
    }

    /// The FASC-N with this smear.
    pub fn on(self, mut fascn: [u8; FASCN_BYTES]) -> [u8; FASCN_BYTES] {
        self.apply(&mut fascn);
        fascn
    }
}

/// Every window of so many bits, changed in every way.
pub fn all(width: usize) -> impl Iterator<Item = Smear> {
    (0..=BITS - width).flat_map(move |first| (1..1 << width).map(move |turned| Smear { first, width, turned }))
}

/// The same without those that turn the same bits as another: the window's first bit is turned, or there is no window behind it.
pub fn each_once(width: usize) -> impl Iterator<Item = Smear> {
    all(width).filter(move |smear| smear.turned >> (width - 1) == 1 || smear.first + width == BITS)
}

/// The one way to change seven neighbouring bits that can keep a FASC-N: the first two and the last two. If they are the same two bits
/// of two neighbouring characters, both parities and the check stay.
const SLIPPING: u64 = 0b110_0011;

/// That change in the window from this bit on.
pub fn slipping(first: usize) -> Smear {
    Smear { first, width: REFUSED_WIDTH + 1, turned: SLIPPING }
}

/// P1 with 33 in the place of two neighbouring digits 00: its system is 3301 instead of 0001, by a smear of seven bits from bit 30 on.
pub const EXAMPLE_3301: [u8; FASCN_BYTES] = [
    0xD4, 0x11, 0x92, 0x5B, 0x39, 0x0C, 0x2C, 0x10, 0x84, 0x21, 0xAD, 0xA1, 0x68, 0x58, 0x21, 0x08, 0x42, 0x10, 0x84,
    0x3C, 0x84, 0x11, 0x92, 0x43, 0xEB,
];

/// One with every digit, of which some are 9: 9876, 5432, 109876, 5, 4, 9876543210, 9, 8049, 7.
pub const EXAMPLE_DIGITS: [u8; FASCN_BYTES] = [
    0xD4, 0xC5, 0xC6, 0xDA, 0xA4, 0xCA, 0x2D, 0x00, 0xCC, 0x5C, 0x6D, 0xAB, 0x62, 0x5A, 0x62, 0xE3, 0x6A, 0x4C, 0xA2,
    0x01, 0x98, 0x82, 0x49, 0xF3, 0xF9,
];

// ---------------------------------------------------------------------------------------------
// Made ones

/// Smears a FASC-N: within six neighbouring bits, within seven or more, or at two places; or changes two of its digits alike, so that
/// it conforms.
pub fn damage(rng: &mut Rng, fascn: &mut [u8]) {
    match rng.below(10) {
        0..=3 => any(rng, REFUSED_WIDTH).apply(fascn),
        4 => any(rng, REFUSED_WIDTH + 1).apply(fascn),
        5 => slipping(rng.size(0, BITS - REFUSED_WIDTH - 1)).apply(fascn),
        6 => {
            let width = rng.size(REFUSED_WIDTH + 2, 40);
            any(rng, width).apply(fascn);
        }
        7 => two(rng).iter().for_each(|smear| smear.apply(fascn)),
        _ => fascn.copy_from_slice(&with_two_other_digits(rng, fascn)),
    }
}

/// Any smear within so many neighbouring bits.
fn any(rng: &mut Rng, width: usize) -> Smear {
    Smear { first: rng.size(0, BITS - width), width, turned: 1 + rng.below((1 << width) - 1) }
}

/// Two smears of six bits: any, or the same bits of other characters. Of these the second undoes in the check what the first did.
fn two(rng: &mut Rng) -> [Smear; 2] {
    let one = any(rng, REFUSED_WIDTH);
    if rng.one_in(2) {
        return [one, any(rng, REFUSED_WIDTH)];
    }
    let in_character = one.first % CHARACTER_BITS;
    let most = (BITS - REFUSED_WIDTH - in_character) / CHARACTER_BITS;
    [one, Smear { first: in_character + CHARACTER_BITS * rng.size(0, most), ..one }]
}

/// The FASC-N with two neighbouring digits changed alike, mostly two that are equal: both parities and the check stay, so that it
/// conforms. What is no FASC-N counts as one of zeros.
pub fn with_two_other_digits(rng: &mut Rng, fascn: &[u8]) -> [u8; FASCN_BYTES] {
    let mut characters = fascn_values(&fascn_decode(fascn).1);
    let pairs: Vec<usize> = (0..39).filter(|&at| is_digit_place(at) && is_digit_place(at + 1)).collect();
    let equal: Vec<usize> = pairs.iter().copied().filter(|&at| characters[at] == characters[at + 1]).collect();
    let among = if equal.is_empty() || rng.one_in(4) { &pairs } else { &equal };
    let at = rng.pick(among);
    // there is one: equal digits can become any other, and two that differ can be exchanged
    loop {
        let turned = rng.size(1, 15) as u8;
        let [one, other] = [characters[at] ^ turned, characters[at + 1] ^ turned];
        if one <= 9 && other <= 9 {
            characters[at..at + 2].copy_from_slice(&[one, other]);
            return fascn_pack(&characters);
        }
    }
}

// ---------------------------------------------------------------------------------------------
// Calls at an edge

/// P1 with every change of the first six bits and of the last six, and with the one that can slip through in every window of seven:
/// decoded, and in a container of each kind that holds a FASC-N, in a call of each sort in turn.
pub fn records() -> Vec<Record> {
    let at_an_end = all(REFUSED_WIDTH).filter(|smear| smear.first == 0 || smear.first + smear.width == BITS);
    let of_seven = (0..BITS - REFUSED_WIDTH).map(slipping);
    let mut out = Vec::new();
    for (i, smear) in at_an_end.chain(of_seven).enumerate() {
        let fascn = smear.on(EXAMPLE_FASCN);
        out.push(decoding(&fascn));
        out.push(in_container(&fascn, FASCN_KINDS[i % 4], i / 4));
        out.push(in_pair(&fascn, BIOMETRIC_KINDS[i % 3]));
    }
    out
}

fn decoding(fascn: &[u8]) -> Record {
    Record { today: 0, ..plain(Call::FascnDecode, 0, fascn.to_vec()) }
}

/// A call on a container or a sheet with this FASC-N, in turn: a check, a view, a report, a row behind one with P1, and a writing.
fn in_container(fascn: &[u8], kind: u64, turn: usize) -> Record {
    let card = card_holding(kind, fascn);
    let (container, sheet) = (card.container(), card.sheet());
    let element = if kind == CHUID_KIND { 0x30 } else { 0xBC };
    match turn % 5 {
        0 => Record { room: sheet.len(), fill: 0xA5, ..plain(Call::Check, kind, container) },
        1 => Record { element, ..plain(Call::View, kind, container) },
        2 => Record { room: REPORT_MAX, fill: 0xA5, ..plain(Call::Report, kind, container) },
        3 => Record {
            seen: Seen { good: 1, agreement: 1, fascn: EXAMPLE_FASCN },
            ..folders::row((kind as u8, container))
        },
        _ => Record { room: container.len(), fill: 0xA5, ..plain(Call::Write, kind, sheet) },
    }
}

/// The signer of a biometric with this FASC-N, beside a CHUID with P1.
fn in_pair(fascn: &[u8], kind: u64) -> Record {
    let good = Pair::good(kind);
    Pair { biometric: with_fascn(good.biometric.clone(), fascn), ..good }.record()
}
