//! A CHUID and a biometric for the calls that ask for the signer: good pairs with a certificate in either, damaged ones and such as do
//! not belong together, blocks at every edge in both, and the order of the refusals.

use crate::batch::{Call, Record};
use crate::blocks::{self, Block};
use crate::card::LAST_KIND;
use crate::generate::{any_container, any_kind, conforming_on, flip_bit, good_or_damaged, plain, today};
use crate::generate::{Card, Form, Forms, Rng, EXAMPLE_DAY, EXAMPLE_FASCN, LONGEST_FORM};
use crate::samples::{self, chuid, signed, with_block, with_fascn, wrong_fascn, UUID};
use crate::signer::{CHUID_KIND, KINDS};
use crate::smears::with_two_other_digits;
use crate::values::{fascn_decode, fascn_encode, FASCN_BYTES, HEADER_BYTES, HEADER_FASCN};
use crate::{faults, trees, CONTAINER_MAX};

// ---------------------------------------------------------------------------------------------
// The two cards

/// A CHUID and a biometric, each with the forms of its lengths.
#[derive(Clone)]
pub struct Pair {
    pub chuid: Card,
    pub biometric: Card,
    pub forms: [Forms; 2],
}

impl Pair {
    /// The example's CHUID and the least biometric of this kind with these blocks. They belong together.
    pub fn with_blocks(kind: u64, chuid_block: &[u8], block: &[u8]) -> Pair {
        let fewest = Forms::all(Form::Fewest);
        let chuid = chuid(&EXAMPLE_FASCN, b"20300131", chuid_block);
        Pair { chuid, biometric: signed(kind, block), forms: [fewest.clone(), fewest] }
    }

    /// A pair of this kind with a certificate in each block.
    pub fn good(kind: u64) -> Pair {
        let block = blocks::with_certificate(trees::least());
        Pair::with_blocks(kind, &block, &block)
    }

    /// The call on the two containers.
    pub fn record(&self) -> Record {
        let [of_chuid, of_biometric] = &self.forms;
        let record =
            call(self.biometric.kind, self.chuid.container_in(of_chuid), self.biometric.container_in(of_biometric));
        Record { today: self.chuid.today, ..record }
    }
}

fn call(kind: u64, chuid: Vec<u8>, biometric: Vec<u8>) -> Record {
    Record { chuid, ..plain(Call::Signer, kind, biometric) }
}

/// The FASC-N that differs in one digit of one of its nine numbers, by so much. Each is in the other's place as good.
pub fn with_another_digit(fascn: &[u8], which: usize, place: u32, more: u64) -> Vec<u8> {
    let (_, mut numbers) = fascn_decode(fascn);
    let unit = 10u64.pow(place);
    let digit = numbers[which] / unit % 10;
    numbers[which] = numbers[which] - digit * unit + (digit + more) % 10 * unit;
    let mut out = vec![0; FASCN_BYTES];
    fascn_encode(&numbers, &mut out);
    out
}

/// The same with any digit and any difference.
pub fn with_any_other_digit(rng: &mut Rng, fascn: &[u8]) -> Vec<u8> {
    let which = rng.size(0, 8);
    let place = rng.below(u64::from(DIGITS[which])) as u32;
    let more = 1 + rng.below(9);
    with_another_digit(fascn, which, place, more)
}

/// The same with each digit, and three differences of each.
pub fn each_other_digit(fascn: &[u8]) -> Vec<Vec<u8>> {
    let places =
        DIGITS.into_iter().enumerate().flat_map(|(which, digits)| (0..digits).map(move |place| (which, place)));
    places.flat_map(|(which, place)| [1, 5, 9].map(|more| with_another_digit(fascn, which, place, more))).collect()
}

/// A FASC-N that differs in one digit, or at times in two that keep both parities and the check.
pub fn nearly_alike(rng: &mut Rng, fascn: &[u8]) -> Vec<u8> {
    if rng.one_in(8) {
        with_two_other_digits(rng, fascn).to_vec()
    } else {
        with_any_other_digit(rng, fascn)
    }
}

/// How many digits the nine numbers have.
const DIGITS: [u32; 9] = [4, 4, 6, 1, 1, 10, 1, 4, 1];

// ---------------------------------------------------------------------------------------------
// Made calls

/// A pair, good or damaged at any layer: the blocks, the FASC-N, the containers, and what is asked.
pub fn record(rng: &mut Rng) -> Record {
    let mut pair = any_pair(rng);
    match rng.below(40) {
        0..=12 => pair.record(),
        13..=19 => {
            pair.biometric = with_block(pair.biometric, &blocks::damaged(rng));
            pair.record()
        }
        20..=25 => {
            pair.biometric = with_block(pair.biometric, &blocks::without_certificates(rng).bytes());
            pair.chuid = with_block(pair.chuid, &blocks::damaged(rng));
            pair.record()
        }
        26..=28 => {
            pair.chuid = with_fascn(pair.chuid.clone(), &another_fascn(rng, &pair));
            pair.record()
        }
        29 => large(rng, pair),
        30 | 31 => with_any_container(rng, &pair),
        32 | 33 => with_changed_bytes(rng, &pair),
        plan => with_damaged_container(rng, pair, plan),
    }
}

/// A pair that belongs together, with good blocks: the biometric's has certificates, or has none, and likewise the CHUID's.
fn any_pair(rng: &mut Rng) -> Pair {
    let (kind, today) = (rng.pick(&KINDS), today(rng));
    let (chuid, biometric) = (conforming_on(rng, CHUID_KIND, today), conforming_on(rng, kind, today));
    let fascn = biometric.rows[0].as_ref().map_or(Vec::new(), |value| value[HEADER_FASCN].to_vec());
    let chuid = with_block(with_fascn(chuid, &fascn), &any_block(rng, 4).bytes());
    let biometric = with_block(biometric, &any_block(rng, 2).bytes());
    let forms = [(); 2].map(|_| if rng.one_in(2) { Forms::mixed(rng) } else { Forms::all(Form::Fewest) });
    Pair { chuid, biometric, forms }
}

/// A good block; one in so many has no certificate.
fn any_block(rng: &mut Rng, none_in: u64) -> Block {
    if rng.one_in(none_in) {
        blocks::without_certificates(rng)
    } else {
        blocks::with_certificates(rng)
    }
}

/// A FASC-N that is not the pair's: mostly nearly alike.
fn another_fascn(rng: &mut Rng, pair: &Pair) -> Vec<u8> {
    if rng.one_in(8) {
        return EXAMPLE_FASCN.to_vec();
    }
    nearly_alike(rng, pair.chuid.rows[1].as_ref().expect("a CHUID has a FASC-N"))
}

/// A pair of which one container, or each, has about as many bytes as there may be. The long block has a long certificate, or none.
fn large(rng: &mut Rng, mut pair: Pair) -> Record {
    let sorts: [fn(usize) -> Vec<u8>; 2] = [blocks::with_long_certificate, blocks::with_long_signature];
    let long = rng.pick(&sorts);
    let total = match rng.below(4) {
        0 => rng.size(10_000, CONTAINER_MAX),
        1 => CONTAINER_MAX + 1,
        _ => CONTAINER_MAX,
    };
    let [of_chuid, of_biometric] = pair.forms.clone();
    if !rng.one_in(3) {
        pair.biometric = of_size(pair.biometric, &of_biometric, total, long);
    }
    if rng.one_in(2) {
        pair.chuid = of_size(pair.chuid, &of_chuid, total, long);
    }
    pair.record()
}

/// The card with a block of this sort that is so long that the container has this many bytes in these forms.
fn of_size(card: Card, forms: &Forms, total: usize, block: fn(usize) -> Vec<u8>) -> Card {
    // from so many bytes on, each length around them has as many as later
    let card = with_block(card, &block(300));
    let more = total - card.container_in(forms).len();
    with_block(card, &block(300 + more))
}

/// A pair in which one is any container, of any kind, as good or as bad as any.
fn with_any_container(rng: &mut Rng, pair: &Pair) -> Record {
    let kind = any_kind(rng);
    let (_, bytes) = any_container(rng, kind);
    let record = pair.record();
    if rng.one_in(2) {
        Record { chuid: bytes, ..record }
    } else {
        Record { bytes, ..record }
    }
}

/// A pair with a few bits turned, in either container or in both, wherever they are.
fn with_changed_bytes(rng: &mut Rng, pair: &Pair) -> Record {
    let mut record = pair.record();
    for _ in 0..rng.size(1, 3) {
        let bytes = if rng.one_in(2) { &mut record.chuid } else { &mut record.bytes };
        // most of it lies at the end, where the block is
        let from = if rng.one_in(2) { bytes.len() * 3 / 4 } else { 0 };
        flip_bit(rng, &mut bytes[from..]);
    }
    record
}

/// A pair with one container that is mostly damaged, or with both.
fn with_damaged_container(rng: &mut Rng, mut pair: Pair, plan: u64) -> Record {
    let record = pair.record();
    let [of_chuid, of_biometric] = pair.forms;
    let chuid = if plan % 3 != 0 { good_or_damaged(rng, &mut pair.chuid, &of_chuid) } else { record.chuid };
    let bytes = if plan % 3 != 1 { good_or_damaged(rng, &mut pair.biometric, &of_biometric) } else { record.bytes };
    Record { today: record.today, ..call(record.kind, chuid, bytes) }
}

// ---------------------------------------------------------------------------------------------
// Calls at an edge

/// Two calls on small containers: the certificate lies in the biometric, with a CHUID that has an empty block, and in the CHUID.
pub fn small_records() -> [Record; 2] {
    let certificate = blocks::with_certificate(trees::least());
    let [_, empty_field] = blocks::holding_none();
    [
        Pair::with_blocks(6, &[], &Block::whole().bytes()).record(),
        Pair::with_blocks(7, &certificate, &empty_field).record(),
    ]
}

pub fn records() -> Vec<Record> {
    [
        blocks_at_an_edge(),
        kinds_and_days(),
        several_faults(),
        other_fascns(),
        longer_forms(),
        optional_elements(),
        other_records(),
        ends(),
        faulty_containers(),
        other_containers(),
        largest(),
    ]
    .concat()
}

/// Each block at an edge in a biometric, of each kind in turn, and in the CHUID of one that holds none.
fn blocks_at_an_edge() -> Vec<Record> {
    let none = blocks::holding_none();
    let good = blocks::with_certificate(trees::least());
    let both = |(i, block): (usize, Vec<u8>)| {
        let kind = KINDS[i % 3];
        [Pair::with_blocks(kind, &good, &block), Pair::with_blocks(kind, &block, &none[i % 2])]
            .map(|pair| pair.record())
    };
    blocks::edges().into_iter().enumerate().flat_map(both).collect()
}

/// Every kind and such as are none, and days that are none, with a pair that is good, and with containers of no bytes.
fn kinds_and_days() -> Vec<Record> {
    let strange = [LAST_KIND + 1, 255, 256 + 6, 65_536 + 7, (1 << 32) + 6, (1 << 63) + 12, u64::MAX];
    let days = [EXAMPLE_DAY, 0, 20260229, 99991232, u64::MAX, EXAMPLE_DAY + (1 << 32)];
    let mut out = Vec::new();
    for kind in (0..=LAST_KIND).chain(strange) {
        for today in days {
            // each kind with a biometric that is its own, where there is one
            let good = Pair::good(if KINDS.contains(&kind) { kind } else { 6 }).record();
            let empty = call(kind, Vec::new(), Vec::new());
            let over = call(kind, vec![0; CONTAINER_MAX + 1], vec![0; CONTAINER_MAX + 1]);
            out.extend([good, empty, over].map(|record| Record { kind, today, ..record }));
        }
    }
    out
}

/// The biometric with a fault in its header that is not of the FASC-N.
fn with_reserved_byte(mut card: Card) -> Card {
    if let Some(value) = &mut card.rows[0] {
        value[HEADER_BYTES - 1] = 1;
    }
    card
}

/// A kind that is none, a day, a CHUID, a biometric, a FASC-N, a block and the other block that are wrong, each or not.
fn several_faults() -> Vec<Record> {
    let [none, _] = blocks::holding_none();
    let mut out = Vec::new();
    for kind in KINDS {
        for faults in 0..128 {
            let wrong = |bit: u32| faults >> bit & 1 == 1;
            let good = Pair::good(kind);
            let mut pair = Pair { biometric: with_block(good.biometric, &none), ..good };
            if wrong(6) {
                pair.chuid = with_block(pair.chuid, b"X");
            }
            if wrong(5) {
                pair.biometric = with_block(pair.biometric, b"SIG");
            }
            if wrong(4) {
                pair.chuid = with_fascn(pair.chuid, &with_another_digit(&EXAMPLE_FASCN, 5, 0, 1));
            }
            if wrong(3) {
                pair.biometric = with_reserved_byte(pair.biometric);
            }
            if wrong(2) {
                pair.chuid = with_fascn(pair.chuid, &wrong_fascn());
            }
            let record = pair.record();
            let today = if wrong(1) { 20260229 } else { record.today };
            let kind = if wrong(0) { CHUID_KIND } else { kind };
            out.push(Record { kind, today, ..record });
        }
    }
    out
}

/// FASC-N that differ in one digit, whichever it is, in either container; and the same in both.
fn other_fascns() -> Vec<Record> {
    let mut out = Vec::new();
    for (i, other) in each_other_digit(&EXAMPLE_FASCN).iter().enumerate() {
        let Pair { chuid, biometric, forms } = Pair::good(KINDS[i / 3 % 3]);
        let (one, two) = (with_fascn(chuid.clone(), other), with_fascn(biometric.clone(), other));
        for (chuid, biometric) in [(&one, &biometric), (&chuid, &two), (&one, &two)] {
            let pair = Pair { chuid: chuid.clone(), biometric: biometric.clone(), forms: forms.clone() };
            out.push(pair.record());
        }
    }
    out
}

/// Both containers in every pair of an outer form and one for all elements; the certificate lies in the one or in the other.
fn longer_forms() -> Vec<Record> {
    let every = || (0..LONGEST_FORM * LONGEST_FORM).map(|both| (both / LONGEST_FORM, both % LONGEST_FORM));
    let forms = |(outer, rows)| Forms { outer: Form::Padded(outer), ..Forms::all(Form::Padded(rows)) };
    let long = blocks::with_certificate(trees::down_to(4, 4, &[0x30; 128]));
    let [none, _] = blocks::holding_none();
    let mut out = Vec::new();
    for (one, other) in every().flat_map(|one| every().map(move |other| (one, other))) {
        for (i, block) in [&long, &none].into_iter().enumerate() {
            let kind = KINDS[(one.0 + other.1 + i) % 3];
            let pair = Pair { forms: [forms(one), forms(other)], ..Pair::with_blocks(kind, &long, block) };
            out.push(pair.record());
        }
    }
    out
}

/// A CHUID with each of its optional elements or without it: its FASC-N and its block stand elsewhere then.
fn optional_elements() -> Vec<Record> {
    let optional: [(usize, &[u8]); 4] = [(0, &[1, 2]), (2, &[3; 4]), (3, &[4; 9]), (6, &UUID)];
    let [none, _] = blocks::holding_none();
    let mut out = Vec::new();
    for there in 0..16 {
        let mut pair = Pair::good(KINDS[there % 3]);
        for (i, (row, value)) in optional.iter().enumerate() {
            pair.chuid.rows[*row] = Some(value.to_vec()).filter(|_| there >> i & 1 == 1);
        }
        out.push(pair.record());
        pair.biometric = with_block(pair.biometric, &none);
        out.push(pair.record());
    }
    out
}

/// Biometrics with other records than the least: the block stands behind them.
fn other_records() -> Vec<Record> {
    let mut rng = Rng::new(11);
    let mut out = Vec::new();
    for _ in 0..60 {
        for kind in KINDS {
            let good = Pair::good(kind);
            let biometric = conforming_on(&mut rng, kind, EXAMPLE_DAY);
            let block = any_block(&mut rng, 3).bytes();
            let biometric = with_block(with_fascn(biometric, &EXAMPLE_FASCN), &block);
            out.push(Pair { biometric, ..good }.record());
        }
    }
    out
}

/// Either container cut off after each of its bytes, and with a byte behind it.
fn ends() -> Vec<Record> {
    let mut out = Vec::new();
    for record in small_records() {
        let (chuid, bytes) = (record.chuid.clone(), record.bytes.clone());
        out.extend((0..chuid.len()).map(|end| Record { chuid: chuid[..end].to_vec(), ..record.clone() }));
        out.extend((0..bytes.len()).map(|end| Record { bytes: bytes[..end].to_vec(), ..record.clone() }));
        out.push(Record { chuid: [&chuid[..], &[0]].concat(), ..record.clone() });
        out.push(Record { bytes: [&bytes[..], &[0]].concat(), ..record.clone() });
        // each in the other's place, and both the same
        out.push(Record { chuid: bytes.clone(), bytes: chuid.clone(), ..record.clone() });
        out.push(Record { chuid: bytes, ..record.clone() });
        out.push(Record { bytes: chuid, ..record });
    }
    out
}

/// Every fault of a tag or a value in either container.
fn faulty_containers() -> Vec<Record> {
    let good = Pair::good(6).record();
    let mut out: Vec<_> =
        faults::containers(CHUID_KIND).into_iter().map(|chuid| Record { chuid, ..good.clone() }).collect();
    for kind in KINDS {
        let good = Pair::good(kind).record();
        out.extend(faults::containers(kind).into_iter().map(|bytes| Record { bytes, ..good.clone() }));
    }
    out
}

/// The samples as either container, which mostly are of another kind.
fn other_containers() -> Vec<Record> {
    let mut out = Vec::new();
    for sample in samples::all() {
        for kind in KINDS {
            let good = Pair::good(kind).record();
            out.push(Record { chuid: sample.container.clone(), ..good.clone() });
            out.push(Record { bytes: sample.container.clone(), ..good });
        }
    }
    out
}

/// Containers of as many bytes as there may be, and of one more: either, and both.
fn largest() -> Vec<Record> {
    let [none, _] = blocks::holding_none();
    let mut out = Vec::new();
    for (i, total) in [CONTAINER_MAX - 1, CONTAINER_MAX, CONTAINER_MAX + 1].into_iter().enumerate() {
        for (j, long) in [blocks::with_long_certificate, blocks::with_long_signature].into_iter().enumerate() {
            for zeros in [0, 2] {
                let form = Forms::all(Form::Padded(zeros));
                let good = Pair { forms: [form.clone(), form.clone()], ..Pair::good(KINDS[(i + j) % 3]) };
                let chuid = of_size(good.chuid.clone(), &form, total, long);
                let biometric = of_size(good.biometric.clone(), &form, total, long);
                let short = with_block(good.biometric.clone(), &none);
                out.push(Pair { chuid: chuid.clone(), biometric: short, ..good.clone() }.record());
                out.push(Pair { biometric: biometric.clone(), ..good.clone() }.record());
                out.push(Pair { chuid, biometric, ..good }.record());
            }
        }
    }
    out
}
