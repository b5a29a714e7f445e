//! Folders for the calls that go through one (2026-14): containers of every kind, good, damaged and too long, with FASC-N that agree
//! or differ; counts and lengths at every edge; rows with rooms, offsets, lengths and states of every sort, and the last lines.

use crate::batch::{Call, Record, ANY_SIZES, FOLDER_MAX, PIECES};
use crate::card::{all_kinds, LAST_KIND};
use crate::folder::{entries, Entry, Seen, COUNT_BYTES, HEAD_BYTES, MOST_CONTAINERS, ROW_ROOM};
use crate::generate::{any_fill, any_kind, conforming_of_size, conforming_on, endless_kinds, fascn, flip_bit};
use crate::generate::{good_or_damaged, plain, small, today, Card, Form, Forms, Rng};
use crate::generate::{EXAMPLE_DAY, EXAMPLE_DISCOVERY, EXAMPLE_FASCN};
use crate::pairs::{each_other_digit, nearly_alike, with_another_digit};
use crate::samples::{self, chuid, signed, with_fascn};
use crate::signer::{CHUID_KIND, KINDS as BIOMETRIC_KINDS};
use crate::values::FASCN_BYTES;
use crate::{faults, CONTAINER_MAX};

/// A kind, and a container that may be of that kind or not.
pub type Contained = (u8, Vec<u8>);

/// The folder of these.
pub fn folder_of(containers: &[Contained]) -> Vec<u8> {
    let mut out = (containers.len() as u16).to_be_bytes().to_vec();
    for (kind, container) in containers {
        out.push(*kind);
        out.extend((container.len() as u32).to_be_bytes());
        out.extend(container);
    }
    out
}

/// The call on a whole folder that comes in such pieces.
pub fn call(bytes: Vec<u8>, piece: usize) -> Record {
    Record { piece, ..plain(Call::Folder, 0, bytes) }
}

/// The row of a container that is the first of its folder, with a room that is just large enough.
pub fn row((kind, container): Contained) -> Record {
    let size = container.len() as u64;
    Record { offset: 7, size, room: ROW_ROOM, fill: 0xA5, ..plain(Call::Row, kind.into(), container) }
}

/// The last lines, with such a room.
pub fn last(good: u64, agreement: u64) -> Record {
    let seen = Seen { good, agreement, ..Seen::default() };
    Record { seen, room: ROW_ROOM, fill: 0xA5, ..plain(Call::Last, 0, Vec::new()) }
}

/// The kinds whose FASC-N have to agree.
pub const FASCN_KINDS: [u64; 4] = [CHUID_KIND, BIOMETRIC_KINDS[0], BIOMETRIC_KINDS[1], BIOMETRIC_KINDS[2]];

/// The smallest card of one of these kinds, or nearly so, with this FASC-N.
pub fn card_holding(kind: u64, fascn: &[u8]) -> Card {
    if kind == CHUID_KIND {
        chuid(fascn, b"20300131", &[])
    } else {
        with_fascn(signed(kind, b"SIG"), fascn)
    }
}

/// Its container.
pub fn holding(kind: u64, fascn: &[u8]) -> Contained {
    (kind as u8, card_holding(kind, fascn).container())
}

/// The container with another last byte, which no kind of container permits.
pub fn broken((kind, mut container): Contained) -> Contained {
    if let Some(byte) = container.last_mut() {
        *byte ^= 1;
    }
    (kind, container)
}

fn discovery() -> Contained {
    (3, EXAMPLE_DISCOVERY.to_vec())
}

// ---------------------------------------------------------------------------------------------
// Made calls

pub fn record(rng: &mut Rng) -> Record {
    match rng.below(20) {
        0..=8 => any_folder(rng),
        9..=17 => any_row(rng),
        _ => any_last(rng),
    }
}

/// A folder, good or with a fault.
fn any_folder(rng: &mut Rng) -> Record {
    let today = today(rng);
    let containers = any_containers(rng, today);
    let mut bytes = folder_of(&containers);
    if rng.one_in(3) {
        damage(rng, &mut bytes);
    }
    bytes.truncate(FOLDER_MAX);
    Record { today, ..call(bytes, rng.pick(&PIECES)) }
}

fn any_containers(rng: &mut Rng, today: u64) -> Vec<Contained> {
    let count = match rng.below(100) {
        0 => return very_many(rng),
        1..=7 => 0,
        8..=20 => 1,
        21..=90 => rng.size(2, 6),
        _ => rng.size(7, 30),
    };
    let fascns = two_fascns(rng);
    // in some folders all FASC-N are the first, in some only those of refused ones are not, and in most they are mixed
    let plan = rng.below(4);
    (0..count).map(|_| any_contained(rng, today, &fascns, plan)).collect()
}

/// About as many containers as there may be, and so small ones.
fn very_many(rng: &mut Rng) -> Vec<Contained> {
    let count = rng.pick(&[255, 256, 256, 257]);
    let least = [discovery(), holding(2, &EXAMPLE_FASCN), (2, Vec::new()), (5, small(5)), (0, vec![0; 3])];
    (0..count).map(|_| least[rng.size(0, least.len() - 1)].clone()).collect()
}

/// Two FASC-N, mostly nearly alike.
fn two_fascns(rng: &mut Rng) -> [Vec<u8>; 2] {
    let own = fascn(rng);
    let other = if rng.one_in(4) { fascn(rng) } else { nearly_alike(rng, &own) };
    [own, other]
}

fn any_contained(rng: &mut Rng, today: u64, fascns: &[Vec<u8>; 2], plan: u64) -> Contained {
    let kind = if rng.one_in(2) { rng.pick(&FASCN_KINDS) } else { any_kind(rng) };
    match rng.below(100) {
        0 => large(rng, kind),
        1..=6 => (strange_kind(rng), any_bytes(rng)),
        7..=9 => (kind as u8, any_bytes(rng)),
        10 | 11 => (any_kind(rng) as u8, any_card(rng, kind, today, &fascns[0]).container()),
        _ => {
            let other = rng.one_in(3);
            let card = any_card(rng, kind, today, &fascns[usize::from(other && plan > 0)]);
            let contained = (kind as u8, mostly_good(rng, card));
            if plan == 1 && other {
                broken(contained)
            } else {
                contained
            }
        }
    }
}

/// A card that conforms, with this FASC-N where its kind has one.
fn any_card(rng: &mut Rng, kind: u64, today: u64, fascn: &[u8]) -> Card {
    let card = conforming_on(rng, kind, today);
    if FASCN_KINDS.contains(&kind) {
        with_fascn(card, fascn)
    } else {
        card
    }
}

fn mostly_good(rng: &mut Rng, mut card: Card) -> Vec<u8> {
    let forms = if rng.one_in(3) { Forms::mixed(rng) } else { Forms::all(Form::Fewest) };
    if rng.one_in(3) {
        good_or_damaged(rng, &mut card, &forms)
    } else {
        card.container_in(&forms)
    }
}

/// A container of about 32,768 bytes, which conforms on some day, or bytes that are none.
fn large(rng: &mut Rng, kind: u64) -> Contained {
    let total =
        rng.pick(&[CONTAINER_MAX - 1, CONTAINER_MAX, CONTAINER_MAX, CONTAINER_MAX + 1, CONTAINER_MAX + 1, 40_000]);
    if rng.one_in(3) {
        return (if rng.one_in(2) { strange_kind(rng) } else { kind as u8 }, vec![rng.byte(); total]);
    }
    let kind = rng.pick(&endless_kinds());
    let forms = Forms::mixed(rng);
    (kind as u8, conforming_of_size(rng, kind, total, &forms).container_in(&forms))
}

fn strange_kind(rng: &mut Rng) -> u8 {
    match rng.below(3) {
        0 => rng.byte(),
        // digits are no kinds
        1 => b'0' + rng.below(10) as u8,
        _ => rng.pick(&[0, LAST_KIND as u8 + 1, 0x53, 0x80, 0xFF]),
    }
}

fn any_bytes(rng: &mut Rng) -> Vec<u8> {
    let length = rng.pick(&[0, 0, 1, 2, 5, 61, 300]);
    if rng.one_in(2) {
        vec![0; length]
    } else {
        rng.bytes(length)
    }
}

/// Damages the count, a kind or a length, or cuts the folder off or lengthens it.
fn damage(rng: &mut Rng, bytes: &mut Vec<u8>) {
    let spelled = entries(bytes).unwrap_or_default();
    let any = rng.below(1 + spelled.len() as u64) as usize;
    match (rng.below(12), spelled.get(any)) {
        (0..=2, _) => bytes.truncate(rng.size(0, bytes.len())),
        (3, _) => bytes.truncate(bytes.len() - rng.size(1, 2)),
        (4, _) => {
            let more = rng.pick(&[1, 1, 2, HEAD_BYTES, 100]);
            bytes.extend(if rng.one_in(2) { vec![0; more] } else { rng.bytes(more) });
        }
        (5 | 6, _) => {
            let count = other_counts(spelled.len() as u16);
            bytes[..COUNT_BYTES].copy_from_slice(&rng.pick(&count).to_be_bytes());
        }
        (7 | 8, Some(entry)) => {
            let size = rng.pick(&other_sizes(entry, bytes.len()));
            put_size(bytes, entry, size);
        }
        (9, Some(entry)) => bytes[entry.offset - HEAD_BYTES] = strange_kind(rng),
        (10, _) => {
            let at = rng.size(0, bytes.len() - 1);
            bytes.remove(at);
        }
        _ => flip_bit(rng, bytes),
    }
}

fn put_size(bytes: &mut [u8], entry: &Entry, size: u32) {
    bytes[entry.offset - 4..entry.offset].copy_from_slice(&size.to_be_bytes());
}

/// Counts that are not this one: one off, at the edge of what there may be, and right in one byte only.
fn other_counts(right: u16) -> [u16; 10] {
    let more = |number: u16| right.wrapping_add(number);
    [0, 1, more(1), more(u16::MAX), 255, 256, 257, more(256), more(512), u16::MAX]
}

/// Lengths that are not this one: one off, at the edges of a container and of the folder, right in so many bits only, and such as lead
/// back to the folder's start in a sum of 32 bits.
fn other_sizes(entry: &Entry, folder: usize) -> [u32; 16] {
    let (right, left, back) = (entry.size as u32, (folder - entry.offset) as u32, (entry.offset as u32).wrapping_neg());
    [
        right.wrapping_sub(1),
        right.wrapping_add(1),
        0,
        left,
        left + 1,
        left.saturating_sub(HEAD_BYTES as u32),
        CONTAINER_MAX as u32,
        CONTAINER_MAX as u32 + 1,
        right ^ 1 << 8,
        right ^ 1 << 16,
        right ^ 1 << 24,
        right ^ 1 << 31,
        right << 8,
        back,
        back.wrapping_add(COUNT_BYTES as u32),
        u32::MAX,
    ]
}

fn any_row(rng: &mut Rng) -> Record {
    let today = today(rng);
    let fascns = two_fascns(rng);
    let (kind, bytes) = any_contained(rng, today, &fascns, 2);
    let size = any_size(rng, bytes.len() as u64);
    let room = any_room(rng);
    let (offset, seen) = (any_number(rng, 7), any_seen(rng, &fascns));
    Record { today, offset, size, seen, room, fill: any_fill(rng), ..row((kind, bytes)) }
}

fn any_last(rng: &mut Rng) -> Record {
    let (good, agreement) = (any_number(rng, 3), any_agreement(rng));
    Record { room: any_room(rng), fill: any_fill(rng), ..last(good, agreement) }
}

/// The right length, or another one: then the folder was cut short, or the container is too long.
fn any_size(rng: &mut Rng, right: u64) -> u64 {
    match rng.below(10) {
        0 => rng.pick(&other_lengths(right)),
        1 => any_number(rng, right),
        _ => right,
    }
}

fn other_lengths(right: u64) -> [u64; 9] {
    let largest = CONTAINER_MAX as u64;
    [
        right + 1,
        right.saturating_sub(1),
        0,
        largest,
        largest + 1,
        right + 65_536,
        right + (1 << 32),
        right + (1 << 63),
        u64::MAX,
    ]
}

/// This number mostly; any of so many bits; where a decimal number becomes longer; and the largest.
fn any_number(rng: &mut Rng, usual: u64) -> u64 {
    match rng.below(8) {
        0 | 1 => {
            let bits = rng.below(64);
            rng.word() >> bits
        }
        2 => 10u64.pow(rng.below(20) as u32) - rng.below(2),
        3 => u64::MAX - rng.below(2),
        _ => usual,
    }
}

/// A room of mostly as many bytes as a row asks for.
fn any_room(rng: &mut Rng) -> usize {
    match rng.below(20) {
        0..=9 => ROW_ROOM,
        10 | 11 => ROW_ROOM + 1,
        12 | 13 => ROW_ROOM - 1,
        14 => 0,
        15 => rng.size(0, ROW_ROOM),
        16 => rng.pick(&[1, 14, 53, 128, 512]),
        _ => rng.size(ROW_ROOM, 2 * ROW_ROOM),
    }
}

/// What rows before may have seen, and what none can have: any numbers, and any bytes for a FASC-N.
fn any_seen(rng: &mut Rng, [own, other]: &[Vec<u8>; 2]) -> Seen {
    let mut fascn = [0; FASCN_BYTES];
    match rng.below(10) {
        0..=2 => (),
        3..=5 => fascn.copy_from_slice(own),
        6 | 7 => fascn.copy_from_slice(other),
        8 => {
            fascn.copy_from_slice(own);
            flip_bit(rng, &mut fascn);
        }
        _ => fascn = [rng.byte(); FASCN_BYTES],
    }
    Seen { good: any_number(rng, 0), agreement: any_agreement(rng), fascn }
}

fn any_agreement(rng: &mut Rng) -> u64 {
    match rng.below(10) {
        0..=2 => 0,
        3..=6 => 1,
        7 => 2,
        8 => rng.pick(&[3, 7, 256, 257, 1 << 32, (1 << 32) + 1, 1 << 63, u64::MAX]),
        _ => any_number(rng, 1),
    }
}

// ---------------------------------------------------------------------------------------------
// Calls at an edge

/// A small folder with two FASC-N that agree, and a container without one.
pub fn small_folder() -> Vec<u8> {
    folder_of(&[holding(2, &EXAMPLE_FASCN), holding(6, &EXAMPLE_FASCN), discovery()])
}

/// Calls of which each byte is changed: on that folder, and rows of a CHUID and of fingers that agree with what was seen before.
pub fn small_records() -> [Record; 3] {
    let seen = Seen { good: 1, agreement: 1, fascn: EXAMPLE_FASCN };
    let row_of = |kind| Record { seen, ..row(holding(kind, &EXAMPLE_FASCN)) };
    [call(small_folder(), 1), row_of(2), row_of(6)]
}

pub fn records() -> Vec<Record> {
    [
        whole_folders(),
        faulty_folders(),
        pairs_of_fascns(),
        rows_of_each_kind(),
        faulty_rows(),
        rooms_and_days(),
        sizes_of_rows(),
        states(),
        numbers_in_rows(),
        last_lines(),
    ]
    .concat()
}

/// The folder in pieces of every sort.
fn in_pieces(bytes: Vec<u8>) -> [Record; 3] {
    PIECES.map(|piece| call(bytes.clone(), piece))
}

/// Counts at their edges, every kind, the samples, and containers at the edge of what a container may have.
fn whole_folders() -> Vec<Record> {
    let empty = |count: usize| vec![(2, Vec::new()); count];
    let mut out: Vec<_> =
        [0, 1, 2, 255, 256, 257, 258, 512].iter().flat_map(|&count| in_pieces(folder_of(&empty(count)))).collect();
    let each_kind: Vec<Contained> = (0..=255).map(|kind| (kind, small(3))).collect();
    let known: Vec<Contained> = all_kinds().map(|kind| (kind as u8, small(kind))).collect();
    let mut samples: Vec<Contained> =
        samples::all().into_iter().map(|sample| (sample.kind as u8, sample.container)).collect();
    out.extend([each_kind, known, samples.clone()].into_iter().flat_map(|all| in_pieces(folder_of(&all))));
    samples.reverse();
    out.push(call(folder_of(&samples), ANY_SIZES));
    out.push(call(folder_of(&vec![discovery(); MOST_CONTAINERS]), 65_536));
    out.push(call(folder_of(&vec![discovery(); MOST_CONTAINERS + 1]), 65_536));
    for size in [CONTAINER_MAX - 1, CONTAINER_MAX, CONTAINER_MAX + 1, 65_535, 65_536, 65_537] {
        for kind in [2, 0, 99] {
            out.extend(in_pieces(folder_of(&[(kind, vec![0; size]), discovery()])));
        }
        let good = conforming_of_size(&mut Rng::new(size as u64), 6, size, &Forms::all(Form::Fewest));
        out.push(Record { today: good.today, ..call(folder_of(&[discovery(), (6, good.container())]), ANY_SIZES) });
    }
    out
}

/// Every fault of a folder, in pieces of each sort in turn, and under a day that is none.
fn faulty_folders() -> Vec<Record> {
    let mut out = Vec::new();
    for (i, bytes) in faults::folders().into_iter().enumerate() {
        out.push(call(bytes.clone(), PIECES[i % 3]));
        if i % 10 == 0 {
            out.push(Record { today: 20260229, ..call(bytes, PIECES[i / 10 % 3]) });
        }
    }
    for today in [0, 10_100, 10_101, 20260229, 99991231, 99991232, EXAMPLE_DAY + (1 << 32), u64::MAX] {
        for bytes in [small_folder(), Vec::new(), vec![0, 0], vec![1, 1]] {
            out.push(Record { today, ..call(bytes, 1) });
        }
    }
    out
}

/// Folders with counts and lengths that are not those of their containers, for [`faults::folders`].
pub fn with_other_numbers(bytes: &[u8]) -> Vec<Vec<u8>> {
    let spelled = entries(bytes).expect("a folder");
    let counts = other_counts(spelled.len() as u16).into_iter();
    let mut out: Vec<_> = counts.map(|count| [&count.to_be_bytes(), &bytes[COUNT_BYTES..]].concat()).collect();
    for entry in &spelled {
        for size in other_sizes(entry, bytes.len()) {
            let mut other = bytes.to_vec();
            put_size(&mut other, entry, size);
            out.push(other);
        }
    }
    out
}

/// Every two kinds with a FASC-N, which is the same in both or differs in a digit; between them a container that has none or is
/// refused, or one behind them that differs; and with the first or the second refused.
fn pairs_of_fascns() -> Vec<Record> {
    let other = with_another_digit(&EXAMPLE_FASCN, 5, 0, 1);
    let mut out = Vec::new();
    for (i, (one, two)) in FASCN_KINDS.iter().flat_map(|&one| FASCN_KINDS.map(|two| (one, two))).enumerate() {
        for fascn in [&EXAMPLE_FASCN[..], &other] {
            let (first, second) = (holding(one, &EXAMPLE_FASCN), holding(two, fascn));
            let refused = broken(holding(two, &other));
            for folder in [
                vec![first.clone(), second.clone()],
                vec![first.clone(), discovery(), second.clone(), first.clone()],
                vec![refused.clone(), first.clone(), refused, second.clone()],
                vec![broken(first.clone()), second.clone()],
                vec![first.clone(), broken(second.clone())],
                vec![first.clone(), first, second],
            ] {
                out.push(call(folder_of(&folder), PIECES[i % 3]));
            }
        }
    }
    // FASC-N that differ in one digit, whichever it is
    for (i, other) in each_other_digit(&EXAMPLE_FASCN).iter().enumerate() {
        let kind = FASCN_KINDS[i % 4];
        out.push(call(folder_of(&[holding(2, &EXAMPLE_FASCN), holding(kind, other)]), ANY_SIZES));
        let seen = Seen { good: 1, agreement: 1, fascn: EXAMPLE_FASCN };
        out.push(Record { seen, ..row(holding(kind, other)) });
    }
    out
}

/// Every byte as a kind, with a container of each kind, and with none; and each of the samples.
fn rows_of_each_kind() -> Vec<Record> {
    let mut out = Vec::new();
    for kind in 0..=255 {
        let own = if all_kinds().contains(&kind.into()) { small(kind.into()) } else { small(2) };
        out.extend([own, Vec::new(), EXAMPLE_DISCOVERY.to_vec()].map(|container| row((kind, container))));
        out.push(Record { size: CONTAINER_MAX as u64 + 1, ..row((kind, Vec::new())) });
    }
    out.extend(samples::all().into_iter().map(|sample| row((sample.kind as u8, sample.container))));
    out
}

/// Rows of containers with every fault of a tag or a value: they are seen, and count nothing.
fn faulty_rows() -> Vec<Record> {
    let seen = Seen { good: 3, agreement: 1, fascn: [0xFF; FASCN_BYTES] };
    let faulty = |kind| faults::containers(kind).into_iter().map(move |container| (kind as u8, container));
    all_kinds().flat_map(faulty).map(|contained| Record { seen, ..row(contained) }).collect()
}

/// A day that is none, a room that is too small and a container that is cut short or too long, each or not.
fn rooms_and_days() -> Vec<Record> {
    let mut out = Vec::new();
    for room in [0, 1, ROW_ROOM - 1, ROW_ROOM, ROW_ROOM + 1, 200] {
        for today in [EXAMPLE_DAY, 0, 20260229, u64::MAX] {
            for size in [61, 60, 62, CONTAINER_MAX as u64 + 1] {
                for kind in [2, 3, 0, 255] {
                    let contained = (kind, holding(2, &EXAMPLE_FASCN).1);
                    out.push(Record { room, today, size, ..row(contained) });
                }
            }
        }
        out.push(Record { room, ..last(3, 1) });
        out.push(Record { room, ..last(u64::MAX, 2) });
    }
    out
}

/// Lengths that are not those of what is lent, and lengths over 32,768 of which all, some or nothing is lent.
fn sizes_of_rows() -> Vec<Record> {
    let largest = CONTAINER_MAX as u64;
    let mut out = Vec::new();
    for kind in [2, 12, 0, 13] {
        for lent in [0, 1, 61, CONTAINER_MAX - 1, CONTAINER_MAX, CONTAINER_MAX + 1, 65_536] {
            let sizes = [lent as u64 + 2, largest - 1, 1 << 16, (1 << 32) - 1, 1 << 32, 1 << 63];
            for size in sizes.into_iter().chain([lent as u64]).chain(other_lengths(lent as u64)) {
                out.push(Record { size, ..row((kind, vec![0x53; lent])) });
            }
        }
    }
    for zeros in 0..3 {
        let forms = Forms::all(Form::Padded(zeros));
        for total in [CONTAINER_MAX, CONTAINER_MAX + 1] {
            for kind in endless_kinds() {
                let card = conforming_of_size(&mut Rng::new(kind), kind, total, &forms);
                out.push(Record { today: card.today, ..row((kind as u8, card.container_in(&forms))) });
            }
        }
    }
    out
}

/// States of every sort before a row of each kind with a FASC-N and of one without, good and refused, and refused by the room.
fn states() -> Vec<Record> {
    let other = with_another_digit(&EXAMPLE_FASCN, 2, 5, 3);
    let mut other_fascn = [0; FASCN_BYTES];
    other_fascn.copy_from_slice(&other);
    let mut out = Vec::new();
    for good in [0, 1, 255, (1 << 32) - 1, u64::MAX - 1, u64::MAX] {
        for agreement in [0, 1, 2, 7, 256, 1 << 32, (1 << 32) + 1, u64::MAX] {
            for fascn in [[0; FASCN_BYTES], EXAMPLE_FASCN, other_fascn, [0xFF; FASCN_BYTES]] {
                let seen = Seen { good, agreement, fascn };
                let with_fascn = FASCN_KINDS.map(|kind| holding(kind, &EXAMPLE_FASCN));
                let others = [discovery(), broken(holding(2, &EXAMPLE_FASCN)), (13, small(2))];
                out.extend(with_fascn.into_iter().chain(others).map(|contained| Record { seen, ..row(contained) }));
                out.push(Record { seen, room: ROW_ROOM - 1, ..row(discovery()) });
                out.push(Record { seen, size: 62, ..row(holding(2, &EXAMPLE_FASCN)) });
                out.push(Record { seen, today: 0, ..row(holding(2, &EXAMPLE_FASCN)) });
            }
        }
    }
    out
}

/// Numbers of one digit more or less, up to the most.
fn edge_numbers() -> Vec<u64> {
    let tens = (0..20).map(|digits| 10u64.pow(digits));
    tens.flat_map(|ten| [ten - 1, ten]).chain([7, 1 << 32, 1 << 63, u64::MAX - 1, u64::MAX]).collect()
}

/// Offsets and lengths with every number of digits, in rows of a kind with one, two or three.
fn numbers_in_rows() -> Vec<Record> {
    let mut out = Vec::new();
    for number in edge_numbers() {
        for kind in [3, 12, 99, 100, 255] {
            out.push(Record { offset: number, ..row((kind, EXAMPLE_DISCOVERY.to_vec())) });
            out.push(Record { size: number, ..row((kind, EXAMPLE_DISCOVERY.to_vec())) });
            out.push(Record { offset: number, size: u64::MAX, ..row((kind, Vec::new())) });
        }
    }
    out
}

fn last_lines() -> Vec<Record> {
    let agreements = [0, 1, 2, 3, 7, 255, 256, 257, 1 << 32, (1 << 32) + 1, 1 << 63, u64::MAX];
    edge_numbers().into_iter().flat_map(|good| agreements.map(|agreement| last(good, agreement))).collect()
}
