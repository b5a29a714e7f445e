//! The calls of Prosianek and of the independent Rust program on the same inputs. bench/run builds and runs this.
//!
//!     bench strings STRINGS          writes the million FASC-N into a file, for the next two: an emulator is slow to make them
//!     bench count STRINGS            makes each call once between the markers of icount.c; run under QEMU with that plugin
//!     bench time STRINGS             prints nanoseconds a call, a line each
//!     bench tables COUNTS [TIMES]    prints the tables of what the plugin and `bench time` wrote
//!     bench where COUNTS             prints which functions the instructions are in, the worst ratio first
//!
//! The last four go over the same cases in the same order, for each first Prosianek, then Rust, and then over the FASC-N: all of
//! them and the good ones alone, each by the first reader, by the second and by Rust.

use second::card::{all_kinds, kind_of, Rule, CONFORMS};
use second::faces::{facial, Image};
use second::folder::{entries, over, Entry, Seen, MOST_CONTAINERS, ROW_ROOM};
use second::folders::{folder_of, Contained};
use second::generate::{certificate_kinds, endless_row, Card, Form, Forms, LONGEST_FORM};
use second::irises::{iris_record, pair_of};
use second::report::LONGEST;
use second::samples::{self, block, face, iris, with_block, RSA};
use second::trees::{certificate_of_pairs, Tree};
use second::values::IRIS_MOST_BYTES;
use second::{number, tag_number, Which};
use std::arch::asm;
use std::mem::size_of;
use std::ops::{Deref, DerefMut, Range};
use std::time::Instant;

#[path = "../examples/rust/prosianek.rs"]
mod prosianek;
use prosianek::{prosianek_check, prosianek_fascn_decode, prosianek_fascn_decode_by_table, prosianek_fascn_encode};
use prosianek::{prosianek_folder_end, prosianek_folder_step, prosianek_last, prosianek_row};
use prosianek::{prosianek_lists, prosianek_report, prosianek_signer, prosianek_write, Decoded, FASCN_BYTES};

const TODAY: u64 = 2026_03_01;
const LARGEST: usize = second::CONTAINER_MAX;
const CHUID: u64 = 2;
const FINGERS: u64 = 6;
const FACE: u64 = 7;
const PIVAUTH: u64 = 8;
const IRIS: u64 = 12;

// ---------------------------------------------------------------------------------------------
// What is done with a call: it is made, counted or timed

trait Meter {
    fn measure<A>(&mut self, call: impl FnMut() -> A) -> A;
}

/// One call, unmeasured.
struct Made;

impl Meter for Made {
    fn measure<A>(&mut self, mut call: impl FnMut() -> A) -> A {
        call()
    }
}

/// One call between the markers.
struct Counted;

impl Meter for Counted {
    fn measure<A>(&mut self, mut call: impl FnMut() -> A) -> A {
        icount_start();
        let answer = call();
        icount_stop();
        answer
    }
}

// The plugin knows the markers by name. They must differ, or the compiler makes one function of the two.
#[no_mangle]
#[inline(never)]
extern "C" fn icount_start() {
    unsafe { asm!("nop") }
}

#[no_mangle]
#[inline(never)]
extern "C" fn icount_stop() {
    unsafe { asm!("nop", "nop") }
}

/// So many calls, and the shortest time of one so far.
struct Timed {
    calls: u32,
    best: f64,
}

impl Meter for Timed {
    fn measure<A>(&mut self, mut call: impl FnMut() -> A) -> A {
        let start = Instant::now();
        for _ in 1..self.calls {
            keep(&call());
        }
        let answer = call();
        let time = start.elapsed().as_nanos() as f64 / f64::from(self.calls);
        self.best = self.best.min(time);
        answer
    }
}

/// For the compiler, looks at the value. (std::hint::black_box is younger than Debian 12's rustc.)
fn keep<A>(value: &A) {
    unsafe { asm!("/* {} */", in(reg) value) }
}

// ---------------------------------------------------------------------------------------------
// The calls

#[derive(Clone, Copy)]
enum Call {
    Check,
    Write,
    Report,
    Lists,
    Signer,
    Decode,
    ByTable,
    Encode,
    /// Going over a folder, all its rows with the last lines, and one row.
    Over,
    Rows,
    Row,
}

/// The name of a check that is asked for the verdict alone.
const NO_ROOM: &str = "check, no room";

struct Case {
    what: String,
    name: &'static str,
    call: Call,
    kind: u64,
    today: u64,
    input: Bytes,
    /// The CHUID that goes with a biometric whose signer is asked for; else no bytes.
    chuid: Bytes,
    /// The containers of a folder.
    entries: Vec<Entry>,
    numbers: [u64; 9],
    room: usize,
    /// The number that both have to answer.
    number: u64,
}

/// Bytes that start at a multiple of 64: what memcpy and memset take depends on where they start.
struct Bytes(Vec<u8>, Range<usize>);

impl Bytes {
    fn filled(byte: u8, size: usize) -> Bytes {
        let memory = vec![byte; size + 64];
        let start = memory.as_ptr().align_offset(64);
        Bytes(memory, start..start + size)
    }

    fn of(bytes: &[u8]) -> Bytes {
        let mut copy = Bytes::filled(0, bytes.len());
        copy.copy_from_slice(bytes);
        copy
    }
}

impl Deref for Bytes {
    type Target = [u8];
    fn deref(&self) -> &[u8] {
        &self.0[self.1.clone()]
    }
}

impl DerefMut for Bytes {
    fn deref_mut(&mut self) -> &mut [u8] {
        &mut self.0[self.1.clone()]
    }
}

/// The room as five lists of one length. It starts at a multiple of 64, so that no byte of it is left over before a number.
fn five_lists(room: &mut [u8]) -> [&mut [u64]; 5] {
    let (_, numbers, _) = unsafe { room.align_to_mut::<u64>() };
    let size = numbers.len() / 5;
    let (types, rest) = numbers.split_at_mut(size);
    let (xs, rest) = rest.split_at_mut(size);
    let (ys, rest) = rest.split_at_mut(size);
    let (angles, qualities) = rest.split_at_mut(size);
    [types, xs, ys, angles, qualities]
}

/// The room of five lists with so many entries each.
fn room_of_lists(entries: usize) -> usize {
    5 * entries * size_of::<u64>()
}

/// The room as a list of what is said of FASC-N. It starts where the room does.
fn list_in(room: &mut [u8]) -> &mut [Decoded] {
    let (_, list, _) = unsafe { room.align_to_mut::<Decoded>() };
    list
}

/// A folder is gone over in pieces of so many bytes, as a program reads a file.
const PIECE: usize = 65_536;

fn prosianek_over(today: u64, folder: &[u8]) -> u64 {
    let mut state = [0; 3];
    for piece in folder.chunks(PIECE) {
        unsafe { prosianek_folder_step(&mut state, piece.as_ptr(), piece.len()) };
    }
    unsafe { prosianek_folder_end(today, &state) }
}

fn rust_over(today: u64, folder: &[u8]) -> u64 {
    match second::values::is_date(today) {
        false => number::TODAY,
        true if over(folder, |_| ()) => number::DONE,
        true => number::FOLDER,
    }
}

/// The row of a container in a folder: number and length.
fn prosianek_one_row(today: u64, entry: &Entry, container: &[u8], seen: &mut Seen, room: &mut [u8]) -> (u64, u64) {
    let mut length = 0;
    let number = unsafe {
        prosianek_row(
            today,
            entry.kind,
            entry.offset as u64,
            entry.size as u64,
            container.as_ptr(),
            container.len(),
            &mut seen.good,
            &mut seen.agreement,
            &mut seen.fascn,
            room.as_mut_ptr(),
            room.len(),
            &mut length,
        )
    };
    (number, length)
}

fn rust_one_row(today: u64, entry: &Entry, container: &[u8], seen: &mut Seen, room: &mut [u8]) -> (u64, u64) {
    second::row(today, entry.kind, entry.offset as u64, entry.size as u64, container, seen, room)
}

fn prosianek_last_lines(seen: &Seen, room: &mut [u8]) -> (u64, u64) {
    let mut length = 0;
    let number = unsafe { prosianek_last(seen.good, seen.agreement, room.as_mut_ptr(), room.len(), &mut length) };
    (number, length)
}

fn rust_last_lines(seen: &Seen, room: &mut [u8]) -> (u64, u64) {
    second::last(seen.good, seen.agreement, room)
}

/// All rows of a folder and the last lines, one behind the other, each with 64 bytes of room: the largest number and the whole length.
fn rows(
    case: &Case,
    room: &mut [u8],
    row: impl Fn(u64, &Entry, &[u8], &mut Seen, &mut [u8]) -> (u64, u64),
    last: impl Fn(&Seen, &mut [u8]) -> (u64, u64),
) -> (u64, u64, Seen) {
    let (mut largest, mut at, mut seen) = (0, 0, Seen::default());
    for entry in &case.entries {
        let container = entry.container(&case.input);
        let (number, length) = row(case.today, entry, container, &mut seen, &mut room[at..at + ROW_ROOM]);
        largest = largest.max(number);
        at += length as usize;
    }
    let (number, length) = last(&seen, &mut room[at..at + ROW_ROOM]);
    (largest.max(number), at as u64 + length, seen)
}

/// What was seen in a folder as nine numbers: how many conform, the agreement, and the FASC-N.
fn numbers_of(seen: &Seen) -> [u64; 9] {
    let mut numbers = [seen.good, seen.agreement, 0, 0, 0, 0, 0, 0, 0];
    for (slot, eight) in numbers[2..].iter_mut().zip(seen.fascn.chunks(8)) {
        *slot = eight.iter().fold(0, |number, &byte| number << 8 | u64::from(byte));
    }
    numbers
}

/// The numbers that Prosianek answers; 0 for those that the call does not have. Two counts of points stand first of the nine, or
/// which container a certificate lies in and where, or what was seen in a folder.
fn prosianek(case: &Case, room: &mut [u8], meter: &mut impl Meter) -> Vec<u64> {
    let (kind, today, input, size) = (case.kind, case.today, case.input.as_ptr(), case.input.len());
    let (to, room_size) = (room.as_mut_ptr(), room.len());
    let (mut place, mut tag, mut short, mut length, mut numbers) = (0, 0, 0, 0, [0; 9]);
    let (p, t): (*mut u64, *mut u64) = (&mut place, &mut tag);
    let (s, l): (*mut u64, *mut u64) = (&mut short, &mut length);
    let number = unsafe {
        match case.call {
            Call::Check => meter.measure(|| prosianek_check(kind, today, input, size, to, room_size, p, t, s, l)),
            Call::Write => meter.measure(|| prosianek_write(kind, today, input, size, to, room_size, p, t, l)),
            Call::Report => meter.measure(|| prosianek_report(kind, today, input, size, to, room_size, l)),
            Call::Lists => {
                let entries = room_size / room_of_lists(1);
                let [types, xs, ys, angles, qualities] = five_lists(room).map(<[u64]>::as_mut_ptr);
                let [first, second, ..] = &mut numbers;
                let (f, s): (*mut u64, *mut u64) = (first, second);
                meter.measure(|| {
                    prosianek_lists(
                        today, input, size, types, entries, xs, entries, ys, entries, angles, entries, qualities, entries, p,
                        t, f, s,
                    )
                })
            }
            Call::Signer => {
                let (chuid, chuid_size) = (case.chuid.as_ptr(), case.chuid.len());
                let [which, offset, ..] = &mut numbers;
                let (w, o): (*mut u64, *mut u64) = (which, offset);
                meter.measure(|| prosianek_signer(kind, today, chuid, chuid_size, input, size, p, t, w, o, l))
            }
            Call::Decode => meter.measure(|| prosianek_fascn_decode(input, size, &mut numbers)),
            Call::ByTable => {
                let list = list_in(room);
                let (to, entries) = (list.as_mut_ptr(), list.len());
                meter.measure(|| prosianek_fascn_decode_by_table(input, size, to, entries))
            }
            Call::Encode => meter.measure(|| prosianek_fascn_encode(&case.numbers, to, room_size)),
            Call::Over => meter.measure(|| prosianek_over(today, &case.input)),
            Call::Rows => {
                let (number, all, seen) = meter.measure(|| rows(case, room, prosianek_one_row, prosianek_last_lines));
                (length, numbers) = (all, numbers_of(&seen));
                number
            }
            Call::Row => {
                let mut seen = Seen::default();
                let (number, line) =
                    meter.measure(|| prosianek_one_row(today, &case.entries[0], &case.input, &mut seen, room));
                (length, numbers) = (line, numbers_of(&seen));
                number
            }
        }
    };
    [&[number, place, tag, short, length], &numbers[..]].concat()
}

/// The numbers that the Rust program answers, in the same layout.
fn rust(case: &Case, room: &mut [u8], meter: &mut impl Meter) -> Vec<u64> {
    let (kind, today, input) = (case.kind, case.today, &case.input[..]);
    let mut numbers = [0; 9];
    let (number, place, tag, short, length) = match case.call {
        Call::Check => {
            let checked = meter.measure(|| second::check(kind, today, input, room));
            (checked.number, checked.place, tag_number(checked.tag), checked.room, checked.length)
        }
        Call::Write => {
            let ((number, place, tag), length) = meter.measure(|| second::write(kind, today, input, room));
            (number, place, tag_number(tag), 0, length)
        }
        Call::Report => {
            let (number, length) = meter.measure(|| second::report(kind, today, input, room));
            (number, 0, 0, 0, length)
        }
        Call::Lists => {
            let [types, xs, ys, angles, qualities] = five_lists(room);
            let ((number, place, tag), counts) =
                meter.measure(|| second::lists(today, input, [&mut *types, &mut *xs, &mut *ys, &mut *angles, &mut *qualities]));
            numbers[..2].copy_from_slice(&counts);
            (number, place, tag_number(tag), 0, 0)
        }
        Call::Signer => {
            let chuid = &case.chuid[..];
            let ((number, place, tag), which, part) = meter.measure(|| second::signer(kind, today, chuid, input));
            let container = if which == Which::Chuid { chuid } else { input };
            let offset = part.as_ptr() as usize - container.as_ptr() as usize;
            numbers[..2].copy_from_slice(&[which as u64, offset as u64]);
            (number, place, tag_number(tag), 0, part.len() as u64)
        }
        Call::Decode => {
            let (number, decoded) = meter.measure(|| second::fascn_decode(input));
            numbers = decoded;
            (number, 0, 0, 0, 0)
        }
        Call::ByTable => {
            let list = list_in(room);
            meter.measure(|| rust_reader(input, list));
            (0, 0, 0, 0, 0)
        }
        Call::Encode => (meter.measure(|| second::fascn_encode(&case.numbers, room)), 0, 0, 0, 0),
        Call::Over => (meter.measure(|| rust_over(today, input)), 0, 0, 0, 0),
        Call::Rows => {
            let (number, length, seen) = meter.measure(|| rows(case, room, rust_one_row, rust_last_lines));
            numbers = numbers_of(&seen);
            (number, 0, 0, 0, length)
        }
        Call::Row => {
            let mut seen = Seen::default();
            let (number, length) = meter.measure(|| rust_one_row(today, &case.entries[0], input, &mut seen, room));
            numbers = numbers_of(&seen);
            (number, 0, 0, 0, length)
        }
    };
    [&[number, place, tag, short, length], &numbers[..]].concat()
}

/// Both answer the same, with the number that is expected, and leave the same in rooms that held something before. A check without
/// a room, and no other call, has a 3 beside its 0.
fn agree(case: &Case) {
    let (mut one, mut other) = (Bytes::filled(0xA5, case.room), Bytes::filled(0x5A, case.room));
    let answers = (prosianek(case, &mut one, &mut Made), rust(case, &mut other, &mut Made));
    assert!(answers.0 == answers.1 && one[..] == other[..], "{} {}: the answers differ: {:?}", case.what, case.name, answers);
    let short = if case.name == NO_ROOM && case.number == 0 { 3 } else { 0 };
    let tag = if matches!(case.call, Call::Check | Call::Write | Call::Lists | Call::Signer) { second::NO_TAG } else { 0 };
    let said = &answers.0[..4];
    assert!(said == [case.number, 0, tag, short], "{} {}: answered {:?}", case.what, case.name, said);
}

// ---------------------------------------------------------------------------------------------
// The inputs: the samples, and the largest containers, which are made of their values

type Values = Vec<Option<Vec<u8>>>;

fn sample(kind: u64) -> Vec<u8> {
    sample_named(&kind_of(kind).unwrap().name.to_lowercase())
}

fn sample_named(name: &str) -> Vec<u8> {
    let path = format!("samples/{}.bin", name);
    std::fs::read(&path).unwrap_or_else(|error| panic!("{}: {}", path, error))
}

fn sheet_of(kind: u64, container: &[u8]) -> Vec<u8> {
    let mut room = vec![0; 2 * LARGEST];
    let checked = second::check(kind, TODAY, container, &mut room);
    assert!(checked.number == 0, "kind {}: no conforming container", kind);
    room.truncate(checked.length as usize);
    room
}

fn container_of(kind: u64, values: &Values) -> Vec<u8> {
    let mut sheet = Vec::new();
    for value in values {
        let count = value.as_ref().map_or(0, |value| value.len() as u16 + 1);
        sheet.extend(count.to_be_bytes());
        sheet.extend(value.iter().flatten());
    }
    let mut room = vec![0; LARGEST];
    let (verdict, length) = second::write(kind, TODAY, &sheet, &mut room);
    assert!(verdict == CONFORMS, "kind {}: no conforming sheet: {:?}", kind, verdict);
    room.truncate(length as usize);
    room
}

fn values_of(kind: u64, container: &[u8]) -> Values {
    let rows = kind_of(kind).unwrap().rows;
    let value = |tag| match second::view(kind, TODAY, container, tag) {
        (CONFORMS, value) => Some(value.to_vec()),
        _ => None,
    };
    rows.iter().map(|row| value(u64::from(row.tag))).collect()
}

/// Printable characters, which suit a text row and one of any bytes.
fn filling(length: usize) -> Vec<u8> {
    (b' '..=b'~').cycle().take(length).collect()
}

/// The value of a row that has no longest one with so many bytes more: of any kind in 3E, in BC of the signature of fingers and irises
/// and of the pixels of a face. In 70 it is a certificate of items of two bytes.
fn longer(rule: Rule, value: &[u8], more: usize) -> Vec<u8> {
    let mut longer = [value, &filling(more)[..]].concat();
    match rule {
        Rule::Certificate => certificate_of_pairs(longer.len()).expect("a certificate of so many bytes"),
        Rule::Fingers | Rule::Iris => {
            let signature = u16::from_be_bytes([value[6], value[7]]) + more as u16;
            longer[6..8].copy_from_slice(&signature.to_be_bytes());
            longer
        }
        Rule::Face => with_pixels(value, more),
        _ => longer,
    }
}

/// The value of a face with one image, with so many more bytes of pixels.
fn with_pixels(value: &[u8], more: usize) -> Vec<u8> {
    let number = |at: usize| u32::from_be_bytes(value[at..at + 4].try_into().unwrap());
    let record_end = 88 + number(2) as usize;
    let mut longer = [&value[..record_end], &filling(more), &value[record_end..]].concat();
    // the length of the data, that of the record and that of the image's block
    for at in [2, 88 + 8, 88 + 14] {
        longer[at..at + 4].copy_from_slice(&(number(at) + more as u32).to_be_bytes());
    }
    longer
}

/// The container with these values, its endless row lengthened so that it has `total` bytes.
fn stretched(kind: u64, values: &Values, total: usize) -> Vec<u8> {
    let row = endless_row(kind).expect("a row that can be long");
    let rule = kind_of(kind).unwrap().rows[row].rule;
    let mut values = values.clone();
    let value = values[row].take().expect("the row is there");
    // 600 more bytes first: then all lengths are written in three bytes, before and after
    values[row] = Some(longer(rule, &value, 600));
    let spare = total - container_of(kind, &values).len();
    values[row] = Some(longer(rule, &value, 600 + spare));
    container_of(kind, &values)
}

/// Every row there and as long as it may be. So the report on it is the longest that a container of the kind has.
fn largest(kind: u64) -> Vec<u8> {
    let mut values = values_of(kind, &sample(kind));
    let rows = kind_of(kind).unwrap().rows;
    let uuid = rows.iter().position(|row| row.rule == Rule::Uuid).map(|row| values[row].clone());
    for (row, value) in rows.iter().zip(&mut values) {
        match row.rule {
            Rule::Any | Rule::Text if row.longest <= LARGEST => *value = Some(filling(row.longest)),
            Rule::Uuid => *value = uuid.clone().unwrap(),
            Rule::Fingers => *value = Some(with_minutiae(value.as_ref().unwrap(), 128)),
            Rule::Iris => *value = iris(100, &iris_record(&pair_of(2 * IRIS_MOST_BYTES, 3_000)), 1).rows[0].take(),
            _ => (),
        }
    }
    let container = match endless_row(kind) {
        Some(_) => stretched(kind, &values, LARGEST),
        None => container_of(kind, &values),
    };
    let (_, length) = second::report(kind, TODAY, &container, &mut [0; second::REPORT_MAX]);
    assert!(length as usize == LONGEST[kind as usize - 1], "kind {}: not the longest report: {} bytes", kind, length);
    container
}

/// The fingers' value with so many minutiae in each view, and one byte of signature.
fn with_minutiae(value: &[u8], count: u8) -> Vec<u8> {
    let (header, record) = (&value[..88], &value[88..]);
    let mut data = record[..26].to_vec();
    for _ in 0..2 {
        data.extend([1, 0, 100, count]);
        for i in 0..count {
            data.extend([0x40 | i & 0x3F, i, i & 0x3F, i, i, i % 101]);
        }
        data.extend([0, 0]);
    }
    let length = data.len() as u16;
    data[8..10].copy_from_slice(&length.to_be_bytes());
    let mut value = [header, &data, &[1]].concat();
    value[2..6].copy_from_slice(&u32::from(length).to_be_bytes());
    value[6..8].copy_from_slice(&1u16.to_be_bytes());
    value
}

/// How many points a container with fingers has.
fn points_in(container: &[u8]) -> usize {
    let mut list = [second::Point::default(); second::points::MOST_POINTS];
    let (verdict, [first, second]) = second::points(TODAY, container, &mut list);
    assert!(verdict == CONFORMS, "no conforming fingers: {:?}", verdict);
    (first + second) as usize
}

/// The calls on a container. A check is made without a room and with one as long as the sheet; the room of write is as long as the
/// container, and report's has its 512 bytes. Lists are filled with fingers' points, and have as many entries.
fn container_cases(what: &str, kind: u64, container: &[u8]) -> Vec<Case> {
    let sheet = sheet_of(kind, container);
    let what = format!("{}{}, {} bytes", kind_of(kind).unwrap().name, what, commas(container.len() as u64));
    let case = |name, call, input: &[u8], room| Case {
        what: what.clone(),
        name,
        call,
        kind,
        today: TODAY,
        input: Bytes::of(input),
        chuid: Bytes::of(&[]),
        entries: Vec::new(),
        numbers: [0; 9],
        room,
        number: 0,
    };
    let mut cases = vec![
        case(NO_ROOM, Call::Check, container, 0),
        case("check, sheet", Call::Check, container, sheet.len()),
        case("write", Call::Write, &sheet, container.len()),
        case("report", Call::Report, container, second::REPORT_MAX),
    ];
    if kind == FINGERS {
        cases.push(case("lists", Call::Lists, container, room_of_lists(points_in(container))));
    }
    cases
}

/// The lists of a container with so many points in each view, and its check, which goes over each point too. The signature has
/// one byte.
fn point_cases(count: u8) -> Vec<Case> {
    let mut values = values_of(FINGERS, &sample(FINGERS));
    values[0] = values[0].take().map(|value| with_minutiae(&value, count));
    let container = container_of(FINGERS, &values);
    let mut cases = container_cases(&format!(" of {} + {} points", count, count), FINGERS, &container);
    cases.retain(|case| case.name == NO_ROOM || matches!(case.call, Call::Lists));
    cases
}

/// The calls on a face with as many images as a container can hold, 32 bytes each.
fn image_cases() -> Vec<Case> {
    // what BC has beside the images, with one byte of signature, and what the container has beside BC
    let images = (LARGEST - 10 - 88 - 14 - 1) / 32;
    let container = face(100, &facial(&vec![Image::plain(0, 0); images]), 1).container();
    container_cases(&format!(" of {} images", commas(images as u64)), FACE, &container)
}

/// The check of a certificate of so many items, all but two of them of two bytes.
fn item_cases(items: usize) -> Vec<Case> {
    let pairs = Tree::sequence(vec![Tree::empty(); items - 4]);
    let certificate = Tree::sequence(vec![Tree::empty(), Tree::empty(), pairs]);
    assert!(certificate.count() == items);
    let container = container_of(PIVAUTH, &vec![Some(certificate.bytes()), Some(vec![0]), None, Some(vec![])]);
    let mut cases = container_cases(&format!(" of {} items", commas(items as u64)), PIVAUTH, &container);
    cases.retain(|case| case.name == NO_ROOM);
    cases
}

/// The calls on a container with each length in its fewest bytes, and on one with the same values and each length over 127 as 84.
/// The sheet is the same, and so write is left out.
fn form_cases(kind: u64, container: &[u8]) -> Vec<Case> {
    let card = Card { kind, today: TODAY, rows: values_of(kind, container) };
    let forms = [(", fewest bytes", Form::Fewest), (", longest forms", Form::Padded(LONGEST_FORM))];
    let cases = |(what, form)| container_cases(what, kind, &card.container_in(&Forms::all(form)));
    forms.into_iter().flat_map(cases).filter(|case| !matches!(case.call, Call::Write)).collect()
}

/// The signer of a typical biometric of each kind, whose own block has the certificate of an RSA key, and of fingers with that in the
/// CHUID's. The other block is the same without a certificate. The bytes are those of both containers.
fn signer_cases() -> Vec<Case> {
    let with = |kind: u64, certificates: &[&[u8]]| {
        let card = Card { kind, today: TODAY, rows: values_of(kind, &sample(kind)) };
        with_block(card, &block(certificates)).container()
    };
    let case = |kind: u64, what: &str, in_chuid: &[&[u8]], in_biometric: &[&[u8]]| {
        let (chuid, biometric) = (with(CHUID, in_chuid), with(kind, in_biometric));
        let bytes = commas((chuid.len() + biometric.len()) as u64);
        Case {
            what: format!("{}, certificate in {}, {} bytes", kind_of(kind).unwrap().name, what, bytes),
            name: "signer",
            call: Call::Signer,
            kind,
            today: TODAY,
            input: Bytes::of(&biometric),
            chuid: Bytes::of(&chuid),
            entries: Vec::new(),
            numbers: [0; 9],
            room: 0,
            number: 0,
        }
    };
    let mut cases: Vec<Case> = [FINGERS, FACE, IRIS].iter().map(|&kind| case(kind, "it", &[], &[RSA])).collect();
    cases.insert(1, case(FINGERS, "the CHUID", &[RSA], &[]));
    cases
}

fn fascn_cases() -> Vec<Case> {
    let chuid = sample(CHUID);
    let (_, fascn) = second::view(CHUID, TODAY, &chuid, 0x30);
    let (_, numbers) = second::fascn_decode(fascn);
    let case = |name, call, room| Case {
        what: "FASC-N, 25 bytes".to_string(),
        name,
        call,
        kind: CHUID,
        today: TODAY,
        input: Bytes::of(fascn),
        chuid: Bytes::of(&[]),
        entries: Vec::new(),
        numbers,
        room,
        number: 0,
    };
    vec![
        case("decode", Call::Decode, 0),
        case("decode by table", Call::ByTable, size_of::<Decoded>()),
        case("encode", Call::Encode, fascn.len()),
    ]
}

/// A folder of as many containers as there may be: the samples in turn, of which some break a rule, and one that is too long. It is
/// gone over, and all its rows are written; and the row of a CHUID, the first one of its folder.
fn folder_cases() -> Vec<Case> {
    let samples = samples::all();
    let sample = |i: usize| (samples[i % samples.len()].kind as u8, samples[i % samples.len()].container.clone());
    let mut containers: Vec<Contained> = (0..MOST_CONTAINERS).map(sample).collect();
    containers[MOST_CONTAINERS / 2].1 = vec![0x53; LARGEST + 1];
    let folder = folder_of(&containers);
    let text = second::folder(TODAY, &folder).expect("a folder");
    // behind the last row there are 64 bytes for the last lines
    let last_lines = text.rsplitn(4, |&byte| byte == b'\n').skip(1).take(2).map(|line| line.len() + 1).sum::<usize>();
    let room = text.len() - last_lines + ROW_ROOM;
    let case = |what: String, name, call, input: &[u8], entries, room| Case {
        what,
        name,
        call,
        kind: CHUID,
        today: TODAY,
        input: Bytes::of(input),
        chuid: Bytes::of(&[]),
        entries,
        numbers: [0; 9],
        room,
        number: 0,
    };
    let what = format!("{} containers, {} bytes", MOST_CONTAINERS, commas(folder.len() as u64));
    let all = entries(&folder).expect("a folder");
    let chuid = self::sample(CHUID);
    let one = Entry { kind: CHUID as u8, offset: 7, size: chuid.len() };
    vec![
        case(what.clone(), "folder, gone over", Call::Over, &folder, Vec::new(), 0),
        case(what, "rows and last lines", Call::Rows, &folder, all, room),
        case(format!("CHUID typical, {} bytes", chuid.len()), "row", Call::Row, &chuid, vec![one], ROW_ROOM),
    ]
}

/// The check of a container of no bytes, which ends behind the date check: that the outer tag is missing is said under a day that
/// exists, and that there is no such date under any other. The days are the last of each month and, of some, the day after it.
fn day_cases() -> Vec<Case> {
    let case = |day: &str, number| Case {
        what: format!("no bytes, {}", day),
        name: NO_ROOM,
        call: Call::Check,
        kind: CHUID,
        today: day.replace('-', "").parse().unwrap(),
        input: Bytes::of(&[]),
        chuid: Bytes::of(&[]),
        entries: Vec::new(),
        numbers: [0; 9],
        room: 0,
        number,
    };
    let days = ["01-31", "02-28", "03-31", "04-30", "05-31", "06-30", "07-31", "08-31", "09-30", "10-31", "11-30", "12-31"];
    let last = days.iter().map(|day| case(&format!("2026-{}", day), number::OUTER_TAG));
    let leap = ["2028-02-29", "2100-02-28"].iter().map(|day| case(day, number::OUTER_TAG));
    let none = ["2026-02-29", "2100-02-29", "2026-04-31", "2026-08-32", "2026-13-01"].iter().map(|day| case(day, number::TODAY));
    last.chain(leap).chain(none).collect()
}

/// The kinds that are measured. Those with a certificate have one table, and the first stands for them.
fn measured_kinds() -> impl Iterator<Item = u64> {
    let certificates = certificate_kinds();
    all_kinds().filter(move |kind| *kind == PIVAUTH || !certificates.contains(kind))
}

/// The tables, each with a title.
fn tables() -> Vec<(&'static str, Vec<Case>)> {
    let mut kinds = Vec::new();
    for kind in measured_kinds() {
        let (typical, largest) = (sample(kind), largest(kind));
        kinds.extend(container_cases(" typical", kind, &typical));
        if largest.len() > typical.len() {
            kinds.extend(container_cases(" largest", kind, &largest));
        }
        if kind == FACE {
            kinds.extend(image_cases());
        }
    }
    kinds.extend(fascn_cases());

    let chuid = values_of(CHUID, &sample(CHUID));
    let sizes = [1, 2, 4, 8, 16, 32].iter().map(|kib| kib * 1024);
    let growth = sizes.flat_map(|size| container_cases("", CHUID, &stretched(CHUID, &chuid, size))).collect();
    let items = [500, 1_000, 2_000, 4_000, 8_000, 16_000].iter().flat_map(|&items| item_cases(items)).collect();
    let points = [0, 16, 32, 64, 128].iter().flat_map(|&count| point_cases(count)).collect();
    let forms = [(CHUID, sample_named("chuid-longer")), (FINGERS, sample(FINGERS)), (PIVAUTH, sample(PIVAUTH))];
    let forms = forms.iter().flat_map(|(kind, container)| form_cases(*kind, container)).collect();
    vec![
        ("Each kind, typical and largest", kinds),
        ("Lengths in fewest bytes and in longer forms", forms),
        ("From 1 KiB to 32 KiB", growth),
        ("From 500 to 16,000 items of a certificate", items),
        ("By the number of points", points),
        ("The signer, with a CHUID and a biometric", signer_cases()),
        ("The date check, day by day", day_cases()),
        ("The order's folder", folder_cases()),
    ]
}

// ---------------------------------------------------------------------------------------------
// A million FASC-N, by three readers

/// What second::strings makes them from.
const SEED: u64 = 2026_09;

/// The strings are lent in batches of so many, and a list of as many entries is used again for each batch.
const BATCH: usize = 1_000;

/// Instructions are counted over the first strings alone, and over the first good ones, since the emulator is slow.
const COUNTED: usize = 20_000;

/// Each reader goes over the strings so often. An odd number has a median.
const PASSES: usize = 15;

/// Reads strings into a list with an entry for each.
type Reader = fn(&[u8], &mut [Decoded]);

const READERS: [Reader; 3] = [first_reader, second_reader, rust_reader];

/// Which of the strings are read.
const SETS: [&str; 2] = ["all", "good"];

/// Prosianek's plain engine: a call for each string.
fn first_reader(strings: &[u8], list: &mut [Decoded]) {
    for (string, entry) in strings.chunks_exact(FASCN_BYTES).zip(list) {
        entry.number = unsafe { prosianek_fascn_decode(string.as_ptr(), string.len(), &mut entry.numbers) };
    }
}

/// Prosianek's reader by table: one call.
fn second_reader(strings: &[u8], list: &mut [Decoded]) {
    let (to, entries) = (list.as_mut_ptr(), list.len());
    let number = unsafe { prosianek_fascn_decode_by_table(strings.as_ptr(), strings.len(), to, entries) };
    assert!(number == 0, "a batch is refused: {}", number);
}

/// The Rust program: its decoder in a loop. Its entries lie as those for C do.
fn rust_reader(strings: &[u8], list: &mut [Decoded]) {
    let list = unsafe { std::slice::from_raw_parts_mut(list.as_mut_ptr().cast::<second::Decoded>(), list.len()) };
    let number = second::fascn_decode_many(strings, list);
    assert!(number == 0, "a batch is refused: {}", number);
}

fn list_room() -> Bytes {
    Bytes::filled(0xA5, BATCH * size_of::<Decoded>())
}

fn batches(strings: &[u8]) -> impl Iterator<Item = &[u8]> {
    strings.chunks(BATCH * FASCN_BYTES)
}

/// All strings by one reader, batch by batch.
fn read_all(reader: Reader, strings: &[u8], list: &mut [Decoded]) {
    for batch in batches(strings) {
        let list = &mut list[..batch.len() / FASCN_BYTES];
        reader(batch, list);
        keep(&list);
    }
}

/// The strings of the file and the good ones among them, of each the first ones, at most so many. The three readers say the same
/// of every one of them.
fn sets_of(path: &str, most: usize) -> [Bytes; 2] {
    let strings = std::fs::read(path).unwrap_or_else(|error| panic!("{}: {}", path, error));
    let each = || strings.chunks_exact(FASCN_BYTES);
    let all: Vec<&[u8]> = each().take(most).collect();
    let good: Vec<&[u8]> = each().filter(|string| second::fascn_decode(string).0 == number::DONE).take(most).collect();
    let sets = [all, good].map(|set| Bytes::of(&set.concat()));
    sets.iter().for_each(|set| agree_on(set));
    sets
}

fn agree_on(strings: &[u8]) {
    let mut rooms = READERS.map(|_| list_room());
    for (i, batch) in batches(strings).enumerate() {
        for (reader, room) in READERS.iter().zip(&mut rooms) {
            reader(batch, &mut list_in(room)[..batch.len() / FASCN_BYTES]);
        }
        assert!(rooms.iter().all(|room| room[..] == rooms[0][..]), "batch {} of the FASC-N: the answers differ", i);
    }
}

fn count_strings(path: &str) {
    let mut room = list_room();
    for set in &sets_of(path, COUNTED) {
        assert!(set.len() == COUNTED * FASCN_BYTES, "under {} FASC-N to count", COUNTED);
        for reader in READERS {
            Counted.measure(|| read_all(reader, set, list_in(&mut room)));
        }
    }
}

/// The readers in turn; for each set and each reader the nanoseconds a string, pass by pass.
fn time_strings(path: &str) {
    let (sets, mut room) = (sets_of(path, usize::MAX), list_room());
    let mut times = vec![Vec::new(); SETS.len() * READERS.len()];
    for _ in 0..PASSES {
        let mut times = times.iter_mut();
        for set in &sets {
            for reader in READERS {
                let mut once = Timed { calls: 1, best: f64::MAX };
                once.measure(|| read_all(reader, set, list_in(&mut room)));
                times.next().unwrap().push(once.best / (set.len() / FASCN_BYTES) as f64);
            }
        }
    }
    for passes in times {
        println!("{}", passes.iter().map(f64::to_string).collect::<Vec<_>>().join(" "));
    }
}

// ---------------------------------------------------------------------------------------------
// The commands

fn make_strings(path: &str) {
    std::fs::write(path, second::strings::million(SEED)).unwrap_or_else(|error| panic!("{}: {}", path, error));
}

fn count(strings: &str) {
    Counted.measure(|| ());
    for case in tables().iter().flat_map(|(_, cases)| cases) {
        agree(case);
        let mut room = Bytes::filled(0, case.room);
        prosianek(case, &mut room, &mut Counted);
        rust(case, &mut room, &mut Counted);
    }
    count_strings(strings);
}

/// The two sides in turn, in rounds of some 20 microseconds; the best round counts. There are ten passes over all cases, so that
/// what disturbs the machine for a moment spoils no case.
fn time(strings: &str) {
    let mut timed = Vec::new();
    for case in tables().into_iter().flat_map(|(_, cases)| cases) {
        agree(&case);
        let mut room = Bytes::filled(0, case.room);
        let mut warm = Timed { calls: 100, best: f64::MAX };
        rust(&case, &mut room, &mut warm);
        let calls = (20_000.0 / warm.best) as u32 + 1;
        timed.push((case, room, Timed { calls, best: f64::MAX }, Timed { calls, best: f64::MAX }));
    }
    for _ in 0..10 {
        for (case, room, first, second) in &mut timed {
            for _ in 0..50 {
                prosianek(case, room, first);
                rust(case, room, second);
            }
        }
    }
    for (_, _, first, second) in timed {
        println!("{}\n{}", first.best, second.best);
    }
    time_strings(strings);
}

fn lines(path: &str) -> Vec<String> {
    let text = std::fs::read_to_string(path).unwrap_or_else(|error| panic!("{}: {}", path, error));
    text.lines().map(str::to_string).collect()
}

/// The number at the front of each line.
fn numbers(path: &str) -> Vec<f64> {
    lines(path).iter().map(|line| line.split(' ').next().unwrap().parse().unwrap()).collect()
}

/// The instructions of each interval: the first count is that of nothing between the markers.
fn instructions(counts: &str) -> Vec<f64> {
    let counts = numbers(counts);
    counts[1..].iter().map(|count| count - counts[0]).collect()
}

/// What stands behind the cases: of each set of FASC-N, the three readers'.
fn behind_cases<A>(list: &[A]) -> std::slice::Chunks<'_, A> {
    list[list.len() - SETS.len() * READERS.len()..].chunks(READERS.len())
}

/// The nanoseconds a string, pass by pass, in the last lines of the times.
fn passes(times: &str) -> Vec<Vec<f64>> {
    let numbers = |line: &String| line.split(' ').map(|number| number.parse().unwrap()).collect();
    behind_cases(&lines(times)).flatten().map(numbers).collect()
}

fn commas(number: u64) -> String {
    match number {
        0..=999 => number.to_string(),
        _ => format!("{},{:03}", commas(number / 1000), number % 1000),
    }
}

fn print_tables(counts: &str, times: Option<&str>) {
    print_cases(&instructions(counts), times.map(numbers));
    print_strings(&instructions(counts), times.map(passes));
}

fn print_cases(counts: &[f64], times: Option<Vec<f64>>) {
    let mut counts = counts.chunks_exact(2);
    let mut times = times.as_ref().map(|times| times.chunks_exact(2));
    for (title, cases) in tables() {
        println!("### {}\n", title);
        print!("| Container | Call | Rattle | Rust | Ratio |");
        println!("{}", if times.is_some() { " Rattle, ns | Rust, ns | Ratio |" } else { "" });
        println!("|---|---|--:|--:|--:|{}", if times.is_some() { "--:|--:|--:|" } else { "" });
        for case in cases {
            let pair = counts.next().unwrap();
            let (rattle, rust) = (pair[0], pair[1]);
            print!("| {} | {} ", case.what, case.name);
            print!("| {} | {} | {:.2} |", commas(rattle as u64), commas(rust as u64), rattle / rust);
            if let Some(times) = &mut times {
                let pair = times.next().unwrap();
                print!(" {:.0} | {:.0} | {:.2} |", pair[0], pair[1], pair[0] / pair[1]);
            }
            println!();
        }
        println!();
    }
}

/// The table of the FASC-N. A ratio of instructions or nanoseconds is better the smaller it is, one of strings a second the larger.
fn print_strings(counts: &[f64], times: Option<Vec<Vec<f64>>>) {
    println!("### A million FASC-N\n");
    println!("| Strings | Measured | First reader | Second reader | Rust | Second to first | Second to Rust |");
    println!("|---|---|--:|--:|--:|--:|--:|");
    let mut times = times.as_ref().map(|times| times.chunks(READERS.len()));
    for (set, counts) in SETS.iter().zip(behind_cases(counts)) {
        let each: Vec<f64> = counts.iter().map(|count| count / COUNTED as f64).collect();
        print_row(set, "instructions a string", &each, whole);
        if let Some(times) = &mut times {
            print_times(set, times.next().unwrap());
        }
    }
    println!();
}

fn whole(number: f64) -> String {
    commas(number.round() as u64)
}

/// The best pass of each reader, and how far the passes are from each other.
fn print_times(set: &str, passes: &[Vec<f64>]) {
    let best: Vec<f64> = passes.iter().map(|times| sorted(times)[0]).collect();
    let rates: Vec<f64> = best.iter().map(|time| 1e9 / time).collect();
    print_row(set, "nanoseconds a string, best pass", &best, |number| format!("{:.1}", number));
    print_row(set, "strings a second, best pass", &rates, whole);
    print_spread(set, passes);
}

/// What was measured of the three readers, and the second's by the first's and by Rust's.
fn print_row(set: &str, what: &str, of: &[f64], text: impl Fn(f64) -> String) {
    print!("| {} | {} | {} | {} | {} ", set, what, text(of[0]), text(of[1]), text(of[2]));
    println!("| {:.2} | {:.2} |", of[1] / of[0], of[1] / of[2]);
}

/// The smallest and the largest time of the passes as parts of their median, and the smallest and the largest ratio, each of two
/// times of one pass.
fn print_spread(set: &str, passes: &[Vec<f64>]) {
    print!("| {} | nanoseconds of all passes, by their median ", set);
    for times in passes {
        let times = sorted(times);
        let median = times[times.len() / 2];
        print!("| {:.2} to {:.2} ", times[0] / median, times[times.len() - 1] / median);
    }
    for other in [0, 2] {
        let ratios: Vec<f64> = passes[1].iter().zip(&passes[other]).map(|(second, other)| second / other).collect();
        let ratios = sorted(&ratios);
        print!("| {:.2} to {:.2} ", ratios[0], ratios[ratios.len() - 1]);
    }
    println!("|");
}

fn sorted(numbers: &[f64]) -> Vec<f64> {
    let mut numbers = numbers.to_vec();
    numbers.sort_unstable_by(|one, other| one.partial_cmp(other).unwrap());
    numbers
}

fn print_where(counts: &str) {
    let functions = |line: &str| {
        let mut list: Vec<(u64, &str)> = line
            .split(' ')
            .filter_map(|word| word.split_once('='))
            .map(|(name, count)| (count.parse().unwrap(), name))
            .filter(|&(_, name)| !name.contains("icount") && !name.contains("bench"))
            .collect();
        list.sort_unstable_by(|one, other| other.cmp(one));
        list.iter().map(|(count, name)| format!("{} {}", name, count)).collect::<Vec<_>>().join(", ")
    };
    let (counts, lines) = (instructions(counts), lines(counts));
    let cases: Vec<Case> = tables().into_iter().flat_map(|(_, cases)| cases).collect();
    let ratio = |i: usize| counts[2 * i] / counts[2 * i + 1];
    let mut order: Vec<usize> = (0..cases.len()).collect();
    order.sort_by(|&one, &other| ratio(other).partial_cmp(&ratio(one)).unwrap());
    for i in order {
        println!("{:.2} {}, {}: {} to {}", ratio(i), cases[i].what, cases[i].name, counts[2 * i], counts[2 * i + 1]);
        println!("    Rattle: {}", functions(&lines[1 + 2 * i]));
        println!("    Rust: {}", functions(&lines[2 + 2 * i]));
    }
    for (set, lines) in SETS.iter().zip(behind_cases(&lines)) {
        println!("{} FASC-N, {}", commas(COUNTED as u64), set);
        for (name, line) in ["First reader", "Second reader", "Rust"].iter().zip(lines) {
            println!("    {}: {}", name, functions(line));
        }
    }
}

fn main() {
    let arguments: Vec<String> = std::env::args().skip(1).collect();
    match arguments.iter().map(|word| &word[..]).collect::<Vec<_>>()[..] {
        ["strings", strings] => make_strings(strings),
        ["count", strings] => count(strings),
        ["time", strings] => time(strings),
        ["tables", counts] => print_tables(counts, None),
        ["tables", counts, times] => print_tables(counts, Some(times)),
        ["where", counts] => print_where(counts),
        _ => panic!("usage: bench strings STRINGS | count STRINGS | time STRINGS | tables COUNTS [TIMES] | where COUNTS"),
    }
}
