//! One call of the proved library in a memory of known contents, beside the answer that is expected.
//!
//! All that a call gets lies in one memory, between guards. An image says what has to be there afterwards: the same
//! guards, the same input, and in what is lent the expected answer. Before the call no lent byte is the one that is
//! expected there, and none is zero, nor is one in the guards: so a byte that is not written shows, and one too many.
//! A state that a call changes holds before it what the call is given, and afterwards what is expected.

use crate::prosianek::{self, prosianek_check, prosianek_lists};
use crate::prosianek::{prosianek_fascn_decode, prosianek_fascn_decode_by_table, prosianek_fascn_encode};
use crate::prosianek::{prosianek_folder_end, prosianek_folder_step, prosianek_last, prosianek_row};
use crate::prosianek::{prosianek_report, prosianek_signer, prosianek_view, prosianek_write};
use second::batch::{pieces, Answer, Call, Record, BYTES_MAX, ENTRIES_MAX, LIST_MAX, ROOM_MAX};
use second::folder::Seen;
use second::generate::Rng;
use second::{number, tag_number, Decoded, Which};
use std::ops::Range;
use std::{ptr, slice};

/// A guard has this many bytes, or a few more.
const GUARD: usize = 64;

/// An entry of a list that strings are decoded into has ten numbers: the number of its answer, and the nine of a FASC-N.
pub const ENTRY_BYTES: usize = 10 * 8;

/// Enough for the two largest inputs with the largest room, the five longest lists and the longest one of entries, and for a dozen
/// guards and numbers.
const MEMORY: usize = 2 * BYTES_MAX + ROOM_MAX + 5 * 8 * LIST_MAX + ENTRY_BYTES * ENTRIES_MAX + 20 * GUARD;

/// The five lists of numbers that are filled with points, in their order.
pub const LISTS: [&str; 5] = ["types", "xs", "ys", "angles", "qualities"];

/// A number is lent by an address that is a multiple of eight, and so is a list of them.
#[repr(align(8))]
struct Memory([u8; MEMORY]);

#[derive(Clone, Copy, PartialEq, Eq)]
pub enum Sort {
    /// Nobody writes here.
    Guard,
    /// What the call reads, and leaves as it is.
    Input,
    /// Every byte is written, with the answer.
    Lent,
    /// What the call reads, and then writes or leaves, with the answer.
    Held,
    /// What calls hand on to each other, beginning with zeros. What they put there is their own affair.
    Kept,
}

/// A part of the memory. The stretches lie side by side, and are all of the memory that is in use.
#[derive(Clone)]
pub struct Stretch {
    pub name: &'static str,
    pub sort: Sort,
    pub range: Range<usize>,
}

/// What is wrong, and the first byte of the memory where it is.
#[derive(Clone, Copy, PartialEq, Eq)]
pub enum Wrong {
    /// Before the call the memory is not filled as it should be: a fault of the comparison.
    Filling(usize),
    /// After the call the memory is not like the image.
    Answer(usize),
    /// Both sides answer alike, and a number that none may answer: one that is withdrawn or was never given.
    Unused(usize),
}

/// A fault that is planted in order to be seen.
#[derive(Clone)]
pub enum Fault {
    None,
    /// Before the call these bytes are those that are expected after it.
    Foreseen(Range<usize>),
    /// Before the call these bytes are zeros.
    Zeros(Range<usize>),
    /// Zeros are a guard.
    NoGuard(Range<usize>),
    /// Before the call this byte is another one than the call should be given.
    Disturbed(usize),
    /// After the call this byte is another one.
    Changed(usize),
    /// After the call the bytes from here on are others, as a mistaken program would answer them.
    Mistaken(usize, Vec<u8>),
    /// Here another byte is expected than the right one: so what makes an answer of what is expected shows.
    Expected(usize),
    /// This number is expected here, and is there after the call: so both sides answer it.
    Shared(Range<usize>, u64),
}

/// Numbers as they stand in memory.
pub fn native(numbers: &[u64]) -> Vec<u8> {
    numbers.iter().flat_map(|number| number.to_ne_bytes()).collect()
}

/// Entries as they stand in memory.
pub fn native_entries(entries: &[Decoded]) -> Vec<u8> {
    entries.iter().flat_map(|entry| [native(&[entry.number]), native(&entry.numbers)].concat()).collect()
}

/// The numbers that stand in memory.
fn numbers(bytes: &[u8]) -> Vec<u64> {
    let number = |eight: &[u8]| u64::from_ne_bytes(eight.try_into().expect("a chunk of eight"));
    bytes.chunks_exact(8).map(number).collect()
}

/// What a call is lent, with what is expected there afterwards.
fn lent(call: Call, expected: &Answer) -> Vec<(&'static str, Vec<u8>)> {
    let room = || ("room", expected.room.clone());
    let place = || ("place", native(&[expected.place]));
    let tag = || ("tag", native(&[tag_number(expected.tag)]));
    let offset = || ("offset", native(&[expected.offset]));
    let length = || ("length", native(&[expected.length]));
    match call {
        Call::Check => vec![room(), place(), tag(), ("short", native(&[expected.short])), length()],
        Call::Write => vec![room(), place(), tag(), length()],
        Call::View => vec![place(), tag(), offset(), length()],
        Call::Report => vec![room(), length()],
        Call::Lists => {
            let lists = LISTS.iter().zip(&expected.lists).map(|(&name, list)| (name, native(list)));
            let [first, second] = expected.counts;
            lists.chain([place(), tag(), ("first", native(&[first])), ("second", native(&[second]))]).collect()
        }
        Call::Signer => vec![place(), tag(), ("which", native(&[expected.which])), offset(), length()],
        Call::FascnDecode => vec![("numbers", native(&expected.numbers))],
        Call::FascnDecodeByTable => vec![("list", native_entries(&expected.decoded))],
        Call::FascnEncode => vec![room()],
        Call::Folder => Vec::new(),
        Call::Row | Call::Last => vec![room(), length()],
    }
}

/// The state that a row is lent, as it is given or as it is left.
fn held(seen: &Seen) -> [(&'static str, Vec<u8>); 3] {
    [("good", native(&[seen.good])), ("agreement", native(&[seen.agreement])), ("fascn", seen.fascn.to_vec())]
}

/// What stands where the pieces of a folder are lent, one after the other, behind the last of them. Each stands at the end: so what is
/// behind it is never the next piece.
fn last_pieces(record: &Record) -> Vec<u8> {
    let pieces = pieces(&record.bytes, record.piece);
    let mut out = vec![0; pieces.iter().map(|piece| piece.len()).max().unwrap_or(0)];
    for piece in pieces {
        let from = out.len() - piece.len();
        out[from..].copy_from_slice(piece);
    }
    out
}

/// Goes over the pieces of a folder, each of which is put before this end, and answers as the last call does.
unsafe fn go_over(record: &Record, state: *mut [u64; 3], end: *mut u8) -> u64 {
    for piece in pieces(&record.bytes, record.piece) {
        let start = end.sub(piece.len());
        ptr::copy_nonoverlapping(piece.as_ptr(), start, piece.len());
        prosianek_folder_step(state, start, piece.len());
        assert!(slice::from_raw_parts(start, piece.len()) == piece, "a piece is changed: {}", call_text(record));
    }
    prosianek_folder_end(record.today, state)
}

/// A byte that is neither this one nor zero.
fn other(rng: &mut Rng, than: u8) -> u8 {
    loop {
        let byte = rng.byte();
        if byte != than && byte != 0 {
            return byte;
        }
    }
}

pub struct Trial {
    rng: Rng,
    memory: Box<Memory>,
    /// What is there before the call, but for what is lent.
    before: Vec<u8>,
    image: Vec<u8>,
    stretches: Vec<Stretch>,
}

impl Trial {
    pub fn new(seed: u64) -> Trial {
        let (before, image, stretches) = (Vec::new(), Vec::new(), Vec::new());
        Trial { rng: Rng::new(seed), memory: Box::new(Memory([0; MEMORY])), before, image, stretches }
    }

    /// Makes the call and compares everything. Without a planted fault nothing should be wrong.
    pub fn run(&mut self, record: &Record, expected: &Answer, fault: &Fault) -> Result<(), Wrong> {
        self.lay_out(record, expected);
        self.plant_expected(fault);
        self.fill();
        self.plant_before(fault);
        self.look_before()?;
        self.call(record);
        self.plant_after(fault);
        self.fetch_part();
        self.pass_over_kept();
        self.look_after()?;
        self.look_for_unused()
    }

    /// The stretches of the last call. They depend on the call and on the expected answer only.
    pub fn stretches(&self) -> &[Stretch] {
        &self.stretches
    }

    // -----------------------------------------------------------------------------------------
    // Before the call

    /// Lays out the stretches and makes the image.
    fn lay_out(&mut self, record: &Record, expected: &Answer) {
        self.before.clear();
        self.image.clear();
        self.stretches.clear();
        // bytes, unlike numbers, come to stand at any address
        let odd = record.bytes.len() % 8;
        // the call's own answer is put here for it
        self.put("number", Sort::Lent, 0, &native(&[expected.number]));
        match record.call {
            Call::FascnEncode => self.put("input", Sort::Input, 0, &native(&record.numbers())),
            Call::Folder => self.put("input", Sort::Input, odd, &last_pieces(record)),
            _ => self.put("input", Sort::Input, odd, &record.bytes),
        }
        match record.call {
            Call::Signer => self.put("chuid", Sort::Input, record.chuid.len() % 8, &record.chuid),
            Call::Folder => self.put("state", Sort::Kept, 0, &native(&[0; 3])),
            Call::Row => {
                for ((name, given), (_, left)) in held(&record.seen).iter().zip(held(&expected.seen)) {
                    self.put_both(name, Sort::Held, if *name == "fascn" { odd } else { 0 }, given, &left);
                }
            }
            _ => (),
        }
        for (name, bytes) in lent(record.call, expected) {
            self.put(name, Sort::Lent, if name == "room" { odd } else { 0 }, &bytes);
        }
        if matches!(record.call, Call::View | Call::Signer) {
            // last: what is wrong with the offset, the length or the input is told as such
            self.put("part", Sort::Lent, 0, &expected.part);
        }
        self.put_guard(0);
    }

    /// A guard, and then the stretch, at an address with this rest modulo eight.
    fn put(&mut self, name: &'static str, sort: Sort, rest: usize, bytes: &[u8]) {
        self.put_both(name, sort, rest, bytes, bytes);
    }

    /// The same with the bytes before the call and those after it.
    fn put_both(&mut self, name: &'static str, sort: Sort, rest: usize, before: &[u8], after: &[u8]) {
        self.put_guard(rest);
        let from = self.image.len();
        self.before.extend(before);
        self.image.extend(after);
        self.stretches.push(Stretch { name, sort, range: from..self.image.len() });
    }

    fn put_guard(&mut self, rest: usize) {
        let from = self.image.len();
        let to = (from + GUARD + 7) / 8 * 8 + rest;
        for _ in from..to {
            self.image.push(other(&mut self.rng, 0));
        }
        self.before.extend(&self.image[from..]);
        self.stretches.push(Stretch { name: "guard", sort: Sort::Guard, range: from..to });
    }

    /// Fills the memory as it should be, and what is lent with bytes that are not the expected ones.
    fn fill(&mut self) {
        let memory = &mut self.memory.0[..self.before.len()];
        memory.copy_from_slice(&self.before);
        for stretch in self.stretches.iter().filter(|stretch| stretch.sort == Sort::Lent) {
            for at in stretch.range.clone() {
                memory[at] = other(&mut self.rng, self.image[at]);
            }
        }
    }

    /// Whether the memory is filled as it should be, however that was done.
    fn look_before(&self) -> Result<(), Wrong> {
        for stretch in &self.stretches {
            for at in stretch.range.clone() {
                let (is, given, expected) = (self.memory.0[at], self.before[at], self.image[at]);
                let good = match stretch.sort {
                    Sort::Guard => is == given && is != 0,
                    Sort::Input | Sort::Held | Sort::Kept => is == given,
                    Sort::Lent => is != expected && is != 0,
                };
                if !good {
                    return Err(Wrong::Filling(at));
                }
            }
        }
        Ok(())
    }

    // -----------------------------------------------------------------------------------------
    // The call

    fn range(&self, name: &str) -> Range<usize> {
        let stretch = self.stretches.iter().find(|stretch| stretch.name == name);
        stretch.unwrap_or_else(|| panic!("this call has no {}", name)).range.clone()
    }

    /// Each pointer is that of a stretch of the size that goes with it, and no two stretches overlap.
    fn call(&mut self, record: &Record) {
        let memory = self.memory.0.as_mut_ptr();
        let at = |name| unsafe { memory.add(self.range(name).start) };
        let lent = |name| at(name) as *mut u64;
        let (kind, today, room) = (record.kind, record.today, record.room);
        let (input, size) = (at("input") as *const u8, record.bytes.len());
        let number = unsafe {
            match record.call {
                Call::Check => {
                    let (place, tag, short, length) = (lent("place"), lent("tag"), lent("short"), lent("length"));
                    prosianek_check(kind, today, input, size, at("room"), room, place, tag, short, length)
                }
                Call::Write => {
                    let (place, tag, length) = (lent("place"), lent("tag"), lent("length"));
                    prosianek_write(kind, today, input, size, at("room"), room, place, tag, length)
                }
                Call::View => {
                    let (place, tag, offset, length) = (lent("place"), lent("tag"), lent("offset"), lent("length"));
                    prosianek_view(kind, today, input, size, record.element, place, tag, offset, length)
                }
                Call::Report => prosianek_report(kind, today, input, size, at("room"), room, lent("length")),
                Call::Lists => {
                    let [types, xs, ys, angles, qualities] = LISTS.map(lent);
                    let [of_types, of_xs, of_ys, of_angles, of_qualities] = record.lists;
                    let (place, tag, first, second) = (lent("place"), lent("tag"), lent("first"), lent("second"));
                    prosianek_lists(
                        today,
                        input,
                        size,
                        types,
                        of_types,
                        xs,
                        of_xs,
                        ys,
                        of_ys,
                        angles,
                        of_angles,
                        qualities,
                        of_qualities,
                        place,
                        tag,
                        first,
                        second,
                    )
                }
                Call::Signer => {
                    let (chuid, chuid_size) = (at("chuid") as *const u8, record.chuid.len());
                    let (place, tag, which) = (lent("place"), lent("tag"), lent("which"));
                    let (offset, length) = (lent("offset"), lent("length"));
                    prosianek_signer(kind, today, chuid, chuid_size, input, size, place, tag, which, offset, length)
                }
                Call::FascnDecode => prosianek_fascn_decode(input, size, at("numbers") as *mut [u64; 9]),
                Call::FascnDecodeByTable => {
                    let list = at("list") as *mut prosianek::Decoded;
                    prosianek_fascn_decode_by_table(input, size, list, record.entries)
                }
                Call::FascnEncode => prosianek_fascn_encode(input as *const [u64; 9], at("room"), room),
                Call::Folder => {
                    let end = memory.add(self.range("input").end);
                    go_over(record, at("state") as *mut [u64; 3], end)
                }
                Call::Row => {
                    let (kind, offset, said) = (kind as u8, record.offset, record.size);
                    let (good, agreement, fascn) = (lent("good"), lent("agreement"), at("fascn") as *mut [u8; 25]);
                    let (to, length) = (at("room"), lent("length"));
                    prosianek_row(today, kind, offset, said, input, size, good, agreement, fascn, to, room, length)
                }
                Call::Last => {
                    let Seen { good, agreement, .. } = record.seen;
                    prosianek_last(good, agreement, at("room"), room, lent("length"))
                }
            }
        };
        let to = self.range("number");
        self.memory.0[to].copy_from_slice(&native(&[number]));
    }

    // -----------------------------------------------------------------------------------------
    // After the call

    fn number_at(&self, name: &str) -> u64 {
        numbers(&self.memory.0[self.range(name)])[0]
    }

    fn has(&self, name: &str) -> bool {
        self.stretches.iter().any(|stretch| stretch.name == name)
    }

    /// The input that an answer's part lies in: of two the one that it names.
    fn named_input(&self) -> &'static str {
        if self.has("which") && self.number_at("which") == Which::Chuid as u64 {
            "chuid"
        } else {
            "input"
        }
    }

    /// Puts the part of the input that the answer names where the expected one is in the image.
    fn fetch_part(&mut self) {
        if !self.has("part") {
            return;
        }
        let (offset, length) = (self.number_at("offset") as usize, self.number_at("length") as usize);
        let (input, to) = (self.range(self.named_input()), self.range("part"));
        let end = offset.checked_add(length).filter(|&end| end <= input.len() && length == to.len());
        if let Some(end) = end {
            self.memory.0.copy_within(input.start + offset..input.start + end, to.start);
        }
    }

    /// What calls hand on to each other is not compared.
    fn pass_over_kept(&mut self) {
        for Stretch { range, .. } in self.stretches.iter().filter(|stretch| stretch.sort == Sort::Kept) {
            self.image[range.clone()].copy_from_slice(&self.memory.0[range.clone()]);
        }
    }

    fn look_after(&self) -> Result<(), Wrong> {
        match self.memory.0.iter().zip(&self.image).position(|(is, expected)| is != expected) {
            Some(at) => Err(Wrong::Answer(at)),
            None => Ok(()),
        }
    }

    /// A number that is not used is wrong on either side. Where the two differ it is told already: here both have it.
    fn look_for_unused(&self) -> Result<(), Wrong> {
        let answers = self.stretches.iter().filter(|stretch| matches!(stretch.name, "number" | "short"));
        for Stretch { name, range, .. } in answers {
            if !number::is_used(self.number_at(name)) {
                return Err(Wrong::Unused(range.start));
            }
        }
        Ok(())
    }

    /// What is wrong, in words, with the call and both answers.
    pub fn tell(&self, record: &Record, wrong: Wrong) -> String {
        let (what, at) = match wrong {
            Wrong::Filling(at) => ("wrong before the call, by the comparison's own fault", at),
            Wrong::Answer(at) => ("different", at),
            Wrong::Unused(at) => ("a number that is not used, by both", at),
        };
        let which = self.stretches.iter().position(|stretch| stretch.range.contains(&at)).expect("a byte in use");
        let before = match self.stretches.get(which + 1) {
            Some(next) if self.stretches[which].sort == Sort::Guard => format!(" before {}", next.name),
            _ => String::new(),
        };
        let Stretch { name, range, .. } = &self.stretches[which];
        format!(
            "{}: {}{}, byte {}, is {:02X} where {:02X} is expected\n  {}\n  expected {}\n  got      {}",
            what,
            name,
            before,
            at - range.start,
            self.memory.0[at],
            self.image[at],
            call_text(record),
            self.answer_text(&self.image),
            self.answer_text(&self.memory.0)
        )
    }

    fn answer_text(&self, memory: &[u8]) -> String {
        let text = |stretch: &Stretch| {
            let bytes = &memory[stretch.range.clone()];
            let text = match stretch.name {
                "room" | "part" | "fascn" => hex(bytes),
                _ => decimal(&numbers(bytes)),
            };
            format!("{} {}", stretch.name, text)
        };
        let lent = self.stretches.iter().filter(|stretch| matches!(stretch.sort, Sort::Lent | Sort::Held));
        lent.map(text).collect::<Vec<_>>().join(", ")
    }

    // -----------------------------------------------------------------------------------------
    // Planted faults

    fn plant_expected(&mut self, fault: &Fault) {
        match fault.clone() {
            Fault::Expected(at) => self.image[at] ^= other(&mut self.rng, 0),
            Fault::Shared(range, number) => self.image[range].copy_from_slice(&native(&[number])),
            _ => (),
        }
    }

    fn plant_before(&mut self, fault: &Fault) {
        match fault.clone() {
            Fault::Foreseen(range) => self.memory.0[range.clone()].copy_from_slice(&self.image[range]),
            Fault::Zeros(range) => self.memory.0[range].fill(0),
            Fault::NoGuard(range) => {
                self.before[range.clone()].fill(0);
                self.image[range.clone()].fill(0);
                self.memory.0[range].fill(0);
            }
            Fault::Disturbed(at) => self.memory.0[at] ^= other(&mut self.rng, 0),
            _ => (),
        }
    }

    fn plant_after(&mut self, fault: &Fault) {
        match fault.clone() {
            Fault::Changed(at) => self.memory.0[at] ^= other(&mut self.rng, 0),
            Fault::Mistaken(at, bytes) => self.memory.0[at..at + bytes.len()].copy_from_slice(&bytes),
            Fault::Shared(range, number) => self.memory.0[range].copy_from_slice(&native(&[number])),
            _ => (),
        }
    }
}

/// So many hex digits of an input or a room are shown, and so many numbers of a list.
const DIGITS_SHOWN: usize = 200;
const NUMBERS_SHOWN: usize = 20;

fn hex(bytes: &[u8]) -> String {
    let shown = &bytes[..bytes.len().min(DIGITS_SHOWN / 2)];
    let digits: String = shown.iter().map(|byte| format!("{:02X}", byte)).collect();
    let more = if shown.len() < bytes.len() { "..." } else { "" };
    format!("{}{} ({} bytes)", digits, more, bytes.len())
}

fn decimal(numbers: &[u64]) -> String {
    let shown = &numbers[..numbers.len().min(NUMBERS_SHOWN)];
    let more = if shown.len() < numbers.len() { format!(" ... ({} numbers)", numbers.len()) } else { String::new() };
    shown.iter().map(u64::to_string).collect::<Vec<_>>().join(" ") + &more
}

pub fn call_text(record: &Record) -> String {
    let lent = match record.call {
        Call::Lists => format!("lists {:?}", record.lists),
        Call::Signer => format!("chuid {}", hex(&record.chuid)),
        Call::FascnDecodeByTable => format!("a list of {}", record.entries),
        Call::Folder => format!("pieces of {}", record.piece),
        Call::Row | Call::Last => {
            let Seen { good, agreement, fascn } = &record.seen;
            let seen = format!("good {}, agreement {}, fascn {}", good, agreement, hex(fascn));
            format!("offset {}, size {}, {}, room {}", record.offset, record.size, seen, record.room)
        }
        _ => format!("room {}", record.room),
    };
    format!(
        "{}: kind {}, today {}, element {}, {}, input {}",
        record.call.name(),
        record.kind,
        record.today,
        record.element,
        lent,
        hex(&record.bytes)
    )
}
