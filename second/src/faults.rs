//! Containers and sheets with one fault each: in every row of every kind, and between any two of its rows. So every tag that a
//! verdict can name is asked for in every rule that can name it, and so is every place where a verdict names none. The containers
//! are made with all lengths in the fewest bytes, and again with longer forms wherever those are allowed.

use crate::batch::{Call, Record};
use crate::card::{self, all_kinds, Row, Rule};
use crate::generate::{conforming_on, lengthened, plain, put_length, value_of};
use crate::generate::{Card, Form, Forms, Rng, EXAMPLE_DAY};
use crate::records::with_bytes;
use crate::{folders, trees, values, REPORT_MAX};
use std::collections::BTreeSet;

/// So many bytes hold the container of any sheet here.
const ROOM: usize = 3_000;

/// The calls on every fault: a container is checked, viewed and reported, a sheet is written, without a room and with one. Of those
/// three calls one is made where a length is wrong, and on a container in longer forms.
pub fn records() -> Vec<Record> {
    let mut out = Vec::new();
    for whole in all_kinds().map(Whole::in_fewest_bytes) {
        let kind = whole.card.kind;
        for (i, bytes) in whole.faults().into_iter().enumerate() {
            out.extend(whole.calls(i, bytes));
        }
        out.extend(whole.calls_in_turn(whole.length_faults()));
        out.extend(whole.first_bytes().into_iter().map(|bytes| plain(Call::Check, kind, bytes)));
        for bytes in whole.sheets() {
            for room in [0, ROOM] {
                out.push(Record { room, fill: 0xA5, ..plain(Call::Write, kind, bytes.clone()) });
            }
        }
    }
    for whole in all_kinds().filter_map(Whole::in_longer_forms) {
        out.extend(whole.calls_in_turn(whole.faults()));
        out.extend(whole.calls_in_turn(whole.length_faults()));
    }
    out
}

/// The containers of a kind with a fault of a tag or a value.
pub fn containers(kind: u64) -> Vec<Vec<u8>> {
    Whole::in_fewest_bytes(kind).faults()
}

/// Folders with one fault, number 32: cut off after each byte, with bytes left over, and with another count or another length, of
/// which some are good again.
pub fn folders() -> Vec<Vec<u8>> {
    let whole = folders::small_folder();
    let mut out: Vec<_> = (0..whole.len()).map(|end| whole[..end].to_vec()).collect();
    // a byte, some more, and as many as make a container
    for more in [&[0][..], &[0xFF], &[0; 4], &[3, 0, 0, 0, 0], &[0; 70_000]] {
        out.push([&whole, more].concat());
    }
    out.extend(folders::with_other_numbers(&whole));
    // a count above 256, whatever follows; a length at the front of nothing
    for (count, behind) in
        [(257u16, 5 * 257), (257, 0), (257, 5 * 256), (258, 5 * 258), (512, 5 * 512), (65_535, 1_285)]
    {
        out.push([&count.to_be_bytes()[..], &vec![0; behind]].concat());
    }
    for size in [1, 5, 256, 65_536, 1 << 24, u32::MAX - 7, u32::MAX - 6, u32::MAX - 1, u32::MAX] {
        out.push([&[0, 1, 2][..], &size.to_be_bytes()].concat());
    }
    out
}

fn tag_bytes(tag: u16) -> Vec<u8> {
    tag.to_be_bytes()[usize::from(tag <= 0xFF)..].to_vec()
}

/// An element that says in this form that it has so many bytes more than it has.
fn element(tag: u16, value: &[u8], more: i64, form: Form) -> Vec<u8> {
    let mut out = tag_bytes(tag);
    put_length(&mut out, value.len(), more, form);
    out.extend(value);
    out
}

/// Lengths that are refused, whatever follows: 80, 85 and more, and 0 and 127 in other than one byte.
const REFUSED_FORMS: [&[u8]; 14] = [
    &[0x80],
    &[0x81, 0x00],
    &[0x81, 0x7F],
    &[0x82, 0x00, 0x00],
    &[0x82, 0x00, 0x7F],
    &[0x83, 0, 0, 0],
    &[0x83, 0, 0, 0x7F],
    &[0x84, 0, 0, 0, 0],
    &[0x84, 0, 0, 0, 0x7F],
    &[0x85, 0, 0, 0, 0, 0x80],
    &[0x88, 0, 0, 0, 0, 0, 0, 0, 0x80],
    &[0x90],
    &[0xC8],
    &[0xFF],
];

/// Lengths that no container holds. With each of the last six a sum of 16 or of 32 bits would be small again.
const FAR: [&[u8]; 12] = [
    &[0x82, 0xFF, 0x00],
    &[0x83, 0x01, 0x00, 0x00],
    &[0x83, 0xFF, 0xFF, 0xFF],
    &[0x84, 0x00, 0x01, 0x00, 0x02],
    &[0x84, 0x01, 0x00, 0x00, 0x00],
    &[0x84, 0x80, 0x00, 0x00, 0x00],
    &[0x82, 0xFF, 0xFA],
    &[0x83, 0x00, 0xFF, 0xFF],
    &[0x84, 0x00, 0x00, 0xFF, 0xF0],
    &[0x84, 0xFF, 0xFF, 0xFF, 0x00],
    &[0x84, 0xFF, 0xFF, 0xFF, 0xFA],
    &[0x84, 0xFF, 0xFF, 0xFF, 0xFF],
];

/// Every length of 81 to 84 that is cut short, with zeros behind its first byte and with others.
fn cut_lengths() -> Vec<Vec<u8>> {
    let mut out = vec![Vec::new()];
    for bytes in 1..=4 {
        for left in 0..bytes {
            for byte in [0x00, 0x01] {
                out.push([&[0x80 + bytes as u8], &vec![byte; left][..]].concat());
            }
        }
    }
    out.dedup();
    out
}

/// A conforming card of a kind with every row, from which the faults are made.
struct Whole {
    card: Card,
    outer: u8,
    rows: &'static [Row],
    values: Vec<Vec<u8>>,
    /// The forms of the lengths that have no fault.
    forms: Forms,
}

impl Whole {
    fn in_fewest_bytes(number: u64) -> Whole {
        let kind = card::kind_of(number).expect("a kind");
        let mut rng = Rng::new(number);
        loop {
            let card = conforming_on(&mut rng, number, EXAMPLE_DAY);
            let whole = card.rows.iter().all(Option::is_some);
            if whole && card.container().len() < 500 {
                return Whole::of(card, kind, Forms::all(Form::Fewest));
            }
        }
    }

    /// The same with a value of 200 bytes, or of as many as there may be, where a row can be so long. None, where the kind has
    /// nothing that is over 127 bytes long.
    fn in_longer_forms(number: u64) -> Option<Whole> {
        let mut forms = Forms::all(Form::Padded(2));
        forms.rows.iter_mut().enumerate().for_each(|(row, form)| *form = Form::Padded(1 + row % 3));
        let card = lengthened(&mut Rng::new(number), Whole::in_fewest_bytes(number).card, 200);
        let longer = card.container_in(&forms) != card.container();
        longer.then(|| Whole::of(card, card::kind_of(number).expect("a kind"), forms))
    }

    fn of(card: Card, kind: &'static card::Kind, forms: Forms) -> Whole {
        let values = card.rows.iter().flatten().cloned().collect();
        Whole { card, outer: kind.outer, rows: kind.rows, values, forms }
    }

    /// A check, a view and a report. One row after the other is viewed, whichever has the fault.
    fn calls(&self, i: usize, bytes: Vec<u8>) -> [Record; 3] {
        let kind = self.card.kind;
        let element = u64::from(self.rows[i % self.rows.len()].tag);
        [
            plain(Call::Check, kind, bytes.clone()),
            Record { element, ..plain(Call::View, kind, bytes.clone()) },
            Record { room: REPORT_MAX, fill: 0xA5, ..plain(Call::Report, kind, bytes) },
        ]
    }

    fn calls_in_turn(&self, containers: Vec<Vec<u8>>) -> Vec<Record> {
        let in_turn = |(i, bytes)| self.calls(i, bytes)[i % 3].clone();
        containers.into_iter().enumerate().map(in_turn).collect()
    }

    /// The row's element with this value.
    fn with_value(&self, row: usize, value: &[u8]) -> Vec<u8> {
        element(self.rows[row].tag, value, 0, self.forms.rows[row])
    }

    /// The elements of these rows as they should be.
    fn elements(&self, rows: std::ops::Range<usize>) -> Vec<u8> {
        rows.flat_map(|row| self.with_value(row, &self.values[row])).collect()
    }

    /// The container of the elements before this row, and then of these bytes.
    fn up_to(&self, row: usize, then: &[u8]) -> Vec<u8> {
        let content = [&self.elements(0..row)[..], then].concat();
        let mut out = vec![self.outer];
        put_length(&mut out, content.len(), 0, self.forms.outer);
        out.extend(content);
        out
    }

    /// The same, with the elements behind the row too.
    fn instead_of(&self, row: usize, bytes: &[u8]) -> Vec<u8> {
        self.up_to(row, &[bytes, &self.elements(row + 1..self.rows.len())].concat())
    }

    /// Faults of tags and values.
    fn faults(&self) -> Vec<Vec<u8>> {
        let mut out = Vec::new();
        for row in 0..self.rows.len() {
            for value in self.refused_values(row) {
                out.push(self.up_to(row, &self.with_value(row, &value)));
                out.push(self.instead_of(row, &self.with_value(row, &value)));
            }
        }
        for next in 0..=self.rows.len() {
            // nothing more: a row is missing at the end
            out.push(self.up_to(next, &[]));
            // a row too early or too late, with all that follows it and with nothing
            for found in 0..self.rows.len() {
                out.push(self.up_to(next, &self.elements(found..self.rows.len())));
                out.push(self.up_to(next, &self.elements(found..found + 1)));
            }
            out.extend(self.unknown_tags(next));
        }
        out
    }

    /// Faults of lengths, and of the outer tag.
    fn length_faults(&self) -> Vec<Vec<u8>> {
        let mut out = self.outer_faults();
        for row in 0..self.rows.len() {
            out.extend(self.refused_lengths(row));
            out.extend(self.edge_lengths(row));
            out.extend(self.wrong_ends(row));
        }
        out
    }

    /// The outer tag and length in other ways, around elements that are as they should be.
    fn outer_faults(&self) -> Vec<Vec<u8>> {
        let content = self.elements(0..self.rows.len());
        let around = |outer: u8, more: i64, form: Form| {
            let mut out = vec![outer];
            put_length(&mut out, content.len(), more, form);
            [out, content.clone()].concat()
        };
        let first = self.rows[0].tag as u8;
        // the last of them is that of other kinds: 53 and 7E differ by 2D
        let tags = [0x00, 0x5F, 0xFF, first, self.outer ^ 1, self.outer ^ 0x2D];
        let with_length = |length: &[u8]| [&[self.outer], length, &content].concat();
        let mut out = vec![Vec::new(), vec![first]];
        out.extend(cut_lengths().iter().map(|length| [&[self.outer], &length[..]].concat()));
        out.extend(tags.map(|outer| around(outer, 0, self.forms.outer)));
        out.extend(REFUSED_FORMS.iter().chain(&FAR).map(|length| with_length(length)));
        for form in [Form::Fewest, Form::Short, Form::Long(1), Form::Long(2), Form::Long(3), Form::Long(4)] {
            out.extend([-1, 0, 1, 2, 200, 65_536, 1 << 24, 1 << 31].map(|more| around(self.outer, more, form)));
        }
        out
    }

    /// The row's tag and a length that is cut short, or not in a permitted form: with nothing behind it, and with the rest.
    fn refused_lengths(&self, row: usize) -> Vec<Vec<u8>> {
        let tag = tag_bytes(self.rows[row].tag);
        let with = |length: &[u8]| [&tag[..], length].concat();
        let mut out: Vec<_> = cut_lengths().iter().map(|length| self.up_to(row, &with(length))).collect();
        for length in REFUSED_FORMS {
            out.push(self.up_to(row, &with(length)));
            out.push(self.instead_of(row, &with(length)));
        }
        out
    }

    /// The row's element with a value of a length at which the form changes, in every form that holds it: those of 127 bytes are
    /// refused but for one, and the others are not. The value is a good one if the row permits any of that length.
    fn edge_lengths(&self, row: usize) -> Vec<Vec<u8>> {
        let Row { tag, rule, .. } = self.rows[row];
        let mut out = Vec::new();
        for length in [127, 128, 255, 256] {
            let good = value_of(&mut Rng::new(length as u64), rule, length).filter(|_| self.rows[row].permits(length));
            let value = good.unwrap_or_else(|| vec![0x41; length]);
            let forms = [Form::Fewest, Form::Long(1), Form::Long(2), Form::Long(3), Form::Long(4)];
            out.extend(forms.map(|form| self.instead_of(row, &element(tag, &value, 0, form))));
        }
        out
    }

    /// The row's element with a length that runs past the end.
    fn wrong_ends(&self, row: usize) -> Vec<Vec<u8>> {
        let (tag, form, value) = (self.rows[row].tag, self.forms.rows[row], &self.values[row]);
        let rest = self.elements(row + 1..self.rows.len());
        let more = [1, 2, 200, 65_000, 65_536, 1 << 24, 1 << 31];
        let mut out: Vec<_> = more.map(|more| self.up_to(row, &element(tag, value, more, form))).to_vec();
        // to a byte behind the end, and an empty one with nothing behind it
        out.push(self.up_to(row, &element(tag, &rest, 1, form)));
        out.push(self.up_to(row, &element(tag, &[], 1, form)));
        for length in FAR {
            out.push(self.instead_of(row, &[&tag_bytes(tag), length, value].concat()));
        }
        out
    }

    /// Bytes where a tag should be: mostly such as are no tag of the kind. 5F begins the tag of two bytes, so it stands before
    /// others and alone.
    fn unknown_tags(&self, next: usize) -> Vec<Vec<u8>> {
        let alone = [0x00, 0x01, 0x0F, 0x2F, 0x53, 0x7E, 0x80, 0xF0, 0xFF].map(|byte| vec![byte]);
        let behind_5f: [&[u8]; 7] = [&[], &[0x00], &[0x2E], &[0x2F], &[0x30, 0], &[0x5F, 0x2F], &[0xFF]];
        let with_5f = behind_5f.iter().map(|behind| [&[0x5F], *behind].concat());
        let ended = alone.iter().cloned().map(|byte| [byte, vec![0]].concat());
        ended.chain(alone.to_vec()).chain(with_5f).map(|bytes| self.up_to(next, &bytes)).collect()
    }

    /// Each byte in the place of the first tag.
    fn first_bytes(&self) -> Vec<Vec<u8>> {
        (0..=255).map(|byte| self.up_to(0, &[&[byte, 0], &self.elements(0..self.rows.len())[..]].concat())).collect()
    }

    /// The sheet as it should be, and sheets with a row missing, alone and with all behind it, or with a value that is refused.
    fn sheets(&self) -> Vec<Vec<u8>> {
        let with = |row: usize, value: Option<Vec<u8>>| {
            let mut card = self.card.clone();
            card.rows[row] = value;
            card
        };
        let mut out = vec![self.card.sheet()];
        for row in 0..self.rows.len() {
            let mut missing = with(row, None);
            out.push(missing.sheet());
            missing.rows[row..].fill(None);
            out.push(missing.sheet());
            out.extend(self.refused_values(row).into_iter().map(|value| with(row, Some(value)).sheet()));
        }
        out
    }

    /// Values that the row does not permit: for their length, and for its rule.
    fn refused_values(&self, row: usize) -> Vec<Vec<u8>> {
        let (row, value) = (&self.rows[row], &self.values[row]);
        let edges = [0, 1, row.shortest.saturating_sub(1), row.longest.saturating_add(1), 128, 1_300];
        let lengths = BTreeSet::from(edges).into_iter().filter(|&length| length <= 1_300 && !row.permits(length));
        lengths.map(|length| vec![0x41; length]).chain(broken_values(row.rule, value)).collect()
    }
}

/// Values that have a permitted length and break the rule, each of its numbers at least once.
fn broken_values(rule: Rule, value: &[u8]) -> Vec<Vec<u8>> {
    let turned = |at: usize| with_bits_turned(value, at, 1);
    let fascn = values::HEADER_FASCN.start;
    match rule {
        Rule::Any => Vec::new(),
        Rule::Exactly(_) => vec![turned(0), turned(value.len() - 1)],
        Rule::Fascn => vec![turned(0), turned(24)],
        Rule::Uuid => vec![vec![0; 16], vec![0xFF; 16]],
        Rule::Expiry => vec![b"20260228".to_vec(), b"20320302".to_vec(), b"20290229".to_vec()],
        Rule::PrintedDate => vec![b"2030FEB30".to_vec(), b"2030jan31".to_vec()],
        Rule::Policy => vec![vec![0x60, 0x00], vec![0x00, 0x00]],
        Rule::Text if value.is_empty() => vec![vec![0x1F], vec![0x7F]],
        Rule::Text => [0x1F, 0x7F].map(|byte| [&value[1..], &[byte]].concat()).to_vec(),
        Rule::Fingers => vec![turned(0), turned(fascn), turned(87), turned(values::HEADER_BYTES)],
        Rule::Face => [vec![turned(0), turned(fascn), turned(87)], broken_facial(value)].concat(),
        Rule::Iris => [vec![turned(0), turned(fascn), turned(87)], broken_iris(value)].concat(),
        Rule::Certificate => vec![turned(0), Vec::new(), trees::down_to(9, 5, &[]).bytes()],
    }
}

fn with_bits_turned(value: &[u8], at: usize, bits: u8) -> Vec<u8> {
    let mut out = value.to_vec();
    out[at] ^= bits;
    out
}

/// The value of BC with a fault in each field of its facial record that is examined: format, version, length, number of images, and
/// of the first image the length of its block, type, data type, colour space and source type. With a 2 more or less none is good.
fn broken_facial(value: &[u8]) -> Vec<Vec<u8>> {
    let record = values::HEADER_BYTES;
    let block = record + values::FACIAL_HEADER_BYTES;
    let points = usize::from(u16::from_be_bytes([value[block + 4], value[block + 5]]));
    let image = block + values::FACIAL_INFORMATION_BYTES + values::FEATURE_POINT_BYTES * points;
    let fields = [record + 3, record + 7, record + 11, record + 13, block + 3, image, image + 1, image + 6, image + 7];
    fields.map(|at| with_bits_turned(value, at, 2)).to_vec()
}

/// The value of BC with a fault in each field of its iris record that is examined: format, version, length, number of representations,
/// flag and number of eyes, and of the first representation every field but the lowest diameter, with a bit turned that makes it bad
/// whatever it was; and that.
fn broken_iris(value: &[u8]) -> Vec<Vec<u8>> {
    let record = values::HEADER_BYTES;
    let first = record + values::IRIS_HEADER_BYTES;
    let blocks = values::QUALITY_BLOCK_BYTES * usize::from(value[first + 18]);
    let behind = first + values::CAPTURE_BYTES + blocks;
    let header = [3, 7, 11, 13, 14, 15].map(|at| (record + at, 2));
    let capture = [(3, 2), (4, 0x80), (6, 0x10), (7, 0x20), (8, 0x20), (9, 0x40), (10, 0x40), (11, 0x80)];
    let capture = capture.map(|(at, bits)| (first + at, bits));
    let information = [(1, 2), (2, 2), (3, 2), (4, 2), (5, 0x80), (6, 0x80), (8, 0x80), (10, 2), (18, 2), (20, 2)];
    let end = [(22, 2), (24, 2), (27, 0x80), (32, 2)];
    let behind_blocks = information.into_iter().chain(end).map(|(at, bits)| (behind + at, bits));
    let turned = header.into_iter().chain(capture).chain(behind_blocks);
    let mut out: Vec<_> = turned.map(|(at, bits)| with_bits_turned(value, at, bits)).collect();
    out.push(with_bytes(value.to_vec(), behind + 25, &[0, 159]));
    out
}
