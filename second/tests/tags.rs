//! The tag of a verdict: which one it is, and that the made calls ask for every one.

use second::batch::{Answer, Call, Record};
use second::card::{self, all_kinds, kind_of, Row, Rule};
use second::generate::Inputs;
use second::{faults, number, tag_number, NO_TAG};
use std::collections::BTreeSet;

/// What was answered: the call, the kind, the number and the tag.
type Seen = BTreeSet<(Call, u64, u64, Option<u16>)>;

/// What the calls of the faults answer.
fn seen() -> Seen {
    let answered = |record: &Record| {
        let Answer { number, tag, .. } = record.answer();
        (record.call, record.kind, number, tag)
    };
    faults::records().iter().map(answered).collect()
}

fn rows_of(kind: u64) -> &'static [Row] {
    kind_of(kind).unwrap().rows
}

/// The numbers of a value's rule.
fn numbers_of(rule: Rule) -> &'static [u64] {
    match rule {
        Rule::Any => &[],
        Rule::Fascn => &[17],
        Rule::Uuid => &[18],
        Rule::Expiry | Rule::PrintedDate => &[19],
        Rule::Exactly(_) | Rule::Policy => &[20],
        Rule::Text => &[23],
        Rule::Fingers => &[21, 17, 22],
        Rule::Face => &[21, 17, 26],
        Rule::Iris => &[21, 17, 27],
        Rule::Certificate => &[24, 25],
    }
}

/// Each number that can name a row's element does name it, and no other does.
#[test]
fn every_row_is_named() {
    let seen = seen();
    for kind in all_kinds() {
        let rows = rows_of(kind);
        for (i, row) in rows.iter().enumerate() {
            let any_length = (0..2_000).all(|length| row.permits(length));
            let passes_over = rows[..i].iter().any(|before| !before.optional);
            for number in 0..=number::LAST {
                let of_value = numbers_of(row.rule).contains(&number) || number == 16 && !any_length;
                let of_element = of_value || matches!(number, 11 | 12 | 14) || number == 15 && passes_over;
                let of_section = of_value || number == 15 && !row.optional;
                let calls = [(Call::Check, of_element), (Call::View, of_element), (Call::Write, of_section)];
                for (call, expected) in calls {
                    let named = seen.contains(&(call, kind, number, Some(row.tag)));
                    assert_eq!(named, expected, "{:?} {}: {} {:X}", call, kind, number, row.tag);
                }
            }
        }
    }
}

/// 13 names every byte but the tags of the kind; of the tag of two bytes it names the first alone.
#[test]
fn every_unknown_byte_is_named() {
    let seen = seen();
    for kind in all_kinds() {
        let known: BTreeSet<u16> = rows_of(kind).iter().map(|row| row.tag).collect();
        for byte in 0..=255 {
            let named = seen.contains(&(Call::Check, kind, 13, Some(byte)));
            assert_eq!(named, !known.contains(&byte), "{} {:X}", kind, byte);
        }
        for byte in [0x00, 0x5F, 0xFF] {
            assert!(seen.contains(&(Call::View, kind, 13, Some(byte))), "{} {:X}", kind, byte);
        }
        assert!(seen.iter().all(|&(_, _, number, tag)| number != 13 || tag < Some(0x100)));
    }
}

/// 5F names itself in DISCOVERY at each place where a tag can stand, with a byte behind it and without.
#[test]
fn lone_first_bytes() {
    let mut places = BTreeSet::new();
    for record in faults::records().into_iter().filter(|record| record.kind == 3 && record.call == Call::Check) {
        let Answer { number, place, tag, .. } = record.answer();
        if number == 13 && tag == Some(0x5F) {
            places.insert((place, record.bytes.get(place as usize + 1).copied()));
        }
    }
    for place in [2, 15, 20] {
        for behind in [None, Some(0x00), Some(0x2E), Some(0x30), Some(0x5F), Some(0xFF)] {
            assert!(places.contains(&(place, behind)), "{} {:02X?}", place, behind);
        }
    }
}

/// 15 names every row that is found while another one is missing, for each such pair.
#[test]
fn every_pair_of_rows() {
    let mut pairs = BTreeSet::new();
    for record in faults::records().iter().filter(|record| record.call == Call::Check) {
        let answer = record.answer();
        if let (15, Some(tag)) = (answer.number, answer.tag) {
            let table = kind_of(record.kind).unwrap();
            let mut next = 0;
            assert!(card::walk(table, record.today, &record.bytes, |row, _, _| next = row + 1).is_err());
            let missing = table.rows[next..].iter().find(|row| !row.optional).unwrap();
            pairs.insert((record.kind, missing.tag, tag));
        }
    }
    for kind in all_kinds() {
        let rows = rows_of(kind);
        for (i, missing) in rows.iter().enumerate().filter(|(_, row)| !row.optional) {
            for found in &rows[i + 1..] {
                assert!(pairs.contains(&(kind, missing.tag, found.tag)), "{} {:X} {:X}", kind, missing.tag, found.tag);
            }
        }
    }
}

#[test]
fn outer_faults_and_ends_name_none() {
    let seen = seen();
    for kind in all_kinds() {
        for call in [Call::Check, Call::View] {
            for number in [10, 11, 12, 15] {
                assert!(seen.contains(&(call, kind, number, None)), "{:?} {}: {}", call, kind, number);
            }
        }
        assert!(seen.contains(&(Call::Write, kind, 3, None)) && seen.contains(&(Call::Write, kind, 0, None)));
    }
}

/// The line of a report with the verdict names every row of the kind, some unknown bytes, and none.
#[test]
fn reports_name_every_row() {
    let mut named = BTreeSet::new();
    for record in faults::records().into_iter().filter(|record| record.call == Call::Report) {
        let text = String::from_utf8(record.answer().room).unwrap();
        let line = text.lines().find(|line| line.starts_with("verdict ")).unwrap();
        named.insert((record.kind, line.rsplit(' ').next().unwrap().to_string()));
    }
    for kind in all_kinds() {
        let rows = rows_of(kind).iter().map(|row| format!("{:02X}", row.tag));
        for tag in rows.chain(["00", "5F", "FF", "--"].map(str::to_string)) {
            assert!(named.contains(&(kind, tag.clone())), "{} {}", kind, tag);
        }
    }
}

/// The container that an answer is about: of two the one that it names.
fn container_of<'a>(record: &'a Record, answer: &Answer) -> &'a [u8] {
    if answer.which == 1 {
        &record.chuid
    } else {
        &record.bytes
    }
}

/// The tag that stands at the place in a container. In DISCOVERY 5F 2F is one.
fn tag_at(record: &Record, answer: &Answer) -> Option<u16> {
    match container_of(record, answer)[answer.place as usize..] {
        [0x5F, 0x2F, ..] if record.kind == 3 => Some(0x5F2F),
        [byte, ..] => Some(u16::from(byte)),
        [] => None,
    }
}

/// The tag of the row whose section starts at a place of a sheet.
fn section_at(record: &Record, place: u64) -> Option<u16> {
    let mut at = 0;
    for row in rows_of(record.kind) {
        if at as u64 == place {
            return Some(row.tag);
        }
        let count = usize::from(record.bytes[at]) * 256 + usize::from(record.bytes[at + 1]);
        at += 2 + count.saturating_sub(1);
    }
    None
}

/// The law, told by the place: a number that carries a place has the tag that stands there, and none where nothing does.
#[test]
fn tags_stand_at_their_places() {
    let mut inputs = Inputs::new(15);
    for _ in 0..150_000 {
        let record = inputs.record();
        let answer = record.answer();
        let outer = matches!(answer.number, 10..=12) && answer.place == 0;
        let at_the_end = answer.number == 15 && answer.place == container_of(&record, &answer).len() as u64;
        let (expected, none) = match (record.call, answer.number) {
            (Call::Check | Call::View | Call::Lists | Call::Signer, 10..=number::LAST_OF_CHECK) if !outer => {
                (tag_at(&record, &answer), at_the_end)
            }
            (Call::Write, 10..=number::LAST_OF_CHECK) => (section_at(&record, answer.place), false),
            _ => (None, true),
        };
        assert_eq!(answer.tag, expected, "{:?}", record);
        assert_eq!(answer.tag.is_none(), none, "{:?}", record);
        assert!(answer.place == 0 || none == at_the_end, "{:?}", record);
    }
}

#[test]
fn tags_as_numbers() {
    assert_eq!(NO_TAG, 65_536);
    assert_eq!([None, Some(0), Some(0x30), Some(0x5F2F)].map(tag_number), [NO_TAG, 0, 0x30, 0x5F2F]);
    assert!((0..=u16::MAX).all(|tag| tag_number(Some(tag)) != NO_TAG));
}
