//! The made calls.

use second::batch::{Call, Record, Tally, BYTES_MAX, ENTRIES_MAX, FOLDER_MAX, LIST_MAX, PIECES, ROOM_MAX};
use second::generate::Inputs;
use second::{check, number, points, Seen, SHEET_ROOM};
use std::collections::BTreeSet;

fn batch(seed: u64, count: usize) -> Vec<Record> {
    let mut inputs = Inputs::new(seed);
    (0..count).map(|_| inputs.record()).collect()
}

#[test]
fn batches_are_fixed() {
    assert!(batch(7, 95_000) == batch(7, 95_000));
    assert!(batch(7, 95_000) != batch(8, 95_000));
    assert!(batch(7, 95_000).starts_with(&batch(7, 90_000)));
}

#[test]
fn records_keep_to_the_limits() {
    for record in batch(9, 105_000) {
        let most = if record.call == Call::Folder { FOLDER_MAX } else { BYTES_MAX };
        assert!(record.room <= ROOM_MAX && record.bytes.len() <= most);
        assert!(record.element == 0 || record.call == Call::View);
        let without_room = matches!(record.call, Call::View | Call::Signer | Call::FascnDecode | Call::Folder);
        assert!((record.room == 0 && record.fill == 0) || !without_room);
        if record.call == Call::Lists {
            assert!(record.lists.iter().all(|&size| size <= LIST_MAX));
            assert_eq!((record.kind, record.room), (points::KIND, 0));
        } else {
            assert_eq!(record.lists, [0; 5]);
        }
        assert!(record.chuid.len() <= BYTES_MAX && (record.chuid.is_empty() || record.call == Call::Signer));
        assert!(record.entries <= ENTRIES_MAX);
        if record.call == Call::FascnDecodeByTable {
            assert_eq!((record.kind, record.today, record.room), (0, 0, 0));
        } else {
            assert_eq!(record.entries, 0);
        }
        if record.call == Call::FascnEncode {
            assert_eq!(record.bytes.len(), 72);
        }
        assert!(record.kind <= 255 || record.call != Call::Row);
        assert!(PIECES.contains(&record.piece) && (record.piece == 0 || record.call == Call::Folder));
        assert!((record.offset == 0 && record.size == 0) || record.call == Call::Row);
        assert!(record.seen == Seen::default() || matches!(record.call, Call::Row | Call::Last));
    }
}

#[test]
fn every_number_occurs() {
    let mut tally = Tally::default();
    for record in batch(4, 90_000) {
        tally.count(record.call, &record.answer());
    }
    assert_eq!(tally.never(), []);
}

/// Checks are made with rooms of every sort, not only at the front of a batch: whatever the verdict is, with none, with few bytes
/// and with enough for any sheet; and where it is 0, at the edges of the sheet and of all sheets.
#[test]
fn rooms_of_checks() {
    let mut inputs = Inputs::made(6);
    let (mut sorts, mut edges) = (BTreeSet::new(), BTreeSet::new());
    for record in (0..100_000).map(|_| inputs.record()).filter(|record| record.call == Call::Check) {
        let (room, enough) = (record.room, record.bytes.len() + 6);
        let answer = check(record.kind, record.today, &record.bytes, &mut vec![0; enough]);
        sorts.insert((answer.number, usize::from(room > 0) + usize::from(room >= enough)));
        if answer.number == 0 {
            let sheet = answer.length as usize;
            let here = [0, 1, sheet - 1, sheet, sheet + 1, enough, enough + 1, SHEET_ROOM].map(|edge| edge == room);
            edges.extend((0..here.len()).filter(|&edge| here[edge]));
        }
    }
    for number in [0, 1, 2, 4].into_iter().chain(10..=number::LAST_OF_CHECK) {
        for sort in 0..3 {
            assert!(sorts.contains(&(number, sort)), "{} {}", number, sort);
        }
    }
    assert!(edges.into_iter().eq(0..8));
}
