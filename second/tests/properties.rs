//! Properties over generated inputs.

use second::batch::Call;
use second::card::{self, all_kinds, CONFORMS};
use second::generate::{conforming, conforming_of_size, endless_kinds, personal_twin, small};
use second::generate::{Form, Forms, Inputs, Rng, EXAMPLE_DAY};
use second::{check, report, view, write, Checked, SHEET_ROOM};

mod common;
use common::{in_fewest_bytes, verdict};

const ROUNDS: usize = 3_000;

/// A check with a room of so many bytes that held something before: the answer, and what is in the room before its zeros.
fn check_into(kind: u64, today: u64, container: &[u8], size: usize) -> (Checked, Vec<u8>) {
    let mut room = vec![0xAA; size];
    let answer = check(kind, today, container, &mut room);
    let behind = room.split_off(answer.length as usize);
    assert!(behind.iter().all(|&byte| byte == 0));
    (answer, room)
}

/// What a check gives of a conforming container with this sheet, where the room suffices.
fn sheet_told(sheet: &[u8]) -> (Checked, Vec<u8>) {
    (Checked { number: 0, place: 0, tag: None, room: 0, length: sheet.len() as u64 }, sheet.to_vec())
}

/// What it gives where the room is too short.
fn too_short() -> (Checked, Vec<u8>) {
    (Checked { number: 0, place: 0, tag: None, room: 3, length: 0 }, Vec::new())
}

/// A tag as the report's line has it.
fn tag_text(tag: Option<u16>) -> String {
    match tag {
        Some(0x5F2F) => "5F2F".to_string(),
        Some(byte) => format!("{:02X}", byte),
        None => "--".to_string(),
    }
}

fn report_of(kind: u64, today: u64, container: &[u8]) -> Vec<u8> {
    let mut room = [0xAA; 512];
    let (number, length) = report(kind, today, container, &mut room);
    assert_eq!(number, 0);
    assert!(room[length as usize..].iter().all(|&byte| byte == 0));
    room[..length as usize].to_vec()
}

#[test]
fn round_trips() {
    let mut rng = Rng::new(1);
    for kind in all_kinds() {
        for _ in 0..ROUNDS {
            let card = conforming(&mut rng, kind);
            let (container, sheet) = (card.container(), card.sheet());
            assert_eq!(verdict(kind, card.today, &container), CONFORMS);

            assert_eq!(check_into(kind, card.today, &container, sheet.len() + 3), sheet_told(&sheet));
            let mut room = vec![0xAA; container.len() + 3];
            assert_eq!(write(kind, card.today, &sheet, &mut room), (CONFORMS, container.len() as u64));
            assert_eq!(room[..container.len()], container);
            assert_eq!(room[container.len()..], [0; 3]);

            // The smallest rooms.
            assert_eq!(check_into(kind, card.today, &container, sheet.len()), sheet_told(&sheet));
            assert_eq!(check_into(kind, card.today, &container, sheet.len() - 1), too_short());
            let mut room = vec![0xAA; container.len()];
            assert_eq!(write(kind, card.today, &sheet, &mut room).0, CONFORMS);
            let mut room = vec![0xAA; container.len() - 1];
            assert_eq!(write(kind, card.today, &sheet, &mut room), ((3, 0, None), 0));
            assert!(room.iter().all(|&byte| byte == 0));

            // Each value is viewed where the sheet has it.
            for (row, value) in card::kind_of(kind).unwrap().rows.iter().zip(&card.rows) {
                let (verdict, part) = view(kind, card.today, &container, u64::from(row.tag));
                match value {
                    None => assert_eq!((verdict, part.len()), ((6, 0, None), 0)),
                    Some(value) => assert_eq!((verdict, part), (CONFORMS, &value[..])),
                }
            }
        }
    }
}

#[test]
fn limits() {
    let mut rng = Rng::new(2);
    let fewest = Forms::all(Form::Fewest);
    assert_eq!(endless_kinds(), [2, 6, 7, 8, 9, 10, 11, 12]);
    for kind in endless_kinds() {
        for _ in 0..20 {
            let card = conforming_of_size(&mut rng, kind, 32_768, &fewest);
            let (container, sheet) = (card.container(), card.sheet());
            assert_eq!(container.len(), 32_768);
            assert_eq!(verdict(kind, card.today, &container), CONFORMS);
            let mut room = vec![0xAA; 32_769];
            assert_eq!(write(kind, card.today, &sheet, &mut room), (CONFORMS, 32_768));
            assert_eq!(room[..32_768], container);
            assert_eq!(room[32_768], 0);
            for room in [sheet.len(), SHEET_ROOM] {
                assert_eq!(check_into(kind, card.today, &container, room), sheet_told(&sheet));
            }
            assert_eq!(check_into(kind, card.today, &container, sheet.len() - 1), too_short());
            assert_eq!(write(kind, card.today, &sheet, &mut [0xAA; 10]), ((3, 0, None), 0));

            let card = conforming_of_size(&mut rng, kind, 32_769, &fewest);
            let (container, sheet) = (card.container(), card.sheet());
            assert_eq!(container.len(), 32_769);
            assert_eq!(verdict(kind, card.today, &container), (4, 0, None));
            let refused = Checked { number: 4, place: 0, tag: None, room: 0, length: 0 };
            assert_eq!(check_into(kind, card.today, &container, 40_000), (refused, Vec::new()));
            let mut room = vec![0xAA; 40_000];
            assert_eq!(write(kind, card.today, &sheet, &mut room), ((4, 0, None), 0));
            assert!(room.iter().all(|&byte| byte == 0));
            assert_eq!(write(kind, card.today, &sheet, &mut [0xAA; 10]), ((4, 0, None), 0));
            assert_eq!(report(kind, card.today, &container, &mut room), (4, 0));
        }
    }
    // The longest section: 65,534 bytes of 3E.
    let mut card = conforming(&mut rng, 2);
    card.rows[7] = Some(vec![0; 65_534]);
    assert_eq!(write(2, card.today, &card.sheet(), &mut []), ((4, 0, None), 0));
}

/// Demand 3: a report does not change with personal bytes that keep the rules.
#[test]
fn reports_hide_personal_bytes() {
    let mut rng = Rng::new(3);
    for kind in all_kinds() {
        let mut changed = 0;
        for _ in 0..ROUNDS {
            let card = conforming(&mut rng, kind);
            let twin = personal_twin(&mut rng, &card);
            let (one, other) = (card.container(), twin.container());
            assert_eq!(verdict(kind, card.today, &other), CONFORMS);
            assert_eq!(report_of(kind, card.today, &one), report_of(kind, card.today, &other));
            changed += usize::from(one != other);
        }
        // DISCOVERY has no personal bytes.
        assert!(if kind == 3 { changed == 0 } else { changed > ROUNDS / 2 });
    }
}

/// Its converse: lengths, presence and open values show.
#[test]
fn reports_show_open_values() {
    let mut rng = Rng::new(4);
    for kind in all_kinds() {
        for _ in 0..ROUNDS {
            let one = conforming(&mut rng, kind);
            let mut other = conforming(&mut rng, kind);
            other.today = one.today;
            if verdict(kind, other.today, &other.container()) != CONFORMS {
                continue;
            }
            let open = |card: &second::generate::Card| -> Vec<u8> {
                let mut out: Vec<u8> =
                    card.rows.iter().flat_map(|v| v.as_ref().map_or(0, |v| v.len() + 1).to_be_bytes()).collect();
                let value = |row: usize| card.rows[row].clone().unwrap();
                let fascn = |bytes: &[u8]| {
                    let (_, numbers) = second::fascn_decode(bytes);
                    [numbers[0].to_be_bytes(), numbers[1].to_be_bytes()].concat()
                };
                match kind {
                    2 => {
                        out.extend(fascn(&value(1)));
                        out.extend(value(5));
                    }
                    3 => out.extend(value(1)),
                    4 => out.extend(value(4)),
                    6 | 7 | 12 => out.extend(fascn(&value(0)[59..84])),
                    _ => (),
                }
                out
            };
            let same = report_of(kind, one.today, &one.container()) == report_of(kind, one.today, &other.container());
            assert_eq!(same, open(&one) == open(&other));
        }
    }
}

/// What one call answers fits what the others answer.
#[test]
fn calls_agree() {
    let mut inputs = Inputs::new(5);
    let mut longer = 0;
    for _ in 0..105_000 {
        let record = inputs.record();
        let (kind, today, bytes) = (record.kind, record.today, &record.bytes[..]);
        if matches!(record.call, Call::FascnDecode | Call::FascnDecodeByTable | Call::FascnEncode) {
            continue;
        }
        let (Checked { number, place, tag, .. }, sheet) = check_into(kind, today, bytes, bytes.len() + 6);
        assert_eq!(view(kind, today, bytes, 0).0, if number == 0 { (6, 0, None) } else { (number, place, tag) });
        if number == 0 {
            let fewest = in_fewest_bytes(bytes);
            longer += usize::from(fewest != bytes);
            let mut room = vec![0xAA; fewest.len()];
            assert_eq!(write(kind, today, &sheet, &mut room), (CONFORMS, fewest.len() as u64));
            assert_eq!(room, fewest);
        }
        let mut room = vec![0xAA; 600];
        let (report_number, length) = report(kind, today, bytes, &mut room);
        assert_eq!(report_number, if number <= 4 { number } else { 0 });
        if report_number == 0 {
            let text = String::from_utf8(room[..length as usize].to_vec()).unwrap();
            assert!(text.contains(&format!("\nverdict {} {} {}\n", number, place, tag_text(tag))));
        }

        // A sheet that is written comes back.
        let mut room = vec![0xAA; 40_000];
        let (verdict, length) = write(kind, today, bytes, &mut room);
        if verdict == CONFORMS {
            let container = room[..length as usize].to_vec();
            assert_eq!(check_into(kind, today, &container, bytes.len()), sheet_told(bytes));
        } else {
            assert!(room.iter().all(|&byte| byte == 0));
        }
    }
    assert!(longer > 3_000, "{} in longer forms", longer);
}

/// The verdict is the same in every one of these rooms. Beside a 0 there is a 3 exactly where the room is shorter than the sheet,
/// and else always the same sheet; beside another verdict there is neither.
fn same_in_every_room(kind: u64, today: u64, container: &[u8], rooms: impl Fn(usize) -> Vec<usize>) {
    let (answer, sheet) = check_into(kind, today, container, container.len() + 6);
    assert_eq!(answer.room, 0);
    assert_eq!(answer.length > 0, answer.number == 0);
    for room in rooms(sheet.len()) {
        let expected = if room < sheet.len() { too_short() } else { (answer, sheet.clone()) };
        assert_eq!(check_into(kind, today, container, room), expected, "kind {}, room {}", kind, room);
    }
}

#[test]
fn rooms_of_made_ones() {
    let mut inputs = Inputs::new(6);
    for _ in 0..105_000 {
        let record = inputs.record();
        if !matches!(record.call, Call::FascnDecode | Call::FascnDecodeByTable | Call::FascnEncode) {
            same_in_every_room(record.kind, record.today, &record.bytes, |sheet| {
                vec![0, 1, sheet / 2, sheet.saturating_sub(1), sheet, sheet + 1, record.room]
            });
        }
    }
}

/// Every room, for a small container of each kind and for those in which one byte is another.
#[test]
fn rooms_of_small_ones() {
    for kind in all_kinds() {
        let container = small(kind);
        let rooms = |_: usize| (0..container.len() + 10).collect();
        same_in_every_room(kind, EXAMPLE_DAY, &container, rooms);
        for at in 0..container.len() {
            let mut changed = container.clone();
            changed[at] ^= 1;
            same_in_every_room(kind, EXAMPLE_DAY, &changed, rooms);
        }
        same_in_every_room(0, EXAMPLE_DAY, &container, rooms);
        same_in_every_room(kind, 0, &container, rooms);
    }
}

#[test]
fn small_ones_conform() {
    for kind in all_kinds() {
        assert_eq!(verdict(kind, EXAMPLE_DAY, &small(kind)), CONFORMS, "kind {}", kind);
    }
}
