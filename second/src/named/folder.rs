//! The order's folder (2026-14): whole folders with their summaries or refusals, rows of single containers with the state behind them,
//! and the last lines.

use super::signer::{biometric_with, P8};
use super::*;
use crate::batch::PIECES;
use crate::folder::Seen;
use crate::folders::{self, folder_of, Contained};
use crate::records::with_bytes;

pub fn all() -> Vec<Group> {
    [whole_folders(), agreements(), rows(), states()].concat()
}

fn whole_folders() -> Vec<Group> {
    vec![worked_folders(), counts(), cut_short(), left_over(), other_lengths(), long_containers(), every_kind(), days()]
}

fn agreements() -> Vec<Group> {
    vec![pairs_of_kinds(), refused_ones(), longer_orders(), other_digits()]
}

fn rows() -> Vec<Group> {
    vec![
        worked_rows(),
        conforming_rows(),
        broken_rows(),
        unknown_kinds(),
        rooms(),
        order_of_refusals(),
        lent_lengths(),
        numbers_in_rows(),
    ]
}

fn states() -> Vec<Group> {
    vec![counted(), fascns_in_rows(), states_of_any_values(), states_after_refusals(), last_lines()]
}

// ---------------------------------------------------------------------------------------------
// The calls, and the containers that several groups have

/// The call on a folder in pieces of each sort: its rows and the two last lines, each without its end, or a refusal.
fn folder(bytes: &[u8], told: Result<&[&str], u64>) -> Vec<Case> {
    let answer = match told {
        Ok(lines) => {
            let text = lines.iter().flat_map(|line| [line.as_bytes(), b"\n"]).collect::<Vec<_>>().concat();
            Answer { text, ..Answer::default() }
        }
        Err(number) => super::told(alone(number)),
    };
    PIECES.iter().map(|&piece| (folders::call(bytes.to_vec(), piece), answer.clone())).collect()
}

/// The same of these kinds and containers.
fn of(containers: &[Contained], lines: &[&str]) -> Vec<Case> {
    folder(&folder_of(containers), Ok(lines))
}

/// A row's call: the line without its end and what was seen with it, or a refusal, which leaves what was seen before.
fn row(record: Record, told: Result<(&str, Seen), u64>) -> Case {
    let (line, seen) = match told {
        Ok((line, seen)) => (Ok(format!("{}\n", line)), seen),
        Err(number) => (Err(alone(number)), record.seen),
    };
    let room = record.room;
    let (record, answer) =
        into_room(record, room, line.as_ref().map(|line| line.as_bytes()).map_err(|refusal| *refusal));
    (record, Answer { seen, ..answer })
}

/// The call on a container that is the first of its folder, with a room of 64 bytes, before which nothing was seen.
fn first((kind, container): &Contained) -> Record {
    folders::row((*kind, container.clone()))
}

/// The last lines' call, with a room.
fn last(good: u64, agreement: u64, room: usize, told: Result<&str, u64>) -> Case {
    into_room(folders::last(good, agreement), room, told.map(str::as_bytes).map_err(alone))
}

const NOTHING: Seen = Seen { good: 0, agreement: 0, fascn: [0; 25] };

/// So many conform, and the FASC-N in them is that of P1 alone.
const fn alike(good: u64) -> Seen {
    Seen { good, agreement: 1, fascn: EXAMPLE_FASCN }
}

fn chuid_of(fascn: &[u8; 25]) -> Contained {
    (2, chuid(fascn, EXPIRES, &[]).container())
}

fn biometric(kind: u8, fascn: &[u8; 25]) -> Contained {
    (kind, biometric_with(kind.into(), fascn, [0; 4], b"SIG").container())
}

/// A container of one of the four kinds with this FASC-N. They have 61, 137, 145 and 167 bytes.
fn holding(kind: u8, fascn: &[u8; 25]) -> Contained {
    if kind == 2 {
        chuid_of(fascn)
    } else {
        biometric(kind, fascn)
    }
}

const FOUR: [u8; 4] = [2, 6, 7, 12];

fn length_of(kind: u8) -> usize {
    match kind {
        2 => 61,
        6 => 137,
        7 => 145,
        _ => 167,
    }
}

/// The same, refused by 12 at its FE, with the FASC-N of the other.
fn refused(kind: u8) -> Contained {
    let (kind, container) = holding(kind, &P8);
    let last = container.len() - 1;
    (kind, with_bytes(container, last, &[1]))
}

/// A CHUID with P8 and a UUID of zeros, which is refused by 18.
fn bad_chuid() -> Contained {
    (2, with_bytes(chuid_of(&P8).1, 31, &[0; 16]))
}

fn p13() -> Contained {
    (3, EXAMPLE_DISCOVERY.to_vec())
}

/// The second of the worked cases: a CHUID and fingers of one card, and a kind without FASC-N. It has 235 bytes.
fn three() -> [Contained; 3] {
    [chuid_of(&EXAMPLE_FASCN), biometric(6, &EXAMPLE_FASCN), p13()]
}

const THREE_LINES: [&str; 5] = ["2 7 61 0 0 --", "6 73 137 0 0 --", "3 215 20 0 0 --", "good 3", "agree yes"];

// ---------------------------------------------------------------------------------------------
// Whole folders

/// In their order; the rows and last lines among them are in groups of their own.
fn worked_folders() -> Group {
    let (r, r8, bad) = (chuid_of(&EXAMPLE_FASCN), chuid_of(&P8), bad_chuid());
    let as_kind = |kind: u8| (kind, r.1.clone());
    let long = |kind: u8| (kind, vec![0; 32_769]);
    let one = folder_of(std::slice::from_ref(&r));
    let on = |today, cases: Vec<Case>| cases.into_iter().map(move |case| on(today, case)).collect::<Vec<_>>();
    let cases = [
        of(&[], &["good 0", "agree yes"]),
        of(&three(), &THREE_LINES),
        of(&[r.clone(), r8.clone()], &["2 7 61 0 0 --", "2 73 61 0 0 --", "good 2", "agree no"]),
        of(&[r.clone(), bad], &["2 7 61 0 0 --", "2 73 61 18 29 34", "good 1", "agree yes"]),
        on(20300201, of(&[r.clone(), r8], &["2 7 61 19 47 35", "2 73 61 19 47 35", "good 0", "agree yes"])),
        of(
            &[as_kind(0), as_kind(0x32), (13, vec![])],
            &["0 7 61 1 0 --", "50 73 61 1 0 --", "13 139 0 1 0 --", "good 0", "agree yes"],
        ),
        of(&[(2, vec![]), (12, vec![])], &["2 7 0 10 0 --", "12 12 0 10 0 --", "good 0", "agree yes"]),
        of(
            &[long(2), long(99), p13()],
            &["2 7 32769 4 0 --", "99 32781 32769 1 0 --", "3 65555 20 0 0 --", "good 1", "agree yes"],
        ),
        folder(&[&one[..], &[0]].concat(), Err(32)),
        folder(&with_bytes(one.clone(), 6, &[0x3E]), Err(32)),
        folder(&[&with_bytes(one.clone(), 1, &[2])[..], &[2, 0, 0]].concat(), Err(32)),
        folder(&with_bytes(one, 3, &[0xFF; 4]), Err(32)),
        folder(&[0], Err(32)),
        folder(&[&[1, 1], &[0; 1_285][..]].concat(), Err(32)),
        on(20260229, folder(&[0], Err(2))),
    ];
    ("the worked folders of 2026-14", cases.concat())
}

/// Empty containers, which are 10, and small ones that conform.
fn counts() -> Group {
    let many = |contained: &Contained, count: usize| folder_of(&vec![contained.clone(); count]);
    let lines = |count: usize, line: &dyn Fn(usize) -> String, good: usize| {
        let mut lines: Vec<String> = (0..count).map(line).collect();
        lines.push(format!("good {}", good));
        lines.push("agree yes".to_string());
        lines
    };
    let (empty, p13) = ((2, Vec::new()), p13());
    let mut cases = Vec::new();
    for count in [0, 1, 2, 254, 255, 256] {
        for (contained, lines) in [
            (&empty, lines(count, &|i| format!("2 {} 0 10 0 --", 7 + 5 * i), 0)),
            (&p13, lines(count, &|i| format!("3 {} 20 0 0 --", 7 + 25 * i), count)),
        ] {
            let lines: Vec<&str> = lines.iter().map(String::as_str).collect();
            cases.extend(folder(&many(contained, count), Ok(&lines)));
        }
    }
    for count in [257, 258, 511, 512, 513] {
        cases.extend(folder(&many(&empty, count), Err(32)));
        cases.extend(folder(&many(&p13, count), Err(32)));
    }
    // one that is not that of what follows
    for (count, there) in [(0u16, 1), (1, 0), (2, 1), (1, 2), (256, 255), (255, 256), (256, 257), (257, 256), (257, 1)]
    {
        let behind = &many(&empty, there)[2..];
        cases.extend(folder(&[&count.to_be_bytes()[..], behind].concat(), Err(32)));
    }
    for count in [0x0101u16, 0x0200, 0x8000, 0xFF00, 0xFFFF] {
        cases.extend(folder(&count.to_be_bytes(), Err(32)));
        cases.extend(folder(&[&count.to_be_bytes(), &[0; 2_000][..]].concat(), Err(32)));
    }
    ("counts of 0, 1, 2, 254 to 258, 511 to 513 and more, and such as are not those of what follows", cases)
}

fn cut_short() -> Group {
    let whole = folder_of(&three());
    assert_eq!(whole.len(), 235);
    let cut = (0..whole.len()).flat_map(|end| folder(&whole[..end], Err(32)));
    (
        "a folder of three containers, cut off after each of its bytes, and whole",
        cut.chain(of(&three(), &THREE_LINES)).collect(),
    )
}

fn left_over() -> Group {
    let whole = folder_of(&three());
    let behind: [&[u8]; 8] = [&[0], &[0xFF], &[0, 0], &[3], &[3, 0, 0, 0, 0], &[2, 0, 0, 0, 61], &whole, &[0; 65_536]];
    let with_all = behind.iter().flat_map(|behind| folder(&[&whole[..], behind].concat(), Err(32)));
    let with_none = behind.iter().flat_map(|behind| folder(&[&[0, 0], *behind].concat(), Err(32)));
    ("bytes left over behind three containers, and behind none", with_all.chain(with_none).collect())
}

/// The length of the first container of three stands at 3, that of the last at 211.
fn other_lengths() -> Group {
    let whole = folder_of(&three());
    let with = |at: usize, length: u32| folder(&with_bytes(whole.clone(), at, &length.to_be_bytes()), Err(32));
    let mut cases = Vec::new();
    for right_in_some_bits in [1 << 8, 1 << 15, 1 << 16, 1 << 24, 1 << 31, 0xFFFF_FF00] {
        cases.extend(with(3, 61 | right_in_some_bits));
        cases.extend(with(211, 20 | right_in_some_bits));
    }
    // one off; to the folder's end, and a byte behind it; back to the start in a sum of 32 bits; the largest
    for length in [0, 60, 62, 228, 229, 32_768, 32_769, u32::MAX - 6, u32::MAX - 4, u32::MAX - 1, u32::MAX] {
        cases.extend(with(3, length));
    }
    for length in [0, 19, 21, u32::MAX - 214, u32::MAX - 212, u32::MAX - 1, u32::MAX] {
        cases.extend(with(211, length));
    }
    // with the bytes of two containers in one of them
    let two = [with_bytes(whole[..215].to_vec(), 1, &[2]), whole[215..].to_vec()].concat();
    let two = with_bytes(two, 69, &(137 + 25u32).to_be_bytes());
    cases.extend(folder(&two, Ok(&["2 7 61 0 0 --", "6 73 162 12 0 --", "good 1", "agree yes"])));
    ("lengths that are not those of the containers: one off, far beyond the end, and right in some bits only", cases)
}

/// A container with nothing but zeros has no outer tag.
fn long_containers() -> Group {
    let mut cases = Vec::new();
    for (size, number) in [(32_767, 10), (32_768, 10), (32_769, 4), (65_535, 4), (65_536, 4), (65_537, 4), (100_000, 4)]
    {
        for kind in [1, 2, 12, 0, 13, 99, 255] {
            let number = if (1..=12).contains(&kind) { number } else { 1 };
            let long = format!("{} 7 {} {} 0 --", kind, size, number);
            let behind = format!("3 {} 20 0 0 --", size + 12);
            cases.extend(of(&[(kind, vec![0; size]), p13()], &[&long, &behind, "good 1", "agree yes"]));
        }
    }
    let (largest, larger) = ((2, large_chuid(32_768).container()), (2, large_chuid(32_769).container()));
    let other = chuid_of(&P8);
    cases.extend(of(&[largest, other.clone()], &["2 7 32768 0 0 --", "2 32780 61 0 0 --", "good 2", "agree no"]));
    cases.extend(of(&[larger, other], &["2 7 32769 4 0 --", "2 32781 61 0 0 --", "good 1", "agree yes"]));
    (
        "containers of 32,767 to 100,000 bytes, of known kinds and of unknown ones; what is too long is not looked at",
        cases,
    )
}

/// Only a DISCOVERY may begin with 7E.
fn every_kind() -> Group {
    let all: Vec<Contained> = (0..=255).map(|kind| (kind, EXAMPLE_DISCOVERY.to_vec())).collect();
    let line = |kind: usize| {
        let number = match kind {
            3 => 0,
            1..=12 => 10,
            _ => 1,
        };
        format!("{} {} 20 {} 0 --", kind, 7 + 25 * kind, number)
    };
    let mut lines: Vec<String> = (0..=255).map(line).collect();
    lines.extend(["good 1".to_string(), "agree yes".to_string()]);
    let lines: Vec<&str> = lines.iter().map(String::as_str).collect();
    ("256 containers, with every byte for their kinds", of(&all, &lines))
}

/// Of the expiry 20300131 the first day is six years before it.
fn days() -> Group {
    let none = [0, 1, 20260229, 20261301, 20260100, 10_100, 99991232, 100_000_101, EXAMPLE_DAY + (1 << 32), u64::MAX];
    let folders = [folder_of(&three()), vec![0, 0], Vec::new(), vec![0, 1], vec![1, 1], vec![0, 0, 0]];
    let mut cases = Vec::new();
    for today in none {
        for bytes in &folders {
            cases.extend(folder(bytes, Err(2)).into_iter().map(|case| on(today, case)));
        }
    }
    for (today, good) in [(20240131, true), (20300131, true), (20240130, false), (20300201, false), (10_101, false)] {
        let lines = if good { ["2 7 61 0 0 --", "good 1"] } else { ["2 7 61 19 47 35", "good 0"] };
        let cases_of = of(&[chuid_of(&EXAMPLE_FASCN)], &[lines[0], lines[1], "agree yes"]);
        cases.extend(cases_of.into_iter().map(|case| on(today, case)));
    }
    ("2 for a day that is none, whatever the folder is; each container is judged under today", cases)
}

// ---------------------------------------------------------------------------------------------
// Whether the FASC-N agree

fn pairs_of_kinds() -> Group {
    let mut cases = Vec::new();
    for one in FOUR {
        for two in FOUR {
            let first = format!("{} 7 {} 0 0 --", one, length_of(one));
            let second = format!("{} {} {} 0 0 --", two, 12 + length_of(one), length_of(two));
            for (fascn, agree) in [(&EXAMPLE_FASCN, "agree yes"), (&P8, "agree no")] {
                let both = [holding(one, &EXAMPLE_FASCN), holding(two, fascn)];
                cases.extend(of(&both, &[&first, &second, "good 2", agree]));
            }
        }
    }
    ("every two of CHUID, FINGERS, FACE and IRIS with the same FASC-N, and with another", cases)
}

fn refused_ones() -> Group {
    let mut cases = Vec::new();
    for one in FOUR {
        for two in FOUR {
            let (good, other) = (holding(one, &EXAMPLE_FASCN), refused(two));
            let (mine, its) = (length_of(one), length_of(two));
            let line = |offset: usize| format!("{} {} {} 12 {} FE", two, offset, its, its - 2);
            let own = |offset: usize| format!("{} {} {} 0 0 --", one, offset, mine);
            let before = [line(7), own(12 + its)];
            let behind = [own(7), line(12 + mine)];
            cases.extend(of(&[other.clone(), good.clone()], &[&before[0], &before[1], "good 1", "agree yes"]));
            cases.extend(of(&[good, other], &[&behind[0], &behind[1], "good 1", "agree yes"]));
        }
    }
    ("a container that is refused does not count, whatever its FASC-N, before one that conforms and behind it", cases)
}

fn longer_orders() -> Group {
    let (one, two) = (|| chuid_of(&EXAMPLE_FASCN), || chuid_of(&P8));
    let chuids = |count: usize, last: [&'static str; 2]| {
        let rows = ["2 7 61 0 0 --", "2 73 61 0 0 --", "2 139 61 0 0 --", "2 205 61 0 0 --"];
        [&rows[..count], &last].concat()
    };
    let all = FOUR.map(|kind| holding(kind, &EXAMPLE_FASCN));
    let rows = ["2 7 61 0 0 --", "6 73 137 0 0 --", "7 215 145 0 0 --", "12 365 167 0 0 --"];
    let mut other = all.clone();
    other[3] = holding(12, &P8);
    let cases = [
        of(&[one(), one(), one()], &chuids(3, ["good 3", "agree yes"])),
        of(&[one(), one(), two()], &chuids(3, ["good 3", "agree no"])),
        of(&[one(), two(), one()], &chuids(3, ["good 3", "agree no"])),
        of(&[two(), one(), one()], &chuids(3, ["good 3", "agree no"])),
        of(&[one(), two(), two(), one()], &chuids(4, ["good 4", "agree no"])),
        of(&[two(), two(), two(), two()], &chuids(4, ["good 4", "agree yes"])),
        of(&all, &[&rows[..], &["good 4", "agree yes"]].concat()),
        of(&other, &[&rows[..], &["good 4", "agree no"]].concat()),
        of(&[p13(), p13()], &["3 7 20 0 0 --", "3 32 20 0 0 --", "good 2", "agree yes"]),
        of(&[p13(), two()], &["3 7 20 0 0 --", "2 32 61 0 0 --", "good 2", "agree yes"]),
        of(&[one(), p13(), two()], &["2 7 61 0 0 --", "3 73 20 0 0 --", "2 98 61 0 0 --", "good 3", "agree no"]),
        of(&[refused(2), refused(2)], &["2 7 61 12 59 FE", "2 73 61 12 59 FE", "good 0", "agree yes"]),
    ];
    ("more than two: the third differs, the first again, none with a FASC-N, and none that conforms", cases.concat())
}

fn other_digits() -> Group {
    let mut cases = Vec::new();
    for (field, fascn) in other_fascns() {
        let kind = FOUR[field % 4];
        let second = format!("{} 73 {} 0 0 --", kind, length_of(kind));
        let both = [chuid_of(&EXAMPLE_FASCN), holding(kind, &fascn)];
        cases.extend(of(&both, &["2 7 61 0 0 --", &second, "good 2", "agree no"]));
    }
    ("FASC-N that differ in one digit, whichever it is", cases)
}

// ---------------------------------------------------------------------------------------------
// Rows

fn worked_rows() -> Group {
    let r = first(&chuid_of(&EXAMPLE_FASCN));
    let small = |record: &Record| Record { room: 63, ..record.clone() };
    let discovery = (3, with_bytes(EXAMPLE_DISCOVERY.to_vec(), 18, &[0x60]));
    let far = Record { offset: 1_099_511_629_056, ..first(&discovery) };
    let cases = vec![
        row(r.clone(), Ok(("2 7 61 0 0 --", alike(1)))),
        row(small(&first(&bad_chuid())), Err(3)),
        row(Record { today: 20260229, ..small(&r) }, Err(2)),
        last(3, 1, 63, Err(3)),
        row(far, Ok(("3 1099511629056 20 20 15 5F2F", NOTHING))),
    ];
    ("the worked rows of 2026-14, and the last lines", cases)
}

/// The example of each kind that conforms, and what is seen of it.
fn conforming_rows() -> Group {
    let without = Seen { good: 1, ..NOTHING };
    let certificate_of = |kind: u64| (kind as u8, certificate(kind, &LEAST, 0, None).container());
    let each = [
        ((1, ccc(0x10).container()), "1 7 70 0 0 --", without),
        (chuid_of(&EXAMPLE_FASCN), "2 7 61 0 0 --", alike(1)),
        ((2, whole_chuid(&[]).container()), "2 7 100 0 0 --", alike(1)),
        (p13(), "3 7 20 0 0 --", without),
        ((4, printed(b"AGENT", PRINTED_DATE).container()), "4 7 56 0 0 --", without),
        ((5, SMALL.to_vec()), "5 7 8 0 0 --", without),
        (biometric(6, &EXAMPLE_FASCN), "6 7 137 0 0 --", alike(1)),
        (biometric(7, &EXAMPLE_FASCN), "7 7 145 0 0 --", alike(1)),
        (certificate_of(8), "8 7 17 0 0 --", without),
        (certificate_of(9), "9 7 17 0 0 --", without),
        (certificate_of(10), "10 7 17 0 0 --", without),
        (certificate_of(11), "11 7 17 0 0 --", without),
        (biometric(12, &EXAMPLE_FASCN), "12 7 167 0 0 --", alike(1)),
        (biometric(12, &P8), "12 7 167 0 0 --", Seen { fascn: P8, ..alike(1) }),
    ];
    let cases = each.iter().map(|(contained, line, seen)| row(first(contained), Ok((line, *seen))));
    ("a container of each kind that conforms, and the FASC-N that is seen in it", cases.collect())
}

/// Each number of a broken rule, with its place and tag, and no container that counts. In case R 30 stands at 2, 34 at 29, 35 at 47,
/// 3E at 57 and FE at 59.
fn broken_rows() -> Group {
    let (_, r) = chuid_of(&EXAMPLE_FASCN);
    let (_, fingers) = biometric(6, &EXAMPLE_FASCN);
    let with = |at: usize, byte: u8| (2, with_bytes(r.clone(), at, &[byte]));
    let content = |elements: &[&[u8]]| {
        let content = elements.concat();
        (2, [&[0x53, content.len() as u8], &content[..]].concat())
    };
    let (head, end) = (&r[2..29], &r[29..]);
    let bc = |kind: u8, at: usize, byte: u8| (kind, with_bytes(biometric(kind, &EXAMPLE_FASCN).1, at, &[byte]));
    let certificate_of = |value: &[u8], information: u8| (8, certificate(8, value, information, None).container());
    let each: [(Contained, &str); 30] = [
        ((2, Vec::new()), "2 7 0 10 0 --"),
        (with(0, 0x7E), "2 7 61 10 0 --"),
        ((3, vec![0x7E]), "3 7 1 11 0 --"),
        (with(1, 0x80), "2 7 61 11 0 --"),
        (with(1, 60), "2 7 61 12 0 --"),
        ((2, [&r[..], &[0]].concat()), "2 7 62 12 0 --"),
        (with(58, 0x85), "2 7 61 11 57 3E"),
        (with(60, 1), "2 7 61 12 59 FE"),
        (with(2, 0x31), "2 7 61 13 2 31"),
        (with(59, 0x00), "2 7 61 13 59 00"),
        ((3, vec![0x7E, 1, 0x5F]), "3 7 3 13 2 5F"),
        (content(&[head, head, end]), "2 7 88 14 29 30"),
        (content(&[end]), "2 7 34 15 2 34"),
        ((2, vec![0x53, 0]), "2 7 2 15 2 --"),
        (content(&[head, &r[29..59]]), "2 7 59 15 59 --"),
        (content(&[&[0x30, 24], &r[4..28], end]), "2 7 60 16 2 30"),
        (with(28, 0xEA), "2 7 61 17 2 30"),
        (with(37, 0x20), "2 7 61 18 29 34"),
        (with(49, b'1'), "2 7 61 19 47 35"),
        ((1, ccc(0x11).container()), "1 7 70 20 36 F5"),
        ((3, with_bytes(EXAMPLE_DISCOVERY.to_vec(), 18, &[0x60])), "3 7 20 20 15 5F2F"),
        (bc(6, 6, 2), "6 7 137 21 3 BC"),
        ((7, fingers), "7 7 137 21 3 BC"),
        (bc(12, 89, 0xEA), "12 7 167 17 3 BC"),
        (bc(6, 94, 0), "6 7 137 22 3 BC"),
        ((4, printed(b"AG\x1FNT", PRINTED_DATE).container()), "4 7 56 23 13 02"),
        (certificate_of(&LEAST[..7], 0), "8 7 16 24 2 70"),
        (certificate_of(&LEVEL_9, 0), "8 7 31 25 2 70"),
        (bc(7, 94, 0), "7 7 145 26 3 BC"),
        (bc(12, 94, 0), "12 7 167 27 3 BC"),
    ];
    let mut cases = Vec::new();
    for (contained, line) in &each {
        for seen in [NOTHING, alike(3), Seen { good: 255, agreement: 2, fascn: P8 }] {
            cases.push(row(Record { seen, ..first(contained) }, Ok((line, seen))));
        }
    }
    ("a row for each broken rule, with its number, place and tag; it counts nothing", cases)
}

fn unknown_kinds() -> Group {
    let (_, r) = chuid_of(&EXAMPLE_FASCN);
    let mut cases = Vec::new();
    for kind in [0, 13, 14, 24, 48, 49, 50, 57, 83, 99, 100, 128, 254, 255] {
        let line = |size: u64| format!("{} 7 {} 1 0 --", kind, size);
        for container in [&r[..], &[], &[0; 300]] {
            let record = Record { seen: alike(9), ..first(&(kind, container.to_vec())) };
            cases.push(row(record, Ok((&line(container.len() as u64), alike(9)))));
        }
        // 1 before 4
        for size in [32_769, 65_536, u64::MAX] {
            let record = Record { size, ..first(&(kind, Vec::new())) };
            cases.push(row(record, Ok((&line(size), NOTHING))));
        }
    }
    ("a kind that is none is a row with 1, also where the container is too long", cases)
}

/// The longest row has 53 bytes.
fn rooms() -> Group {
    let longest = Record { offset: u64::MAX, size: u64::MAX, ..first(&(255, Vec::new())) };
    let line = "255 18446744073709551615 18446744073709551615 1 0 --";
    let mut cases = Vec::new();
    for room in [0, 1, 13, 14, 32, 52, 53, 62, 63] {
        cases.push(row(Record { room, ..first(&chuid_of(&EXAMPLE_FASCN)) }, Err(3)));
        cases.push(row(Record { room, seen: alike(1), ..first(&bad_chuid()) }, Err(3)));
        cases.push(row(Record { room, ..longest.clone() }, Err(3)));
    }
    for room in [64, 65, 66, 100, 512, 70_000] {
        cases.push(row(Record { room, ..first(&chuid_of(&EXAMPLE_FASCN)) }, Ok(("2 7 61 0 0 --", alike(1)))));
        cases.push(row(Record { room, ..first(&bad_chuid()) }, Ok(("2 7 61 18 29 34", NOTHING))));
        cases.push(row(Record { room, ..longest.clone() }, Ok((line, NOTHING))));
    }
    ("rooms of 0 to 63 bytes are refused by 3, whatever the row is, and from 64 on they hold it", cases)
}

/// A day that is none, a room that is too small and a length that is not that of what is lent, each or not, with a container that
/// conforms, one that does not, and a kind that is none.
fn order_of_refusals() -> Group {
    let mut cases = Vec::new();
    for ((kind, container), line, left) in [
        (chuid_of(&EXAMPLE_FASCN), "2 7 61 0 0 --", alike(6)),
        (bad_chuid(), "2 7 61 18 29 34", alike(5)),
        ((0, chuid_of(&P8).1), "0 7 61 1 0 --", alike(5)),
    ] {
        for faults in 0..8u32 {
            let wrong = |bit: u32| faults >> bit & 1 == 1;
            let today = if wrong(0) { 20261131 } else { EXAMPLE_DAY };
            let room = if wrong(1) { 63 } else { 64 };
            let size = if wrong(2) { 62 } else { 61 };
            let told = match faults.trailing_zeros() {
                0 => Err(2),
                1 => Err(3),
                2 => Err(32),
                _ => Ok((line, left)),
            };
            cases.push(row(Record { today, room, size, seen: alike(5), ..first(&(kind, container.clone())) }, told));
        }
    }
    ("the day, the room and the length of what is lent: the first that is wrong is told", cases)
}

fn lent_lengths() -> Group {
    let r = chuid_of(&EXAMPLE_FASCN);
    let sized = |contained: &Contained, size: u64| Record { size, ..first(contained) };
    let mut cases = Vec::new();
    for size in [0, 1, 60, 62, 122, 256 + 61, 32_767, 32_768] {
        cases.push(row(sized(&r, size), Err(32)));
        cases.push(row(sized(&(99, r.1.clone()), size), Err(32)));
        cases.push(row(sized(&(12, vec![0; size as usize + 1]), size), Err(32)));
    }
    // right in so many bits only: then it is too long
    for size in [65_536 + 61, (1 << 32) + 61, (1 << 63) + 61, 32_769, u64::MAX] {
        cases.push(row(sized(&r, size), Ok((&format!("2 7 {} 4 0 --", size), NOTHING))));
        cases.push(row(sized(&(2, Vec::new()), size), Ok((&format!("2 7 {} 4 0 --", size), NOTHING))));
        cases.push(row(sized(&(13, r.1.clone()), size), Ok((&format!("13 7 {} 1 0 --", size), NOTHING))));
    }
    let of_zeros = |lent: usize| (2, vec![0; lent]);
    cases.push(row(sized(&of_zeros(32_767), 32_768), Err(32)));
    cases.push(row(sized(&of_zeros(32_769), 32_768), Err(32)));
    cases.push(row(sized(&of_zeros(32_768), 32_767), Err(32)));
    cases.push(row(sized(&of_zeros(32_768), 32_768), Ok(("2 7 32768 10 0 --", NOTHING))));
    for lent in [0, 1, 32_768, 32_769, 32_770] {
        cases.push(row(sized(&of_zeros(lent), 32_769), Ok(("2 7 32769 4 0 --", NOTHING))));
    }
    let large = |total: usize| (2, large_chuid(total).container());
    cases.push(row(first(&large(32_768)), Ok(("2 7 32768 0 0 --", alike(1)))));
    cases.push(row(first(&large(32_769)), Ok(("2 7 32769 4 0 --", NOTHING))));
    cases.push(row(sized(&large(32_768), 32_769), Ok(("2 7 32769 4 0 --", NOTHING))));
    ("32 where another length is lent than the folder says; over 32,768 nothing is looked at that is lent", cases)
}

fn numbers_in_rows() -> Group {
    let mut cases = Vec::new();
    for offset in [0, 1, 7, 9, 10, 99, 100, 4_294_967_295, 4_294_967_296, u64::MAX - 1, u64::MAX] {
        cases.push(row(
            Record { offset, ..first(&p13()) },
            Ok((&format!("3 {} 20 0 0 --", offset), Seen { good: 1, ..NOTHING })),
        ));
    }
    let mut ten: u64 = 1;
    for digits in 1..=20 {
        // 1, 10, 100 and so on have so many digits, and the numbers before them one less
        let zeros = "0".repeat(digits - 1);
        let record = Record { offset: ten, ..first(&(0, Vec::new())) };
        cases.push(row(record, Ok((&format!("0 1{} 0 1 0 --", zeros), NOTHING))));
        let record = Record { size: ten + 32_768, offset: ten - 1, ..first(&(7, Vec::new())) };
        let nines = if digits == 1 { "0".to_string() } else { "9".repeat(digits - 1) };
        cases.push(row(record, Ok((&format!("7 {} {} 4 0 --", nines, ten + 32_768), NOTHING))));
        ten = ten.wrapping_mul(10);
    }
    ("offsets and lengths of every number of digits, up to the largest", cases)
}

// ---------------------------------------------------------------------------------------------
// States

fn counted() -> Group {
    let mut cases = Vec::new();
    for (good, more) in [
        (0, 1),
        (1, 2),
        (8, 9),
        (255, 256),
        ((1 << 32) - 1, 1 << 32),
        (u64::MAX - 2, u64::MAX - 1),
        (u64::MAX - 1, u64::MAX),
        (u64::MAX, u64::MAX),
    ] {
        let seen = Seen { good, ..NOTHING };
        cases.push(row(Record { seen, ..first(&p13()) }, Ok(("3 7 20 0 0 --", Seen { good: more, ..NOTHING }))));
        cases.push(row(Record { seen, ..first(&chuid_of(&EXAMPLE_FASCN)) }, Ok(("2 7 61 0 0 --", alike(more)))));
        cases.push(row(Record { seen, ..first(&bad_chuid()) }, Ok(("2 7 61 18 29 34", seen))));
        cases.push(row(Record { seen, ..first(&(13, Vec::new())) }, Ok(("13 7 0 1 0 --", seen))));
    }
    ("a row with 0 is one more that conforms, as far as 18,446,744,073,709,551,615; others count nothing", cases)
}

/// What was seen before, and what is seen with a container that has the FASC-N of P1, of each of the four kinds.
fn fascns_in_rows() -> Group {
    let seen = |agreement, fascn| Seen { good: 4, agreement, fascn };
    let left = |agreement, fascn| Seen { good: 5, agreement, fascn };
    let (own, other) = (EXAMPLE_FASCN, P8);
    let each = [
        (seen(0, [0; 25]), left(1, own)),
        (seen(0, other), left(1, own)),
        (seen(0, own), left(1, own)),
        (seen(0, [0xFF; 25]), left(1, own)),
        (seen(1, own), left(1, own)),
        (seen(1, other), left(2, other)),
        (seen(1, [0; 25]), left(2, [0; 25])),
        (seen(1, [0xFF; 25]), left(2, [0xFF; 25])),
        (seen(2, own), left(2, own)),
        (seen(2, other), left(2, other)),
        (seen(2, [0; 25]), left(2, [0; 25])),
    ];
    let mut cases = Vec::new();
    for (before, after) in each {
        for kind in FOUR {
            let line = format!("{} 7 {} 0 0 --", kind, length_of(kind));
            cases.push(row(Record { seen: before, ..first(&holding(kind, &own)) }, Ok((&line, after))));
        }
        // one without a FASC-N
        let without = Seen { good: 5, ..before };
        cases.push(row(Record { seen: before, ..first(&p13()) }, Ok(("3 7 20 0 0 --", without))));
        cases.push(row(Record { seen: before, ..first(&(5, SMALL.to_vec())) }, Ok(("5 7 8 0 0 --", without))));
    }
    // each byte of the one that was seen counts
    for at in 0..25 {
        let mut near = own;
        near[at] ^= 1;
        cases.push(row(Record { seen: seen(1, near), ..first(&chuid_of(&own)) }, Ok(("2 7 61 0 0 --", left(2, near)))));
    }
    ("the first FASC-N is noted, and later ones are compared with it; what differs once stays so", cases)
}

fn states_of_any_values() -> Group {
    let mut cases = Vec::new();
    for agreement in [2, 3, 7, 255, 256, 257, 1 << 16, 1 << 32, (1 << 32) + 1, 1 << 63, u64::MAX] {
        for fascn in [[0; 25], EXAMPLE_FASCN, P8] {
            let seen = Seen { good: u64::MAX, agreement, fascn };
            for kind in FOUR {
                let line = format!("{} 7 {} 0 0 --", kind, length_of(kind));
                cases.push(row(Record { seen, ..first(&holding(kind, &EXAMPLE_FASCN)) }, Ok((&line, seen))));
            }
        }
    }
    ("an agreement above 1 stays as it is, whatever it is, and so does the FASC-N beside it", cases)
}

fn states_after_refusals() -> Group {
    let mut cases = Vec::new();
    for agreement in [0, 1, 2, 7] {
        for (good, fascn) in [(0, [0; 25]), (7, EXAMPLE_FASCN), (u64::MAX, P8)] {
            let seen = Seen { good, agreement, fascn };
            for contained in FOUR.map(|kind| holding(kind, &EXAMPLE_FASCN)).iter().chain(&[p13(), bad_chuid()]) {
                let record = Record { seen, ..first(contained) };
                cases.push(row(Record { today: 0, ..record.clone() }, Err(2)));
                cases.push(row(Record { room: 63, ..record.clone() }, Err(3)));
                cases.push(row(Record { size: record.size + 1, ..record }, Err(32)));
            }
        }
    }
    ("a refusal leaves the state as it was", cases)
}

/// The longest last lines have 36 bytes.
fn last_lines() -> Group {
    let mut cases = Vec::new();
    for (good, text) in [
        (0, "good 0\n"),
        (1, "good 1\n"),
        (9, "good 9\n"),
        (10, "good 10\n"),
        (256, "good 256\n"),
        (4_294_967_296, "good 4294967296\n"),
        (9_999_999_999_999_999_999, "good 9999999999999999999\n"),
        (10_000_000_000_000_000_000, "good 10000000000000000000\n"),
        (u64::MAX, "good 18446744073709551615\n"),
    ] {
        for agreement in [0, 1] {
            cases.push(last(good, agreement, 64, Ok(&format!("{}agree yes\n", text))));
        }
        for agreement in [2, 3, 7, 255, 256, 257, 1 << 32, (1 << 32) + 1, 1 << 63, u64::MAX] {
            cases.push(last(good, agreement, 64, Ok(&format!("{}agree no\n", text))));
        }
    }
    for room in [0, 1, 17, 35, 36, 62, 63] {
        cases.push(last(3, 1, room, Err(3)));
        cases.push(last(u64::MAX, 2, room, Err(3)));
    }
    for room in [65, 66, 100, 512, 70_000] {
        cases.push(last(3, 0, room, Ok("good 3\nagree yes\n")));
        cases.push(last(3, 2, room, Ok("good 3\nagree no\n")));
    }
    ("the two last lines: how many conform, yes for an agreement of 0 or 1; rooms under 64 are refused by 3", cases)
}
