//! What a mistaken program would answer to a call on a folder: the number of going over it, a container's row and the state behind it,
//! the last lines, and the whole summary.

use super::Mistake;
use second::batch::{Answer, Call, Record};
use second::card::kind_of;
use second::folder::{entries, Seen, MOST_CONTAINERS, ROW_ROOM};
use second::folders::FASCN_KINDS;
use second::generate::EXAMPLE_DAY;
use second::values::{is_date, FASCN_BYTES};
use second::{check, folder, number, CONTAINER_MAX};

/// The mistakes that are made, each with the name of what is lent, or of the summary.
pub(super) const MISTAKES: [(&str, &str); 61] = [
    ("number", "0 for a folder that is cut short"),
    ("number", "0 for bytes left over"),
    ("number", "0 for a count of 257"),
    ("number", "32 for a count of 256"),
    ("number", "32 before 2"),
    ("number", "0 for no date"),
    ("number", "5 for a folder"),
    ("number", "4 for a folder"),
    ("number", "3 before 2"),
    ("number", "0 for a small room"),
    ("number", "3 for a room that is just large enough"),
    ("number", "32 before 3"),
    ("number", "0 for a container that is cut short"),
    ("number", "the check's for a container that is cut short"),
    ("number", "32 for a long container"),
    ("number", "the verdict's"),
    ("room", "one byte other"),
    ("room", "offset one off"),
    ("room", "offset of the head"),
    ("room", "the length that is lent"),
    ("room", "place in the folder"),
    ("room", "no tag"),
    ("room", "00 for no tag"),
    ("room", "a tag of two digits"),
    ("room", "two digits of a kind"),
    ("room", "the kind's name"),
    ("room", "4 for an unknown kind"),
    ("room", "10 for a long container"),
    ("room", "no line end"),
    ("room", "a line end of two bytes"),
    ("room", "not zero behind the line"),
    ("room", "not zero after a refusal"),
    ("room", "yes for no"),
    ("room", "no for yes"),
    ("room", "the lines exchanged"),
    ("room", "good one off"),
    ("length", "without the line end"),
    ("length", "of the room"),
    ("length", "after a refusal"),
    ("good", "not counted"),
    ("good", "counted though refused"),
    ("good", "moved by a refusal"),
    ("good", "from the start again"),
    ("agreement", "over a refused container"),
    ("agreement", "moved by a refusal"),
    ("agreement", "not compared"),
    ("agreement", "differing though alike"),
    ("agreement", "alike again"),
    ("agreement", "not noted"),
    ("agreement", "one more"),
    ("fascn", "not noted"),
    ("fascn", "the last one"),
    ("fascn", "cleared"),
    ("fascn", "moved by a refusal"),
    ("fascn", "of a refused container"),
    ("summary", "a row left out"),
    ("summary", "a row doubled"),
    ("summary", "no last lines"),
    ("summary", "the last lines first"),
    ("summary", "good one off"),
    ("summary", "the other agreement"),
];

/// All of them in a call.
pub(super) fn mistakes(record: &Record, expected: &Answer) -> Vec<Mistake> {
    let mut mistakes = Mistakes { record, expected, out: Vec::new() };
    match record.call {
        Call::Folder => mistakes.of_going_over(),
        Call::Row => mistakes.of_row(),
        _ => mistakes.of_last_lines(),
    }
    mistakes.out
}

/// Other summaries of a folder that is not refused.
pub(super) fn mistaken_summaries(record: &Record, expected: &Answer) -> Vec<(&'static str, Vec<u8>)> {
    if record.call != Call::Folder || expected.number != number::DONE {
        return Vec::new();
    }
    let lines: Vec<&[u8]> = expected.text.split_inclusive(|&byte| byte == b'\n').collect();
    let (rows, last) = lines.split_at(lines.len() - 2);
    let good = format!("good {}\n", rows.len() + 1).into_bytes();
    let agree: &[u8] = if last[1] == b"agree yes\n" { b"agree no\n" } else { b"agree yes\n" };
    let mut out = vec![
        ("no last lines", rows.concat()),
        ("good one off", [&rows.concat(), &good, last[1]].concat()),
        ("the other agreement", [&rows.concat(), last[0], agree].concat()),
    ];
    if let Some((first, others)) = rows.split_first() {
        out.push(("a row left out", [&others.concat()[..], &last.concat()].concat()));
        out.push(("a row doubled", [first, &expected.text[..]].concat()));
        out.push(("the last lines first", [last.concat(), rows.concat()].concat()));
    }
    out
}

/// The six words of a row.
fn words_of(line: &[u8]) -> Vec<String> {
    String::from_utf8_lossy(line).trim_end().split(' ').map(str::to_string).collect()
}

/// A text that stands in the place of a row, with its mistake.
type Other = (&'static str, Vec<u8>);

/// Rows with other bytes, with another end, and with bytes behind it.
fn other_lines(record: &Record, line: &[u8]) -> Vec<Other> {
    let middle = line.len() / 2;
    let other = line.iter().enumerate().map(|(i, &byte)| byte ^ u8::from(i == middle)).collect();
    let without = &line[..line.len() - 1];
    let mut out = vec![
        ("one byte other", other),
        ("no line end", without.to_vec()),
        ("a line end of two bytes", [without, b"\r\n"].concat()),
    ];
    if line.len() < record.room {
        out.push(("not zero behind the line", [line, b"\n"].concat()));
    }
    out
}

/// Rows with another word: the kind, the offset, the length, the number, the place or the tag.
fn other_words(record: &Record, line: &[u8]) -> Vec<Other> {
    let words = words_of(line);
    let with = |at: usize, word: String| {
        let mut words = words.clone();
        words[at] = word;
        (words.join(" ") + "\n").into_bytes()
    };
    let place: u64 = words[4].parse().expect("a verdict has a place");
    let mut out = vec![
        ("two digits of a kind", with(0, format!("{:02}", record.kind))),
        ("offset one off", with(1, record.offset.wrapping_add(1).to_string())),
        ("offset of the head", with(1, record.offset.wrapping_sub(5).to_string())),
        ("the length that is lent", with(2, record.bytes.len().to_string())),
    ];
    if place > 0 {
        out.push(("place in the folder", with(4, record.offset.wrapping_add(place).to_string())));
    }
    let (how, tag) = match &words[5][..] {
        "--" => ("00 for no tag", "00"),
        "5F2F" => ("a tag of two digits", "5F"),
        _ => ("no tag", "--"),
    };
    out.push((how, with(5, tag.to_string())));
    let long = record.size > CONTAINER_MAX as u64;
    match kind_of(record.kind) {
        None if long => out.push(("4 for an unknown kind", with(3, "4".to_string()))),
        None => (),
        Some(_) if long => out.push(("10 for a long container", with(3, "10".to_string()))),
        Some(kind) => out.push(("the kind's name", with(0, kind.name.to_string()))),
    }
    out
}

/// Whether rows of a kind look at a FASC-N.
fn has_fascn(kind: u64) -> bool {
    FASCN_KINDS.contains(&kind)
}

struct Mistakes<'a> {
    record: &'a Record,
    expected: &'a Answer,
    out: Vec<Mistake>,
}

impl Mistakes<'_> {
    fn number(&mut self, how: &'static str, number: u64) {
        self.out.push(Mistake::number("number", how, 0, number, self.expected.number));
    }

    fn length(&mut self, how: &'static str, length: u64) {
        self.out.push(Mistake::number("length", how, 0, length, self.expected.length));
    }

    /// Another text in the room, and zeros behind it.
    fn text(&mut self, how: &'static str, text: &[u8]) {
        let right = self.expected.room.clone();
        let mut wrong = text.to_vec();
        wrong.resize(right.len(), 0);
        self.out.push(Mistake { name: "room", how, from: 0, wrong, right });
    }

    fn good(&mut self, how: &'static str, good: u64) {
        self.out.push(Mistake::number("good", how, 0, good, self.expected.seen.good));
    }

    fn agreement(&mut self, how: &'static str, agreement: u64) {
        self.out.push(Mistake::number("agreement", how, 0, agreement, self.expected.seen.agreement));
    }

    fn fascn(&mut self, how: &'static str, fascn: [u8; FASCN_BYTES]) {
        let right = self.expected.seen.fascn.to_vec();
        self.out.push(Mistake { name: "fascn", how, from: 0, wrong: fascn.to_vec(), right });
    }

    /// A program that takes for a folder what is none, or the other way round, or asks for the date later.
    fn of_going_over(&mut self) {
        let Record { bytes, .. } = self.record;
        let count = bytes.get(..2).map_or(0, |two| usize::from(two[0]) << 8 | usize::from(two[1]));
        // how many bytes of it are a folder, if it has some left over
        let front = (0..bytes.len()).find(|&end| entries(&bytes[..end]).is_some());
        match self.expected.number {
            number::FOLDER => {
                self.number("5 for a folder", number::SHEET);
                self.number("4 for a folder", number::TOO_LONG);
                let how = match front {
                    _ if count == MOST_CONTAINERS + 1 => "0 for a count of 257",
                    Some(_) => "0 for bytes left over",
                    None => "0 for a folder that is cut short",
                };
                self.number(how, number::DONE);
            }
            number::TODAY => {
                self.number("0 for no date", number::DONE);
                if entries(bytes).is_none() {
                    self.number("32 before 2", number::FOLDER);
                }
            }
            _ if count == MOST_CONTAINERS => self.number("32 for a count of 256", number::FOLDER),
            _ => (),
        }
    }

    fn of_row(&mut self) {
        match self.expected.number {
            number::DONE => {
                self.of_written_row();
                self.of_state();
            }
            _ => self.of_refused_row(),
        }
    }

    /// A program that judges in another order, or writes or counts though it refuses.
    fn of_refused_row(&mut self) {
        let (record, expected) = (self.record, self.expected);
        let cut_short = record.size <= CONTAINER_MAX as u64 && record.size != record.bytes.len() as u64;
        match expected.number {
            number::TODAY => {
                self.number("0 for no date", number::DONE);
                if record.room < ROW_ROOM {
                    self.number("3 before 2", number::ROOM);
                }
                if cut_short {
                    self.number("32 before 2", number::FOLDER);
                }
            }
            number::ROOM => {
                self.number("0 for a small room", number::DONE);
                if cut_short {
                    self.number("32 before 3", number::FOLDER);
                }
            }
            _ => {
                self.number("0 for a container that is cut short", number::DONE);
                let checked = check(record.kind, record.today, &record.bytes, &mut []);
                self.number("the check's for a container that is cut short", checked.number);
            }
        }
        // what the row would be without the fault
        let today = if is_date(record.today) { record.today } else { EXAMPLE_DAY };
        let size = record.bytes.len() as u64;
        let written = Record { today, size, room: ROW_ROOM, ..record.clone() }.answer();
        self.length("after a refusal", written.length);
        if record.room > 0 {
            self.text("not zero after a refusal", &written.room[..record.room.min(ROW_ROOM)]);
        }
        self.good("moved by a refusal", written.seen.good);
        self.agreement("moved by a refusal", written.seen.agreement);
        self.fascn("moved by a refusal", written.seen.fascn);
    }

    /// A program that writes another row, or refuses what gets one.
    fn of_written_row(&mut self) {
        let (record, expected) = (self.record, self.expected);
        let line = &expected.room[..expected.length as usize];
        let others = [other_lines(record, line), other_words(record, line)].concat();
        for (how, text) in others.iter().filter(|(_, text)| text.len() <= record.room) {
            self.text(how, text);
        }
        self.length("without the line end", expected.length - 1);
        self.length("of the room", record.room as u64);
        self.number("the verdict's", words_of(line)[3].parse().expect("a verdict has a number"));
        if record.room == ROW_ROOM {
            self.number("3 for a room that is just large enough", number::ROOM);
        }
        if record.size > CONTAINER_MAX as u64 && record.bytes.len() as u64 != record.size {
            self.number("32 for a long container", number::FOLDER);
        }
    }

    /// A program that counts or compares otherwise.
    fn of_state(&mut self) {
        let (record, expected) = (self.record, self.expected);
        let (given, left) = (record.seen, expected.seen);
        let conforms = words_of(&expected.room[..expected.length as usize])[3] == "0";
        if !conforms {
            self.good("counted though refused", given.good.wrapping_add(1));
            if has_fascn(record.kind) {
                self.agreement("over a refused container", given.agreement.wrapping_add(1));
                self.fascn("of a refused container", own_fascn(record).unwrap_or(given.fascn));
            }
            return;
        }
        self.good("not counted", given.good);
        self.good("from the start again", 1);
        if !has_fascn(record.kind) {
            return;
        }
        match (given.agreement, left.agreement) {
            (0, _) => {
                self.agreement("not noted", 0);
                self.fascn("not noted", given.fascn);
            }
            (1, 1) => self.agreement("differing though alike", 2),
            (1, _) => {
                self.agreement("not compared", 1);
                self.fascn("cleared", [0; FASCN_BYTES]);
            }
            _ => {
                self.agreement("alike again", 1);
                self.agreement("one more", given.agreement.wrapping_add(1));
            }
        }
        if let Some(own) = own_fascn(record) {
            self.fascn("the last one", own);
        }
    }

    /// A program that writes other last lines.
    fn of_last_lines(&mut self) {
        let (record, expected) = (self.record, self.expected);
        let Seen { good, agreement, .. } = record.seen;
        let lines = |good: u64, agree: &str| format!("good {}\nagree {}\n", good, agree).into_bytes();
        if expected.number != number::DONE {
            self.number("0 for a small room", number::DONE);
            let (text, size) = (lines(good, "yes"), record.room);
            self.length("after a refusal", text.len() as u64);
            if size > 0 {
                self.text("not zero after a refusal", &text[..size.min(text.len())]);
            }
            return;
        }
        let text = &expected.room[..expected.length as usize];
        let line_end = text.iter().position(|&byte| byte == b'\n').map_or(0, |at| at + 1);
        let (first, second) = text.split_at(line_end);
        let agree = if agreement <= 1 { "yes" } else { "no" };
        match agree {
            "yes" => self.text("no for yes", &lines(good, "no")),
            _ => self.text("yes for no", &lines(good, "yes")),
        }
        self.text("good one off", &lines(good.wrapping_add(1), agree));
        self.text("the lines exchanged", &[second, first].concat());
        self.text("no line end", &text[..text.len() - 1]);
        self.text("not zero behind the line", &[text, b"\n"].concat());
        self.length("without the line end", expected.length - 1);
        self.length("of the room", record.room as u64);
        if record.room == ROW_ROOM {
            self.number("3 for a room that is just large enough", number::ROOM);
        }
    }
}

/// The FASC-N of a container that conforms, or would but for its last byte.
fn own_fascn(record: &Record) -> Option<[u8; FASCN_BYTES]> {
    let mut bytes = record.bytes.clone();
    let seen_of = |bytes: &[u8]| {
        let (mut seen, kind, size) = (Seen::default(), record.kind as u8, bytes.len() as u64);
        folder::row(record.today, kind, 0, size, bytes, &mut seen, &mut [0; ROW_ROOM]);
        Some(seen.fascn).filter(|_| seen.agreement == 1)
    };
    seen_of(&bytes).or_else(|| {
        *bytes.last_mut()? ^= 1;
        seen_of(&bytes)
    })
}
