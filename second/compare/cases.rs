//! The worked cases of tests/cases, whose README.md says how they are written: each call is made by both programs. The inputs of
//! the desk program and the folders of orders are put into a folder, from where tests/worked-cases gives them to their programs.

use crate::points::{by_library, by_second, Told};
use crate::trial::{Fault, Trial};
use crate::{folder, signer, strings};
use second::batch::{Answer, Call, Record};
use second::folder::Seen;
use second::generate::plain;
use second::points::KIND;
use second::{folders, Decoded, Point, Which};
use std::collections::BTreeMap;
use std::fs;

/// What a case asks, and the answer that it gives.
enum Case {
    /// Calls that have one answer.
    Called(Vec<Record>, Answer),
    /// Today, the container, and what is told of its points with a list of so many.
    Points(u64, Vec<u8>, Told),
    /// Standard input, and what is printed.
    Desk(Vec<u8>, Vec<u8>),
}

type Outcome<A> = Result<A, String>;

// ---------------------------------------------------------------------------------------------
// Reading a file

/// The names that a file has given to bytes so far.
#[derive(Default)]
struct Names(BTreeMap<String, Vec<u8>>);

impl Names {
    /// The case of a line, if it has one.
    fn line(&mut self, line: &str) -> Outcome<Option<Case>> {
        let words: Vec<&str> = line.split_whitespace().collect();
        match words[..] {
            [] => Ok(None),
            [first, ..] if first.starts_with('#') => Ok(None),
            ["let", name, "=", ..] => {
                let bytes = self.bytes(&words[3..])?;
                self.0.insert(name.to_string(), bytes);
                Ok(None)
            }
            [call, ..] => {
                let arrow = words.iter().position(|&word| word == "->").ok_or("no answer")?;
                self.case(call, &words[1..arrow], &words[arrow + 1..]).map(Some)
            }
        }
    }

    fn case(&self, call: &str, asked: &[&str], told: &[&str]) -> Outcome<Case> {
        if call == "desk" {
            return Ok(Case::Desk(self.bytes(asked)?, text(told)));
        }
        match call {
            "points" => return self.points(asked, told),
            "many" => return self.many(asked, told),
            "folder" => return self.folder(asked, told),
            "row" => return self.row(asked, told),
            "last" => return last(asked, told),
            _ => (),
        }
        let record = match call {
            "lists" => self.lists(asked)?,
            "signer" => self.signer(asked)?,
            _ => self.record(call, asked)?,
        };
        let answer = self.answer(call, &record, told)?;
        Ok(Case::Called(vec![record], answer))
    }

    /// A whole folder, in pieces of one byte and of as many as a program reads.
    fn folder(&self, asked: &[&str], told: &[&str]) -> Outcome<Case> {
        let (today, bytes) = (number(asked.first())?, self.bytes(&asked[1..])?);
        let answer = match told {
            ["refused", refusal] => Answer { number: number(Some(refusal))?, ..Answer::default() },
            _ => Answer { text: text(told), ..Answer::default() },
        };
        let records = [1, 65_536].map(|piece| Record { today, ..folders::call(bytes.clone(), piece) });
        Ok(Case::Called(records.to_vec(), answer))
    }

    /// A row of a folder, before which nothing was seen. What was seen with it is not told.
    fn row(&self, asked: &[&str], told: &[&str]) -> Outcome<Case> {
        let (today, kind, offset) = (number(asked.first())?, number(asked.get(1))?, number(asked.get(2))?);
        let (size, room) = (number(asked.get(3))?, number(asked.get(4))? as usize);
        let record = plain(Call::Row, kind, self.bytes(&asked[5..])?);
        let record = Record { today, offset, size, room, fill: 0xFF, ..record };
        let answer = Answer { seen: record.answer().seen, ..with_lines(room, told)? };
        Ok(Case::Called(vec![record], answer))
    }

    /// A list of points, each written as its five numbers. It is told whole.
    fn points(&self, asked: &[&str], told: &[&str]) -> Outcome<Case> {
        let (today, size) = (number(asked.first())?, number(asked.get(1))? as usize);
        let verdict = (number(told.first())?, number(told.get(1))?, tag(told.get(2))?);
        let counts = [number(told.get(3))?, number(told.get(4))?];
        let list = told[5..].iter().map(|word| point(word)).collect::<Outcome<Vec<_>>>()?;
        if list.len() != size {
            return Err(format!("{} points in a list of {}", list.len(), size));
        }
        Ok(Case::Points(today, self.bytes(&asked[2..])?, (verdict, counts, list)))
    }

    /// Strings that are decoded into a list of entries, each written as its ten numbers. It is told whole.
    fn many(&self, asked: &[&str], told: &[&str]) -> Outcome<Case> {
        let (entries, number) = (number(asked.first())? as usize, number(told.first())?);
        let decoded = told[1..].iter().map(|word| entry(word)).collect::<Outcome<Vec<_>>>()?;
        if decoded.len() != entries {
            return Err(format!("{} entries in a list of {}", decoded.len(), entries));
        }
        let record = plain(Call::FascnDecodeByTable, 0, self.bytes(&asked[1..])?);
        let record = Record { entries, fill: 0xFF, ..record };
        Ok(Case::Called(vec![record], Answer { number, decoded, ..Answer::default() }))
    }

    /// The five lists of a call that has no kind.
    fn lists(&self, asked: &[&str]) -> Outcome<Record> {
        let mut lists = [0; 5];
        for (i, size) in lists.iter_mut().enumerate() {
            *size = number(asked.get(1 + i))? as usize;
        }
        let record = plain(Call::Lists, KIND, self.bytes(&asked[6..])?);
        Ok(Record { today: number(asked.first())?, lists, fill: 0xFF, ..record })
    }

    /// Two containers, with a semicolon between.
    fn signer(&self, asked: &[&str]) -> Outcome<Record> {
        let (today, kind) = (number(asked.first())?, number(asked.get(1))?);
        let between = asked.iter().position(|&word| word == ";").ok_or("no second container")?;
        let (chuid, biometric) = (self.bytes(&asked[2..between])?, self.bytes(&asked[between + 1..])?);
        Ok(Record { today, chuid, ..plain(Call::Signer, kind, biometric) })
    }

    fn record(&self, call: &str, asked: &[&str]) -> Outcome<Record> {
        let (kind, today) = (number(asked.first())?, number(asked.get(1))?);
        let record =
            |call, element, room, bytes| Record { today, element, room, fill: 0xFF, ..plain(call, kind, bytes) };
        let room = || number(asked.get(2)).map(|room| room as usize);
        Ok(match call {
            "verdict" => record(Call::Check, 0, 0, self.bytes(&asked[2..])?),
            "merged" => record(Call::Check, 0, room()?, self.bytes(&asked[3..])?),
            "view" => record(Call::View, hex_number(asked.get(2))?, 0, self.bytes(&asked[3..])?),
            "write" => record(Call::Write, 0, room()?, self.bytes(&asked[3..])?),
            _ => return Err(format!("no such call: {}", call)),
        })
    }

    fn answer(&self, call: &str, record: &Record, told: &[&str]) -> Outcome<Answer> {
        let answer = Answer {
            number: number(told.first())?,
            place: number(told.get(1))?,
            tag: tag(told.get(2))?,
            ..Answer::default()
        };
        match (call, &told[3..]) {
            // no room is lent: it is too short for a sheet, which is told beside a 0 only
            ("verdict", []) => Ok(Answer { short: if answer.number == 0 { 3 } else { 0 }, ..answer }),
            ("merged", [short, output @ ..]) => {
                Ok(Answer { short: number(Some(short))?, ..self.with_output(answer, record.room, output)? })
            }
            ("view", [offset, length]) => with_part(answer, &record.bytes, offset, length),
            ("signer", [which, offset, length]) => {
                let which = number(Some(which))?;
                let container = if which == Which::Chuid as u64 { &record.chuid } else { &record.bytes };
                with_part(Answer { which, ..answer }, container, offset, length)
            }
            ("write", output) => self.with_output(answer, record.room, output),
            ("lists", [first, second, lists @ ..]) => {
                let counts = [number(Some(first))?, number(Some(second))?];
                Ok(Answer { counts, lists: whole_lists(record.lists, lists)?, ..answer })
            }
            _ => Err("an answer of another form".to_string()),
        }
    }

    /// The answer with the length of what is written into a room, and with the room: what is written, and zeros.
    fn with_output(&self, answer: Answer, size: usize, told: &[&str]) -> Outcome<Answer> {
        let length = number(told.first())?;
        let mut room = self.bytes(&told[1..])?;
        if room.len() as u64 != length || room.len() > size {
            return Err(format!("{} bytes of output", room.len()));
        }
        room.resize(size, 0);
        Ok(Answer { length, room, ..answer })
    }

    fn bytes(&self, items: &[&str]) -> Outcome<Vec<u8>> {
        let mut out = Vec::new();
        for item in items {
            out.extend(self.item(item)?);
        }
        Ok(out)
    }

    fn item(&self, item: &str) -> Outcome<Vec<u8>> {
        if let Some(name) = item.strip_prefix('@') {
            return self.0.get(name).cloned().ok_or(format!("no such name: {}", name));
        }
        if let Some(text) = item.strip_prefix('\'').and_then(|rest| rest.strip_suffix('\'')) {
            return Ok(text.as_bytes().to_vec());
        }
        match item.split_once('*') {
            Some((bytes, count)) => Ok(hex(bytes)?.repeat(number(Some(&count))? as usize)),
            None => hex(item),
        }
    }
}

/// The last lines of a folder. FASC-N agree where none were seen and where all were alike.
fn last(asked: &[&str], told: &[&str]) -> Outcome<Case> {
    let (good, room) = (number(asked.first())?, number(asked.get(2))? as usize);
    let agreements = match asked.get(1) {
        Some(&"yes") => [0, 1],
        Some(&"no") => [2, u64::MAX],
        _ => return Err("neither yes nor no".to_string()),
    };
    let record = Record { room, fill: 0xFF, ..plain(Call::Last, 0, Vec::new()) };
    let with = |agreement| Record { seen: Seen { good, agreement, ..Seen::default() }, ..record.clone() };
    Ok(Case::Called(agreements.map(with).to_vec(), with_lines(room, told)?))
}

/// A number, the length of the lines that are written into a room, and the lines.
fn with_lines(size: usize, told: &[&str]) -> Outcome<Answer> {
    let (number, length) = (number(told.first())?, number(told.get(1))?);
    let mut room = if length == 0 { Vec::new() } else { text(&told[2..]) };
    if room.len() as u64 != length || room.len() > size {
        return Err(format!("{} bytes of lines", room.len()));
    }
    room.resize(size, 0);
    Ok(Answer { number, length, room, ..Answer::default() })
}

/// The answer with the part of the container that is told by its offset and its length.
fn with_part(answer: Answer, container: &[u8], offset: &str, length: &str) -> Outcome<Answer> {
    let (offset, length) = (number(Some(&offset))?, number(Some(&length))?);
    let part = container.get(offset as usize..(offset + length) as usize).ok_or("no such part")?;
    Ok(Answer { offset, length, part: part.to_vec(), ..answer })
}

fn number(word: Option<&&str>) -> Outcome<u64> {
    let word = word.ok_or("a number is missing")?;
    word.parse().map_err(|_| format!("no number: {}", word))
}

/// Numbers with commas between.
fn numbers(word: &str) -> Outcome<Vec<u64>> {
    word.split(',').map(|word| number(Some(&word))).collect()
}

fn point(word: &str) -> Outcome<Point> {
    match numbers(word)?[..] {
        [sort, x, y, angle, quality] => Ok(Point { sort, x, y, angle, quality }),
        _ => Err(format!("no point: {}", word)),
    }
}

/// An entry of many strings: its number, and the nine numbers of its FASC-N.
fn entry(word: &str) -> Outcome<Decoded> {
    let told = numbers(word)?;
    let numbers = told[1..].try_into().map_err(|_| format!("no entry: {}", word))?;
    Ok(Decoded { number: told[0], numbers })
}

/// Lists of these lengths, each told whole. An empty one has no word.
fn whole_lists(sizes: [usize; 5], told: &[&str]) -> Outcome<[Vec<u64>; 5]> {
    let (mut lists, mut words) = (<[Vec<u64>; 5]>::default(), told.iter());
    for (list, size) in lists.iter_mut().zip(sizes).filter(|(_, size)| *size > 0) {
        *list = numbers(words.next().ok_or("a list is missing")?)?;
        if list.len() != size {
            return Err(format!("{} numbers in a list of {}", list.len(), size));
        }
    }
    match words.next() {
        None => Ok(lists),
        Some(word) => Err(format!("a list too many: {}", word)),
    }
}

fn hex_number(word: Option<&&str>) -> Outcome<u64> {
    let word = word.ok_or("a tag is missing")?;
    u64::from_str_radix(word, 16).map_err(|_| format!("no tag: {}", word))
}

/// A verdict's tag as a report has it: two hex digits, four for a tag of two bytes, or two hyphens for none.
fn tag(word: Option<&&str>) -> Outcome<Option<u16>> {
    if word == Some(&"--") {
        return Ok(None);
    }
    let tag = hex_number(word)?;
    let written = format!("{:01$X}", tag, if tag > 0xFF { 4 } else { 2 });
    match u16::try_from(tag) {
        Ok(tag) if word == Some(&&written[..]) => Ok(Some(tag)),
        _ => Err(format!("no tag of a verdict: {}", written)),
    }
}

fn hex(digits: &str) -> Outcome<Vec<u8>> {
    let value = |digit: u8| char::from(digit).to_digit(16).map(|value| value as u8);
    let byte = |pair: &[u8]| match *pair {
        [high, low] => Some(value(high)? << 4 | value(low)?),
        _ => None,
    };
    digits.as_bytes().chunks(2).map(byte).collect::<Option<_>>().ok_or(format!("no bytes: {}", digits))
}

/// The text that stands in a case with a bar between its lines.
fn text(words: &[&str]) -> Vec<u8> {
    let lines = words.split(|&word| word == "|").map(|line| line.join(" ") + "\n");
    lines.collect::<String>().into_bytes()
}

// ---------------------------------------------------------------------------------------------
// Running the cases

struct Running<'a> {
    trial: Trial,
    folder: &'a str,
    cases: usize,
    desk: usize,
    folders: usize,
}

impl Running<'_> {
    /// Runs a case. Handed out is the name of what was put into the folder for a program.
    fn run(&mut self, case: &Case) -> Outcome<Option<String>> {
        self.cases += 1;
        match case {
            Case::Called(records, expected) => {
                records.iter().try_for_each(|record| self.call(record, expected))?;
                match records.first() {
                    Some(record) if record.call == Call::Folder => self.keep_folder(record, expected).map(Some),
                    _ => Ok(None),
                }
            }
            Case::Points(today, container, expected) => {
                let size = expected.2.len();
                for (who, told) in [
                    ("second program", by_second(*today, container, size)),
                    ("library", by_library(*today, container, size)),
                ] {
                    if told != *expected {
                        return Err(format!("the {} answers {:?}", who, told));
                    }
                }
                Ok(None)
            }
            Case::Desk(input, expected) => {
                self.desk += 1;
                let printed = second::desk(input);
                if printed != *expected {
                    return Err(format!("the second program prints {}", String::from_utf8_lossy(&printed)));
                }
                let name = self.desk.to_string();
                self.keep(&name, "input", input)?;
                self.keep(&name, "expected", expected)?;
                Ok(Some(name))
            }
        }
    }

    /// Makes a call by both programs.
    fn call(&mut self, record: &Record, expected: &Answer) -> Outcome<()> {
        let answer = record.answer();
        if answer != *expected {
            return Err(format!("the second program answers {:?}", answer));
        }
        let outcome = self.trial.run(record, expected, &Fault::None);
        outcome.map_err(|wrong| format!("the library: {}", self.trial.tell(record, wrong)))?;
        let told = match record.call {
            Call::Signer => signer::difference(record, expected),
            Call::FascnDecodeByTable => strings::difference(record, expected),
            _ => folder::difference(record, expected),
        };
        told.map_or(Ok(()), Err)
    }

    /// Puts an order's folder into the folder, with today and what is printed.
    fn keep_folder(&mut self, record: &Record, expected: &Answer) -> Outcome<String> {
        self.folders += 1;
        let name = format!("folder-{}", self.folders);
        let refusal = format!("refused {}\n", expected.number);
        let printed = if expected.number == 0 { &expected.text } else { refusal.as_bytes() };
        self.keep(&name, "folder", &record.bytes)?;
        self.keep(&name, "today", format!("{:08}\n", record.today).as_bytes())?;
        self.keep(&name, "expected", printed)?;
        Ok(name)
    }

    /// Puts what belongs to a case of a program into the folder.
    fn keep(&self, name: &str, what: &str, bytes: &[u8]) -> Outcome<()> {
        let path = format!("{}/{}.{}", self.folder, name, what);
        fs::write(&path, bytes).map_err(|error| format!("{}: {}", path, error))
    }

    fn run_line(&mut self, names: &mut Names, place: &str, line: &str) -> Outcome<()> {
        if let Some(case) = names.line(line)? {
            if let Some(name) = self.run(&case)? {
                self.keep(&name, "line", format!("{}: {}\n", place, line).as_bytes())?;
            }
        }
        Ok(())
    }
}

/// Runs the cases of the files, tells each that fails, and gives whether none did.
pub fn all_hold(folder: &str, files: &[&str]) -> bool {
    let mut running = Running { trial: Trial::new(4), folder, cases: 0, desk: 0, folders: 0 };
    let mut bad = 0;
    for file in files {
        let (mut names, before) = (Names::default(), running.cases);
        let text = fs::read_to_string(file).unwrap_or_else(|error| panic!("{}: {}", file, error));
        for (at, line) in text.lines().enumerate() {
            let place = format!("{}:{}", file, at + 1);
            if let Err(wrong) = running.run_line(&mut names, &place, line) {
                println!("{}: {}\n  {}", place, line, wrong);
                bad += 1;
            }
        }
        assert!(running.cases > before, "{} has no case", file);
    }
    println!("{} worked cases, {} wrong", running.cases, bad);
    bad == 0
}
