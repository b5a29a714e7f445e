//! What a mistaken program would answer to many FASC-N; and whether the comparison of a million of them would tell it.

use super::Mistake;
use crate::prosianek::{decode, decode_by_table, Decoded as Entry, Refused};
use crate::strings::{told_of, First, Readers, Second, Told, LIBRARY};
use crate::trial::native_entries;
use second::batch::{Answer, Record};
use second::generate::EXAMPLE_FASCN;
use second::smears::{EXAMPLE_3301, EXAMPLE_DIGITS};
use second::values::FASCN_BYTES;
use second::{fascn_decode, number, Decoded};

/// The mistakes that are made, each with the name of what is lent.
pub(super) const MISTAKES: [(&str, &str); 20] = [
    ("number", "0 for a part of a string"),
    ("number", "3 for a part of a string"),
    ("number", "3 for a part of a string and a short list"),
    ("number", "0 for fewer entries than strings"),
    ("number", "17 for fewer entries than strings"),
    ("number", "3 for as many entries as strings"),
    ("number", "3 for more entries than strings"),
    ("number", "17 for a bad string"),
    ("list", "0 for a bad string"),
    ("list", "17 for a good string"),
    ("list", "one of the nine numbers other"),
    ("list", "two of the nine numbers exchanged"),
    ("list", "the numbers of the string before"),
    ("list", "a string skipped"),
    ("list", "one entry later"),
    ("list", "an entry left as a bad one"),
    ("list", "nothing behind a bad string"),
    ("list", "not zero behind the last"),
    ("list", "17 behind the last"),
    ("list", "left by a refusal"),
];

const BAD: Decoded = Decoded { number: number::FASCN, numbers: [0; 9] };

/// What P1 answers, for a list that has nothing else to be wrong with.
fn p1() -> Decoded {
    let (number, numbers) = fascn_decode(&EXAMPLE_FASCN);
    Decoded { number, numbers }
}

/// All of them in a call.
pub(super) fn mistakes(record: &Record, expected: &Answer) -> Vec<Mistake> {
    let numbers = mistaken_numbers(record, expected);
    let mut out: Vec<Mistake> =
        numbers.into_iter().map(|(how, number)| Mistake::number("number", how, 0, number, expected.number)).collect();
    let lists = if expected.number == number::DONE { mistaken_lists(record, expected) } else { left(expected) };
    out.extend(lists.into_iter().map(|(how, list)| Mistake {
        name: "list",
        how,
        from: 0,
        wrong: native_entries(&list),
        right: native_entries(&expected.decoded),
    }));
    out
}

/// The numbers of a program that looks at one length only, at both in the other order, or at a list as if it had to be longer; and of
/// one that takes a bad string for a refusal.
fn mistaken_numbers(record: &Record, expected: &Answer) -> Vec<(&'static str, u64)> {
    let count = record.bytes.len() / FASCN_BYTES;
    match expected.number {
        number::FASCN if record.entries < count => vec![("3 for a part of a string and a short list", number::ROOM)],
        number::FASCN => vec![("0 for a part of a string", number::DONE), ("3 for a part of a string", number::ROOM)],
        number::ROOM => vec![
            ("0 for fewer entries than strings", number::DONE),
            ("17 for fewer entries than strings", number::FASCN),
        ],
        _ if expected.decoded[..count].contains(&BAD) => vec![("17 for a bad string", number::FASCN)],
        _ if record.entries == count => vec![("3 for as many entries as strings", number::ROOM)],
        _ => vec![("3 for more entries than strings", number::ROOM)],
    }
}

/// The list of a program that does not clear it on a refusal: what its first string answers.
fn left(expected: &Answer) -> Vec<(&'static str, Vec<Decoded>)> {
    let mut list = expected.decoded.clone();
    list.iter_mut().take(1).for_each(|entry| *entry = p1());
    vec![("left by a refusal", list)]
}

/// Lists that are filled wrongly: in an entry, in their order, or behind the last string.
fn mistaken_lists(record: &Record, expected: &Answer) -> Vec<(&'static str, Vec<Decoded>)> {
    let right = &expected.decoded;
    let count = record.bytes.len() / FASCN_BYTES;
    let mut out = Vec::new();
    let mut with = |how, at: usize, entry: Decoded| {
        let mut list = right.clone();
        list[at] = entry;
        out.push((how, list));
    };
    for (at, &entry) in right[..count].iter().enumerate().take(3) {
        let Decoded { number, mut numbers } = entry;
        if number == number::FASCN {
            with("0 for a bad string", at, Decoded { number: number::DONE, ..entry });
            with(
                "the numbers of the string before",
                at,
                Decoded { number, ..if at > 0 { right[at - 1] } else { p1() } },
            );
        } else {
            with("17 for a good string", at, Decoded { number: number::FASCN, ..entry });
            with("an entry left as a bad one", at, BAD);
            numbers.swap(1, 7);
            with("two of the nine numbers exchanged", at, Decoded { number, numbers });
            numbers.swap(1, 7);
            numbers[at % 9] += 1;
            with("one of the nine numbers other", at, Decoded { number, numbers });
        }
    }
    if right.len() > count {
        with("not zero behind the last", count, p1());
        with("17 behind the last", right.len() - 1, BAD);
    }
    out.extend(in_other_places(&right[..count], right.len()));
    out
}

/// The same answers in other places of a list of so many entries.
fn in_other_places(answers: &[Decoded], entries: usize) -> Vec<(&'static str, Vec<Decoded>)> {
    let list = |answers: Vec<Decoded>| {
        let mut list = answers;
        list.resize(entries, Decoded::default());
        list
    };
    let mut out = Vec::new();
    if let [_, behind @ ..] = answers {
        out.push(("a string skipped", list(behind.to_vec())));
        out.push(("one entry later", list([&[Decoded::default()], answers].concat())));
    }
    if let Some(bad) = answers.iter().position(|entry| *entry == BAD) {
        out.push(("nothing behind a bad string", list(answers[..=bad].to_vec())));
    }
    out
}

// ---------------------------------------------------------------------------------------------
// Many strings

/// So many strings: 300 times [`SEVEN`].
const ALL: usize = 2_100;

/// Five FASC-N, of which two stand twice, and two bad ones.
const SEVEN: [[u8; FASCN_BYTES]; 7] =
    [EXAMPLE_DIGITS, [0; FASCN_BYTES], EXAMPLE_FASCN, EXAMPLE_3301, [0xFF; FASCN_BYTES], EXAMPLE_FASCN, EXAMPLE_DIGITS];

/// The library's second reader, but for what is changed in the list of each call with so many strings.
fn changed(strings: &[u8], list: &mut [Entry], count: usize, change: fn(&mut [Entry])) -> Result<(), Refused> {
    let outcome = decode_by_table(strings, list);
    if strings.len() == FASCN_BYTES * count {
        change(list);
    }
    outcome
}

fn with_first(first: First) -> Readers {
    Readers { first, ..LIBRARY }
}

fn with_second(second: Second) -> Readers {
    Readers { second, ..LIBRARY }
}

/// Readers that are wrong, and how often that is told of them: first ones at each bad string or at each good one, and second ones in
/// calls with one string, two, seven, a thousand or all.
fn wrong_readers() -> Vec<(&'static str, Readers, u64)> {
    let of_one: Second = |strings, list| changed(strings, list, 1, |list| list[0].number ^= number::FASCN);
    let of_two: Second = |strings, list| changed(strings, list, 2, |list| list[3].numbers[8] = 1);
    let of_seven: Second = |strings, list| changed(strings, list, 7, |list| list[..7].rotate_right(1));
    let of_many: Second = |strings, list| changed(strings, list, 1_000, |list| list.copy_within(1..1_000, 0));
    let of_all: Second = |strings, list| changed(strings, list, ALL, |list| list[ALL - 1].numbers[8] += 1);
    vec![
        ("0 for bad ones alone", with_first(|string| decode(string).or(Ok([0; 9]))), 2 * 300),
        ("17 for good ones alone", with_first(|string| decode(&string[1..])), 5 * 300),
        ("another number in each call with one", with_second(of_one), 2_100),
        ("not zero behind two", with_second(of_two), 1_050),
        ("seven in another order", with_second(of_seven), 6 * 300),
        // two calls have so many; the last string and the first of seven are the same
        ("one of a thousand skipped", with_second(of_many), 857 + 856),
        ("refused in a call with a thousand", with_second(refused_thousand), 2),
        ("another number at the end of all", with_second(of_all), 1),
    ]
}

/// A refusal in each call with a thousand strings, though the list is filled.
fn refused_thousand(strings: &[u8], list: &mut [Entry]) -> Result<(), Refused> {
    decode_by_table(strings, list)?;
    match strings.len() / FASCN_BYTES {
        1_000 => Err(Refused { number: number::ROOM, place: 0, tag: None }),
        _ => Ok(()),
    }
}

/// Whether the comparison of many strings tells what it has to: nothing of the library's readers, and every wrong answer of others.
pub(super) fn are_judged() -> bool {
    let strings = SEVEN.concat().repeat(ALL / 7);
    let readers = [vec![("as they are", LIBRARY, 0)], wrong_readers()].concat();
    let (mut good, mut texts) = (true, Vec::new());
    for (how, readers, differences) in readers {
        let told = told_of(&strings, readers, 0);
        good &= told == Told { strings: ALL, good: 5 * 300, differences };
        texts.push(format!("{}: {}", how, told.differences));
    }
    println!("differences told of many strings, {}", texts.join(", "));
    good
}
