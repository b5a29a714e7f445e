//! The points of fingers: what the lists are filled with, by a reader of another make, and which calls are refused. And that the
//! made calls ask for all of it.

use second::batch::{Answer, Call, Record};
use second::card::CONFORMS;
use second::fingers::{self, card_of, minutiae_record, six_bytes, some_points};
use second::generate::{conforming, conforming_of_size, Card, Form, Forms, Inputs, Rng, EXAMPLE_DAY};
use second::points::{Counts, KIND, MOST_POINTS};
use second::samples::{self, fingers_with};
use second::{lists, named, number, points, view, Point, Verdict};
use std::collections::BTreeSet;

mod common;
use common::{two_bytes, verdict};

/// How many cards are made.
const ROUNDS: usize = 3_000;

const NONE: Point = Point { sort: 0, x: 0, y: 0, angle: 0, quality: 0 };

/// What lists hold before a call: no number that a point has.
const OLD: u64 = 0xA5A5_A5A5_A5A5_A5A5;

/// Five lists of these lengths, filled.
fn fill(today: u64, container: &[u8], sizes: [usize; 5]) -> (Verdict, Counts, [Vec<u64>; 5]) {
    let mut all = sizes.map(|size| vec![OLD; size]);
    let [types, xs, ys, angles, qualities] = &mut all;
    let (verdict, counts) = lists(today, container, [types, xs, ys, angles, qualities]);
    (verdict, counts, all)
}

/// One list of points of this length, filled. It is the same as five lists.
fn fill_one(today: u64, container: &[u8], size: usize) -> (Verdict, Counts, Vec<Point>) {
    let mut list = vec![Point { sort: OLD, x: OLD, y: OLD, angle: OLD, quality: OLD }; size];
    let (verdict, counts) = points(today, container, &mut list);
    assert_eq!(fill(today, container, [size; 5]), (verdict, counts, five_lists(&list, [size; 5])));
    (verdict, counts, list)
}

/// The numbers of the points in five lists of these lengths, zeros behind them.
fn five_lists(points: &[Point], sizes: [usize; 5]) -> [Vec<u64>; 5] {
    let mut lists = [Vec::new(), Vec::new(), Vec::new(), Vec::new(), Vec::new()];
    for Point { sort, x, y, angle, quality } in points {
        for (list, number) in lists.iter_mut().zip([sort, x, y, angle, quality]) {
            list.push(*number);
        }
    }
    for (list, size) in lists.iter_mut().zip(sizes) {
        list.resize(size, 0);
    }
    lists
}

/// A refusal leaves nothing, whichever lengths the lists have.
fn assert_refused(today: u64, container: &[u8], sizes: [usize; 5], refusal: Verdict) {
    assert_eq!(fill(today, container, sizes), (refusal, [0, 0], sizes.map(|size| vec![0; size])));
}

/// The bytes of each view's minutiae, as they stand in a value of BC that conforms.
fn minutiae_in(value: &[u8]) -> [Vec<&[u8]>; 2] {
    let data = two_bytes(value, 4);
    let record = &value[88..88 + data];
    let first = usize::from(record[29]);
    let second_at = 26 + 4 + 6 * first + 2;
    let second = usize::from(record[second_at + 3]);
    assert_eq!(second_at + 4 + 6 * second + 2, data);
    let of = |at: usize, count: usize| (0..count).map(|i| &record[at + 6 * i..at + 6 * i + 6]).collect();
    [of(30, first), of(second_at + 4, second)]
}

/// A point put back: 2 bits, 14, 16, 8 and 8.
fn put_back(point: &Point) -> [u8; 6] {
    let Point { sort, x, y, angle, quality } = *point;
    assert!(sort <= 2 && x <= 16_383 && y <= 16_383 && angle <= 179 && quality <= 100, "{:?}", point);
    let bits = format!("{:02b}{:014b}{:016b}{:08b}{:08b}", sort, x, y, angle, quality);
    let mut out = [0; 6];
    for (byte, digits) in out.iter_mut().zip(bits.as_bytes().chunks(8)) {
        *byte = digits.iter().fold(0, |byte, &digit| byte * 2 + digit - b'0');
    }
    out
}

/// The points are those of the container, byte for byte, the first view's before the second's, and none follow.
fn assert_points_of(today: u64, container: &[u8], list: &[Point], counts: Counts) {
    let (verdict, value) = view(KIND, today, container, 0xBC);
    assert_eq!(verdict, CONFORMS);
    let minutiae = minutiae_in(value);
    assert_eq!(counts, [minutiae[0].len() as u64, minutiae[1].len() as u64]);
    let minutiae = minutiae.concat();
    let (front, behind) = list.split_at(minutiae.len());
    assert!(front.iter().zip(minutiae).all(|(point, bytes)| put_back(point) == *bytes));
    assert!(behind.iter().all(|point| *point == NONE));
}

// ---------------------------------------------------------------------------------------------
// Fixed answers

const A: Point = Point { sort: 1, x: 16, y: 16_162, angle: 80, quality: 50 };
const B: Point = Point { sort: 2, x: 16_383, y: 16_383, angle: 179, quality: 100 };

#[test]
fn two_points_and_one() {
    let container = card_of([&[A, B], &[NONE]]).container();
    assert_eq!(fill_one(EXAMPLE_DAY, &container, 3), (CONFORMS, [2, 1], vec![A, B, NONE]));
    assert_eq!(fill_one(EXAMPLE_DAY, &container, 5), (CONFORMS, [2, 1], vec![A, B, NONE, NONE, NONE]));
    assert_eq!(fill_one(EXAMPLE_DAY, &container, 2), ((3, 0, None), [0, 0], vec![NONE; 2]));
    assert_eq!(fill_one(EXAMPLE_DAY, &container, 0), ((3, 0, None), [0, 0], vec![]));
    let lists =
        [vec![1, 2, 0], vec![16, 16_383, 0, 0], vec![16_162, 16_383, 0], vec![80, 179, 0, 0, 0], vec![50, 100, 0]];
    assert_eq!(fill(EXAMPLE_DAY, &container, [3, 4, 3, 5, 3]), (CONFORMS, [2, 1], lists));
    assert_refused(EXAMPLE_DAY, &container, [3, 4, 3, 5, 2], (3, 0, None));
}

#[test]
fn no_points() {
    let container = card_of([&[], &[]]).container();
    for size in [0, 1, 2, 256] {
        assert_eq!(fill_one(EXAMPLE_DAY, &container, size), (CONFORMS, [0, 0], vec![NONE; size]));
    }
    assert_eq!(fill(EXAMPLE_DAY, &container, [0, 1, 0, 2, 0]).0, CONFORMS);
}

/// The bytes of a point as 01 has them, and the least and the largest of each number.
#[test]
fn bytes_of_points() {
    assert_eq!(six_bytes(&A), [0x40, 0x10, 0x3F, 0x22, 0x50, 0x32]);
    assert_eq!(six_bytes(&B), [0xBF, 0xFF, 0x3F, 0xFF, 0xB3, 0x64]);
    for point in some_points(256).iter().chain(&[A, B, NONE]) {
        assert_eq!(six_bytes(point), put_back(point));
    }
}

#[test]
fn the_sample() {
    let sample = samples::all().into_iter().find(|sample| sample.name == "fingers").unwrap();
    let point = Point { sort: 1, x: 16, y: 32, angle: 179, quality: 100 };
    assert_eq!(fill_one(EXAMPLE_DAY, &sample.container, 8), (CONFORMS, [3, 5], vec![point; 8]));
}

// ---------------------------------------------------------------------------------------------
// Every value

/// The container with these six bytes as its first point and as its last, between two others.
fn with_bytes_in(bytes: [u8; 6]) -> [Vec<u8>; 2] {
    let record = minutiae_record([&[A, B], &[B, A]]);
    [30, 26 + 6 + 12 + 4 + 6].map(|at| {
        let mut other = record.clone();
        other[at..at + 6].copy_from_slice(&bytes);
        fingers_with(100, &other, 1).container()
    })
}

/// Either the point is there, before or behind the three others, or the record is refused.
fn assert_read(bytes: [u8; 6], expected: Option<Point>) {
    let [first, last] = with_bytes_in(bytes);
    match expected {
        Some(point) => {
            assert_eq!(fill_one(EXAMPLE_DAY, &first, 4), (CONFORMS, [2, 2], vec![point, B, B, A]));
            assert_eq!(fill_one(EXAMPLE_DAY, &last, 4), (CONFORMS, [2, 2], vec![A, B, B, point]));
        }
        None => {
            assert_refused(EXAMPLE_DAY, &first, [4; 5], (22, 3, Some(0xBC)));
            assert_refused(EXAMPLE_DAY, &last, [4; 5], (22, 3, Some(0xBC)));
        }
    }
}

#[test]
fn every_type_and_x() {
    for number in 0..=u16::MAX {
        let [high, low] = number.to_be_bytes();
        let (sort, x) = (u64::from(number) / 16_384, u64::from(number) % 16_384);
        assert_read([high, low, 0x3F, 0x22, 80, 50], Some(Point { sort, x, ..A }).filter(|_| sort < 3));
    }
}

#[test]
fn every_y() {
    for number in 0..=u16::MAX {
        let [high, low] = number.to_be_bytes();
        let y = u64::from(number);
        assert_read([0x40, 0x10, high, low, 80, 50], Some(Point { y, ..A }).filter(|_| y < 16_384));
    }
}

#[test]
fn every_angle_and_quality() {
    for (angle, quality) in (0..=255).flat_map(|angle| (0..=255).map(move |quality| (angle, quality))) {
        let point = Point { angle: angle.into(), quality: quality.into(), ..A };
        assert_read([0x40, 0x10, 0x3F, 0x22, angle, quality], Some(point).filter(|_| angle <= 179 && quality <= 100));
    }
}

/// Every pair of counts, with a list that is just long enough, and with one that is too short.
#[test]
fn every_count() {
    let all = some_points(2 * 130);
    for (first, second) in (0..=130).flat_map(|first| (0..=130).map(move |second| (first, second))) {
        let views = [&all[..first], &all[all.len() - second..]];
        let container = card_of(views).container();
        let sum = first + second;
        if first > 128 || second > 128 {
            let place = if container[1] == 0x82 { 4 } else { 3 };
            assert_refused(EXAMPLE_DAY, &container, [sum; 5], (22, place, Some(0xBC)));
            continue;
        }
        let (told, counts, list) = fill_one(EXAMPLE_DAY, &container, sum);
        assert_eq!((told, counts, list), (CONFORMS, [first as u64, second as u64], views.concat()));
        if sum > 0 {
            assert_refused(EXAMPLE_DAY, &container, [sum - 1; 5], (3, 0, None));
        }
    }
}

/// Every five lengths from 0 to 4 for three points: 3 exactly where one is under 3. Each list is zero to its own end.
#[test]
fn every_five_lengths() {
    let container = card_of([&[A, B], &[A]]).container();
    for number in 0..5usize.pow(5) {
        let sizes = [1, 5, 25, 125, 625].map(|place| number / place % 5);
        if sizes.iter().any(|&size| size < 3) {
            assert_refused(EXAMPLE_DAY, &container, sizes, (3, 0, None));
        } else {
            let expected = (CONFORMS, [2, 1], five_lists(&[A, B, A], sizes));
            assert_eq!(fill(EXAMPLE_DAY, &container, sizes), expected, "{:?}", sizes);
        }
    }
}

// ---------------------------------------------------------------------------------------------
// Properties over made containers

/// Each point put back gives its six bytes, in every form of lengths.
#[test]
fn round_trips() {
    let mut rng = Rng::new(10);
    for _ in 0..ROUNDS {
        let card = conforming(&mut rng, KIND);
        let container = card.container_in(&Forms::mixed(&mut rng));
        let (verdict, counts, list) = fill_one(card.today, &container, MOST_POINTS);
        assert_eq!(verdict, CONFORMS);
        assert_points_of(card.today, &container, &list, counts);

        let sum = (counts[0] + counts[1]) as usize;
        for (more, which) in [(0, 0), (1, 1), (7, 2), (40, 3), (300, 4)] {
            let mut sizes = [sum; 5];
            sizes[which] += more;
            let expected = (CONFORMS, counts, five_lists(&list[..sum], sizes));
            assert_eq!(fill(card.today, &container, sizes), expected);
            if let Some(less) = sizes[which].checked_sub(more + 1) {
                sizes[which] = less;
                assert_refused(card.today, &container, sizes, (3, 0, None));
            }
        }
    }
}

/// The points and nothing else of the card matter: not the day, the header, the signature or the form of lengths.
#[test]
fn points_alone_matter() {
    let mut rng = Rng::new(11);
    let fill_all = |card: &Card, forms: &Forms| fill_one(card.today, &card.container_in(forms), MOST_POINTS);
    for _ in 0..ROUNDS {
        let (one, mut other) = (conforming(&mut rng, KIND), conforming(&mut rng, KIND));
        let data = |card: &Card| {
            let value = card.rows[0].as_ref().unwrap();
            value[88..88 + two_bytes(value, 4)].to_vec()
        };
        let (record, value) = (data(&one), other.rows[0].as_mut().unwrap());
        let old = two_bytes(value, 4);
        value.splice(88..88 + old, record.iter().copied());
        value[2..6].copy_from_slice(&(record.len() as u32).to_be_bytes());
        let told = fill_all(&one, &Forms::all(Form::Fewest));
        assert_eq!(told.0, CONFORMS);
        assert_eq!(fill_all(&other, &Forms::mixed(&mut rng)), told);
    }
}

/// On whatever call is made, of any kind: the verdict is that of a check as fingers, and then 3 where a list is too short.
#[test]
fn verdicts_are_those_of_check() {
    let mut inputs = Inputs::new(12);
    let mut seen = BTreeSet::new();
    for record in (0..135_000).map(|_| inputs.record()) {
        let (today, bytes) = (record.today, &record.bytes[..]);
        let checked = verdict(KIND, today, bytes);
        let (told, counts, list) = fill_one(today, bytes, MOST_POINTS);
        assert_eq!(told, checked);
        if checked == CONFORMS {
            assert_points_of(today, bytes, &list, counts);
        } else {
            assert!(counts == [0, 0] && list.iter().all(|point| *point == NONE));
        }
        let sum = (counts[0] + counts[1]) as usize;
        let short = record.lists.iter().any(|&size| size < sum);
        if checked != CONFORMS || short {
            let refusal = if checked == CONFORMS { (3, 0, None) } else { checked };
            assert_refused(today, bytes, record.lists, refusal);
        } else {
            let expected = (CONFORMS, counts, five_lists(&list[..sum], record.lists));
            assert_eq!(fill(today, bytes, record.lists), expected);
        }
        seen.insert(checked.0);
    }
    assert!([0, 2, 4].into_iter().chain(10..=17).chain([21, 22]).eq(seen));
}

#[test]
fn limits() {
    let mut rng = Rng::new(13);
    for zeros in 0..4 {
        let forms = Forms::all(Form::Padded(zeros));
        let largest = conforming_of_size(&mut rng, KIND, 32_768, &forms);
        let (told, counts, list) = fill_one(largest.today, &largest.container_in(&forms), MOST_POINTS);
        assert_eq!(told, CONFORMS);
        assert_points_of(largest.today, &largest.container_in(&forms), &list, counts);
        let larger = conforming_of_size(&mut rng, KIND, 32_769, &forms);
        for sizes in [[0; 5], [256; 5]] {
            assert_refused(larger.today, &larger.container_in(&forms), sizes, (4, 0, None));
            assert_refused(20260229, &larger.container_in(&forms), sizes, (2, 0, None));
        }
    }
}

// ---------------------------------------------------------------------------------------------
// The named and the made calls

/// How the lists of a call are for this many points.
#[derive(Clone, Copy, Debug, PartialEq, Eq, PartialOrd, Ord)]
enum Sort {
    Just,
    Empty,
    AllShort,
    /// This one alone is too short by an entry, and the others are just long enough.
    OneShort(usize),
    Longer,
    Different,
}

fn sort_of(sizes: [usize; 5], sum: usize) -> Sort {
    let short: Vec<usize> = (0..5).filter(|&which| sizes[which] < sum).collect();
    match short[..] {
        _ if sizes == [sum; 5] => Sort::Just,
        _ if sizes == [0; 5] => Sort::Empty,
        [which] if sizes[which] + 1 == sum && sizes.iter().sum::<usize>() + 1 == 5 * sum => Sort::OneShort(which),
        [_, ..] if sizes == [sizes[0]; 5] => Sort::AllShort,
        [] if sizes == [sizes[0]; 5] => Sort::Longer,
        _ => Sort::Different,
    }
}

fn every_sort() -> impl Iterator<Item = Sort> {
    let others = [Sort::Just, Sort::Empty, Sort::AllShort, Sort::Longer, Sort::Different];
    others.into_iter().chain((0..5).map(Sort::OneShort))
}

/// The calls that fill lists, with the number of points of each container that conforms.
fn list_calls(records: impl Iterator<Item = Record>) -> Vec<(Record, Answer, Option<Counts>)> {
    let lists = records.filter(|record| record.call == Call::Lists);
    let with_counts = |record: Record| {
        let (verdict, counts, _) = fill_one(record.today, &record.bytes, MOST_POINTS);
        let answer = record.answer();
        (record, answer, Some(counts).filter(|_| verdict == CONFORMS))
    };
    lists.map(with_counts).collect()
}

/// Every number that the call has is answered, with every sort of lists, and with counts of every sort.
fn assert_all_is_asked(calls: &[(Record, Answer, Option<Counts>)]) {
    let numbers: BTreeSet<u64> = calls.iter().map(|(_, answer, _)| answer.number).collect();
    assert!([0, 2, 3, 4].into_iter().chain(10..=17).chain([21, 22]).eq(numbers));
    let mut sorts = BTreeSet::new();
    let mut pairs = BTreeSet::new();
    for (record, answer, counts) in
        calls.iter().filter_map(|(record, answer, counts)| Some((record, answer, (*counts)?)))
    {
        let [first, second] = counts;
        let sum = (first + second) as usize;
        let sort = sort_of(record.lists, sum);
        sorts.insert(sort);
        let fits = !matches!(sort, Sort::AllShort | Sort::OneShort(_)) && record.lists.iter().all(|&size| size >= sum);
        assert_eq!(answer.number, if fits { 0 } else { number::ROOM }, "{:?} {}", record.lists, sum);
        if fits {
            pairs.insert([first, second].map(|count| [0, 1, 128].into_iter().find(|&edge| edge == count)));
        }
    }
    assert!(every_sort().all(|sort| sorts.contains(&sort)), "{:?}", sorts);
    for (first, second) in [(0, 0), (0, 1), (1, 0), (1, 1), (0, 128), (128, 0), (128, 128)] {
        assert!(pairs.contains(&[Some(first), Some(second)]), "{} {}", first, second);
    }
}

/// The least and the largest of each number are among the points.
fn assert_ends_are_there(calls: &[(Record, Answer, Option<Counts>)]) {
    let largest = [2, 16_383, 16_383, 179, 100];
    for (which, end) in largest.into_iter().enumerate() {
        for number in [0, end] {
            let there = |(record, answer, counts): &(Record, Answer, Option<Counts>)| {
                let points = counts.map_or(0, |counts| counts.iter().sum::<u64>() as usize).min(record.lists[which]);
                answer.number == 0 && answer.lists[which][..points].contains(&number)
            };
            assert!(calls.iter().any(there), "{} {}", which, number);
        }
        assert!(calls.iter().all(|(_, answer, _)| answer.lists[which].iter().all(|&number| number <= end)));
    }
}

#[test]
fn named_calls_ask_for_all() {
    let calls = list_calls(named::all().into_iter().flat_map(|(_, cases)| cases).map(|(record, _)| record));
    assert_all_is_asked(&calls);
    assert_ends_are_there(&calls);
}

#[test]
fn calls_at_an_edge_ask_for_all() {
    let calls = list_calls(fingers::records().into_iter());
    assert_all_is_asked(&calls);
    assert_ends_are_there(&calls);
}

#[test]
fn made_calls_ask_for_all() {
    let mut inputs = Inputs::made(14);
    let calls = list_calls((0..100_000).map(|_| inputs.record()));
    assert!(calls.len() > 9_000, "{}", calls.len());
    assert_all_is_asked(&calls);
    assert_ends_are_there(&calls);
    let conforming = calls.iter().filter(|(_, _, counts)| counts.is_some()).count();
    assert!(conforming > calls.len() / 3 && conforming < calls.len() * 3 / 4, "{} of {}", conforming, calls.len());
}

/// Every byte of a small container, with each other value: the points are read or the container is refused, as the check says.
#[test]
fn every_byte() {
    let record = fingers::small_record();
    let mut good = 0;
    for at in 0..record.bytes.len() {
        for byte in 0..=255 {
            let mut bytes = record.bytes.clone();
            bytes[at] = byte;
            let checked = verdict(KIND, record.today, &bytes);
            let (told, counts, list) = fill_one(record.today, &bytes, 3);
            assert_eq!(told, checked);
            if checked == CONFORMS {
                assert_points_of(record.today, &bytes, &list, counts);
                good += 1;
            } else {
                assert_refused(record.today, &bytes, [3; 5], checked);
                assert_refused(record.today, &bytes, [0; 5], checked);
            }
        }
    }
    assert!(good > 3_000, "{}", good);
}
