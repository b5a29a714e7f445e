//! Containers with fingers for the call that fills lists with their points: good ones with few points and with many, points at
//! the ends of their ranges and behind them, damaged containers and such of other kinds. And lists that are just long enough, too
//! short or longer, all alike or each for itself.

use crate::batch::{Call, Record, LIST_MAX};
use crate::generate::{any_container, any_fill, any_kind, conforming_of_size, minutiae, plain};
use crate::generate::{put_length, signed, today};
use crate::generate::{Card, Form, Forms, Rng, EXAMPLE_DAY, LONGEST_FORM};
use crate::points::{Point, KIND, MOST_POINTS};
use crate::records::{orders, with_bytes, with_each_byte};
use crate::values::MINUTIA_BYTES;
use crate::values::{FINGERS, HEADER_BYTES, MINUTIAE_FORMAT, MINUTIAE_HEADER_BYTES, MINUTIAE_MOST, MINUTIAE_VERSION};
use crate::{samples, CONTAINER_MAX};

// ---------------------------------------------------------------------------------------------
// Records

/// The six bytes of a point, also of one with a number that breaks a rule, as far as its field has room for that.
pub fn six_bytes(point: &Point) -> [u8; MINUTIA_BYTES] {
    let [type_and_x, x] = ((point.sort << 14 | point.x) as u16).to_be_bytes();
    let [zero_and_y, y] = (point.y as u16).to_be_bytes();
    [type_and_x, x, zero_and_y, y, point.angle as u8, point.quality as u8]
}

/// A minutiae record with the points of both views. It conforms if each point does, and each view has at most 128.
pub fn minutiae_record(views: [&[Point]; 2]) -> Vec<u8> {
    let length = MINUTIAE_HEADER_BYTES + 12 + MINUTIA_BYTES * (views[0].len() + views[1].len());
    let mut out = [MINUTIAE_FORMAT, MINUTIAE_VERSION].concat();
    out.extend((length as u16).to_be_bytes());
    out.extend([0xEE; 10]);
    out.extend([0, 197, 0, 197, 2, 0]);
    for (view, position) in views.into_iter().zip([2, 7]) {
        out.extend([position, 0, 40, view.len() as u8]);
        out.extend(view.iter().flat_map(six_bytes));
        out.extend([0, 0]);
    }
    out
}

/// A card with the points of both views, and with a byte of signature.
pub fn card_of(views: [&[Point]; 2]) -> Card {
    samples::fingers_with(100, &minutiae_record(views), 1)
}

/// So many points, of which no two are the same and no two neighbours have a number in common.
pub fn some_points(count: usize) -> Vec<Point> {
    let point = |i: u64| Point {
        sort: (i + 1) % 3,
        x: (i * 61 + 5) % 16_384,
        y: (i * 127 + 16_000) % 16_384,
        angle: (i * 7 + 1) % 180,
        quality: (i * 3 + 2) % 101,
    };
    (0..count as u64).map(point).collect()
}

/// A card with so many of them in each view.
fn card_with(counts: [usize; 2]) -> Card {
    let points = some_points(counts[0] + counts[1]);
    let (first, second) = points.split_at(counts[0]);
    card_of([first, second])
}

/// How many points the value of BC says that both views have, whether or not it conforms.
fn points_said(value: &[u8]) -> usize {
    let count = |at: usize| value.get(HEADER_BYTES + at).map_or(0, |&count| usize::from(count));
    let first = count(MINUTIAE_HEADER_BYTES + 3);
    first + count(MINUTIAE_HEADER_BYTES + 6 + MINUTIA_BYTES * first + 3)
}

fn points_in(card: &Card) -> usize {
    card.rows[0].as_ref().map_or(0, |value| points_said(value))
}

// ---------------------------------------------------------------------------------------------
// Made calls

/// A container with fingers, as good or as bad as any, and rarely another; and lists that are mostly near what it needs.
pub fn record(rng: &mut Rng) -> Record {
    let (card, bytes) = match rng.below(80) {
        0 => of_about_the_most_bytes(rng),
        1..=5 => {
            let kind = any_kind(rng);
            any_container(rng, kind)
        }
        6..=35 => any_container(rng, KIND),
        _ => with_many_points(rng),
    };
    let lists = any_lists(rng, points_in(&card));
    Record { today: card.today, lists, fill: any_fill(rng), ..plain(Call::Lists, KIND, bytes) }
}

/// No points at all, points in one view alone, the most of them, and any number.
fn any_counts(rng: &mut Rng) -> [usize; 2] {
    let count = match rng.below(4) {
        0 => rng.size(1, 4),
        1 => rng.size(MINUTIAE_MOST - 1, MINUTIAE_MOST),
        _ => rng.size(1, MINUTIAE_MOST),
    };
    match rng.below(10) {
        0 => [0, 0],
        1 | 2 => [0, count],
        3 | 4 => [count, 0],
        5 => [MINUTIAE_MOST; 2],
        _ => [count, rng.size(0, MINUTIAE_MOST)],
    }
}

/// A container with such counts. One in three has a point that breaks a rule, or is at the edge of it, and one in twelve has a
/// point too many.
fn with_many_points(rng: &mut Rng) -> (Card, Vec<u8>) {
    let mut counts = any_counts(rng);
    if rng.one_in(12) {
        counts[rng.size(0, 1)] = MINUTIAE_MOST + 1;
    }
    let record = minutiae(rng, counts);
    let mut value = signed(rng, &FINGERS, &record);
    if rng.one_in(3) {
        change_point(rng, &mut value, counts);
    }
    let card = Card { kind: KIND, today: today(rng), rows: vec![Some(value), Some(Vec::new())] };
    let forms = if rng.one_in(3) { Forms::mixed(rng) } else { Forms::all(Form::Fewest) };
    let bytes = card.container_in(&forms);
    (card, bytes)
}

/// Gives one number of a point another value, at an edge of its rule: mostly that of the first or of the last point of a view.
fn change_point(rng: &mut Rng, value: &mut [u8], counts: [usize; 2]) {
    let view = rng.size(0, 1);
    if counts[view] == 0 {
        return;
    }
    let last = counts[view] - 1;
    let any = rng.size(0, last);
    let which = rng.pick(&[0, last, any]);
    // each view has four bytes in front, and the first two behind
    let before = MINUTIAE_HEADER_BYTES + 4 + view * (MINUTIA_BYTES * counts[0] + 6);
    let at = HEADER_BYTES + before + MINUTIA_BYTES * which;
    match rng.below(5) {
        0 | 1 => value[at] = value[at] & 0x3F | rng.pick(&[0x80, 0xC0]),
        2 => value[at + 2] = rng.pick(&[0x00, 0x3F, 0x40, 0x80, 0xC0, 0xFF]),
        3 => value[at + 4] = rng.pick(&[0, 179, 180, 181, 255]),
        _ => value[at + 5] = rng.pick(&[0, 100, 101, 128, 255]),
    }
}

/// A container of as many bytes as there may be, of one more, or of about as many.
fn of_about_the_most_bytes(rng: &mut Rng) -> (Card, Vec<u8>) {
    let near = rng.size(CONTAINER_MAX - 300, CONTAINER_MAX + 300);
    let total = rng.pick(&[CONTAINER_MAX, CONTAINER_MAX + 1, near]);
    let forms = if rng.one_in(2) { Forms::mixed(rng) } else { Forms::all(Form::Fewest) };
    let card = conforming_of_size(rng, KIND, total, &forms);
    let bytes = card.container_in(&forms);
    (card, bytes)
}

/// Lists for so many points: just long enough, shorter or longer; all alike, or one of them for itself, or each.
fn any_lists(rng: &mut Rng, points: usize) -> [usize; 5] {
    let mut lists = [points; 5];
    match rng.below(20) {
        0..=5 => (),
        6 => lists = [points.saturating_sub(1); 5],
        7 => lists = [points + 1; 5],
        8 => lists = [0; 5],
        9..=12 => lists[rng.size(0, 4)] = points.saturating_sub(1),
        13 => lists[rng.size(0, 4)] = rng.size(0, points),
        14 => lists[rng.size(0, 4)] = points + rng.size(1, 20),
        15 | 16 => lists = lists.map(|points| points + rng.size(0, 9)),
        17 => lists = lists.map(|points| (points + rng.size(0, 2)).saturating_sub(1)),
        18 => lists = [rng.pick(&[MOST_POINTS - 1, MOST_POINTS, MOST_POINTS + 1]); 5],
        _ => {
            let long = rng.size(points, LIST_MAX);
            lists = lists.map(|points| rng.pick(&[points, MOST_POINTS, long]));
        }
    }
    lists
}

// ---------------------------------------------------------------------------------------------
// Calls at an edge

/// A call with lists of these lengths, which held something before.
fn call(bytes: Vec<u8>, lists: [usize; 5]) -> Record {
    Record { lists, fill: 0xA5, ..plain(Call::Lists, KIND, bytes) }
}

/// The call on each of these with lists as long as its points need, and with one that is too short by an entry.
fn just_and_too_short(containers: impl IntoIterator<Item = Vec<u8>>, points: usize) -> Vec<Record> {
    let short = |i: usize| {
        let mut lists = [points; 5];
        lists[i % 5] = points - 1;
        lists
    };
    let both = |(i, bytes): (usize, Vec<u8>)| [call(bytes.clone(), [points; 5]), call(bytes, short(i))];
    containers.into_iter().enumerate().flat_map(both).collect()
}

/// The call on a small container with points in both views.
pub fn small_record() -> Record {
    call(card_with([2, 1]).container(), [3; 5])
}

pub fn records() -> Vec<Record> {
    [
        counts_and_lists(),
        numbers_of_points(),
        too_many_points(),
        bytes_and_ends(),
        other_elements(),
        longer_forms(),
        several_faults(),
        other_kinds(),
        days(),
        largest(),
    ]
    .concat()
}

/// No points, a few and the most, with lists of every sort.
fn counts_and_lists() -> Vec<Record> {
    let counts = [[0, 0], [0, 1], [1, 0], [1, 1], [2, 1], [1, 2], [3, 5], [0, 128], [128, 0], [127, 128], [128, 128]];
    let of = |counts: [usize; 2]| {
        let bytes = card_with(counts).container();
        lists_around(counts[0] + counts[1]).into_iter().map(move |lists| call(bytes.clone(), lists))
    };
    counts.into_iter().flat_map(of).collect()
}

/// Lists for so many points: of one length, and with one of them shorter or longer than the others.
fn lists_around(points: usize) -> Vec<[usize; 5]> {
    let less = points.saturating_sub(1);
    let mut out: Vec<_> =
        [points, less, points + 1, 0, 1, MOST_POINTS, MOST_POINTS + 1, LIST_MAX].map(|size| [size; 5]).to_vec();
    for which in 0..5 {
        for (size, others) in [
            (less, points),
            (0, points),
            (points + 1, points),
            (less, LIST_MAX),
            (points, points + 7),
            (LIST_MAX, points),
            (LIST_MAX, less),
        ] {
            let mut lists = [others; 5];
            lists[which] = size;
            out.push(lists);
        }
    }
    out.push([0, 1, 2, 3, 4].map(|more| points + more));
    out.push([4, 3, 2, 1, 0].map(|more| points + more));
    out
}

/// Each number of a point at the ends of its range and behind them, in each point of both views.
fn numbers_of_points() -> Vec<Record> {
    let mut containers = Vec::new();
    for which in 0..5 {
        let with = |change: fn(&mut Point, u64), number: u64| {
            let mut points = some_points(5);
            change(&mut points[which], number);
            card_of([&points[..3], &points[3..]]).container()
        };
        containers.extend([0, 1, 2, 3].map(|sort| with(|point, sort| point.sort = sort, sort)));
        for number in [0, 1, 0xFF, 0x100, 0x1FFF, 0x2000, 0x3FFE, 0x3FFF] {
            containers.push(with(|point, x| point.x = x, number));
            containers.push(with(|point, y| point.y = y, number));
        }
        containers.extend([0x4000, 0x8000, 0xC000, 0xFFFF].map(|y| with(|point, y| point.y = y, y)));
        containers
            .extend([0, 1, 127, 128, 178, 179, 180, 181, 255].map(|angle| with(|point, a| point.angle = a, angle)));
        containers.extend([0, 1, 99, 100, 101, 128, 255].map(|quality| with(|point, q| point.quality = q, quality)));
    }
    just_and_too_short(containers, 5)
}

/// More points in a view than there may be, and counts that are not those of the points.
fn too_many_points() -> Vec<Record> {
    let mut out = Vec::new();
    for counts in [[129, 0], [0, 129], [128, 129], [129, 128], [255, 0], [0, 255], [256, 0]] {
        let bytes = card_with(counts).container();
        out.extend([0, MOST_POINTS, LIST_MAX].map(|size| call(bytes.clone(), [size; 5])));
    }
    let record = minutiae_record([&some_points(2), &some_points(3)]);
    // the counts of the views, and the length of the record, each alone
    for (at, right) in [(29, 2), (26 + 6 + 12 + 3, 3), (9, record.len() as u8)] {
        for count in [0, right - 1, right + 1, right + 6, 128, 129, 255] {
            let other = with_bytes(record.clone(), at, &[count]);
            out.push(call(samples::fingers_with(100, &other, 1).container(), [5; 5]));
        }
    }
    out
}

/// A small container with each of its bytes changed, and cut off after each.
fn bytes_and_ends() -> Vec<Record> {
    let container = card_with([2, 1]).container();
    let ends = (0..container.len()).map(|end| container[..end].to_vec());
    just_and_too_short(with_each_byte(&container).into_iter().chain(ends), 3)
}

/// BC twice, too short, behind FE, alone or not there at all, and an FE that is not empty.
fn other_elements() -> Vec<Record> {
    let bc = card_with([2, 1]).rows[0].take().unwrap_or_default();
    let element = |tag: u8, value: &[u8]| {
        let mut out = vec![tag];
        put_length(&mut out, value.len(), 0, Form::Fewest);
        out.extend(value);
        out
    };
    let (good, short, end) = (element(0xBC, &bc), element(0xBC, &bc[..HEADER_BYTES - 1]), element(0xFE, &[]));
    let contents: [&[&[u8]]; 7] =
        [&[&good, &good, &end], &[&short, &end], &[&end, &good], &[&good], &[&end], &[], &[&good, &[0xFE, 1, 0]]];
    just_and_too_short(contents.map(|elements| element(0x53, &elements.concat())), 3)
}

/// A good container and one with a broken point, their lengths in every pair of an outer form and one for BC.
fn longer_forms() -> Vec<Record> {
    let good = some_points(3);
    let mut broken = good.clone();
    broken[2].sort = 3;
    let mut containers = Vec::new();
    for (outer, rows) in (0..LONGEST_FORM).flat_map(|outer| (0..LONGEST_FORM).map(move |rows| (outer, rows))) {
        let forms = Forms { outer: Form::Padded(outer), ..Forms::all(Form::Padded(rows)) };
        containers.extend([&good, &broken].map(|points| card_of([&points[..1], &points[1..]]).container_in(&forms)));
    }
    just_and_too_short(containers, 3)
}

/// Faults in the header, in its FASC-N, in the reserved bytes and in the record, each or not.
fn several_faults() -> Vec<Record> {
    let good = some_points(3);
    let mut broken = good.clone();
    broken[0].angle = 180;
    let record = |points: &[Point]| minutiae_record([&points[..2], &points[2..]]);
    let cards = orders(record(&good), &[record(&broken), b"RUBBISH".to_vec()], [100, 101], samples::fingers_with);
    just_and_too_short(cards.iter().map(Card::container), 3)
}

/// The samples, of which a few are fingers.
fn other_kinds() -> Vec<Record> {
    just_and_too_short(samples::all().into_iter().map(|sample| sample.container), 8)
}

/// Days that are none, the first, the last, and one that is right in 32 bits only.
fn days() -> Vec<Record> {
    let days = [0, 1, 10_100, 10_101, 99991231, 99991232, 20230229, 20240229, 100_000_101, u64::MAX];
    let record = small_record();
    let on = |today| [Record { today, ..record.clone() }, Record { today, lists: [2; 5], ..record.clone() }];
    days.into_iter().chain([EXAMPLE_DAY + (1 << 32)]).flat_map(on).collect()
}

/// The largest containers, and such as are too large.
fn largest() -> Vec<Record> {
    let mut rng = Rng::new(CONTAINER_MAX as u64);
    let mut out = Vec::new();
    for zeros in 0..LONGEST_FORM {
        for total in [CONTAINER_MAX - 1, CONTAINER_MAX, CONTAINER_MAX + 1, CONTAINER_MAX + 2] {
            let forms = Forms::all(Form::Padded(zeros));
            let card = conforming_of_size(&mut rng, KIND, total, &forms);
            let record = call(card.container_in(&forms), [points_in(&card); 5]);
            let record = Record { today: card.today, ..record };
            out.extend([Record { lists: [0; 5], ..record.clone() }, record]);
        }
    }
    out
}
