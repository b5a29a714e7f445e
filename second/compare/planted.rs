//! The comparison is tried itself: faults are planted in calls of every sort, one at a time, and each has to be seen at
//! the byte where it was planted. So are the tags that a mistaken program would name, in calls on every fault of a container or
//! a sheet, the places that one would give which takes every length for one in fewest bytes, and the numbers of one that judges a
//! printed date, a facial or an iris record by another rule, or that still answers 8 to a report. So are the counts and the
//! entries of one that takes points apart wrongly, what one answers that looks for a signer elsewhere, and the lines and states of
//! one that goes through a folder wrongly. So are the numbers of one that takes a smeared FASC-N for a good one, and what one answers
//! to many that mixes them up. 8 and 9 are planted on both sides too, where nothing differs, and so are FASC-N that conform in the
//! sweep of smears. And readers that are wrong are compared on many strings.

use crate::folder::difference;
use crate::trial::{call_text, native, Fault, Sort, Stretch, Trial, Wrong, LISTS};
use second::batch::{Answer, Call, Record};
use second::card::{kind_of, length_at, walk};
use second::generate::{fewest, Inputs, Rng};
use second::points::MOST_POINTS;
use second::{dates, faces, faults, fingers, folders, irises, lengths, longest, pairs, points};
use second::{number, tag_number, Point, NO_TAG};
use std::collections::BTreeMap;
use std::ops::Range;

mod folder;
mod signer;
mod smears;
mod strings;

/// So many of the made calls of each sort.
const CALLS: usize = 300;

/// So many faults that went unseen are shown.
const SHOWN: usize = 5;

/// Faults are planted in each of these.
const STRETCHES: [&str; 25] = [
    "number",
    "place",
    "tag",
    "short",
    "which",
    "offset",
    "length",
    "part",
    "numbers",
    "list",
    "room",
    "types",
    "xs",
    "ys",
    "angles",
    "qualities",
    "first",
    "second",
    "input",
    "chuid",
    "state",
    "good",
    "agreement",
    "fascn",
    "guard",
];

/// A fault, in words too, and what has to be seen of it.
type Planted = (&'static str, Fault, Wrong);

/// The first, a middle and the last byte.
fn some_bytes(range: &Range<usize>) -> Vec<usize> {
    let mut some = vec![range.start, range.start + range.len() / 2, range.end - 1];
    some.dedup();
    some
}

/// The faults of the answer that can be planted in a stretch.
fn faults_after(stretch: &Stretch, rng: &mut Rng) -> Vec<Planted> {
    let changed = |at| ("changed", Fault::Changed(at), Wrong::Answer(at));
    let expected = |at| ("another expected", Fault::Expected(at), Wrong::Answer(at));
    let range = &stretch.range;
    match (stretch.sort, stretch.name) {
        (Sort::Guard, _) => vec![changed(rng.size(range.start, range.end - 1))],
        (Sort::Input, _) => some_bytes(range).into_iter().map(changed).collect(),
        // a part is fetched after the call, so that a change of it before would be undone
        (Sort::Lent, "part") => some_bytes(range).into_iter().map(expected).collect(),
        (Sort::Lent | Sort::Held, _) => {
            some_bytes(range).into_iter().flat_map(|at| [changed(at), expected(at)]).collect()
        }
        // it is not compared
        (Sort::Kept, _) => Vec::new(),
    }
}

/// The faults of the filling.
fn faults_before(stretch: &Stretch) -> Vec<Planted> {
    let planted = |how, fault: fn(Range<usize>) -> Fault, range: Range<usize>| {
        (how, fault(range.clone()), Wrong::Filling(range.start))
    };
    let whole = stretch.range.clone();
    match stretch.sort {
        Sort::Input => Vec::new(),
        Sort::Held | Sort::Kept => {
            let disturbed = |at| ("another before", Fault::Disturbed(at), Wrong::Filling(at));
            some_bytes(&whole).into_iter().map(disturbed).collect()
        }
        Sort::Guard => vec![planted("zeros before", Fault::NoGuard, whole)],
        Sort::Lent => {
            let bytes = some_bytes(&whole).into_iter().map(|at| at..at + 1);
            let both = |range: Range<usize>| {
                [
                    planted("zeros before", Fault::Zeros, range.clone()),
                    planted("expected before", Fault::Foreseen, range),
                ]
            };
            bytes.chain([whole]).flat_map(both).collect()
        }
    }
}

/// The numbers that no call answers, on both sides.
fn faults_of_both(stretch: &Stretch) -> Vec<Planted> {
    let both = |how, number| (how, Fault::Shared(stretch.range.clone(), number), Wrong::Unused(stretch.range.start));
    match stretch.name {
        "number" | "short" => vec![both("8 on both sides", 8), both("9 on both sides", 9)],
        _ => Vec::new(),
    }
}

/// The mistakes that are made in a number that is lent, each with the name of that. Those about a signer are [`signer::MISTAKES`],
/// those about a folder [`folder::MISTAKES`], those about a FASC-N [`smears::MISTAKES`], and those about many [`strings::MISTAKES`].
const MISTAKES: [(&str, &str); 59] = [
    ("number", "16 for no date"),
    ("number", "23 for no date"),
    ("number", "19 for a length"),
    ("number", "0 for no record"),
    ("number", "21 for no record"),
    ("number", "22 for no record"),
    ("number", "26 for no record"),
    ("number", "26 for a header"),
    ("number", "27 for a header"),
    ("number", "8 for a report"),
    ("number", "8 for a small room"),
    ("number", "8 for a large container"),
    ("number", "0 for a short list"),
    ("number", "3 before the check"),
    ("number", "3 for a list that is just long enough"),
    ("number", "8 on both sides"),
    ("number", "9 on both sides"),
    ("short", "8 on both sides"),
    ("short", "9 on both sides"),
    ("tag", "0 for none"),
    ("tag", "none for 00"),
    ("tag", "none for a tag"),
    ("tag", "the outer tag"),
    ("tag", "the missing row's"),
    ("tag", "the missing row's at the end"),
    ("tag", "the element's before"),
    ("tag", "one byte of two"),
    ("tag", "two bytes for one"),
    ("tag", "the element's that is asked for"),
    ("place", "as in fewest bytes"),
    ("offset", "as in fewest bytes"),
    ("first", "the other view's"),
    ("first", "of both views"),
    ("first", "beside a refusal"),
    ("second", "the other view's"),
    ("second", "of both views"),
    ("second", "beside a refusal"),
    ("types", "the second view first"),
    ("types", "not zero behind the last"),
    ("types", "left by a refusal"),
    ("xs", "the second view first"),
    ("xs", "not zero behind the last"),
    ("xs", "left by a refusal"),
    ("ys", "the second view first"),
    ("ys", "not zero behind the last"),
    ("ys", "left by a refusal"),
    ("angles", "the second view first"),
    ("angles", "not zero behind the last"),
    ("angles", "left by a refusal"),
    ("qualities", "the second view first"),
    ("qualities", "not zero behind the last"),
    ("qualities", "left by a refusal"),
    ("types", "as bits of the byte"),
    ("xs", "with the type"),
    ("xs", "y"),
    ("ys", "x"),
    ("angles", "in degrees"),
    ("angles", "the quality"),
    ("qualities", "the angle"),
];

/// The tag of the last element before the first fault of a container, or before the end; and that of the mandatory row which has
/// to come next. In a sheet that is the row before the one that the verdict names.
fn around_the_fault(record: &Record, expected: &Answer) -> (Option<u16>, Option<u16>) {
    let table = kind_of(record.kind).expect("a kind");
    let mut next = 0;
    if record.call == Call::Write {
        next = table.rows.iter().position(|row| Some(row.tag) == expected.tag).unwrap_or(0);
    } else {
        // it is the fault that ends the walk
        let _ = walk(table, record.today, &record.bytes, |row, _, _| next = row + 1);
    }
    let before = next.checked_sub(1).map(|row| table.rows[row].tag);
    (before, table.rows[next..].iter().find(|row| !row.optional).map(|row| row.tag))
}

/// The tags that a mistaken program would name instead of the right one, each with its mistake.
fn mistaken_tags(record: &Record, expected: &Answer) -> Vec<(&'static str, u64)> {
    let right = tag_number(expected.tag);
    let mut out = match expected.tag {
        None => vec![("0 for none", 0)],
        Some(0) => vec![("none for 00", NO_TAG)],
        Some(0x5F2F) => vec![("none for a tag", NO_TAG), ("one byte of two", 0x5F), ("one byte of two", 0x2F)],
        Some(_) => vec![("none for a tag", NO_TAG)],
    };
    if record.call == Call::View {
        out.push(("the element's that is asked for", record.element));
    }
    let (before, missing) = around_the_fault(record, expected);
    let mut add = |how, tag: Option<u16>| out.extend(tag.map(|tag| (how, u64::from(tag))));
    let from_place = record.bytes.get(expected.place as usize..).unwrap_or_default();
    match (expected.number, expected.tag) {
        (10..=12, None) => add("the outer tag", record.bytes.first().map(|&byte| u16::from(byte))),
        (13, _) if from_place.len() > 1 => {
            add("two bytes for one", Some(u16::from_be_bytes([from_place[0], from_place[1]])))
        }
        (15, Some(_)) => add("the missing row's", missing),
        (15, None) => add("the missing row's at the end", missing),
        _ => (),
    }
    add("the element's before", before);
    // where a mistake makes no difference it is none
    out.retain(|&(_, tag)| tag != right);
    out
}

/// How many bytes the lengths before this offset of a container take beyond the fewest.
fn spare_before(record: &Record, offset: u64) -> u64 {
    let spare = |length: usize, taken: usize| (taken - 1 - fewest(length)) as u64;
    let (content, taken) = match length_at(record.bytes.get(1..).unwrap_or_default()) {
        Some(length) if offset > 0 => length,
        _ => return 0,
    };
    let (mut out, mut end) = (spare(content, taken), 1 + taken);
    let table = kind_of(record.kind).expect("a kind");
    let _ = walk(table, record.today, &record.bytes, |row, start, next| {
        if start as u64 <= offset {
            let tag = if table.rows[row].tag > 0xFF { 2 } else { 1 };
            out += spare(next - start, start - end - tag);
        }
        end = next;
    });
    out
}

/// The place or the offset that a program would give which takes every length for one in fewest bytes.
fn mistaken_places(record: &Record, expected: &Answer) -> Vec<(&'static str, u64)> {
    if !matches!(record.call, Call::Check | Call::View | Call::Lists) {
        return Vec::new();
    }
    let both = [("place", expected.place), ("offset", expected.offset)];
    let mistaken = both.map(|(name, right)| (name, right - spare_before(record, right)));
    // where no length before it has a longer form than it needs, there is no mistake
    mistaken.into_iter().zip(both).filter(|(mistaken, right)| mistaken != right).map(|(mistaken, _)| mistaken).collect()
}

/// The number of a program that still has the one which was withdrawn: for a report that is written, for a room that is too
/// small and for a container that is too large.
fn withdrawn_number(expected: &Answer) -> Vec<(&'static str, u64)> {
    match expected.number {
        0 => vec![("8 for a report", 8)],
        3 => vec![("8 for a small room", 8)],
        4 => vec![("8 for a large container", 8)],
        _ => Vec::new(),
    }
}

/// The numbers of a program that asks for eight characters of a printed date, takes it for a text, or asks for its length later; of
/// one that does not look at a facial or an iris record, takes it for a part of the header or for that of another kind, or asks
/// for it first; and of one that takes any FASC-N for a good one.
fn mistaken_numbers(record: &Record, expected: &Answer) -> Vec<(&'static str, u64)> {
    match record.call {
        Call::Report => return withdrawn_number(expected),
        Call::Lists => return mistaken_for_lists(record, expected),
        _ => (),
    }
    let mut out = match (record.kind, expected.tag, expected.number) {
        (4, Some(0x04), 19) => vec![("16 for no date", 16), ("23 for no date", 23)],
        (4, Some(0x04), 16) => vec![("19 for a length", 19)],
        (7, Some(0xBC), 26) => vec![("0 for no record", 0), ("21 for no record", 21), ("22 for no record", 22)],
        (7, Some(0xBC), 17 | 21) => vec![("26 for a header", 26)],
        (12, Some(0xBC), 27) => vec![("0 for no record", 0), ("21 for no record", 21), ("26 for no record", 26)],
        (12, Some(0xBC), 17 | 21) => vec![("27 for a header", 27)],
        _ => Vec::new(),
    };
    if expected.number == number::FASCN {
        out.push(smears::TAKEN);
    }
    out
}

/// The numbers of a program that does not look at a list's length, looks at it first, or asks for an entry more than it needs.
fn mistaken_for_lists(record: &Record, expected: &Answer) -> Vec<(&'static str, u64)> {
    let just = expected.counts.iter().sum::<u64>() as usize;
    match expected.number {
        0 if record.lists.contains(&just) => vec![("3 for a list that is just long enough", 3)],
        0 => Vec::new(),
        3 => vec![("0 for a short list", 0)],
        _ if record.lists.contains(&0) => vec![("3 before the check", 3)],
        _ => Vec::new(),
    }
}

/// What a mistaken program would answer instead of what is right: from this byte on of the stretch of this name.
struct Mistake {
    name: &'static str,
    how: &'static str,
    from: usize,
    wrong: Vec<u8>,
    right: Vec<u8>,
}

impl Mistake {
    /// Another number, at this entry of a list, or at the first where it is lent alone.
    fn number(name: &'static str, how: &'static str, entry: usize, number: u64, right: u64) -> Mistake {
        Mistake { name, how, from: 8 * entry, wrong: native(&[number]), right: native(&[right]) }
    }
}

/// The counts and the points of a container that conforms, whether or not the lists of the call hold them.
fn points_of(record: &Record) -> ([u64; 2], Vec<Point>) {
    let mut list = [Point::default(); MOST_POINTS];
    let (_, counts) = points::points(record.today, &record.bytes, &mut list);
    (counts, list[..counts.iter().sum::<u64>() as usize].to_vec())
}

/// The counts of a program that takes one view for the other, or both for one, or that gives them beside a refusal.
fn mistaken_counts(record: &Record, expected: &Answer) -> Vec<Mistake> {
    let (counts, _) = points_of(record);
    let sum = counts[0] + counts[1];
    let mut out = Vec::new();
    for (i, name) in ["first", "second"].into_iter().enumerate() {
        let right = expected.counts[i];
        let mistake = |how, number| Mistake::number(name, how, 0, number, right);
        if expected.number == 0 {
            out.extend([mistake("the other view's", counts[1 - i]), mistake("of both views", sum)]);
        } else {
            out.push(mistake("beside a refusal", counts[i]));
        }
    }
    out
}

/// What is wrong with a point's number in one of the five lists, in that order.
fn mistaken_numbers_of(point: &Point) -> [Vec<(&'static str, u64)>; 5] {
    let Point { sort, x, y, angle, quality } = *point;
    [
        vec![("as bits of the byte", sort << 6)],
        vec![("with the type", sort << 14 | x), ("y", y)],
        vec![("x", x)],
        vec![("in degrees", 2 * angle), ("the quality", quality)],
        vec![("the angle", angle)],
    ]
}

fn numbers_of(point: &Point) -> [u64; 5] {
    [point.sort, point.x, point.y, point.angle, point.quality]
}

/// The entries of a program that takes the last point apart wrongly or the views in the wrong order, leaves a point behind the
/// last one, or leaves the first where the lists are too short.
fn mistaken_entries(record: &Record, expected: &Answer) -> Vec<Mistake> {
    let (counts, points) = points_of(record);
    let last = match points.last() {
        Some(last) => last,
        None => return Vec::new(),
    };
    let mut out = Vec::new();
    for (i, name) in LISTS.into_iter().enumerate() {
        let list = &expected.lists[i];
        let mut add = |how, entry: usize, number| {
            out.extend(list.get(entry).map(|&right| Mistake::number(name, how, entry, number, right)))
        };
        if expected.number == 0 {
            for &(how, number) in &mistaken_numbers_of(last)[i] {
                add(how, points.len() - 1, number);
            }
            if let Some(point) = points.get(counts[0] as usize) {
                add("the second view first", 0, numbers_of(point)[i]);
            }
            add("not zero behind the last", points.len(), numbers_of(last)[i]);
        } else {
            add("left by a refusal", 0, numbers_of(&points[0])[i]);
        }
    }
    out
}

/// All mistakes in a call: numbers, tags, places and offsets, counts and entries, and what is wrong with a signer, a folder, a
/// FASC-N alone or many.
fn mistakes(record: &Record, expected: &Answer) -> Vec<Mistake> {
    let mut out = match record.call {
        Call::Signer => signer::mistakes(record, expected),
        Call::Folder | Call::Row | Call::Last => folder::mistakes(record, expected),
        Call::FascnDecode => smears::mistakes(expected),
        Call::FascnDecodeByTable => strings::mistakes(record, expected),
        _ => mistakes_of_verdict(record, expected),
    };
    if record.call == Call::Lists {
        out.extend(mistaken_counts(record, expected));
        out.extend(mistaken_entries(record, expected));
    }
    // where a mistake makes no difference it is none
    out.retain(|mistake| mistake.wrong != mistake.right);
    out
}

/// Those in the number, the tag, the place and the offset of a call on one container.
fn mistakes_of_verdict(record: &Record, expected: &Answer) -> Vec<Mistake> {
    let mut out = Vec::new();
    let mut add = |name, how, number, right| out.push(Mistake::number(name, how, 0, number, right));
    for (how, number) in mistaken_numbers(record, expected) {
        add("number", how, number, expected.number);
    }
    for (how, tag) in mistaken_tags(record, expected) {
        add("tag", how, tag, tag_number(expected.tag));
    }
    for (name, place) in mistaken_places(record, expected) {
        add(name, "as in fewest bytes", place, if name == "place" { expected.place } else { expected.offset });
    }
    out
}

/// Whether every other stretch stands between guards of at least 64 bytes.
fn guarded(stretches: &[Stretch]) -> bool {
    let mut guards = stretches.iter().step_by(2);
    let mut others = stretches.iter().skip(1).step_by(2);
    stretches.len() % 2 == 1
        && guards.all(|stretch| stretch.sort == Sort::Guard && stretch.range.len() >= 64)
        && others.all(|stretch| stretch.sort != Sort::Guard)
}

/// Made calls, so many of each sort.
fn calls(seed: u64) -> Vec<Record> {
    let mut inputs = Inputs::made(seed);
    let mut counts: BTreeMap<Call, usize> = BTreeMap::new();
    let mut out = Vec::new();
    while out.len() < CALLS * Call::ALL.len() {
        let record = inputs.record();
        let count = counts.entry(record.call).or_default();
        if *count < CALLS {
            *count += 1;
            out.push(record);
        }
    }
    out
}

struct Trying {
    trial: Trial,
    rng: Rng,
    /// How many faults were planted, by fault and stretch.
    planted: BTreeMap<(&'static str, &'static str), usize>,
    unseen: usize,
}

impl Trying {
    /// Plants each fault of a call. Before that nothing is wrong, or it is told.
    fn plant(&mut self, record: &Record) -> Result<(), Wrong> {
        let expected = record.answer();
        self.trial.run(record, &expected, &Fault::None)?;
        assert!(guarded(self.trial.stretches()), "a guard is missing: {}", call_text(record));
        for stretch in self.trial.stretches().to_vec().iter().filter(|stretch| !stretch.range.is_empty()) {
            for planted in
                [faults_after(stretch, &mut self.rng), faults_before(stretch), faults_of_both(stretch)].concat()
            {
                self.expect_seen(record, &expected, stretch.name, planted);
            }
        }
        Ok(())
    }

    /// Plants each mistake in a call. Before that nothing is wrong, or it is told.
    fn plant_mistakes(&mut self, record: &Record) -> Result<(), Wrong> {
        let expected = record.answer();
        self.trial.run(record, &expected, &Fault::None)?;
        for mistake in mistakes(record, &expected) {
            self.plant_mistake(record, &expected, &mistake);
        }
        for (how, text) in folder::mistaken_summaries(record, &expected) {
            self.plant_summary(record, how, Answer { text, ..expected.clone() });
        }
        Ok(())
    }

    /// Plants bytes in the place of the right ones, where the call is lent a stretch of that name.
    fn plant_mistake(&mut self, record: &Record, expected: &Answer, mistake: &Mistake) {
        let Mistake { name, how, from, wrong, right } = mistake;
        let stretch = self.trial.stretches().iter().find(|stretch| stretch.name == *name);
        if let Some(start) = stretch.map(|stretch| stretch.range.start + from) {
            let at = start + wrong.iter().zip(right).take_while(|(wrong, right)| wrong == right).count();
            let fault = Fault::Mistaken(start, wrong.clone());
            self.expect_seen(record, expected, name, (how, fault, Wrong::Answer(at)));
        }
    }

    /// Plants another summary of a folder than the library gives.
    fn plant_summary(&mut self, record: &Record, how: &'static str, other: Answer) {
        *self.planted.entry((how, "summary")).or_default() += 1;
        if difference(record, &other).is_none() {
            self.went_unseen(record, "summary", how);
        }
    }

    /// Plants one fault in the stretch of this name.
    fn expect_seen(&mut self, record: &Record, expected: &Answer, name: &'static str, planted: Planted) {
        let (how, fault, wrong) = planted;
        *self.planted.entry((how, name)).or_default() += 1;
        if self.trial.run(record, expected, &fault) != Err(wrong) {
            self.went_unseen(record, name, how);
        }
    }

    fn went_unseen(&mut self, record: &Record, name: &str, how: &str) {
        self.unseen += 1;
        if self.unseen <= SHOWN {
            println!("not seen where it is: {}, {}\n  {}", name, how, call_text(record));
        }
    }

    /// Says what was planted; gives whether all was seen, and something was planted everywhere.
    fn judge(&self) -> bool {
        for what in ["changed", "another expected", "zeros before", "expected before", "another before"] {
            let planted = |name| self.planted.get(&(what, name)).copied().unwrap_or_default();
            let texts: Vec<String> = STRETCHES.iter().map(|&name| format!("{}:{}", name, planted(name))).collect();
            println!("  {}: {}", what, texts.join(" "));
        }
        let mistaken = |name, how| self.planted.get(&(how, name)).copied().unwrap_or_default();
        let of_calls = [&signer::MISTAKES[..], &folder::MISTAKES, &smears::MISTAKES, &strings::MISTAKES].concat();
        let mistakes = [&MISTAKES[..], &of_calls].concat();
        let numbers = ["number", "short", "tag", "place", "which", "offset", "length", "first", "second", "numbers"];
        let others = ["list", "room", "good", "agreement", "fascn", "summary"];
        for which in numbers.into_iter().chain(LISTS).chain(others) {
            let here = mistakes.iter().filter(|(name, _)| *name == which);
            let texts: Vec<String> = here.map(|&(name, how)| format!("{}: {}", how, mistaken(name, how))).collect();
            println!("  another {}, {}", which, texts.join(", "));
        }
        println!("{} planted faults, {} unseen", self.planted.values().sum::<usize>(), self.unseen);
        self.unseen == 0
            && STRETCHES.iter().all(|&name| self.planted.keys().any(|planted| planted.1 == name))
            && mistakes.iter().all(|&(name, how)| mistaken(name, how) > 0)
    }
}

/// Plants the faults and gives whether all were seen.
pub fn all_seen(seed: u64) -> bool {
    let mut trying = Trying { trial: Trial::new(!seed), rng: Rng::new(seed), planted: BTreeMap::new(), unseen: 0 };
    let edges = [
        dates::records,
        faces::records,
        fingers::records,
        irises::records,
        faults::records,
        lengths::records,
        longest::records,
        pairs::records,
        folders::records,
        second::smears::records,
        second::strings::records,
    ];
    let with_faults: Vec<Record> = edges.iter().flat_map(|records| records()).collect();
    let made = calls(seed);
    let planting = made.iter().map(|record| (record, true)).chain(with_faults.iter().map(|record| (record, false)));
    for (record, everywhere) in planting {
        let outcome = if everywhere { trying.plant(record) } else { trying.plant_mistakes(record) };
        if let Err(wrong) = outcome {
            println!("without a planted fault: {}", trying.trial.tell(record, wrong));
            return false;
        }
    }
    println!(
        "faults planted in {} calls of every sort, and mistakes in {} on dates, faces, fingers, irises, faults, longer forms, \
         long reports, signers, folders, smears and many FASC-N, one at a time:",
        made.len(),
        with_faults.len()
    );
    trying.judge() && smears::are_judged(seed) && strings::are_judged()
}
