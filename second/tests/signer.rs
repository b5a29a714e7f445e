//! The certificate of who signed a biometric: which item it is, by a reader of another make, in which container it lies, and which
//! calls are refused. And that the made calls ask for all of it.

use second::batch::{Answer, Call, Record};
use second::blocks::{self, signed_data, Block};
use second::card::CONFORMS;
use second::generate::{conforming_on, sweep, Form, Forms, Inputs, Rng, EXAMPLE_DAY, EXAMPLE_FASCN};
use second::pairs::{self, Pair};
use second::samples::{self, with_block, with_fascn, P256, RSA};
use second::trees::{self, Tree};
use second::{named, number, report, signer, view, Verdict, Which};
use std::collections::BTreeSet;
use std::ops::Range;

mod common;
use common::{two_bytes, verdict};

/// How many pairs are made.
const ROUNDS: usize = 3_000;

const KINDS: [u64; 3] = [6, 7, 12];

// ---------------------------------------------------------------------------------------------
// A reader of another make: it turns the bytes into nested items first, and then compares lists of tags

/// An item: its tag, where it begins and ends in the block, where its content begins, and what is inside.
#[derive(Debug)]
struct Node {
    tag: u8,
    all: Range<usize>,
    content: usize,
    inside: Vec<Node>,
}

impl Node {
    fn tags(&self) -> Vec<u8> {
        self.inside.iter().map(|node| node.tag).collect()
    }
}

/// The items from one place of a block to another, at this level.
fn nodes(block: &[u8], from: usize, to: usize, level: usize) -> Option<Vec<Node>> {
    let (mut out, mut at) = (Vec::new(), from);
    while at < to {
        let first = *block[..to].get(at + 1)?;
        if level > 16 || block[at] % 32 == 31 {
            return None;
        }
        let digits = if first < 128 { 0 } else { usize::from(first) - 128 };
        let content = at + 2 + digits;
        if content > to || first == 128 || digits > 3 {
            return None;
        }
        let length = match digits {
            0 => usize::from(first),
            _ => block[at + 2..content].iter().fold(0, |length, &digit| length * 256 + usize::from(digit)),
        };
        // the fewest bytes: one up to 127, then as many as the number needs
        let needed = if length < 128 { 0 } else { digits_of(length) };
        let end = content + length;
        if digits != needed || end > to {
            return None;
        }
        let constructed = block[at] / 32 % 2 == 1;
        let inside = if constructed { nodes(block, content, end, level + 1)? } else { Vec::new() };
        out.push(Node { tag: block[at], all: at..end, content, inside });
        at = end;
    }
    Some(out)
}

/// How many digits a number has to the base 256.
fn digits_of(number: usize) -> usize {
    (0..8).filter(|place| number >> (8 * place) > 0).count()
}

/// What a block is by that reader.
#[derive(Debug, PartialEq, Eq)]
enum Read {
    NoSignedData,
    Empty,
    /// Where the certificate stands in the block.
    Holding(Range<usize>),
}

const TYPE: [u8; 9] = [0x2A, 0x86, 0x48, 0x86, 0xF7, 0x0D, 0x01, 0x07, 0x02];

/// The tags that a SignedData may have.
const SHAPES: [&[u8]; 4] = [
    &[0x02, 0x31, 0x30, 0x31],
    &[0x02, 0x31, 0x30, 0xA0, 0x31],
    &[0x02, 0x31, 0x30, 0xA1, 0x31],
    &[0x02, 0x31, 0x30, 0xA0, 0xA1, 0x31],
];

fn read(block: &[u8]) -> Read {
    read_signed(block).map_or(Read::NoSignedData, |signed| match signed.inside.iter().find(|part| part.tag == 0xA0) {
        Some(Node { inside, .. }) if !inside.is_empty() => Read::Holding(inside[0].all.clone()),
        _ => Read::Empty,
    })
}

/// The SignedData in a block, if it is one.
fn read_signed(block: &[u8]) -> Option<Node> {
    let only = |mut items: Vec<Node>| if items.len() == 1 { items.pop() } else { None };
    let info = only(nodes(block, 0, block.len(), 1)?).filter(|item| item.tag == 0x30)?;
    if info.tags() != [0x06, 0xA0] || block[info.inside[0].content..info.inside[0].all.end] != TYPE {
        return None;
    }
    let content = info.inside.into_iter().nth(1)?.inside;
    only(content).filter(|item| item.tag == 0x30 && SHAPES.contains(&&item.tags()[..]))
}

/// The answer to a call by that reader, and by what check and view say.
fn answer_by_reading(kind: u64, today: u64, chuid: &[u8], biometric: &[u8]) -> (Verdict, Which, Range<usize>) {
    let refused = |verdict, which| (verdict, which, 0..0);
    let neither = |number| refused((number, 0, None), Which::Neither);
    if !KINDS.contains(&kind) {
        return neither(1);
    }
    for (which, kind, container) in [(Which::Chuid, 2, chuid), (Which::Biometric, kind, biometric)] {
        let checked = verdict(kind, today, container);
        if checked != CONFORMS {
            return refused(checked, which);
        }
    }
    let (_, fascn) = view(2, today, chuid, 0x30);
    let (_, own) = view(2, today, chuid, 0x3E);
    let (_, value) = view(kind, today, biometric, 0xBC);
    if value[59..84] != *fascn {
        return neither(28);
    }
    let block = &value[value.len() - two_bytes(value, 6)..];
    let found = |which, container: &[u8], block: &[u8], range: Range<usize>| {
        let from = block.as_ptr() as usize - container.as_ptr() as usize;
        (CONFORMS, which, from + range.start..from + range.end)
    };
    match (read(block), read(own)) {
        (Read::NoSignedData, _) => neither(29),
        (Read::Holding(range), _) => found(Which::Biometric, biometric, block, range),
        (Read::Empty, Read::NoSignedData) => neither(30),
        (Read::Empty, Read::Holding(range)) => found(Which::Chuid, chuid, own, range),
        (Read::Empty, Read::Empty) => neither(31),
    }
}

/// The call's answer, with the part as a range of the container that is named. It is a whole item that lies there.
fn answer_of(kind: u64, today: u64, chuid: &[u8], biometric: &[u8]) -> (Verdict, Which, Range<usize>) {
    let (verdict, which, part) = signer(kind, today, chuid, biometric);
    if verdict != CONFORMS {
        assert!(part.is_empty() && part.as_ptr() == biometric.as_ptr(), "a part beside {:?}", verdict);
        return (verdict, which, 0..0);
    }
    let container = if which == Which::Chuid { chuid } else { biometric };
    let from = part.as_ptr() as usize - container.as_ptr() as usize;
    let range = from..from + part.len();
    assert_eq!(container[range.clone()], *part);
    let item = nodes(part, 0, part.len(), 5).expect("a part is an item");
    assert!(item.len() == 1 && item[0].all == (0..part.len()));
    (verdict, which, range)
}

/// Both give the same. Handed out is the number, and which container.
fn agreed(record: &Record) -> (u64, Which) {
    let Record { kind, today, chuid, bytes, .. } = record;
    let told = answer_of(*kind, *today, chuid, bytes);
    assert_eq!(told, answer_by_reading(*kind, *today, chuid, bytes), "{:?}", record);
    let (verdict, which, range) = told;
    if record.call == Call::Signer {
        let Answer { number, place, tag, which: named, offset, length, part, .. } = record.answer();
        assert_eq!(((number, place, tag), named), (verdict, which as u64));
        assert_eq!((offset as usize, length as usize, part.len()), (range.start, range.len(), range.len()));
    }
    (verdict.0, which)
}

fn number_of(block: &[u8], chuid_block: &[u8]) -> u64 {
    agreed(&Pair::with_blocks(6, chuid_block, block).record()).0
}

// ---------------------------------------------------------------------------------------------
// Fixed answers

/// The numbers of a container, as they are named.
#[test]
fn numbers_of_containers() {
    assert_eq!([Which::Neither, Which::Chuid, Which::Biometric].map(|which| which as u64), [0, 1, 2]);
    let numbers = [number::FASCN_DIFFER, number::BIOMETRIC_BLOCK, number::CHUID_BLOCK, number::NEITHER_HOLDS];
    assert_eq!(numbers, [28, 29, 30, 31]);
}

/// A block as a card has it, with real certificates and with none.
#[test]
fn block_of_a_card() {
    for kind in KINDS {
        for certificates in [&[RSA][..], &[P256], &[P256, RSA]] {
            let block = samples::block(certificates);
            let pair = Pair::with_blocks(kind, &samples::block(&[]), &block).record();
            let (told, which, part) = signer(kind, pair.today, &pair.chuid, &pair.bytes);
            assert_eq!((told, which, part), (CONFORMS, Which::Biometric, certificates[0]));
            let pair = Pair::with_blocks(kind, &block, &samples::block(&[])).record();
            let (told, which, part) = signer(kind, pair.today, &pair.chuid, &pair.bytes);
            assert_eq!((told, which, part), (CONFORMS, Which::Chuid, certificates[0]));
        }
    }
    assert_eq!(number_of(&samples::block(&[]), &samples::block(&[])), 31);
}

/// The samples belong together. Only those that are called signed have blocks that are SignedData: the CHUID and the fingers with a
/// certificate, the face without.
#[test]
fn the_samples() {
    let of = |name: &str| samples::all().into_iter().find(|sample| sample.name == name).unwrap().container;
    let refused = |number| ((number, 0, None), Which::Neither, 0..0);
    for (kind, name) in KINDS.into_iter().zip(["fingers", "face", "iris"]) {
        for chuid in ["chuid", "chuid-longer", "chuid-signed"] {
            assert_eq!(answer_of(kind, EXAMPLE_DAY, &of(chuid), &of(name)), refused(29));
        }
        let told = answer_of(kind, EXAMPLE_DAY, &of("chuid-broken"), &of(name));
        assert_eq!(told, ((17, 2, Some(0x30)), Which::Chuid, 0..0));
        let (told, which, _) = answer_of(kind, EXAMPLE_DAY, &of("chuid"), &of(&format!("{}-broken", name)));
        assert_eq!((told.2, which), (Some(0xBC), Which::Biometric));
    }
    for chuid in ["chuid", "chuid-longer", "chuid-signed"] {
        let (chuid, fingers) = (of(chuid), of("fingers-signed"));
        assert_eq!(signer(6, EXAMPLE_DAY, &chuid, &fingers), (CONFORMS, Which::Biometric, RSA));
    }
    let (chuid, face) = (of("chuid-signed"), of("face-signed"));
    assert_eq!(signer(7, EXAMPLE_DAY, &chuid, &face), (CONFORMS, Which::Chuid, P256));
    for chuid in ["chuid", "chuid-longer"] {
        assert_eq!(answer_of(7, EXAMPLE_DAY, &of(chuid), &face), refused(30));
    }
}

// ---------------------------------------------------------------------------------------------
// Every block of a sort

/// Every order of the six parts of a SignedData, and of any of them: only those of the four shapes are one. The second and the last
/// have the same tag, and so they may change places.
#[test]
fn every_order_of_parts() {
    let parts = Block::whole().parts();
    let mut counts = [0; 2];
    let mut orders = vec![Vec::new()];
    for _ in 0..=parts.len() {
        for order in &orders {
            let chosen: Vec<Tree> = order.iter().map(|&part: &usize| parts[part].clone()).collect();
            let number = number_of(&signed_data(chosen).bytes(), &[]);
            // with the field a certificate is found, without it the other block is needed
            let expected = match order[..] {
                [0, 1 | 5, 2, 3, 1 | 5] | [0, 1 | 5, 2, 3, 4, 1 | 5] => 0,
                [0, 1 | 5, 2, 1 | 5] | [0, 1 | 5, 2, 4, 1 | 5] => 30,
                _ => 29,
            };
            assert_eq!(number, expected, "{:?}", order);
            counts[usize::from(number == 29)] += 1;
        }
        let longer = |order: Vec<usize>| {
            let others: Vec<usize> = (0..6).filter(|part| !order.contains(part)).collect();
            others.into_iter().map(move |part| [&order[..], &[part]].concat())
        };
        orders = orders.into_iter().flat_map(longer).collect();
    }
    // 1 + 6 + 30 + 120 + 360 + 720 + 720
    assert_eq!(counts, [8, 1_949]);
}

/// Every list of up to six tags that the parts have: the same four shapes.
#[test]
fn every_list_of_tags() {
    const TAGS: [u8; 5] = [0x02, 0x31, 0x30, 0xA0, 0xA1];
    let mut good = 0;
    for count in 0..=6 {
        for number in 0..5usize.pow(count) {
            let tags: Vec<u8> = (0..count).map(|place| TAGS[number / 5usize.pow(place) % 5]).collect();
            let parts = tags.iter().map(|&tag| Tree::primitive(tag, &[])).collect();
            let told = number_of(&signed_data(parts).bytes(), &[]);
            let expected = if SHAPES.contains(&&tags[..]) { 30 } else { 29 };
            assert_eq!(told, expected, "{:02X?}", tags);
            good += usize::from(told == 30);
        }
    }
    assert_eq!(good, 4);
}

/// Every two bytes in the place of the first two of each item of a block.
#[test]
fn every_two_bytes() {
    let block = Block::whole().bytes();
    let record = Pair::with_blocks(6, &[], &block).record();
    // FE has two bytes behind the block
    let from = record.bytes.len() - 2 - block.len();
    let mut tree = Block::whole().tree();
    let mut numbers = BTreeSet::new();
    for number in [0, 1, 3, 5, 8, 9, 13, 14] {
        let (item, _) = tree.item(number, 1);
        let bytes = item.bytes();
        let at = (0..block.len()).find(|&at| block[at..].starts_with(&bytes)).unwrap();
        for pair in 0..=u16::MAX {
            let mut record = record.clone();
            record.bytes[from + at..from + at + 2].copy_from_slice(&pair.to_be_bytes());
            numbers.insert(agreed(&record).0);
        }
    }
    assert!([0, 29, 30].into_iter().eq(numbers));
}

/// Items down to any level in any part: sixteen levels are the most.
#[test]
fn every_level() {
    for level in 5..=40 {
        let deep = Tree::empty().inside(level - 5);
        let set = Tree::constructed(0x31, vec![deep.clone()]);
        let whole = Block::whole();
        for block in [
            Block { digests: set.clone(), ..whole.clone() },
            Block { content: Tree::sequence(vec![deep.clone()]), ..whole.clone() },
            Block { certificates: Some(vec![deep.clone()]), ..whole.clone() },
            Block { certificates: Some(vec![trees::least(), deep.clone()]), ..whole.clone() },
            Block { crls: Some(vec![deep]), ..whole.clone() },
            Block { signers: set, ..whole },
        ] {
            let (block, expected) = (block.bytes(), if level <= 16 { 0 } else { 29 });
            assert_eq!(number_of(&block, &[]), expected, "{}", level);
            let [none, _] = blocks::holding_none();
            assert_eq!(number_of(&none, &block), if level <= 16 { 0 } else { 30 }, "{}", level);
        }
    }
}

/// Certificates of every length up to 700 bytes, so that every length around them changes its form.
#[test]
fn every_length_of_a_certificate() {
    for length in 0..700 {
        let certificate = Tree::primitive(4, &vec![0x30; length]).bytes();
        let block = blocks::with_certificate(Tree::primitive(4, &vec![0x30; length]));
        for kind in KINDS {
            let record = Pair::with_blocks(kind, &[], &block).record();
            assert_eq!(agreed(&record), (0, Which::Biometric));
            assert_eq!(record.answer().part, certificate);
        }
        let [_, none] = blocks::holding_none();
        let record = Pair::with_blocks(6, &block, &none).record();
        assert_eq!((agreed(&record), record.answer().part), ((0, Which::Chuid), certificate));
    }
}

// ---------------------------------------------------------------------------------------------
// Properties over made pairs

/// A good pair that is made, with blocks that have certificates or not.
fn made_pair(rng: &mut Rng) -> Pair {
    let kind = rng.pick(&KINDS);
    let today = second::generate::today(rng);
    let (chuid, biometric) = (conforming_on(rng, 2, today), conforming_on(rng, kind, today));
    let fascn = chuid.rows[1].clone().unwrap();
    let block = |rng: &mut Rng| match rng.below(3) {
        0 => blocks::without_certificates(rng),
        _ => blocks::with_certificates(rng),
    };
    let chuid = with_block(chuid, &block(rng).bytes());
    let biometric = with_block(with_fascn(biometric, &fascn), &block(rng).bytes());
    Pair { chuid, biometric, forms: [Forms::mixed(rng), Forms::mixed(rng)] }
}

/// The bytes of a certificate do not depend on the forms of lengths, on the day, the record or any other element.
#[test]
fn blocks_alone_matter() {
    let mut rng = Rng::new(20);
    let mut seen = BTreeSet::new();
    for _ in 0..ROUNDS {
        let (one, other) = (made_pair(&mut rng), made_pair(&mut rng));
        let block = |pair: &Pair| {
            let value = pair.biometric.rows[0].clone().unwrap();
            value[value.len() - two_bytes(&value, 6)..].to_vec()
        };
        let moved = Pair {
            chuid: with_block(other.chuid, &one.chuid.rows[7].clone().unwrap()),
            biometric: with_block(other.biometric, &block(&one)),
            forms: other.forms,
        };
        let (record, moved) = (one.record(), moved.record());
        let (told, again) = (agreed(&record), agreed(&moved));
        assert_eq!((told, record.answer().part), (again, moved.answer().part));
        seen.insert(told);
    }
    assert!(seen.into_iter().eq([(0, Which::Chuid), (0, Which::Biometric), (31, Which::Neither)]));
}

/// The CHUID's block is not looked at where the biometric's holds a certificate, nor where that is no SignedData.
#[test]
fn chuid_block_only_where_needed() {
    let mut rng = Rng::new(21);
    let mut counts = [0; 2];
    for round in 0..ROUNDS {
        let mut pair = made_pair(&mut rng);
        if round % 3 == 0 {
            pair.biometric = with_block(pair.biometric, &blocks::damaged(&mut rng));
        }
        let told = pair.record().answer();
        let needed = matches!(told.number, 30 | 31) || told.which == 1;
        let length = rng.size(0, 50);
        for block in [Vec::new(), rng.bytes(length), blocks::damaged(&mut rng)] {
            let other = Pair { chuid: with_block(pair.chuid.clone(), &block), ..pair.clone() };
            let (number, _) = agreed(&other.record());
            assert!(if needed { matches!(number, 0 | 30 | 31) } else { other.record().answer() == told });
        }
        counts[usize::from(needed)] += 1;
    }
    assert!(counts.iter().all(|&count| count > ROUNDS / 5), "{:?}", counts);
}

/// Neither a check nor a report says anything of a block but its length.
#[test]
fn reports_hide_blocks() {
    let mut rng = Rng::new(22);
    let report_of = |kind: u64, today: u64, container: &[u8]| {
        let mut room = [0; 512];
        assert_eq!(report(kind, today, container, &mut room).0, 0);
        room
    };
    for _ in 0..ROUNDS {
        let pair = made_pair(&mut rng);
        for (card, forms) in [&pair.chuid, &pair.biometric].into_iter().zip(&pair.forms) {
            let container = card.container_in(forms);
            let value = card.rows[if card.kind == 2 { 7 } else { 0 }].clone().unwrap();
            let length = if card.kind == 2 { value.len() } else { two_bytes(&value, 6) };
            let other = with_block(card.clone(), &rng.bytes(length)).container_in(forms);
            assert_eq!(verdict(card.kind, card.today, &other), CONFORMS);
            assert_eq!(report_of(card.kind, card.today, &container), report_of(card.kind, card.today, &other));
        }
    }
}

/// The first of several faults is told, whichever they are: damage to one layer does not change what an earlier one says.
#[test]
fn refusals_in_their_order() {
    let mut inputs = Inputs::made(23);
    let good = Pair::good(6).record();
    let calls = (0..60_000).map(|_| inputs.record()).filter(|record| record.call == Call::Signer);
    for record in calls {
        let (number, which) = agreed(&record);
        // a kind that is none comes before all
        assert_eq!(agreed(&Record { kind: 3, ..record.clone() }), (1, Which::Neither));
        // then the CHUID's check, whatever the biometric is
        if which == Which::Chuid && number != 0 {
            let told = record.answer();
            for bytes in [Vec::new(), good.bytes.clone()] {
                let other = Record { bytes, ..record.clone() };
                assert_eq!(other.answer(), told);
            }
        }
        // then the biometric's, whatever else the CHUID holds
        if which == Which::Biometric && number != 0 && record.today == EXAMPLE_DAY {
            let other = Record { chuid: good.chuid.clone(), ..record.clone() };
            assert_eq!(other.answer(), record.answer());
        }
        // and these need both to conform
        if matches!(number, 28..=31) {
            assert_eq!(verdict(2, record.today, &record.chuid), CONFORMS);
            assert_eq!(verdict(record.kind, record.today, &record.bytes), CONFORMS);
        }
    }
}

/// FASC-N are compared byte for byte.
#[test]
fn fascns_are_compared() {
    let mut rng = Rng::new(24);
    for _ in 0..ROUNDS {
        let mut pair = made_pair(&mut rng);
        let own = pair.chuid.rows[1].clone().unwrap();
        let other = conforming_on(&mut rng, 2, EXAMPLE_DAY).rows[1].clone().unwrap();
        pair.biometric = with_fascn(pair.biometric, &other);
        assert_eq!(agreed(&pair.record()).0 == 28, own != other);
    }
    let pair = Pair::good(12);
    let same = Pair { biometric: with_fascn(pair.biometric.clone(), &EXAMPLE_FASCN), ..pair };
    assert_eq!(agreed(&same.record()), (0, Which::Biometric));
}

/// A certificate lies in a container of as many bytes as there may be.
#[test]
fn limits() {
    let [none, _] = blocks::holding_none();
    for kind in KINDS {
        for zeros in 0..4 {
            let forms = Forms::all(Form::Padded(zeros));
            let of = |bytes: usize| {
                let block = blocks::with_long_certificate(bytes);
                let pair = Pair::with_blocks(kind, &block, &block);
                Pair { forms: [forms.clone(), forms.clone()], ..pair }
            };
            let rest = of(1_000).record().bytes.len() - 1_000;
            let largest = of(32_768 - rest).record();
            assert_eq!(largest.bytes.len(), 32_768);
            assert_eq!(agreed(&largest), (0, Which::Biometric));
            let larger = of(32_769 - rest).record();
            assert_eq!(agreed(&larger), (4, Which::Biometric));
            let in_chuid = |pair: Pair| Pair { biometric: with_block(pair.biometric.clone(), &none), ..pair }.record();
            let rest = of(1_000).record().chuid.len() - 1_000;
            assert_eq!(agreed(&in_chuid(of(32_768 - rest))), (0, Which::Chuid));
            assert_eq!(agreed(&in_chuid(of(32_769 - rest))), (4, Which::Chuid));
        }
    }
}

// ---------------------------------------------------------------------------------------------
// The named and the made calls

type Seen = BTreeSet<(u64, Which)>;

fn seen_in(records: impl Iterator<Item = Record>) -> (Seen, usize) {
    let calls: Vec<_> =
        records.filter(|record| record.call == Call::Signer).map(|record| (agreed(&record), record)).collect();
    // with each kind a certificate is found in either container, and 28 to 31 are told
    for kind in KINDS {
        for asked in [(0, Which::Chuid), (0, Which::Biometric)].into_iter().chain((28..=31).map(neither)) {
            assert!(calls.iter().any(|(told, record)| *told == asked && record.kind == kind), "{} {:?}", kind, asked);
        }
    }
    (calls.iter().map(|(told, _)| *told).collect(), calls.len())
}

fn neither(number: u64) -> (u64, Which) {
    (number, Which::Neither)
}

/// Every number that the call has is answered, of each container where it is of one.
fn assert_all_is_asked(seen: &Seen) {
    let chuid = [0, 2, 4].into_iter().chain(10..=19);
    let biometric = [0, 4].into_iter().chain(10..=17).chain([21, 22, 26, 27]);
    let all: Seen = chuid
        .map(|number| (number, Which::Chuid))
        .chain(biometric.map(|number| (number, Which::Biometric)))
        .chain([1, 28, 29, 30, 31].map(neither))
        .collect();
    assert_eq!(*seen, all);
}

#[test]
fn named_calls_ask_for_all() {
    let (seen, _) = seen_in(named::all().into_iter().flat_map(|(_, cases)| cases).map(|(record, _)| record));
    assert_all_is_asked(&seen);
}

#[test]
fn calls_at_an_edge_ask_for_all() {
    assert_all_is_asked(&seen_in(pairs::records().into_iter()).0);
}

#[test]
fn made_calls_ask_for_all() {
    let mut inputs = Inputs::made(25);
    let (seen, calls) = seen_in((0..150_000).map(|_| inputs.record()));
    assert!(calls > 15_000, "{}", calls);
    assert_all_is_asked(&seen);
}

/// Blocks that are made as they should be are SignedData, and of the damaged ones there are both.
#[test]
fn made_blocks() {
    let mut rng = Rng::new(26);
    let mut counts = [0; 3];
    for _ in 0..ROUNDS {
        assert!(matches!(read(&blocks::with_certificates(&mut rng).bytes()), Read::Holding(_)));
        assert_eq!(read(&blocks::without_certificates(&mut rng).bytes()), Read::Empty);
        for _ in 0..5 {
            counts[match read(&blocks::damaged(&mut rng)) {
                Read::NoSignedData => 0,
                Read::Empty => 1,
                Read::Holding(_) => 2,
            }] += 1;
        }
    }
    assert!(counts[0] > 2 * ROUNDS && counts[1] > ROUNDS / 10 && counts[2] > ROUNDS / 4, "{:?}", counts);
}

/// Every byte of either container of a small pair, with each other value.
#[test]
fn every_byte() {
    let (mut calls, mut seen) = (0, BTreeSet::new());
    sweep(|record| {
        if record.call == Call::Signer {
            calls += 1;
            seen.insert(agreed(record));
        }
    });
    let bytes: usize = pairs::small_records().iter().map(|record| record.chuid.len() + record.bytes.len()).sum();
    assert_eq!(calls, 256 * bytes);
    // two digits that share a byte can change in it, so that another good FASC-N is there
    assert!([28, 29, 30].into_iter().all(|number| seen.contains(&neither(number))));
    assert!(seen.contains(&(0, Which::Chuid)) && seen.contains(&(0, Which::Biometric)));
}
