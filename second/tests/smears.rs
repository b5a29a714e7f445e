//! Smears of a FASC-N (request 2026-08): what is damaged within six neighbouring bits is refused, and within seven some slip through.

use second::batch::{Answer, Call, Record};
use second::folders::holding;
use second::generate::{fascn, Inputs, Rng, EXAMPLE_FASCN};
use second::named::{swept_smears, SWEPT_SMEARS};
use second::smears::{self, all, each_once, slipping, with_two_other_digits, EXAMPLE_3301, EXAMPLE_DIGITS};
use second::values::is_fascn;
use second::{fascn_decode, fascn_encode};
use std::collections::{BTreeMap, BTreeSet};

type Fascn = [u8; 25];

fn of(numbers: [u64; 9]) -> Fascn {
    let mut out = [0; 25];
    assert_eq!(fascn_encode(&numbers, &mut out), 0);
    out
}

/// Examples, all zeros, the most of each number, and so many made ones.
fn some_fascns(seed: u64, made: usize) -> Vec<Fascn> {
    let most = [9999, 9999, 999_999, 9, 9, 9_999_999_999, 9, 9999, 9];
    let mut out = vec![EXAMPLE_FASCN, EXAMPLE_3301, EXAMPLE_DIGITS, of([0; 9]), of(most)];
    let mut rng = Rng::new(seed);
    out.extend((0..made).map(|_| <Fascn>::try_from(fascn(&mut rng)).unwrap()));
    out
}

/// The bits of a string as digits, worked out by another way than the program's.
fn bits(bytes: &[u8]) -> Vec<u8> {
    bytes.iter().map(|byte| format!("{:08b}", byte)).collect::<String>().into_bytes()
}

/// Where two strings of one length differ.
fn differing(one: &[u8], other: &[u8]) -> Vec<usize> {
    assert_eq!(one.len(), other.len());
    let (one, other) = (bits(one), bits(other));
    (0..one.len()).filter(|&at| one[at] != other[at]).collect()
}

/// How many neighbouring bits hold all that differ; 0 where none does.
fn width(differing: &[usize]) -> usize {
    differing.last().map_or(0, |last| last - differing[0] + 1)
}

// ---------------------------------------------------------------------------------------------
// What a smear is

/// Each window of six is changed in 63 ways, and each of seven in 127. What is turned is what differs.
#[test]
fn every_window_in_every_way() {
    for (bits, windows, ways) in [(1, 200, 1), (6, 195, 63), (7, 194, 127)] {
        let mut seen = BTreeSet::new();
        for smear in all(bits) {
            assert!(smear.width == bits && smear.first + bits <= 200);
            let turned = differing(&EXAMPLE_FASCN, &smear.on(EXAMPLE_FASCN));
            assert!(!turned.is_empty() && turned.iter().all(|at| (smear.first..smear.first + bits).contains(at)));
            assert!(turned.into_iter().eq(smear.bits()));
            seen.insert((smear.first, smear.turned));
        }
        assert_eq!(seen.len(), windows * ways);
    }
}

/// The same strings come of each smear once: 32 for each of 195 windows, in which the first bit is turned, and 31 more in the last.
#[test]
fn each_string_once() {
    let strings = |smears: &mut dyn Iterator<Item = smears::Smear>| -> Vec<Fascn> {
        smears.map(|smear| smear.on(EXAMPLE_DIGITS)).collect()
    };
    for (width, count) in [(6, 195 * 32 + 31), (7, 194 * 64 + 63)] {
        let once = strings(&mut each_once(width));
        assert_eq!(once.len(), count);
        let once: BTreeSet<Fascn> = once.into_iter().collect();
        assert_eq!(once.len(), count);
        assert_eq!(once, strings(&mut all(width)).into_iter().collect());
    }
}

// ---------------------------------------------------------------------------------------------
// Six bits, and seven

#[test]
fn six_bits_are_refused() {
    let (fascns, mut tried) = (some_fascns(1, 400), 0);
    for fascn in &fascns {
        assert!(is_fascn(fascn));
        for smear in all(6) {
            assert!(!is_fascn(&smear.on(*fascn)), "{:02X?} {:?}", fascn, smear);
            tried += 1;
        }
    }
    assert_eq!(tried, 405 * 195 * 63);
}

/// The request's counterexample: they differ within seven neighbouring bits, and in no six.
#[test]
fn seven_is_too_many() {
    assert_eq!(fascn_decode(&EXAMPLE_FASCN), (0, [1234, 1, 5, 1, 1, 7, 1, 1234, 1]));
    assert_eq!(fascn_decode(&EXAMPLE_3301), (0, [1234, 3301, 5, 1, 1, 7, 1, 1234, 1]));
    assert_eq!(differing(&EXAMPLE_FASCN, &EXAMPLE_3301), [30, 31, 35, 36]);
    assert_eq!(slipping(30).on(EXAMPLE_FASCN), EXAMPLE_3301);
    assert!(all(7).any(|smear| smear.on(EXAMPLE_FASCN) == EXAMPLE_3301));
    assert!(all(6).all(|smear| smear.on(EXAMPLE_FASCN) != EXAMPLE_3301));
}

/// The smears within seven bits that leave a FASC-N, each by the bits that it turns.
fn slips(fascn: Fascn) -> Vec<Vec<usize>> {
    each_once(7).filter(|smear| is_fascn(&smear.on(fascn))).map(|smear| smear.bits().collect()).collect()
}

/// The four bits that are turned from this character on: the same two neighbouring ones of two neighbouring characters.
fn four_bits(character: usize, bit: usize) -> Vec<usize> {
    let first = 5 * character + bit;
    vec![first, first + 1, first + 5, first + 6]
}

/// What slips through in windows of seven of P1, by the rules alone.
///
/// In each character an even number of bits is turned, or its parity breaks. So a value bit is among them, and the value changes. If
/// no other character changed, the check would break. Seven bits touch three characters only from the last bit of one to the first
/// bit of the third; that is one bit of each of these two, which is odd. So two neighbouring characters change, and both by the same
/// value, since the exclusive or of all stays. The same value and a parity that is kept mean that the same bits of both are turned.
/// Of the first character the window holds the bits from some bit b on, and of the second those up to b + 1. So these are b and
/// b + 1, and an even number of two is both: with b = 0, 1, 2 or 3 the first two bits of the window and the last two are turned. The
/// values change by 3, 6, 12 or 8: by the value bits 1 and 2, 2 and 4, 4 and 8, or 8 with the parity. (In a window of six both hold b
/// alone, which is odd: nothing slips through.)
///
/// Start, separators and end stay, and the check stands beside the end, so both are digits: 26 pairs. These begin with the characters
/// 1 to 3 (agency), 6 to 8 (system), 11 to 15 (credential), and 22 to 36 (person, category, organisation and association, which stand
/// side by side). And both stay digits. By 3 or by 6 each digit under 8 does, and P1 has no other: 26 pairs each. By 12 only 4, 5, 8
/// and 9 do, and P1 has no two of these side by side: none. By 8 only 0, 1, 8 and 9 do: in P1 3 pairs of the system 0001, 4 of the
/// credential 000005, 8 of the person 0000000007, and the category 1 with the first digit of the organisation 1234, 16 pairs.
/// Together 68, each in one window, of 194 * 127 changes.
#[test]
fn seven_bits_of_p1() {
    let digits: Vec<usize> = (1..=3).chain(6..=8).chain(11..=15).chain(22..=36).collect();
    let noughts_and_ones: Vec<usize> = (6..=8).chain(11..=14).chain(22..=29).chain([32]).collect();
    assert_eq!((digits.len(), noughts_and_ones.len()), (26, 16));
    let by_3_or_6 = digits.iter().flat_map(|&character| [four_bits(character, 0), four_bits(character, 1)]);
    let by_8 = noughts_and_ones.iter().map(|&character| four_bits(character, 3));
    let mut expected: Vec<_> = by_3_or_6.chain(by_8).collect();
    expected.sort();
    assert_eq!(slips(EXAMPLE_FASCN), expected);
    assert_eq!(expected.len(), 68);
}

/// The same of any FASC-N: its characters are written out, and two digits side by side are looked for.
fn slips_by_rule(fascn: &Fascn) -> Vec<Vec<usize>> {
    let (_, [agency, system, credential, series, issue, person, category, organisation, association]) =
        fascn_decode(fascn);
    let text = format!(
        "<{:04}={:04}={:06}={}={}={:010}{}{:04}{}>",
        agency, system, credential, series, issue, person, category, organisation, association
    );
    assert_eq!(text.len(), 39);
    let digits: Vec<Option<u32>> = text.chars().map(|character| character.to_digit(10)).collect();
    let mut out = Vec::new();
    for (character, pair) in digits.windows(2).enumerate() {
        if let [Some(one), Some(other)] = *pair {
            let stay = |by: u32| one ^ by <= 9 && other ^ by <= 9;
            let bits = [3, 6, 12, 8].into_iter().enumerate().filter(|&(_, by)| stay(by)).map(|(bit, _)| bit);
            out.extend(bits.map(|bit| four_bits(character, bit)));
        }
    }
    out
}

#[test]
fn seven_bits_of_any() {
    let mut ways = BTreeSet::new();
    for fascn in some_fascns(2, 300) {
        let found = slips(fascn);
        assert_eq!(found, slips_by_rule(&fascn), "{:02X?}", fascn);
        ways.extend(found.iter().map(|bits| bits[0] % 5));
    }
    assert!(ways.into_iter().eq(0..4));
    let counts = [EXAMPLE_FASCN, EXAMPLE_3301, EXAMPLE_DIGITS, of([0; 9])].map(|fascn| slips(fascn).len());
    // of all zeros each pair slips through by 3, by 6 and by 8
    assert_eq!((counts[0], counts[3]), (68, 78));
    assert!(counts[1..3].iter().all(|&count| count > 0), "{:?}", counts);
}

// ---------------------------------------------------------------------------------------------
// The sweep

/// The FASC-N in a call of the sweep, and those of which it may be a smear. That of a biometric stands 59 bytes behind the front of
/// BC, whose length has two bytes there.
fn swept_fascn(record: &Record) -> (&[u8], Vec<Fascn>) {
    let at = match (record.call, record.kind) {
        (Call::FascnDecode, _) => return (&record.bytes, vec![EXAMPLE_FASCN, EXAMPLE_3301, EXAMPLE_DIGITS]),
        (Call::Check, 2) => 4,
        (Call::Check, 6 | 7 | 12) => 3 + 3 + 59,
        _ => panic!("another call"),
    };
    let (_, good) = holding(record.kind, &EXAMPLE_FASCN);
    let (front, fascn) = record.bytes.split_at(at);
    let (fascn, behind) = fascn.split_at(25);
    assert_eq!([front, &EXAMPLE_FASCN, behind].concat(), good);
    (fascn, vec![EXAMPLE_FASCN])
}

/// Every call of the sweep is on a smear within six bits, and its written answer is that of a bad FASC-N, at the element, with zeros
/// in all that is lent. The second program answers that.
#[test]
fn swept_calls() {
    let mut calls: BTreeMap<(Call, u64), Vec<Vec<u8>>> = BTreeMap::new();
    for (record, expected) in swept_smears() {
        let (fascn, whole) = swept_fascn(&record);
        let widths: Vec<usize> = whole.iter().map(|whole| width(&differing(whole, fascn))).collect();
        assert!(widths.iter().any(|width| (1..=6).contains(width)), "{:?}", widths);
        calls.entry((record.call, record.kind)).or_default().push(fascn.to_vec());
        let (place, tag) = match record.kind {
            0 => (0, None),
            2 => (2, Some(0x30)),
            _ => (3, Some(0xBC)),
        };
        assert_eq!(expected, Answer { number: 17, place, tag, room: vec![0; record.room], ..Answer::default() });
        assert_eq!(record.answer(), expected);
    }
    let distinct = |strings: &Vec<Vec<u8>>| strings.iter().collect::<BTreeSet<_>>().len();
    let counts: Vec<_> = calls.values().map(|strings| (strings.len(), distinct(strings))).collect();
    assert_eq!(calls.keys().map(|key| key.1).collect::<Vec<_>>(), [2, 6, 7, 12, 0]);
    // 64 strings are smears of P1 and of the one with 3301: each of the bits 30, 31, 35 and 36 is turned in the one or in the
    // other, but 30 and 36 not in the same, and each of the three bits between in both or in neither: 2 * 2 * 2 * 8
    let decoded = 3 * 6_271 - 64;
    assert_eq!(counts, [(6_271, 6_271), (6_271, 6_271), (6_271, 6_271), (6_271, 6_271), (36_855, decoded)]);
    assert_eq!(SWEPT_SMEARS, 4 * 6_271 + 36_855);
}

// ---------------------------------------------------------------------------------------------
// Made ones

/// Two digits are changed alike in a FASC-N, so that it conforms: mostly two that are equal, and at times two that differ.
#[test]
fn two_other_digits() {
    let mut rng = Rng::new(3);
    let (mut equal, mut places) = ([0; 2], BTreeSet::new());
    for fascn in some_fascns(4, 20_000) {
        let other = with_two_other_digits(&mut rng, &fascn);
        assert!(is_fascn(&other));
        let differing = differing(&fascn, &other);
        let characters: BTreeSet<usize> = differing.iter().map(|bit| bit / 5).collect();
        assert_eq!(characters.len(), 2);
        let first = differing[0] / 5;
        assert!(characters.contains(&(first + 1)) && (7..=10).contains(&width(&differing)));
        places.insert(first);
        let bits = bits(&fascn);
        equal[usize::from(bits[5 * first..5 * first + 5] == bits[5 * first + 5..5 * first + 10])] += 1;
    }
    assert_eq!(places.len(), 26);
    assert!(equal[1] > 10_000 && equal[0] > 2_000, "{:?}", equal);
}

/// Of the damage there is every sort: within six bits, which is refused, within seven and within more, which may conform.
#[test]
fn made_damage() {
    let mut rng = Rng::new(5);
    let mut counts: BTreeMap<(usize, bool), usize> = BTreeMap::new();
    for fascn in some_fascns(6, 20_000) {
        let mut damaged = fascn;
        smears::damage(&mut rng, &mut damaged);
        let width = width(&differing(&fascn, &damaged));
        // two smears can undo each other, and then nothing differs
        assert!(width == 0 || width > 6 || !is_fascn(&damaged));
        *counts.entry((width.min(11), is_fascn(&damaged))).or_default() += 1;
    }
    for sort in
        (1..=6).map(|width| (width, false)).chain([7, 11].into_iter().flat_map(|width| [(width, false), (width, true)]))
    {
        assert!(counts.get(&sort).map_or(false, |&count| count > 30), "{:?}", counts);
    }
}

/// Made calls hold smears of more than two bits, alone and in containers.
#[test]
fn made_calls_hold_smears() {
    let mut inputs = Inputs::made(7);
    let mut smeared: BTreeMap<(Call, u64), usize> = BTreeMap::new();
    for record in (0..60_000).map(|_| inputs.record()) {
        let answer = record.answer();
        let at = match (record.call, record.kind) {
            (Call::FascnDecode, _) => 0,
            // in a container of few bytes whose first element it is, in the fewest bytes
            (Call::Check, 2) if record.bytes.get(2) == Some(&0x30) => 4,
            (Call::Check, 6 | 7 | 12) if record.bytes.get(3..5) == Some(&[0xBC, 0x81]) => 65,
            _ => continue,
        };
        let fascn = match record.bytes.get(at..at + 25) {
            Some(fascn) if answer.number == 17 => <Fascn>::try_from(fascn).unwrap(),
            _ => continue,
        };
        if each_once(6).any(|smear| smear.turned.count_ones() > 2 && is_fascn(&smear.on(fascn))) {
            *smeared.entry((record.call, record.kind)).or_default() += 1;
        }
    }
    assert!(smeared.get(&(Call::FascnDecode, 0)).map_or(false, |&count| count > 20), "{:?}", smeared);
    assert!(smeared.keys().filter(|key| key.0 == Call::Check).count() > 2, "{:?}", smeared);
}
