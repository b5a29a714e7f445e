//! The certificate of who signed a biometric: which container it lies in and where, and each refusal in its order.

use super::*;
use crate::generate::{Form, Forms};
use crate::records::with_bytes;

pub fn all() -> Vec<Group> {
    [found(), blocks(), checks(), orders()].concat()
}

fn found() -> Vec<Group> {
    vec![
        worked_signers(),
        each_kind(),
        fields_in_both(),
        not_needed(),
        first_items(),
        lengths_of_certificates(),
        real_ones(),
    ]
}

fn blocks() -> Vec<Group> {
    vec![
        tags_of_parts(),
        content_types(),
        parts_of_signed_data(),
        parts_of_content_info(),
        insides(),
        torn_blocks(),
        cut_blocks(),
        bytes_behind(),
        lengths_in_blocks(),
        levels_of_blocks(),
    ]
}

fn checks() -> Vec<Group> {
    vec![kinds(), days(), refused_chuids(), refused_biometrics(), large_ones(), swapped()]
}

fn orders() -> Vec<Group> {
    vec![one_digit_off(), fascn_elsewhere(), every_order(), longer_forms()]
}

// ---------------------------------------------------------------------------------------------
// The calls, and the bytes that several groups have

/// What a call tells: the container as a number, and where the certificate stands there.
type Told = Result<(u64, usize, usize), (Verdict, u64)>;

const IN_CHUID: u64 = 1;
const IN_BIOMETRIC: u64 = 2;

fn signer(kind: u64, chuid: &[u8], biometric: &[u8], told: Told) -> Case {
    let record = Record { chuid: chuid.to_vec(), ..given(Call::Signer, kind, biometric) };
    let answer = match told {
        Ok((which, offset, length)) => {
            let container = if which == IN_CHUID { chuid } else { biometric };
            let part = container[offset..offset + length].to_vec();
            Answer { which, offset: offset as u64, length: length as u64, part, ..Answer::default() }
        }
        Err((refusal, which)) => Answer { which, ..super::told(refusal) },
    };
    (record, answer)
}

/// A refusal that is about neither.
fn neither(number: u64) -> Told {
    Err((alone(number), 0))
}

/// The identifier of a SignedData, and what a SignedData has before its certificates, 10 bytes.
const OID: [u8; 11] = [0x06, 0x09, 0x2A, 0x86, 0x48, 0x86, 0xF7, 0x0D, 0x01, 0x07, 0x02];
const THREE: [u8; 10] = [2, 1, 3, 0x31, 0, 0x30, 3, 6, 1, 0x2A];
/// A certificate of 8 bytes and one of 9.
const C8: [u8; 8] = [0x30, 6, 5, 0, 5, 0, 5, 0];
const C9: [u8; 9] = [0x30, 7, 2, 1, 1, 5, 0, 5, 0];
/// The last part, signerInfos.
const SIGNERS: [u8; 2] = [0x31, 0];
/// The certificates field without any, and crls without any.
const NO_CERTIFICATES: [u8; 2] = [0xA0, 0];
const NO_CRLS: [u8; 2] = [0xA1, 0];

/// An item with this tag and this content, its length in the fewest bytes.
fn item(tag: u8, content: &[u8]) -> Vec<u8> {
    let length = match content.len() {
        length @ 0..=127 => vec![length as u8],
        length @ 128..=255 => vec![0x81, length as u8],
        length => vec![0x82, (length >> 8) as u8, length as u8],
    };
    [&[tag], &length[..], content].concat()
}

/// A ContentInfo with these bytes in its SignedData.
fn block_of(parts: &[&[u8]]) -> Vec<u8> {
    content_of(&OID, &item(0x30, &parts.concat()))
}

/// A ContentInfo of this identifier and with this content.
fn content_of(identifier: &[u8], content: &[u8]) -> Vec<u8> {
    item(0x30, &[identifier, &item(0xA0, content)].concat())
}

/// A block with these certificates.
fn holding(certificates: &[u8]) -> Vec<u8> {
    block_of(&[&THREE, &item(0xA0, certificates), &SIGNERS])
}

/// A block without the field.
fn holding_none() -> Vec<u8> {
    block_of(&[&THREE, &SIGNERS])
}

/// A CHUID with this 3E, which stands at 59 where it is short. In a short block that has a certificate this stands 29 bytes further.
fn chuid_of(block: &[u8]) -> Vec<u8> {
    chuid(&EXAMPLE_FASCN, EXPIRES, block).container()
}

const CHUID_CERTIFICATE: usize = 88;

/// A minutiae record without points, of 38 bytes, as the worked cases have it.
fn no_points() -> Vec<u8> {
    let views = [[2, 0x00, 0x28, 0, 0, 0], [7, 0x02, 0xFE, 0, 0, 0]].concat();
    [b"FMR\x00 200\x00\x26", &[0xEE; 10][..], &[0x00, 0xC5, 0x00, 0xC5, 2, 0], &views].concat()
}

/// A biometric of the worked cases, of this kind, with this FASC-N, these reserved bytes and this block.
pub(super) fn biometric_with(kind: u64, fascn: &[u8; 25], reserved: [u8; 4], block: &[u8]) -> Card {
    let (head, record) = match kind {
        6 => (head_of([0x00, 0x1B, 0x02, 0x01], [0, 0, 8, 0x80]), no_points()),
        7 => (head_of([0x00, 0x1B, 0x05, 0x01], [0, 0, 2, 0x20]), least()),
        _ => (head_of([0x01, 0x01, 0x00, 0x09], [0, 0, 0x10, 0x40]), least_iris()),
    };
    let (data, length) = ((record.len() as u32).to_be_bytes(), (block.len() as u16).to_be_bytes());
    let header = [&[0x03, 0x0D], &data[..], &length, &head, &[0xFE], b"MAKER", &[0; 13], fascn, &reserved];
    card(kind, &[Some(&[&header.concat()[..], &record, block].concat()), Some(&[])])
}

fn biometric_of(kind: u64, block: &[u8]) -> Vec<u8> {
    biometric_with(kind, &EXAMPLE_FASCN, [0; 4], block).container()
}

/// Where the certificate of a short block stands in a biometric of 131 to 258 bytes: 6 bytes before the header, which has 88, and 29
/// before the certificate. The least records have 38, 46 and 68 bytes.
fn certificate_at(kind: u64) -> usize {
    match kind {
        6 => 161,
        7 => 169,
        _ => 191,
    }
}

const BIOMETRICS: [u64; 3] = [6, 7, 12];

/// A block that is no SignedData: 29 in a biometric of this kind, with a CHUID that has a certificate, and 30 in the CHUID of one that
/// holds none.
fn no_block(kind: u64, block: &[u8]) -> [Case; 2] {
    [
        signer(kind, &chuid_of(&holding(&C8)), &biometric_of(kind, block), neither(29)),
        signer(kind, &chuid_of(block), &biometric_of(kind, &holding_none()), neither(30)),
    ]
}

/// A block with a certificate so far from its start: in a biometric of this kind and in the CHUID of one that holds none. The block
/// is a short one, and so it stands 29 bytes before where the certificate usually does.
fn a_block(kind: u64, block: &[u8], at: usize, length: usize) -> [Case; 2] {
    let (in_biometric, in_chuid) = (certificate_at(kind) - 29 + at, CHUID_CERTIFICATE - 29 + at);
    [
        signer(kind, &chuid_of(&[]), &biometric_of(kind, block), Ok((IN_BIOMETRIC, in_biometric, length))),
        signer(kind, &chuid_of(block), &biometric_of(kind, &holding_none()), Ok((IN_CHUID, in_chuid, length))),
    ]
}

// ---------------------------------------------------------------------------------------------
// Certificates that are found

/// A FASC-N that differs from the example's in one digit.
pub(super) const P8: [u8; 25] = [
    0xD4, 0x11, 0x92, 0x58, 0x21, 0x0C, 0x2C, 0x10, 0x84, 0x21, 0xAD, 0xA1, 0x68, 0x58, 0x21, 0x08, 0x42, 0x10, 0x84,
    0x22, 0x84, 0x11, 0x92, 0x43, 0xF5,
];

/// The worked cases of request 2026-11, in their order.
fn worked_signers() -> Group {
    let one = chuid_of(&holding(&C8));
    let fingers = |block: &[u8]| biometric_of(6, block);
    let both = fingers(&holding(&[&C9[..], &C8].concat()));
    let without = fingers(&holding_none());
    let sequences = |levels: usize| (0..levels).fold(vec![5, 0], |inside, _| item(0x30, &inside));
    let deep = |levels| fingers(&block_of(&[&THREE, &item(0xA0, &C8), &item(0x31, &sequences(levels))]));
    let other = biometric_with(6, &P8, [0; 4], b"SIG").container();
    let mut broken = one[..2 + 27 + 18].to_vec();
    broken[1] = 0x2D;
    broken[31..47].fill(0);
    let cases = vec![
        signer(6, &one, &both, Ok((2, 161, 9))),
        signer(6, &chuid_of(b"X"), &both, Ok((2, 161, 9))),
        signer(6, &one, &without, Ok((1, 88, 8))),
        signer(6, &one, &fingers(&block_of(&[&THREE, &NO_CERTIFICATES, &NO_CRLS, &SIGNERS])), Ok((1, 88, 8))),
        signer(6, &chuid_of(&holding_none()), &without, neither(31)),
        signer(6, &chuid_of(&[]), &without, neither(30)),
        signer(6, &chuid_of(&[&holding(&C8)[..], &[0]].concat()), &without, neither(30)),
        signer(6, &one, &fingers(b"SIG"), neither(29)),
        signer(6, &one, &fingers(&block_of(&[&THREE, &NO_CRLS, &item(0xA0, &C8), &SIGNERS])), neither(29)),
        signer(6, &one, &fingers(&block_of(&[&THREE, &item(0xA0, &C8)])), neither(29)),
        signer(6, &one, &fingers(&[&[0x30, 0x80], &holding_none()[2..], &[0, 0]].concat()), neither(29)),
        signer(6, &one, &deep(11), Ok((2, 161, 8))),
        signer(6, &one, &deep(12), neither(29)),
        signer(6, &one, &fingers(&holding(&[&[2, 1, 1], &C8[..]].concat())), Ok((2, 161, 3))),
        signer(6, &one, &other, neither(28)),
        on(0, signer(2, &[], &both, neither(1))),
        on(20260229, signer(6, &one, &both, Err((alone(2), IN_CHUID)))),
        signer(6, &broken, &[0x53], Err(((18, 29, Some(0x34)), IN_CHUID))),
        signer(7, &one, &both, Err(((21, 3, Some(0xBC)), IN_BIOMETRIC))),
    ];
    ("the worked cases of 2026-11", cases)
}

fn each_kind() -> Group {
    let of = |kind: u64| {
        let at = certificate_at(kind);
        let (one, none) = (chuid_of(&holding(&C8)), biometric_of(kind, &holding_none()));
        let both = biometric_of(kind, &holding(&[&C9[..], &C8].concat()));
        let other = biometric_with(kind, &P8, [0; 4], &holding(&C9)).container();
        [
            signer(kind, &one, &both, Ok((IN_BIOMETRIC, at, 9))),
            signer(kind, &chuid_of(&[]), &biometric_of(kind, &holding(&C8)), Ok((IN_BIOMETRIC, at, 8))),
            signer(kind, &one, &none, Ok((IN_CHUID, CHUID_CERTIFICATE, 8))),
            signer(kind, &one, &other, neither(28)),
            signer(kind, &one, &biometric_of(kind, b"SIG"), neither(29)),
            signer(kind, &chuid_of(b"SIG"), &none, neither(30)),
            signer(kind, &chuid_of(&holding_none()), &none, neither(31)),
        ]
    };
    ("FINGERS, FACE and IRIS: a certificate in either container, and 28 to 31", BIOMETRICS.map(of).concat())
}

fn fields_in_both() -> Group {
    let three = &THREE[..];
    let with = |fields: &[&[u8]]| block_of(&[three, &fields.concat(), &SIGNERS]);
    let none = [
        with(&[]),
        with(&[&NO_CERTIFICATES]),
        with(&[&NO_CRLS]),
        with(&[&NO_CERTIFICATES, &NO_CRLS]),
        // what lies in the crls is no certificate
        with(&[&item(0xA1, &C8)]),
        with(&[&NO_CERTIFICATES, &item(0xA1, &C8)]),
    ];
    let some = [with(&[&item(0xA0, &C8)]), with(&[&item(0xA0, &C8), &NO_CRLS])];
    let mut cases = Vec::new();
    for (i, in_biometric) in none.iter().enumerate() {
        let kind = BIOMETRICS[i % 3];
        let biometric = biometric_of(kind, in_biometric);
        cases.extend(none.iter().map(|block| signer(kind, &chuid_of(block), &biometric, neither(31))));
        let found = Ok((IN_CHUID, CHUID_CERTIFICATE, 8));
        cases.extend(some.iter().map(|block| signer(kind, &chuid_of(block), &biometric, found)));
        cases.push(signer(kind, &chuid_of(&[]), &biometric, neither(30)));
    }
    for in_chuid in none.iter().chain(&some) {
        let found = |kind| Ok((IN_BIOMETRIC, certificate_at(kind), 8));
        cases.extend(
            BIOMETRICS.map(|kind| signer(kind, &chuid_of(in_chuid), &biometric_of(kind, &some[1]), found(kind))),
        );
    }
    ("a field that is missing or empty holds none, with crls and without, in either block and in both", cases)
}

fn not_needed() -> Group {
    let blocks = [
        Vec::new(),
        b"X".to_vec(),
        vec![0x30],
        vec![0x1F, 0],
        vec![0; 20],
        holding_none(),
        [&holding(&C8)[..], &[0]].concat(),
    ];
    let cases = blocks.iter().flat_map(|block| {
        BIOMETRICS.map(|kind| {
            let told = Ok((IN_BIOMETRIC, certificate_at(kind), 9));
            signer(kind, &chuid_of(block), &biometric_of(kind, &holding(&C9)), told)
        })
    });
    ("3E is not looked at where the biometric's block has a certificate, whatever it holds", cases.collect())
}

fn first_items() -> Group {
    let with =
        |kind: u64, certificates: &[&[u8]], length: usize| a_block(kind, &holding(&certificates.concat()), 29, length);
    (
        "the first item of the field with its tag and length, of any tag, and however many follow",
        [
            with(6, &[&C8], 8),
            with(6, &[&C8, &C9], 8),
            with(7, &[&C9, &C8], 9),
            with(12, &[&C8, &C8, &C8], 8),
            with(6, &[&[5, 0]], 2),
            with(7, &[&[5, 0], &C8], 2),
            with(12, &[&[0x30, 0], &C8], 2),
            with(6, &[&[0, 0], &C8], 2),
            with(7, &[&[0xA0, 2, 5, 0]], 4),
            with(12, &[&[0xA1, 0], &C8], 2),
            with(6, &[&[0x31, 0]], 2),
            with(7, &[&[2, 1, 7], &C9], 3),
            with(12, &[&[0x1E, 1, 0xFF]], 3),
            with(6, &[&[0xFE, 0]], 2),
            with(7, &[&[0x04, 2, 0xFF, 0xFF], &C8], 4),
        ]
        .concat(),
    )
}

/// Every length around the certificate has one byte up to 127, two up to 255, and three then.
fn lengths_of_certificates() -> Group {
    let mut cases = Vec::new();
    for content in [0, 1, 60, 127, 128, 200, 255, 256, 300, 1_000] {
        let certificate = item(0x04, &vec![0x30; content]);
        let block = holding(&[&certificate[..], &C8].concat());
        // the field ends where the certificates end, before the last part
        let at = block.len() - SIGNERS.len() - C8.len() - certificate.len();
        for kind in BIOMETRICS {
            let (one, other) = (biometric_of(kind, &block), chuid_of(&block));
            // FE has two bytes behind the block
            let in_one = one.len() - 2 - block.len() + at;
            let in_other = other.len() - 2 - block.len() + at;
            cases.push(signer(kind, &chuid_of(&[]), &one, Ok((IN_BIOMETRIC, in_one, certificate.len()))));
            let none = biometric_of(kind, &holding_none());
            cases.push(signer(kind, &other, &none, Ok((IN_CHUID, in_other, certificate.len()))));
        }
    }
    ("certificates of 0 to 1,000 bytes of content: the part has their tag and length too", cases)
}

/// The outer length and that of the element have three bytes each, and so have those of the four items around the certificate.
fn real_ones() -> Group {
    let mut cases = Vec::new();
    for certificate in [RSA, P256] {
        let block = holding(&[certificate, &C8].concat());
        let at = |record: usize| 8 + 88 + record + 4 + 11 + 4 + 4 + 10 + 4;
        for (kind, record) in BIOMETRICS.into_iter().zip([38, 46, 68]) {
            let (one, none) = (biometric_of(kind, &block), biometric_of(kind, &holding_none()));
            cases.push(signer(kind, &chuid_of(&[]), &one, Ok((IN_BIOMETRIC, at(record), certificate.len()))));
            // in a CHUID four bytes stand before the first element, and four before the block
            let in_chuid = 4 + 27 + 18 + 10 + 4 + 4 + 11 + 4 + 4 + 10 + 4;
            cases.push(signer(kind, &chuid_of(&block), &none, Ok((IN_CHUID, in_chuid, certificate.len()))));
        }
    }
    ("certificates of an RSA key and of one on P-256, of 1,091 and 435 bytes", cases)
}

// ---------------------------------------------------------------------------------------------
// Blocks that are no SignedData

/// A block with one certificate and with crls, in which the judged tags stand at these places: the ContentInfo, its content type, its
/// content, the SignedData, version, digestAlgorithms, encapContentInfo, certificates, crls and signerInfos.
fn whole_block() -> Vec<u8> {
    block_of(&[&THREE, &item(0xA0, &C8), &NO_CRLS, &SIGNERS])
}

const JUDGED: [usize; 10] = [0, 2, 13, 15, 17, 20, 22, 27, 37, 39];

/// Tags beside the right ones: the primitive and the constructed one, another class, a neighbour, those of other parts, and one of
/// number 31.
const OTHER_TAGS: [u8; 17] =
    [0x00, 0x02, 0x04, 0x05, 0x06, 0x10, 0x11, 0x1F, 0x20, 0x22, 0x26, 0x30, 0x31, 0x80, 0x81, 0xA0, 0xA1];

/// Certificates with the tag of crls are crls that are there twice, and the other way round.
fn tags_of_parts() -> Group {
    let block = whole_block();
    let mut cases = Vec::new();
    for (i, at) in JUDGED.into_iter().enumerate() {
        assert!([0x30, 0x06, 0xA0, 0x02, 0x31, 0xA1].contains(&block[at]));
        for tag in OTHER_TAGS.into_iter().filter(|&tag| tag != block[at]) {
            cases.extend(no_block(BIOMETRICS[i % 3], &with_bytes(block.clone(), at, &[tag])));
        }
    }
    for tag in [0x70, 0xB0, 0xF0, 0x32, 0x2F, 0x90, 0xA2, 0xE0, 0x60, 0xBF] {
        for (i, at) in JUDGED.into_iter().enumerate() {
            cases.extend(no_block(BIOMETRICS[i % 3], &with_bytes(block.clone(), at, &[tag])));
        }
    }
    cases.extend(a_block(6, &block, 29, 8));
    ("another tag of each part that is judged by it: primitive ones, other classes, those of other parts", cases)
}

fn content_types() -> Group {
    let block = whole_block();
    let with = |at: usize, byte: u8| no_block(7, &with_bytes(block.clone(), at, &[byte]));
    let parts = [&THREE[..], &item(0xA0, &C8), &SIGNERS].concat();
    let of = |identifier: &[u8]| no_block(12, &content_of(&item(6, identifier), &item(0x30, &parts)));
    let right = &OID[2..];
    (
        "another content type: each byte of it changed, cut off, longer, and others of CMS",
        [
            with(4, 0x2B),
            with(5, 0x87),
            with(6, 0x49),
            with(7, 0x06),
            with(8, 0x77),
            with(9, 0x0C),
            with(10, 0x00),
            with(11, 0x09),
            with(12, 0x01),
            with(12, 0x03),
            with(12, 0x05),
            of(&[]),
            of(&right[..1]),
            of(&right[..8]),
            of(&[right, &[0]].concat()),
            of(&[right, &[2]].concat()),
            of(&[right, right].concat()),
            of(&[&[0], right].concat()),
            of(&[&right[1..], &[2]].concat()),
        ]
        .concat(),
    )
}

fn parts_of_signed_data() -> Group {
    let (version, digests, content) = (&THREE[..3], &THREE[3..5], &THREE[5..]);
    let (field, null) = (&item(0xA0, &C8)[..], &[5, 0][..]);
    let (crls, signers) = (&NO_CRLS[..], &SIGNERS[..]);
    let none = |kind: u64, parts: &[&[u8]]| no_block(kind, &block_of(parts));
    (
        "a part missing, doubled, exchanged, or one too many",
        [
            none(6, &[]),
            none(7, &[signers]),
            none(12, &[digests, content, field, signers]),
            none(6, &[version, content, field, signers]),
            none(7, &[version, digests, field, signers]),
            none(12, &[version, digests, content, field]),
            none(6, &[version, digests, content, field, crls]),
            none(7, &[version, version, digests, content, field, signers]),
            none(12, &[version, digests, digests, content, field, signers]),
            none(6, &[version, digests, content, content, field, signers]),
            none(7, &[version, digests, content, field, field, signers]),
            none(12, &[version, digests, content, field, crls, crls, signers]),
            none(6, &[version, digests, content, field, signers, signers]),
            none(7, &[digests, version, content, field, signers]),
            none(12, &[version, content, digests, field, signers]),
            none(6, &[version, digests, field, content, signers]),
            none(7, &[version, digests, content, crls, field, signers]),
            none(12, &[version, digests, content, signers, field]),
            none(6, &[version, digests, content, field, signers, crls]),
            none(7, &[version, digests, content, signers, crls]),
            none(12, &[null, version, digests, content, field, signers]),
            none(6, &[version, digests, content, null, field, signers]),
            none(7, &[version, digests, content, field, null, signers]),
            none(12, &[version, digests, content, field, crls, null, signers]),
            none(6, &[version, digests, content, field, signers, null]),
            none(7, &[version, digests, content, field, &[0xA2, 0], signers]),
            none(12, &[version, digests, content, field, &[0x80, 0], signers]),
            none(6, &[version, digests, content, field, &[0x81, 0], signers]),
        ]
        .concat(),
    )
}

fn parts_of_content_info() -> Group {
    let signed = item(0x30, &[&THREE[..], &item(0xA0, &C8), &SIGNERS].concat());
    let (content, null) = (item(0xA0, &signed), &[5, 0][..]);
    let none = |kind: u64, parts: &[&[u8]]| no_block(kind, &item(0x30, &parts.concat()));
    let inside = |kind: u64, items: &[&[u8]]| no_block(kind, &content_of(&OID, &items.concat()));
    (
        "a ContentInfo with other parts, and a content that is none, two items, or a SignedData without its tag",
        [
            none(6, &[]),
            none(7, &[&OID]),
            none(12, &[&content]),
            none(6, &[&content, &OID]),
            none(7, &[&OID, &OID, &content]),
            none(12, &[&OID, &content, &content]),
            none(6, &[&OID, &content, null]),
            none(7, &[&OID, null, &content]),
            none(12, &[null, &OID, &content]),
            none(6, &[&OID, &signed]),
            inside(7, &[]),
            inside(12, &[null]),
            inside(6, &[&signed, null]),
            inside(7, &[null, &signed]),
            inside(12, &[&signed, &signed]),
            inside(6, &[&signed[2..]]),
            inside(7, &[&item(0x30, &signed)]),
            no_block(12, &signed),
            no_block(6, &content),
            no_block(7, &C8),
        ]
        .concat(),
    )
}

/// What is inside version, digestAlgorithms, encapContentInfo, crls and signerInfos. The certificates stand where they stood where
/// nothing before them has another length.
fn insides() -> Group {
    let field = item(0xA0, &C8);
    let with = |kind: u64, three: &[&[u8]], end: &[&[u8]]| {
        let (three, end) = (three.concat(), end.concat());
        a_block(kind, &block_of(&[&three, &field, &end]), 19 + three.len(), 8)
    };
    let long = item(2, &[0xFF; 20]);
    (
        "the other parts are judged by their tags, and by DER inside",
        [
            with(6, &[&[2, 0], &[0x31, 0], &[0x30, 0]], &[&SIGNERS]),
            with(7, &[&long, &[0x31, 0], &[0x30, 0]], &[&SIGNERS]),
            with(12, &[&[2, 1, 3], &[0x31, 2, 5, 0], &[0x30, 2, 0, 0]], &[&SIGNERS]),
            with(6, &[&[2, 1, 3], &item(0x31, &C8), &item(0x30, &C9)], &[&SIGNERS]),
            with(7, &THREES, &[&item(0xA1, &C8), &item(0x31, &C9)]),
            with(12, &THREES, &[&[0xA1, 4, 0, 0, 0xA0, 0], &SIGNERS]),
            with(6, &THREES, &[&NO_CRLS, &[0x31, 4, 0x1E, 0, 0x31, 0]]),
        ]
        .concat(),
    )
}

const THREES: [&[u8]; 1] = [&THREE];

fn torn_blocks() -> Group {
    let none = |kind: u64, parts: &[&[u8]]| no_block(kind, &block_of(parts));
    let (version, digests, content) = (&THREE[..3], &THREE[3..5], &THREE[5..]);
    let field = &item(0xA0, &C8)[..];
    (
        "an item inside any part that is none: a tag of number 31, half an item, a byte left over, a length that is too large",
        [
            none(6, &[version, &[0x31, 2, 0x1F, 0], content, field, &SIGNERS]),
            none(7, &[version, &[0x31, 1, 5], content, field, &SIGNERS]),
            none(12, &[version, digests, &[0x30, 3, 5, 0, 5], field, &SIGNERS]),
            none(6, &[version, digests, &[0x30, 2, 5, 1], field, &SIGNERS]),
            none(7, &[&THREE, &[0xA0, 1, 5], &SIGNERS]),
            none(12, &[&THREE, &[0xA0, 2, 0x1F, 0], &SIGNERS]),
            none(6, &[&THREE, &[0xA0, 2, 0x3F, 0], &SIGNERS]),
            none(7, &[&THREE, &[0xA0, 3, 0xBF, 0x1F, 0], &SIGNERS]),
            none(12, &[&THREE, &[0xA0, 3, 5, 0, 5], &SIGNERS]),
            none(6, &[&THREE, &item(0xA0, &[&C8[..], &[0x1F, 0]].concat()), &SIGNERS]),
            none(7, &[&THREE, &item(0xA0, &[&C8[..], &[5]].concat()), &SIGNERS]),
            none(12, &[&THREE, &item(0xA0, &[0x30, 2, 5, 1]), &SIGNERS]),
            none(6, &[&THREE, field, &[0xA1, 1, 5], &SIGNERS]),
            none(7, &[&THREE, field, &[0xA1, 2, 5, 2], &SIGNERS]),
            none(12, &[&THREE, field, &[0x31, 1, 0x30]]),
            none(6, &[&THREE, field, &[0x31, 3, 0x30, 1, 5]]),
            none(7, &[&THREE, field, &[0x31, 1]]),
            none(12, &[&THREE, field, &[0x31]]),
        ]
        .concat(),
    )
}

/// A block without its last bytes; no bytes at all are 21 in a biometric, which has to have a signature.
fn cut_blocks() -> Group {
    let block = whole_block();
    let cut = (1..block.len()).flat_map(|end| no_block(BIOMETRICS[end % 3], &block[..end]));
    let behind = (1..block.len()).flat_map(|start| no_block(BIOMETRICS[start % 3], &block[start..]));
    let none = |kind: u64| {
        [
            signer(kind, &chuid_of(&[]), &biometric_of(kind, &holding_none()), neither(30)),
            signer(kind, &chuid_of(&block), &biometric_of(kind, &[]), Err(((21, 3, Some(0xBC)), IN_BIOMETRIC))),
        ]
    };
    let none = BIOMETRICS.into_iter().flat_map(none);
    ("a block cut off after each of its bytes, and begun behind each", cut.chain(behind).chain(none).collect())
}

fn bytes_behind() -> Group {
    let block = whole_block();
    let (null, again) = ([5, 0], block.clone());
    let behind: [&[u8]; 7] = [&[0], &[0, 0], &[5], &[0x30], &null, &[0xFF], &again];
    let each = behind.iter().enumerate();
    let cases = each.flat_map(|(i, behind)| no_block(BIOMETRICS[i % 3], &[&block[..], behind].concat()));
    ("bytes behind the one item of a block: one, several, an item, and the block again", cases.collect())
}

/// The whole block's items that have a length behind their tag.
const LENGTHS: [usize; 12] = [0, 2, 13, 15, 17, 20, 22, 24, 27, 29, 37, 39];

/// The lengths around an item that is a byte longer are right: those of the ContentInfo, its content, the SignedData and the field.
fn lengths_in_blocks() -> Group {
    let block = whole_block();
    let around = [(0, 1), (13, 14), (15, 16), (22, 23), (27, 28)];
    let longer = |at: usize, bytes: &[u8]| {
        let mut out = block.clone();
        for (tag, length) in around {
            let end = tag + 2 + usize::from(block[length]);
            if tag < at && at < end {
                out[length] += bytes.len() as u8 - 1;
            }
        }
        out.splice(at + 1..at + 2, bytes.iter().copied());
        out
    };
    let mut cases = Vec::new();
    for (i, at) in LENGTHS.into_iter().enumerate() {
        let (kind, length) = (BIOMETRICS[i % 3], block[at + 1]);
        cases.extend(no_block(kind, &longer(at, &[0x81, length])));
        cases.extend(no_block(kind, &longer(at, &[0x82, 0, length])));
        cases.extend(no_block(kind, &longer(at, &[0x84, 0, 0, 0, length])));
        cases.extend(no_block(kind, &with_bytes(block.clone(), at + 1, &[0x80])));
        cases.extend(no_block(kind, &with_bytes(block.clone(), at + 1, &[length + 1])));
        cases.extend(no_block(kind, &with_bytes(block.clone(), at + 1, &[length.wrapping_sub(1)])));
    }
    ("every length of a block in more bytes than the fewest, not definite, and one off", cases)
}

/// A SignedData's parts stand at level 4, and what is inside them at level 5.
fn levels_of_blocks() -> Group {
    let field = item(0xA0, &C8);
    // an item at this level, in the part that is put around it
    let down_to =
        |level: usize, innermost: &[u8]| (0..level - 5).fold(innermost.to_vec(), |inside, _| item(0x30, &inside));
    let mut cases = Vec::new();
    for level in 14..=18 {
        for innermost in [&[5, 0][..], &[0x30, 0]] {
            let deep = down_to(level, innermost);
            let (digests, content) = (item(0x31, &deep), item(0x30, &deep));
            let before = [&THREE[..3], &digests, &THREE[5..]].concat();
            let inside = [&THREE[..5], &content].concat();
            let first = item(0xA0, &[&deep[..], &C8].concat());
            let second = item(0xA0, &[&C8[..], &deep].concat());
            let blocks = [
                (block_of(&[&before, &field, &SIGNERS]), 19 + before.len(), 8),
                (block_of(&[&inside, &field, &SIGNERS]), 19 + inside.len(), 8),
                (block_of(&[&THREE, &first, &SIGNERS]), 29, deep.len()),
                (block_of(&[&THREE, &second, &SIGNERS]), 29, 8),
                (block_of(&[&THREE, &field, &item(0xA1, &deep), &SIGNERS]), 29, 8),
                (block_of(&[&THREE, &field, &item(0x31, &deep)]), 29, 8),
            ];
            for (i, (block, at, length)) in blocks.iter().enumerate() {
                let kind = BIOMETRICS[(i + level) % 3];
                cases.extend(if level <= 16 { a_block(kind, block, *at, *length) } else { no_block(kind, block) });
            }
        }
    }
    // at level 17 nothing of the item is looked at, and it is 29 or 30 as any fault
    for innermost in [&[0x1F, 0][..], &[5], &[5, 0x80]] {
        for level in [16, 17] {
            cases.extend(no_block(6, &block_of(&[&THREE, &item(0xA0, &down_to(level, innermost)), &SIGNERS])));
        }
    }
    ("an item at levels 14 to 18, in each part of a block that can have one", cases)
}

// ---------------------------------------------------------------------------------------------
// What the checks say

fn kinds() -> Group {
    let others = [0, 1, 2, 3, 4, 5, 8, 9, 10, 11, 13, 24, 255, 256 + 6, 65_536 + 7, (1 << 32) + 12, u64::MAX];
    let (one, fingers) = (chuid_of(&holding(&C8)), biometric_of(6, &holding(&C9)));
    let large = vec![0; CONTAINER_MAX + 1];
    let mut cases = Vec::new();
    for kind in others {
        cases.push(signer(kind, &one, &fingers, neither(1)));
        cases.push(on(0, signer(kind, &one, &fingers, neither(1))));
        cases.push(signer(kind, &[], &[], neither(1)));
        cases.push(on(20260229, signer(kind, &large, &large, neither(1))));
        cases.push(signer(kind, &one, &one, neither(1)));
    }
    ("1: a kind that is not FINGERS, FACE or IRIS, before all", cases)
}

fn days() -> Group {
    let none = [0, 20260229, 20261301, 20260100, 10_100, 99991232, 100_000_101, u64::MAX, EXAMPLE_DAY + (1 << 32)];
    let (one, large) = (chuid_of(&holding(&C8)), vec![0; CONTAINER_MAX + 1]);
    let mut cases = Vec::new();
    for day in none {
        for kind in BIOMETRICS {
            let biometric = biometric_of(kind, &holding(&C9));
            for (chuid, biometric) in [(&one[..], &biometric[..]), (&[], &[]), (&large, &large), (&one, &[])] {
                cases.push(on(day, signer(kind, chuid, biometric, Err((alone(2), IN_CHUID)))));
            }
        }
    }
    // the expiry is 20300131: the day itself, six years before it, and a day beside each
    let at = |kind| Ok((IN_BIOMETRIC, certificate_at(kind), 9));
    for (day, good) in [(20300131, true), (20240131, true), (20240130, false), (20300201, false)] {
        let refused = Err(((19, 47, Some(0x35)), IN_CHUID));
        cases.extend(BIOMETRICS.map(|kind| {
            let biometric = biometric_of(kind, &holding(&C9));
            on(day, signer(kind, &one, &biometric, if good { at(kind) } else { refused }))
        }));
    }
    ("2: a day that is none is told by the CHUID's check; on others that check has its window", cases)
}

/// The CHUID of the worked cases has 100 bytes: 30 stands at 2, 34 at 29, 35 at 47, 3E at 57 and FE at 98.
fn refused_chuids() -> Group {
    let good = chuid_of(&holding(&C8));
    let with = |at: usize, byte: u8| with_bytes(good.clone(), at, &[byte]);
    let content = |elements: &[&[u8]]| item(0x53, &elements.concat());
    let (first, rest) = (&good[2..29], &good[29..]);
    let each = [
        (Vec::new(), alone(10)),
        (vec![0x53], alone(11)),
        (vec![0x53, 0], (15, 2, None)),
        (vec![0; CONTAINER_MAX + 1], alone(4)),
        (vec![0; CONTAINER_MAX], alone(10)),
        (with(0, 0x7E), alone(10)),
        (with(1, 0x80), alone(11)),
        (with(1, 97), alone(12)),
        ([&good[..], &[0]].concat(), alone(12)),
        (with(2, 0x31), (13, 2, Some(0x31))),
        (with(98, 0x00), (13, 98, Some(0x00))),
        (content(&[first, first, rest]), (14, 29, Some(0x30))),
        (content(&[rest]), (15, 2, Some(0x34))),
        (content(&[first, &good[29..57], &[0xFE, 0]]), (15, 57, Some(0xFE))),
        (content(&[first, &good[29..98]]), (15, 98, None)),
        (with(58, 0x80), (11, 57, Some(0x3E))),
        (with(58, 0x7F), (12, 57, Some(0x3E))),
        (content(&[&[0x30, 24], &good[4..28], rest]), (16, 2, Some(0x30))),
        (content(&[first, &good[29..98], &[0xFE, 1, 0]]), (16, 98, Some(0xFE))),
        (with(28, 0xEA), (17, 2, Some(0x30))),
        (with(37, 0x20), (18, 29, Some(0x34))),
        (with(49, 0x31), (19, 47, Some(0x35))),
    ];
    let mut cases = Vec::new();
    for (i, (chuid, refusal)) in each.iter().enumerate() {
        let kind = BIOMETRICS[i % 3];
        let biometrics = [biometric_of(kind, &holding(&C9)), biometric_of(kind, b"SIG"), Vec::new(), vec![0x53, 0]];
        let told = Err((*refusal, IN_CHUID));
        cases.extend(biometrics.iter().map(|biometric| signer(kind, chuid, biometric, told)));
    }
    ("each refusal of the CHUID's check with its place and tag, whatever the biometric is", cases)
}

/// The FINGERS of the worked cases, with one certificate, has 173 bytes: BC stands at 3, its header at 6, its record at 94, its block
/// at 132 and FE at 171.
fn refused_biometrics() -> Group {
    let good = biometric_of(6, &holding(&C8));
    assert_eq!((good.len(), good[171]), (173, 0xFE));
    let with = |at: usize, byte: u8| with_bytes(good.clone(), at, &[byte]);
    let at_bc = |number| (number, 3, Some(0xBC));
    let bc = &good[3..171];
    let each = [
        (6, Vec::new(), alone(10)),
        (7, vec![0x53], alone(11)),
        (12, vec![0x53, 0], (15, 2, None)),
        (6, vec![0; CONTAINER_MAX + 1], alone(4)),
        (7, vec![0; CONTAINER_MAX], alone(10)),
        (6, with(0, 0x7E), alone(10)),
        (6, with(1, 0x80), alone(11)),
        (6, with(2, 0xAB), alone(12)),
        (6, [&good[..], &[0]].concat(), alone(12)),
        (6, with(3, 0xBD), (13, 3, Some(0xBD))),
        (6, with(171, 0x00), (13, 171, Some(0x00))),
        (6, item(0x53, &[bc, bc, &[0xFE, 0]].concat()), (14, 172, Some(0xBC))),
        (6, vec![0x53, 2, 0xFE, 0], (15, 2, Some(0xFE))),
        (6, item(0x53, bc), (15, 171, None)),
        (6, with(4, 0x85), at_bc(11)),
        (6, with(5, 0xFF), at_bc(12)),
        (6, item(0x53, &[&item(0xBC, &good[6..93])[..], &[0xFE, 0]].concat()), (16, 2, Some(0xBC))),
        (6, item(0x53, &[bc, &[0xFE, 1, 0]].concat()), (16, 171, Some(0xFE))),
        (6, with(6, 2), at_bc(21)),
        (6, with(13, 38), at_bc(21)),
        (6, with(89, 0xEA), at_bc(17)),
        (6, with(93, 1), at_bc(21)),
        (6, with(94, 0), at_bc(22)),
        (7, with_bytes(biometric_of(7, &holding(&C8)), 94, &[0]), at_bc(26)),
        (12, with_bytes(biometric_of(12, &holding(&C8)), 94, &[0]), at_bc(27)),
        (7, good.clone(), at_bc(21)),
        (12, good.clone(), at_bc(21)),
        (6, biometric_of(7, &holding(&C8)), at_bc(21)),
        (6, biometric_of(12, &holding(&C8)), at_bc(21)),
    ];
    let chuids = [
        chuid_of(&holding(&C8)),
        chuid_of(b"X"),
        chuid(&P8, EXPIRES, &[]).container(),
        whole_chuid(&holding_none()).container(),
    ];
    let of = |(kind, biometric, refusal): &(u64, Vec<u8>, Verdict)| {
        let told = Err((*refusal, IN_BIOMETRIC));
        chuids.iter().map(|chuid| signer(*kind, chuid, biometric, told)).collect::<Vec<_>>()
    };
    (
        "each refusal of the biometric's check with its place and tag, whatever the CHUID holds",
        each.iter().flat_map(of).collect(),
    )
}

/// A long certificate, so that the container has this many bytes: each length around it has three.
fn large_ones() -> Group {
    let block = |content: usize| holding(&item(0x04, &vec![0x30; content]));
    let mut cases = Vec::new();
    for kind in BIOMETRICS {
        let of = |content: usize| biometric_of(kind, &block(content));
        let rest = of(1_000).len() - 1_000;
        let chuid_rest = chuid_of(&block(1_000)).len() - 1_000;
        let chuid_with = |total: usize| chuid_of(&block(total - chuid_rest));
        let none = biometric_of(kind, &holding_none());
        // the last part of the block and FE stand behind the certificate
        let told = |which, total: usize, rest: usize| Ok((which, total - 4 - (total - rest) - 4, total - rest + 4));
        let (largest, larger) = (of(CONTAINER_MAX - rest), of(CONTAINER_MAX + 1 - rest));
        assert_eq!([largest.len(), larger.len()], [32_768, 32_769]);
        cases.push(signer(kind, &chuid_of(&[]), &largest, told(IN_BIOMETRIC, CONTAINER_MAX, rest)));
        cases.push(signer(kind, &chuid_with(CONTAINER_MAX), &largest, told(IN_BIOMETRIC, CONTAINER_MAX, rest)));
        cases.push(signer(kind, &chuid_with(CONTAINER_MAX), &none, told(IN_CHUID, CONTAINER_MAX, chuid_rest)));
        cases.push(signer(kind, &chuid_of(&[]), &larger, Err((alone(4), IN_BIOMETRIC))));
        cases.push(signer(kind, &chuid_with(CONTAINER_MAX + 1), &none, Err((alone(4), IN_CHUID))));
        cases.push(signer(kind, &chuid_with(CONTAINER_MAX + 1), &larger, Err((alone(4), IN_CHUID))));
        cases.push(signer(kind, &chuid_with(CONTAINER_MAX), &larger, Err((alone(4), IN_BIOMETRIC))));
    }
    ("containers of 32,768 bytes, and 4 for one of 32,769, of which the CHUID is the first", cases)
}

fn swapped() -> Group {
    let (one, fingers) = (chuid_of(&holding(&C8)), biometric_of(6, &holding(&C9)));
    let first = Err(((13, 3, Some(0xBC)), IN_CHUID));
    (
        "each container in the other's place, and the same one in both",
        vec![
            signer(6, &fingers, &one, first),
            signer(6, &fingers, &fingers, first),
            signer(6, &one, &one, Err(((13, 2, Some(0x30)), IN_BIOMETRIC))),
        ],
    )
}

// ---------------------------------------------------------------------------------------------
// The order of the refusals

fn one_digit_off() -> Group {
    let mut cases = Vec::new();
    for (i, (_, other)) in other_fascns().iter().enumerate() {
        let kind = BIOMETRICS[i % 3];
        let block = holding(&C8);
        let with = |fascn| biometric_with(kind, fascn, [0; 4], &block).container();
        let (one, two) = (chuid_of(&block), chuid(other, EXPIRES, &block).container());
        cases.push(signer(kind, &one, &with(other), neither(28)));
        cases.push(signer(kind, &two, &with(&EXAMPLE_FASCN), neither(28)));
        cases.push(signer(kind, &two, &with(other), Ok((IN_BIOMETRIC, certificate_at(kind), 8))));
    }
    ("28: FASC-N that differ in one digit, whichever it is; another that is the same in both", cases)
}

/// With all optional elements 30 stands at 7, and the value of 3E at 99.
fn fascn_elsewhere() -> Group {
    let block = holding(&C8);
    let whole = whole_chuid(&block).container();
    let mut cases = Vec::new();
    for kind in BIOMETRICS {
        let other = biometric_with(kind, &P8, [0; 4], &block).container();
        cases.push(signer(kind, &whole, &biometric_of(kind, &holding_none()), Ok((IN_CHUID, 99 + 29, 8))));
        cases.push(signer(kind, &whole, &biometric_of(kind, &block), Ok((IN_BIOMETRIC, certificate_at(kind), 8))));
        cases.push(signer(kind, &whole, &other, neither(28)));
    }
    ("a CHUID with each optional element: its FASC-N and its block stand elsewhere", cases)
}

/// Seven faults, each or not: the kind, the day, the CHUID, the biometric, the FASC-N, the biometric's block and the CHUID's.
fn every_order() -> Group {
    let mut cases = Vec::new();
    for kind in BIOMETRICS {
        for faults in 0..128u32 {
            let wrong = |bit: u32| faults >> bit & 1 == 1;
            let fascn = if wrong(4) { P8 } else { EXAMPLE_FASCN };
            let reserved = if wrong(3) { [0, 0, 0, 1] } else { [0; 4] };
            let block = if wrong(5) { b"SIG".to_vec() } else { holding_none() };
            let biometric = biometric_with(kind, &fascn, reserved, &block).container();
            let chuid_block = if wrong(6) { b"X".to_vec() } else { holding(&C8) };
            let expires: &[u8] = if wrong(2) { b"20260228" } else { EXPIRES };
            let one = chuid(&EXAMPLE_FASCN, expires, &chuid_block).container();
            let told = match faults.trailing_zeros() {
                0 => neither(1),
                1 => Err((alone(2), IN_CHUID)),
                2 => Err(((19, 47, Some(0x35)), IN_CHUID)),
                3 => Err(((21, 3, Some(0xBC)), IN_BIOMETRIC)),
                4 => neither(28),
                5 => neither(29),
                6 => neither(30),
                _ => Ok((IN_CHUID, CHUID_CERTIFICATE, 8)),
            };
            let asked = if wrong(0) { 5 } else { kind };
            let case = signer(asked, &one, &biometric, told);
            cases.push(if wrong(1) { on(20261131, case) } else { case });
        }
    }
    ("the kind, the day, the CHUID, the biometric, the FASC-N and both blocks: the first that is wrong is told", cases)
}

/// So many zeros in the outer length, and in that of the element with the block, of each container: what is behind stands further.
fn longer_forms() -> Group {
    let forms = |outer: usize, rows: usize| Forms { outer: Form::Padded(outer), ..Forms::all(Form::Padded(rows)) };
    // 3E of 154 bytes and BC of 280 or more
    let block = holding(&[&C8[..], &item(4, &[0; 110])].concat());
    let one = |outer, rows| chuid(&EXAMPLE_FASCN, EXPIRES, &block).container_in(&forms(outer, rows));
    let in_one = |outer: usize, rows: usize| 3 + outer + 27 + 18 + 10 + 3 + rows + 3 + 11 + 3 + 3 + 10 + 2;
    let mut cases = Vec::new();
    for (outer, rows) in (0..=3).flat_map(|outer| (0..=3).map(move |rows| (outer, rows))) {
        for (kind, record) in BIOMETRICS.into_iter().zip([38, 46, 68]) {
            // lengths of 256 and more have two bytes already, and so one zero less is to be had
            let (more, further) = (outer.min(2), rows.min(2));
            let at = 4 + more + 4 + further + 88 + record + 3 + 11 + 3 + 3 + 10 + 2;
            let with = |block: &[u8]| biometric_with(kind, &EXAMPLE_FASCN, [0; 4], block);
            let biometric = with(&block).container_in(&forms(outer, rows));
            cases.push(signer(kind, &one(rows, outer), &biometric, Ok((IN_BIOMETRIC, at, 8))));
            let none = with(&holding_none()).container_in(&forms(rows, outer));
            cases.push(signer(kind, &one(outer, rows), &none, Ok((IN_CHUID, in_one(outer, rows), 8))));
            let refusal = ((21, 4 + more as u64, Some(0xBC)), IN_BIOMETRIC);
            let broken = biometric_with(kind, &EXAMPLE_FASCN, [0, 0, 0, 1], &block).container_in(&forms(outer, rows));
            cases.push(signer(kind, &one(0, 0), &broken, Err(refusal)));
        }
    }
    ("lengths in every form: the same certificate, and its offset is that in the container as it is given", cases)
}
