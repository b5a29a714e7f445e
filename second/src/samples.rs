//! The samples: for each kind a container that conforms on 1 March 2026, and one that breaks a rule in an instructive way. One more
//! conforms with lengths in longer forms, and three with a signature block that is a SignedData.

use crate::blocks::{signed_data, IDENTIFIER, INTEGER, SET};
use crate::faces::{self, facial, Image};
use crate::fingers::minutiae_record;
use crate::generate::{Card, Form, Forms, EXAMPLE_DAY, EXAMPLE_FASCN};
use crate::irises::{self, iris_record, with_flag_and_eyes, Representation};
use crate::signer::CHUID_KIND;
use crate::trees::{self, Tree};
use crate::values::{signature_of, Format, CERTIFICATE_LEVELS, FACE, FINGERS, HEADER_FASCN, IRIS};
use crate::{report, REPORT_MAX};

pub struct Sample {
    pub kind: u64,
    pub name: &'static str,
    pub container: Vec<u8>,
}

/// A UUID of version 4.
pub const UUID: [u8; 16] = [1, 1, 1, 1, 1, 1, 0x40, 0, 0x80, 1, 1, 1, 1, 1, 1, 1];

/// A card with these values by row.
pub fn card(kind: u64, values: &[Option<&[u8]>]) -> Card {
    Card { kind, today: EXAMPLE_DAY, rows: values.iter().map(|value| value.map(<[u8]>::to_vec)).collect() }
}

pub fn ccc(model: u8) -> Card {
    let values: [&[u8]; 12] = [&[0; 21], &[0x21], &[0x21], &[], &[0], &[model], &[0; 17], &[], &[], &[], &[], &[]];
    let mut values = values.map(Some).to_vec();
    values.extend([None, None, Some(&[][..])]);
    card(1, &values)
}

/// A CHUID without optional elements; `signature` is 3E.
pub fn chuid(fascn: &[u8], expires: &[u8], signature: &[u8]) -> Card {
    card(2, &[None, Some(fascn), None, None, Some(&UUID), Some(expires), None, Some(signature), Some(&[])])
}

pub fn discovery(policy: [u8; 2]) -> Card {
    card(3, &[Some(&[0xA0, 0, 0, 3, 8, 0, 0, 0x10, 0, 1, 0]), Some(&policy)])
}

pub fn printed(affiliation: &[u8], expires: &[u8]) -> Card {
    let texts: [&[u8]; 5] = [b"DOE, JANE", affiliation, expires, b"1234", b"GENERIC SENDER "];
    let mut values = texts.map(Some).to_vec();
    values.extend([None, None, Some(&[][..])]);
    card(4, &values)
}

pub fn security(mapping: &[u8], object: &[u8]) -> Card {
    card(5, &[Some(mapping), Some(object), Some(&[])])
}

/// A biometric record: the header, the data, the signature.
fn biometric(kind: u64, format: &Format, quality: u8, data: &[u8], signature: &[u8]) -> Card {
    let moment = [20, 26, 1, 1, 0, 0, 0, b'Z'];
    let mut value = vec![0x03, 0x0D];
    value.extend((data.len() as u32).to_be_bytes());
    value.extend((signature.len() as u16).to_be_bytes());
    value.extend([format.owner, format.format].concat());
    value.extend([moment, moment, moment].concat());
    value.extend(format.biometric_type);
    value.extend([format.data_type << 5, quality]);
    value.extend([0; 18]);
    value.extend(EXAMPLE_FASCN);
    value.extend([0; 4]);
    value.extend(data);
    value.extend(signature);
    card(kind, &[Some(&value), Some(&[])])
}

/// Two views with so many minutiae.
pub fn fingers(quality: u8, last_of_version: u8, counts: [u8; 2]) -> Card {
    let minutia = [0x40, 0x10, 0x00, 0x20, 179, 100];
    let length = 38 + 6 * (u16::from(counts[0]) + u16::from(counts[1]));
    let mut data = b"FMR\0 20".to_vec();
    data.push(last_of_version);
    data.extend(length.to_be_bytes());
    data.extend([9; 10]);
    data.extend([0, 197, 0, 197, 2, 0]);
    for count in counts {
        data.extend([1, 0, 60, count]);
        data.extend(minutia.repeat(usize::from(count)));
        data.extend([0, 0]);
    }
    fingers_with(quality, &data, 1)
}

/// Fingers with these data, which should be a minutiae record, and so many bytes of signature.
pub fn fingers_with(quality: u8, record: &[u8], signature: usize) -> Card {
    biometric(6, &FINGERS, quality, record, &vec![0x30; signature])
}

/// A face with these data, which should be a facial record, and so many bytes of signature.
pub fn face(quality: u8, record: &[u8], signature: usize) -> Card {
    biometric(7, &FACE, quality, record, &vec![0x30; signature])
}

/// An iris with these data, which should be an iris record, and so many bytes of signature.
pub fn iris(quality: u8, record: &[u8], signature: usize) -> Card {
    biometric(12, &IRIS, quality, record, &vec![0x30; signature])
}

/// A biometric of this kind with its least record and this signature block.
pub fn signed(kind: u64, block: &[u8]) -> Card {
    match kind {
        6 => biometric(6, &FINGERS, 100, &minutiae_record([&[], &[]]), block),
        7 => biometric(7, &FACE, 100, &faces::least(), block),
        _ => biometric(12, &IRIS, 100, &irises::least(), block),
    }
}

/// The card with this signature block: a CHUID's 3E, or the end of a biometric's BC, whose length follows.
pub fn with_block(mut card: Card, block: &[u8]) -> Card {
    if card.kind == CHUID_KIND {
        card.rows[7] = Some(block.to_vec());
    } else if let Some(value) = &mut card.rows[0] {
        value.truncate(value.len() - signature_of(value).len());
        value[6..8].copy_from_slice(&(block.len() as u16).to_be_bytes());
        value.extend(block);
    }
    card
}

/// The card with this FASC-N: a CHUID's 30, or that in the header of a biometric.
pub fn with_fascn(mut card: Card, fascn: &[u8]) -> Card {
    if card.kind == CHUID_KIND {
        card.rows[1] = Some(fascn.to_vec());
    } else if let Some(value) = &mut card.rows[0] {
        value[HEADER_FASCN].copy_from_slice(fascn);
    }
    card
}

/// A drawn face of 240 by 320 pixels in JPEG 2000, made once with opj_compress.
pub const PICTURE: &[u8] = include_bytes!("pictures/face.jp2");

/// The picture as an image of a facial record. The feature points are both eyes and the tip of the nose.
pub fn portrait() -> Image {
    let point = |code, x, y| [1, code, 0, x, 0, y, 0, 0];
    Image {
        free: [0; 14],
        points: vec![point(0xC1, 146, 144), point(0xC2, 94, 144), point(0x93, 120, 188)],
        data_type: 1,
        width: 240,
        height: 320,
        pixels: PICTURE.to_vec(),
        ..Image::plain(0, 0)
    }
}

/// A drawn eye of 320 by 240 pixels in JPEG 2000, made likewise. The iris is 200 pixels wide, and its middle is the picture's.
pub const EYE: &[u8] = include_bytes!("pictures/iris.jp2");

/// The picture as the representation with this number, which is the eye's label too. It has a quality block: 80, by the algorithm 1
/// of the vendor 1.
pub fn eye(number: u16) -> Representation {
    Representation {
        device: [0; 5],
        blocks: vec![[80, 0, 1, 0, 1]],
        label: number as u8,
        range_and_roll: [0; 6],
        diameter: [196, 200],
        image: EYE.to_vec(),
        ..Representation::plain(number, 0, 0).sized(320, 240)
    }
}

/// The record of two eyes.
pub fn eyes() -> Vec<u8> {
    with_flag_and_eyes(iris_record(&[eye(1), eye(2)]), 0, 2)
}

/// A certificate of an RSA key with the extensions of a PIV card, made once with openssl. The holder is invented and signed it
/// himself; his other names are the FASC-N and the UUID of the other samples.
pub const RSA: &[u8] = include_bytes!("certificates/rsa2048.der");

/// The same, compressed by gzip.
pub const COMPRESSED: &[u8] = include_bytes!("certificates/rsa2048.der.gz");

/// A certificate of a key on the curve P-256, made likewise.
pub const P256: &[u8] = include_bytes!("certificates/p256.der");

/// A signature block as a biometric has it, with these certificates; without any the field is not there. The digest and the
/// signature are invented, and so nothing is signed by it.
pub fn block(certificates: &[&[u8]]) -> Vec<u8> {
    block_for(&BIOMETRIC_OBJECT, certificates)
}

/// The same for what has this identifier.
fn block_for(object: &[u8], certificates: &[&[u8]]) -> Vec<u8> {
    let identifier = |bytes: &[u8]| Tree::primitive(IDENTIFIER, bytes);
    let algorithm = |bytes: &[u8]| Tree::sequence(vec![identifier(bytes), Tree::empty()]);
    let attribute = |bytes: &[u8], value| Tree::sequence(vec![identifier(bytes), Tree::constructed(SET, vec![value])]);
    let name = Tree::sequence(vec![identifier(&[0x55, 4, 3]), Tree::primitive(0x0C, b"Example Signer")]);
    let issuer = Tree::sequence(vec![Tree::constructed(SET, vec![name])]);
    let signed_attributes =
        vec![attribute(&CONTENT_TYPE, identifier(object)), attribute(&MESSAGE_DIGEST, Tree::primitive(4, &[0xD1; 32]))];
    let signer = Tree::sequence(vec![
        Tree::primitive(INTEGER, &[1]),
        Tree::sequence(vec![issuer, Tree::primitive(INTEGER, &[7; 16])]),
        algorithm(&SHA_256),
        Tree::constructed(0xA0, signed_attributes),
        algorithm(&RSA_WITH_SHA_256),
        Tree::primitive(4, &[0x51; 256]),
    ]);
    let mut parts = vec![
        Tree::primitive(INTEGER, &[3]),
        Tree::constructed(SET, vec![algorithm(&SHA_256)]),
        Tree::sequence(vec![identifier(object)]),
        Tree::constructed(SET, vec![signer]),
    ];
    if !certificates.is_empty() {
        let read = |bytes: &&[u8]| Tree::of(bytes, CERTIFICATE_LEVELS).expect("a certificate that conforms");
        parts.insert(3, Tree::constructed(0xA0, certificates.iter().map(read).collect()));
    }
    signed_data(parts).bytes()
}

/// Identifiers in that block: sha256, sha256WithRSAEncryption, contentType, messageDigest, and what is signed, for a CHUID
/// 2.16.840.1.101.3.6.1 and for a biometric 2.16.840.1.101.3.6.2.
const SHA_256: [u8; 9] = [0x60, 0x86, 0x48, 0x01, 0x65, 3, 4, 2, 1];
const RSA_WITH_SHA_256: [u8; 9] = [0x2A, 0x86, 0x48, 0x86, 0xF7, 0x0D, 1, 1, 11];
const CONTENT_TYPE: [u8; 9] = [0x2A, 0x86, 0x48, 0x86, 0xF7, 0x0D, 1, 9, 3];
const MESSAGE_DIGEST: [u8; 9] = [0x2A, 0x86, 0x48, 0x86, 0xF7, 0x0D, 1, 9, 4];
const CHUID_OBJECT: [u8; 8] = [0x60, 0x86, 0x48, 0x01, 0x65, 3, 6, 1];
const BIOMETRIC_OBJECT: [u8; 8] = [0x60, 0x86, 0x48, 0x01, 0x65, 3, 6, 2];

/// A card with a certificate: 70, 71, and 72 if it is there.
pub fn certificate(kind: u64, certificate: &[u8], information: u8, extra: Option<&[u8]>) -> Card {
    card(kind, &[Some(certificate), Some(&[information]), extra, Some(&[])])
}

/// The FASC-N of 01's example P2: the last bit is another, which is the parity of the check character.
pub fn wrong_fascn() -> [u8; 25] {
    let mut fascn = EXAMPLE_FASCN;
    fascn[24] = 0xEA;
    fascn
}

/// A CHUID with 200 bytes of 3E. That length is written as 84 00 00 00 C8, and the outer one as 83 00 01 07.
fn chuid_in_longer_forms() -> Sample {
    let card = chuid(&EXAMPLE_FASCN, b"20300131", &[0xAA; 200]);
    let forms = Forms { outer: Form::Padded(1), ..Forms::all(Form::Padded(3)) };
    Sample { kind: card.kind, name: "chuid-longer", container: card.container_in(&forms) }
}

pub fn all() -> Vec<Sample> {
    let sample = |name, card: Card| Sample { kind: card.kind, name, container: card.container() };
    vec![
        sample("ccc", ccc(0x10)),
        // a data model that is not 10 hex
        sample("ccc-broken", ccc(0x11)),
        sample("chuid", chuid(&EXAMPLE_FASCN, b"20300131", &[])),
        sample("chuid-broken", chuid(&wrong_fascn(), b"20300131", &[])),
        chuid_in_longer_forms(),
        // with a certificate: that of who signed the face below
        sample("chuid-signed", chuid(&EXAMPLE_FASCN, b"20300131", &block_for(&CHUID_OBJECT, &[P256]))),
        sample("discovery", discovery([0x40, 0])),
        // a policy of 60 hex asks for 10 or 20 in the second byte
        sample("discovery-broken", discovery([0x60, 0])),
        sample("printed", printed(b"AGENT", b"2030JAN31")),
        // 30 February
        sample("printed-broken", printed(b"AGENT", b"2030FEB30")),
        sample("security", security(&[1, 2], &[3; 140])),
        // the last element is missing
        sample("security-broken", card(5, &[Some(&[]), Some(&[]), None])),
        sample("fingers", fingers(100, b'0', [3, 5])),
        // the version number as INCITS 378 has it, and 004 has not
        sample("fingers-broken", fingers(100, 0, [3, 5])),
        // with a certificate of its own
        sample("fingers-signed", with_block(fingers(100, b'0', [3, 5]), &block(&[RSA]))),
        sample("face", face(100, &facial(&[portrait()]), 40)),
        // a good header and rubbish after it
        sample("face-broken", face(100, &[0xFF; 300], 40)),
        // with none, so that the CHUID's counts
        sample("face-signed", with_block(face(100, &facial(&[portrait()]), 40), &block(&[]))),
        sample("pivauth", certificate(8, RSA, 0, None)),
        // a certificate that is compressed, and says so in 71: 70 is judged before, and gzip's first byte is no tag
        sample("pivauth-broken", certificate(8, COMPRESSED, 1, None)),
        sample("digsig", certificate(9, P256, 0, None)),
        // the least certificate with an item at level 9
        sample("digsig-broken", certificate(9, &trees::down_to(9, 5, &[]).bytes(), 0, None)),
        // the most bytes of 72
        sample("keymgmt", certificate(10, P256, 0, Some(&[0x41; 38]))),
        // 71 says that the certificate is compressed, and it is not
        sample("keymgmt-broken", certificate(10, P256, 1, None)),
        sample("cardauth", certificate(11, &trees::least().bytes(), 0, Some(&[]))),
        // a byte more in 72 than there may be
        sample("cardauth-broken", certificate(11, &trees::least().bytes(), 0, Some(&[0x41; 39]))),
        sample("iris", iris(100, &eyes(), 40)),
        // the middle of an even size is two numbers, and not the first of them twice
        sample(
            "iris-broken",
            iris(100, &iris_record(&[Representation { centre: [160, 160, 120, 120], ..eye(1) }]), 40),
        ),
    ]
}

impl Sample {
    /// The report of the sample.
    pub fn report(&self) -> Vec<u8> {
        let mut room = vec![0; REPORT_MAX];
        let (_, length) = report::report(self.kind, EXAMPLE_DAY, &self.container, &mut room);
        room.truncate(length as usize);
        room
    }
}
