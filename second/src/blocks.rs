//! Signature blocks for the calls that ask for a signer: CMS SignedData in DER, as they should be, damaged, and on both sides of
//! every border.

use crate::generate::{damage_bytes, turn_bit, Rng};
use crate::samples::{P256, RSA};
use crate::signer::{BLOCK_LEVELS, ID_SIGNED_DATA};
use crate::trees::{self, Tree};
use crate::values::CERTIFICATE_LEVELS;

pub const INTEGER: u8 = 0x02;
pub const IDENTIFIER: u8 = 0x06;
pub const SEQUENCE: u8 = 0x30;
pub const SET: u8 = 0x31;
pub const CERTIFICATES: u8 = 0xA0;
pub const CRLS: u8 = 0xA1;
/// The content of a ContentInfo has the tag that the certificates have.
pub const CONTENT: u8 = 0xA0;

/// The parts of a SignedData stand at this level, and their own parts, such as the certificates, at the next.
const PARTS_LEVEL: usize = 4;

/// A certificate in a block has at most so many levels.
pub const LEVELS_OF_CERTIFICATE: usize = BLOCK_LEVELS - PARTS_LEVEL;

/// A SignedData in pieces.
#[derive(Clone)]
pub struct Block {
    pub version: Tree,
    pub digests: Tree,
    pub content: Tree,
    pub certificates: Option<Vec<Tree>>,
    pub crls: Option<Vec<Tree>>,
    pub signers: Tree,
}

impl Block {
    /// The least one with these certificates, without crls.
    pub fn least(certificates: Option<Vec<Tree>>) -> Block {
        Block {
            version: Tree::primitive(INTEGER, &[3]),
            digests: Tree::constructed(SET, Vec::new()),
            content: Tree::sequence(vec![Tree::primitive(IDENTIFIER, &[0x2A])]),
            certificates,
            crls: None,
            signers: Tree::constructed(SET, Vec::new()),
        }
    }

    /// The least one with one certificate, and with crls.
    pub fn whole() -> Block {
        Block { crls: Some(Vec::new()), ..Block::least(Some(vec![trees::least()])) }
    }

    /// The parts that are there, in their order.
    pub fn parts(&self) -> Vec<Tree> {
        let field = |tag, parts: &Option<Vec<Tree>>| parts.clone().map(|parts| Tree::constructed(tag, parts));
        let mut out = vec![self.version.clone(), self.digests.clone(), self.content.clone()];
        out.extend(field(CERTIFICATES, &self.certificates));
        out.extend(field(CRLS, &self.crls));
        out.push(self.signers.clone());
        out
    }

    pub fn tree(&self) -> Tree {
        signed_data(self.parts())
    }

    pub fn bytes(&self) -> Vec<u8> {
        self.tree().bytes()
    }
}

/// A SignedData of these parts in its ContentInfo.
pub fn signed_data(parts: Vec<Tree>) -> Tree {
    content_info(&ID_SIGNED_DATA, vec![Tree::sequence(parts)])
}

/// A ContentInfo with this content type, and with these items as its content.
pub fn content_info(content_type: &[u8], content: Vec<Tree>) -> Tree {
    Tree::sequence(vec![Tree::primitive(IDENTIFIER, content_type), Tree::constructed(CONTENT, content)])
}

/// The least block with this certificate.
pub fn with_certificate(certificate: Tree) -> Vec<u8> {
    Block::least(Some(vec![certificate])).bytes()
}

/// The least block without a certificates field, and with one that is empty.
pub fn holding_none() -> [Vec<u8>; 2] {
    [None, Some(Vec::new())].map(|certificates| Block::least(certificates).bytes())
}

/// A block with a certificate of a value of so many bytes. From 300 on, so many more are as many more of the block.
pub fn with_long_certificate(bytes: usize) -> Vec<u8> {
    with_certificate(Tree::sequence(vec![Tree::empty(), Tree::empty(), Tree::primitive(3, &vec![0xA5; bytes])]))
}

/// The same of a block with a signature of so many bytes, and without certificates.
pub fn with_long_signature(bytes: usize) -> Vec<u8> {
    let signer = Tree::sequence(vec![Tree::primitive(4, &vec![0x5A; bytes])]);
    Block { signers: Tree::constructed(SET, vec![signer]), ..Block::least(None) }.bytes()
}

// ---------------------------------------------------------------------------------------------
// Blocks as they should be

/// A block with certificates, mostly of few bytes.
pub fn with_certificates(rng: &mut Rng) -> Block {
    let count = rng.pick(&[1, 1, 1, 2, 3]);
    let certificates = (0..count).map(|_| certificate(rng)).collect();
    Block { certificates: Some(certificates), ..without_certificates(rng) }
}

/// A block without certificates: the field is empty, or it is not there.
pub fn without_certificates(rng: &mut Rng) -> Block {
    let certificates = if rng.one_in(2) { Some(Vec::new()) } else { None };
    let crls = if rng.one_in(3) { Some(few_items(rng)) } else { None };
    let version = rng.size(0, 2);
    Block {
        version: Tree::primitive(INTEGER, &rng.bytes(version)),
        digests: Tree::constructed(SET, few_items(rng)),
        content: Tree::sequence(few_items(rng)),
        signers: Tree::constructed(SET, few_items(rng)),
        crls,
        ..Block::least(certificates)
    }
}

/// Up to two items, now and then such as lie at the last level.
fn few_items(rng: &mut Rng) -> Vec<Tree> {
    match rng.below(8) {
        0..=2 => Vec::new(),
        3 => vec![Tree::empty().inside(LEVELS_OF_CERTIFICATE - 1)],
        4 => vec![trees::any_item(rng, LEVELS_OF_CERTIFICATE), trees::any_item(rng, 2)],
        _ => vec![trees::any_item(rng, 4)],
    }
}

/// An item of the certificates field: mostly a certificate as there may be one in 70, and else an item of any tag.
fn certificate(rng: &mut Rng) -> Tree {
    let read = |bytes: &[u8]| Tree::of(bytes, CERTIFICATE_LEVELS).expect("a certificate that conforms");
    match rng.below(12) {
        0 => read(rng.pick(&[RSA, P256])),
        1 => Tree::empty(),
        2 => {
            let length = rng.pick(&[0, 126, 127, 128, 129, 254, 255, 256, 257]);
            let tag = trees::primitive_tag(rng);
            Tree::primitive(tag, &rng.bytes(length))
        }
        3 => trees::least().inside(LEVELS_OF_CERTIFICATE - 2),
        4 | 5 => trees::any_item(rng, LEVELS_OF_CERTIFICATE),
        _ => read(&trees::certificate(rng)),
    }
}

// ---------------------------------------------------------------------------------------------
// Damage

/// A block that is no SignedData, or one at an edge.
pub fn damaged(rng: &mut Rng) -> Vec<u8> {
    let block = if rng.one_in(4) { without_certificates(rng) } else { with_certificates(rng) };
    let mut tree = block.tree();
    match rng.below(16) {
        0..=2 => damage_tag(rng, &mut tree),
        3..=5 => damage_parts(rng, tree.item(SIGNED, 1).0),
        6 => damage_parts(rng, tree.item(OUTERMOST, 1).0),
        7 => damage_parts(rng, tree.item(EXPLICIT, 1).0),
        8 => *tree.item(TYPE, 1).0 = Tree::primitive(IDENTIFIER, &another_type(rng)),
        9 | 10 => {
            let number = rng.size(0, tree.count() - 1);
            trees::damage_item(rng, tree.item(number, 1).0);
        }
        11 | 12 => {
            let number = rng.size(SIGNED, tree.count() - 1);
            trees::sink(rng, &mut tree, number, BLOCK_LEVELS);
        }
        13 => return rubbish(rng, &block),
        _ => {
            let mut bytes = tree.bytes();
            damage_bytes(rng, &mut bytes);
            return bytes;
        }
    }
    let mut bytes = tree.bytes();
    if rng.one_in(12) {
        bytes.push(rng.pick(&[0x00, 0x05, 0x30]));
    }
    bytes
}

/// The first items of a block, by their numbers in byte order: the ContentInfo, its content type, its content, and the SignedData.
const OUTERMOST: usize = 0;
const TYPE: usize = 1;
const EXPLICIT: usize = 2;
const SIGNED: usize = 3;

/// Gives another tag to an item: to one of those that are judged, or to any.
fn damage_tag(rng: &mut Rng, tree: &mut Tree) {
    let any = rng.byte();
    let tag = rng.pick(&[0x02, 0x06, 0x10, 0x11, 0x30, 0x31, 0x80, 0x81, 0xA0, 0xA1, 0xA2, 0x20, 0x00, any]);
    let (number, last) = (rng.size(0, SIGNED), tree.count() - 1);
    let number = if rng.one_in(2) { number } else { rng.size(0, last) };
    let item = tree.item(number, 1).0;
    *item = item.clone().tagged(tag);
}

/// Takes a part of an item away, doubles it, exchanges it with another, or puts one more beside it.
fn damage_parts(rng: &mut Rng, item: &mut Tree) {
    if let Some(parts) = item.parts_mut() {
        let count = parts.len();
        let (at, other) = (rng.size(0, count - 1), rng.size(0, count - 1));
        match rng.below(6) {
            0 => {
                parts.remove(at);
            }
            1 => parts.insert(other, parts[at].clone()),
            2 => parts.swap(at, other),
            3 => parts.truncate(at),
            4 => parts.push(trees::any_item(rng, 2)),
            _ => {
                let tag = rng.pick(&[INTEGER, SET, SEQUENCE, CERTIFICATES, CRLS, 0xA2, 0x05]);
                parts.insert(at, Tree::primitive(tag, &[]));
            }
        }
    }
}

/// A content type that is mostly another one than that of a SignedData.
fn another_type(rng: &mut Rng) -> Vec<u8> {
    let mut out = ID_SIGNED_DATA.to_vec();
    match rng.below(5) {
        0 => out.truncate(rng.size(0, 8)),
        1 => out.push(rng.pick(&[0x00, 0x01, 0x02])),
        2 => out.insert(0, rng.pick(&[0x00, 0x2A])),
        3 => out[8] = rng.pick(&[1, 3, 4, 5, 6]),
        _ => out[rng.size(0, 8)] ^= 1 << rng.below(8),
    }
    out
}

/// Bytes of no block at all: any, a part of one, and a certificate alone.
fn rubbish(rng: &mut Rng, block: &Block) -> Vec<u8> {
    let length = rng.size(1, 60);
    match rng.below(5) {
        0 => rng.bytes(length),
        1 => vec![rng.pick(&[0x00, 0x30, 0xFF]); length],
        2 => certificate(rng).bytes(),
        3 => Tree::sequence(block.parts()).bytes(),
        _ => Tree::constructed(CONTENT, vec![Tree::sequence(block.parts())]).bytes(),
    }
}

// ---------------------------------------------------------------------------------------------
// Edges

/// Blocks on both sides of every border, whatever the seed.
pub fn edges() -> Vec<Vec<u8>> {
    [tags(), types(), parts(), contents(), fields(), lengths(), levels(), ends()].concat()
}

/// Every other tag of each item that is judged by its tag, and of the certificate, which may have any.
fn tags() -> Vec<Vec<u8>> {
    let tree = Block::whole().tree();
    let mut out = Vec::new();
    for number in judged() {
        for tag in 0..=255 {
            let mut other = tree.clone();
            let item = other.item(number, 1).0;
            *item = item.clone().tagged(tag);
            out.push(other.bytes());
        }
    }
    out
}

/// The numbers of those items in the whole block: the ContentInfo, its content type, its content and the SignedData, and of that
/// version, digestAlgorithms, encapContentInfo, which has an item inside, certificates with the first, which has three, crls, and
/// signerInfos.
fn judged() -> [usize; 11] {
    [OUTERMOST, TYPE, EXPLICIT, SIGNED, 4, 5, 6, 8, 9, 13, 14]
}

/// The content type with each bit turned, cut off, longer, and others of CMS.
fn types() -> Vec<Vec<u8>> {
    let right = ID_SIGNED_DATA;
    let mut types: Vec<Vec<u8>> = (0..=9).map(|length| right[..length].to_vec()).collect();
    for at in 0..72 {
        let mut other = right;
        turn_bit(&mut other, at);
        types.push(other.to_vec());
    }
    for byte in [0x00, 0x01, 0x02, 0x2A, 0x80] {
        types.extend([[&right[..], &[byte]].concat(), [&[byte], &right[..]].concat()]);
    }
    types.push(right.repeat(2));
    types.push([&right[1..], &right[..1]].concat());
    let around = |content_type: Vec<u8>| content_info(&content_type, vec![Tree::sequence(Block::whole().parts())]);
    types.into_iter().map(|content_type| around(content_type).bytes()).collect()
}

/// Parts of a SignedData that are missing, doubled, exchanged, moved or too many; likewise of its ContentInfo, and of the content of
/// that.
fn parts() -> Vec<Vec<u8>> {
    let parts = Block::whole().parts();
    let mut out: Vec<Vec<Tree>> = (0..64usize).map(|there| chosen(&parts, there)).collect();
    out.extend(rearranged(&parts));
    out.extend(with_one_more(&parts));
    let mut out: Vec<Vec<u8>> = out.into_iter().map(|parts| signed_data(parts).bytes()).collect();

    let signed = || Tree::sequence(parts.clone());
    let outer = [Tree::primitive(IDENTIFIER, &ID_SIGNED_DATA), Tree::constructed(CONTENT, vec![signed()])];
    let others = (0..4).map(|there| chosen(&outer, there)).chain(rearranged(&outer)).chain(with_one_more(&outer));
    out.extend(others.map(|parts| Tree::sequence(parts).bytes()));

    let mut contents = vec![Vec::new(), parts.clone(), vec![signed(), signed()], vec![signed().inside(1)]];
    contents.extend(with_one_more(&[signed()]));
    out.extend(contents.into_iter().map(|content| content_info(&ID_SIGNED_DATA, content).bytes()));
    out
}

/// The items whose bit is set.
fn chosen(items: &[Tree], bits: usize) -> Vec<Tree> {
    items.iter().enumerate().filter(|(i, _)| bits >> i & 1 == 1).map(|(_, item)| item.clone()).collect()
}

/// Each item doubled, exchanged with each other, and moved to each place.
fn rearranged(items: &[Tree]) -> Vec<Vec<Tree>> {
    let mut out = Vec::new();
    for (at, other) in (0..items.len()).flat_map(|at| (0..items.len()).map(move |other| (at, other))) {
        let mut doubled = items.to_vec();
        doubled.insert(other, items[at].clone());
        let mut exchanged = items.to_vec();
        exchanged.swap(at, other);
        let mut moved = items.to_vec();
        let item = moved.remove(at);
        moved.insert(other, item);
        out.extend([doubled, exchanged, moved]);
    }
    out
}

/// One more item at each place, empty and of each tag that could be taken for a part.
fn with_one_more(items: &[Tree]) -> Vec<Vec<Tree>> {
    const TAGS: [u8; 12] = [0x02, 0x05, 0x06, 0x10, 0x11, 0x30, 0x31, 0x80, 0x81, 0xA0, 0xA1, 0xA2];
    let with = |at: usize, tag: u8| {
        let mut out = items.to_vec();
        out.insert(at, Tree::primitive(tag, &[]));
        out
    };
    (0..=items.len()).flat_map(|at| TAGS.map(|tag| with(at, tag))).collect()
}

/// What is inside the parts, which is judged by DER alone: nothing, items of any tag, and half an item.
fn contents() -> Vec<Vec<u8>> {
    let mut out = Vec::new();
    for bytes in [&[][..], &[0], &[1, 2], &[0xFF; 128]] {
        out.push(Block { version: Tree::primitive(INTEGER, bytes), ..Block::whole() }.bytes());
    }
    let inside =
        [&[][..], &[5, 0], &[0, 0], &[5, 0, 0x30, 0], &[0xA0, 0], &[5], &[0x1F, 0], &[5, 1], &[0x30, 0x80, 0, 0]];
    for number in [5, 6, 8, 13, 14] {
        for bytes in inside {
            let mut tree = Block::whole().tree();
            let item = tree.item(number, 1).0;
            let tag = item.bytes()[0];
            *item = Tree::primitive(tag, bytes);
            out.push(tree.bytes());
        }
    }
    out
}

/// The certificates field with none, one and several, each with crls and without; certificates of every length of a length, of any
/// shape, and real ones.
fn fields() -> Vec<Vec<u8>> {
    let long = |length: usize| Tree::primitive(4, &vec![0x30; length]);
    let read = |bytes: &[u8]| Tree::of(bytes, CERTIFICATE_LEVELS).expect("a certificate that conforms");
    let mut fields = vec![None, Some(Vec::new()), Some(vec![trees::least(), Tree::empty()])];
    fields.push(Some(vec![Tree::empty(), trees::least()]));
    fields.push(Some(vec![trees::least(); 3]));
    fields.extend([RSA, P256].map(|bytes| Some(vec![read(bytes), trees::least()])));
    for length in [0, 1, 126, 127, 128, 129, 254, 255, 256, 257, 1_000] {
        fields.push(Some(vec![long(length)]));
        fields.push(Some(vec![Tree::sequence(vec![long(length)]), Tree::empty()]));
    }
    let mut out = Vec::new();
    for field in fields {
        for crls in [None, Some(Vec::new()), Some(vec![trees::least()])] {
            out.push(Block { crls, ..Block::least(field.clone()) }.bytes());
        }
    }
    out
}

/// Blocks with the length of each item in longer forms, not definite, and one off. Some of the lengths are over 127.
fn lengths() -> Vec<Vec<u8>> {
    let long = Tree::sequence(vec![Tree::primitive(4, &[7; 130]), Tree::empty()]);
    let mut out = Vec::new();
    for tree in [Block::whole().tree(), Block { crls: Some(Vec::new()), ..Block::least(Some(vec![long])) }.tree()] {
        for number in 0..tree.count() {
            out.extend(tree.with_longer_length(number));
            out.push(tree.with_indefinite_length(number).bytes());
            out.extend([-1, 1, 128, 65_536].map(|more| tree.with_other_length(number, more).bytes()));
        }
    }
    out
}

/// An item at level 15, 16, 17 or 18, in each part that can have any: one that is not opened, one that is, and such as are none.
pub fn levels() -> Vec<Vec<u8>> {
    let innermost = [&[5, 0][..], &[0x30, 0], &[0x1F, 0], &[0x05], &[0x30, 0x80], &[0x30, 1, 5]];
    let mut out = Vec::new();
    for level in BLOCK_LEVELS - 1..=BLOCK_LEVELS + 2 {
        for bytes in innermost {
            // so many lie around it, of which the last holds it
            let around = level - PARTS_LEVEL - 2;
            let deep = Tree::primitive(SEQUENCE, bytes).inside(around);
            out.extend(with_item_in_each_part(&deep).iter().map(Block::bytes));
        }
    }
    out
}

/// The whole block with this item in each part that can have any: in the certificates as the first and as the last.
fn with_item_in_each_part(item: &Tree) -> [Block; 6] {
    let (whole, only) = (Block::whole(), || vec![item.clone()]);
    [
        Block { digests: Tree::constructed(SET, only()), ..whole.clone() },
        Block { content: Tree::sequence(only()), ..whole.clone() },
        Block { certificates: Some(vec![item.clone(), trees::least()]), ..whole.clone() },
        Block { certificates: Some(vec![trees::least(), item.clone()]), ..whole.clone() },
        Block { crls: Some(only()), ..whole.clone() },
        Block { signers: Tree::constructed(SET, only()), ..whole },
    ]
}

/// A block that is cut off after each byte, or begins behind it; bytes behind its one item; and what is none at all.
fn ends() -> Vec<Vec<u8>> {
    let block = Block::whole().bytes();
    let mut out = Vec::new();
    for at in 0..=block.len() {
        out.extend([block[..at].to_vec(), block[at..].to_vec()]);
    }
    out.extend((0..=255).map(|byte| [&block[..], &[byte]].concat()));
    for behind in [&[0, 0][..], &[5, 0], &[0x30, 0], &block] {
        out.push([&block, behind].concat());
    }
    out.extend([b"X".to_vec(), b"SIG".to_vec(), vec![0; 40], trees::least().bytes(), RSA.to_vec()]);
    out
}
