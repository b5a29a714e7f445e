//! Certificates for the generator: trees of DER items, as they should be and damaged.

use crate::der;
use crate::generate::{any_delta, any_form, damage_bytes, fewest, put_length, Form, Rng};
use crate::values::CERTIFICATE_LEVELS;

/// An item in pieces.
#[derive(Clone)]
pub struct Tree {
    tag: u8,
    /// How the length is written, and what is added to it.
    form: Form,
    delta: i64,
    body: Body,
    /// Bytes behind the last part, inside the item.
    rest: Vec<u8>,
}

#[derive(Clone)]
enum Body {
    Bytes(Vec<u8>),
    Parts(Vec<Tree>),
}

const SEQUENCE: u8 = 0x30;
const CONSTRUCTED: u8 = 0x20;
const NUMBER_31: u8 = 0x1F;

impl Tree {
    pub fn primitive(tag: u8, bytes: &[u8]) -> Tree {
        Tree::with(tag, Body::Bytes(bytes.to_vec()))
    }

    pub fn constructed(tag: u8, parts: Vec<Tree>) -> Tree {
        Tree::with(tag, Body::Parts(parts))
    }

    pub fn sequence(parts: Vec<Tree>) -> Tree {
        Tree::constructed(SEQUENCE, parts)
    }

    /// An item of two bytes.
    pub fn empty() -> Tree {
        Tree::primitive(5, &[])
    }

    fn with(tag: u8, body: Body) -> Tree {
        Tree { tag, form: Form::Fewest, delta: 0, body, rest: Vec::new() }
    }

    /// The item with another tag, and with the same content: its parts stay parts.
    pub fn tagged(self, tag: u8) -> Tree {
        Tree { tag, ..self }
    }

    /// The item inside so many SEQUENCEs of one part.
    pub fn inside(self, sequences: usize) -> Tree {
        (0..sequences).fold(self, |tree, _| Tree::sequence(vec![tree]))
    }

    /// The tree of one item that is all of the bytes, if it is an item of at most so many levels.
    pub fn of(bytes: &[u8], levels: usize) -> Option<Tree> {
        der::whole(bytes, levels).ok()?;
        items(bytes)?.pop()
    }

    pub fn bytes(&self) -> Vec<u8> {
        let content = self.content();
        let mut out = vec![self.tag];
        put_length(&mut out, content.len(), self.delta, self.form);
        out.extend(content);
        out
    }

    fn content(&self) -> Vec<u8> {
        let mut content = match &self.body {
            Body::Bytes(bytes) => bytes.clone(),
            Body::Parts(parts) => parts.iter().flat_map(Tree::bytes).collect(),
        };
        content.extend(&self.rest);
        content
    }

    fn parts(&self) -> &[Tree] {
        match &self.body {
            Body::Bytes(_) => &[],
            Body::Parts(parts) => parts,
        }
    }

    /// The parts, to be changed; none of an item that is not opened.
    pub fn parts_mut(&mut self) -> Option<&mut Vec<Tree>> {
        match &mut self.body {
            Body::Bytes(_) => None,
            Body::Parts(parts) => Some(parts),
        }
    }

    /// How many items it is: itself and all inside.
    pub fn count(&self) -> usize {
        1 + self.parts().iter().map(Tree::count).sum::<usize>()
    }

    /// How many levels it has.
    pub fn levels(&self) -> usize {
        1 + self.parts().iter().map(Tree::levels).max().unwrap_or(0)
    }

    /// The item with this number in byte order, from 0, and its level if this tree's own is `level`.
    pub fn item(&mut self, number: usize, level: usize) -> (&mut Tree, usize) {
        if number == 0 {
            return (self, level);
        }
        let mut left = number - 1;
        if let Body::Parts(parts) = &mut self.body {
            for part in parts {
                let count = part.count();
                if left < count {
                    return part.item(left, level + 1);
                }
                left -= count;
            }
        }
        panic!("the tree has no item {}", number)
    }

    /// The bytes with the length of one item, by its number, in each form up to 84 that is longer than the fewest bytes. The
    /// lengths around it are right.
    pub fn with_longer_length(&self, number: usize) -> Vec<Vec<u8>> {
        let mut tree = self.clone();
        let needed = fewest(tree.item(number, 1).0.content().len());
        let longer = |bytes| {
            tree.item(number, 1).0.form = Form::Long(bytes);
            tree.bytes()
        };
        (needed + 1..=4).map(longer).collect()
    }

    /// The tree with a length of one item, by its number, that is not definite, and with the end that would go with it.
    pub fn with_indefinite_length(&self, number: usize) -> Tree {
        let mut tree = self.clone();
        tree.item(number, 1).0.make_indefinite();
        tree
    }

    /// The tree with a length of one item, by its number, that says so much more than there is.
    pub fn with_other_length(&self, number: usize, more: i64) -> Tree {
        let mut tree = self.clone();
        tree.item(number, 1).0.delta = more;
        tree
    }

    fn make_indefinite(&mut self) {
        self.form = Form::Raw(0x80);
        self.rest = vec![0, 0];
    }
}

/// The trees of the items that the bytes are, one behind the other.
fn items(bytes: &[u8]) -> Option<Vec<Tree>> {
    let mut out = Vec::new();
    let mut rest = bytes;
    while !rest.is_empty() {
        let (tag, content, behind) = der::front(rest)?;
        out.push(if der::is_constructed(tag) {
            Tree::constructed(tag, items(content)?)
        } else {
            Tree::primitive(tag, content)
        });
        rest = behind;
    }
    Some(out)
}

// ---------------------------------------------------------------------------------------------
// Certificates that conform

/// The least certificate: a SEQUENCE of three items that are empty.
pub fn least() -> Tree {
    Tree::sequence(vec![Tree::empty(), Tree::empty(), Tree::empty()])
}

/// The least certificate with an item at this level, which has these bytes; the other parts are empty.
pub fn down_to(level: usize, tag: u8, bytes: &[u8]) -> Tree {
    let deep = Tree::primitive(tag, bytes).inside(level - 2);
    Tree::sequence(vec![deep, Tree::empty(), Tree::empty()])
}

/// A certificate of mostly few bytes.
pub fn certificate(rng: &mut Rng) -> Vec<u8> {
    let tree = match rng.below(16) {
        0 => least(),
        1..=3 => deepest(rng),
        4..=6 => lookalike(rng),
        7 | 8 => with_edge(rng),
        9 => return of_size(rng, &[129, 131, 132, 258, 260, 261, 400, 1_000]),
        _ => any_three(rng, CERTIFICATE_LEVELS - 1),
    };
    tree.bytes()
}

fn of_size(rng: &mut Rng, sizes: &[usize]) -> Vec<u8> {
    let size = rng.pick(sizes);
    certificate_of(rng, size).unwrap_or_else(|| panic!("no certificate has {} bytes", size))
}

pub fn primitive_tag(rng: &mut Rng) -> u8 {
    const USUAL: [u8; 16] =
        [0x01, 0x02, 0x03, 0x04, 0x05, 0x06, 0x0C, 0x13, 0x17, 0x18, 0x80, 0x82, 0x00, 0x10, 0x1E, 0xDE];
    let any = rng.byte() & !CONSTRUCTED;
    if rng.one_in(6) && any & NUMBER_31 != NUMBER_31 {
        any
    } else {
        rng.pick(&USUAL)
    }
}

fn constructed_tag(rng: &mut Rng) -> u8 {
    let any = rng.byte() | CONSTRUCTED;
    if rng.one_in(6) && any & NUMBER_31 != NUMBER_31 {
        any
    } else {
        rng.pick(&[SEQUENCE, SEQUENCE, SEQUENCE, 0x31, 0xA0, 0xA3, 0x24, 0x20, 0x3E, 0xFE])
    }
}

/// An item of any shape with at most so many levels.
pub fn any_item(rng: &mut Rng, levels: usize) -> Tree {
    if levels > 1 && rng.one_in(2) {
        let count = rng.pick(&[0, 1, 1, 2, 3]);
        Tree::constructed(constructed_tag(rng), (0..count).map(|_| any_item(rng, levels - 1)).collect())
    } else {
        let length = if rng.one_in(30) { rng.pick(&[127, 128, 255, 256]) } else { rng.size(0, 6) };
        Tree::primitive(primitive_tag(rng), &rng.bytes(length))
    }
}

fn any_three(rng: &mut Rng, levels: usize) -> Tree {
    Tree::sequence((0..3).map(|_| any_item(rng, levels)).collect())
}

/// One with an item at the last level, which may be one that is opened and has nothing inside.
fn deepest(rng: &mut Rng) -> Tree {
    let mut tree = any_three(rng, 2);
    let innermost = if rng.one_in(2) {
        Tree::primitive(primitive_tag(rng), &rng.bytes(1))
    } else {
        Tree::constructed(constructed_tag(rng), Vec::new())
    };
    let which = rng.size(0, 2);
    if let Body::Parts(parts) = &mut tree.body {
        parts[which] = innermost.inside(CERTIFICATE_LEVELS - 2);
    }
    tree
}

/// One with an item whose content has a number of bytes at which the form of a length changes.
fn with_edge(rng: &mut Rng) -> Tree {
    let mut tree = any_three(rng, 4);
    let length = rng.pick(&[126, 127, 128, 129, 254, 255, 256, 257]);
    let number = rng.size(1, tree.count() - 1);
    let tag = primitive_tag(rng);
    *tree.item(number, 1).0 = Tree::primitive(tag, &rng.bytes(length));
    tree
}

/// The shape of a real one, with values of its own: what is signed, by which algorithm, and the signature.
fn lookalike(rng: &mut Rng) -> Tree {
    let key = rng.pick(&[66, 98, 270]);
    shaped([8, 11, 9, key, 22, 72], |tag, length| Tree::primitive(tag, &rng.bytes(length)))
}

/// The same shape with few bytes.
pub fn skeleton() -> Tree {
    shaped([1, 0, 0, 1, 0, 1], |tag, length| Tree::primitive(tag, &vec![7; length]))
}

/// What a certificate is made of. The lengths are those of the serial number, both names, the key, an extension and the
/// signature.
fn shaped(lengths: [usize; 6], mut value: impl FnMut(u8, usize) -> Tree) -> Tree {
    let [serial, issuer, subject, key, extension, signature] = lengths;
    let identifier = |bytes: &[u8]| Tree::primitive(6, bytes);
    let algorithm = || Tree::sequence(vec![identifier(&[0x2A, 0x86, 0x48]), Tree::empty()]);
    let name = |text: Tree| {
        let pair = Tree::sequence(vec![identifier(&[0x55, 4, 3]), text]);
        Tree::sequence(vec![Tree::constructed(0x31, vec![pair])])
    };
    let extended = Tree::sequence(vec![identifier(&[0x55, 0x1D, 0x0F]), value(4, extension)]);
    let signed = vec![
        Tree::constructed(0xA0, vec![Tree::primitive(2, &[2])]),
        value(2, serial),
        algorithm(),
        name(value(0x0C, issuer)),
        Tree::sequence(vec![value(0x17, 13), value(0x17, 13)]),
        name(value(0x13, subject)),
        Tree::sequence(vec![algorithm(), value(3, key)]),
        Tree::constructed(0xA3, vec![Tree::sequence(vec![extended])]),
    ];
    Tree::sequence(vec![Tree::sequence(signed), algorithm(), value(3, signature)])
}

/// The content's bytes in an item that has so many in all; 130 and 259 are the lengths that no item has.
fn content_of(total: usize) -> Option<usize> {
    (2..=4).filter_map(|head| total.checked_sub(head).filter(|&content| 2 + fewest(content) == head)).next()
}

/// An item of exactly so many bytes: one value, items of two bytes, or an item around another.
fn item_of(rng: &mut Rng, total: usize, levels: usize) -> Option<Tree> {
    let content = content_of(total)?;
    let shape = if levels > 1 { rng.below(3) } else { 0 };
    Some(match shape {
        1 if content != 1 => Tree::constructed(constructed_tag(rng), pairs(content)),
        2 if content_of(content).is_some() => Tree::sequence(vec![item_of(rng, content, levels - 1)?]),
        _ => Tree::primitive(primitive_tag(rng), &rng.bytes(content)),
    })
}

/// Items of two bytes that make so many, but not one; the last has three where the number is odd.
fn pairs(total: usize) -> Vec<Tree> {
    let mut out = vec![Tree::empty(); total / 2];
    if total % 2 == 1 {
        out.pop();
        out.push(Tree::primitive(2, &[7]));
    }
    out
}

/// A certificate of exactly so many bytes, if there is one: of less than eight there is none.
pub fn certificate_of(rng: &mut Rng, total: usize) -> Option<Vec<u8>> {
    let content = content_of(total)?;
    // what the other two leave for the third has to be the length of an item
    let second = if content_of(content.checked_sub(4)?).is_some() { Tree::empty() } else { Tree::primitive(2, &[7]) };
    let left = content.checked_sub(2 + second.bytes().len())?;
    let third = item_of(rng, left, CERTIFICATE_LEVELS - 1)?;
    let mut parts = vec![Tree::empty(), second, third];
    let other = rng.size(0, 2);
    parts.swap(other, 2);
    Some(Tree::sequence(parts).bytes())
}

/// A certificate of exactly so many bytes, all of them of items of two bytes as far as that goes.
pub fn certificate_of_pairs(total: usize) -> Option<Vec<u8>> {
    let content = content_of(total)?;
    let third = content_of(content.checked_sub(4)?)?;
    let parts = vec![Tree::empty(), Tree::empty(), Tree::sequence(pairs(third))];
    Some(Tree::sequence(parts).bytes())
}

/// A certificate with other bytes and as many.
pub fn twin(rng: &mut Rng, value: &[u8]) -> Vec<u8> {
    if rng.one_in(2) {
        if let Some(other) = certificate_of(rng, value.len()) {
            return other;
        }
    }
    let mut tree = Tree::of(value, CERTIFICATE_LEVELS).expect("a certificate that conforms");
    for number in 0..tree.count() {
        let item = tree.item(number, 1).0;
        if let Body::Bytes(bytes) = &mut item.body {
            *bytes = rng.bytes(bytes.len());
            item.tag = primitive_tag(rng);
        }
    }
    tree.bytes()
}

// ---------------------------------------------------------------------------------------------
// Damage

/// Damages a value of 70, or puts it at an edge.
pub fn damage(rng: &mut Rng, value: &mut Vec<u8>) {
    let mut tree = match Tree::of(value, CERTIFICATE_LEVELS) {
        Some(tree) if tree.count() < 200 => tree,
        _ => any_three(rng, CERTIFICATE_LEVELS - 1),
    };
    damage_tree(rng, &mut tree);
    while rng.one_in(4) {
        damage_tree(rng, &mut tree);
    }
    *value = tree.bytes();
    match rng.below(12) {
        0 => value.push(rng.pick(&[0x00, 0x05, 0x30])),
        1 => value.extend(Tree::empty().bytes()),
        2 => {
            value.pop();
        }
        3 | 4 => damage_bytes(rng, value),
        _ => (),
    }
}

fn damage_tree(rng: &mut Rng, tree: &mut Tree) {
    let number = rng.size(0, tree.count() - 1);
    match rng.below(16) {
        0..=4 => sink(rng, tree, number, CERTIFICATE_LEVELS),
        5 | 6 => damage_outermost(rng, tree),
        7 => tree.tag = rng.pick(&[SEQUENCE, 0x31, 0x10, 0x20, 0x24, 0x70, 0xB0, 0xF0, 0x3F, 0x00]),
        _ => damage_item(rng, tree.item(number, 1).0),
    }
}

/// Puts an item so deep that the last level inside it is one at the border of so many levels.
pub fn sink(rng: &mut Rng, tree: &mut Tree, number: usize, levels: usize) {
    let (item, level) = tree.item(number, 1);
    let target = levels + rng.pick(&[0, 1, 1, 1, 2]);
    if rng.one_in(4) {
        // something is wrong with the deep item too
        damage_item(rng, item);
    }
    let last = level + item.levels() - 1;
    *item = item.clone().inside(target.saturating_sub(last));
}

/// Another number of parts of the outermost item.
fn damage_outermost(rng: &mut Rng, tree: &mut Tree) {
    if let Body::Parts(parts) = &mut tree.body {
        match rng.below(4) {
            0 => {
                parts.pop();
            }
            1 => parts.push(Tree::empty()),
            2 => {
                let to = rng.size(0, parts.len());
                parts.insert(to, any_item(rng, 3));
            }
            _ => parts.truncate(rng.size(0, 2)),
        }
    }
}

/// Damages the tag, the length or the end of an item.
pub fn damage_item(rng: &mut Rng, item: &mut Tree) {
    match rng.below(10) {
        0 => item.tag |= NUMBER_31,
        1 => item.tag = rng.pick(&[0x1F, 0x3F, 0x5F, 0x7F, 0x9F, 0xBF, 0xDF, 0xFF, 0x1E, 0x3E]),
        // what was opened is not any more, or the other way round
        2 => item.tag ^= CONSTRUCTED,
        3 => item.form = Form::Long(fewest(item.content().len()) + rng.size(1, 2)),
        4 => item.form = any_form(rng),
        5 => item.make_indefinite(),
        6 | 7 => item.delta = any_delta(rng),
        8 => {
            // half an item behind the last part
            let halves: [&[u8]; 8] =
                [&[0x05], &[0x30], &[0x1F], &[0x05, 0x01], &[0x04, 0x81], &[0x04, 0x82, 0x01], &[0x30, 0x80], &[0x00]];
            item.rest = rng.pick(&halves).to_vec();
        }
        _ => {
            let length = rng.pick(&[0, 1, 126, 127, 128, 129, 254, 255, 256, 257]);
            item.body = Body::Bytes(rng.bytes(length));
            item.tag &= !CONSTRUCTED;
        }
    }
}

// ---------------------------------------------------------------------------------------------
// Edges

/// Values of 70 on both sides of every border, whatever the seed.
pub fn edges() -> Vec<Vec<u8>> {
    let mut out = vec![Vec::new(), vec![SEQUENCE], vec![SEQUENCE, 0], least().bytes()];
    for level in 2..=CERTIFICATE_LEVELS + 2 {
        for (tag, bytes) in [(0x05, &[][..]), (0x1F, &[]), (0x30, &[]), (0x30, &[0x05]), (0x24, &[0x05, 0x00])] {
            out.push(down_to(level, tag, bytes).bytes());
        }
    }
    for length in [126, 127, 128, 129, 254, 255, 256, 257] {
        let long = Tree::sequence(vec![Tree::empty(), Tree::primitive(4, &vec![0x30; length]), Tree::empty()]);
        out.push(long.bytes());
        out.extend((0..long.count()).flat_map(|number| long.with_longer_length(number)));
        // and an outermost item with a content of as many bytes
        out.extend(certificate_of_pairs(2 + fewest(length) + length));
    }
    for parts in 0..=5 {
        for tag in [SEQUENCE, 0x31, 0x24, 0x70] {
            out.push(Tree::constructed(tag, vec![Tree::empty(); parts]).bytes());
        }
    }
    out
}
