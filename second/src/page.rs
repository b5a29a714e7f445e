//! The page that a text is written on, a report or the lines of a folder's summary: the front of a room, of so many bytes as hold
//! any such text.

use crate::card::Verdict;

pub(crate) struct Page<'a, const SIZE: usize> {
    room: &'a mut [u8; SIZE],
    length: usize,
}

impl<const SIZE: usize> Page<'_, SIZE> {
    /// An empty page, if the room is large enough for one.
    pub(crate) fn of(room: &mut [u8]) -> Option<Page<'_, SIZE>> {
        let room = room.get_mut(..SIZE)?.try_into().ok()?;
        Some(Page { room, length: 0 })
    }

    /// How many bytes are written.
    pub(crate) fn length(&self) -> usize {
        self.length
    }

    pub(crate) fn bytes(&mut self, bytes: &[u8]) {
        let end = self.length + bytes.len();
        self.room[self.length..end].copy_from_slice(bytes);
        self.length = end;
    }

    pub(crate) fn text(&mut self, text: &str) {
        self.bytes(text.as_bytes());
    }

    /// Decimal, with zeros in front up to `width` digits.
    pub(crate) fn decimal(&mut self, number: u64, width: usize) {
        let mut digits = [b'0'; 20];
        let mut at = digits.len();
        let mut rest = number;
        loop {
            at -= 1;
            digits[at] = b'0' + (rest % 10) as u8;
            rest /= 10;
            if rest == 0 {
                break;
            }
        }
        self.bytes(&digits[at.min(digits.len() - width)..]);
    }

    pub(crate) fn hex(&mut self, bytes: &[u8]) {
        const DIGITS: &[u8; 16] = b"0123456789ABCDEF";
        for &byte in bytes {
            self.bytes(&[DIGITS[usize::from(byte >> 4)], DIGITS[usize::from(byte & 15)]]);
        }
    }

    /// Two digits, or four for a tag of two bytes.
    pub(crate) fn tag(&mut self, tag: u16) {
        let bytes = tag.to_be_bytes();
        self.hex(if tag > 0xFF { &bytes } else { &bytes[1..] });
    }

    pub(crate) fn end_line(&mut self) {
        self.bytes(b"\n");
    }

    pub(crate) fn line(&mut self, name: &str, number: u64, width: usize) {
        self.text(name);
        self.bytes(b" ");
        self.decimal(number, width);
        self.end_line();
    }

    /// Number, place and tag, which end a line. Two hyphens stand for no tag.
    pub(crate) fn verdict(&mut self, (number, place, tag): Verdict) {
        self.decimal(number, 1);
        self.bytes(b" ");
        self.decimal(place, 1);
        self.bytes(b" ");
        match tag {
            Some(tag) => self.tag(tag),
            None => self.text("--"),
        }
        self.end_line();
    }
}
