//! Numbers, lists and masks as bytes, high byte first.

use crate::table::{Mask, MOST_ROWS};

/// The longest lists of a case.
pub const MOST_LIST_BYTES: usize = 4096;
pub const MOST_LIST_WORDS: usize = 512;

#[derive(Default)]
pub struct Writer {
    pub bytes: Vec<u8>,
}

impl Writer {
    pub fn raw(&mut self, bytes: &[u8]) {
        self.bytes.extend(bytes);
    }

    pub fn u8(&mut self, value: u8) {
        self.bytes.push(value);
    }

    pub fn u32(&mut self, value: u32) {
        self.raw(&value.to_be_bytes());
    }

    pub fn u64(&mut self, value: u64) {
        self.raw(&value.to_be_bytes());
    }

    pub fn mask(&mut self, mask: Mask) {
        self.u64(mask.low);
        self.u64(mask.high);
    }

    fn count(&mut self, count: usize, most: usize) {
        assert!(count <= most, "a list of {count} is too long");
        self.raw(&(count as u16).to_be_bytes());
    }

    pub fn byte_list(&mut self, list: &[u8]) {
        self.count(list.len(), MOST_LIST_BYTES);
        self.raw(list);
    }

    pub fn word_list(&mut self, list: &[u32]) {
        self.count(list.len(), MOST_LIST_WORDS);
        list.iter().for_each(|&word| self.u32(word));
    }
}

/// Takes bytes from the front; none where too few are left.
pub struct Reader<'a> {
    rest: &'a [u8],
}

impl<'a> Reader<'a> {
    pub fn new(bytes: &'a [u8]) -> Reader<'a> {
        Reader { rest: bytes }
    }

    fn raw(&mut self, count: usize) -> Option<&'a [u8]> {
        let (front, rest) = self.rest.split_at_checked(count)?;
        self.rest = rest;
        Some(front)
    }

    fn array<const N: usize>(&mut self) -> Option<[u8; N]> {
        self.raw(N)?.try_into().ok()
    }

    pub fn u8(&mut self) -> Option<u8> {
        self.array().map(u8::from_be_bytes)
    }

    pub fn u32(&mut self) -> Option<u32> {
        self.array().map(u32::from_be_bytes)
    }

    pub fn u64(&mut self) -> Option<u64> {
        self.array().map(u64::from_be_bytes)
    }

    pub fn mask(&mut self) -> Option<Mask> {
        Some(Mask { low: self.u64()?, high: self.u64()? })
    }

    pub fn entries(&mut self) -> Option<[u8; MOST_ROWS]> {
        self.array()
    }

    fn count(&mut self) -> Option<usize> {
        self.array().map(|bytes| u16::from_be_bytes(bytes).into())
    }

    pub fn byte_list(&mut self) -> Option<Vec<u8>> {
        let count = self.count()?;
        self.raw(count).map(<[u8]>::to_vec)
    }

    pub fn word_list(&mut self) -> Option<Vec<u32>> {
        (0..self.count()?).map(|_| self.u32()).collect()
    }
}
