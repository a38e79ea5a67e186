//! Bytes read one number after the other: scripts and lists.

use crate::fields::{signed, unsigned};

/// A fault of what is read.
pub struct Bad;

pub struct Input<'a> {
    bytes: &'a [u8],
    at: usize,
}

impl<'a> Input<'a> {
    pub fn new(bytes: &'a [u8]) -> Input<'a> {
        Input { bytes, at: 0 }
    }

    pub fn take(&mut self, length: usize) -> Result<&'a [u8], Bad> {
        if self.bytes.len() - self.at < length {
            return Err(Bad);
        }
        let part = &self.bytes[self.at..self.at + length];
        self.at += length;
        Ok(part)
    }

    /// A 32-bit little-endian number.
    pub fn word(&mut self) -> Result<u32, Bad> {
        let b = self.take(4)?;
        Ok(unsigned(b, 0) as u32)
    }

    /// A number in two's complement.
    pub fn signed(&mut self) -> Result<i32, Bad> {
        let b = self.take(4)?;
        Ok(signed(b, 0) as i32)
    }

    pub fn at_end(&self) -> bool {
        self.at == self.bytes.len()
    }
}
