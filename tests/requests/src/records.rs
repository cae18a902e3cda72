//! Records taken from bytes, front to back.

use register::{Form, Lists};

pub struct Records<'a>(&'a [u8]);

impl<'a> Records<'a> {
    pub fn of(bytes: &'a [u8]) -> Self {
        Records(bytes)
    }

    pub fn is_empty(&self) -> bool {
        self.0.is_empty()
    }

    pub fn letter(&mut self) -> Option<u8> {
        self.bytes(1).map(|bytes| bytes[0])
    }

    pub fn number(&mut self) -> Option<usize> {
        let bytes = self.bytes(8)?;
        Some(bytes.iter().fold(0, |number, &byte| number << 8 | usize::from(byte)))
    }

    /// The form of the next number.
    pub fn form(&mut self) -> Option<Form> {
        let number = self.number()?;
        Form::ALL.into_iter().find(|form| form.number() == number)
    }

    pub fn string(&mut self) -> Option<&'a [u8]> {
        let length = self.number()?;
        self.bytes(length)
    }

    pub fn lists(&mut self) -> Option<Lists> {
        Some(Lists {
            header: self.list()?,
            placements: self.list()?,
            operations: self.list()?,
            forgeries: self.list()?,
            delays: self.list()?,
        })
    }

    fn list(&mut self) -> Option<Vec<u32>> {
        let numbers = self.string()?.chunks(4);
        numbers.map(|number| number.try_into().ok().map(u32::from_be_bytes)).collect()
    }

    fn bytes(&mut self, length: usize) -> Option<&'a [u8]> {
        let (bytes, rest) = self.0.split_at_checked(length)?;
        self.0 = rest;
        Some(bytes)
    }
}
