//! Takes the fields of a message one after the other.

use crate::fields::Field;

/// The bytes of a message that no field has taken yet.
pub struct Cursor<'a> {
    rest: &'a [u8],
}

impl<'a> Cursor<'a> {
    pub fn new(bytes: &'a [u8]) -> Self {
        Cursor { rest: bytes }
    }

    /// Takes the next field from where the last one ended.
    pub fn take<F: Field>(&mut self) -> Result<F, u8> {
        let (field, rest) = self.rest.split_at(F::WIDTH);
        self.rest = rest;
        F::decode(field)
    }

    pub fn is_empty(&self) -> bool {
        self.rest.is_empty()
    }
}

/// Refuses with the least number among the faults, since 3 to 6 are checked in that order.
pub fn no_fault(faults: &[Option<u8>]) -> Result<(), u8> {
    match faults.iter().flatten().min() {
        Some(number) => Err(*number),
        None => Ok(()),
    }
}
