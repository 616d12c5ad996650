//! Taking a file apart field by field, and its opening bytes put together.

use crate::refusal::{Cause, File, Refusal};

const VERSION: u16 = 1;

/// The bytes of a file that are still to be read.
pub struct Cursor<'a> {
    file: File,
    rest: &'a [u8],
}

impl<'a> Cursor<'a> {
    /// Reads the mark and the version, two fields.
    pub fn open(file: File, bytes: &'a [u8]) -> Result<Cursor<'a>, Refusal> {
        let mut cursor = Cursor { file, rest: bytes };
        if cursor.field()? != file.mark() {
            return Err(cursor.refuse(Cause::Mark));
        }
        if cursor.number()? != VERSION {
            return Err(cursor.refuse(Cause::Version));
        }
        Ok(cursor)
    }

    /// A field of N bytes, once all of them are there.
    pub fn field<const N: usize>(&mut self) -> Result<[u8; N], Refusal> {
        let field = self.rest.get(..N).ok_or(self.refuse(Cause::Ended))?;
        self.rest = &self.rest[N..];
        Ok(field.try_into().expect("a field of N bytes"))
    }

    pub fn byte(&mut self) -> Result<u8, Refusal> {
        self.field::<1>().map(|[byte]| byte)
    }

    /// A number of 16 bits.
    pub fn number(&mut self) -> Result<u16, Refusal> {
        self.field().map(u16::from_be_bytes)
    }

    /// A type of a graph that has `types` of them.
    pub fn type_below(&mut self, types: u8) -> Result<u8, Refusal> {
        let found = self.byte()?;
        if found >= types {
            return Err(self.refuse(Cause::Type));
        }
        Ok(found)
    }

    /// A mask over the types of a graph that has `types` of them.
    pub fn mask_below(&mut self, types: u8) -> Result<u16, Refusal> {
        let mask = self.number()?;
        if u32::from(mask) >> types != 0 {
            return Err(self.refuse(Cause::Type));
        }
        Ok(mask)
    }

    /// The file is complete: nothing may follow.
    pub fn end(self) -> Result<(), Refusal> {
        if self.rest.is_empty() {
            Ok(())
        } else {
            Err(self.refuse(Cause::Extra))
        }
    }

    pub fn refuse(&self, cause: Cause) -> Refusal {
        Refusal {
            cause,
            file: Some(self.file),
        }
    }
}

/// A file's opening bytes: the mark and the version.
pub fn opening(file: File) -> Vec<u8> {
    let mut bytes = file.mark().to_vec();
    bytes.extend(VERSION.to_be_bytes());
    bytes
}
