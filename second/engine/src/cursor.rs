//! The unread part of a stream; numbers of several bytes are little-endian
//! (01, first paragraph). `None` where the stream ends early.

pub struct Cursor<'s> {
    rest: &'s [u8],
}

impl<'s> Cursor<'s> {
    pub fn new(stream: &'s [u8]) -> Self {
        Cursor { rest: stream }
    }

    fn chunk<const N: usize>(&mut self) -> Option<[u8; N]> {
        let (chunk, rest) = self.rest.split_first_chunk()?;
        self.rest = rest;
        Some(*chunk)
    }

    pub fn byte(&mut self) -> Option<u8> {
        self.chunk().map(|[byte]| byte)
    }

    /// A number of two bytes.
    pub fn pair(&mut self) -> Option<u16> {
        self.chunk().map(u16::from_le_bytes)
    }

    /// A number of four bytes.
    pub fn number(&mut self) -> Option<u32> {
        self.chunk().map(u32::from_le_bytes)
    }

    pub fn at_end(&self) -> bool {
        self.rest.is_empty()
    }
}
