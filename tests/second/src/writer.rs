//! Bytes written one after the other at the front of a lent output.
pub struct Writer<'a> {
    out: &'a mut [u8],
    pub len: usize,
}

impl<'a> Writer<'a> {
    pub fn new(out: &'a mut [u8]) -> Self {
        Writer { out, len: 0 }
    }

    pub fn byte(&mut self, byte: u8) {
        self.out[self.len] = byte;
        self.len += 1;
    }

    pub fn bytes(&mut self, bytes: &[u8]) {
        self.out[self.len..self.len + bytes.len()].copy_from_slice(bytes);
        self.len += bytes.len();
    }

    /// A text, ended by a zero byte.
    pub fn text(&mut self, text: &[u8]) {
        self.bytes(text);
        self.byte(0);
    }
}
