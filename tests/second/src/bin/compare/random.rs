//! Random numbers from a fixed seed (xorshift64*), and bytes drawn with them.
use std::cell::Cell;

pub struct Random(Cell<u64>);

impl Random {
    pub fn new(seed: u64) -> Random {
        Random(Cell::new(seed.wrapping_mul(0x9E37_79B9_7F4A_7C15) | 1))
    }

    pub fn next(&self) -> u64 {
        let mut state = self.0.get();
        state ^= state >> 12;
        state ^= state << 25;
        state ^= state >> 27;
        self.0.set(state);
        state.wrapping_mul(0x2545_F491_4F6C_DD1D)
    }

    /// A number under `end`, which is not 0.
    pub fn below(&self, end: usize) -> usize {
        ((self.next() >> 32) as usize) % end
    }

    pub fn between(&self, from: usize, to: usize) -> usize {
        from + self.below(to - from + 1)
    }

    /// True once in `n` times.
    pub fn once_in(&self, n: usize) -> bool {
        self.below(n) == 0
    }

    pub fn pick<T: Copy>(&self, of: &[T]) -> T {
        of[self.below(of.len())]
    }

    pub fn byte(&self) -> u8 {
        self.next() as u8
    }

    pub fn word(&self) -> u32 {
        (self.next() >> 16) as u32
    }

    /// A byte that is often one of those that frames and requests are made of.
    pub fn telling_byte(&self) -> u8 {
        if self.once_in(2) {
            self.byte()
        } else {
            self.pick(&[0x10, 0x10, 0x10, 0x02, 0x03, 0x00, 0x01, 0xB4])
        }
    }

    pub fn bytes(&self, len: usize) -> Vec<u8> {
        (0..len).map(|_| self.byte()).collect()
    }

    pub fn telling_bytes(&self, len: usize) -> Vec<u8> {
        (0..len).map(|_| self.telling_byte()).collect()
    }

    /// A length of data, often near the limits.
    pub fn data_len(&self) -> usize {
        match self.below(4) {
            0 => self.pick(&[0, 1, 2, 254, 255, 256, 257, 258, 259, 300, 600]),
            1 => self.below(601),
            _ => self.below(30),
        }
    }

    /// The room of an output whose least room is this.
    pub fn room(&self, least: usize) -> usize {
        match self.below(16) {
            0 => least - 1,
            1 => self.below(least),
            2 => 0,
            3..=8 => least,
            9..=12 => least + 1,
            _ => least + self.below(300),
        }
    }

    /// Changes bytes a little: one changed, left out, put in, or the end cut or grown.
    pub fn mutate(&self, bytes: &mut Vec<u8>) {
        let at = self.below(bytes.len() + 1);
        match self.below(6) {
            0 if at < bytes.len() => bytes[at] = self.telling_byte(),
            1 if at < bytes.len() => bytes[at] ^= 1 << self.below(8),
            2 if at < bytes.len() => drop(bytes.remove(at)),
            3 => bytes.insert(at, self.telling_byte()),
            4 => bytes.truncate(at),
            _ => bytes.push(self.telling_byte()),
        }
    }
}
