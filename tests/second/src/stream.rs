//! The stream reader ("The stream", as section 2 of document 02 amends it), over plain state and over lent bytes.
use crate::frame::{judge, DLE, ETX, STX};
use crate::*;

pub const STATE_SIZE: usize = 261;

/// Where a reader stands, as document 01 says it: in a frame or not, a 10h waiting or not, the content so far.
#[derive(Clone, Debug, Default, PartialEq)]
pub struct Place {
    pub inside: bool,
    pub waiting: bool,
    pub content: Vec<u8>,
}

/// What a byte ended: a frame closed, with its content, or dropped, with a number.
pub enum Ended {
    Closed(Vec<u8>),
    Dropped(u8),
}

impl Place {
    /// Takes one byte.
    pub fn step(&mut self, byte: u8) -> Option<Ended> {
        if !self.waiting && byte == DLE {
            self.waiting = true;
            return None;
        }
        let pair = std::mem::replace(&mut self.waiting, false);
        match (self.inside, pair, byte) {
            (_, true, STX) => self.open(),
            (false, true, DLE) => self.wait(),
            (false, _, _) => None,
            (true, true, ETX) => Some(Ended::Closed(std::mem::take(self).content)),
            (true, true, DLE) | (true, false, _) => self.take(byte),
            (true, true, _) => self.drop(BAD_PAIR),
        }
    }

    /// Outside, the second of 10 10 may still begin 10 02.
    fn wait(&mut self) -> Option<Ended> {
        self.waiting = true;
        None
    }

    fn open(&mut self) -> Option<Ended> {
        self.inside = true;
        self.content.clear();
        None
    }

    fn take(&mut self, byte: u8) -> Option<Ended> {
        self.content.push(byte);
        if self.content.len() > MOST_CONTENT {
            return self.drop(TOO_LONG);
        }
        None
    }

    fn drop(&mut self, number: u8) -> Option<Ended> {
        *self = Place::default();
        Some(Ended::Dropped(number))
    }

    /// The place that lent bytes stand for.
    pub fn read(state: &[u8]) -> Option<Place> {
        if !has_form(state) {
            return None;
        }
        let content = state[3..3 + content_len(state)].to_vec();
        Some(Place { inside: state[0] >= 2, waiting: state[0] % 2 == 1, content })
    }

    /// Writes the form of this place over lent bytes; those behind the content stay.
    pub fn write(&self, state: &mut [u8]) {
        state[0] = 2 * u8::from(self.inside) + u8::from(self.waiting);
        state[1..3].copy_from_slice(&(self.content.len() as u16).to_be_bytes());
        state[3..3 + self.content.len()].copy_from_slice(&self.content);
    }
}

fn content_len(state: &[u8]) -> usize {
    usize::from(u16::from_be_bytes([state[1], state[2]]))
}

/// Whether lent bytes are the form of a place.
pub fn has_form(state: &[u8]) -> bool {
    if state.len() != STATE_SIZE || state[0] > 3 {
        return false;
    }
    let most = if state[0] < 2 { 0 } else { MOST_CONTENT };
    content_len(state) <= most
}

/// What a delivery came to.
#[derive(Clone, Copy, Debug, PartialEq)]
pub struct Fed {
    pub number: u8,
    pub taken: usize,
    pub len: usize,
}

fn fed(number: u8, taken: usize, len: usize) -> Fed {
    Fed { number, taken, len }
}

/// The number of a closed frame; a good one's data goes to the front of the output.
fn close(content: &[u8], address: u8, out: &mut [u8]) -> (u8, usize) {
    match judge(content, address) {
        Ok(data) => {
            out[..data.len()].copy_from_slice(data);
            (0, data.len())
        }
        Err(number) => (number, 0),
    }
}

/// A delivery taken byte by byte through `Place`, the form written anew after each byte. Slow, and close to the documents' words.
pub fn feed_plain(state: &mut [u8], address: u8, bytes: &[u8], out: &mut [u8]) -> Fed {
    let Some(mut place) = Place::read(state) else {
        return fed(UNSOUND, 0, 0);
    };
    if out.len() < ROOM_DATA {
        return fed(NO_ROOM, 0, 0);
    }
    for (at, byte) in bytes.iter().enumerate() {
        let ended = place.step(*byte);
        place.write(state);
        match ended {
            Some(Ended::Dropped(number)) => return fed(number, at + 1, 0),
            Some(Ended::Closed(content)) => {
                let (number, len) = close(&content, address, out);
                return fed(number, at + 1, len);
            }
            None => {}
        }
    }
    fed(NO_FRAME, bytes.len(), 0)
}

const OUTSIDE: u8 = 0;
const OUTSIDE_WAITING: u8 = 1;
const INSIDE: u8 = 2;
const INSIDE_WAITING: u8 = 3;

/// What a byte did to a reader over lent bytes.
enum Step {
    On,
    Close,
    Drop(u8),
}

/// A reader whose content lies in lent bytes.
struct Reader<'a> {
    phase: u8,
    len: usize,
    content: &'a mut [u8],
}

impl Reader<'_> {
    fn step(&mut self, byte: u8) -> Step {
        match (self.phase, byte) {
            (OUTSIDE | OUTSIDE_WAITING, DLE) => self.phase = OUTSIDE_WAITING,
            (OUTSIDE_WAITING | INSIDE_WAITING, STX) => self.open(),
            (OUTSIDE | OUTSIDE_WAITING, _) => self.phase = OUTSIDE,
            (INSIDE, DLE) => self.phase = INSIDE_WAITING,
            (INSIDE_WAITING, ETX) => return Step::Close,
            (INSIDE, _) | (INSIDE_WAITING, DLE) => return self.take(byte),
            (_, _) => return Step::Drop(BAD_PAIR),
        }
        Step::On
    }

    fn open(&mut self) {
        self.phase = INSIDE;
        self.len = 0;
    }

    fn take(&mut self, byte: u8) -> Step {
        if self.len == MOST_CONTENT {
            return Step::Drop(TOO_LONG);
        }
        self.content[self.len] = byte;
        self.len += 1;
        self.phase = INSIDE;
        Step::On
    }

    /// Takes bytes up to the one that ends a frame.
    fn run(&mut self, address: u8, bytes: &[u8], out: &mut [u8]) -> Fed {
        for (at, byte) in bytes.iter().enumerate() {
            let (number, len) = match self.step(*byte) {
                Step::On => continue,
                Step::Close => close(&self.content[..self.len], address, out),
                Step::Drop(number) => (number, 0),
            };
            self.phase = OUTSIDE;
            self.len = 0;
            return fed(number, at + 1, len);
        }
        fed(NO_FRAME, bytes.len(), 0)
    }
}

/// A delivery to the reader whose state lies in lent bytes.
pub fn feed(state: &mut [u8], address: u8, bytes: &[u8], out: &mut [u8]) -> Fed {
    if !has_form(state) {
        return fed(UNSOUND, 0, 0);
    }
    if out.len() < ROOM_DATA {
        return fed(NO_ROOM, 0, 0);
    }
    let len = content_len(state);
    let (head, content) = state.split_at_mut(3);
    let mut reader = Reader { phase: head[0], len, content };
    let fed = reader.run(address, bytes, out);
    head[0] = reader.phase;
    head[1..].copy_from_slice(&(reader.len as u16).to_be_bytes());
    fed
}

/// The state in which a stream begins.
pub fn begin(state: &mut [u8]) -> u8 {
    if state.len() != STATE_SIZE {
        return UNSOUND;
    }
    state.fill(0);
    0
}
