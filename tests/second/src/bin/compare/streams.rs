//! Streams: noise and frames, cut at random, delivered to the end, and delivered again whole.
use crate::input::{Call, Input, Seen};
use crate::random::Random;
use crate::requests::{content, string, wrapped};
use crate::tally::Tally;
use second::stream::STATE_SIZE;

pub fn run(random: &Random, tally: &mut Tally) {
    begin(random, tally);
    for _ in 0..3 {
        let address = random.telling_byte();
        let bytes = draw(random, address);
        let begun = vec![0; STATE_SIZE];
        let cut = deliver(random, tally, &bytes, address, begun.clone(), true);
        let whole = deliver(random, tally, &bytes, address, begun, false);
        let input = Input { bytes: &bytes, address, ..Input::of(Call::Feed) };
        tally.expect(cut == whole, "cuts change nothing", &input);
        twice(random, tally, &bytes, address);
        from_any_state(random, tally, address);
    }
}

fn begin(random: &Random, tally: &mut Tally) {
    let len = random.pick(&[STATE_SIZE, STATE_SIZE, STATE_SIZE - 1, STATE_SIZE + 1, 0, 3]);
    let state = random.bytes(len);
    tally.compare(&Input { state: &state, ..Input::of(Call::BeginStream) });
}

/// What a list of deliveries handed up: each number with its data, and the state left.
pub type Handed = (Vec<(u8, Vec<u8>)>, Vec<u8>);

/// Delivers bytes to the end, cut at random or each time all that is left.
pub fn deliver(random: &Random, tally: &mut Tally, bytes: &[u8], address: u8, state: Vec<u8>, cut: bool) -> Handed {
    let mut handed = (Vec::new(), state);
    let mut at = 0;
    while at < bytes.len() {
        let len = if cut { cut_len(random, bytes.len() - at) } else { bytes.len() - at };
        let mut input = Input { bytes: &bytes[at..at + len], address, ..Input::of(Call::Feed) };
        let state = handed.1.clone();
        input.state = &state;
        input.room = if cut { random.room(256) } else { 256 };
        let seen = tally.compare(&input);
        at += seen.fields[0] as usize;
        take_up(&mut handed, &seen);
    }
    handed
}

fn cut_len(random: &Random, left: usize) -> usize {
    random.pick(&[0, 1, 1, 2, 3, 10, 50, 200, left]).min(left)
}

fn take_up(handed: &mut Handed, seen: &Seen) {
    let len = seen.fields[1] as usize;
    if ![1, 8, 255].contains(&seen.number) {
        handed.0.push((seen.number, seen.lent.out[..len].to_vec()));
    }
    handed.1 = seen.lent.state.to_vec();
}

/// After any noise a good frame that is sent twice is handed up at the second sending at the latest.
fn twice(random: &Random, tally: &mut Tally, noise: &[u8], address: u8) {
    let len = random.pick(&[1, 2, 20, 256]);
    let data = random.telling_bytes(len);
    let frame = wrapped(&content(address, &data));
    let noise = &noise[..random.below(noise.len() + 1)];
    let (_, state) = deliver(random, tally, noise, address, vec![0; STATE_SIZE], false);
    let bytes = [&frame[..], &frame].concat();
    let (handed, _) = deliver(random, tally, &bytes, address, state, true);
    let input = Input { bytes: &bytes, address, ..Input::of(Call::Feed) };
    tally.expect(handed.contains(&(0, data)), "the second sending is handed up", &input);
}

/// A delivery to any state: with a form, any bytes behind its content, or with none.
fn from_any_state(random: &Random, tally: &mut Tally, address: u8) {
    for _ in 0..4 {
        let mut state = any_place(random);
        if random.once_in(3) {
            corrupt(random, &mut state);
        }
        let bytes = draw(random, address);
        let bytes = if random.once_in(6) { &[] } else { &bytes[..random.below(bytes.len() + 1).min(700)] };
        let mut input = Input { state: &state, bytes, address, ..Input::of(Call::Feed) };
        input.room = random.room(256);
        tally.compare(&input);
    }
}

/// A state that has a form; often its content is nearly a good frame's, or full.
fn any_place(random: &Random) -> Vec<u8> {
    let mut state = random.bytes(STATE_SIZE);
    state[0] = random.below(4) as u8;
    let len = random.pick(&[0, 1, 2, 3, 10, 200, 255, 256, 257, 258]);
    let len: u16 = if state[0] < 2 { 0 } else { len };
    state[1..3].copy_from_slice(&len.to_be_bytes());
    state
}

fn corrupt(random: &Random, state: &mut Vec<u8>) {
    match random.below(6) {
        0 => drop(state.pop()),
        1 => state.push(0),
        2 => state[0] = random.pick(&[4, 5, 0x80, 255]),
        3 => state[1..3].copy_from_slice(&random.pick(&[[1, 3], [1, 4], [2, 0], [0xFF, 0xFF], [3, 1]])),
        4 => state[..3].copy_from_slice(&[random.below(2) as u8, random.below(2) as u8, 1]),
        _ => state.truncate(random.below(STATE_SIZE)),
    }
}

/// Noise and frames of every kind.
fn draw(random: &Random, address: u8) -> Vec<u8> {
    let mut bytes = Vec::new();
    for _ in 0..random.between(1, 6) {
        let piece = draw_piece(random, address);
        bytes.extend(piece);
    }
    bytes
}

fn draw_piece(random: &Random, address: u8) -> Vec<u8> {
    let len = random.pick(&[1, 2, 5, 30, 100, 256]);
    let data = random.telling_bytes(len);
    match random.below(9) {
        8 => vec![0x10; random.between(1, 4)],
        0 => random.telling_bytes(len),
        1 => long_piece(random, address),
        2 => broken_piece(random, address, &data),
        3 => wrapped(&data[..data.len().min(random.below(4))]),
        4 => wrapped(&content(random.byte(), &data)),
        5 => wrapped(&content(address, &data)),
        _ => string(random, data, address),
    }
}

/// Content of 258 bytes or more, the 259th often the second of a pair.
fn long_piece(random: &Random, address: u8) -> Vec<u8> {
    let len = random.pick(&[255, 256, 257, 258, 300]);
    let mut data = random.telling_bytes(len);
    if random.once_in(2) {
        data[254..].fill(0x10);
    }
    wrapped(&content(address, &data))
}

/// A frame that another breaks off, or that a wrong pair drops.
fn broken_piece(random: &Random, address: u8, data: &[u8]) -> Vec<u8> {
    let mut piece = wrapped(&content(address, data));
    piece.truncate(random.below(piece.len()));
    if random.once_in(2) {
        piece.extend([0x10, random.byte()]);
    }
    piece
}
