//! Stray 10h (document 02, section 2): runs of them before, between and after frames, cut at every place.
use crate::input::{Call, Input};
use crate::random::Random;
use crate::requests::{content, wrapped};
use crate::streams::deliver;
use crate::tally::Tally;
use second::stream::STATE_SIZE;

pub fn run(random: &Random, tally: &mut Tally) {
    if random.once_in(4) {
        let address = random.telling_byte();
        let (bytes, sent) = draw(random, address);
        at_every_cut(random, tally, &bytes, address, &sent);
    }
}

/// Delivers bytes in two parts, for every place between them: what is handed up, each number with its data, must be this.
pub fn at_every_cut(random: &Random, tally: &mut Tally, bytes: &[u8], address: u8, sent: &[(u8, Vec<u8>)]) {
    for cut in 0..=bytes.len() {
        let (mut handed, state) = deliver(random, tally, &bytes[..cut], address, vec![0; STATE_SIZE], false);
        let (rest, _) = deliver(random, tally, &bytes[cut..], address, state, false);
        handed.extend(rest);
        let input = Input { bytes, address, ..Input::of(Call::Feed) };
        tally.expect(handed == sent, "stray 10h hide no frame and make none", &input);
    }
}

/// A few frames for the address with stray bytes around them, and what is handed up: each frame, at its first sending.
fn draw(random: &Random, address: u8) -> (Vec<u8>, Vec<(u8, Vec<u8>)>) {
    let (mut bytes, mut sent) = (stray(random), Vec::new());
    for _ in 0..random.between(1, 3) {
        let len = random.pick(&[1, 2, 5, 10]);
        let data = random.telling_bytes(len);
        bytes.extend(wrapped(&content(address, &data)));
        bytes.extend(stray(random));
        sent.push((0, data));
    }
    (bytes, sent)
}

/// A run of 10h, at times with another byte behind it, or with a 02, which opens a frame that the next one begins anew.
fn stray(random: &Random) -> Vec<u8> {
    let mut bytes = vec![0x10; random.below(4)];
    match random.below(4) {
        0 => bytes.extend([random.pick(&[0x03, 0x00, 0xB4, 0xFF]), 0x10]),
        1 => bytes.extend([random.pick(&[0x03, 0x01, 0x11, 0x12])]),
        2 => bytes.extend([0x10, 0x10, 0x02]),
        _ => {}
    }
    bytes
}
