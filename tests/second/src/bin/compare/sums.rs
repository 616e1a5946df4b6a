//! Checksums: every byte added to every sum that one byte can hold, and sums that wrap many times.
use crate::input::{Call, Input};
use crate::requests::wrapped;
use crate::tally::Tally;
use second::frame::{checksum, DLE};
use second::stream::STATE_SIZE;

pub fn run(tally: &mut Tally) {
    for address in 0..=255 {
        for byte in 0..=255 {
            written_and_read(tally, address, &[byte]);
        }
    }
    for byte in 0..=255 {
        for address in [0x00, 0x10, 0xFF] {
            for len in [2, 16, 17, 255, 256] {
                written_and_read(tally, address, &vec![byte; len]);
            }
        }
    }
}

/// A frame written; and read, whole and as a stream, with its checksum and with each that is taken in a wrong way.
fn written_and_read(tally: &mut Tally, address: u8, data: &[u8]) {
    tally.compare(&Input { bytes: data, address, room: 520, ..Input::of(Call::Frame) });
    let state = [0; STATE_SIZE];
    for checksum in [checksum(address, data)].into_iter().chain(mistaken(address, data)) {
        let string = wrapped(&[&[address], data, &[checksum]].concat());
        let input = Input { bytes: &string, address, room: 256, ..Input::of(Call::ReadFrame) };
        tally.compare(&input);
        tally.compare(&Input { call: Call::Feed, state: &state, ..input });
    }
}

/// What a wrong sum makes of address and data: begun after the address; each 10h counted twice, as it is sent; saturated; with an
/// end-around carry; not taken from 255; and taken from 256.
fn mistaken(address: u8, data: &[u8]) -> [u8; 6] {
    let total = |sum: u8, byte: &u8| sum.wrapping_add(*byte);
    let sum = data.iter().fold(address, total);
    let extra = [&[address], data].concat().iter().filter(|byte| **byte == DLE).count() as u8;
    let carried = |sum: u8, byte: &u8| {
        let (low, carry) = sum.overflowing_add(*byte);
        low + u8::from(carry)
    };
    [
        !data.iter().fold(0, total),
        !sum.wrapping_add(extra.wrapping_mul(DLE)),
        !data.iter().fold(address, |sum, byte| sum.saturating_add(*byte)),
        !data.iter().fold(address, carried),
        sum,
        sum.wrapping_neg(),
    ]
}
