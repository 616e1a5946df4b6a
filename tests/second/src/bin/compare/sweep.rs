//! Inputs that are few enough to be given all: each byte at each place, each length, each room, each short string.
use crate::buslink;
use crate::input::{Call, Input};
use crate::listings;
use crate::requests::{content, wrapped};
use crate::sheets;
use crate::tally::Tally;
use second::bench;
use second::stream::STATE_SIZE;

/// A good request that writes a setting of the bench tree.
const WRITE: [u8; 10] = [0xB4, 0x05, 0x01, 0x02, 0x01, 0x00, 0x00, 0x00, 0x00, 0x40];
const ADDRESS: u8 = 0x10;

pub fn run(tally: &mut Tally) {
    let tree = bench::tree().write();
    short_data(tally, &tree);
    rooms(tally, &tree);
    lengths(tally, &tree);
    addresses(tally);
    strings_changed(tally, &tree);
    trees_changed(tally, &tree);
    steps(tally);
    short_strings(tally);
}

fn serving<'a>(call: Call, tree: &'a [u8], bytes: &'a [u8]) -> Input<'a> {
    Input { tree, cells: &bench::CELLS, bytes, host: 1, address: ADDRESS, room: 520, ..Input::of(call) }
}

/// A whole string, read by a box of this address.
fn whole(bytes: &[u8]) -> Input<'_> {
    Input { bytes, address: ADDRESS, room: 256, ..Input::of(Call::ReadFrame) }
}

/// All data of one byte, and of two of which the first is not 0; host functions on and off.
fn short_data(tally: &mut Tally, tree: &[u8]) {
    for number in 0..=0xFFFF_u16 {
        let bytes = number.to_be_bytes();
        let data = if number < 256 { &bytes[1..] } else { &bytes[..] };
        for host in [0, 1] {
            tally.compare(&Input { host, ..serving(Call::ServeData, tree, data) });
        }
    }
}

/// Every room up to 600 for every call that is lent an output.
fn rooms(tally: &mut Tally, tree: &[u8]) {
    let string = wrapped(&content(ADDRESS, &WRITE));
    let datagram = [&[0; 4][..], &WRITE].concat();
    let state = [0; STATE_SIZE];
    for room in 0..=600 {
        tally.compare(&Input { room, ..serving(Call::ServeData, tree, &WRITE) });
        tally.compare(&Input { room, ..serving(Call::ServeSerial, tree, &string) });
        tally.compare(&Input { room, ..serving(Call::ServeUdp, tree, &datagram) });
        tally.compare(&Input { room, state: &state, bytes: &string, address: ADDRESS, ..Input::of(Call::Feed) });
        tally.compare(&Input { room, ..whole(&string) });
        listings::list(tally, tree, room);
        listings::list(tally, &tree[1..], room);
        sheets::write(tally, tree, &bench::CELLS, room);
        sheets::write(tally, &tree[1..], &bench::CELLS, room);
        buslink::send_into(tally, tree, &bench::CELLS, room);
        buslink::send_into(tally, &tree[1..], &bench::CELLS, room);
        for call in [Call::Frame, Call::Datagram, Call::WriteSerial, Call::WriteUdp] {
            tally.compare(&Input { room, bytes: &[1], op: 2, index: 1, address: ADDRESS, ..Input::of(call) });
        }
    }
}

/// Every length of data up to 600, all 10h or none, by every transport.
fn lengths(tally: &mut Tally, tree: &[u8]) {
    for len in 0..=600 {
        for byte in [0x10, 0xB4] {
            let data = vec![byte; len];
            for address in [ADDRESS, 0xEF, 0x00] {
                tally.compare(&Input { bytes: &data, address, room: 520, ..Input::of(Call::Frame) });
            }
            tally.compare(&Input { bytes: &data, room: 260, ..Input::of(Call::Datagram) });
            let string = wrapped(&content(ADDRESS, &data));
            let datagram = [&[0; 4][..], &data].concat();
            tally.compare(&serving(Call::ServeData, tree, &data));
            tally.compare(&serving(Call::ServeSerial, tree, &string));
            tally.compare(&serving(Call::ServeUdp, tree, &datagram));
            let state = [0; STATE_SIZE];
            tally.compare(&Input { state: &state, bytes: &string, address: ADDRESS, room: 256, ..Input::of(Call::Feed) });
            tally.compare(&whole(&string));
            tally.compare(&Input { bytes: &datagram, ..Input::of(Call::DatagramData) });
        }
    }
}

/// Every address in a frame, for every address of the box.
fn addresses(tally: &mut Tally) {
    for address in 0..=255 {
        let string = wrapped(&content(address, &[0xB4, 0x00]));
        tally.compare(&Input { bytes: &[0xB4, 0x00], address, room: 520, ..Input::of(Call::Frame) });
        for own in 0..=255 {
            tally.compare(&Input { bytes: &string, address: own, ..Input::of(Call::ReadSerial) });
            tally.compare(&Input { address: own, ..whole(&string) });
        }
    }
}

/// A good string and datagram, each byte changed to each other.
fn strings_changed(tally: &mut Tally, tree: &[u8]) {
    let string = wrapped(&content(ADDRESS, &WRITE));
    let datagram = [&[0; 4][..], &WRITE].concat();
    each_change(&string, |bytes| {
        tally.compare(&serving(Call::ServeSerial, tree, bytes));
        tally.compare(&Input { bytes, address: ADDRESS, ..Input::of(Call::ReadSerial) });
        for room in [255, 256] {
            tally.compare(&Input { room, ..whole(bytes) });
        }
    });
    each_change(&datagram, |bytes| {
        tally.compare(&serving(Call::ServeUdp, tree, bytes));
        tally.compare(&Input { bytes, ..Input::of(Call::ReadUdp) });
        tally.compare(&Input { bytes, ..Input::of(Call::DatagramData) });
    });
    each_change(&WRITE, |bytes| drop(tally.compare(&serving(Call::ServeData, tree, bytes))));
}

pub fn each_change(bytes: &[u8], mut give: impl FnMut(&[u8])) {
    for at in 0..bytes.len() {
        let mut changed = bytes.to_vec();
        for byte in 0..=255 {
            changed[at] = byte;
            give(&changed);
        }
    }
}

/// The bench tree and its cells, each byte changed to each other.
fn trees_changed(tally: &mut Tally, tree: &[u8]) {
    each_change(tree, |changed| {
        let input = Input { tree: changed, cells: &bench::CELLS, ..Input::of(Call::Check) };
        for call in [Call::Check, Call::CheckTree, Call::RestoreCells] {
            tally.compare(&Input { call, ..input });
        }
        listings::near(tally, changed);
        sheets::near(tally, changed, &bench::CELLS);
        buslink::near(tally, changed, &bench::CELLS);
        for place in 0..=5 {
            tally.compare(&Input { call: Call::Reading, place, ..input });
        }
        tally.compare(&serving(Call::ServeData, changed, &[0xB4, 0x02, 0x01, 0x02, 0x02]));
        tally.compare(&serving(Call::ServeData, changed, &WRITE));
    });
    each_change(&bench::CELLS, |cells| {
        tally.compare(&Input { tree, cells, ..Input::of(Call::Check) });
        tally.compare(&Input { tree, cells, ..Input::of(Call::RestoreCells) });
        sheets::near(tally, tree, cells);
        buslink::near(tally, tree, cells);
        for place in 0..=5 {
            tally.compare(&Input { tree, cells, place, ..Input::of(Call::Reading) });
        }
        tally.compare(&Input { cells, ..serving(Call::ServeData, tree, &[0xB4, 0x03, 0x01, 0x01, 0x01]) });
        tally.compare(&Input { tree, cells, place: 1, value: 0x1234_5678, ready: 1, ..Input::of(Call::Post) });
    });
}

/// Every phase, every length about the limits, every next byte.
fn steps(tally: &mut Tally) {
    for phase in 0..=4 {
        for len in [0_u16, 1, 2, 3, 4, 255, 256, 257, 258, 259] {
            let mut state = [0xA7; STATE_SIZE];
            state[0] = phase;
            state[1..3].copy_from_slice(&len.to_be_bytes());
            for byte in 0..=255 {
                tally.compare(&Input { state: &state, bytes: &[byte], address: 0xA7, room: 256, ..Input::of(Call::Feed) });
            }
            tally.compare(&Input { state: &state, address: 0xA7, room: 256, ..Input::of(Call::Feed) });
            tally.compare(&Input { state: &state, address: 0xA7, room: 255, ..Input::of(Call::Feed) });
        }
    }
}

/// All strings of up to seven bytes that frames turn on, behind 10 02, read whole and as a stream; and without it as a stream, a 10h
/// waiting or none.
fn short_strings(tally: &mut Tally) {
    const LETTERS: [u8; 4] = [0x10, 0x02, 0x03, 0x4B];
    let mut state = [0; STATE_SIZE];
    for len in 0..=7_u32 {
        for mut number in 0..4_usize.pow(len) {
            let mut bytes = vec![0x10, 0x02];
            for _ in 0..len {
                bytes.push(LETTERS[number % 4]);
                number /= 4;
            }
            tally.compare(&Input { bytes: &bytes, address: 0x10, ..Input::of(Call::ReadSerial) });
            tally.compare(&whole(&bytes));
            for (phase, from) in [(0, 0), (0, 2), (1, 2)] {
                state[0] = phase;
                tally.compare(&Input { state: &state, bytes: &bytes[from..], address: 0x10, room: 256, ..Input::of(Call::Feed) });
            }
        }
    }
}
