//! Requests, strings and datagrams: drawn, mostly valid, and given to the calls that need no tree.
use crate::draft::Draft;
use crate::input::{Call, Input};
use crate::random::Random;
use crate::tally::Tally;
use second::frame::{checksum, DLE, ETX, STX};

#[derive(Clone, Copy)]
pub enum Transport {
    Data,
    Serial,
    Udp,
}

pub const TRANSPORTS: [Transport; 3] = [Transport::Data, Transport::Serial, Transport::Udp];

pub fn transport(random: &Random) -> Transport {
    random.pick(&TRANSPORTS)
}

impl Transport {
    /// The call that serves what comes by it, and the least room that this call asks for.
    pub fn call(self) -> (Call, usize) {
        match self {
            Transport::Data => (Call::ServeData, 256),
            Transport::Serial => (Call::ServeSerial, 520),
            Transport::Udp => (Call::ServeUdp, 260),
        }
    }

    /// Data as it comes and goes, for a box of this address.
    pub fn carry(self, data: &[u8], address: u8) -> Vec<u8> {
        match self {
            Transport::Data => data.to_vec(),
            Transport::Serial => wrapped(&content(address, data)),
            Transport::Udp => [&[0; 4], data].concat(),
        }
    }
}

pub fn run(random: &Random, tally: &mut Tally) {
    let draft = Draft::of(&second::bench::tree());
    for _ in 0..60 {
        read(random, tally, &draft);
        write(random, tally);
        frame(random, tally);
    }
}

/// A box's address, often 10h or another byte that frames are made of.
pub fn address(random: &Random) -> u8 {
    random.telling_byte()
}

fn read(random: &Random, tally: &mut Tally, draft: &Draft) {
    let address = address(random);
    let string = draw(random, draft, Transport::Serial, address);
    tally.compare(&Input { bytes: &string, address, ..Input::of(Call::ReadSerial) });
    tally.compare(&Input { bytes: &string, address, room: random.room(256), ..Input::of(Call::ReadFrame) });
    let datagram = draw(random, draft, Transport::Udp, address);
    tally.compare(&Input { bytes: &datagram, ..Input::of(Call::ReadUdp) });
    tally.compare(&Input { bytes: &datagram, ..Input::of(Call::DatagramData) });
}

/// A request to be written out, mostly one that the table allows.
fn write(random: &Random, tally: &mut Tally) {
    let op = random.pick(&[0, 1, 2, 3, 4, 5, 1, 2, 3, 4, 5, 6, 7, 255]);
    let mut path = if op == 0 { Vec::new() } else { path(random) };
    let mut index = if op >= 2 { random.telling_byte() } else { 0 };
    let mut value = if op >= 4 { random.word() } else { 0 };
    match random.below(16) {
        0 => path = random.telling_bytes(random_path_len(&path)),
        1 => index = random.telling_byte(),
        2 => value = random.pick(&[0, 1, 0x100, 0x8000_0000, 0x1010_1010]),
        3 => random.mutate(&mut path),
        _ => {}
    }
    let mut input = Input { bytes: &path, op, index, value, address: address(random), ..Input::of(Call::WriteSerial) };
    input.room = random.room(520);
    tally.compare(&input);
    input.call = Call::WriteUdp;
    input.room = random.room(260);
    tally.compare(&input);
}

fn random_path_len(path: &[u8]) -> usize {
    [0, 16, 17, 18, 300][path.len() % 5]
}

/// A good path, of a node that there may not be.
fn path(random: &Random) -> Vec<u8> {
    let len = random.pick(&[1, 2, 3, 4, 15, 16]);
    (0..len).map(|_| random.telling_byte().max(1)).collect()
}

fn frame(random: &Random, tally: &mut Tally) {
    let len = random.data_len();
    let data = if random.once_in(8) { vec![DLE; len] } else { random.telling_bytes(len) };
    let mut input = Input { bytes: &data, address: address(random), ..Input::of(Call::Frame) };
    input.room = random.room(520);
    tally.compare(&input);
    input.call = Call::Datagram;
    input.room = random.room(260);
    tally.compare(&input);
}

/// Request data for a tree, mostly for a place that there is.
fn good_data(random: &Random, draft: &Draft) -> Vec<u8> {
    let op = random.pick(&[0, 1, 1, 2, 2, 3, 3, 3, 4, 4, 4, 4, 5, 5, 5, 5]);
    let mut data = vec![0xB4, op];
    if op == 0 {
        return data;
    }
    if op == 1 || draft.properties.is_empty() {
        data.extend(draft.path(random.below(draft.nodes.len())));
    }
    if op == 1 {
        return data;
    }
    let mut value = random.word();
    if draft.properties.is_empty() {
        data.push(1);
    } else {
        let place = random.below(draft.properties.len());
        data.extend(draft.target(place));
        value = draft.value(random, place);
    }
    if op >= 4 {
        data.push(0);
        data.extend(value.to_be_bytes());
    }
    data
}

/// Request data: good, changed a little, or any bytes.
fn data(random: &Random, draft: &Draft) -> Vec<u8> {
    let mut data = good_data(random, draft);
    match random.below(20) {
        0..=2 => random.mutate(&mut data),
        3 => data[1] = random.pick(&[6, 7, 0x80, 255, 0, 1, 2, 3, 4, 5]),
        4 => data[0] = random.byte(),
        5 => {
            let len = random.data_len();
            data = random.telling_bytes(len);
        }
        6 => data = nonzero_data(random),
        7 => data = vec![random.pick(&[0xB4, 0xB3, 0x00, 0xFF])],
        _ => {}
    }
    data
}

/// A shape that may be good: path lengths about the limit, all bytes nonzero.
fn nonzero_data(random: &Random) -> Vec<u8> {
    let op = random.between(1, 5) as u8;
    let mut data = vec![0xB4, op];
    let len = random.between(0, 20);
    data.extend((0..len).map(|_| random.telling_byte().max(1)));
    if op >= 4 {
        data.extend(random.pick(&[&[0, 0, 0, 0, 0][..], &[0, 1, 2, 3, 4], &[0, 0, 0, 0], &[0, 0, 0, 0, 0, 0], &[0]]));
    }
    data
}

/// Bytes as they come by a transport, mostly good.
pub fn draw(random: &Random, draft: &Draft, transport: Transport, address: u8) -> Vec<u8> {
    let data = data(random, draft);
    match transport {
        Transport::Data => data,
        Transport::Serial => string(random, data, address),
        Transport::Udp => datagram(random, data),
    }
}

/// Content, doubled and between its ends, with no look at its length.
pub fn wrapped(content: &[u8]) -> Vec<u8> {
    let mut string = vec![DLE, STX];
    for byte in content {
        string.push(*byte);
        if *byte == DLE {
            string.push(DLE);
        }
    }
    string.extend([DLE, ETX]);
    string
}

pub fn content(address: u8, data: &[u8]) -> Vec<u8> {
    [&[address], data, &[checksum(address, data)]].concat()
}

/// A serial string for an address, mostly good.
pub fn string(random: &Random, data: Vec<u8>, address: u8) -> Vec<u8> {
    let mut content = content(address, &data);
    match random.below(24) {
        0 => {
            let at = random.below(content.len());
            content[at] = random.telling_byte();
        }
        1 => content = self::content(random.byte(), &data),
        2 => content.truncate(random.below(4)),
        3 => return any_string(random),
        _ => {}
    }
    let mut string = wrapped(&content);
    if random.once_in(10) {
        random.mutate(&mut string);
    }
    string
}

/// Any bytes, or any bytes behind 10 02.
fn any_string(random: &Random) -> Vec<u8> {
    let len = random.below(601);
    let mut string = random.telling_bytes(len);
    if random.once_in(2) && len >= 2 {
        string[..2].copy_from_slice(&[DLE, STX]);
    }
    string
}

fn datagram(random: &Random, data: Vec<u8>) -> Vec<u8> {
    let mut datagram = [vec![0; 4], data].concat();
    match random.below(24) {
        0 => datagram[random.below(4)] = random.byte(),
        1 => datagram.truncate(random.below(6)),
        2 => datagram.resize(random.pick(&[260, 261, 262, 300, 600]), 0x10),
        3 => random.mutate(&mut datagram),
        4 => {
            let len = random.below(601);
            datagram = random.telling_bytes(len);
        }
        _ => {}
    }
    datagram
}
