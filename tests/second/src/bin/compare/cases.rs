//! The cases of document 01 and of its readings, each with the bytes the paper gives; of document 02, the bench tree's listing, its
//! sheet and its Buslink frames, stray 10h, steps, and parts of a path.
use crate::input::{Call, Input, Lent};
use crate::random::Random;
use crate::requests::TRANSPORTS;
use crate::sheet_sweep::tree_of;
use crate::sheets::setting;
use crate::strays::at_every_cut;
use crate::tally::Tally;
use second::buslink::{Station, RECORDS_SIZE};

fn bytes(hex: &str) -> Vec<u8> {
    let digits: Vec<u8> = hex.bytes().filter(|byte| *byte != b' ').collect();
    let pair = |pair: &[u8]| u8::from_str_radix(std::str::from_utf8(pair).unwrap(), 16).unwrap();
    digits.chunks(2).map(pair).collect()
}

/// Request, number, reply; the read has its status byte (PDI 5.4).
const SERVED: [(&str, u8, &str); 16] = [
    ("B4 00", 0, "55"),
    ("B4 01 01", 0, "B4 01 01 02 00 42 6F 78 00"),
    (
        "B4 02 01 02 02",
        0,
        "B4 02 01 02 02 02 00000000 00000001 0003 1080 52 61 74 65 00 53 6C 6F 77 00 46 61 73 74 00",
    ),
    ("B4 03 01 01 01", 0, "B4 03 01 01 01 01 00000834"),
    ("B4 03 01 01 02", 12, "58"),
    ("B4 04 01 02 01 00 00000040", 0, "B4 04 01 02 01 00 00000040 01"),
    ("B4 04 01 02 01 00 00000041", 13, "B4 04 01 02 01 00 00000041 00"),
    ("B4 04 01 02 02 00 00000002", 13, "B4 04 01 02 02 00 00000002 00"),
    ("B4 04 01 02 03 00 00000000", 0, "B4 04 01 02 03 00 00000000 02"),
    ("B4 05 01 01 01 00 00000000", 13, "B4 05 01 01 01 00 00000000 00 52 65 61 64 20 6F 6E 6C 79 00"),
    ("B4 04 01 02 01 00 000000", 11, "54"),
    ("B4 06", 10, "59"),
    ("B4", 11, "54"),
    ("FF", 10, "59"),
    ("B4 00 01", 11, "54"),
    ("B4 01 01 00", 11, "54"),
];

/// Requests of the bench tree that are answered with 54, the number, and the length of the part of the path that no node has. The
/// first is marked in document 01.
const NOT_THERE: [(&str, u8, u64); 25] = [
    ("B4 03 01 03 01", 15, 2),
    ("B4 01 02", 15, 1),
    ("B4 01 FF", 15, 1),
    ("B4 01 01 03", 15, 2),
    ("B4 01 01 01 01", 15, 3),
    ("B4 01 01 01 01 01", 15, 3),
    ("B4 01 01 03 05 07", 15, 2),
    ("B4 01 02 01 01", 15, 1),
    ("B4 01 01 02 FF", 15, 3),
    ("B4 01 01 01 01 01 01 01 01 01 01 01 01 01 01 01 01 01", 15, 3),
    ("B4 02 01 01 01 01", 15, 3),
    ("B4 03 02 01", 15, 1),
    ("B4 03 01 FF FF", 15, 2),
    ("B4 04 01 03 01 00 00000000", 15, 2),
    ("B4 05 01 02 01 01 00 00000000", 15, 3),
    ("B4 02 01 01", 16, 0),
    ("B4 03 01 01 03", 16, 0),
    ("B4 03 01 02 81", 16, 0),
    ("B4 04 01 02 04 00 00000000", 16, 0),
    ("B4 05 01 02 FF 00 00000001", 16, 0),
    ("B4 03 02 00", 11, 0),
    ("B4 04 01 03 01 00 000000", 11, 0),
    ("B4 05 02 01 01 00 0000000000", 11, 0),
    ("B4 01 02 02 02 02 02 02 02 02 02 02 02 02 02 02 02 02 02", 11, 0),
    ("B4 00 02", 11, 0),
];

/// Address, data, frame.
const FRAMED: [(u8, &str, &str); 2] = [(0x3B, "B4 00", "10 02 3B B4 00 10 10 10 03"), (0x10, "B4 00", "10 02 10 10 B4 00 3B 10 03")];

/// Serial strings for address 0 and the number that reading them gives.
const STRINGS: [(&str, u8); 9] = [
    ("10 02 10 03", 4),
    ("10 02 00 10 10 03", 3),
    ("", 2),
    ("10", 2),
    ("10 02", 3),
    ("10 02 10", 3),
    ("10 02 00 B4 00 4B 10 03", 0),
    ("10 02 00 B4 00 4B 10 03 10 03", 3),
    ("10 10 02 00 B4 00 4B 10 03", 2),
];

/// Bytes of a stream for address 0, and what is handed up: numbers, with 0 the data. A `*` stands for 258 bytes of content.
const STREAMS: [(&str, &[(u8, &str)]); 8] = [
    ("10 10 02 00 B4 00 4B 10 03", &[(0, "B4 00")]),
    ("10 10 10 10 10 02 00 B4 00 4B 10 03 10 10", &[(0, "B4 00")]),
    ("10 10 00 02 00 B4 00 4B 10 03", &[]),
    ("10 10 03 10 03 10 10 02 00 B4 00 4B 10 03", &[(0, "B4 00")]),
    ("10 02 00 10 10 02 ED 10 03", &[(0, "10 02")]),
    ("10 02 * 10 10 02 00 B4 00 4B 10 03", &[(5, "")]),
    ("10 02 * 00 10 10 02 00 B4 00 4B 10 03", &[(5, ""), (0, "B4 00")]),
    ("10 02 00 10 05 EE 10 10 02 00 B4 00 4B 10 03", &[(3, ""), (0, "B4 00")]),
];

/// The readings of the bench tree's properties where each case starts, and after a restart: the number, and the word with 0.
const READINGS: [[(u8, u32); 2]; 6] = [
    [(0, 2100), (12, 0)],
    [(12, 0), (12, 0)],
    [(0, 4), (0, 4)],
    [(0, 0), (0, 0)],
    [(12, 0), (12, 0)],
    [(16, 0), (16, 0)],
];

/// Datagrams, the number, and where the data stands: its offset and length.
const DATAGRAMS: [(&str, u8, [u64; 2]); 4] =
    [("00000000 B4 00", 0, [4, 2]), ("00000000", 4, [0, 0]), ("000000", 2, [0, 0]), ("00000100 B4 00", 2, [0, 0])];

/// The bench tree's listing.
const LISTING: &[u8] = b"\
    path=1\nname=Box\nchildren=2\nproperties=0\n\
    path=1.1\nname=Live\nchildren=0\nproperties=2\n\
    path=1.1\nindex=1\nlabel=Probe 1\ntype=1\n\
    path=1.1\nindex=2\nlabel=Probe 2\ntype=1\n\
    path=1.2\nname=Setup\nchildren=0\nproperties=3\n\
    path=1.2\nindex=1\nlabel=Average\ntype=1\n\
    path=1.2\nindex=2\nlabel=Rate\ntype=2\n\
    path=1.2\nindex=3\nlabel=Restart\ntype=1\n";

/// Sheets read over the bench tree's cells, the number, and what Average and Rate hold then.
const SHEETS: [(&[u8], u8, [u8; 2]); 19] = [
    (b"Average=4\nRate=0\n", 0, [4, 0]),
    (b"Average=64\nRate=1\n", 0, [64, 1]),
    (b"Average=1\nRate=1\n", 0, [1, 1]),
    (b"Average=65\nRate=1\n", 18, [4, 0]),
    (b"Average=0\nRate=1\n", 18, [4, 0]),
    (b"Average=5\nRate=2\n", 18, [4, 0]),
    (b"Average=4294967301\nRate=1\n", 18, [4, 0]),
    (b"Average=5\nRate=4294967296\n", 18, [4, 0]),
    (b"Average=65\nRate=-0\n", 17, [4, 0]),
    (b"Average=-5\nRate=1\n", 17, [4, 0]),
    (b"Average=05\nRate=1\n", 17, [4, 0]),
    (b"Average=+5\nRate=1\n", 17, [4, 0]),
    (b"Average=\nRate=1\n", 17, [4, 0]),
    (b"Rate=1\nAverage=5\n", 17, [4, 0]),
    (b"Average=5\nRate=1", 17, [4, 0]),
    (b"Average=5\n", 17, [4, 0]),
    (b"Average=5\nRate=1\nRestart=0\n", 17, [4, 0]),
    (b"Probe 1=2100\nAverage=5\nRate=1\n", 17, [4, 0]),
    (b"", 17, [4, 0]),
];

/// Buslink frames of the bench tree: base, sub and type, the number, identifier and data. The first is document 02's; the others
/// have the identifiers of source 000, 4.2 and 4.4, and no probes. Its example 8-6 is no station.
const FRAMES: [([u8; 3], u8, u32, &str); 8] = [
    ([1, 2, 2], 0, 0x1555_0202, "08520082 00000002"),
    ([1, 1, 4], 0, 0x1555_0401, "00000000 00000000"),
    ([2, 4, 8], 0, 0x1555_0809, "00000000 00000000"),
    ([8, 4, 9], 0, 0x1555_0927, "00000000 00000000"),
    ([8, 5, 9], 0, 0x1555_0928, "00000000 00000000"),
    ([8, 6, 9], 19, 0, ""),
    ([1, 4, 0], 19, 0, ""),
    ([1, 2, 10], 19, 0, ""),
];

/// Data that 1-2 receives as indicators 1 and 2: which are usable, and each one's value, status and format.
const INDICATORS: [(&str, u64, [(i32, u8, u8); 2]); 4] = [
    ("08520082 00000002", 1, [(21_000, 0x80, 2), (0, 0, 2)]),
    ("FFFFFFBF FFFF7F80", 3, [(-1, 0xB8, 7), (8_388_607, 0x80, 0)]),
    ("000080C1 00008086", 2, [(-8_388_608, 0xC0, 1), (-8_388_608, 0x80, 6)]),
    ("01000040 0001007F", 0, [(1, 0x40, 0), (256, 0x78, 7)]),
];

/// Document 02, section 6: the steps of codes 0 to 11.
const STEPS: [u32; 12] = [1, 2, 5, 10, 20, 50, 100, 200, 500, 1000, 2000, 5000];

/// Format, min and max of a type 1 setting, a value that is written by op 5, and the reply's save and text.
const STEPPED: [(u16, i64, i64, i64, &str); 16] = [
    // "A setting in steps of 5 took 7": from min, between the ends
    (0x0200, 0, 100, 7, "00 53 74 65 70 00"),
    (0x0200, 0, 100, 100, "01 00"),
    (0x0200, 0, 100, 105, "00 52 61 6E 67 65 00"),
    (0x0200, 0, 100, 107, "00 52 61 6E 67 65 00"),
    (0x0200, 1, 64, 61, "01 00"),
    (0x0200, 1, 64, 60, "00 53 74 65 70 00"),
    (0x8200, -7, 7, -7, "01 00"),
    (0x8200, -7, 7, -2, "01 00"),
    (0x8200, -7, 7, 3, "01 00"),
    (0x8200, -7, 7, 0, "00 53 74 65 70 00"),
    (0x8200, -7, 7, 7, "00 53 74 65 70 00"),
    (0x8B00, -0x8000_0000, 0x7FFF_FFFF, 0x7FFF_F708, "01 00"),
    // from 0 where there is no range, never modulo 2^32
    (0x8200, 0, 0, -10, "01 00"),
    (0x8200, 0, 0, -1, "00 53 74 65 70 00"),
    (0x0200, 0, 0, 0xFFFF_FFF6, "00 53 74 65 70 00"),
    (0x0200, 0, 0, 0xFFFF_FFFF, "01 00"),
];

pub fn run(random: &Random, tally: &mut Tally) {
    for (stream, handed) in STREAMS {
        let stream = bytes(&stream.replace('*', &"00".repeat(258)));
        let handed: Vec<(u8, Vec<u8>)> = handed.iter().map(|(number, data)| (*number, bytes(data))).collect();
        at_every_cut(random, tally, &stream, 0, &handed);
    }
    tally.compare(&Input::of(Call::StateSize));
    list_all(tally);
    write_sheets(tally);
    read_sheets(tally);
    send_frames(tally);
    receive_frames(tally);
    serve_all(tally);
    look_for_all(tally);
    write_steps(tally);
    each_code(tally);
    read_all(tally);
    find_all(tally);
    for (address, data, frame) in FRAMED {
        let (data, frame) = (bytes(data), bytes(frame));
        let input = Input { address, bytes: &data, room: 520, ..Input::of(Call::Frame) };
        let seen = tally.compare(&input);
        tally.expect(seen.number == 0 && seen.lent.out[..frame.len()] == frame, "the frame is the paper's", &input);
        let input = Input { address, bytes: &frame, room: 256, ..Input::of(Call::ReadFrame) };
        let seen = tally.compare(&input);
        let same = seen.number == 0 && seen.fields[0] == data.len() as u64 && seen.lent.out[..data.len()] == data;
        tally.expect(same, "the data is the paper's", &input);
    }
    for (string, number) in STRINGS {
        let string = bytes(string);
        let input = Input { bytes: &string, ..Input::of(Call::ReadSerial) };
        for input in [input, Input { call: Call::ReadFrame, room: 256, ..input }] {
            let seen = tally.compare(&input);
            tally.expect(seen.number == number, "the number is the paper's", &input);
        }
    }
}

fn list_all(tally: &mut Tally) {
    let tree = second::bench::tree().write();
    let len = LISTING.len();
    for (part, room, number, told) in [(&tree[..], len, 0, len), (&tree, len - 1, 8, len), (&tree[1..], len, 1, 0)] {
        let input = Input { tree: part, room, ..Input::of(Call::List) };
        let seen = tally.compare(&input);
        let same = seen.number == number && seen.fields[0] == told as u64;
        tally.expect(same && (number == 0) == (seen.lent.out[..] == *LISTING), "the listing is the paper's", &input);
    }
}

/// With the room it takes and a byte less; Average out of range; broken cells.
fn write_sheets(tally: &mut Tally) {
    let (tree, sheet) = (second::bench::tree().write(), SHEETS[0].0);
    let (cells, len) = (second::bench::CELLS, sheet.len());
    let mut outside = cells;
    outside[13] = 65;
    for (cells, room, number, told) in
        [(&cells[..], len, 0, len), (&cells, len - 1, 8, len), (&outside, len, 18, 0), (&cells[1..], len, 1, 0)]
    {
        let input = Input { tree: &tree, cells, room, ..Input::of(Call::WriteSheet) };
        let seen = tally.compare(&input);
        let same = seen.number == number && seen.fields[0] == told as u64;
        tally.expect(same && (number == 0) == (seen.lent.out[..] == *sheet), "the sheet is the paper's", &input);
    }
}

fn read_sheets(tally: &mut Tally) {
    let tree = second::bench::tree().write();
    for (sheet, number, [average, rate]) in SHEETS {
        let mut cells = second::bench::CELLS;
        let input = Input { tree: &tree, cells: &cells.clone(), bytes: sheet, ..Input::of(Call::ReadSheet) };
        (cells[13], cells[18]) = (average, rate);
        let seen = tally.compare(&input);
        tally.expect(seen.number == number && *seen.lent.cells == cells, "the sheet is read as the paper says", &input);
    }
}

fn send_frames(tally: &mut Tally) {
    let tree = second::bench::tree().write();
    for ([base, sub, kind], number, identifier, data) in FRAMES {
        let mut input = Input { tree: &tree, cells: &second::bench::CELLS, kind, ..Input::of(Call::BuslinkSend) };
        (input.station, input.room) = (Station { base, sub }, 8);
        let seen = tally.compare(&input);
        let same = seen.number == number && seen.fields[0] == identifier.into();
        tally.expect(same && (number != 0 || *seen.lent.out == bytes(data)), "the frame is the paper's", &input);
    }
}

fn receive_frames(tally: &mut Tally) {
    let station = Station { base: 1, sub: 2 };
    for (data, usable, indicators) in INDICATORS {
        let data = bytes(data);
        let mut input = Input { station, value: 0x1555_0202, bytes: &data, ..Input::of(Call::BuslinkReceive) };
        input.records = &[0; RECORDS_SIZE];
        let seen = tally.compare(&input);
        tally.expect(seen.number == 0 && seen.fields[0] == usable, "these are usable", &input);
        for (index, (value, status, format)) in (1..).zip(indicators) {
            let input = Input { records: &seen.lent.records, index, ..Input::of(Call::BuslinkIndicator) };
            let seen = tally.compare(&input);
            let same = seen.fields[..3] == [u64::from(value as u32), status.into(), format.into()];
            tally.expect(seen.number == 0 && same, "the indicator is the paper's", &input);
        }
    }
}

fn find_all(tally: &mut Tally) {
    for (datagram, number, found) in DATAGRAMS {
        let datagram = bytes(datagram);
        let input = Input { bytes: &datagram, ..Input::of(Call::DatagramData) };
        let seen = tally.compare(&input);
        tally.expect(seen.number == number && seen.fields[..2] == found, "the data stands where the paper says", &input);
    }
}

fn read_all(tally: &mut Tally) {
    let tree = second::bench::tree().write();
    let start = Input { tree: &tree, cells: &second::bench::CELLS, ..Input::of(Call::RestoreCells) };
    let restored = tally.compare(&start).lent.cells;
    for (place, readings) in READINGS.into_iter().enumerate() {
        for ((number, word), cells) in readings.into_iter().zip([start.cells, &restored]) {
            let input = Input { call: Call::Reading, cells, place, ..start };
            let seen = tally.compare(&input);
            let same = seen.number == number && (number != 0 || seen.fields[0] == u64::from(word));
            tally.expect(same, "the reading is the paper's", &input);
        }
    }
}

fn serve_all(tally: &mut Tally) {
    let tree = second::bench::tree().write();
    for (request, number, reply) in SERVED {
        let (request, reply) = (bytes(request), bytes(reply));
        let mut input = Input::of(Call::ServeData);
        (input.tree, input.cells, input.host, input.bytes, input.room) = (&tree, &second::bench::CELLS, 1, &request, 256);
        let seen = tally.compare(&input);
        let same = seen.number == number && seen.fields[0] == reply.len() as u64 && seen.lent.out[..reply.len()] == reply;
        tally.expect(same && seen.fields[2] == 0, "the reply is the paper's", &input);
        input.host = 0;
        let seen = tally.compare(&input);
        tally.expect(seen.number == 9 && seen.lent.out[0] == 0x57, "57 where host functions are off", &input);
    }
}

/// By every transport: the reply is 54, no cell changes, and no action is told.
fn look_for_all(tally: &mut Tally) {
    let tree = second::bench::tree().write();
    for (request, number, missing) in NOT_THERE {
        for transport in TRANSPORTS {
            let (string, reply) = (transport.carry(&bytes(request), 0x10), transport.carry(&[0x54], 0x10));
            let (call, room) = transport.call();
            let mut input = Input { tree: &tree, bytes: &string, address: 0x10, host: 1, room, ..Input::of(call) };
            input.cells = &second::bench::CELLS;
            let mut lent = Lent::of(&input);
            lent.out[..reply.len()].copy_from_slice(&reply);
            let seen = tally.compare(&input);
            let told = seen.number == number && seen.fields[..3] == [reply.len() as u64, 255, missing];
            tally.expect(told && seen.lent == lent, "the part of the path is the paper's", &input);
        }
    }
}

/// A value written to the one setting of a tree: the request, the number and the bytes of the reply behind it.
fn write_step(tally: &mut Tally, range: (u16, i64, i64), value: i64, number: u8, behind: &str) {
    let tree = tree_of(vec![setting(range, b"")]).form();
    let request = [&[0xB4, 5, 1, 1, 0][..], &(value as u32).to_be_bytes()].concat();
    let reply = if number == 1 { Vec::new() } else { [&request[..], &bytes(behind)].concat() };
    let input = Input { tree: &tree, cells: &[0; 5], host: 1, bytes: &request, room: 256, ..Input::of(Call::ServeData) };
    let seen = tally.compare(&input);
    let same = seen.number == number && seen.fields[0] == reply.len() as u64 && seen.lent.out[..reply.len()] == reply;
    tally.expect(same, "the step is the paper's", &input);
}

fn write_steps(tally: &mut Tally) {
    for (format, min, max, value, behind) in STEPPED {
        write_step(tally, (format, min, max), value, if behind == "01 00" { 0 } else { 13 }, behind);
    }
}

/// Every code with the step that it means and a number below it; 12 to 15 mean none.
fn each_code(tally: &mut Tally) {
    for (code, step) in STEPS.into_iter().enumerate() {
        write_step(tally, ((code as u16) << 8, 0, 0), step.into(), 0, "01 00");
        for less in 1..step {
            write_step(tally, ((code as u16) << 8, 0, 0), less.into(), 13, "00 53 74 65 70 00");
        }
    }
    for code in 12..16 {
        write_step(tally, (code << 8, 0, 0), 0, 1, "");
    }
}
