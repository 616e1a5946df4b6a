//! An input given to the library, and to the second implementation.
use crate::input::{Call, Input, Lent, Seen};
use crate::library::*;
use second::buslink::{Indicator, Station};
use second::listing::Listed;
use second::request::Request;
use second::serve::Served;
use second::sheet::Written;
use second::{buslink, cells, frame, listing, request, serve, sheet, stream, tree};

/// What numbers that are handed back hold before the call: a word, an indicator and the fields of a request hold it still after a
/// refusal, and every other one is overwritten.
pub const UNSET: u64 = 0xEEEE_EEEE_EEEE_EEEE;

/// Numbers that a call hands back.
struct Back {
    long: [usize; 2],
    short: [u8; 2],
    value: u32,
    signed: i32,
    mask: u16,
    path: Box<[u8]>,
}

impl Back {
    fn new() -> Back {
        let (value, signed, mask) = (UNSET as u32, UNSET as i32, UNSET as u16);
        Back { long: [UNSET as usize; 2], short: [UNSET as u8; 2], value, signed, mask, path: vec![0xEE; 16].into() }
    }

    fn request(&self) -> [u64; 5] {
        request_fields(self.short[0], &self.path, self.long[0], self.short[1], self.value)
    }

    fn word(&self) -> [u64; 5] {
        one(self.value.into())
    }

    fn served(&self) -> [u64; 5] {
        served_fields(self.long[0], self.short[0], self.short[1])
    }

    fn indicator(&self) -> [u64; 5] {
        indicator_fields(self.signed, self.short[0], self.short[1])
    }
}

fn request_fields(op: u8, path: &[u8], len: usize, index: u8, value: u32) -> [u64; 5] {
    let half = |bytes: &[u8]| u64::from_be_bytes(bytes.try_into().unwrap());
    let small = u64::from(op) << 48 | u64::from(index) << 32 | u64::from(value);
    [small, len as u64, half(&path[..8]), half(&path[8..]), 0]
}

/// The reply's length, the place of an action, and the length of the part of the path that no node has.
fn served_fields(len: usize, action: u8, missing: u8) -> [u64; 5] {
    [len as u64, action.into(), missing.into(), 0, 0]
}

fn indicator_fields(value: i32, status: u8, format: u8) -> [u64; 5] {
    [(value as u32).into(), status.into(), format.into(), 0, 0]
}

/// The library's call.
pub fn library(input: &Input) -> Seen {
    let mut lent = Lent::of(input);
    let mut back = Back::new();
    let (number, fields) = unsafe { call(input, &mut lent, &mut back) };
    Seen { number, fields, lent }
}

/// A lent buffer as C takes it.
fn lend(buffer: &mut [u8]) -> (*mut u8, usize) {
    (buffer.as_mut_ptr(), buffer.len())
}

unsafe fn call(i: &Input, lent: &mut Lent, back: &mut Back) -> (u8, [u64; 5]) {
    match i.call {
        Call::StateSize | Call::BeginStream | Call::Feed => call_stream(i, lent, back),
        Call::ServeData | Call::ServeSerial | Call::ServeUdp => call_serve(i, lent, back),
        Call::Frame | Call::Datagram | Call::WriteSerial | Call::WriteUdp => call_write(i, lent, back),
        Call::ReadFrame | Call::DatagramData => call_data(i, lent, back),
        Call::ReadSerial | Call::ReadUdp => call_read(i, lent, back),
        Call::List => call_list(lent, back),
        Call::WriteSheet | Call::ReadSheet => call_sheet(i, lent, back),
        Call::BuslinkSend => call_send(i, lent, back),
        Call::BeginBuslink | Call::BuslinkReceive | Call::BuslinkIndicator => call_records(i, lent, back),
        _ => call_cells(i, lent, back),
    }
}

unsafe fn call_stream(i: &Input, lent: &mut Lent, back: &mut Back) -> (u8, [u64; 5]) {
    let (state, state_len) = lend(&mut lent.state);
    let (bytes, bytes_len) = lend(&mut lent.bytes);
    let (out, out_len) = lend(&mut lent.out);
    let [taken, len] = &mut back.long;
    match i.call {
        Call::StateSize => (0, one(pq_state_size() as u64)),
        Call::BeginStream => (pq_begin_stream(state, state_len), one(0)),
        _ => {
            let number = pq_feed(state, state_len, i.address, bytes, bytes_len, out, out_len, taken, len);
            (number, two(*taken, *len))
        }
    }
}

unsafe fn call_cells(i: &Input, lent: &mut Lent, back: &mut Back) -> (u8, [u64; 5]) {
    let (tree, tree_len) = lend(&mut lent.tree);
    let (cells, cells_len) = lend(&mut lent.cells);
    match i.call {
        Call::Check => (pq_check(tree, tree_len, cells, cells_len), one(0)),
        Call::CheckTree => (pq_check_tree(tree, tree_len), one(0)),
        Call::CellsSize => (0, one(pq_cells_size(tree, tree_len) as u64)),
        Call::BeginCells => (pq_begin_cells(tree, tree_len, cells, cells_len), one(0)),
        Call::RestoreCells => (pq_restore_cells(tree, tree_len, cells, cells_len), one(0)),
        Call::Post => (pq_post(tree, tree_len, cells, cells_len, i.place, i.value, i.ready), one(0)),
        Call::Reading => {
            let number = pq_reading(tree, tree_len, cells, cells_len, i.place, &mut back.value);
            (number, back.word())
        }
        _ => unreachable!("{:?} is another group's", i.call),
    }
}

unsafe fn call_list(lent: &mut Lent, back: &mut Back) -> (u8, [u64; 5]) {
    let (tree, tree_len) = lend(&mut lent.tree);
    let (out, out_len) = lend(&mut lent.out);
    let len = &mut back.long[0];
    (pq_list(tree, tree_len, out, out_len, len), one(*len as u64))
}

unsafe fn call_sheet(i: &Input, lent: &mut Lent, back: &mut Back) -> (u8, [u64; 5]) {
    let (tree, tree_len) = lend(&mut lent.tree);
    let (cells, cells_len) = lend(&mut lent.cells);
    let (bytes, bytes_len) = lend(&mut lent.bytes);
    let (out, out_len) = lend(&mut lent.out);
    let len = &mut back.long[0];
    if i.call == Call::WriteSheet {
        return (pq_write_sheet(tree, tree_len, cells, cells_len, out, out_len, len), one(*len as u64));
    }
    (pq_read_sheet(tree, tree_len, cells, cells_len, bytes, bytes_len), one(0))
}

unsafe fn call_send(i: &Input, lent: &mut Lent, back: &mut Back) -> (u8, [u64; 5]) {
    let (tree, tree_len) = lend(&mut lent.tree);
    let (cells, cells_len) = lend(&mut lent.cells);
    let (out, out_len) = lend(&mut lent.out);
    let Station { base, sub } = i.station;
    let identifier = &mut back.value;
    let number = pq_buslink_send(tree, tree_len, cells, cells_len, base, sub, i.kind, out, out_len, identifier);
    (number, back.word())
}

unsafe fn call_records(i: &Input, lent: &mut Lent, back: &mut Back) -> (u8, [u64; 5]) {
    let (records, records_len) = lend(&mut lent.records);
    let (data, data_len) = lend(&mut lent.bytes);
    let Station { base, sub } = i.station;
    match i.call {
        Call::BeginBuslink => (pq_begin_buslink(records, records_len), one(0)),
        Call::BuslinkReceive => {
            let usable = &mut back.mask;
            let number = pq_buslink_receive(records, records_len, base, sub, i.value, data, data_len, usable);
            (number, one(back.mask.into()))
        }
        _ => {
            let [status, format] = &mut back.short;
            let number = pq_buslink_indicator(records, records_len, i.index, &mut back.signed, status, format);
            (number, back.indicator())
        }
    }
}

unsafe fn call_serve(i: &Input, lent: &mut Lent, back: &mut Back) -> (u8, [u64; 5]) {
    let (tree, tree_len) = lend(&mut lent.tree);
    let (cells, cells_len) = lend(&mut lent.cells);
    let (bytes, bytes_len) = lend(&mut lent.bytes);
    let (out, out_len) = lend(&mut lent.out);
    let (len, [action, missing]) = (&mut back.long[0], &mut back.short);
    let number = match i.call {
        Call::ServeData => {
            pq_serve_data(tree, tree_len, cells, cells_len, i.host, bytes, bytes_len, out, out_len, len, action, missing)
        }
        Call::ServeSerial => pq_serve_serial(
            tree, tree_len, cells, cells_len, i.host, i.address, bytes, bytes_len, out, out_len, len, action, missing,
        ),
        _ => pq_serve_udp(tree, tree_len, cells, cells_len, i.host, bytes, bytes_len, out, out_len, len, action, missing),
    };
    (number, back.served())
}

unsafe fn call_write(i: &Input, lent: &mut Lent, back: &mut Back) -> (u8, [u64; 5]) {
    let (bytes, bytes_len) = lend(&mut lent.bytes);
    let (out, out_len) = lend(&mut lent.out);
    let len = &mut back.long[0];
    let number = match i.call {
        Call::Frame => pq_frame(i.address, bytes, bytes_len, out, out_len, len),
        Call::Datagram => pq_datagram(bytes, bytes_len, out, out_len, len),
        Call::WriteSerial => {
            pq_write_serial(i.address, i.op, bytes, bytes_len, i.index, i.value, out, out_len, len)
        }
        _ => pq_write_udp(i.op, bytes, bytes_len, i.index, i.value, out, out_len, len),
    };
    (number, one(*len as u64))
}

unsafe fn call_data(i: &Input, lent: &mut Lent, back: &mut Back) -> (u8, [u64; 5]) {
    let (bytes, bytes_len) = lend(&mut lent.bytes);
    let (out, out_len) = lend(&mut lent.out);
    let [offset, len] = &mut back.long;
    if i.call == Call::ReadFrame {
        return (pq_read_frame(i.address, bytes, bytes_len, out, out_len, len), one(*len as u64));
    }
    (pq_datagram_data(bytes, bytes_len, offset, len), two(*offset, *len))
}

unsafe fn call_read(i: &Input, lent: &mut Lent, back: &mut Back) -> (u8, [u64; 5]) {
    let (bytes, bytes_len) = lend(&mut lent.bytes);
    let path = back.path.as_mut_ptr();
    let [op, index] = &mut back.short;
    let (path_len, value) = (&mut back.long[0], &mut back.value);
    let number = match i.call {
        Call::ReadSerial => pq_read_serial(i.address, bytes, bytes_len, op, path, path_len, index, value),
        _ => pq_read_udp(bytes, bytes_len, op, path, path_len, index, value),
    };
    (number, back.request())
}

/// The second implementation's answer to the same input.
pub fn second(input: &Input) -> Seen {
    let mut lent = Lent::of(input);
    let (number, fields) = answer(input, &mut lent);
    Seen { number, fields, lent }
}

fn one(field: u64) -> [u64; 5] {
    [field, 0, 0, 0, 0]
}

fn two(field: usize, other: usize) -> [u64; 5] {
    [field as u64, other as u64, 0, 0, 0]
}

fn answer(i: &Input, lent: &mut Lent) -> (u8, [u64; 5]) {
    match i.call {
        Call::StateSize => (0, one(stream::STATE_SIZE as u64)),
        Call::BeginStream => (stream::begin(&mut lent.state), one(0)),
        Call::Feed => feed(i, lent),
        Call::ServeData | Call::ServeSerial | Call::ServeUdp => served(serve(i, lent)),
        Call::Frame => written(frame::write_frame(i.address, &lent.bytes, &mut lent.out)),
        Call::Datagram => written(frame::write_datagram(&lent.bytes, &mut lent.out)),
        Call::ReadFrame => written(frame::read_frame(i.address, &lent.bytes, &mut lent.out)),
        Call::DatagramData => found(frame::data_range(&lent.bytes)),
        Call::ReadSerial => read(request::read_serial(i.address, &lent.bytes)),
        Call::ReadUdp => read(request::read_udp(&lent.bytes)),
        Call::WriteSerial => {
            written(request::write_serial(i.address, i.op, &lent.bytes, i.index, i.value, &mut lent.out))
        }
        Call::WriteUdp => written(request::write_udp(i.op, &lent.bytes, i.index, i.value, &mut lent.out)),
        Call::List => listed(listing::list(&lent.tree, &mut lent.out)),
        Call::WriteSheet => told(sheet::write(&lent.tree, &lent.cells, &mut lent.out)),
        Call::ReadSheet => (sheet::read(&lent.tree, &mut lent.cells, &lent.bytes), one(0)),
        Call::BuslinkSend => or_0(buslink::send(&lent.tree, &lent.cells, i.station, i.kind, &mut lent.out)),
        Call::BeginBuslink => (buslink::begin(&mut lent.records), one(0)),
        Call::BuslinkReceive => or_0(buslink::receive(&mut lent.records, i.station, i.value, &lent.bytes)),
        Call::BuslinkIndicator => asked(buslink::indicator(&lent.records, i.index)),
        _ => answer_cells(i, lent),
    }
}

fn answer_cells(i: &Input, lent: &mut Lent) -> (u8, [u64; 5]) {
    match i.call {
        Call::Check => (cells::check(&lent.tree, &lent.cells), one(0)),
        Call::CheckTree => (tree::check(&lent.tree), one(0)),
        Call::CellsSize => (0, one(cells::size(&lent.tree) as u64)),
        Call::BeginCells => (cells::begin(&lent.tree, &mut lent.cells), one(0)),
        Call::RestoreCells => (cells::restore(&lent.tree, &mut lent.cells), one(0)),
        Call::Post => (cells::post(&lent.tree, &mut lent.cells, i.place, i.value, i.ready != 0), one(0)),
        Call::Reading => looked(cells::reading(&lent.tree, &lent.cells, i.place)),
        _ => unreachable!("{:?} is another group's", i.call),
    }
}

fn serve(i: &Input, lent: &mut Lent) -> Served {
    let host = i.host != 0;
    match i.call {
        Call::ServeData => serve::serve_data(&lent.tree, &mut lent.cells, host, &lent.bytes, &mut lent.out),
        Call::ServeSerial => {
            serve::serve_serial(&lent.tree, &mut lent.cells, host, i.address, &lent.bytes, &mut lent.out)
        }
        _ => serve::serve_udp(&lent.tree, &mut lent.cells, host, &lent.bytes, &mut lent.out),
    }
}

/// Both readers of the second implementation, which must agree.
fn feed(i: &Input, lent: &mut Lent) -> (u8, [u64; 5]) {
    let mut plain = Lent::of(i);
    let slow = stream::feed_plain(&mut plain.state, i.address, &plain.bytes, &mut plain.out);
    let fed = stream::feed(&mut lent.state, i.address, &lent.bytes, &mut lent.out);
    assert!(slow == fed && plain == *lent, "the two readers differ: {}", i.show());
    (fed.number, two(fed.taken, fed.len))
}

fn served(served: Served) -> (u8, [u64; 5]) {
    (served.number, served_fields(served.len, served.action, served.missing))
}

fn listed(listed: Listed) -> (u8, [u64; 5]) {
    (listed.number, one(listed.len as u64))
}

fn told(written: Written) -> (u8, [u64; 5]) {
    (written.number, one(written.len as u64))
}

fn written(result: Result<usize, u8>) -> (u8, [u64; 5]) {
    match result {
        Ok(len) => (0, one(len as u64)),
        Err(number) => (number, one(0)),
    }
}

fn found(result: Result<(usize, usize), u8>) -> (u8, [u64; 5]) {
    match result {
        Ok((offset, len)) => (0, two(offset, len)),
        Err(number) => (number, two(0, 0)),
    }
}

fn looked(result: Result<u32, u8>) -> (u8, [u64; 5]) {
    match result {
        Ok(word) => (0, one(word.into())),
        Err(number) => (number, Back::new().word()),
    }
}

/// An identifier, or a mask.
fn or_0(result: Result<impl Into<u64>, u8>) -> (u8, [u64; 5]) {
    match result {
        Ok(back) => (0, one(back.into())),
        Err(number) => (number, one(0)),
    }
}

fn asked(result: Result<Indicator, u8>) -> (u8, [u64; 5]) {
    match result {
        Ok(indicator) => (0, indicator_fields(indicator.value, indicator.status, indicator.format)),
        Err(number) => (number, Back::new().indicator()),
    }
}

fn read(result: Result<Request, u8>) -> (u8, [u64; 5]) {
    match result {
        Ok(request) => {
            let (path, len) = (request.whole_path(), request.path().len());
            (0, request_fields(request.op, path, len, request.index, request.value))
        }
        Err(number) => (number, Back::new().request()),
    }
}
