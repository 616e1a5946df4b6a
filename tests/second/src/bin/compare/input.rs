//! An input to a call, and what a call made of it.
use second::buslink::Station;

#[derive(Clone, Copy, Debug, PartialEq, Eq)]
#[repr(usize)]
pub enum Call {
    StateSize,
    BeginStream,
    Feed,
    Check,
    CheckTree,
    CellsSize,
    BeginCells,
    RestoreCells,
    Post,
    Reading,
    List,
    WriteSheet,
    ReadSheet,
    BuslinkSend,
    BeginBuslink,
    BuslinkReceive,
    BuslinkIndicator,
    ServeData,
    ServeSerial,
    ServeUdp,
    Frame,
    Datagram,
    ReadFrame,
    DatagramData,
    ReadSerial,
    ReadUdp,
    WriteSerial,
    WriteUdp,
}

use Call::*;

/// Every call with its name and the numbers that it must have been seen to return.
pub const CALLS: [(Call, &str, &[u8]); 28] = [
    (StateSize, "pq_state_size", &[0]),
    (BeginStream, "pq_begin_stream", &[0, 1]),
    (Feed, "pq_feed", &[0, 1, 3, 4, 5, 6, 7, 8, 255]),
    (Check, "pq_check", &[0, 1]),
    (CheckTree, "pq_check_tree", &[0, 1]),
    (CellsSize, "pq_cells_size", &[0]),
    (BeginCells, "pq_begin_cells", &[0, 1]),
    (RestoreCells, "pq_restore_cells", &[0, 1]),
    (Post, "pq_post", &[0, 1, 14]),
    (Reading, "pq_reading", &[0, 1, 12, 16]),
    (List, "pq_list", &[0, 1, 8]),
    (WriteSheet, "pq_write_sheet", &[0, 1, 8, 17, 18]),
    (ReadSheet, "pq_read_sheet", &[0, 1, 17, 18]),
    (BuslinkSend, "pq_buslink_send", &[0, 1, 8, 19]),
    (BeginBuslink, "pq_begin_buslink", &[0, 1]),
    (BuslinkReceive, "pq_buslink_receive", &[0, 1, 19, 20]),
    (BuslinkIndicator, "pq_buslink_indicator", &[0, 1, 19]),
    (ServeData, "pq_serve_data", &[0, 1, 4, 5, 8, 9, 10, 11, 12, 13, 15, 16]),
    (ServeSerial, "pq_serve_serial", &[0, 1, 2, 3, 4, 5, 6, 7, 8, 9, 10, 11, 12, 13, 15, 16]),
    (ServeUdp, "pq_serve_udp", &[0, 1, 2, 4, 5, 8, 9, 10, 11, 12, 13, 15, 16]),
    (Frame, "pq_frame", &[0, 4, 5, 8]),
    (Datagram, "pq_datagram", &[0, 4, 5, 8]),
    (ReadFrame, "pq_read_frame", &[0, 2, 3, 4, 5, 6, 7, 8]),
    (DatagramData, "pq_datagram_data", &[0, 2, 4, 5]),
    (ReadSerial, "pq_read_serial", &[0, 2, 3, 4, 5, 6, 7, 10, 11]),
    (ReadUdp, "pq_read_udp", &[0, 2, 4, 5, 10, 11]),
    (WriteSerial, "pq_write_serial", &[0, 8, 10, 11]),
    (WriteUdp, "pq_write_udp", &[0, 8, 10, 11]),
];

/// All that any call takes; what a call does not take is empty or 0.
#[derive(Clone, Copy, Debug)]
pub struct Input<'a> {
    pub call: Call,
    pub tree: &'a [u8],
    pub cells: &'a [u8],
    pub state: &'a [u8],
    /// Of Buslink: the records, a station, a frame's type. The identifier of a frame is the value, an indicator's number the index.
    pub records: &'a [u8],
    pub station: Station,
    pub kind: u8,
    pub bytes: &'a [u8],
    pub address: u8,
    pub host: u8,
    pub op: u8,
    pub index: u8,
    pub ready: u8,
    pub value: u32,
    pub place: usize,
    pub room: usize,
}

impl<'a> Input<'a> {
    pub fn of(call: Call) -> Self {
        Input {
            call,
            tree: &[],
            cells: &[],
            state: &[],
            records: &[],
            station: Station::default(),
            kind: 0,
            bytes: &[],
            address: 0,
            host: 0,
            op: 0,
            index: 0,
            ready: 0,
            value: 0,
            place: 0,
            room: 0,
        }
    }

    pub fn show(&self) -> String {
        format!(
            "{} tree={} cells={} state={} records={} station={}-{} type={} bytes={} address={:02X} host={} op={} index={} \
             ready={} value={:08X} place={} room={}",
            CALLS[self.call as usize].1,
            hex(self.tree),
            hex(self.cells),
            hex(self.state),
            hex(self.records),
            self.station.base,
            self.station.sub,
            self.kind,
            hex(self.bytes),
            self.address,
            self.host,
            self.op,
            self.index,
            self.ready,
            self.value,
            self.place,
            self.room
        )
    }
}

/// Bytes in hex, with their length, shortened.
pub fn hex(bytes: &[u8]) -> String {
    const MOST: usize = 400;
    let digits: String = bytes.iter().take(MOST).map(|byte| format!("{byte:02X}")).collect();
    let more = if bytes.len() > MOST { ".." } else { "" };
    format!("({}){digits}{more}", bytes.len())
}

/// The buffers of one call, each an allocation of exactly its length, so that a step outside of one is seen by memcheck.
#[derive(PartialEq)]
pub struct Lent {
    pub tree: Box<[u8]>,
    pub cells: Box<[u8]>,
    pub state: Box<[u8]>,
    pub records: Box<[u8]>,
    pub bytes: Box<[u8]>,
    pub out: Box<[u8]>,
}

impl Lent {
    pub fn of(input: &Input) -> Lent {
        Lent {
            tree: input.tree.into(),
            cells: input.cells.into(),
            state: input.state.into(),
            records: input.records.into(),
            bytes: input.bytes.into(),
            out: (0..input.room).map(pattern).collect(),
        }
    }

    fn parts(&self) -> [(&'static str, &[u8]); 6] {
        [
            ("tree", &self.tree),
            ("cells", &self.cells),
            ("state", &self.state),
            ("records", &self.records),
            ("bytes", &self.bytes),
            ("out", &self.out),
        ]
    }
}

/// What an output is filled with, so that bytes that were written are told from those that were not.
fn pattern(at: usize) -> u8 {
    (at as u8).wrapping_mul(7) ^ 0xA5
}

/// What a call made of an input: its number, what it handed back, and every byte of every buffer.
#[derive(PartialEq)]
pub struct Seen {
    pub number: u8,
    pub fields: [u64; 5],
    pub lent: Lent,
}

impl Seen {
    /// Where this differs from what another made of the same input.
    pub fn differs(&self, other: &Seen) -> String {
        let mut text = format!("number {} / {}, fields {:X?} / {:X?}", self.number, other.number, self.fields, other.fields);
        for ((name, ours), (_, others)) in self.lent.parts().iter().zip(other.lent.parts()) {
            if let Some(at) = (0..ours.len()).find(|at| ours[*at] != others[*at]) {
                text += &format!(", {name} from byte {at}: {} / {}", hex(&ours[at..]), hex(&others[at..]));
            }
        }
        text
    }
}
