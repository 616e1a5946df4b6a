//! Costs of the library's calls and of the second implementation's, from the same lent bytes.
//!
//! measure rows               the names of the rows, each with its units for one call
//! measure time               for each row: the best time for one call in nanoseconds, the library's and the second's
//! measure run SIDE ROW N     N calls of one row, SIDE being library or second: for counting instructions
#[allow(dead_code)]
#[path = "../library.rs"]
mod library;

use library::*;
use second::buslink::{Station, RECORDS_SIZE};
use second::tree::Tree;
use second::{bench, buslink, cells, frame, listing, request, serve, sheet, stream};
use std::hint::black_box;
use std::time::{Duration, Instant};

const ADDRESS: u8 = 0x3B;
const REPEATS: usize = 100;
const SLICE: Duration = Duration::from_millis(2);
const STATION: Station = Station { base: 1, sub: 2 };
/// No listing is longer.
const ROOM_LISTING: usize = 17_664;

/// A row: its name, what it does, how many units (bytes, or 1) one call is, and the number that it comes to.
struct Row {
    name: String,
    work: Work,
    units: usize,
    number: u8,
}

enum Work {
    /// Bytes of a frame, fed so many at a time.
    Feed { bytes: Vec<u8>, block: usize, at: usize },
    ReadSerial { string: Vec<u8> },
    ReadFrame { string: Vec<u8> },
    /// Data written by turns.
    Frame { data: Vec<Vec<u8>>, at: usize },
    Serve { tree: Vec<u8>, cells: Vec<u8>, request: Vec<u8> },
    Check { tree: Vec<u8>, cells: Vec<u8> },
    Reading { tree: Vec<u8>, cells: Vec<u8>, place: usize },
    List { tree: Vec<u8> },
    WriteSheet { tree: Vec<u8>, cells: Vec<u8> },
    ReadSheet { tree: Vec<u8>, cells: Vec<u8>, sheet: Vec<u8> },
    /// A frame of a type.
    BuslinkSend { tree: Vec<u8>, cells: Vec<u8>, kind: u8 },
    BuslinkReceive { identifier: u32, data: Vec<u8> },
}

/// Buffers that are lent over and over.
struct Desk {
    state: Vec<u8>,
    out: Vec<u8>,
    page: Vec<u8>,
    records: Vec<u8>,
}

impl Desk {
    fn new() -> Desk {
        let (state, out) = (vec![0; stream::STATE_SIZE], vec![0; second::ROOM_SERIAL]);
        Desk { state, out, page: vec![0; ROOM_LISTING], records: vec![0; RECORDS_SIZE] }
    }
}

fn written(data: &[u8]) -> Vec<u8> {
    let mut out = vec![0; second::ROOM_SERIAL];
    let len = frame::write_frame(ADDRESS, data, &mut out).unwrap();
    out.truncate(len);
    out
}

/// Data of so many bytes, up to 256, the first alone being 10h.
fn sample(len: usize) -> Vec<u8> {
    (0..len).map(|at| (at as u8).wrapping_mul(0x1D) ^ 0x10).collect()
}

/// 256 bytes that follow no pattern, about one in eight being 10h.
fn varied(seed: u64) -> Vec<u8> {
    let mut state = seed.wrapping_mul(0x9E37_79B9_7F4A_7C15);
    let mut draw = || {
        state ^= state << 13;
        state ^= state >> 7;
        state ^= state << 17;
        (state >> 24) as u16
    };
    (0..256).map(|_| draw()).map(|drawn| if drawn & 0x700 == 0 { 0x10 } else { drawn as u8 }).collect()
}

fn row(name: &str, units: usize, work: Work) -> Row {
    Row { name: name.to_string(), work, units, number: 0 }
}

/// The request of an op for the property at a path and index.
fn request_data(op: u8, path: &[u8], index: u8, value: u32) -> Vec<u8> {
    let mut data = vec![0xB4, op];
    if op >= 1 {
        data.extend(path);
    }
    if op >= 2 {
        data.push(index);
    }
    if op >= 4 {
        data.push(0);
        data.extend(value.to_be_bytes());
    }
    data
}

/// A tree's sheet, written and read.
fn sheet_rows(rows: &mut Vec<Row>, name: &str, tree: Vec<u8>, cells: Vec<u8>) {
    let mut sheet = vec![0; second::SHEET_ROOM];
    let len = sheet::write(&tree, &cells, &mut sheet).len;
    sheet.truncate(len);
    let written = Work::WriteSheet { tree: tree.clone(), cells: cells.clone() };
    rows.push(row(&format!("write_sheet-{name}"), 1, written));
    rows.push(row(&format!("read_sheet-{name}"), 1, Work::ReadSheet { tree, cells, sheet }));
}

/// The bench tree's first frame, sent and received, and the last one of the largest tree: its fifteenth probe is the property at
/// place 42.
fn buslink_rows(rows: &mut Vec<Row>) {
    let (tree, cells) = (bench::tree().write(), bench::CELLS.to_vec());
    let mut data = vec![0; buslink::DATA_SIZE];
    let identifier = buslink::send(&tree, &cells, STATION, 2, &mut data).unwrap();
    rows.push(row("buslink_send-bench", 1, Work::BuslinkSend { tree, cells, kind: 2 }));
    let largest = Work::BuslinkSend { tree: bench::largest().write(), cells: [0, 0, 8, 0x34, 1].repeat(128), kind: 9 };
    rows.push(row("buslink_send-largest", 1, largest));
    rows.push(row("buslink_receive", 1, Work::BuslinkReceive { identifier, data }));
}

/// Op 4 on the bench tree with Average in steps of 5: 1, 6, .. 61.
fn step_row(rows: &mut Vec<Row>) {
    let mut tree = bench::tree();
    tree.properties[2].format = 0x0200;
    let (cells, request) = (bench::CELLS.to_vec(), request_data(4, &[1, 2], 1, 61));
    rows.push(row("op4-step", 1, Work::Serve { tree: tree.write(), cells, request }));
}

/// Op 3 with a path that no node has, from its last number on: 1.3 of the bench tree, and sixteen numbers of the largest.
fn missing_rows(rows: &mut Vec<Row>) {
    let mut longest = [1; 16];
    longest[15] = 255;
    let (bench, largest) = ((bench::tree().write(), bench::CELLS.to_vec()), (bench::largest().write(), vec![0; 640]));
    for (name, (tree, cells), path) in [("bench", bench, &[1, 3][..]), ("largest", largest, &longest)] {
        let work = Work::Serve { tree, cells, request: request_data(3, path, 1, 0) };
        rows.push(Row { number: second::NO_SUCH_NODE, ..row(&format!("missing-{name}"), 1, work) });
    }
}

/// Each op on a tree, the firmware's reading of the same property, the tree's listing and its check.
fn tree_rows(rows: &mut Vec<Row>, name: &str, tree: Vec<u8>, cells: Vec<u8>, path: &[u8], index: u8) {
    for op in 0..=5 {
        let request = request_data(op, path, index, 1);
        rows.push(row(&format!("op{op}-{name}"), 1, Work::Serve { tree: tree.clone(), cells: cells.clone(), request }));
    }
    let place = Tree::read(&tree).and_then(|tree| tree.property(tree.node(path).ok()?, index)).expect("a property");
    rows.push(row(&format!("reading-{name}"), 1, Work::Reading { tree: tree.clone(), cells: cells.clone(), place }));
    rows.push(row(&format!("list-{name}"), 1, Work::List { tree: tree.clone() }));
    rows.push(row(&format!("check-{name}"), 1, Work::Check { tree, cells }));
}

fn rows() -> Vec<Row> {
    let (short, long) = (written(&sample(20)), written(&sample(256)));
    let len = long.len();
    let asked = written(&request_data(4, &[1, 2], 1, 0x40));
    let mut rows = vec![
        row("feed-alone", 1, Work::Feed { bytes: short, block: 1, at: 0 }),
        row("feed-block", len, Work::Feed { bytes: long.clone(), block: len, at: 0 }),
        row("read-request", 1, Work::ReadSerial { string: asked }),
        row("read-256", 1, Work::ReadSerial { string: long.clone() }),
        row("read-frame", 1, Work::ReadFrame { string: long }),
        row("frame-20", 1, Work::Frame { data: vec![sample(20)], at: 0 }),
        row("frame-256", 1, Work::Frame { data: vec![sample(256)], at: 0 }),
        row("frame-varied", 1, Work::Frame { data: (1..=256).map(varied).collect(), at: 0 }),
    ];
    tree_rows(&mut rows, "bench", bench::tree().write(), bench::CELLS.to_vec(), &[1, 2], 1);
    step_row(&mut rows);
    tree_rows(&mut rows, "largest", bench::largest().write(), vec![0; 640], &[1; 16], 2);
    missing_rows(&mut rows);
    sheet_rows(&mut rows, "bench", bench::tree().write(), bench::CELLS.to_vec());
    let (tree, cells) = (bench::settings().write(), bench::settings_cells());
    sheet_rows(&mut rows, "settings", tree.clone(), cells.clone());
    rows.push(row("check-settings", 1, Work::Check { tree, cells }));
    buslink_rows(&mut rows);
    rows
}

/// One call of the library.
fn library_once(work: &mut Work, desk: &mut Desk) -> u8 {
    let (out, out_len) = (desk.out.as_mut_ptr(), desk.out.len());
    let (mut long, mut more, mut short, mut other, mut value) = (0, 0, 0, 0, 0);
    let mut path = [0; 16];
    unsafe {
        match work {
            Work::Feed { bytes, block, at } => {
                let part = next_part(bytes, *block, at);
                let state = desk.state.as_mut_ptr();
                pq_feed(state, desk.state.len(), ADDRESS, part.as_ptr(), part.len(), out, out_len, &mut long, &mut more)
            }
            Work::ReadSerial { string } => pq_read_serial(
                ADDRESS, string.as_ptr(), string.len(), &mut short, path.as_mut_ptr(), &mut long, &mut other, &mut value,
            ),
            Work::ReadFrame { string } => {
                pq_read_frame(ADDRESS, string.as_ptr(), string.len(), out, out_len, &mut long)
            }
            Work::Frame { data, at } => {
                let data = next_data(data, at);
                pq_frame(ADDRESS, data.as_ptr(), data.len(), out, out_len, &mut long)
            }
            Work::Serve { tree, cells, request } => {
                let (lent, len) = (cells.as_mut_ptr(), cells.len());
                let (asked, asked_len) = (request.as_ptr(), request.len());
                pq_serve_data(
                    tree.as_ptr(), tree.len(), lent, len, 1, asked, asked_len, out, out_len, &mut long, &mut short, &mut other,
                )
            }
            Work::Check { tree, cells } => pq_check(tree.as_ptr(), tree.len(), cells.as_ptr(), cells.len()),
            Work::Reading { tree, cells, place } => {
                pq_reading(tree.as_ptr(), tree.len(), cells.as_ptr(), cells.len(), *place, &mut value)
            }
            Work::List { tree } => {
                pq_list(tree.as_ptr(), tree.len(), desk.page.as_mut_ptr(), desk.page.len(), &mut long)
            }
            Work::WriteSheet { tree, cells } => {
                let (page, page_len) = (desk.page.as_mut_ptr(), desk.page.len());
                pq_write_sheet(tree.as_ptr(), tree.len(), cells.as_ptr(), cells.len(), page, page_len, &mut long)
            }
            Work::ReadSheet { tree, cells, sheet } => {
                let (lent, len) = (cells.as_mut_ptr(), cells.len());
                pq_read_sheet(tree.as_ptr(), tree.len(), lent, len, sheet.as_ptr(), sheet.len())
            }
            Work::BuslinkSend { tree, cells, kind } => send_once(tree, cells, *kind, &mut desk.out),
            Work::BuslinkReceive { identifier, data } => receive_once(&mut desk.records, *identifier, data),
        }
    }
}

unsafe fn send_once(tree: &[u8], cells: &[u8], kind: u8, out: &mut [u8]) -> u8 {
    let (lent, len, Station { base, sub }) = (cells.as_ptr(), cells.len(), STATION);
    let mut identifier = 0;
    pq_buslink_send(
        tree.as_ptr(), tree.len(), lent, len, base, sub, kind, out.as_mut_ptr(), out.len(), &mut identifier,
    )
}

unsafe fn receive_once(records: &mut [u8], identifier: u32, data: &[u8]) -> u8 {
    let (lent, len, Station { base, sub }) = (records.as_mut_ptr(), records.len(), STATION);
    let mut usable = 0;
    pq_buslink_receive(lent, len, base, sub, identifier, data.as_ptr(), data.len(), &mut usable)
}

/// One call of the second implementation.
fn second_once(work: &mut Work, desk: &mut Desk) -> u8 {
    match work {
        Work::Feed { bytes, block, at } => {
            let part = next_part(bytes, *block, at);
            black_box(stream::feed(&mut desk.state, ADDRESS, part, &mut desk.out)).number
        }
        Work::ReadSerial { string } => number(black_box(request::read_serial(ADDRESS, string))),
        Work::ReadFrame { string } => number(black_box(frame::read_frame(ADDRESS, string, &mut desk.out))),
        Work::Frame { data, at } => number(black_box(frame::write_frame(ADDRESS, next_data(data, at), &mut desk.out))),
        Work::Serve { tree, cells, request } => {
            black_box(serve::serve_data(tree, cells, true, request, &mut desk.out)).number
        }
        Work::Check { tree, cells } => cells::check(tree, cells),
        Work::Reading { tree, cells, place } => number(black_box(cells::reading(tree, cells, *place))),
        Work::List { tree } => black_box(listing::list(tree, &mut desk.page)).number,
        Work::WriteSheet { tree, cells } => black_box(sheet::write(tree, cells, &mut desk.page)).number,
        Work::ReadSheet { tree, cells, sheet } => black_box(sheet::read(tree, cells, sheet)),
        Work::BuslinkSend { tree, cells, kind } => {
            number(black_box(buslink::send(tree, cells, STATION, *kind, &mut desk.out)))
        }
        Work::BuslinkReceive { identifier, data } => {
            number(black_box(buslink::receive(&mut desk.records, STATION, *identifier, data)))
        }
    }
}

fn number<T>(result: Result<T, u8>) -> u8 {
    result.err().unwrap_or(0)
}

fn next_data<'a>(data: &'a [Vec<u8>], at: &mut usize) -> &'a [u8] {
    *at += 1;
    if *at >= data.len() {
        *at = 0;
    }
    &data[*at]
}

/// The next bytes of a frame that is sent over and over.
fn next_part<'a>(bytes: &'a [u8], block: usize, at: &mut usize) -> &'a [u8] {
    if *at + block > bytes.len() {
        *at = 0;
    }
    let part = &bytes[*at..*at + block];
    *at += block;
    part
}

fn run(row: &mut Row, library: bool, count: usize) {
    let mut desk = Desk::new();
    for _ in 0..count {
        let work = black_box(&mut row.work);
        black_box(if library { library_once(work, &mut desk) } else { second_once(work, &mut desk) });
    }
}

fn timed(row: &mut Row, library: bool, count: usize) -> Duration {
    let start = Instant::now();
    run(row, library, count);
    start.elapsed()
}

/// How many calls fill a slice of time.
fn filling(row: &mut Row, library: bool) -> usize {
    let mut count = 1;
    while timed(row, library, count) < SLICE {
        count *= 2;
    }
    count
}

/// The best times for one call in nanoseconds, the library's and the second's, measured by turns.
fn best(row: &mut Row) -> [f64; 2] {
    let sides = [true, false];
    let counts = sides.map(|library| filling(row, library));
    let mut best = [f64::MAX; 2];
    for _ in 0..REPEATS {
        for side in 0..2 {
            let time = timed(row, sides[side], counts[side]).as_nanos() as f64 / counts[side] as f64;
            best[side] = best[side].min(time);
        }
    }
    best
}

/// Both must come to the row's number; to the same one for bytes fed, which end no frame, and frames whose data is no request.
fn agree(row: &mut Row) -> bool {
    let ours = library_once(&mut row.work, &mut Desk::new());
    if let Work::Feed { at, .. } = &mut row.work {
        *at = 0;
    }
    let other = matches!(row.work, Work::Feed { .. } | Work::ReadSerial { .. });
    ours == second_once(&mut row.work, &mut Desk::new()) && (ours == row.number || other)
}

fn main() {
    let arguments: Vec<String> = std::env::args().skip(1).collect();
    let mut rows = rows();
    match arguments.iter().map(String::as_str).collect::<Vec<_>>()[..] {
        ["rows"] => rows.iter().for_each(|row| println!("{} {}", row.name, row.units)),
        ["time"] => {
            for row in &mut rows {
                assert!(agree(row), "{}", row.name);
                let [ours, seconds] = best(row);
                println!("{} {ours:.2} {seconds:.2}", row.name);
            }
        }
        ["run", side, name, count] => {
            let row = rows.iter_mut().find(|row| row.name == name).expect("a row");
            run(row, side == "library", count.parse().expect("a count"));
        }
        _ => panic!("usage: measure rows | time | run SIDE ROW N"),
    }
}
