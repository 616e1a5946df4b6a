//! Buslink inputs that are few enough to be given all: addresses, types, identifiers, rooms and lengths; words about every limit,
//! every format, live properties at every place of a tree, and each byte of a frame.
use crate::buslink::{ask_all, cells, exchange, identifier, probe, receive, send, stations, word, Sender, OTHERS};
use crate::draft::{Draft, DraftProperty};
use crate::input::{Call, Input};
use crate::random::Random;
use crate::sheet_sweep::tree_of;
use crate::sweep::each_change;
use crate::tally::Tally;
use second::bench;
use second::buslink::{Station, DATA_SIZE, RECORDS_SIZE};

const OWN: Station = Station { base: 1, sub: 2 };
const SIGNED: u16 = 0x8000;
/// Rooms and lengths go up to this.
const LONGEST: usize = 64;
const PROPERTIES: usize = 128;

pub fn run(random: &Random, tally: &mut Tally) {
    addresses(tally);
    rooms(tally);
    words(tally);
    formats(tally);
    counts(random, tally);
    places(random, tally);
    exchanges(random, tally);
    identifiers(random, tally);
    lengths(random, tally);
    frames(random, tally);
    records(random, tally);
}

fn bench_sender() -> Sender {
    Sender::of(Draft::of(&bench::tree()), bench::CELLS.to_vec())
}

/// Addresses in bounds, just beyond, and the largest.
fn about_stations() -> Vec<Station> {
    let bases = (0..=9).chain([255]);
    bases.flat_map(|base| (0..=6).chain([255]).map(move |sub| Station { base, sub })).collect()
}

/// Every type from all of these stations; and every base, sub and type with good ones beside it.
fn addresses(tally: &mut Tally) {
    let sender = bench_sender();
    for station in about_stations() {
        for kind in (0..=15).chain([255]) {
            send(tally, &sender, station, kind, DATA_SIZE);
        }
    }
    for byte in 0..=255 {
        for small in 1..=5 {
            send(tally, &sender, Station { base: byte, sub: small }, 2 + small, DATA_SIZE);
            send(tally, &sender, Station { base: small, sub: byte }, 2 + small, DATA_SIZE);
            send(tally, &sender, Station { base: small, sub: small }, byte, DATA_SIZE);
        }
    }
}

/// Every room, for frames that can be sent and for others.
fn rooms(tally: &mut Tally) {
    let sender = bench_sender();
    for room in 0..=LONGEST {
        for kind in [0, 1, 2, 3, 9, 10] {
            send(tally, &sender, OWN, kind, room);
            send(tally, &sender, Station { base: 8, sub: 6 }, kind, room);
        }
    }
}

/// Words about the powers of two, and about those which ten times over are a multiple of 2^24 or 2^32.
fn limits() -> Vec<u32> {
    let powers = (0..32).map(|power| 1 << power);
    let tenths = (1..10).flat_map(|tenth: u64| [((tenth << 24) / 10) as u32, ((tenth << 32) / 10) as u32]);
    let about = powers.chain(tenths).chain([838_860, 838_861, 2100, 0]);
    let near = about.flat_map(|word: u32| (0..5).map(move |offset| word.wrapping_add(offset).wrapping_sub(2)));
    near.flat_map(|word| [word, word.wrapping_neg()]).collect()
}

/// Each word in probes of both types, with and without the format of a signed one; ready, not ready, and by turns.
fn words(tally: &mut Tally) {
    for code in 0..8 {
        let kinds = [(1, 0), (1, SIGNED), (2, 0), (2, SIGNED)];
        let draft = tree_of(kinds.map(|(kind, sign)| probe(kind, sign | code)).to_vec());
        for word in limits() {
            for marks in [[1; 4], [0; 4], [1, 0, 0, 1], [0, 1, 1, 0]] {
                let cells = marks.iter().flat_map(|mark| [&word.to_be_bytes()[..], &[*mark]].concat()).collect();
                let sender = Sender::of(draft.clone(), cells);
                send(tally, &sender, OWN, 2, DATA_SIZE);
                send(tally, &sender, OWN, 3, DATA_SIZE);
            }
        }
    }
}

/// Every other bit of the format, and every step size, beside each code: they change nothing.
fn formats(tally: &mut Tally) {
    let bits = [3, 4, 5, 6, 7, 12, 13, 14].map(|bit| 1 << bit);
    for other in bits.into_iter().chain((0..12).map(|step| step << 8)) {
        for format in (0..8).flat_map(|code| [other | code, other | code | SIGNED]) {
            for word in [838_860_u32, 838_861, 8_388_607, 8_388_608, 838_860_u32.wrapping_neg(), 838_861_u32.wrapping_neg()] {
                let draft = tree_of(vec![probe(1, format), probe(2, format)]);
                let cells = [&word.to_be_bytes()[..], &[1]].concat().repeat(2);
                send(tally, &Sender::of(draft, cells), OWN, 2, DATA_SIZE);
            }
        }
    }
}

/// A property that is not live; which kind it is goes by turns.
fn other(turn: usize) -> DraftProperty {
    DraftProperty { attribute: OTHERS[turn % OTHERS.len()], ..probe(1 + turn as u8 % 2, 3) }
}

/// A probe; its type, its sign and its code go by turns.
fn live(turn: usize) -> DraftProperty {
    probe(if turn % 5 == 3 { 2 } else { 1 }, (turn % 8) as u16 | if turn % 3 == 0 { SIGNED } else { 0 })
}

/// Every number of live properties up to more than are sent, with others before, between and behind them.
fn counts(random: &Random, tally: &mut Tally) {
    for count in (0..=20).chain([PROPERTIES]) {
        for gap in (0..=4).filter(|gap| (count + 1) * (gap + 1) <= PROPERTIES + 1) {
            let group = |turn: usize| (0..gap).map(other).chain((turn < count).then(|| live(turn)));
            let draft = tree_of((0..=count).flat_map(group).collect());
            for _ in 0..3 {
                let cells = cells(random, &draft);
                exchange(tally, &Sender::of(draft.clone(), cells), OWN, &[]);
            }
        }
    }
}

/// One live property at each place of 128; fourteen or fifteen at the front, and one more at each place behind them.
fn places(random: &Random, tally: &mut Tally) {
    for front in [0, 14, 15] {
        for place in front..PROPERTIES {
            let at = |turn: usize| if turn < front || turn == place { live(turn) } else { other(turn) };
            let draft = tree_of((0..PROPERTIES).map(at).collect());
            let cells = cells(random, &draft);
            let sender = Sender::of(draft, cells);
            for kind in 2..=9 {
                send(tally, &sender, OWN, kind, DATA_SIZE);
            }
        }
    }
}

/// Every station with each of the others, the bench tree's frames and those of sixteen probes.
fn exchanges(random: &Random, tally: &mut Tally) {
    let draft = tree_of((0..16).map(live).collect());
    let cells = cells(random, &draft);
    for sender in [bench_sender(), Sender::of(draft, cells)] {
        for station in stations() {
            exchange(tally, &sender, station, &stations());
        }
    }
}

/// Identifiers received: every type and number for some stations, each bit flipped, and those near to a good one; stations that
/// there are not, with the identifiers that the formula would give them.
fn identifiers(random: &Random, tally: &mut Tally) {
    let data = [0x08, 0x52, 0x00, 0x82, 0x01, 0x00, 0x00, 0x92];
    let records = random.bytes(RECORDS_SIZE);
    let mut give = |station: Station, identifier: u32| drop(receive(tally, &records, station, identifier, &data));
    for station in [OWN, Station { base: 1, sub: 1 }, Station { base: 4, sub: 3 }, Station { base: 8, sub: 5 }] {
        (0..0x1100).for_each(|low| give(station, 0x1555_0000 + low));
    }
    for station in stations() {
        for good in (2..=9).filter_map(|kind| identifier(station, kind)) {
            (0..32).for_each(|bit| give(station, good ^ 1 << bit));
            for step in [1, 5, 40, 0x100, 0x1000, 0x2000_0000] {
                give(station, good.wrapping_add(step));
                give(station, good.wrapping_sub(step));
            }
        }
        [0, 1, 0x1555, 0x1555_0000, u32::MAX].into_iter().for_each(|far| give(station, far));
    }
    for station in about_stations() {
        let number = (5 * i64::from(station.base) - 5 + i64::from(station.sub)) as u32;
        for kind in 0..=15 {
            give(station, 0x1555_0000_u32.wrapping_add(kind << 8).wrapping_add(number));
            give(station, 0x1555_0000 | kind << 8 | number & 0xFF);
        }
    }
}

/// Every length of data with every length of records, for this station and for another.
fn lengths(random: &Random, tally: &mut Tally) {
    let (records, data) = (random.bytes(LONGEST), random.bytes(LONGEST));
    for len in 0..=LONGEST {
        for data_len in 0..=LONGEST {
            receive(tally, &records[..len], OWN, 0x1555_0202, &data[..data_len]);
            receive(tally, &records[..len], OWN, 0x1555_0203, &data[..data_len]);
            receive(tally, &records[..len], OWN, 0x1555_0902, &data[..data_len]);
        }
        receive(tally, &records[..len], Station { base: 0, sub: 7 }, 0x1555_0202, &data[..DATA_SIZE]);
    }
}

/// Frames of every type, each byte changed to each other, and all indicators asked behind each.
fn frames(random: &Random, tally: &mut Tally) {
    for identifier in (2..=9).filter_map(|kind| identifier(OWN, kind)) {
        let records = random.bytes(RECORDS_SIZE);
        let frame = [0xFF, 0x7F, 0x80, 0x82, 0x00, 0x80, 0x7F, 0xC7];
        each_change(&frame, |data| {
            let seen = receive(tally, &records, OWN, identifier, data);
            ask_all(tally, &seen.lent.records);
        });
    }
}

/// Records of every length, begun and asked; and every number of an indicator.
fn records(random: &Random, tally: &mut Tally) {
    let bytes = random.bytes(600);
    for len in (0..=2 * LONGEST).chain([255, 256, 316, 600]) {
        let input = Input { records: &bytes[..len], ..Input::of(Call::BeginBuslink) };
        let seen = tally.compare(&input);
        let begun = if len == RECORDS_SIZE { &[0; RECORDS_SIZE][..] } else { &bytes[..len] };
        tally.expect(*seen.lent.records == *begun, "records begin with zeros", &input);
        ask_all(tally, &bytes[..len]);
    }
    for index in 0..=255 {
        for len in [RECORDS_SIZE - 1, RECORDS_SIZE, RECORDS_SIZE + 1, 600] {
            tally.compare(&Input { records: &bytes[..len], index, ..Input::of(Call::BuslinkIndicator) });
        }
    }
    for _ in 0..20 {
        let bytes: Vec<u8> = (0..RECORDS_SIZE / 4).flat_map(|_| word(random).to_le_bytes()).collect();
        ask_all(tally, &bytes);
    }
}
