//! Buslink (document 02, section 5): frames sent from drawn trees, and frames received. What is sent and stored is worked out by
//! another road as well: from the draft of the tree, by the source's formulas (source 000, 4.2 and 4.5).
use crate::draft::{broken, Draft, DraftProperty, BREAKS};
use crate::input::{Call, Input, Lent, Seen};
use crate::random::Random;
use crate::sheets::number_of;
use crate::tally::Tally;
use second::buslink::{Station, DATA_SIZE, RECORDS_SIZE};

pub const LIVE: u16 = 0x2001;
const INDICATORS: usize = 15;
/// Indicators to ask for: all there are, and some that there are not.
const ASKED: [u8; 18] = [1, 2, 3, 4, 5, 6, 7, 8, 9, 10, 11, 12, 13, 14, 15, 0, 16, 255];

/// Words at which a value, ten times the word or the word itself, goes beyond 24, 31 or 32 bits.
const LIMITS: [u32; 9] =
    [0, 838_861, 1_677_722, 8_388_608, 16_777_216, 214_748_365, 429_496_730, 0x8000_0000, 0xFFFF_FFFF];

/// Attributes of what is no probe.
pub const OTHERS: [u16; 4] = [3, 2, 1, 0];

/// The forty stations, in the order of their numbers on the bus.
pub fn stations() -> [Station; 40] {
    std::array::from_fn(|place| Station { base: 1 + place as u8 / 5, sub: 1 + place as u8 % 5 })
}

/// A station's number on the bus, from 1 on.
fn number_on_bus(station: Station) -> Option<usize> {
    stations().iter().position(|other| *other == station).map(|place| place + 1)
}

/// The identifier of a station's frames of a type, where there is one.
pub fn identifier(station: Station, kind: u8) -> Option<u32> {
    let number = number_on_bus(station)? as u32;
    (2..=9).contains(&kind).then(|| 0x1555_0000 | u32::from(kind) << 8 | number)
}

/// The type of a station's frame with this identifier.
fn kind_of(station: Station, identifier: u32) -> Option<u8> {
    (2..=9).find(|kind| self::identifier(station, *kind) == Some(identifier))
}

/// Bits of a mask for the indicators that a type carries.
fn carried(kind: u8) -> u16 {
    (3 << (2 * kind - 4)) & 0x7FFF
}

/// What an indicator holds: value, status, format.
pub type Shown = (i64, u8, u8);

/// A box that sends: its tree, and the cells.
pub struct Sender {
    pub draft: Draft,
    pub tree: Vec<u8>,
    pub cells: Vec<u8>,
}

/// A live property without a range, with one empty text.
pub fn probe(kind: u8, format: u16) -> DraftProperty {
    DraftProperty { node: 0, kind, min: 0, max: 0, attribute: LIVE, format, label: Vec::new(), texts: vec![0] }
}

fn is_live(property: &DraftProperty) -> bool {
    property.attribute & LIVE == LIVE
}

/// A word about a limit, or any.
pub fn word(random: &Random) -> u32 {
    let near = random.pick(&LIMITS).wrapping_add(random.below(5) as u32).wrapping_sub(2);
    match random.below(4) {
        0 => random.word(),
        1 => random.word() >> random.below(32),
        2 => near.wrapping_neg(),
        _ => near,
    }
}

/// Cells with such words; three in four are ready.
pub fn cells(random: &Random, draft: &Draft) -> Vec<u8> {
    let cell = |_| [&word(random).to_be_bytes()[..], &[random.pick(&[0, 1, 1, 1])]].concat();
    draft.properties.iter().flat_map(cell).collect()
}

/// A property of any kind, live ones by a share of eight; every decimals code.
fn property(random: &Random, nodes: usize, share: usize) -> DraftProperty {
    let mut property = DraftProperty::draw(random, nodes);
    let attribute = if random.below(8) < share { LIVE } else { random.pick(&OTHERS) };
    property.attribute = attribute | random.pick(&[0, 0x1010, 0xC000]);
    property.format = property.format & !7 | random.below(8) as u16;
    property.texts = vec![0; if property.kind == 2 { property.max as usize + 1 } else { 1 }];
    property
}

impl Sender {
    pub fn of(draft: Draft, cells: Vec<u8>) -> Sender {
        Sender { tree: draft.form(), draft, cells }
    }

    fn draw(random: &Random) -> Sender {
        let nodes = random.pick(&[1, 1, 2, 5]);
        let count = random.pick(&[0, 1, 2, 3, 4, 8, 14, 15, 16, 17, 20, 30, random.below(129)]);
        let share = random.pick(&[1, 4, 6, 8]);
        let properties = (0..count).map(|_| property(random, nodes, share)).collect();
        let draft = Draft { nodes: vec![(0, b"Box".to_vec()); nodes], properties };
        let cells = cells(random, &draft);
        Sender::of(draft, cells)
    }

    /// What the indicators hold, from the first live property on.
    pub fn indicators(&self) -> [Shown; INDICATORS] {
        let mut shown = [(0, 0, 0); INDICATORS];
        let all = self.draft.properties.iter().zip(self.cells.chunks(5));
        for (shown, (property, cell)) in shown.iter_mut().zip(all.filter(|(property, _)| is_live(property))) {
            *shown = shown_of(property, cell);
        }
        shown
    }

    /// The data of a frame of type 2 to 9: all indicators and four zeros side by side, eight bytes of them.
    fn data(&self, kind: u8) -> Vec<u8> {
        let mut all: Vec<u8> = self.indicators().into_iter().flat_map(bytes_of).collect();
        all.extend([0; 4]);
        all[8 * usize::from(kind - 2)..][..8].to_vec()
    }

    fn sending(&self, station: Station, kind: u8, room: usize) -> Input<'_> {
        Input { tree: &self.tree, cells: &self.cells, station, kind, room, ..Input::of(Call::BuslinkSend) }
    }
}

fn shown_of(property: &DraftProperty, cell: &[u8]) -> Shown {
    let format = (property.format % 8) as u8;
    let number = number_of(property, u32::from_be_bytes([cell[0], cell[1], cell[2], cell[3]]));
    let value = number * [10, 10, 10, 10, 10, 10, 10, 1][usize::from(format)];
    match (cell[4], value) {
        (0, _) => (0, 0, format),
        (_, -8_388_608..=8_388_607) => (value, 0x80, format),
        _ => (0, 0xC0, format),
    }
}

fn bytes_of((value, status, format): Shown) -> [u8; 4] {
    let [_, high, middle, low] = (value as i32).to_be_bytes();
    [low, middle, high, status + format]
}

/// A frame sent into so much room: the number is by the rules, and with 0 the frame is the draft's.
pub fn send(tally: &mut Tally, sender: &Sender, station: Station, kind: u8, room: usize) -> Seen {
    let input = sender.sending(station, kind, room);
    let seen = tally.compare(&input);
    let mut lent = Lent::of(&input);
    let (number, identifier) = match identifier(station, kind) {
        _ if room < DATA_SIZE => (8, 0),
        None => (19, 0),
        Some(identifier) => (0, identifier),
    };
    if number == 0 {
        lent.out[..DATA_SIZE].copy_from_slice(&sender.data(kind));
    }
    let same = seen.number == number && seen.fields[0] == identifier.into() && seen.lent == lent;
    tally.expect(same, "a frame has the station's identifier and its probes", &input);
    seen
}

/// Sending gives 1, whatever the station, the type and the room.
fn send_broken(tally: &mut Tally, input: Input) {
    let input = Input { call: Call::BuslinkSend, ..input };
    let seen = tally.compare(&input);
    let same = seen.number == 1 && seen.fields[0] == 0 && seen.lent == Lent::of(&input);
    tally.expect(same, "of a broken tree nothing is sent", &input);
}

/// A frame received: the number is by the rules, with 0 the bytes of what the type carries are stored, and all else stays.
pub fn receive(tally: &mut Tally, records: &[u8], station: Station, identifier: u32, data: &[u8]) -> Seen {
    let input = Input { records, station, value: identifier, bytes: data, ..Input::of(Call::BuslinkReceive) };
    let seen = tally.compare(&input);
    let mut lent = Lent::of(&input);
    let (number, usable) = match kind_of(station, identifier) {
        _ if records.len() != RECORDS_SIZE => (1, 0),
        None => (19, 0),
        _ if data.len() != DATA_SIZE => (20, 0),
        Some(kind) => (0, store(&mut lent.records, kind, data)),
    };
    let same = seen.number == number && seen.fields[0] == usable.into() && seen.lent == lent;
    tally.expect(same, "a frame for the station is stored, and no other", &input);
    seen
}

/// Lays data over the records from where its type begins, as much as there is of it; which of these indicators are usable.
fn store(records: &mut [u8], kind: u8, data: &[u8]) -> u16 {
    let stored = records[8 * usize::from(kind - 2)..].iter_mut().zip(data);
    stored.for_each(|(record, byte)| *record = *byte);
    let usable = |(at, record): (usize, &[u8])| u16::from((0x80..0xC0).contains(&record[3])) << at;
    let all: u16 = records.chunks(4).enumerate().map(usable).sum();
    all & carried(kind)
}

/// What the records hold of every indicator, and that there are no others.
pub fn ask_all(tally: &mut Tally, records: &[u8]) -> Vec<Shown> {
    let mut answers = Vec::new();
    for index in ASKED {
        let input = Input { records, index, ..Input::of(Call::BuslinkIndicator) };
        let seen = tally.compare(&input);
        let untouched = seen.lent == Lent::of(&input);
        let number = if records.len() != RECORDS_SIZE { 1 } else { 19 };
        if number == 1 || !(1..=15).contains(&index) {
            tally.expect(seen.number == number && untouched, "there is no such indicator", &input);
            continue;
        }
        let [value, status, format, ..] = seen.fields;
        let answer = (i64::from(value as u32 as i32), status as u8, format as u8);
        let same = bytes_of(answer) == records[4 * usize::from(index) - 4..][..4];
        let shape = (-8_388_608..=8_388_607).contains(&answer.0) && answer.1 % 8 == 0 && answer.2 < 8;
        tally.expect(seen.number == 0 && same && shape && untouched, "an indicator is its record", &input);
        answers.push(answer);
    }
    answers
}

/// What a station sends it receives, as its probes' values; none of these others takes it.
pub fn exchange(tally: &mut Tally, sender: &Sender, station: Station, others: &[Station]) {
    let begin = Input { records: &[0xA5; RECORDS_SIZE], ..Input::of(Call::BeginBuslink) };
    let mut records = tally.compare(&begin).lent.records;
    for kind in 2..=9 {
        let sent = send(tally, sender, station, kind, DATA_SIZE);
        let (identifier, data) = (sent.fields[0] as u32, &sent.lent.out[..]);
        for other in others.iter().filter(|other| **other != station) {
            let refused = receive(tally, &records, *other, identifier, data).number == 19;
            tally.expect(refused, "no other station takes the frame", &sender.sending(station, kind, DATA_SIZE));
        }
        let seen = receive(tally, &records, station, identifier, data);
        records = seen.lent.records;
        let usable = |(at, shown): (usize, Shown)| u64::from(shown.1 == 0x80) << at;
        let all: u64 = sender.indicators().into_iter().enumerate().map(usable).sum();
        let same = seen.number == 0 && seen.fields[0] == all & u64::from(carried(kind));
        tally.expect(same, "the station takes its frame", &sender.sending(station, kind, DATA_SIZE));
    }
    let same = ask_all(tally, &records) == sender.indicators();
    tally.expect(same, "what is received are the probes", &sender.sending(station, 2, DATA_SIZE));
}

/// The first frame and the last of any tree and cells, sent by a box at 1-2.
pub fn send_into(tally: &mut Tally, tree: &[u8], cells: &[u8], room: usize) {
    for kind in [2, 9] {
        let station = Station { base: 1, sub: 2 };
        tally.compare(&Input { tree, cells, station, kind, room, ..Input::of(Call::BuslinkSend) });
    }
}

/// For any tree and cells, mostly broken ones.
pub fn near(tally: &mut Tally, tree: &[u8], cells: &[u8]) {
    send_into(tally, tree, cells, DATA_SIZE);
}

pub fn run(random: &Random, tally: &mut Tally, round: usize) {
    let sender = Sender::draw(random);
    let all = stations();
    exchange(tally, &sender, random.pick(&all), &[random.pick(&all), random.pick(&all)]);
    for _ in 0..4 {
        let room = random.pick(&[0, 7, 8, 8, 9, random.below(65)]);
        send(tally, &sender, station(random), kind(random), room);
    }
    receive_some(random, tally);
    other_records(random, tally);
    break_one(random, tally, &sender, round);
}

/// A station, mostly one that there is.
fn station(random: &Random) -> Station {
    match random.below(4) {
        0 => Station { base: random.between(0, 9) as u8, sub: random.between(0, 6) as u8 },
        1 => Station { base: random.byte(), sub: random.byte() },
        _ => random.pick(&stations()),
    }
}

fn kind(random: &Random) -> u8 {
    match random.below(6) {
        0 => random.below(17) as u8,
        1 => random.byte(),
        _ => random.between(2, 9) as u8,
    }
}

/// The identifier of a frame: of this station mostly, of another, near to one, or any.
fn received_identifier(random: &Random, own: Station) -> u32 {
    let sender = if random.once_in(3) { station(random) } else { own };
    let good = identifier(sender, random.between(2, 9) as u8).unwrap_or(0x1555_0200);
    match random.below(8) {
        0 => good ^ 1 << random.below(32),
        1 => good.wrapping_add(random.pick(&[1, 0x100, 40, u32::MAX])),
        2 => random.word(),
        _ => good,
    }
}

/// Data of a frame, mostly of eight bytes, with AVAILABLE and ERROR in every way.
fn received_data(random: &Random) -> Vec<u8> {
    let len = random.pick(&[8, 8, 8, 8, 8, 8, 7, 9, 0, 4, random.below(65)]);
    let mut data = random.bytes(len);
    for at in (3..len).step_by(4) {
        data[at] = data[at] & 0x3F | random.pick(&[0x00, 0x40, 0x80, 0x80, 0xC0]);
    }
    data
}

/// Records that go on from frame to frame, as on a bus with other traffic.
fn receive_some(random: &Random, tally: &mut Tally) {
    let own = random.pick(&stations());
    let mut records = random.bytes(RECORDS_SIZE).into_boxed_slice();
    for _ in 0..8 {
        let (identifier, data) = (received_identifier(random, own), received_data(random));
        records = receive(tally, &records, own, identifier, &data).lent.records;
    }
    ask_all(tally, &records);
}

/// Records of any other length, mostly.
fn other_records(random: &Random, tally: &mut Tally) {
    let len = random.pick(&[59, 61, 0, 4, 56, 64, random.below(120)]);
    let (records, own) = (random.bytes(len), random.pick(&stations()));
    tally.compare(&Input { records: &records, ..Input::of(Call::BeginBuslink) });
    receive(tally, &records, own, received_identifier(random, own), &received_data(random));
    tally.compare(&Input { records: &records, index: random.below(17) as u8, ..Input::of(Call::BuslinkIndicator) });
}

/// A tree or cells that break a rule.
fn break_one(random: &Random, tally: &mut Tally, sender: &Sender, round: usize) {
    let (tree, cells) = broken(random, &sender.draft, BREAKS[round % BREAKS.len()]);
    for room in [0, 7, 8, random.below(65)] {
        let (station, kind) = (station(random), kind(random));
        send_broken(tally, Input { tree: &tree, cells: &cells, station, kind, room, ..Input::of(Call::BuslinkSend) });
    }
}
