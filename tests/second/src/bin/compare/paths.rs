//! Which part of the path (document 02, section 7): requests for nodes and properties, most of which are not there. What comes of
//! each is worked out another way as well: from the paths of all nodes of a draft.
use crate::calls::UNSET;
use crate::draft::Draft;
use crate::input::{Call, Input, Lent};
use crate::random::Random;
use crate::requests::{self, content, wrapped, Transport};
use crate::tally::{Reason, Tally};
use std::collections::BTreeMap;

const ADDRESS: u8 = 0x10;
/// The most numbers of a path.
pub const LONGEST: usize = 16;
/// The reply codes of requests that are refused while host functions are off, of those that are not known, and of those that name
/// nothing.
const HOST_OFF: &[u8] = &[0x57];
const ILLEGAL: &[u8] = &[0x59];
const ERROR: &[u8] = &[0x54];
/// Requests for each drawn tree.
const ASKED: usize = 6;

/// A tree with its cells, and how many properties the node of each path has.
pub struct Map {
    tree: Vec<u8>,
    cells: Vec<u8>,
    pub nodes: BTreeMap<Vec<u8>, usize>,
}

impl Map {
    pub fn of(draft: &Draft, cells: &[u8]) -> Map {
        let owned = |place| draft.properties.iter().filter(|property| usize::from(property.node) == place).count();
        let nodes = (0..draft.nodes.len()).map(|place| (draft.path(place), owned(place))).collect();
        Map { tree: draft.form(), cells: cells.to_vec(), nodes }
    }

    /// With cells of 0.
    pub fn begun(draft: &Draft) -> Map {
        Map::of(draft, &vec![0; 5 * draft.properties.len()])
    }

    /// The length of the shortest front part of a path that no node has, if there is one.
    fn missing(&self, path: &[u8]) -> Option<usize> {
        (1..=path.len()).find(|len| !self.nodes.contains_key(&path[..*len]))
    }

    fn input<'a>(&'a self, transport: Transport, bytes: &'a [u8]) -> Input<'a> {
        let (call, room) = transport.call();
        Input { tree: &self.tree, cells: &self.cells, bytes, address: ADDRESS, host: 1, room, ..Input::of(call) }
    }
}

/// A request of op 1 to 5, of good shape.
pub struct Asked<'a> {
    pub op: u8,
    pub path: &'a [u8],
    pub index: u8,
}

impl Asked<'_> {
    pub fn data(&self) -> Vec<u8> {
        let mut data = [&[0xB4, self.op], self.path].concat();
        if self.op >= 2 {
            data.push(self.index);
        }
        if self.op >= 4 {
            data.extend([0, 0, 0, 0, 1]);
        }
        data
    }

    /// The number where it names nothing, and the length told.
    fn refusal(&self, map: &Map) -> Option<(u8, usize)> {
        match map.missing(self.path) {
            Some(len) => Some((15, len)),
            None if self.op >= 2 && usize::from(self.index) > map.nodes[self.path] => Some((16, 0)),
            None => None,
        }
    }
}

/// A refusal: the number, the length told and the reply. No cell is changed and no action told.
fn refused(tally: &mut Tally, input: &Input, number: u8, missing: usize, reply: &[u8]) {
    let mut lent = Lent::of(input);
    lent.out[..reply.len()].copy_from_slice(reply);
    let seen = tally.compare(input);
    let same = seen.number == number && seen.fields == [reply.len() as u64, 255, missing as u64, 0, 0] && seen.lent == lent;
    tally.expect(same, &format!("refused with {number}, the length told is {missing}"), input);
}

/// A request by a transport.
pub fn ask(tally: &mut Tally, map: &Map, asked: &Asked, transport: Transport) {
    let bytes = transport.carry(&asked.data(), ADDRESS);
    let input = map.input(transport, &bytes);
    let Some((number, missing)) = asked.refusal(map) else {
        let seen = tally.compare(&input);
        tally.expect(![11, 15, 16].contains(&seen.number) && seen.fields[2] == 0, "what is there is found", &input);
        return;
    };
    refused(tally, &input, number, missing, &transport.carry(ERROR, ADDRESS));
    if number == 15 {
        tally.meet(Some(Reason::NoNode(asked.op)));
        tally.meet(Some(Reason::Missing(missing as u8)));
    } else {
        tally.meet(Some(Reason::NoProperty(asked.op)));
    }
}

/// Data of a known op that is not of its shape, this path in front: behind op 0; with 17 numbers or a zero among them; with an index
/// of 0; with a value of three bytes or five, with none, or not behind a zero.
pub fn misshapen(path: &[u8]) -> Vec<Vec<u8>> {
    let long = [path, &[1; LONGEST + 1][path.len()..]].concat();
    let split = [path, &[0], path].concat();
    let mut shapes = vec![[&[0xB4, 0], path].concat(), [&[0xB4, 1], path, &[0]].concat()];
    for op in 1..=5 {
        let behind: &[u8] = [&[][..], &[1], &[1, 0, 0, 0, 0, 1]][usize::from(op / 2)];
        shapes.extend([&long, &split].map(|path| [&[0xB4, op], &path[..], behind].concat()));
        if op >= 2 {
            shapes.push([&[0xB4, op], path, &[0], &behind[1..]].concat());
        }
    }
    for value in [&[0; 4][..], &[0; 6], &[], &[1; 5]] {
        shapes.extend([4, 5].map(|op| [&[0xB4, op], path, &[1], value].concat()));
    }
    shapes
}

/// Data of no shape: that is told, whether a node has its path or not.
pub fn ask_misshapen(tally: &mut Tally, map: &Map, path: &[u8], data: &[u8], transport: Transport) {
    let bytes = transport.carry(data, ADDRESS);
    refused(tally, &map.input(transport, &bytes), 11, 0, &transport.carry(ERROR, ADDRESS));
    tally.meet(map.missing(path).map(|_| Reason::ShapeFirst));
}

/// What comes before the path is looked at: a tree or cells that are broken, too little room, host functions that are off.
pub fn before(tally: &mut Tally, map: &Map, data: &[u8], transport: Transport) {
    let bytes = transport.carry(data, ADDRESS);
    let input = map.input(transport, &bytes);
    let (cut, more) = (&map.tree[..map.tree.len() - 1], [&map.cells[..], &[0]].concat());
    for host in [0, 1] {
        refused(tally, &Input { tree: cut, host, ..input }, 1, 0, &[]);
        refused(tally, &Input { cells: &more, host, room: 0, ..input }, 1, 0, &[]);
        refused(tally, &Input { room: input.room - 1, host, ..input }, 8, 0, &[]);
    }
    refused(tally, &Input { host: 0, ..input }, 9, 0, &transport.carry(HOST_OFF, ADDRESS));
}

/// Data that is no request at all: none, 257 bytes, another op or command before the path.
pub fn no_request(tally: &mut Tally, map: &Map, path: &[u8], transport: Transport) {
    let mut long = [&[0xB4, 1], path].concat();
    long.resize(257, 1);
    for (number, data) in [(4, Vec::new()), (5, long), (10, [&[0xB4, 6], path].concat()), (10, [&[0xB3, 1], path].concat())] {
        let bytes = transport.carry(&data, ADDRESS);
        let reply = if number == 10 { transport.carry(ILLEGAL, ADDRESS) } else { Vec::new() };
        refused(tally, &map.input(transport, &bytes), number, 0, &reply);
    }
}

/// Strings and a datagram that are refused before their data is read: 2, 3, 6 and 7.
pub fn unread(tally: &mut Tally, map: &Map, data: &[u8]) {
    let mut spoilt = content(ADDRESS, data);
    *spoilt.last_mut().unwrap() ^= 1;
    let string = Transport::Serial.carry(data, ADDRESS);
    let strings = [(2, string[1..].to_vec()), (3, [&string[..], &[0]].concat()), (6, wrapped(&spoilt))];
    for (number, string) in strings.into_iter().chain([(7, Transport::Serial.carry(data, ADDRESS + 1))]) {
        refused(tally, &map.input(Transport::Serial, &string), number, 0, &[]);
    }
    let datagram = Transport::Udp.carry(data, ADDRESS);
    refused(tally, &map.input(Transport::Udp, &datagram[1..]), 2, 0, &[]);
}

/// The firmware's reading where there is no property: the word is left.
pub fn read_beyond(tally: &mut Tally, map: &Map, place: usize) {
    let input = Input { tree: &map.tree, cells: &map.cells, place, ..Input::of(Call::Reading) };
    let seen = tally.compare(&input);
    tally.expect(seen.number == 16 && seen.fields[0] == u64::from(UNSET as u32), "16 where there is no property", &input);
    tally.meet(Some(Reason::NoPlace));
}

/// A node's path, that of the deeper one of two, mostly with a number changed or with others behind it.
fn path(random: &Random, draft: &Draft) -> Vec<u8> {
    let drawn = [0; 2].map(|_| draft.path(random.below(draft.nodes.len())));
    let mut path = drawn.into_iter().max_by_key(Vec::len).unwrap();
    let number = || random.pick(&[1, 1, 2, 3, 10, 16, 63, 64, 255, random.byte().max(1)]);
    if random.once_in(2) {
        let at = random.pick(&[path.len() - 1, random.below(path.len())]);
        path[at] = random.pick(&[path[at].wrapping_add(1).max(1), number()]);
    }
    let len = random.pick(&[path.len(), path.len(), random.between(path.len(), LONGEST), LONGEST]);
    while path.len() < len {
        path.push(number());
    }
    path
}

/// An index: about how many properties the node of a path has, or any.
fn index(random: &Random, map: &Map, path: &[u8]) -> u8 {
    let count = map.nodes.get(path).map_or(0, |count| *count as u8);
    random.pick(&[count.max(1), count + 1, count + 1, 129, 255, random.byte().max(1)])
}

pub fn run(random: &Random, tally: &mut Tally, draft: &Draft, cells: &[u8]) {
    let map = Map::of(draft, cells);
    for _ in 0..ASKED {
        let path = path(random, draft);
        let asked = Asked { op: random.between(1, 5) as u8, path: &path, index: index(random, &map, &path) };
        ask(tally, &map, &asked, requests::transport(random));
    }
    let path = path(random, draft);
    let shapes = misshapen(&path);
    ask_misshapen(tally, &map, &path, &shapes[random.below(shapes.len())], requests::transport(random));
    read_beyond(tally, &map, draft.properties.len() + random.pick(&[0, 1, 128, 1 << 60]));
}
