//! Trees of 64 nodes and 128 properties, and their first and last entries: what is few enough is given all.
use crate::draft::{broken_at, Draft, DraftProperty, BREAKS};
use crate::input::{Call, Input};
use crate::listings;
use crate::random::Random;
use crate::requests::{content, wrapped};
use crate::sweep::each_change;
use crate::tally::Tally;
use crate::trees::{check, check_broken};
use second::bench;
use std::ops::Range;

const NODES: usize = 64;
const PROPERTIES: usize = 128;
const LAST: usize = PROPERTIES - 1;
const ADDRESS: u8 = 0x10;

/// The parent of the node at a place, and the node of the property at a place.
type Shape = (fn(u8) -> u8, fn(u8) -> u8);

const SHAPES: [Shape; 6] = [
    (flat, |place| place / 2),
    (deep_first, |place| place / 2),
    (deep_last, |_| 63),
    (flat, |_| 63),
    (flat, |_| 0),
    (deep_last, |place| 63 - place / 2),
];

fn flat(_: u8) -> u8 {
    0
}

/// The first 15 nodes below one another, all others below the fifteenth: at depth 16.
fn deep_first(place: u8) -> u8 {
    place.saturating_sub(1).min(14)
}

/// The last 15 nodes below one another: the last is at depth 16.
fn deep_last(place: u8) -> u8 {
    if place < 50 {
        0
    } else {
        place - 1
    }
}

/// In ten turns every property is of each kind with each attribute: live, setting, action, read only, neither.
const TURNS: usize = 10;
const ATTRIBUTES: [u16; 5] = [0x2001, 3, 2, 1, 0];
/// Turns in which the last property is live, a setting, an action.
const LAST_TURNS: [usize; 3] = [3, 4, 5];

fn draft((parent, node): Shape, turn: usize) -> Draft {
    Draft {
        nodes: (0..NODES as u8).map(|place| (parent(place), format!("n{place}").into_bytes())).collect(),
        properties: (0..PROPERTIES as u8).map(|place| property(place, node(place), turn)).collect(),
    }
}

/// A property whose range and label tell it from the others. Step codes go by turns, the last one's step being 200; of type 2 they
/// go up to 15.
fn property(place: u8, node: u8, turn: usize) -> DraftProperty {
    let turn = usize::from(place) + turn;
    let attribute = ATTRIBUTES[turn % ATTRIBUTES.len()];
    let label = format!("p{place}").into_bytes();
    let (min, texts, format) = (u32::from(place), b"C\0".to_vec(), u16::from(place % 12) << 8);
    let mut property = DraftProperty { node, kind: 1, min, max: min + 1, attribute, format, label, texts };
    if turn % 2 == 0 {
        property.enumerated(1, b"a\0b\0".to_vec());
        property.format = u16::from(place % 16) << 8;
    }
    property
}

/// Cells whose words tell them apart; the last has a mark of its own.
fn cells(mark: u8, last: u8) -> Vec<u8> {
    let mut cells = Vec::new();
    for place in 0..PROPERTIES {
        cells.extend((0xC0DE_0000 + place as u32).to_be_bytes());
        cells.push(if place == LAST { last } else { mark });
    }
    cells
}

/// Places of properties: the first and the last ones, and some that there are not, which would be found where high bits of the
/// place, or of five or sixteen times the place, were lost.
const PLACES: [usize; 15] = [
    0, 1, 63, 64, LAST - 1, LAST, LAST + 1, LAST + 2, 255, 256 + LAST, (1 << 16) + LAST, (1 << 32) + LAST, (1 << 60) + LAST,
    usize::MAX, usize::MAX / 5 + 1,
];

pub fn run(random: &Random, tally: &mut Tally) {
    for shape in SHAPES {
        for turn in 0..TURNS {
            let draft = draft(shape, turn);
            let tree = draft.form();
            look(tally, &tree);
            listings::whole(tally, &draft, &tree);
            listings::far(random, tally, &tree);
            ask_all(tally, &draft, &tree);
        }
    }
    for (shape, turn) in SHAPES.into_iter().zip(LAST_TURNS) {
        let draft = draft(shape, turn);
        break_all(random, tally, &draft, 0..PROPERTIES);
        change_all(tally, &draft.form());
    }
    let longest = Draft::of(&bench::largest());
    break_all(random, tally, &longest, 0..1);
    break_all(random, tally, &longest, LAST..PROPERTIES);
}

/// Checked, restored, read and posted to.
fn look(tally: &mut Tally, tree: &[u8]) {
    for (mark, last) in [(0, 0), (0, 1), (1, 0), (1, 1)] {
        let cells = cells(mark, last);
        check(tally, tree, &cells, Some([0, 0]));
        tally.compare(&Input { tree, cells: &cells, ..Input::of(Call::BeginCells) });
        let restored = tally.compare(&Input { tree, cells: &cells, ..Input::of(Call::RestoreCells) }).lent.cells;
        for place in PLACES {
            tally.compare(&Input { tree, cells: &cells, place, ..Input::of(Call::Reading) });
            tally.compare(&Input { tree, cells: &restored, place, ..Input::of(Call::Reading) });
            for ready in [0, 1] {
                tally.compare(&Input { tree, cells: &cells, place, value: 0x1234_5678, ready, ..Input::of(Call::Post) });
            }
        }
    }
}

/// Paths and indexes: those of the first and last properties and nodes, and those just beyond.
fn targets(draft: &Draft) -> Vec<(Vec<u8>, u8)> {
    let mut targets = Vec::new();
    for place in [0, 1, LAST - 1, LAST] {
        let (path, index) = (draft.path(usize::from(draft.properties[place].node)), draft.index(place));
        targets.extend([(path.clone(), index), (path, index + 1)]);
    }
    for node in [0, NODES - 2, NODES - 1] {
        let path = draft.path(node);
        let mut next = path.clone();
        *next.last_mut().unwrap() += 1;
        targets.extend([(path.clone(), PROPERTIES as u8), (path.clone(), 255), (next, 1)]);
        if path.len() < 16 {
            targets.push(([&path[..], &[NODES as u8 - 1]].concat(), 1));
        }
    }
    targets
}

fn ask_all(tally: &mut Tally, draft: &Draft, tree: &[u8]) {
    for (path, index) in targets(draft) {
        let place = [&path[..], &[index]].concat();
        ask(tally, tree, &[&[0xB4, 1], &path[..]].concat());
        for op in [2, 3] {
            ask(tally, tree, &[&[0xB4, op], &place[..]].concat());
        }
        for value in [1, LAST as u8, LAST as u8 + 1, LAST as u8 + 2] {
            for op in [4, 5] {
                ask(tally, tree, &[&[0xB4, op], &place[..], &[0, 0, 0, 0, value]].concat());
            }
        }
    }
}

/// One request by all three transports, where the last property alone is ready and where it alone is not.
fn ask(tally: &mut Tally, tree: &[u8], data: &[u8]) {
    let string = wrapped(&content(ADDRESS, data));
    let datagram = [&[0; 4], data].concat();
    for cells in [cells(0, 1), cells(1, 0)] {
        for (call, bytes) in [(Call::ServeData, data), (Call::ServeSerial, &string), (Call::ServeUdp, &datagram)] {
            tally.compare(&Input { tree, cells: &cells, bytes, host: 1, address: ADDRESS, room: 520, ..Input::of(call) });
        }
    }
}

/// Each rule broken at each of these properties and at the node of the same place, from the device on again behind the last.
fn break_all(random: &Random, tally: &mut Tally, draft: &Draft, places: Range<usize>) {
    for rule in BREAKS {
        for place in places.clone() {
            let (tree, cells) = broken_at(random, draft.clone(), rule, place % NODES, place);
            check_broken(tally, &tree, &cells, rule);
            give(tally, &tree, &cells);
        }
    }
}

/// The calls that go to all cells, to the last one or to the one beyond.
fn give(tally: &mut Tally, tree: &[u8], cells: &[u8]) {
    for call in [Call::BeginCells, Call::RestoreCells] {
        tally.compare(&Input { tree, cells, ..Input::of(call) });
    }
    for (call, place) in [(Call::Reading, LAST), (Call::Reading, LAST + 1), (Call::Post, LAST), (Call::Post, LAST + 1)] {
        tally.compare(&Input { tree, cells, place, value: 0x1234_5678, ready: 1, ..Input::of(call) });
    }
}

/// The last node's record and name, the last property's record and texts, and the last cell, each byte changed to each other.
fn change_all(tally: &mut Tally, tree: &[u8]) {
    let cells = cells(1, 1);
    let property = 2 + 3 * NODES + 16 * LAST;
    let name = at(tree, 2 + 3 * NODES - 2);
    let label = at(tree, property + 14);
    for range in [2 + 3 * NODES - 3..2 + 3 * NODES, name..name + 4, property..property + 16, label..tree.len()] {
        each_change_in(tree, range, |changed| {
            check(tally, changed, &cells, None);
            give(tally, changed, &cells);
        });
    }
    each_change_in(&cells, cells.len() - 5..cells.len(), |changed| {
        check(tally, tree, changed, None);
        give(tally, tree, changed);
    });
}

fn at(tree: &[u8], place: usize) -> usize {
    usize::from(u16::from_be_bytes([tree[place], tree[place + 1]]))
}

/// Gives bytes with each byte of a part of them changed to each other.
fn each_change_in(bytes: &[u8], range: Range<usize>, mut give: impl FnMut(&[u8])) {
    let mut changed = bytes.to_vec();
    each_change(&bytes[range.clone()], |part| {
        changed[range.clone()].copy_from_slice(part);
        give(&changed);
    });
}
