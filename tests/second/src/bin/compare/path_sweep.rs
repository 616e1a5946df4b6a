//! Paths that are few enough to be given all: on every small tree; on deep ones with each front part that there is, each place
//! behind it where the path goes wrong, and each length; and every index.
use crate::draft::Draft;
use crate::listings::{chosen, draft, stairs};
use crate::paths::{ask, ask_misshapen, before, misshapen, no_request, read_beyond, unread, Asked, Map, LONGEST};
use crate::requests::{Transport, TRANSPORTS};
use crate::tally::Tally;
use second::bench;
use std::collections::BTreeSet;

const OPS: [u8; 5] = [1, 2, 3, 4, 5];
/// Small trees have up to so many nodes, and so many properties.
const SMALL: usize = 4;
const FEW: usize = 2;

pub fn run(tally: &mut Tally) {
    small_trees(tally);
    pairs(tally);
    for draft in deep() {
        let map = Map::begun(&draft);
        let deepest = deepest_path(&map);
        let wrong = wrong_paths(&map, &deepest);
        for path in &wrong {
            by_all(tally, &map, path, 1);
        }
        own_nodes(tally, &map, &deepest);
        refusals_before(tally, &map, &deepest);
        for beyond in [0, 1, 127, 255, 1 << 32, 1 << 60] {
            read_beyond(tally, &map, draft.properties.len() + beyond);
        }
    }
    each_number(tally);
}

/// A chain of 16 nodes; three children at each level, the next level below the second; trees of 64 nodes whose paths go by the
/// tenth child; 63 children of the device; and the longest form. Some nodes have no properties, one has 127 or 128.
fn deep() -> Vec<Draft> {
    let chain: Vec<usize> = (0..LONGEST).map(|place| place.saturating_sub(1)).collect();
    let mut threes = vec![0];
    for level in 0..LONGEST - 1 {
        threes.extend([(3 * level).saturating_sub(1); 3]);
    }
    vec![
        draft(&chain, &[0, 15, 15, 7], 0),
        draft(&threes, &[0; 128], 0),
        draft(&threes, &[threes.len() - 1; 128], 1),
        stairs(0b100_1001_0010_0100, 128),
        stairs(0b1_1111, 3),
        draft(&[0; 64], &[63, 0, 63], 0),
        Draft::of(&bench::largest()),
    ]
}

/// The path of a node than which none is deeper.
fn deepest_path(map: &Map) -> Vec<u8> {
    map.nodes.keys().max_by_key(|path| path.len()).unwrap().clone()
}

/// A request by every op and every transport.
fn by_all(tally: &mut Tally, map: &Map, path: &[u8], index: u8) {
    for op in OPS {
        TRANSPORTS.iter().for_each(|transport| ask(tally, map, &Asked { op, path, index }, *transport));
    }
}

/// Numbers that lead nowhere behind a front part: the lowest, and two high ones. In the first place 1 alone leads to a node.
fn wrong_numbers(map: &Map, front: &[u8]) -> Vec<u8> {
    let is_wrong = |number: &u8| !map.nodes.contains_key(&[front, &[*number]].concat());
    let lowest = (1..=255).find(is_wrong).unwrap();
    [lowest, 128, 255].into_iter().filter(is_wrong).collect()
}

/// Paths of each length up to 16: a front part of the deepest path, a wrong number, and behind it the path's own numbers or others.
fn wrong_paths(map: &Map, deepest: &[u8]) -> BTreeSet<Vec<u8>> {
    let mut paths = BTreeSet::new();
    for at in 0..=deepest.len().min(LONGEST - 1) {
        for number in wrong_numbers(map, &deepest[..at]) {
            let front = [&deepest[..at], &[number]].concat();
            let own = [&front[..], deepest.get(at + 1..).unwrap_or(&[]), &[1; LONGEST]].concat();
            let fillings = [own, [&front[..], &[1; LONGEST]].concat(), [&front[..], &[255; LONGEST]].concat()];
            for len in front.len()..=LONGEST {
                paths.extend(fillings.iter().map(|path| path[..len].to_vec()));
            }
        }
    }
    paths
}

/// The nodes there are: indexes about the count of their properties and the highest ones; of the device and of the deepest node
/// every index.
fn own_nodes(tally: &mut Tally, map: &Map, deepest: &[u8]) {
    for (path, count) in &map.nodes {
        let count = *count as u8;
        for index in BTreeSet::from([count.max(1), count + 1, count + 2, 128, 129, 255]) {
            by_all(tally, map, path, index);
        }
    }
    for (index, path) in (1..=255).flat_map(|index| [(index, &deepest[..1]), (index, deepest)]) {
        for op in OPS {
            ask(tally, map, &Asked { op, path, index }, TRANSPORTS[usize::from(index) % 3]);
        }
    }
}

/// What is told before 15 and 16: with paths that no node has from each length on, and with an index that is not there.
fn refusals_before(tally: &mut Tally, map: &Map, deepest: &[u8]) {
    for at in 0..=deepest.len().min(LONGEST - 1) {
        let wrong = [&deepest[..at], &[255]].concat();
        for path in [&wrong[..], &deepest[..at.max(1)]] {
            TRANSPORTS.iter().for_each(|transport| no_request(tally, map, path, *transport));
            for data in misshapen(path) {
                TRANSPORTS.iter().for_each(|transport| ask_misshapen(tally, map, path, &data, *transport));
            }
            for data in [Asked { op: OPS[1 + at % 4], path, index: 255 }.data(), misshapen(path).swap_remove(at)] {
                TRANSPORTS.iter().for_each(|transport| before(tally, map, &data, *transport));
                unread(tally, map, &data);
            }
        }
    }
}

/// On every tree of a few nodes and properties every path of a few numbers by every op, with indexes and transports by turns.
fn small_trees(tally: &mut Tally) {
    let mut turn = 0;
    for nodes in 1..=SMALL {
        let choices: Vec<usize> = (0..nodes).map(|place| place.max(1)).chain([nodes; FEW]).collect();
        for shape in 0..choices.iter().product() {
            let chosen = chosen(&choices, shape);
            let map = Map::begun(&draft(&chosen[..nodes], &chosen[nodes..], shape));
            for (path, op) in paths_of(nodes.max(2) as u8, nodes + 1).iter().flat_map(|path| OPS.map(|op| (path, op))) {
                let asked = Asked { op, path, index: (turn % (FEW + 1) + 1) as u8 };
                ask(tally, &map, &asked, TRANSPORTS[turn / 3 % 3]);
                turn += 1;
            }
        }
    }
}

/// Every path of up to so many numbers, each up to this one.
fn paths_of(most: u8, len: usize) -> Vec<Vec<u8>> {
    let mut paths: Vec<Vec<u8>> = vec![Vec::new()];
    let mut from = 0;
    for _ in 0..len {
        let longer: Vec<Vec<u8>> =
            paths[from..].iter().flat_map(|path| (1..=most).map(move |number| [&path[..], &[number]].concat())).collect();
        from = paths.len();
        paths.extend(longer);
    }
    paths.split_off(1)
}

/// On the bench tree every path of one number and of two.
fn pairs(tally: &mut Tally) {
    let map = Map::of(&Draft::of(&bench::tree()), &bench::CELLS);
    for path in paths_of(255, 2) {
        let op = OPS[path.iter().map(|number| usize::from(*number)).sum::<usize>() % 5];
        ask(tally, &map, &Asked { op, path: &path, index: 1 }, Transport::Data);
    }
}

/// The path of the deepest node of a chain, each of its numbers changed to each other.
fn each_number(tally: &mut Tally) {
    let map = Map::begun(&deep()[0]);
    let deepest = deepest_path(&map);
    for (at, number) in (0..LONGEST).flat_map(|at| (1..=255).map(move |number| (at, number))) {
        let mut path = deepest.clone();
        path[at] = number;
        for (op, transport) in OPS.into_iter().zip(TRANSPORTS.iter().cycle().skip(usize::from(number))) {
            ask(tally, &map, &Asked { op, path: &path, index: 3 }, *transport);
        }
    }
}
