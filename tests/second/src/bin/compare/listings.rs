//! Listings: of every tree that is drawn, changed or broken, and of some that are made for them.
use crate::draft::{Draft, DraftProperty};
use crate::input::{Call, Input};
use crate::random::Random;
use crate::tally::Tally;
use second::listing;

/// More room than any listing takes.
const LARGE: usize = 17_700;

/// Room for a few lines.
const SOME: usize = 300;

/// Names and labels: empty, of 23 characters, and such as look like lines.
const TEXTS: [&[u8]; 11] = [
    b"", b"=", b" ", b"ABCDEFGHIJKLMNOPQRSTUVW", b"a=b", b"path=1", b" name= ", b"=======================",
    b"                       ", b"~", b"index=2 label= type=1 .",
];

/// So many levels below the device, and so many of them where the path goes by the tenth child: 36 characters.
const LEVELS: u32 = 15;
const TENS: u32 = 5;

pub fn run(tally: &mut Tally) {
    for (nodes, most) in [(1, 4), (2, 4), (3, 4), (4, 3), (5, 3), (6, 2)] {
        for properties in 0..=most {
            every_shape(tally, nodes, properties);
        }
    }
    for tens in (0..1 << LEVELS).filter(|tens: &usize| tens.count_ones() == TENS) {
        let properties = if tens < 1 << TENS { 128 } else { 3 };
        give(tally, &stairs(tens, properties));
    }
}

pub fn list(tally: &mut Tally, tree: &[u8], room: usize) {
    tally.compare(&Input { tree, room, ..Input::of(Call::List) });
}

/// Room for just the listing, and a byte less; none and some where the tree is broken.
pub fn near(tally: &mut Tally, tree: &[u8]) {
    let len = listing::list(tree, &mut []).len;
    for room in if len == 0 { [0, SOME] } else { [len, len - 1] } {
        list(tally, tree, room);
    }
}

/// Every other kind of room.
pub fn far(random: &Random, tally: &mut Tally, tree: &[u8]) {
    let len = listing::list(tree, &mut []).len;
    for room in [0, random.below(len + 1), len + 1, len + random.below(SOME), LARGE] {
        list(tally, tree, room);
    }
}

/// A sound tree, whose listing is known by another road as well.
pub fn whole(tally: &mut Tally, draft: &Draft, tree: &[u8]) {
    let expected = sorted(draft);
    let input = Input { tree, room: expected.len(), ..Input::of(Call::List) };
    let seen = tally.compare(&input);
    let same = seen.number == 0 && seen.fields[0] == expected.len() as u64 && seen.lent.out[..] == expected[..];
    tally.expect(same, "every node and property is listed once, at its place", &input);
}

fn give(tally: &mut Tally, draft: &Draft) {
    let tree = draft.form();
    whole(tally, draft, &tree);
    near(tally, &tree);
}

/// The listing as entries that are sorted: a node by its path, a property by its node's path, a 0, which is no node's number,
/// and its index.
fn sorted(draft: &Draft) -> Vec<u8> {
    let nodes = (0..draft.nodes.len()).map(|place| (draft.path(place), node_lines(draft, place)));
    let mut entries: Vec<(Vec<u8>, String)> = nodes.collect();
    for (place, property) in draft.properties.iter().enumerate() {
        let path = draft.path(usize::from(property.node));
        entries.push(([&path[..], &[0, draft.index(place)]].concat(), property_lines(draft, place)));
    }
    entries.sort();
    entries.into_iter().map(|(_, lines)| lines).collect::<String>().into_bytes()
}

fn dotted(path: &[u8]) -> String {
    path.iter().map(u8::to_string).collect::<Vec<_>>().join(".")
}

fn node_lines(draft: &Draft, place: usize) -> String {
    let (path, name) = (dotted(&draft.path(place)), String::from_utf8_lossy(&draft.nodes[place].1));
    let children = draft.nodes[1..].iter().filter(|node| usize::from(node.0) == place).count();
    let properties = draft.properties.iter().filter(|property| usize::from(property.node) == place).count();
    format!("path={path}\nname={name}\nchildren={children}\nproperties={properties}\n")
}

fn property_lines(draft: &Draft, place: usize) -> String {
    let property = &draft.properties[place];
    let (path, label) = (dotted(&draft.path(usize::from(property.node))), String::from_utf8_lossy(&property.label));
    format!("path={path}\nindex={}\nlabel={label}\ntype={}\n", draft.index(place), property.kind)
}

/// A tree of which the parents and the nodes of properties alone are given; the texts change from turn to turn.
pub fn draft(parents: &[usize], nodes: &[usize], turn: usize) -> Draft {
    let text = |place: usize| TEXTS[(turn + place) % TEXTS.len()].to_vec();
    let property = |(place, node): (usize, &usize)| {
        let mut property = DraftProperty {
            node: *node as u8,
            kind: 1,
            min: 0,
            max: 0,
            attribute: 3,
            format: 0,
            label: text(parents.len() + place),
            texts: b"C\0".to_vec(),
        };
        if (turn + place) % 2 == 0 {
            property.enumerated(1, b"a\0b\0".to_vec());
        }
        property
    };
    Draft {
        nodes: parents.iter().enumerate().map(|(place, parent)| (*parent as u8, text(place))).collect(),
        properties: nodes.iter().enumerate().map(property).collect(),
    }
}

/// Every tree of so many nodes and properties.
fn every_shape(tally: &mut Tally, nodes: usize, properties: usize) {
    let mut choices: Vec<usize> = (0..nodes).map(|place| place.max(1)).collect();
    choices.extend(vec![nodes; properties]);
    for turn in 0..choices.iter().product() {
        let chosen = chosen(&choices, turn);
        give(tally, &draft(&chosen[..nodes], &chosen[nodes..], turn));
    }
}

/// One of so many for each, all of them over the turns.
pub fn chosen(choices: &[usize], mut turn: usize) -> Vec<usize> {
    let mut chosen = Vec::new();
    for count in choices {
        chosen.push(turn % count);
        turn /= count;
    }
    chosen
}

/// A path down to depth 16, by the tenth child at some levels and by an only child at the others; 64 nodes, what is left of them
/// below the device. The first property is the device's, all others the deepest node's.
pub fn stairs(tens: usize, properties: usize) -> Draft {
    let (mut parents, mut last) = (vec![0], 0);
    for level in 0..LEVELS {
        let count = if tens >> level & 1 == 1 { 10 } else { 1 };
        parents.extend(vec![last; count]);
        last = parents.len() - 1;
    }
    parents.resize(64, 0);
    let mut nodes = vec![last; properties];
    nodes[0] = 0;
    draft(&parents, &nodes, tens)
}
