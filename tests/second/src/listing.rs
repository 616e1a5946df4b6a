//! The listing of a tree (document 02, section 1): each node, its properties, then its children's subtrees, a line for each
//! key and value.
//!
//! The tree is not walked. How long the lines of each node and of all below it are is worked out first; then every node and
//! every property is written where it belongs, in the order of the lists.
use crate::tree::{Node, Property, Tree};
use crate::writer::Writer;
use crate::*;

const NODE_KEYS: usize = b"path=\nname=\nchildren=\nproperties=\n".len();
const PROPERTY_KEYS: usize = b"path=\nindex=\nlabel=\ntype=\n".len();

/// Room for a dotted path: sixteen numbers of at most two digits.
const PATH_ROOM: usize = 16 * 2 + 15;

/// The number that the call gives, and the length of the listing, which is 0 where the tree is not sound.
#[derive(Clone, Copy, Debug, PartialEq)]
pub struct Listed {
    pub number: u8,
    pub len: usize,
}

/// How many decimal digits a number has.
fn digits(number: u8) -> usize {
    match number {
        0..=9 => 1,
        10..=99 => 2,
        _ => 3,
    }
}

fn put_decimal(number: u8, to: &mut Writer) {
    if number >= 100 {
        to.byte(b'0' + number / 100);
    }
    if number >= 10 {
        to.byte(b'0' + number / 10 % 10);
    }
    to.byte(b'0' + number % 10);
}

fn put_number(key: &[u8], number: u8, to: &mut Writer) {
    to.bytes(key);
    put_decimal(number, to);
    to.byte(b'\n');
}

fn put_text(key: &[u8], text: &[u8], to: &mut Writer) {
    to.bytes(key);
    to.bytes(text);
    to.byte(b'\n');
}

/// A dotted path.
#[derive(Clone, Copy)]
struct Path {
    text: [u8; PATH_ROOM],
    len: usize,
}

impl Path {
    fn device() -> Path {
        Path { text: [b'1'; PATH_ROOM], len: 1 }
    }

    fn child(mut self, number: u8) -> Path {
        let mut end = Writer::new(&mut self.text[self.len..]);
        end.byte(b'.');
        put_decimal(number, &mut end);
        self.len += end.len;
        self
    }

    fn text(&self) -> &[u8] {
        &self.text[..self.len]
    }
}

/// What the listing says of a node besides its name, and where.
struct Entry {
    path: Path,
    children: u8,
    properties: u8,
    /// How long its own lines are; with those of its properties; with those of all nodes below it.
    lines: usize,
    with_properties: usize,
    whole: usize,
    /// Where the lines of its next property and of its next child go, and that property's index.
    property_at: usize,
    child_at: usize,
    index: u8,
}

impl Entry {
    fn of(path: Path) -> Entry {
        let (children, properties, index) = (0, 0, 1);
        let (lines, with_properties, whole, property_at, child_at) = (0, 0, 0, 0, 0);
        Entry { path, children, properties, lines, with_properties, whole, property_at, child_at, index }
    }

    /// Counts a property of the node, and its lines.
    fn count(&mut self, property: &Property) {
        self.properties += 1;
        let shown = self.path.len + digits(self.properties) + property.label.len() + digits(property.kind);
        self.with_properties += PROPERTY_KEYS + shown;
    }

    /// Counts the node's own lines, once its properties and all that is below it are counted.
    fn close(&mut self, node: &Node) {
        let shown = self.path.len + node.name.len() + digits(self.children) + digits(self.properties);
        self.lines = NODE_KEYS + shown;
        self.with_properties += self.lines;
        self.whole += self.with_properties;
    }

    fn put_node(&mut self, at: usize, node: &Node, out: &mut [u8]) {
        self.property_at = at + self.lines;
        self.child_at = at + self.with_properties;
        let mut to = Writer::new(&mut out[at..]);
        put_text(b"path=", self.path.text(), &mut to);
        put_text(b"name=", node.name, &mut to);
        put_number(b"children=", self.children, &mut to);
        put_number(b"properties=", self.properties, &mut to);
    }

    fn put_property(&mut self, property: &Property, out: &mut [u8]) {
        let mut to = Writer::new(&mut out[self.property_at..]);
        put_text(b"path=", self.path.text(), &mut to);
        put_number(b"index=", self.index, &mut to);
        put_text(b"label=", property.label, &mut to);
        put_number(b"type=", property.kind, &mut to);
        self.property_at += to.len;
        self.index += 1;
    }
}

/// An entry for each node. A child comes behind its parent: paths are made from the front, lengths summed from the end.
fn measure(tree: &Tree) -> Vec<Entry> {
    let mut entries = Vec::with_capacity(tree.nodes.len());
    entries.push(Entry::of(Path::device()));
    for node in &tree.nodes[1..] {
        let parent: &mut Entry = &mut entries[usize::from(node.parent)];
        parent.children += 1;
        let path = parent.path.child(parent.children);
        entries.push(Entry::of(path));
    }
    for property in &tree.properties {
        entries[usize::from(property.node)].count(property);
    }
    for place in (1..entries.len()).rev() {
        let node = &tree.nodes[place];
        entries[place].close(node);
        entries[usize::from(node.parent)].whole += entries[place].whole;
    }
    entries[0].close(&tree.nodes[0]);
    entries
}

fn write(tree: &Tree, entries: &mut [Entry], out: &mut [u8]) {
    entries[0].put_node(0, &tree.nodes[0], out);
    for (place, node) in tree.nodes.iter().enumerate().skip(1) {
        let whole = entries[place].whole;
        let parent = &mut entries[usize::from(node.parent)];
        let at = parent.child_at;
        parent.child_at += whole;
        entries[place].put_node(at, node, out);
    }
    for property in &tree.properties {
        entries[usize::from(property.node)].put_property(property, out);
    }
}

/// Lists a tree: 1 where it is not sound; 8 where the listing is longer than the output.
pub fn list(tree: &[u8], out: &mut [u8]) -> Listed {
    let Some(tree) = Tree::read(tree) else {
        return Listed { number: UNSOUND, len: 0 };
    };
    let mut entries = measure(&tree);
    let len = entries[0].whole;
    if out.len() < len {
        return Listed { number: NO_ROOM, len };
    }
    write(&tree, &mut entries, out);
    Listed { number: 0, len }
}
