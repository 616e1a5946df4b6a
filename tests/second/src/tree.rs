//! The tree ("The tree"; steps and missing nodes: document 02, sections 6 and 7), its rules and its lent form (docs/FORMATS.md).

const MOST_NODES: usize = 64;
const MOST_PROPERTIES: usize = 128;
const MOST_DEPTH: u8 = 16;
const MOST_NAME: usize = 23;
const MOST_TEXTS: usize = 160;
const NODE_SIZE: usize = 3;
const PROPERTY_SIZE: usize = 16;

pub const READ: u16 = 0x0001;
pub const WRITE: u16 = 0x0002;
pub const LIVE: u16 = 0x2000;
const SIGNED: u16 = 0x8000;
/// Document 02, section 6: what the step codes 0 to 11 mean.
const STEPS: [i64; 12] = [1, 2, 5, 10, 20, 50, 100, 200, 500, 1000, 2000, 5000];

#[derive(Clone, Debug, PartialEq)]
pub struct Node<'a> {
    /// The parent's place in the list; 0 for the device.
    pub parent: u8,
    pub name: &'a [u8],
}

#[derive(Clone, Debug, PartialEq)]
pub struct Property<'a> {
    pub node: u8,
    pub kind: u8,
    pub min: u32,
    pub max: u32,
    pub attribute: u16,
    pub format: u16,
    pub label: &'a [u8],
    /// The unit, or the options, each ended by a zero byte.
    pub texts: &'a [u8],
}

#[derive(Clone, Debug, PartialEq)]
pub struct Tree<'a> {
    pub nodes: Vec<Node<'a>>,
    pub properties: Vec<Property<'a>>,
}

impl Property<'_> {
    pub fn has(&self, bits: u16) -> bool {
        self.attribute & bits != 0
    }

    pub fn is_action(&self) -> bool {
        self.has(WRITE) && !self.has(READ)
    }

    pub fn is_setting(&self) -> bool {
        self.has(READ) && self.has(WRITE)
    }

    /// Whether its word is a signed number: an enumerated one never is.
    pub fn is_signed(&self) -> bool {
        self.kind == 1 && self.format & SIGNED != 0
    }

    /// The number that its word is.
    pub fn number(&self, word: u32) -> i64 {
        if self.is_signed() {
            i64::from(word as i32)
        } else {
            i64::from(word)
        }
    }

    /// Whether one number is at most another, signed where the format says so.
    fn ordered(&self, low: u32, high: u32) -> bool {
        if self.format & SIGNED != 0 {
            low as i32 <= high as i32
        } else {
            low <= high
        }
    }

    /// Whether a value lies in the range of a property that is no action.
    pub fn in_range(&self, value: u32) -> bool {
        if self.kind == 2 {
            return value <= self.max;
        }
        let free = self.min == 0 && self.max == 0;
        free || self.ordered(self.min, value) && self.ordered(value, self.max)
    }

    /// The step that format bits 11 to 8 mean in type 1, if any.
    fn step(&self) -> Option<i64> {
        STEPS.get(usize::from(self.format >> 8 & 0xF)).copied()
    }

    /// Whether a value's distance from min is a multiple of the step; min is 0 where there is no range. Type 2 has no step.
    pub fn on_step(&self, value: u32) -> bool {
        let distance = self.number(value) - self.number(self.min);
        self.kind == 2 || self.step().is_some_and(|step| distance % step == 0)
    }

    /// Whether a setting may hold a value.
    pub fn may_hold(&self, value: u32) -> bool {
        self.in_range(value) && self.on_step(value)
    }

    fn attribute_is_sound(&self) -> bool {
        !self.has(LIVE) || self.has(READ) && !self.has(WRITE)
    }

    fn numbers_are_sound(&self) -> bool {
        match self.kind {
            1 => self.ordered(self.min, self.max) && self.step().is_some(),
            2 => self.min == 0 && self.max <= 15,
            _ => false,
        }
    }

    /// How many texts stand behind the label.
    fn text_count(&self) -> usize {
        if self.kind == 2 {
            self.max as usize + 1
        } else {
            1
        }
    }
}

fn word(bytes: &[u8]) -> u32 {
    u32::from_be_bytes([bytes[0], bytes[1], bytes[2], bytes[3]])
}

fn half(bytes: &[u8]) -> u16 {
    u16::from_be_bytes([bytes[0], bytes[1]])
}

/// Reads texts that lie one behind the other.
struct Texts<'a> {
    bytes: &'a [u8],
    at: usize,
}

impl<'a> Texts<'a> {
    /// The next text of at most so many characters, 20h to 7Eh each, behind which a zero stands.
    fn next(&mut self, most: usize) -> Option<&'a [u8]> {
        let rest = &self.bytes[self.at..];
        let len = rest.iter().position(|byte| !(0x20..=0x7E).contains(byte))?;
        if rest[len] != 0 || len > most {
            return None;
        }
        self.at += len + 1;
        Some(&rest[..len])
    }

    /// The next text, where the record says that it lies here.
    fn placed(&mut self, place: &[u8], most: usize) -> Option<&'a [u8]> {
        if usize::from(half(place)) != self.at {
            return None;
        }
        self.next(most)
    }

    /// So many texts together, zeros included: at most 160 bytes.
    fn several(&mut self, count: usize) -> Option<&'a [u8]> {
        let from = self.at;
        for _ in 0..count {
            self.next(MOST_TEXTS)?;
        }
        let texts = &self.bytes[from..self.at];
        (texts.len() <= MOST_TEXTS).then_some(texts)
    }
}

/// The nodes: each parent earlier, depth at most 16, names well formed.
fn read_nodes<'a>(records: &[u8], texts: &mut Texts<'a>) -> Option<Vec<Node<'a>>> {
    let mut depths = [0u8; MOST_NODES];
    let mut nodes = Vec::with_capacity(records.len() / NODE_SIZE);
    for (place, record) in records.chunks_exact(NODE_SIZE).enumerate() {
        let parent = usize::from(record[0]);
        if parent >= place.max(1) {
            return None;
        }
        depths[place] = depths[parent] + 1;
        if depths[place] > MOST_DEPTH {
            return None;
        }
        let name = texts.placed(&record[1..], MOST_NAME)?;
        nodes.push(Node { parent: record[0], name });
    }
    Some(nodes)
}

/// A property of a tree with so many nodes.
fn read_property<'a>(record: &[u8], nodes: usize, texts: &mut Texts<'a>) -> Option<Property<'a>> {
    let mut property = Property {
        node: record[0],
        kind: record[1],
        min: word(&record[2..]),
        max: word(&record[6..]),
        attribute: half(&record[10..]),
        format: half(&record[12..]),
        label: &[],
        texts: &[],
    };
    if usize::from(property.node) >= nodes || !property.attribute_is_sound() || !property.numbers_are_sound() {
        return None;
    }
    property.label = texts.placed(&record[14..], MOST_NAME)?;
    property.texts = texts.several(property.text_count())?;
    Some(property)
}

pub fn check(bytes: &[u8]) -> u8 {
    u8::from(Tree::read(bytes).is_none())
}

impl<'a> Tree<'a> {
    /// The sound tree that lent bytes stand for, if any.
    pub fn read(bytes: &'a [u8]) -> Option<Tree<'a>> {
        let [nodes, properties, ..] = *bytes else {
            return None;
        };
        let (nodes, properties) = (usize::from(nodes), usize::from(properties));
        let from = 2 + NODE_SIZE * nodes;
        let behind = from + PROPERTY_SIZE * properties;
        if nodes == 0 || nodes > MOST_NODES || properties > MOST_PROPERTIES || behind > bytes.len() {
            return None;
        }
        let mut texts = Texts { bytes, at: behind };
        let mut tree = Tree { nodes: read_nodes(&bytes[2..from], &mut texts)?, properties: Vec::with_capacity(properties) };
        for record in bytes[from..behind].chunks_exact(PROPERTY_SIZE) {
            tree.properties.push(read_property(record, nodes, &mut texts)?);
        }
        (texts.at == bytes.len()).then_some(tree)
    }

    /// The lent form of a tree, sound or not.
    pub fn write(&self) -> Vec<u8> {
        let from = 2 + NODE_SIZE * self.nodes.len() + PROPERTY_SIZE * self.properties.len();
        let mut records = vec![self.nodes.len() as u8, self.properties.len() as u8];
        let mut texts = Vec::new();
        for node in &self.nodes {
            records.push(node.parent);
            records.extend(((from + texts.len()) as u16).to_be_bytes());
            texts.extend(node.name);
            texts.push(0);
        }
        for property in &self.properties {
            property.write_record(from + texts.len(), &mut records);
            texts.extend(property.label);
            texts.push(0);
            texts.extend(property.texts);
        }
        records.extend(texts);
        records
    }

    /// The place of the node at a path of at most 16 numbers; where there is none, the length of its shortest front part that no
    /// node has, which is 1 where it does not begin with the device's number.
    pub fn node(&self, path: &[u8]) -> Result<usize, u8> {
        if path.first() != Some(&1) {
            return Err(1);
        }
        let mut node = 0;
        for (len, number) in (2..).zip(&path[1..]) {
            node = self.child(node, *number).ok_or(len)?;
        }
        Ok(node)
    }

    /// The place of a node's child of this number; the device is nobody's child.
    fn child(&self, node: usize, number: u8) -> Option<usize> {
        let children = (1..self.nodes.len()).filter(|place| usize::from(self.nodes[*place].parent) == node);
        children.skip(usize::from(number).checked_sub(1)?).next()
    }

    /// The place of a node's property of this index.
    pub fn property(&self, node: usize, index: u8) -> Option<usize> {
        let own = (0..self.properties.len()).filter(|place| usize::from(self.properties[*place].node) == node);
        own.skip(usize::from(index).checked_sub(1)?).next()
    }

    pub fn child_count(&self, node: usize) -> u8 {
        self.nodes[1..].iter().filter(|other| usize::from(other.parent) == node).count() as u8
    }

    pub fn property_count(&self, node: usize) -> u8 {
        self.properties.iter().filter(|property| usize::from(property.node) == node).count() as u8
    }
}

impl Property<'_> {
    fn write_record(&self, label_at: usize, records: &mut Vec<u8>) {
        records.extend([self.node, self.kind]);
        records.extend(self.min.to_be_bytes());
        records.extend(self.max.to_be_bytes());
        records.extend(self.attribute.to_be_bytes());
        records.extend(self.format.to_be_bytes());
        records.extend((label_at as u16).to_be_bytes());
    }
}
