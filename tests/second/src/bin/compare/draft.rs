//! Trees drawn at random, and broken in one rule each.
use crate::random::Random;
use crate::sheets::number_of;
use crate::steps;
use second::tree::{Node, Property, Tree};

#[derive(Clone)]
pub struct DraftProperty {
    pub node: u8,
    pub kind: u8,
    pub min: u32,
    pub max: u32,
    pub attribute: u16,
    pub format: u16,
    pub label: Vec<u8>,
    pub texts: Vec<u8>,
}

#[derive(Clone)]
pub struct Draft {
    pub nodes: Vec<(u8, Vec<u8>)>,
    pub properties: Vec<DraftProperty>,
}

/// How nodes hang together: each below the one before, all below the device, or by chance.
#[derive(Clone, Copy)]
enum Shape {
    Deep,
    Flat,
    Any,
}

fn text(random: &Random, most: usize) -> Vec<u8> {
    let len = match random.below(8) {
        0 => most,
        1 => 0,
        2 => random.between(0, most),
        _ => random.below(9).min(most),
    };
    (0..len).map(|_| random.between(0x20, 0x7E) as u8).collect()
}

/// So many options, often filling the 160 bytes.
fn options(random: &Random, count: usize) -> Vec<u8> {
    let most = 160 / count - 1;
    let full = random.once_in(3);
    let mut texts = Vec::new();
    for _ in 0..count {
        texts.extend(if full { vec![b'x'; most] } else { text(random, most) });
        texts.push(0);
    }
    texts
}

/// Min and max; 0 and 0 now and then.
fn range(random: &Random, signed: bool) -> (u32, u32) {
    if random.once_in(8) {
        return (0, 0);
    }
    let ends = [0, 0, 1, 64, 0x7FFF_FFFF, 0x8000_0000, 0xFFFF_FFFF, 0xFFFF_FF00, random.word()];
    let (one, other) = (random.pick(&ends), random.pick(&ends));
    let ordered = if signed { one as i32 <= other as i32 } else { one <= other };
    if ordered {
        (one, other)
    } else {
        (other, one)
    }
}

/// A format: of type 1 every step, 1 half the time; of type 2 every code, also those that mean no step.
fn format(random: &Random, kind: u8) -> u16 {
    let other = random.pick(&[0, 0x8000, 0x8002, 0x1080, random.word() as u16]) & 0xF0FF;
    let code = random.below(if kind == 2 { 16 } else { 12 }) as u16;
    other | random.pick(&[0, code << 8])
}

impl DraftProperty {
    pub fn draw(random: &Random, nodes: usize) -> DraftProperty {
        let kind = random.pick(&[1, 1, 2]);
        let format = format(random, kind);
        let attribute = random.pick(&[0x2001, 0x2001, 3, 3, 3, 2, 1, 0]) | random.pick(&[0, 0x1010, 0xC000]);
        let (min, max) = match kind {
            1 => range(random, format & 0x8000 != 0),
            _ => (0, random.pick(&[0, 1, 2, 7, 14, 15])),
        };
        let texts = options(random, if kind == 2 { max as usize + 1 } else { 1 });
        DraftProperty { node: random.below(nodes) as u8, kind, min, max, attribute, format, label: text(random, 23), texts }
    }

    fn view(&self) -> Property<'_> {
        Property {
            node: self.node,
            kind: self.kind,
            min: self.min,
            max: self.max,
            attribute: self.attribute,
            format: self.format,
            label: &self.label,
            texts: &self.texts,
        }
    }

    pub fn enumerated(&mut self, max: u32, texts: Vec<u8>) {
        (self.kind, self.min, self.max, self.texts) = (2, 0, max, texts);
    }

    fn standard(&mut self, min: u32, max: u32, format: u16) {
        (self.kind, self.min, self.max, self.format, self.texts) = (1, min, max, format, b"C\0".to_vec());
    }
}

impl Draft {
    pub fn of(tree: &Tree) -> Draft {
        let property = |p: &Property| DraftProperty {
            node: p.node,
            kind: p.kind,
            min: p.min,
            max: p.max,
            attribute: p.attribute,
            format: p.format,
            label: p.label.to_vec(),
            texts: p.texts.to_vec(),
        };
        Draft {
            nodes: tree.nodes.iter().map(|node| (node.parent, node.name.to_vec())).collect(),
            properties: tree.properties.iter().map(property).collect(),
        }
    }

    /// A sound tree.
    pub fn draw(random: &Random) -> Draft {
        match random.below(20) {
            0..=2 => return Draft::of(&second::bench::tree()),
            3 => return Draft::of(&second::bench::largest()),
            _ => {}
        }
        let most = random.pick(&[1, 4, 8, 20, 64]);
        let count = random.between(1, most);
        let mut draft = Draft { nodes: Vec::new(), properties: Vec::new() };
        let shape = random.pick(&[Shape::Deep, Shape::Flat, Shape::Any]);
        for place in 0..count {
            let parent = draft.draw_parent(random, place, shape);
            draft.nodes.push((parent as u8, text(random, 23)));
        }
        let most = random.pick(&[0, 3, 6, 12, 128]);
        let nodes = random.pick(&[1, count, count]);
        for _ in 0..random.between(0, most) {
            draft.properties.push(DraftProperty::draw(random, nodes));
        }
        draft
    }

    fn draw_parent(&self, random: &Random, place: usize, shape: Shape) -> usize {
        let parent = match shape {
            _ if place == 0 => return 0,
            Shape::Deep => place - 1,
            Shape::Flat => 0,
            Shape::Any => random.below(place),
        };
        if self.path(parent).len() < 16 {
            parent
        } else {
            0
        }
    }

    /// The path of the node at a place.
    pub fn path(&self, place: usize) -> Vec<u8> {
        if place == 0 {
            return vec![1];
        }
        let parent = self.nodes[place].0;
        let number = self.nodes[1..=place].iter().filter(|node| node.0 == parent).count();
        let mut path = self.path(usize::from(parent));
        path.push(number as u8);
        path
    }

    /// The path and the index of the property at a place, as requests have them.
    pub fn target(&self, place: usize) -> Vec<u8> {
        let mut target = self.path(usize::from(self.properties[place].node));
        target.push(self.index(place));
        target
    }

    /// The index of the property at a place among those of its node.
    pub fn index(&self, place: usize) -> u8 {
        let node = self.properties[place].node;
        self.properties[..=place].iter().filter(|property| property.node == node).count() as u8
    }

    pub fn form(&self) -> Vec<u8> {
        Tree {
            nodes: self.nodes.iter().map(|(parent, name)| Node { parent: *parent, name }).collect(),
            properties: self.properties.iter().map(DraftProperty::view).collect(),
        }
        .write()
    }

    /// Cells that fit: any words, on their step or not, any marks of 0 or 1.
    pub fn cells(&self, random: &Random) -> Vec<u8> {
        let mut cells = Vec::new();
        for property in &self.properties {
            let last = steps::to_step(property, number_of(property, property.max)) as u32;
            let word = random.pick(&[property.min, last, 0, random.word()]);
            cells.extend(word.to_be_bytes());
            cells.push(random.pick(&[0, 1]));
        }
        cells
    }

    /// A value to be written to a property, often at an end of its range or about its step.
    pub fn value(&self, random: &Random, place: usize) -> u32 {
        let property = &self.properties[place];
        let (min, max) = (property.min, property.max);
        let ends = [min, max, min.wrapping_sub(1), max.wrapping_add(1), min.wrapping_add(1), max.wrapping_sub(1)];
        let others = [0, 1, 16, 0x7FFF_FFFF, 0x8000_0000, 0xFFFF_FFFF, 0x1010_1010, random.word()];
        match random.below(4) {
            0 => random.pick(&ends),
            1 => random.pick(&others),
            _ => steps::near(random, property) as u32,
        }
    }
}

/// The sorts of properties, by read, write and live.
#[derive(Clone, Copy, Debug, PartialEq)]
pub enum Sort {
    Live,
    Setting,
    Action,
    ReadOnly,
    Neither,
}

pub const SORTS: [Sort; 5] = [Sort::Live, Sort::Setting, Sort::Action, Sort::ReadOnly, Sort::Neither];

impl Sort {
    pub fn attribute(self) -> u16 {
        match self {
            Sort::Live => 0x2001,
            Sort::Setting => 3,
            Sort::Action => 2,
            Sort::ReadOnly => 1,
            Sort::Neither => 0,
        }
    }
}

/// The rules that a tree or its cells can break, one by one.
#[derive(Clone, Copy, Debug, PartialEq)]
pub enum Break {
    NoNode,
    ManyNodes,
    ManyProperties,
    DeviceParent,
    LateParent,
    Deep,
    NameCharacter,
    LabelCharacter,
    TextCharacter,
    LongName,
    LongLabel,
    NoSuchNode,
    Kind,
    Range,
    SignedRange,
    EnumeratedMin,
    EnumeratedMax,
    FewOptions,
    ManyOptions,
    LiveWrite,
    LiveNoRead,
    /// A step code of 12 to 15 in a type 1 property of this sort.
    Step(Sort),
    LongOptions,
    LongUnit,
    PastForm,
    CutForm,
    NamePlace,
    LabelPlace,
    Counts,
    Short,
    CellShort,
    CellMore,
    CellPart,
    Mark,
}

pub const BREAKS: [Break; 38] = {
    use Break::*;
    use Sort::*;
    [
        NoNode, ManyNodes, ManyProperties, DeviceParent, LateParent, Deep, NameCharacter, LabelCharacter, TextCharacter,
        LongName, LongLabel, NoSuchNode, Kind, Range, SignedRange, EnumeratedMin, EnumeratedMax, FewOptions, ManyOptions,
        LiveWrite, LiveNoRead, Step(Live), Step(Setting), Step(Action), Step(ReadOnly), Step(Neither), LongOptions, LongUnit,
        PastForm, CutForm, NamePlace, LabelPlace, Counts, Short, CellShort, CellMore, CellPart, Mark,
    ]
};

impl Break {
    /// Whether the cells break this rule, and the tree is sound.
    pub fn is_of_cells(self) -> bool {
        matches!(self, Break::CellShort | Break::CellMore | Break::CellPart | Break::Mark)
    }
}

/// A tree that breaks one rule, with cells that would fit it; or a sound one with cells that do not.
pub fn broken(random: &Random, draft: &Draft, rule: Break) -> (Vec<u8>, Vec<u8>) {
    let mut draft = draft.clone();
    if draft.properties.is_empty() {
        draft.properties.push(DraftProperty::draw(random, draft.nodes.len()));
    }
    let (node, place) = (random.below(draft.nodes.len()), random.below(draft.properties.len()));
    broken_at(random, draft, rule, node, place)
}

/// Breaks a rule at a node, at a property or at its cell, where the rule speaks of one.
pub fn broken_at(random: &Random, mut draft: Draft, rule: Break, node: usize, place: usize) -> (Vec<u8>, Vec<u8>) {
    break_nodes(random, &mut draft, node, rule);
    let nodes = draft.nodes.len();
    break_numbers(random, &mut draft.properties[place], nodes, rule);
    break_texts(random, &mut draft.properties[place], rule);
    let mut cells = draft.cells(random);
    let mut tree = draft.form();
    match rule {
        Break::NamePlace => nudge(random, &mut tree, 2 + 3 * node + 1),
        Break::LabelPlace => nudge(random, &mut tree, 2 + 3 * nodes + 16 * place + 14),
        Break::Mark => cells[5 * place + 4] = random.pick(&[2, 3, 255, 0x10]),
        _ => {}
    }
    break_form(random, &mut tree, rule);
    break_cells(random, &mut cells, rule);
    (tree, cells)
}

fn bad_character(random: &Random, text: &mut Vec<u8>) {
    let bad = random.pick(&[0x01, 0x10, 0x1F, 0x7F, 0x80, 0xFF]);
    let at = random.below(text.len() + 1);
    if text.len() < 23 {
        text.insert(at, bad);
    } else {
        text[at.min(22)] = bad;
    }
}

fn break_nodes(random: &Random, draft: &mut Draft, place: usize, rule: Break) {
    match rule {
        Break::NoNode => draft.nodes.clear(),
        Break::ManyNodes => draft.nodes.resize(random.between(65, 70), (0, b"n".to_vec())),
        Break::ManyProperties => {
            let last = draft.properties[0].clone();
            draft.properties.resize(random.between(129, 132), last);
        }
        Break::DeviceParent => draft.nodes[0].0 = random.pick(&[1, 2, 255]),
        Break::LateParent => break_parent(random, draft, place.max(1)),
        Break::Deep => break_depth(draft, place.max(16)),
        Break::NameCharacter => bad_character(random, &mut draft.nodes[place].1),
        Break::LongName => draft.nodes[place].1 = vec![b'n'; random.between(24, 30)],
        _ => {}
    }
}

fn break_parent(random: &Random, draft: &mut Draft, place: usize) {
    let count = draft.nodes.len().max(place + 1);
    draft.nodes.resize(count, (0, Vec::new()));
    draft.nodes[place].0 = random.pick(&[place, place + 1, count, 255]) as u8;
}

/// Hangs the sixteen nodes up to a place below one another, the first below the device: the last is at depth 17.
fn break_depth(draft: &mut Draft, place: usize) {
    draft.nodes.resize(draft.nodes.len().max(place + 1), (0, b"d".to_vec()));
    draft.nodes[place - 15].0 = 0;
    for below in place - 14..=place {
        draft.nodes[below].0 = below as u8 - 1;
    }
}

fn break_numbers(random: &Random, property: &mut DraftProperty, nodes: usize, rule: Break) {
    match rule {
        Break::NoSuchNode => property.node = random.pick(&[nodes as u8, 255]),
        Break::Kind => property.kind = random.pick(&[0, 3, 4, 255]),
        Break::Range => property.standard(random.pick(&[0xFFFF_FFFF, 2, 0x8000_0000]), 1, random.pick(&[0, 0x7BFF])),
        Break::SignedRange => {
            let (min, max) = random.pick(&[(0, 0xFFFF_FFFF), (1, 0), (0x7FFF_FFFF, 0x8000_0000)]);
            property.standard(min, max, random.pick(&[0x8000, 0xFBFF]));
        }
        Break::EnumeratedMin => {
            property.enumerated(1, b"a\0b\0".to_vec());
            property.min = random.pick(&[1, 0xFFFF_FFFF]);
        }
        Break::EnumeratedMax => {
            let max = random.pick(&[16, 17, 255]);
            property.enumerated(max, vec![0; max as usize + 1]);
            property.max = random.pick(&[max, max, 0xFFFF_FFFF, 0x8000_0000]);
        }
        Break::LiveWrite => property.attribute = random.pick(&[0x2003, 0x2002, 0xFFFF]),
        Break::LiveNoRead => property.attribute = random.pick(&[0x2000, 0xE000, 0xFFFC]),
        Break::Step(sort) => {
            let (min, max, format) = random.pick(&[(0, 0, 0), (1, 64, 0x70FF), (0, 0, 0x8002), (0xFFFF_FFF9, 7, 0xF0FF)]);
            property.standard(min, max, format | (random.between(12, 15) as u16) << 8);
            property.attribute = sort.attribute() | random.pick(&[0, 0x1010, 0xC000]);
        }
        _ => {}
    }
}

fn break_texts(random: &Random, property: &mut DraftProperty, rule: Break) {
    match rule {
        Break::LabelCharacter => bad_character(random, &mut property.label),
        Break::TextCharacter => {
            let bad = random.pick(&[0x01, 0x1F, 0x7F, 0x80, 0xFF]);
            property.texts.insert(0, bad);
            if property.texts.len() > 160 {
                property.texts.remove(1);
            }
        }
        Break::LongLabel => property.label = vec![b'l'; random.between(24, 30)],
        Break::FewOptions => property.enumerated(2, b"a\0b\0".to_vec()),
        Break::ManyOptions => property.enumerated(2, b"a\0b\0c\0d\0".to_vec()),
        Break::LongOptions => property.enumerated(1, [vec![b'o'; 80], vec![0], vec![b'p'; 79], vec![0]].concat()),
        Break::LongUnit => {
            property.standard(0, 0, 0);
            property.texts = [vec![b'u'; random.between(160, 170)], vec![0]].concat();
        }
        _ => {}
    }
}

fn break_form(random: &Random, tree: &mut Vec<u8>, rule: Break) {
    match rule {
        Break::PastForm => tree.extend(random.pick(&[&[0][..], &[0x41, 0], &[0xFF], &[0; 40]])),
        Break::CutForm => tree.truncate(random.pick(&[tree.len() - 1, random.below(tree.len())])),
        Break::Counts => {
            let at = random.below(2);
            tree[at] = random.pick(&[tree[at] + 1, tree[at] - 1, 255, 65 + 64 * at as u8]);
        }
        Break::Short => tree.truncate(random.below(3)),
        _ => {}
    }
}

/// Moves a place of two bytes by one, or by much.
fn nudge(random: &Random, tree: &mut [u8], at: usize) {
    let place = u16::from_be_bytes([tree[at], tree[at + 1]]);
    let moved = place.wrapping_add(random.pick(&[1, 0xFFFF, 256, 0x8000]));
    tree[at..at + 2].copy_from_slice(&moved.to_be_bytes());
}

fn break_cells(random: &Random, cells: &mut Vec<u8>, rule: Break) {
    match rule {
        Break::CellShort => cells.truncate(cells.len() - 5),
        Break::CellMore => cells.extend([0; 5]),
        Break::CellPart => cells.truncate(cells.len() - random.between(1, 4)),
        _ => {}
    }
}
