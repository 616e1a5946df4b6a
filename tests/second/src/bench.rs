//! The bench tree, the largest one, and the one with the longest sheet.
use crate::tree::{Node, Property, Tree};

fn probe(label: &'static [u8]) -> Property<'static> {
    Property { node: 1, kind: 1, min: 0, max: 0, attribute: 0x2001, format: 0x8002, label, texts: b"C\0" }
}

/// Document 01's bench tree.
pub fn tree() -> Tree<'static> {
    let setup = Property { node: 2, kind: 1, min: 0, max: 0, attribute: 2, format: 0, label: b"Restart", texts: b"\0" };
    let average = Property { min: 1, max: 64, attribute: 3, label: b"Average", ..setup.clone() };
    let rate = Property { kind: 2, max: 1, attribute: 3, format: 0x1080, label: b"Rate", texts: b"Slow\0Fast\0", ..setup.clone() };
    Tree {
        nodes: [&b"Box"[..], b"Live", b"Setup"].map(|name| Node { parent: 0, name }).to_vec(),
        properties: vec![probe(b"Probe 1"), probe(b"Probe 2"), average, rate, setup],
    }
}

/// The cells where each case starts: 2100 ready; 8500 not ready; 4; 0; 0.
pub const CELLS: [u8; 25] = [
    0, 0, 0x08, 0x34, 1, 0, 0, 0x21, 0x34, 0, 0, 0, 0, 4, 0, 0, 0, 0, 0, 0, 0, 0, 0, 0, 0,
];

const LONG_NAME: &[u8] = b"ABCDEFGHIJKLMNOPQRSTUVW";
/// 16 options of 9 characters.
const LONG_TEXTS: [u8; 160] = {
    let mut texts = [b'o'; 160];
    let mut at = 9;
    while at < 160 {
        texts[at] = 0;
        at += 10;
    }
    texts
};

/// 64 nodes down to depth 16 and 128 properties, all texts as long as they may be: 27330 bytes. Properties are live, settings
/// and actions by turns.
pub fn largest() -> Tree<'static> {
    let parent = |place: u8| if place < 16 { place.saturating_sub(1) } else { place % 15 };
    let attribute = |place: u8| [0x2001, 0x0003, 0x0002][usize::from(place % 3)];
    let property = |place: u8| Property {
        node: 63 - place / 2,
        kind: 2,
        min: 0,
        max: 15,
        attribute: attribute(place),
        format: 0x1080,
        label: LONG_NAME,
        texts: &LONG_TEXTS,
    };
    Tree {
        nodes: (0..64).map(|place| Node { parent: parent(place), name: LONG_NAME }).collect(),
        properties: (0..128).map(property).collect(),
    }
}

/// 23 characters each, which differ in the last two alone, in no order.
const LONG_LABELS: [[u8; 23]; 128] = {
    let mut labels = [[b'L'; 23]; 128];
    let mut place = 0;
    while place < 128 {
        let turn = (37 * place % 128) as u8;
        labels[place][21] = b'A' + turn / 16;
        labels[place][22] = b'A' + turn % 16;
        place += 1;
    }
    labels
};
/// A unit of 159 characters.
const LONG_UNIT: [u8; 160] = {
    let mut unit = [b'u'; 160];
    unit[159] = 0;
    unit
};

/// The nodes of the largest tree, and 128 signed settings without a range, all texts as long as they may be: 27330 bytes.
pub fn settings() -> Tree<'static> {
    let setting = |label: &'static [u8; 23]| Property {
        node: 63,
        kind: 1,
        min: 0,
        max: 0,
        attribute: 0x0003,
        format: 0x8000,
        label,
        texts: &LONG_UNIT,
    };
    Tree { nodes: largest().nodes, properties: LONG_LABELS.iter().map(setting).collect() }
}

/// Cells of these settings, each with the number that is longest on a sheet, -2147483648.
pub fn settings_cells() -> Vec<u8> {
    [0x80, 0, 0, 0, 0].repeat(128)
}
