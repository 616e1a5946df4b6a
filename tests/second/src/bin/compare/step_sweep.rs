//! Steps that are few enough to be given all: every code, in both types, signed or not, in properties of every sort; and values
//! about the ends of a range, about 0, about multiples of the step and about the limits of a word.
use crate::draft::{DraftProperty, Sort, SORTS};
use crate::input::{Call, Input, Lent};
use crate::random::Random;
use crate::requests::TRANSPORTS;
use crate::sheet_sweep::tree_of;
use crate::sheets::{number_of, range, setting, Page};
use crate::steps::{put_on_sheet, step, to_step, write};
use crate::tally::{Reason, Tally};
use crate::trees::check;
use std::collections::BTreeSet;

const SIGNED: u16 = 0x8000;
/// Every bit of the format but the sign and the step code.
const OTHERS: u16 = 0x70FF;

/// Ranges of settings that are signed, and that are not.
const SIGNED_RANGES: [(i64, i64); 13] = [
    (0, 0),
    (-7, 7),
    (1, 64),
    (-1, 0),
    (0, 1),
    (-10_000, -1),
    (-13, 9_987),
    (5_000, 5_000),
    (-0x8000_0000, 0x7FFF_FFFF),
    (-0x8000_0000, 0),
    (-0x8000_0000, -1),
    (0, 0x7FFF_FFFF),
    (-0x7FFF_FFFF, 0x7FFF_FFFE),
];
const UNSIGNED_RANGES: [(i64, i64); 10] = [
    (0, 0),
    (1, 64),
    (0, 1),
    (7, 10_007),
    (5_000, 5_000),
    (0, 0xFFFF_FFFF),
    (1, 0xFFFF_FFFF),
    (0x7FFF_FFFF, 0x8000_0000),
    (0x8000_0000, 0xFFFF_FFFF),
    (0xFFFF_FFF6, 0xFFFF_FFFF),
];
/// How far options go.
const MOST: [u32; 3] = [0, 1, 15];

pub fn run(random: &Random, tally: &mut Tally) {
    for format in (0..16).flat_map(|code| [code << 8, code << 8 | OTHERS]) {
        for sort in SORTS {
            for property in properties(format, sort) {
                give(random, tally, property, sort);
            }
        }
    }
}

/// Properties of a sort, of both types and with every range, whose format has these bits and the sign or not.
fn properties(format: u16, sort: Sort) -> Vec<DraftProperty> {
    let signed = SIGNED_RANGES.map(|(min, max)| setting((format | SIGNED, min, max), b"a"));
    let unsigned = UNSIGNED_RANGES.map(|(min, max)| setting((format, min, max), b"a"));
    let mut properties = [&signed[..], &unsigned].concat();
    for (max, format) in MOST.into_iter().flat_map(|max| [(max, format), (max, format | SIGNED)]) {
        let mut property = setting((format, 0, 0), b"a");
        property.enumerated(max, vec![0; max as usize + 1]);
        properties.push(property);
    }
    properties.iter_mut().for_each(|property| property.attribute = sort.attribute());
    properties
}

/// A tree of this property alone: broken by a code of type 1 that means nothing, and else sound.
fn give(random: &Random, tally: &mut Tally, property: DraftProperty, sort: Sort) {
    let broken = property.kind == 1 && property.format >> 8 & 15 >= 12;
    let page = Page::of(tree_of(vec![property.clone()]), |property| number_of(property, property.min));
    let cells = [&property.min.to_be_bytes()[..], &[1]].concat();
    check(tally, &page.tree, &cells, Some([u8::from(broken); 2]));
    if broken {
        refuse(tally, &page, &cells);
        tally.meet(Some(Reason::Code(sort)));
        return;
    }
    for (turn, value) in values(&property).into_iter().enumerate() {
        write(tally, &page, &cells, 0, value, TRANSPORTS[turn % TRANSPORTS.len()]);
        keep(tally, &page, value);
        if sort == Sort::Setting {
            put_on_sheet(random, tally, &page, 0, number_of(&property, value));
        }
    }
}

/// Over a broken tree no request is answered.
fn refuse(tally: &mut Tally, page: &Page, cells: &[u8]) {
    let bytes = &[0xB4, 5, 1, 1, 0, 0, 0, 0, 0];
    let input = Input { tree: &page.tree, cells, bytes, host: 1, room: 256, ..Input::of(Call::ServeData) };
    let seen = tally.compare(&input);
    tally.expect(seen.number == 1 && seen.lent == Lent::of(&input), "a step code that means nothing is refused", &input);
}

/// A stored word is read as it is, and a posted one is stored, on its step or not.
fn keep(tally: &mut Tally, page: &Page, word: u32) {
    let cells = [&word.to_be_bytes()[..], &[1]].concat();
    let attribute = page.draft.properties[0].attribute;
    let input = Input { tree: &page.tree, cells: &cells, value: word, ready: 1, ..Input::of(Call::Reading) };
    let seen = tally.compare(&input);
    let readable = seen.number == 0 && seen.fields[0] == u64::from(word);
    tally.expect(readable == (attribute & 1 == 1), "a stored word is read as it is", &input);
    tally.compare(&Input { call: Call::ServeData, bytes: &[0xB4, 3, 1, 1], host: 1, room: 256, ..input });
    let input = Input { call: Call::Post, cells: &[0, 0, 0, 3, 0], ..input };
    let posted = *tally.compare(&input).lent.cells == *cells;
    tally.expect(posted == (attribute & 0x2000 != 0), "a posted word is stored as it is", &input);
}

/// Words about both ends of the range, about its middle and about 0: multiples of the step, those beside them and the next ones.
fn values(property: &DraftProperty) -> BTreeSet<u32> {
    let (range, step) = (range(property), step(property));
    let (start, end) = (*range.start(), *range.end());
    let about = [start, end, 0, start + (end - start) / 2].map(|number| to_step(property, number));
    let multiples = about.into_iter().flat_map(|number| [number - step, number, number + step]);
    let limits = [start, end, -10, 0, 0x7FFF_FFFF, 0x8000_0000, 0xFFFF_FFFF];
    multiples.chain(limits).flat_map(|number| [number - 1, number, number + 1]).map(|number| number as u32).collect()
}
