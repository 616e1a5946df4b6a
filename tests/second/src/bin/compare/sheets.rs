//! Settings on a sheet: drawn trees whose sheets are written and read, and trees and cells that stand in the way of that.
use crate::draft::{broken, Draft, DraftProperty, BREAKS};
use crate::input::{Call, Input, Lent, Seen};
use crate::mistakes;
use crate::random::Random;
use crate::steps;
use crate::tally::Tally;
use second::{sheet, SHEET_ROOM};
use std::ops::RangeInclusive;

/// Labels that are parts of one another, or look like numbers.
const LABELS: [&[u8]; 20] = [
    b"", b" ", b"  ", b"-", b"-4", b"0", b"4", b"40", b"A", b"AB", b"ABC", b"a", b"Average", b"average", b"Average ",
    b" Average", b"ABCDEFGHIJKLMNOPQRSTUV", b"ABCDEFGHIJKLMNOPQRSTUVW", b"ABCDEFGHIJKLMNOPQRSTUVX", b"form",
];

const SIGNED: u16 = 0x8000;

/// Format, min and max of settings of type 1: in steps of 1, and the last eight in others.
pub const RANGES: [(u16, i64, i64); 24] = [
    (0, 0, 0),
    (0x70FF, 0, 0),
    (SIGNED, 0, 0),
    (0xF0FF, 0, 0),
    (0, 1, 64),
    (SIGNED, 1, 64),
    (SIGNED, -40, 125),
    (SIGNED, -5, -1),
    (SIGNED, -4, -4),
    (SIGNED, -1, 0),
    (SIGNED, -0x8000_0000, 0),
    (SIGNED, -0x8000_0000, 0x7FFF_FFFF),
    (0, 0, 9),
    (0, 10, 99),
    (0, 0, 0xFFFF_FFFF),
    (0, 0x8000_0000, 0xFFFF_FFFF),
    (0x7BFF, 0, 0),
    (0xFBFF, 0, 0),
    (0x8200, 0, 0),
    (0x8200, -7, 7),
    (0x0200, 1, 64),
    (0x8400, -40, 125),
    (0x8800, -0x8000_0000, 0x7FFF_FFFF),
    (0x0A00, 1, 0xFFFF_FFFF),
];

/// Numbers at which the count of digits changes, and others.
const TELLING: [i64; 14] = [0, 1, 4, 9, 10, 99, 100, 999_999_999, 1_000_000_000, -1, -9, -10, -99, -1_000_000_000];

/// Attributes: of settings mostly; live, action, read only, neither.
const ATTRIBUTES: [u16; 10] = [3, 3, 3, 3, 3, 0x2001, 0x2001, 2, 1, 0];

pub fn is_setting(property: &DraftProperty) -> bool {
    property.attribute & 3 == 3
}

pub fn is_signed(property: &DraftProperty) -> bool {
    property.kind == 1 && property.format & SIGNED != 0
}

/// The numbers that a setting may have.
pub fn range(property: &DraftProperty) -> RangeInclusive<i64> {
    match (property.kind, is_signed(property), property.min, property.max) {
        (1, true, 0, 0) => i32::MIN.into()..=i32::MAX.into(),
        (1, false, 0, 0) => 0..=u32::MAX.into(),
        (1, true, min, max) => i64::from(min as i32)..=i64::from(max as i32),
        (_, _, min, max) => i64::from(min)..=i64::from(max),
    }
}

pub fn number_of(property: &DraftProperty, word: u32) -> i64 {
    if is_signed(property) {
        i64::from(word as i32)
    } else {
        i64::from(word)
    }
}

/// A number in the range of a setting and on its step.
fn number(random: &Random, property: &DraftProperty) -> i64 {
    let range = range(property);
    let telling = random.pick(&TELLING);
    let number = match random.below(4) {
        0 => *range.start(),
        1 => *range.end(),
        2 if range.contains(&telling) => telling,
        _ => steps::any(random, property),
    };
    steps::to_step(property, number)
}

pub fn setting((format, min, max): (u16, i64, i64), label: &[u8]) -> DraftProperty {
    let (min, max) = (min as u32, max as u32);
    DraftProperty { node: 0, kind: 1, min, max, attribute: 3, format, label: label.to_vec(), texts: vec![0] }
}

/// So many labels that differ and can be written, in any order.
fn labels(random: &Random, count: usize) -> Vec<Vec<u8>> {
    let mut labels: Vec<Vec<u8>> = match random.below(5) {
        0 if count <= LABELS.len() => LABELS.map(<[u8]>::to_vec).to_vec(),
        1 if count <= 24 => (0..24).map(|len| vec![b'x'; len]).collect(),
        2 => (0..count).map(|place| format!("{place:x>23}").into_bytes()).collect(),
        3 => (0..count).map(|place| format!("{place:x<23}").into_bytes()).collect(),
        _ => (0..count).map(|place| format!("p{place}").into_bytes()).collect(),
    };
    for place in 1..labels.len() {
        labels.swap(place, random.below(place + 1));
    }
    labels
}

/// Puts a `=` into a label.
fn put_equals(random: &Random, label: &mut Vec<u8>) {
    let at = random.pick(&[0, random.below(label.len() + 1), label.len()]);
    label.insert(at, b'=');
    label.truncate(23);
    if !label.contains(&b'=') {
        label[22] = b'=';
    }
}

/// A property of any kind, with short texts.
fn property(random: &Random, nodes: usize) -> DraftProperty {
    let mut property = DraftProperty::draw(random, nodes);
    property.attribute = random.pick(&ATTRIBUTES) | random.pick(&[0, 0x1010, 0xC000]);
    if property.kind == 1 && random.once_in(2) {
        property = DraftProperty { node: property.node, attribute: property.attribute, ..setting(random.pick(&RANGES), b"") };
    }
    property.texts = vec![0; if property.kind == 2 { property.max as usize + 1 } else { 1 }];
    property
}

/// A tree whose settings can be written, a number for each of them, and the sheet of these.
pub struct Page {
    pub draft: Draft,
    pub tree: Vec<u8>,
    pub numbers: Vec<i64>,
    pub sheet: Vec<u8>,
}

impl Page {
    /// Of any tree whose settings can be written.
    pub fn of(draft: Draft, number: impl Fn(&DraftProperty) -> i64) -> Page {
        let numbers = draft.properties.iter().filter(|property| is_setting(property)).map(number).collect();
        let mut page = Page { tree: draft.form(), draft, numbers, sheet: Vec::new() };
        page.sheet = page.lines(&page.texts()).concat();
        page
    }

    /// Labels of what is no setting may have a `=`, or be those of settings.
    fn draw(random: &Random) -> Page {
        let nodes = random.pick(&[1, 1, 2, 5]);
        let count = random.pick(&[0, 1, 2, 2, 3, 3, 4, 5, 8, 8, 20, random.below(129)]);
        let labels = labels(random, count);
        let mut draft = Draft { nodes: vec![(0, b"Box".to_vec()); nodes], properties: Vec::new() };
        for label in &labels[..count] {
            let mut property = property(random, nodes);
            property.label = label.clone();
            if !is_setting(&property) && random.once_in(2) {
                property.label = labels[random.below(count)].clone();
            } else if !is_setting(&property) && random.once_in(2) {
                put_equals(random, &mut property.label);
            }
            draft.properties.push(property);
        }
        Page::of(draft, |property| number(random, property))
    }

    /// The settings, each with its place.
    pub fn settings(&self) -> Vec<(usize, &DraftProperty)> {
        self.draft.properties.iter().enumerate().filter(|(_, property)| is_setting(property)).collect()
    }

    /// The numbers as they are written.
    pub fn texts(&self) -> Vec<String> {
        self.numbers.iter().map(i64::to_string).collect()
    }

    /// The lines of a sheet with these texts for numbers.
    pub fn lines(&self, texts: &[String]) -> Vec<Vec<u8>> {
        let line = |((_, property), text): (&(usize, &DraftProperty), &String)| {
            [&property.label, &b"="[..], text.as_bytes(), b"\n"].concat()
        };
        self.settings().iter().zip(texts).map(line).collect()
    }

    /// Cells whose settings hold the numbers; all else is any.
    pub fn cells(&self, random: &Random) -> Vec<u8> {
        self.stored(&self.draft.cells(random))
    }

    /// These cells, with the numbers put in.
    fn stored(&self, cells: &[u8]) -> Vec<u8> {
        let mut cells = cells.to_vec();
        for ((place, _), number) in self.settings().iter().zip(&self.numbers) {
            cells[5 * place..5 * place + 4].copy_from_slice(&(*number as u32).to_be_bytes());
        }
        cells
    }
}

pub fn write(tally: &mut Tally, tree: &[u8], cells: &[u8], room: usize) -> Seen {
    tally.compare(&Input { tree, cells, room, ..Input::of(Call::WriteSheet) })
}

/// Writing gives this number, whatever the room.
fn write_refused(random: &Random, tally: &mut Tally, tree: &[u8], cells: &[u8], number: u8) {
    for room in [0, random.below(100), SHEET_ROOM] {
        let input = Input { tree, cells, room, ..Input::of(Call::WriteSheet) };
        let seen = tally.compare(&input);
        let same = seen.number == number && seen.fields[0] == 0 && seen.lent == Lent::of(&input);
        tally.expect(same, "a sheet that cannot be written is refused", &input);
    }
}

/// A sheet is read. A refusal changes no cell; what is accepted is what would be written.
pub fn read(tally: &mut Tally, tree: &[u8], cells: &[u8], bytes: &[u8]) -> Seen {
    let input = Input { tree, cells, bytes, ..Input::of(Call::ReadSheet) };
    let seen = tally.compare(&input);
    if seen.number != 0 {
        tally.expect(*seen.lent.cells == *cells, "a refused sheet changes no cell", &input);
        return seen;
    }
    let again = write(tally, tree, &seen.lent.cells, bytes.len());
    tally.expect(again.number == 0 && *again.lent.out == *bytes, "a sheet that is read is written again", &input);
    seen
}

/// Reading gives this number.
pub fn read_as(tally: &mut Tally, tree: &[u8], cells: &[u8], bytes: &[u8], number: u8) {
    let seen = read(tally, tree, cells, bytes);
    let input = Input { tree, cells, bytes, ..Input::of(Call::ReadSheet) };
    tally.expect(seen.number == number, &format!("reading the sheet gives {number}"), &input);
}

/// Writing gives this number, with room for every sheet.
pub fn write_as(tally: &mut Tally, tree: &[u8], cells: &[u8], number: u8) {
    let input = Input { tree, cells, room: SHEET_ROOM, ..Input::of(Call::WriteSheet) };
    let seen = tally.compare(&input);
    tally.expect(seen.number == number, &format!("writing the sheet gives {number}"), &input);
}

/// For any tree and cells, mostly broken ones: written, and its sheet or another one read.
pub fn near(tally: &mut Tally, tree: &[u8], cells: &[u8]) {
    let mut out = [0; SHEET_ROOM];
    let written = sheet::write(tree, cells, &mut out);
    write(tally, tree, cells, if written.number == 0 { written.len } else { 40 });
    read(tally, tree, cells, if written.number == 0 { &out[..written.len] } else { b"p0=4\n" });
}

pub fn run(random: &Random, tally: &mut Tally, round: usize) {
    let page = Page::draw(random);
    write_all(random, tally, &page);
    restore(random, tally, &page);
    mistakes::run(random, tally, &page);
    steps::run(random, tally, &page);
    spoil_word(random, tally, &page);
    let spoilt = spoil_label(random, tally, &page);
    break_one(random, tally, &page, round);
    if let Some(draft) = spoilt {
        break_one(random, tally, &Page { draft, ..page }, round);
    }
}

/// Every kind of room. Words and marks of what is no setting are others each time.
pub fn write_all(random: &Random, tally: &mut Tally, page: &Page) {
    let len = page.sheet.len();
    let less = [0, len.saturating_sub(1), random.below(len + 1)];
    let more = [len, len + 1, len + random.below(40), SHEET_ROOM, SHEET_ROOM + random.below(300)];
    for room in less.into_iter().chain(more) {
        let cells = page.cells(random);
        let input = Input { tree: &page.tree, cells: &cells, room, ..Input::of(Call::WriteSheet) };
        let seen = tally.compare(&input);
        let mut lent = Lent::of(&input);
        if room >= len {
            lent.out[..len].copy_from_slice(&page.sheet);
        }
        let number = if room < len { 8 } else { 0 };
        let same = seen.number == number && seen.fields[0] == len as u64 && seen.lent == lent;
        tally.expect(same, "the sheet has a line for each setting", &input);
    }
}

/// What was written restores every setting and nothing else, from any cells.
fn restore(random: &Random, tally: &mut Tally, page: &Page) {
    let written = write(tally, &page.tree, &page.cells(random), page.sheet.len());
    for _ in 0..2 {
        let others = page.draft.cells(random);
        let seen = read(tally, &page.tree, &others, &written.lent.out);
        let input = Input { tree: &page.tree, cells: &others, bytes: &written.lent.out, ..Input::of(Call::ReadSheet) };
        let same = seen.number == 0 && *seen.lent.cells == page.stored(&others)[..];
        tally.expect(same, "what was written restores every setting", &input);
    }
}

/// A word that lies outside its range or off its step, in one setting of those that have such.
fn spoil_word(random: &Random, tally: &mut Tally, page: &Page) {
    let settings = page.settings();
    if settings.is_empty() {
        return;
    }
    let (place, property) = random.pick(&settings);
    let (start, end) = (*range(property).start() as u32, *range(property).end() as u32);
    let words = [start.wrapping_sub(1), end.wrapping_add(1), 0, 0x8000_0000, random.word(), steps::near(random, property) as u32];
    let mut cells = page.cells(random);
    let refused = |word: &u32| mistakes::number_of(property, number_of(property, *word).into()) != 0;
    for word in words.into_iter().filter(refused) {
        cells[5 * place..5 * place + 4].copy_from_slice(&word.to_be_bytes());
        write_refused(random, tally, &page.tree, &cells, 18);
        read_as(tally, &page.tree, &cells, &page.sheet, 0);
    }
}

/// A setting's label with a `=`, or that of another setting: 17, whatever the words, the room and the sheet.
fn spoil_label(random: &Random, tally: &mut Tally, page: &Page) -> Option<Draft> {
    let settings = page.settings();
    if settings.is_empty() {
        return None;
    }
    let at = random.below(settings.len());
    let other = settings[random.below(settings.len())].1.label.clone();
    let mut draft = page.draft.clone();
    let label = &mut draft.properties[settings[at].0].label;
    if *label == other {
        put_equals(random, label);
    } else {
        *label = other;
    }
    let spoilt = Page::of(draft, |property| number(random, property));
    let cells = [spoilt.cells(random), spoilt.draft.cells(random)];
    for cells in &cells {
        write_refused(random, tally, &spoilt.tree, cells, 17);
        for sheet in [&page.sheet[..], &spoilt.sheet, b"", b"A=1\n"] {
            read_as(tally, &spoilt.tree, cells, sheet, 17);
        }
    }
    Some(spoilt.draft)
}

/// A tree or cells that break a rule: 1, whatever the labels and the sheet.
fn break_one(random: &Random, tally: &mut Tally, page: &Page, round: usize) {
    let (tree, cells) = broken(random, &page.draft, BREAKS[round % BREAKS.len()]);
    write_refused(random, tally, &tree, &cells, 1);
    for sheet in [&page.sheet[..], b"A=1\n", b"A=1", b"A", b""] {
        read_as(tally, &tree, &cells, sheet, 1);
    }
}
