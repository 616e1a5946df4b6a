//! Steps (document 02, section 6): values written to properties of every sort, and numbers and words of sheets, on their step and
//! beside it. What comes of each is worked out by another road as well: from the draft of the tree, by whole numbers.
use crate::draft::DraftProperty;
use crate::input::{Input, Lent};
use crate::mistakes;
use crate::random::Random;
use crate::requests::{self, Transport};
use crate::sheets::{number_of, range, read_as, write_as, Page};
use crate::tally::{Reason, Tally};

const ADDRESS: u8 = 0x10;
/// Values written to each drawn tree, and numbers put on its sheet.
const WRITES: usize = 8;
const NUMBERS: usize = 4;

/// The step of a property: 1, 2 or 5 times a power of ten. Type 2 has none, so that every number is on it.
pub fn step(property: &DraftProperty) -> i64 {
    let code = u32::from(property.format / 256 % 16);
    match property.kind {
        1 => [1, 2, 5][code as usize % 3] * 10_i64.pow(code / 3),
        _ => 1,
    }
}

/// How far a number is beyond a multiple of the step, counted from min, which is 0 where there is no range.
fn beyond(property: &DraftProperty, number: i64) -> i64 {
    (number - number_of(property, property.min)) % step(property)
}

pub fn is_on_step(property: &DraftProperty, number: i64) -> bool {
    beyond(property, number) == 0
}

/// A number of the range brought to its step, towards min.
pub fn to_step(property: &DraftProperty, number: i64) -> i64 {
    number - beyond(property, number)
}

/// Any number of the range.
pub fn any(random: &Random, property: &DraftProperty) -> i64 {
    let range = range(property);
    range.start() + (random.next() % (range.end() - range.start() + 1) as u64) as i64
}

/// A number on the step or beside it: about an end of the range, about 0, or anywhere in the range.
pub fn near(random: &Random, property: &DraftProperty) -> i64 {
    let (range, step) = (range(property), step(property));
    let about = random.pick(&[*range.start(), *range.end(), 0, any(random, property)]);
    to_step(property, about) + random.pick(&[0, 0, 0, step, -step]) + random.pick(&[0, 0, 1, -1])
}

/// Whether nothing but the step stands in the way of a number.
fn is_only_off_step(property: &DraftProperty, number: i64) -> bool {
    range(property).contains(&number) && !is_on_step(property, number)
}

/// Save and text of a value that is written.
fn outcome(property: &DraftProperty, value: u32) -> (u8, &'static [u8]) {
    let number = number_of(property, value);
    match property.attribute & 3 {
        0 | 1 => (0, b"Read only"),
        2 => (2, b""),
        _ if !range(property).contains(&number) => (0, b"Range"),
        _ if !is_on_step(property, number) => (0, b"Step"),
        _ => (1, b""),
    }
}

/// The reason of what becomes of a write, where it is one of those that must be met.
fn reason(property: &DraftProperty, value: u32, op: u8) -> Option<Reason> {
    let off = !is_on_step(property, number_of(property, value));
    match outcome(property, value) {
        (0, b"Step") if op == 4 => Some(Reason::Step),
        (0, b"Step") => Some(Reason::StepText),
        (0, b"Range") if op == 5 && off => Some(Reason::RangeBeforeStep),
        (2, _) if off => Some(Reason::ActionOffStep),
        _ => None,
    }
}

/// A value written to the property at a place, by ops 4 and 5: number, reply, cells and action are by the draft.
pub fn write(tally: &mut Tally, page: &Page, cells: &[u8], place: usize, value: u32, transport: Transport) {
    let property = &page.draft.properties[place];
    let (save, text) = outcome(property, value);
    let (number, action) = [(13, 255), (0, 255), (0, place as u64)][usize::from(save)];
    let (call, room) = transport.call();
    for op in [4, 5] {
        let data = [&[0xB4, op], &page.draft.target(place)[..], &[0], &value.to_be_bytes()].concat();
        let text = if op == 5 { [text, &[0]].concat() } else { Vec::new() };
        let reply = transport.carry(&[&data[..], &[save], &text].concat(), ADDRESS);
        let bytes = transport.carry(&data, ADDRESS);
        let input = Input { tree: &page.tree, cells, bytes: &bytes, address: ADDRESS, host: 1, room, ..Input::of(call) };
        let mut lent = Lent::of(&input);
        lent.out[..reply.len()].copy_from_slice(&reply);
        if save == 1 {
            lent.cells[5 * place..5 * place + 4].copy_from_slice(&value.to_be_bytes());
        }
        let seen = tally.compare(&input);
        let same = seen.number == number && seen.fields[..3] == [reply.len() as u64, action, 0] && seen.lent == lent;
        tally.expect(same, "a write is judged by Read only, Range and Step", &input);
        tally.meet(reason(property, value, op));
    }
}

/// A number put on a sheet for one of the settings, and its word put into the cells of which a sheet is written.
pub fn put_on_sheet(random: &Random, tally: &mut Tally, page: &Page, at: usize, number: i64) {
    let (place, property) = page.settings()[at];
    let mut texts = page.texts();
    texts[at] = number.to_string();
    let sheet = page.lines(&texts).concat();
    read_as(tally, &page.tree, &page.draft.cells(random), &sheet, mistakes::number_of(property, number.into()));
    tally.meet(is_only_off_step(property, number).then_some(Reason::SheetRead));
    let mut cells = page.cells(random);
    cells[5 * place..5 * place + 4].copy_from_slice(&(number as u32).to_be_bytes());
    let stored = number_of(property, number as u32);
    write_as(tally, &page.tree, &cells, mistakes::number_of(property, stored.into()));
    tally.meet(is_only_off_step(property, stored).then_some(Reason::SheetWritten));
}

pub fn run(random: &Random, tally: &mut Tally, page: &Page) {
    let count = page.draft.properties.len();
    for _ in 0..if count == 0 { 0 } else { WRITES } {
        let place = random.below(count);
        let value = page.draft.value(random, place);
        write(tally, page, &page.draft.cells(random), place, value, requests::transport(random));
    }
    let settings = page.settings();
    for _ in 0..if settings.is_empty() { 0 } else { NUMBERS } {
        let at = random.below(settings.len());
        put_on_sheet(random, tally, page, at, near(random, settings[at].1));
    }
}
