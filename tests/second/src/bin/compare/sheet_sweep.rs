//! Sheets that are few enough to be given all: short strings, numbers about the limits, rooms, cuts, changed bytes and lines.
use crate::draft::{Draft, DraftProperty};
use crate::input::{Call, Input};
use crate::mistakes::{number_of, LARGE, MISSHAPEN};
use crate::random::Random;
use crate::sheets::{is_signed, read, read_as, setting, write, write_all, write_as, Page, RANGES};
use crate::sweep::each_change;
use crate::tally::Tally;
use second::{bench, SHEET_ROOM};

pub fn run(random: &Random, tally: &mut Tally) {
    short_sheets(tally, [0, 1]);
    short_sheets(tally, [1, 0]);
    for property in one_setting() {
        numbers(tally, &property);
        words(random, tally, &property);
    }
    bench_sheet(tally);
    longest(random, tally);
    every_place(random, tally);
}

/// A tree of one node.
pub fn tree_of(properties: Vec<DraftProperty>) -> Draft {
    Draft { nodes: vec![(0, Vec::new())], properties }
}

/// All strings of up to six of the bytes that a sheet turns on, and of up to eight that begin as the sheets do, for a signed and an
/// unsigned setting in this order. The good ones among them are counted by their numbers.
fn short_sheets(tally: &mut Tally, order: [usize; 2]) {
    let properties = order.map(|place| [setting((0x8000, -14, 41), b""), setting((0, 1, 14), b"a")][place].clone());
    let front = [&properties[0].label, &b"="[..]].concat();
    let tree = tree_of(properties.to_vec()).form();
    let mut accepted = 0;
    let mut give = |sheet: &[u8]| {
        accepted += usize::from(read(tally, &tree, &[0xFF, 0xFF, 0xFF, 0xFF, 1, 0, 0, 0, 2, 0], sheet).number == 0);
    };
    each_string(&front, LONGEST - front.len(), &mut give);
    each_string(b"", 6, |sheet| if !sheet.starts_with(&front) { give(sheet) });
    let pairs = (-14..=41).flat_map(|first| (1..=14).map(move |second| [format!("={first}\n"), format!("a={second}\n")]));
    let sheets = pairs.filter(|lines| is_short(&order.map(|place| &lines[place][..]).concat())).count();
    let input = Input { tree: &tree, ..Input::of(Call::ReadSheet) };
    tally.expect(accepted == sheets && sheets > 0, "so many short sheets are good", &input);
}

const LETTERS: [u8; 7] = *b"=-014\na";
const LONGEST: usize = 8;

fn is_short(sheet: &str) -> bool {
    sheet.len() <= LONGEST && sheet.bytes().all(|byte| LETTERS.contains(&byte))
}

/// Every string of up to so many letters behind this front.
fn each_string(front: &[u8], most: usize, mut give: impl FnMut(&[u8])) {
    for len in 0..=most {
        for mut number in 0..LETTERS.len().pow(len as u32) {
            let mut string = front.to_vec();
            for _ in 0..len {
                string.push(LETTERS[number % LETTERS.len()]);
                number /= LETTERS.len();
            }
            give(&string);
        }
    }
}

/// Settings of every kind of range; of type 2 with and without the format of a signed one.
fn one_setting() -> Vec<DraftProperty> {
    let mut properties: Vec<DraftProperty> = RANGES.iter().map(|range| setting(*range, b"a")).collect();
    for (format, max) in [(0, 0), (0x8000, 0), (0x1080, 1), (0x9080, 1), (0xFFFF, 15), (0x0200, 15)] {
        let mut property = setting((format, 0, 0), b"a");
        property.enumerated(max, vec![0; max as usize + 1]);
        properties.push(property);
    }
    properties
}

/// Numbers about 0 and the powers of two, in multiples of 2^32 and 2^64, of equal digits, and what is none.
fn numbers(tally: &mut Tally, property: &DraftProperty) {
    let tree = tree_of(vec![property.clone()]).form();
    let mut give = |text: &str, number: u8| {
        read_as(tally, &tree, &[0, 0, 0, 1, 1], format!("a={text}\n").as_bytes(), number);
    };
    for power in [0, 7, 8, 15, 16, 30, 31, 32, 33, 34, 62, 63, 64, 65, 96, 120] {
        let about = (-70..=140).flat_map(|offset| [(1_i128 << power) + offset, -(1_i128 << power) - offset]);
        about.for_each(|number| give(&number.to_string(), number_of(property, number)));
    }
    for multiple in -100..=100 {
        for number in [0, 1, 4, 15, 64].into_iter().flat_map(|low| [(multiple << 32) + low, (multiple << 64) + low]) {
            give(&number.to_string(), number_of(property, number));
        }
    }
    for text in (1..=9).flat_map(|digit| (1..=38).map(move |count| digit.to_string().repeat(count))) {
        give(&text, number_of(property, text.parse().unwrap()));
        give(&format!("-{text}"), number_of(property, -text.parse::<i128>().unwrap()));
    }
    let minus = if is_signed(property) { 18 } else { 17 };
    LARGE.iter().for_each(|text| give(text, 18));
    LARGE.iter().for_each(|text| give(&format!("-{text}"), minus));
    MISSHAPEN.iter().for_each(|text| give(text, 17));
}

/// Words of every length, and those in range as they are on a sheet.
fn words(random: &Random, tally: &mut Tally, property: &DraftProperty) {
    let draft = tree_of(vec![property.clone()]);
    let powers = (0..10).map(|power| 10_u32.pow(power)).chain((0..32).map(|power| 1 << power));
    for word in powers.flat_map(|power| [power, power - 1, power.wrapping_neg(), power.wrapping_neg() - 1]) {
        let number = if is_signed(property) { i64::from(word as i32) } else { i64::from(word) };
        if number_of(property, number.into()) == 0 {
            write_all(random, tally, &Page::of(draft.clone(), |_| number));
        } else {
            write(tally, &draft.form(), &[&word.to_be_bytes()[..], &[1]].concat(), SHEET_ROOM);
        }
    }
}

/// The bench tree's sheet, each byte changed to each other, and cut at each place.
fn bench_sheet(tally: &mut Tally) {
    let tree = bench::tree().write();
    let sheet = b"Average=4\nRate=0\n";
    each_change(sheet, |changed| drop(read(tally, &tree, &bench::CELLS, changed)));
    (0..sheet.len()).for_each(|end| read_as(tally, &tree, &bench::CELLS, &sheet[..end], 17));
}

/// The longest sheet there is.
fn longest(random: &Random, tally: &mut Tally) {
    let page = Page::of(Draft::of(&bench::settings()), |_| i32::MIN.into());
    let cells = bench::settings_cells();
    write_all(random, tally, &page);
    for room in SHEET_ROOM - 40..=SHEET_ROOM + 1 {
        let input = Input { tree: &page.tree, cells: &cells, room, ..Input::of(Call::WriteSheet) };
        let seen = tally.compare(&input);
        let same = seen.number == if room < SHEET_ROOM { 8 } else { 0 } && seen.fields[0] == SHEET_ROOM as u64;
        tally.expect(same, "the longest sheet takes 4608 bytes", &input);
    }
    read_as(tally, &page.tree, &[0; 640], &page.sheet, 0);
    for end in 0..page.sheet.len() {
        read_as(tally, &page.tree, &[0; 640], &page.sheet[..end], 17);
    }
}

const COUNT: usize = 128;

/// So many settings in steps of 5, and something amiss at each of them by turns.
fn every_place(random: &Random, tally: &mut Tally) {
    let labels = (0..COUNT).map(|place| format!("p{place}"));
    let draft = tree_of(labels.map(|label| setting((0x8200, -40, 125), label.as_bytes())).collect());
    let page = Page::of(draft, |_| -40);
    for place in 0..COUNT {
        amiss_on_sheet(tally, &page, place);
        amiss_in_cells(random, tally, &page, place);
        amiss_in_labels(random, tally, &page, place);
        no_setting(random, tally, &page, place);
    }
}

fn amiss_on_sheet(tally: &mut Tally, page: &Page, place: usize) {
    for (text, number) in [("125", 0), ("124", 18), ("126", 18), ("-41", 18), (LARGE[0], 18), ("-0", 17), ("", 17)] {
        let mut texts = page.texts();
        texts[place] = text.to_string();
        let mut lines = page.lines(&texts);
        read_as(tally, &page.tree, &[0; 5 * COUNT], &lines.concat(), number);
        lines[(place + 1) % COUNT][0] = b'P';
        read_as(tally, &page.tree, &[0; 5 * COUNT], &lines.concat(), 17);
    }
}

fn amiss_in_cells(random: &Random, tally: &mut Tally, page: &Page, place: usize) {
    for (word, number) in [(125, 0), (124, 18), (126, 18), (-41, 18), (i32::MIN, 18)] {
        let mut cells = page.cells(random);
        cells[5 * place..5 * place + 4].copy_from_slice(&word.to_be_bytes());
        write_as(tally, &page.tree, &cells, number);
    }
}

/// A label with a `=`, or that of the next setting, the first, the last or any.
fn amiss_in_labels(random: &Random, tally: &mut Tally, page: &Page, place: usize) {
    let others = [(place + 1) % COUNT, 0, COUNT - 1, random.below(COUNT)];
    let labels = others.into_iter().filter(|other| *other != place).map(|other| page.draft.properties[other].label.clone());
    for label in labels.chain([b"=".to_vec(), b"p=".to_vec()]) {
        let mut draft = page.draft.clone();
        draft.properties[place].label = label;
        let tree = draft.form();
        write_as(tally, &tree, &page.cells(random), 17);
        read_as(tally, &tree, &page.cells(random), &page.sheet, 17);
    }
}

/// A property that is no setting has no line, and its label and word do not count.
fn no_setting(random: &Random, tally: &mut Tally, page: &Page, place: usize) {
    for attribute in [0x2001, 2, 1, 0] {
        let mut draft = page.draft.clone();
        draft.properties[place].attribute = attribute;
        draft.properties[place].label = random.pick(&[&b"p0"[..], b"p127", b"=", b""]).to_vec();
        let less = Page::of(draft, |_| 125);
        write_all(random, tally, &less);
        read_as(tally, &less.tree, &page.cells(random), &less.sheet, 0);
        read_as(tally, &less.tree, &page.cells(random), &page.sheet, 17);
    }
}
