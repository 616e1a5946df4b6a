//! Mistakes in a sheet, one or two at a time: shape (17) before range (18), wherever they stand.
use crate::draft::DraftProperty;
use crate::random::Random;
use crate::sheets::{is_setting, is_signed, range, read, read_as, Page};
use crate::steps;
use crate::tally::Tally;

/// No numbers, for any setting.
pub const MISSHAPEN: [&str; 42] = [
    "", "-", "--", "-0", "00", "-00", "000", "04", "-04", "+4", "+0", "+", " 4", "4 ", "- 4", "-4 ", " -4", "--4", "4-", "4-4",
    "-4-", "4+", "0 ", "4.0", "4,0", "4e0", "0x4", "4A", "A", "4=", "=4", "4=4", "4\r", "\r4", "4\0", "\0", "4\t", "1_000", "\u{FF14}",
    "0000000000000000000000000000000000000004", "-0000000000000000000000000000000000000004", "04294967300",
];

/// Beyond 32 bits; small, or within 32 bits, where high bits are lost.
pub const LARGE: [&str; 19] = [
    "4294967296",
    "4294967297",
    "4294967300",
    "4294967336",
    "8589934592",
    "10000000000",
    "42949672960",
    "99999999999",
    "9223372036854775807",
    "9223372036854775808",
    "9223372036854775812",
    "18446744073709551615",
    "18446744073709551616",
    "18446744073709551620",
    "36893488147419103236",
    "79228162514264337593543950340",
    "340282366920938463463374607431768211460",
    "1000000000000000000000000000000000000004",
    "9999999999999999999999999999999999999999",
];

/// Bytes put in the place of others.
const BYTES: [u8; 20] = [
    0x00, 0x09, b'\n', b'\r', b' ', b'+', b'-', b'.', b'/', b'0', b'1', b'9', b':', b'=', b'A', b'a', 0x7F, 0x80, 0xB4, 0xFF,
];

/// Nothing of these is the empty sheet.
const NOT_EMPTY: [&[u8]; 8] = [b"\n", b"=0\n", b"A=4\n", b" ", b"\0", b"=", b"0", b"form=2\n"];

/// A change to the lines of a sheet, at one of them, with another one at hand. All but an exchange of a line with itself spoil the
/// shape.
type Edit = fn(&mut Vec<Vec<u8>>, usize, usize);

const EDITS: [Edit; 14] = [
    |lines, at, _| drop(lines.remove(at)),
    |lines, at, _| lines.insert(at, lines[at].clone()),
    |lines, at, other| lines.insert(other, lines[at].clone()),
    |lines, at, other| lines.swap(at, other),
    |lines, at, other| exchange_labels(lines, at, other),
    |lines, at, _| lines.truncate(at),
    |lines, _, _| lines.clear(),
    |lines, _, _| lines.extend(lines.clone()),
    |lines, at, _| lines.insert(at, b"\n".to_vec()),
    |lines, _, _| lines.push(b"\n".to_vec()),
    |lines, _, _| lines.push(b"\0".to_vec()),
    |lines, _, _| lines.push(b"Behind=4\n".to_vec()),
    |lines, _, _| lines.insert(0, b"form=2\n".to_vec()),
    |lines, _, _| cut_end(lines.last_mut().unwrap()),
];

/// A change to one line, which spoils the shape.
type LineEdit = fn(&mut Vec<u8>);

const LINE_EDITS: [LineEdit; 17] = [
    // its end
    |line| cut_end(line),
    |line| *line.last_mut().unwrap() = b'\r',
    |line| line.push(b' '),
    |line| line.insert(line.len() - 1, b'\r'),
    |line| line.insert(line.len() - 1, b'\n'),
    |line| line.insert(line.len() - 1, b' '),
    // its label
    |line| line.insert(0, b' '),
    |line| line[0] = 0,
    |line| cut_front(line),
    |line| line[0] ^= 0x20,
    |line| change_case(line),
    |line| line.insert(equals(line), b' '),
    |line| line.insert(equals(line), b'x'),
    // its `=`
    |line| line.insert(equals(line), b'='),
    |line| replace_equals(line, b':'),
    |line| line.insert(equals(line) + 1, b' '),
    |line| line.retain(|byte| *byte != b'='),
];

fn cut_end(line: &mut Vec<u8>) {
    line.pop();
}

fn cut_front(line: &mut Vec<u8>) {
    line.remove(0);
}

fn replace_equals(line: &mut [u8], byte: u8) {
    let at = equals(line);
    line[at] = byte;
}

/// Where the first `=` stands.
fn equals(line: &[u8]) -> usize {
    line.iter().position(|byte| *byte == b'=').unwrap()
}

/// The last letter of the label in the other case; the `=` changed where it has none.
fn change_case(line: &mut [u8]) {
    let equals = equals(line);
    let at = line[..equals].iter().rposition(u8::is_ascii_alphabetic).unwrap_or(equals);
    line[at] ^= 0x20;
}

fn exchange_labels(lines: &mut [Vec<u8>], at: usize, other: usize) {
    let halves = [at, other].map(|place| lines[place].split_at(equals(&lines[place])));
    let [(one, number), (another, others)] = halves.map(|(label, number)| (label.to_vec(), number.to_vec()));
    lines[at] = [another, number].concat();
    lines[other] = [one, others].concat();
}

pub fn run(random: &Random, tally: &mut Tally, page: &Page) {
    let cells = page.draft.cells(random);
    if page.numbers.is_empty() {
        NOT_EMPTY.iter().for_each(|sheet| read_as(tally, &page.tree, &cells, sheet, 17));
        return;
    }
    let times = if page.tree.len() > 1000 { 4 } else { 20 };
    for _ in 0..times {
        one_number(random, tally, page, &cells);
        two_numbers(random, tally, page, &cells);
        edit(random, tally, page, &cells);
        change_byte(random, tally, page, &cells);
    }
    foreign_line(random, tally, page, &cells);
    cut(random, tally, page, &cells);
}

/// What reading gives for a number of a setting, the rest of the sheet being good.
pub fn number_of(property: &DraftProperty, number: i128) -> u8 {
    let (start, end) = (i128::from(*range(property).start()), i128::from(*range(property).end()));
    match number {
        _ if number < 0 && !is_signed(property) => 17,
        _ if start <= number && number <= end && steps::is_on_step(property, number as i64) => 0,
        _ => 18,
    }
}

/// A number near the ends of a range or near its step, or that would be there where high bits were lost.
fn near(random: &Random, property: &DraftProperty) -> i128 {
    let (start, end) = (i128::from(*range(property).start()), i128::from(*range(property).end()));
    let limit = random.pick(&[start, end, 0, -(1 << 31), 1 << 31, 1 << 32, steps::near(random, property).into()]);
    let beyond: i128 = random.pick(&[0_i128, 0, 1, -1, 2, 10]) << random.pick(&[31, 32, 33, 63, 64, 96]);
    limit + random.pick(&[-1, 0, 1]) + beyond
}

/// A text in the place of a setting's number, and what reading it gives.
fn draw_number(random: &Random, property: &DraftProperty) -> (String, u8) {
    match random.below(4) {
        0 => (random.pick(&MISSHAPEN).to_string(), 17),
        1 => (random.pick(&LARGE).to_string(), 18),
        2 => (format!("-{}", random.pick(&LARGE)), if is_signed(property) { 18 } else { 17 }),
        _ => {
            let number = near(random, property);
            (number.to_string(), number_of(property, number))
        }
    }
}

fn one_number(random: &Random, tally: &mut Tally, page: &Page, cells: &[u8]) {
    let at = random.below(page.numbers.len());
    let mut texts = page.texts();
    let (text, number) = draw_number(random, page.settings()[at].1);
    texts[at] = text;
    read_as(tally, &page.tree, cells, &page.lines(&texts).concat(), number);
}

/// Two numbers changed, mostly one of them beyond 32 bits: 17 wins, wherever it stands.
fn two_numbers(random: &Random, tally: &mut Tally, page: &Page, cells: &[u8]) {
    let (at, other) = (random.below(page.numbers.len()), random.below(page.numbers.len()));
    if at == other {
        return;
    }
    let mut texts = page.texts();
    texts[at] = random.pick(&LARGE).to_string();
    let (text, number) = draw_number(random, page.settings()[other].1);
    texts[other] = text;
    let number = if number == 17 { 17 } else { 18 };
    read_as(tally, &page.tree, cells, &page.lines(&texts).concat(), number);
}

/// The lines edited, of a good sheet or of one with a number beyond 32 bits.
fn edit(random: &Random, tally: &mut Tally, page: &Page, cells: &[u8]) {
    let mut texts = page.texts();
    let (at, other) = (random.below(texts.len()), random.below(texts.len()));
    let good = random.once_in(2);
    if !good {
        texts[random.below(page.numbers.len())] = random.pick(&LARGE).to_string();
    }
    let before = page.lines(&texts);
    let mut lines = before.clone();
    if random.once_in(2) {
        random.pick(&EDITS)(&mut lines, at, other);
    } else {
        random.pick(&LINE_EDITS)(&mut lines[at]);
    }
    let number = match lines == before {
        true if good => 0,
        true => 18,
        false => 17,
    };
    read_as(tally, &page.tree, cells, &lines.concat(), number);
}

/// A line for what is no setting, where it would stand in the list.
fn foreign_line(random: &Random, tally: &mut Tally, page: &Page, cells: &[u8]) {
    let mut lines = page.lines(&page.texts());
    let mut at = 0;
    for property in &page.draft.properties {
        if is_setting(property) {
            at += 1;
        } else if random.once_in(2) {
            lines.insert(at, [&property.label, &b"=0\n"[..]].concat());
            read_as(tally, &page.tree, cells, &lines.concat(), 17);
            lines.remove(at);
        }
    }
}

/// A byte changed, left out or put in.
fn change_byte(random: &Random, tally: &mut Tally, page: &Page, cells: &[u8]) {
    let mut sheet = page.sheet.clone();
    let at = random.below(sheet.len());
    let byte = random.pick(&[random.pick(&BYTES), random.byte()]);
    match random.below(4) {
        0 => sheet.insert(at, byte),
        1 => drop(sheet.remove(at)),
        _ => sheet[at] = byte,
    }
    read(tally, &page.tree, cells, &sheet);
}

/// A short sheet cut at each place, a long one at some.
fn cut(random: &Random, tally: &mut Tally, page: &Page, cells: &[u8]) {
    let len = page.sheet.len();
    let count = len.min(60);
    for at in 0..count {
        let end = if count == len { at } else { random.below(len) };
        read_as(tally, &page.tree, cells, &page.sheet[..end], 17);
    }
}
