//! Settings on a sheet (document 02, section 3): a line `label=number` for each property with read and write, in list order.
//!
//! A sheet that is read is cut behind each 0Ah, and a line at its first `=`, since no label that can be written has one. The shape
//! of all lines is judged before any number. Numbers have 64 bits here; digits that go beyond them stay at the largest one.
use crate::cells::{checked, store, word};
use crate::tree::{Property, Tree};
use crate::*;

/// The longest line: a label, `=`, ten digits with a sign, and 0Ah.
const LINE_ROOM: usize = 36;

/// What writing came to: the number, and the sheet's length, which is told with 0 and 8.
#[derive(Clone, Copy, Debug, PartialEq)]
pub struct Written {
    pub number: u8,
    pub len: usize,
}

/// The settings, each with its place in the list of properties.
fn settings<'a, 'b>(tree: &'b Tree<'a>) -> impl Iterator<Item = (usize, &'b Property<'a>)> {
    tree.properties.iter().enumerate().filter(|(_, property)| property.is_setting())
}

/// Whether the settings can be told apart on a sheet: no label has a `=`, and no two are the same.
fn can_be_written(tree: &Tree) -> bool {
    let mut labels: Vec<&[u8]> = settings(tree).map(|(_, property)| property.label).collect();
    labels.sort_unstable();
    let differ = labels.windows(2).all(|pair| pair[0] != pair[1]);
    differ && labels.iter().all(|label| !label.contains(&b'='))
}

/// The word of a number that has 32 bits and that the setting may hold.
fn word_of(property: &Property, number: i64) -> Option<u32> {
    let word = if property.is_signed() { i32::try_from(number).ok()? as u32 } else { u32::try_from(number).ok()? };
    property.may_hold(word).then_some(word)
}

fn put_decimal(number: i64, to: &mut Vec<u8>) {
    let mut digits = [0; 20];
    let mut at = digits.len();
    let mut rest = number.unsigned_abs();
    while rest > 0 || at == digits.len() {
        at -= 1;
        digits[at] = b'0' + (rest % 10) as u8;
        rest /= 10;
    }
    if number < 0 {
        to.push(b'-');
    }
    to.extend(&digits[at..]);
}

/// The sheet of a tree and its cells: 1, 17 or 18.
fn lines(tree: &[u8], cells: &[u8]) -> Result<Vec<u8>, u8> {
    let tree = checked(tree, cells).ok_or(UNSOUND)?;
    if !can_be_written(&tree) {
        return Err(BAD_SHEET);
    }
    let mut sheet = Vec::with_capacity(LINE_ROOM * tree.properties.len());
    for (place, property) in settings(&tree) {
        let word = word(cells, place);
        if !property.may_hold(word) {
            return Err(OUT_OF_RANGE);
        }
        sheet.extend(property.label);
        sheet.push(b'=');
        put_decimal(property.number(word), &mut sheet);
        sheet.push(b'\n');
    }
    Ok(sheet)
}

/// Writes a sheet: 1, 17, 18; 8 where it is longer than the output.
pub fn write(tree: &[u8], cells: &[u8], out: &mut [u8]) -> Written {
    let sheet = match lines(tree, cells) {
        Ok(sheet) => sheet,
        Err(number) => return Written { number, len: 0 },
    };
    let len = sheet.len();
    if out.len() < len {
        return Written { number: NO_ROOM, len };
    }
    out[..len].copy_from_slice(&sheet);
    Written { number: 0, len }
}

/// A number without leading zeros, `-0` and other signs; a minus only where it is allowed.
fn decimal(text: &[u8], signed: bool) -> Option<i64> {
    let (minus, digits) = match text {
        [b'-', digits @ ..] => (true, digits),
        digits => (false, digits),
    };
    let good = match digits {
        [b'0'] => !minus,
        [b'1'..=b'9', more @ ..] => more.iter().all(u8::is_ascii_digit),
        _ => false,
    };
    if !good || minus && !signed {
        return None;
    }
    let add = |number: i64, digit: &u8| number.saturating_mul(10).saturating_add(i64::from(digit - b'0'));
    let number = digits.iter().fold(0, add);
    Some(if minus { -number } else { number })
}

/// The number on the line of a setting.
fn number_on(line: &[u8], property: &Property) -> Option<i64> {
    let line = line.strip_suffix(b"\n")?;
    let end = line.iter().position(|byte| *byte == b'=')?;
    if line[..end] != *property.label {
        return None;
    }
    decimal(&line[end + 1..], property.is_signed())
}

/// The numbers of a sheet that has the shape of this tree's.
fn numbers(tree: &Tree, sheet: &[u8]) -> Option<Vec<i64>> {
    if !can_be_written(tree) {
        return None;
    }
    let mut lines = sheet.split_inclusive(|byte| *byte == b'\n');
    let mut numbers = Vec::with_capacity(tree.properties.len());
    for (_, property) in settings(tree) {
        numbers.push(number_on(lines.next()?, property)?);
    }
    lines.next().is_none().then_some(numbers)
}

/// The words that a sheet gives, each with the place of its cell: 1, 17 or 18.
fn words(tree: &[u8], cells: &[u8], sheet: &[u8]) -> Result<Vec<(usize, u32)>, u8> {
    let tree = checked(tree, cells).ok_or(UNSOUND)?;
    let numbers = numbers(&tree, sheet).ok_or(BAD_SHEET)?;
    let word = |((place, property), number): ((usize, &Property), i64)| Some((place, word_of(property, number)?));
    settings(&tree).zip(numbers).map(word).collect::<Option<_>>().ok_or(OUT_OF_RANGE)
}

/// Reads a sheet: 1, 17 or 18, with no cell changed.
pub fn read(tree: &[u8], cells: &mut [u8], sheet: &[u8]) -> u8 {
    match words(tree, cells, sheet) {
        Ok(words) => {
            words.iter().for_each(|(place, word)| store(cells, *place, *word));
            0
        }
        Err(number) => number,
    }
}
