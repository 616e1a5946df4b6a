//! Buslink over CAN (document 02, section 5; source 000, chapter 4): the indicators of a station, sent from the live properties of
//! a tree, and received into records.
//!
//! Which indicators a type carries is a table here, as in the source, and the type of a received frame is looked for among all. A
//! value has 64 bits until it is known to fit, and an indicator is taken apart as the source's example does it.
use crate::cells::{checked, readable};
use crate::tree::{Property, Tree, LIVE};
use crate::*;
use std::ops::RangeInclusive;

/// The data of a frame.
pub const DATA_SIZE: usize = 8;
/// A record for each indicator, indicator 1's first (docs/FORMATS.md).
pub const RECORDS_SIZE: usize = 60;
/// The bytes of an indicator: in data, and as its record.
const INDICATOR_SIZE: usize = 4;

/// Source 000, 4.6: the fourth byte of an indicator.
const AVAILABLE: u8 = 0x80;
const ERROR: u8 = 0x40;
const STATUS: u8 = 0xF8;
const FORMAT: u8 = 0x07;
/// Source 000, 4.8: the format of a number that is sent as it is.
const RAW: u8 = 7;
/// The values that three bytes hold.
const VALUES: RangeInclusive<i64> = -0x80_0000..=0x7F_FFFF;

const BASES: RangeInclusive<u8> = 1..=8;
const SUBS: RangeInclusive<u8> = 1..=5;
const TYPES: RangeInclusive<u8> = 2..=9;
/// Source 000, 4.3: the indicators of each type. Behind that of type 9 stand zeros.
const CARRIED: [&[u8]; 8] = [&[1, 2], &[3, 4], &[5, 6], &[7, 8], &[9, 10], &[11, 12], &[13, 14], &[15]];

/// The address of a station: any two bytes, of which forty pairs are in bounds.
#[derive(Clone, Copy, Debug, Default, PartialEq)]
pub struct Station {
    pub base: u8,
    pub sub: u8,
}

impl Station {
    /// Source 000, 4.2: the identifier of its frames of a type. None where the address or the type is out of bounds.
    pub fn identifier(self, kind: u8) -> Option<u32> {
        if !BASES.contains(&self.base) || !SUBS.contains(&self.sub) || !TYPES.contains(&kind) {
            return None;
        }
        let address = 5 * (u32::from(self.base) - 1) + u32::from(self.sub);
        Some(0x1555_0000 + (u32::from(kind) << 8) + address)
    }
}

/// An indicator taken apart.
#[derive(Clone, Copy, Debug, PartialEq)]
pub struct Indicator {
    pub value: i32,
    pub status: u8,
    pub format: u8,
}

impl Indicator {
    /// Source 000, 4.10: the value is put together from its sign on.
    fn read(data: &[u8]) -> Indicator {
        let mut value: u32 = if data[2] & 0x80 != 0 { 0xFF } else { 0x00 };
        for byte in [data[2], data[1], data[0]] {
            value = (value << 8) + u32::from(byte);
        }
        Indicator { value: value as i32, status: data[3] & STATUS, format: data[3] & FORMAT }
    }

    fn is_usable(self) -> bool {
        self.status & (AVAILABLE | ERROR) == AVAILABLE
    }
}

/// The indicators that a frame carries; its type is in bounds.
fn carried(kind: u8) -> &'static [u8] {
    CARRIED[usize::from(kind - TYPES.start())]
}

/// Value and status of a word that is a reading.
fn measured(property: &Property, format: u8, word: u32) -> (i64, u8) {
    let number = property.number(word);
    let value = if format == RAW { number } else { 10 * number };
    if VALUES.contains(&value) {
        (value, AVAILABLE)
    } else {
        (0, AVAILABLE | ERROR)
    }
}

/// The bytes of an indicator: those of the live property that has its number in the list, or zeros.
fn shown(tree: &Tree, cells: &[u8], indicator: u8) -> [u8; INDICATOR_SIZE] {
    let mut probes = tree.properties.iter().enumerate().filter(|(_, property)| property.has(LIVE));
    let Some((place, property)) = probes.nth(usize::from(indicator) - 1) else {
        return [0; INDICATOR_SIZE];
    };
    let format = property.format as u8 & FORMAT;
    let (value, status) = match readable(property, cells, place) {
        Ok(word) => measured(property, format, word),
        Err(_) => (0, 0),
    };
    let [low, middle, high, ..] = value.to_le_bytes();
    [low, middle, high, status | format]
}

/// Puts the data of a station's frame at the front of the output; its identifier, or 1, 8, 19.
pub fn send(tree: &[u8], cells: &[u8], station: Station, kind: u8, out: &mut [u8]) -> Result<u32, u8> {
    let tree = checked(tree, cells).ok_or(UNSOUND)?;
    if out.len() < DATA_SIZE {
        return Err(NO_ROOM);
    }
    let identifier = station.identifier(kind).ok_or(BAD_IDENTIFIER)?;
    let data = &mut out[..DATA_SIZE];
    data.fill(0);
    for (part, indicator) in data.chunks_exact_mut(INDICATOR_SIZE).zip(carried(kind)) {
        part.copy_from_slice(&shown(&tree, cells, *indicator));
    }
    Ok(identifier)
}

/// Stores the indicators of a frame for a station; the mask of those that are usable, from indicator 1 in bit 0 on, or 1, 19, 20.
pub fn receive(records: &mut [u8], station: Station, identifier: u32, data: &[u8]) -> Result<u16, u8> {
    if records.len() != RECORDS_SIZE {
        return Err(UNSOUND);
    }
    let mut types = TYPES;
    let kind = types.find(|kind| station.identifier(*kind) == Some(identifier)).ok_or(BAD_IDENTIFIER)?;
    if data.len() != DATA_SIZE {
        return Err(BAD_LENGTH);
    }
    let mut usable = 0;
    for (part, indicator) in data.chunks_exact(INDICATOR_SIZE).zip(carried(kind)) {
        let place = usize::from(indicator - 1);
        records[INDICATOR_SIZE * place..][..INDICATOR_SIZE].copy_from_slice(part);
        usable |= u16::from(Indicator::read(part).is_usable()) << place;
    }
    Ok(usable)
}

/// The records of a station from which nothing was received.
pub fn begin(records: &mut [u8]) -> u8 {
    if records.len() != RECORDS_SIZE {
        return UNSOUND;
    }
    records.fill(0);
    0
}

/// What the records hold of an indicator: 1 or 19.
pub fn indicator(records: &[u8], indicator: u8) -> Result<Indicator, u8> {
    if records.len() != RECORDS_SIZE {
        return Err(UNSOUND);
    }
    let place = usize::from(indicator).checked_sub(1).ok_or(BAD_IDENTIFIER)?;
    let record = records.chunks_exact(INDICATOR_SIZE).nth(place).ok_or(BAD_IDENTIFIER)?;
    Ok(Indicator::read(record))
}
