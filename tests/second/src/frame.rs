//! Frames and datagrams ("Frames on the wire"; PDI chapters 2 and 3).
use crate::writer::Writer;
use crate::*;

pub const DLE: u8 = 0x10;
pub const STX: u8 = 0x02;
pub const ETX: u8 = 0x03;

/// The sum of address and data, all of it; then, as PDI chapter 2 goes on in its example, AND FFh and XOR FFh.
pub fn checksum(address: u8, data: &[u8]) -> u8 {
    let sum = u32::from(address) + data.iter().map(|byte| u32::from(*byte)).sum::<u32>();
    (sum & 0xFF ^ 0xFF) as u8
}

/// Refuses data that is empty or over 256 bytes long.
pub fn check_length(data: &[u8]) -> Result<(), u8> {
    match data.len() {
        0 => Err(TOO_SHORT),
        1..=MOST_DATA => Ok(()),
        _ => Err(TOO_LONG),
    }
}

fn doubled(writer: &mut Writer, byte: u8) {
    if byte == DLE {
        writer.byte(DLE);
    }
    writer.byte(byte);
}

/// The written frame of data for an address, at the front of `out`; its length.
pub fn write_frame(address: u8, data: &[u8], out: &mut [u8]) -> Result<usize, u8> {
    if out.len() < ROOM_SERIAL {
        return Err(NO_ROOM);
    }
    check_length(data)?;
    let mut writer = Writer::new(out);
    writer.bytes(&[DLE, STX]);
    doubled(&mut writer, address);
    for byte in data {
        doubled(&mut writer, *byte);
    }
    doubled(&mut writer, checksum(address, data));
    writer.bytes(&[DLE, ETX]);
    Ok(writer.len)
}

/// Data behind four zero bytes.
pub fn write_datagram(data: &[u8], out: &mut [u8]) -> Result<usize, u8> {
    if out.len() < ROOM_UDP {
        return Err(NO_ROOM);
    }
    check_length(data)?;
    let mut writer = Writer::new(out);
    writer.bytes(&[0; 4]);
    writer.bytes(data);
    Ok(writer.len)
}

/// Content of a string: its first 258 bytes, and how many there are.
pub struct Content {
    bytes: [u8; MOST_CONTENT],
    len: usize,
}

impl Content {
    fn push(&mut self, byte: u8) {
        if let Some(place) = self.bytes.get_mut(self.len) {
            *place = byte;
        }
        self.len += 1;
    }

    /// The data of this content, or what it is refused with: 4, 5, 6 or 7.
    pub fn data(&self, address: u8) -> Result<&[u8], u8> {
        match self.bytes.get(..self.len) {
            Some(content) => judge(content, address),
            None => Err(TOO_LONG),
        }
    }
}

/// The content of a whole serial string, no longer doubled; 2 or 3.
pub fn content(string: &[u8]) -> Result<Content, u8> {
    let [DLE, STX, rest @ ..] = string else {
        return Err(NO_PREAMBLE);
    };
    let mut content = Content { bytes: [0; MOST_CONTENT], len: 0 };
    let mut rest = rest;
    loop {
        rest = match rest {
            [DLE, ETX] => return Ok(content),
            [DLE, DLE, behind @ ..] => {
                content.push(DLE);
                behind
            }
            [] | [DLE, ..] => return Err(BAD_PAIR),
            [byte, behind @ ..] => {
                content.push(*byte);
                behind
            }
        }
    }
}

/// Copies the data of a whole serial string to the front of `out`; its length, or 8, 2 to 7.
pub fn read_frame(address: u8, string: &[u8], out: &mut [u8]) -> Result<usize, u8> {
    if out.len() < ROOM_DATA {
        return Err(NO_ROOM);
    }
    let content = content(string)?;
    let data = content.data(address)?;
    out[..data.len()].copy_from_slice(data);
    Ok(data.len())
}

/// The data within content of at most 258 bytes: 4, 6 or 7 where it is not good.
pub fn judge(content: &[u8], address: u8) -> Result<&[u8], u8> {
    let [sent_to, data @ .., sum] = content else {
        return Err(TOO_SHORT);
    };
    if data.is_empty() {
        Err(TOO_SHORT)
    } else if *sum != checksum(*sent_to, data) {
        Err(BAD_CHECKSUM)
    } else if *sent_to != address {
        Err(OTHER_ADDRESS)
    } else {
        Ok(data)
    }
}

/// The data of a datagram, as a part of it: 2, 4 or 5.
pub fn datagram_data(datagram: &[u8]) -> Result<&[u8], u8> {
    let [0, 0, 0, 0, data @ ..] = datagram else {
        return Err(NO_PREAMBLE);
    };
    check_length(data)?;
    Ok(data)
}

/// Where the data of a datagram begins in it, and its length: 2, 4 or 5.
pub fn data_range(datagram: &[u8]) -> Result<(usize, usize), u8> {
    let data = datagram_data(datagram)?;
    Ok((datagram.len() - data.len(), data.len()))
}
