//! Requests read and written ("Requests and replies"; PDI chapter 5).
use crate::frame::{content, datagram_data, write_datagram, write_frame};
use crate::*;

pub const COMMAND: u8 = 0xB4;
pub const PATH_SIZE: usize = 16;
/// B4, op, path, index, 00 and value.
const MOST_REQUEST: usize = 2 + PATH_SIZE + 1 + 1 + 4;

/// A request; what its op does not ask for is empty or 0.
#[derive(Clone, Copy, Debug, Default, PartialEq)]
pub struct Request {
    pub op: u8,
    path: [u8; PATH_SIZE],
    path_len: usize,
    pub index: u8,
    pub value: u32,
}

impl Request {
    fn new(op: u8, path: &[u8], index: u8, value: u32) -> Result<Request, u8> {
        if path.len() > PATH_SIZE {
            return Err(BAD_PARAMETER);
        }
        let mut request = Request { op, path_len: path.len(), index, value, ..Request::default() };
        request.path[..path.len()].copy_from_slice(path);
        Ok(request)
    }

    pub fn path(&self) -> &[u8] {
        &self.path[..self.path_len]
    }

    /// The path with zeros behind it.
    pub fn whole_path(&self) -> &[u8; PATH_SIZE] {
        &self.path
    }
}

/// Whether this is a path: 1 to 16 nonzero bytes.
fn is_path(path: &[u8]) -> bool {
    (1..=PATH_SIZE).contains(&path.len()) && !path.contains(&0)
}

/// A path and an index, nonzero bytes all.
fn read_place(op: u8, place: &[u8], value: u32) -> Result<Request, u8> {
    match place.split_last() {
        Some((index, path)) if *index != 0 && is_path(path) => Request::new(op, path, *index, value),
        _ => Err(BAD_PARAMETER),
    }
}

/// A place, a zero and a value: the first zero ends the place.
fn read_write(op: u8, middle: &[u8]) -> Result<Request, u8> {
    let zero = middle.iter().position(|byte| *byte == 0).ok_or(BAD_PARAMETER)?;
    let value: [u8; 4] = middle[zero + 1..].try_into().map_err(|_| BAD_PARAMETER)?;
    read_place(op, &middle[..zero], u32::from_be_bytes(value))
}

/// Reads data of one byte or more as a request: 10 or 11.
pub fn read_data(data: &[u8]) -> Result<Request, u8> {
    match data {
        [COMMAND] => Err(BAD_PARAMETER),
        [COMMAND, 0] => Request::new(0, &[], 0, 0),
        [COMMAND, 0, ..] => Err(BAD_PARAMETER),
        [COMMAND, 1, path @ ..] if is_path(path) => Request::new(1, path, 0, 0),
        [COMMAND, 1, ..] => Err(BAD_PARAMETER),
        [COMMAND, op @ 2..=3, place @ ..] => read_place(*op, place, 0),
        [COMMAND, op @ 4..=5, middle @ ..] => read_write(*op, middle),
        _ => Err(UNKNOWN_COMMAND),
    }
}

pub fn read_serial(address: u8, string: &[u8]) -> Result<Request, u8> {
    read_data(content(string)?.data(address)?)
}

pub fn read_udp(datagram: &[u8]) -> Result<Request, u8> {
    read_data(datagram_data(datagram)?)
}

/// Whether the table allows a request of op 0 to 5.
fn is_allowed(op: u8, path: &[u8], index: u8, value: u32) -> bool {
    match op {
        0 => path.is_empty() && index == 0 && value == 0,
        1 => is_path(path) && index == 0 && value == 0,
        2 | 3 => is_path(path) && index != 0 && value == 0,
        _ => is_path(path) && index != 0,
    }
}

/// A request's data, and its length.
fn write_data(op: u8, path: &[u8], index: u8, value: u32) -> Result<([u8; MOST_REQUEST], usize), u8> {
    if op > 5 {
        return Err(UNKNOWN_COMMAND);
    }
    if !is_allowed(op, path, index, value) {
        return Err(BAD_PARAMETER);
    }
    let mut data = [0; MOST_REQUEST];
    let mut writer = writer::Writer::new(&mut data);
    writer.bytes(&[COMMAND, op]);
    writer.bytes(path);
    if op >= 2 {
        writer.byte(index);
    }
    if op >= 4 {
        writer.byte(0);
        writer.bytes(&value.to_be_bytes());
    }
    let len = writer.len;
    Ok((data, len))
}

pub fn write_serial(address: u8, op: u8, path: &[u8], index: u8, value: u32, out: &mut [u8]) -> Result<usize, u8> {
    if out.len() < ROOM_SERIAL {
        return Err(NO_ROOM);
    }
    let (data, len) = write_data(op, path, index, value)?;
    write_frame(address, &data[..len], out)
}

pub fn write_udp(op: u8, path: &[u8], index: u8, value: u32, out: &mut [u8]) -> Result<usize, u8> {
    if out.len() < ROOM_UDP {
        return Err(NO_ROOM);
    }
    let (data, len) = write_data(op, path, index, value)?;
    write_datagram(&data[..len], out)
}
