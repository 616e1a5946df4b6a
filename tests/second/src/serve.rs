//! Requests answered ("Requests and replies", "Numbers returned"; 15 and 16: document 02, section 7).
use crate::frame::{check_length, content, datagram_data, write_frame};
use crate::request::{read_data, Request, COMMAND};
use crate::tree::{Property, Tree, WRITE};
use crate::writer::Writer;
use crate::*;

const ERROR: u8 = 0x54;
const ACK: u8 = 0x55;
const HOST_OFF: u8 = 0x57;
const CONFLICT: u8 = 0x58;
const ILLEGAL: u8 = 0x59;
/// PDI 5.4: the status of a reading that is good.
const STATUS_OK: u8 = 0x01;

/// What a request came to: the number, the reply's length, the place of an action to be taken, and with 15 the length of the
/// shortest front part of the path that no node has; with any other number that is 0.
#[derive(Clone, Copy, Debug, PartialEq)]
pub struct Served {
    pub number: u8,
    pub len: usize,
    pub action: u8,
    pub missing: u8,
}

/// A refusal that is answered by one byte, and the length that 15 tells.
struct Refusal {
    number: u8,
    missing: u8,
}

impl From<u8> for Refusal {
    fn from(number: u8) -> Refusal {
        Refusal { number, missing: 0 }
    }
}

fn refused(number: u8) -> Served {
    Served { number, len: 0, action: NO_ACTION, missing: 0 }
}

fn served(number: u8, writer: &Writer) -> Served {
    Served { len: writer.len, ..refused(number) }
}

/// A tree that was checked, its cells, and the host switch.
struct Device<'a> {
    tree: Tree<'a>,
    cells: &'a mut [u8],
    host: bool,
}

/// What became of a write, and the text of op 5.
struct Written {
    save: u8,
    text: &'static [u8],
}

impl Device<'_> {
    /// Answers data of 1 to 256 bytes; the reply goes to the front of the output.
    fn answer(&mut self, data: &[u8], out: &mut [u8]) -> Served {
        let mut writer = Writer::new(out);
        match self.perform(data, &mut writer) {
            Ok(answer) => answer,
            Err(Refusal { number, missing }) => {
                writer.byte(code(number));
                Served { missing, ..served(number, &writer) }
            }
        }
    }

    /// Refusals 9 to 12, 15 and 16 come back with nothing written.
    fn perform(&mut self, data: &[u8], writer: &mut Writer) -> Result<Served, Refusal> {
        if !self.host {
            return Err(DISABLED.into());
        }
        let request = read_data(data)?;
        if request.op == 0 {
            writer.byte(ACK);
            return Ok(served(0, writer));
        }
        let node = self.tree.node(request.path()).map_err(|missing| Refusal { number: NO_SUCH_NODE, missing })?;
        if request.op == 1 {
            self.describe_node(&request, node, writer);
            return Ok(served(0, writer));
        }
        let place = self.tree.property(node, request.index).ok_or(NO_SUCH_PROPERTY)?;
        match request.op {
            2 => self.describe_property(&request, place, writer),
            3 => self.read(&request, place, writer)?,
            _ => return Ok(self.write(&request, place, writer)),
        }
        Ok(served(0, writer))
    }

    fn describe_node(&self, request: &Request, node: usize, writer: &mut Writer) {
        writer.bytes(&[COMMAND, request.op]);
        writer.bytes(request.path());
        writer.byte(self.tree.child_count(node));
        writer.byte(self.tree.property_count(node));
        writer.text(self.tree.nodes[node].name);
    }

    fn describe_property(&self, request: &Request, place: usize, writer: &mut Writer) {
        let property = &self.tree.properties[place];
        head(request, writer);
        writer.byte(property.kind);
        writer.bytes(&property.min.to_be_bytes());
        writer.bytes(&property.max.to_be_bytes());
        writer.bytes(&property.attribute.to_be_bytes());
        writer.bytes(&property.format.to_be_bytes());
        writer.text(property.label);
        writer.bytes(property.texts);
    }

    fn read(&self, request: &Request, place: usize, writer: &mut Writer) -> Result<(), u8> {
        let word = cells::readable(&self.tree.properties[place], self.cells, place)?;
        head(request, writer);
        writer.byte(STATUS_OK);
        writer.bytes(&word.to_be_bytes());
        Ok(())
    }

    fn write(&mut self, request: &Request, place: usize, writer: &mut Writer) -> Served {
        let written = try_write(&self.tree.properties[place], request.value);
        if written.save == 1 {
            cells::store(self.cells, place, request.value);
        }
        head(request, writer);
        writer.byte(0);
        writer.bytes(&request.value.to_be_bytes());
        writer.byte(written.save);
        if request.op == 5 {
            writer.text(written.text);
        }
        let number = if written.save == 0 { NOT_SAVED } else { 0 };
        let action = if written.save == 2 { place as u8 } else { NO_ACTION };
        Served { action, ..served(number, writer) }
    }
}

/// The reply code of a refusal that is answered by one byte.
fn code(number: u8) -> u8 {
    match number {
        DISABLED => HOST_OFF,
        UNKNOWN_COMMAND => ILLEGAL,
        NO_READING => CONFLICT,
        _ => ERROR,
    }
}

/// The bytes with which every reply to ops 2 to 5 begins.
fn head(request: &Request, writer: &mut Writer) {
    writer.bytes(&[COMMAND, request.op]);
    writer.bytes(request.path());
    writer.byte(request.index);
}

/// "Read only", "Range" and "Step", in that order (document 02, section 6); an action takes any value.
fn try_write(property: &Property, value: u32) -> Written {
    if !property.has(WRITE) {
        Written { save: 0, text: b"Read only" }
    } else if property.is_action() {
        Written { save: 2, text: b"" }
    } else if !property.in_range(value) {
        Written { save: 0, text: b"Range" }
    } else if !property.on_step(value) {
        Written { save: 0, text: b"Step" }
    } else {
        Written { save: 1, text: b"" }
    }
}

/// The device, where tree and cells are sound and there is room: else 1, then 8.
fn device<'a>(tree: &'a [u8], cells: &'a mut [u8], host: bool, room: usize, least: usize) -> Result<Device<'a>, u8> {
    let tree = cells::checked(tree, cells).ok_or(UNSOUND)?;
    if room < least {
        return Err(NO_ROOM);
    }
    Ok(Device { tree, cells, host })
}

fn whole(result: Result<Served, u8>) -> Served {
    result.unwrap_or_else(refused)
}

pub fn serve_data(tree: &[u8], cells: &mut [u8], host: bool, data: &[u8], out: &mut [u8]) -> Served {
    whole(device(tree, cells, host, out.len(), ROOM_DATA).and_then(|mut device| {
        check_length(data)?;
        Ok(device.answer(data, out))
    }))
}

pub fn serve_serial(tree: &[u8], cells: &mut [u8], host: bool, address: u8, string: &[u8], out: &mut [u8]) -> Served {
    whole(device(tree, cells, host, out.len(), ROOM_SERIAL).and_then(|mut device| {
        let content = content(string)?;
        let mut reply = [0; ROOM_DATA];
        let answer = device.answer(content.data(address)?, &mut reply);
        let len = write_frame(address, &reply[..answer.len], out)?;
        Ok(Served { len, ..answer })
    }))
}

pub fn serve_udp(tree: &[u8], cells: &mut [u8], host: bool, datagram: &[u8], out: &mut [u8]) -> Served {
    whole(device(tree, cells, host, out.len(), ROOM_UDP).and_then(|mut device| {
        let data = datagram_data(datagram)?;
        let (zeros, reply) = out.split_at_mut(4);
        let answer = device.answer(data, reply);
        zeros.fill(0);
        Ok(Served { len: 4 + answer.len, ..answer })
    }))
}
