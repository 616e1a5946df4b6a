//! A second implementation of the box, written from documents 01 and 02 (the rules), documents 000 (PENKO Buslink) and 003 (PENKO
//! PDI), docs/FORMATS.md (the lent forms) and include/pualirqiq.h (the calls), and from none of the library's code. It is there to
//! be compared.
pub mod bench;
pub mod buslink;
pub mod cells;
pub mod frame;
pub mod listing;
pub mod request;
pub mod serve;
pub mod sheet;
pub mod stream;
pub mod tree;
pub mod writer;

pub const UNSOUND: u8 = 1;
pub const NO_PREAMBLE: u8 = 2;
pub const BAD_PAIR: u8 = 3;
pub const TOO_SHORT: u8 = 4;
pub const TOO_LONG: u8 = 5;
pub const BAD_CHECKSUM: u8 = 6;
pub const OTHER_ADDRESS: u8 = 7;
pub const NO_ROOM: u8 = 8;
pub const DISABLED: u8 = 9;
pub const UNKNOWN_COMMAND: u8 = 10;
pub const BAD_PARAMETER: u8 = 11;
pub const NO_READING: u8 = 12;
pub const NOT_SAVED: u8 = 13;
pub const NOT_LIVE: u8 = 14;
pub const NO_SUCH_NODE: u8 = 15;
pub const NO_SUCH_PROPERTY: u8 = 16;
pub const BAD_SHEET: u8 = 17;
pub const OUT_OF_RANGE: u8 = 18;
pub const BAD_IDENTIFIER: u8 = 19;
pub const BAD_LENGTH: u8 = 20;
pub const NO_FRAME: u8 = 255;
pub const NO_ACTION: u8 = 255;

pub const ROOM_DATA: usize = 256;
pub const ROOM_UDP: usize = 260;
pub const ROOM_SERIAL: usize = 520;
/// Room for every sheet: 128 lines of a label of 23 characters, `=`, 11 characters of a number, and 0Ah.
pub const SHEET_ROOM: usize = 128 * 36;
/// The most bytes of data, and of content (address, data, checksum).
pub const MOST_DATA: usize = 256;
pub const MOST_CONTENT: usize = 258;
