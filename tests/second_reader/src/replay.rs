//! The replay program's output: captured packets, lines as they arrived and other calls
//! against one hub.

use crate::hub::{self, Value};
use crate::line::{self, Pushed, LINE_ROOM};
use crate::list::LIST_LIMIT;
use crate::packet::PACKET_ROOM;
use crate::table::{Table, SOCKETS, TABLE_BYTES};
use crate::Error;
use std::fmt::Write;

/// The most bytes that the replay program reads.
pub const REPLAY_LIMIT: usize = 65_536;

pub const RECEIVE: u8 = 1;
pub const DETACH: u8 = 2;
pub const PUBLISH: u8 = 3;
pub const READ_PARAMETER: u8 = 4;
pub const LOAD_TABLE: u8 = 5;
pub const PRINT_TABLE: u8 = 6;
pub const LINE: u8 = 7;

/// What the replay program prints for this standard input. The papers do not say what
/// it prints where the catalogue itself is cut short; here that is nothing.
pub fn replay_output(input: &[u8]) -> String {
    replay_watched(input, |_, _, _, _| {})
}

/// The same; each packet is shown before it is received, with the catalogue, the table that
/// it comes to and its socket.
pub fn replay_watched(input: &[u8], watch: impl FnMut(&[u8], &Table, u64, &[u8])) -> String {
    if input.len() > REPLAY_LIMIT {
        return String::from("too long\n");
    }
    let Some(Capture { catalogue, records }) = Capture::of(input) else { return String::new() };
    let mut replay = Replay {
        catalogue,
        table: Table::default(),
        lines: [[0; LINE_ROOM]; SOCKETS as usize],
        output: String::new(),
        watch,
    };
    for (at, record) in records.enumerate() {
        let _ = match record {
            Some(record) => replay.record(record),
            None => writeln!(replay.output, "bad record {}", at + 1),
        };
    }
    replay.output
}

pub enum Record<'a> {
    Receive { socket: u64, packet: &'a [u8] },
    Detach { socket: u64 },
    Publish,
    Read { socket: u64, index: u64 },
    Load(Box<Table>),
    Print,
    Line { socket: u64, bytes: &'a [u8] },
}

/// A catalogue and the records behind it.
pub struct Capture<'a> {
    pub catalogue: &'a [u8],
    pub records: Records<'a>,
}

impl Capture<'_> {
    pub fn of(input: &[u8]) -> Option<Capture<'_>> {
        let mut rest = Records { bytes: input };
        let length = rest.number()?;
        Some(Capture { catalogue: rest.front(length)?, records: rest })
    }
}

/// The bytes not yet gone through.
pub struct Records<'a> {
    bytes: &'a [u8],
}

/// None is a bad record, which is the last.
impl<'a> Iterator for Records<'a> {
    type Item = Option<Record<'a>>;

    fn next(&mut self) -> Option<Self::Item> {
        if self.bytes.is_empty() {
            return None;
        }
        let record = self.record();
        if record.is_none() {
            self.bytes = &[];
        }
        Some(record)
    }
}

impl<'a> Records<'a> {
    fn record(&mut self) -> Option<Record<'a>> {
        Some(match self.byte()? {
            RECEIVE => Record::Receive { socket: self.byte()?.into(), packet: self.sized()? },
            DETACH => Record::Detach { socket: self.byte()?.into() },
            PUBLISH => Record::Publish,
            READ_PARAMETER => {
                Record::Read { socket: self.byte()?.into(), index: self.byte()?.into() }
            }
            LOAD_TABLE => Record::Load(Box::new(Table::from_bytes(self.front(TABLE_BYTES)?)?)),
            PRINT_TABLE => Record::Print,
            LINE => Record::Line { socket: self.byte()?.into(), bytes: self.sized()? },
            _ => return None,
        })
    }

    fn front(&mut self, length: usize) -> Option<&'a [u8]> {
        let (front, behind) = self.bytes.split_at_checked(length)?;
        self.bytes = behind;
        Some(front)
    }

    fn byte(&mut self) -> Option<u8> {
        self.front(1).map(|bytes| bytes[0])
    }

    /// A two-byte number, low byte first.
    fn number(&mut self) -> Option<usize> {
        self.front(2).map(|bytes| usize::from(bytes[0]) + 256 * usize::from(bytes[1]))
    }

    /// Bytes behind their number.
    fn sized(&mut self) -> Option<&'a [u8]> {
        let length = self.number()?;
        self.front(length)
    }
}

/// A hub with the state of each socket's line, and what has been printed.
struct Replay<'a, Watch> {
    catalogue: &'a [u8],
    table: Table,
    lines: [[u8; LINE_ROOM]; SOCKETS as usize],
    output: String,
    watch: Watch,
}

impl<Watch: FnMut(&[u8], &Table, u64, &[u8])> Replay<'_, Watch> {
    /// Does what a record asks and prints its line, or its lines if it is a line's.
    fn record(&mut self, record: Record) -> std::fmt::Result {
        let Replay { catalogue, table, .. } = self;
        let text = match record {
            Record::Receive { socket, packet } => self.receive(socket, packet),
            Record::Detach { socket } => {
                answered(hub::detach(catalogue, table, socket).map(|()| String::from("left")))
            }
            Record::Publish => {
                let mut list = [0; LIST_LIMIT];
                let answer = hub::publish(catalogue, table, &mut list);
                answered(answer.map(|length| format!("posted {length} {}", hex(&list[..length]))))
            }
            Record::Read { socket, index } => {
                answered(hub::read_parameter(catalogue, table, socket, index).map(value_text))
            }
            Record::Load(loaded) => {
                self.table = *loaded;
                String::from("loaded")
            }
            Record::Print => format!("table {}", hex(&table.to_bytes())),
            Record::Line { socket, bytes } => return self.line(socket, bytes),
        };
        writeln!(self.output, "{text}")
    }

    fn receive(&mut self, socket: u64, packet: &[u8]) -> String {
        (self.watch)(self.catalogue, &self.table, socket, packet);
        let answer = hub::receive(self.catalogue, &mut self.table, socket, packet);
        answered(answer.map(|consumed| format!("took {consumed}")))
    }

    /// Takes bytes of a socket's line; prints a line for each finding, for a packet the hub's.
    fn line(&mut self, socket: u64, bytes: &[u8]) -> std::fmt::Result {
        if socket >= u64::from(SOCKETS) {
            return writeln!(self.output, "{}", refused(Error::Socket));
        }
        let mut packet = [0; PACKET_ROOM];
        let mut rest = bytes;
        loop {
            let state = &mut self.lines[socket as usize];
            let Pushed { found, error, consumed } = line::push(state, rest, &mut packet);
            rest = &rest[consumed as usize..];
            match found {
                line::MORE => return Ok(()),
                line::PACKET => {
                    let text = self.receive(socket, &packet);
                    writeln!(self.output, "{text}")?;
                }
                _ => writeln!(self.output, "line refused {error}")?,
            }
        }
    }
}

fn value_text(value: Option<Value>) -> String {
    match value {
        None => String::from("absent"),
        Some(Value::Int(number)) => format!("int {number}"),
        Some(Value::Float(bits)) => format!("float {bits:08x}"),
        Some(Value::Flag(flag)) => format!("flag {}", u8::from(flag)),
    }
}

fn answered(answer: Result<String, Error>) -> String {
    answer.unwrap_or_else(refused)
}

fn refused(error: Error) -> String {
    format!("refused {}", error.number())
}

fn hex(bytes: &[u8]) -> String {
    const DIGITS: &[u8; 16] = b"0123456789abcdef";
    let digit = |nibble: u8| char::from(DIGITS[usize::from(nibble)]);
    bytes.iter().flat_map(|&byte| [digit(byte >> 4), digit(byte & 15)]).collect()
}
