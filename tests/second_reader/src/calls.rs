//! The hub's calls as include/cinder.h has them: the table is lent as bytes, of any
//! length and holding anything. Bytes that are no table are judged where a table that is
//! not lawful is.

use crate::catalogue::Catalogue;
use crate::hub::{self, Value};
use crate::table::Table;
use crate::Error;

fn table_of(catalogue: &[u8], bytes: &[u8]) -> Result<Table, Error> {
    Catalogue::parse(catalogue)?;
    Table::from_bytes(bytes).ok_or(Error::NotLawful)
}

/// Makes a call on the table that the bytes are, and leaves there the table it left.
fn change<Answer>(
    catalogue: &[u8],
    bytes: &mut [u8],
    call: impl FnOnce(&mut Table) -> Result<Answer, Error>,
) -> Result<Answer, Error> {
    let mut table = table_of(catalogue, bytes)?;
    let answer = call(&mut table);
    bytes.copy_from_slice(&table.to_bytes());
    answer
}

/// Error and bytes consumed.
pub fn receive(catalogue: &[u8], table: &mut [u8], socket: u64, packet: &[u8]) -> [u64; 2] {
    sized(change(catalogue, table, |table| hub::receive(catalogue, table, socket, packet)))
}

/// The error.
pub fn detach(catalogue: &[u8], table: &mut [u8], socket: u64) -> u64 {
    let answer = change(catalogue, table, |table| hub::detach(catalogue, table, socket));
    answer.map_or_else(Error::number, |()| 0)
}

/// Error and bytes written.
pub fn publish(catalogue: &[u8], table: &[u8], list: &mut [u8]) -> [u64; 2] {
    let table = table_of(catalogue, table);
    sized(table.and_then(|table| hub::publish(catalogue, &table, list)))
}

/// Error, kind and bits.
pub fn read(catalogue: &[u8], table: &[u8], socket: u64, index: u64) -> [u64; 3] {
    let table = table_of(catalogue, table);
    value(table.and_then(|table| hub::read_parameter(catalogue, &table, socket, index)))
}

/// Error and size, as every call answers them that answers a size alone.
pub fn sized(answer: Result<usize, Error>) -> [u64; 2] {
    match answer {
        Ok(size) => [0, size as u64],
        Err(error) => [error.number(), 0],
    }
}

/// Error, kind (0 absent, 1 int, 2 float, 3 flag) and bits of a parameter.
pub fn value(answer: Result<Option<Value>, Error>) -> [u64; 3] {
    match answer {
        Ok(None) => [0, 0, 0],
        Ok(Some(Value::Int(number))) => [0, 1, u64::from(number as u32)],
        Ok(Some(Value::Float(bits))) => [0, 2, bits.into()],
        Ok(Some(Value::Flag(flag))) => [0, 3, flag.into()],
        Err(error) => [error.number(), 0, 0],
    }
}
