//! The value of a setting: that of the first entry with its key in the guest's list, or else
//! in the house list. Both lists are judged whole before either is searched.

use crate::list::{self, word_at, Form, Kind, ListError, LIST_CODE, LIST_HEADER, WORD};
use crate::Error;
use std::ops::Range;

/// The code of an entry, and how many strings it has.
const ENTRY_CODE: u32 = LIST_CODE + Kind::String.code();
const ENTRY_COUNT: u32 = 2;

/// Whose list; the number is the one that answers have for it.
#[derive(Clone, Copy, PartialEq, Eq, Debug)]
#[repr(u8)]
pub enum Owner {
    Guest = 1,
    House = 2,
}

/// Where the value stands in a list, without its closing zero.
#[derive(Clone, Copy, PartialEq, Eq, Debug)]
pub struct Found {
    pub owner: Owner,
    pub offset: usize,
    pub length: usize,
}

/// Why there is no value.
#[derive(Clone, Copy, PartialEq, Eq, Debug)]
pub enum Refusal {
    /// The first area that is not one whole list.
    List(Owner, ListError),
    KeyInNeither,
}

/// Error, list, offset, length and depth, as the C call answers them.
pub fn numbers(answer: Result<Found, Refusal>) -> [u64; 5] {
    match answer {
        Ok(Found { owner, offset, length }) => [0, owner as u64, offset as u64, length as u64, 0],
        Err(Refusal::List(owner, ListError { error, offset, depth })) => {
            [error.number(), owner as u64, offset, 0, depth]
        }
        Err(Refusal::KeyInNeither) => [Error::KeyInNeither.number(), 0, 0, 0, 0],
    }
}

/// Finds the value of the setting with this key.
pub fn find(guest: &[u8], house: &[u8], key: &[u8]) -> Result<Found, Refusal> {
    let lists = [(Owner::Guest, guest), (Owner::House, house)];
    for (owner, area) in lists {
        judge_whole(area).map_err(|fault| Refusal::List(owner, fault))?;
    }
    for (owner, list) in lists {
        if let Some(value) = value_of(list, key) {
            return Ok(Found { owner, offset: value.start, length: value.len() });
        }
    }
    Err(Refusal::KeyInNeither)
}

/// The area must be one list, with no byte behind it.
fn judge_whole(area: &[u8]) -> Result<(), ListError> {
    match list::size(area)? {
        size if size < area.len() => Err(ListError::outside(Error::BytesLeft, size as u64)),
        _ => Ok(()),
    }
}

/// Where the value of the first entry with this key stands in a legal list.
fn value_of(list: &[u8], key: &[u8]) -> Option<Range<usize>> {
    // No other list has lists in it.
    if word_at(list, 0) != LIST_CODE {
        return None;
    }
    let mut at = LIST_HEADER;
    for _ in 0..word_at(list, WORD) {
        let code = word_at(list, at);
        at += WORD;
        if code == ENTRY_CODE && word_at(list, at) == ENTRY_COUNT {
            let first = string_at(list, at + WORD);
            let second = string_at(list, first.end + 1);
            if &list[first] == key {
                return Some(second);
            }
            at = second.end + 1;
        } else {
            at = end_of(list, code, at);
        }
    }
    None
}

/// The bytes of the string whose length stands at `at`, without the closing zero.
#[inline]
fn string_at(list: &[u8], at: usize) -> Range<usize> {
    let start = at + WORD;
    start..start + word_at(list, at) as usize - 1
}

/// Where an element of a legal list ends that follows its code at `at`.
fn end_of(list: &[u8], code: u32, at: usize) -> usize {
    if let Some(kind) = Kind::of_code(code) {
        return end_of_kind(list, kind, at);
    }
    let count = word_at(list, at) as usize;
    let first = at + WORD;
    match Form::of_code(code) {
        Some(Form::Typed(Kind::Int | Kind::Vocab)) => first + WORD * count,
        Some(Form::Typed(Kind::Float)) => first + 2 * WORD * count,
        Some(Form::Typed(kind)) => (0..count).fold(first, |at, _| end_of_kind(list, kind, at)),
        _ => (0..count).fold(first, |at, _| end_of(list, word_at(list, at), at + WORD)),
    }
}

#[inline]
fn end_of_kind(list: &[u8], kind: Kind, at: usize) -> usize {
    match kind {
        Kind::Int | Kind::Vocab => at + WORD,
        Kind::Float => at + 2 * WORD,
        Kind::String | Kind::Blob => at + WORD + word_at(list, at) as usize,
    }
}
