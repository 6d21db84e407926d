//! Lists: reading item by item, with no short cut for lists of one kind, and writing by
//! way of the tree that the rows describe.

use crate::generate::list::{image, Element};
use crate::list::{ListError, DEPTH_LIMIT, LIST_LIMIT, ROW_BYTES};
use crate::Error;
use std::collections::BTreeSet;

/// What is read: the bytes consumed, the rows' numbers and the store bytes.
#[derive(Clone, PartialEq, Eq, Debug)]
pub struct Read {
    pub consumed: usize,
    pub rows: Vec<u32>,
    pub store: Vec<u8>,
}

/// The list at the front of the bytes.
pub fn read(bytes: &[u8]) -> Result<Read, ListError> {
    let mut reading = Reading { bytes, at: 0, rows: Vec::new(), store: Vec::new() };
    let code = reading.word(0)?;
    if !is_list(code) {
        return fault(Error::NotAListCode, 0, 0);
    }
    reading.list(code, 0, 1)?;
    Ok(Read { consumed: reading.at, rows: reading.rows, store: reading.store })
}

fn fault<Any>(error: Error, offset: usize, depth: usize) -> Result<Any, ListError> {
    Err(ListError { error, offset: offset as u64, depth: depth as u64 })
}

fn is_kind(code: u32) -> bool {
    [1, 4, 9, 10, 12].contains(&code)
}

fn is_list(code: u32) -> bool {
    code == 256 || (code > 256 && is_kind(code - 256))
}

struct Reading<'a> {
    bytes: &'a [u8],
    at: usize,
    rows: Vec<u32>,
    store: Vec<u8>,
}

impl<'a> Reading<'a> {
    /// The next item, which stands in so many lists.
    fn item(&mut self, size: usize, depth: usize) -> Result<&'a [u8], ListError> {
        let (start, end) = (self.at, self.at + size);
        if end > LIST_LIMIT {
            return fault(Error::BeyondLimit, start, depth);
        }
        if end > self.bytes.len() {
            return fault(Error::ListEnds, start, depth);
        }
        self.at = end;
        Ok(&self.bytes[start..end])
    }

    fn word(&mut self, depth: usize) -> Result<u32, ListError> {
        self.item(4, depth).map(|bytes| u32::from_le_bytes(bytes.try_into().unwrap()))
    }

    /// A list of this depth, behind its code, which stands in one list fewer. All that follows
    /// is in this list, and 24 is at its depth too.
    fn list(&mut self, code: u32, code_at: usize, depth: usize) -> Result<(), ListError> {
        let count_at = self.at;
        let count = self.word(depth)?;
        if count > i32::MAX as u32 {
            return fault(Error::NegativeCount, count_at, depth);
        }
        self.rows.extend([256, count, 0]);
        if code > 256 && count == 0 {
            return fault(Error::NotCanonical, code_at, depth);
        }
        let mut kinds = BTreeSet::new();
        for _ in 0..count {
            let element_at = self.at;
            let element = if code > 256 { code - 256 } else { self.word(depth)? };
            if is_kind(element) {
                kinds.insert(element);
                self.element(element, depth)?;
            } else if !is_list(element) {
                return fault(Error::ElementCodeUnknown, element_at, depth);
            } else if depth == DEPTH_LIMIT {
                return fault(Error::TooDeep, element_at, depth);
            } else {
                kinds.insert(256);
                self.list(element, element_at, depth + 1)?;
            }
        }
        if code == 256 && kinds.len() == 1 && !kinds.contains(&256) {
            return fault(Error::NotCanonical, code_at, depth);
        }
        Ok(())
    }

    fn element(&mut self, code: u32, depth: usize) -> Result<(), ListError> {
        let length_at = self.at;
        let first = self.word_or_float(code, depth)?;
        match code {
            1 | 9 => self.rows.extend([code, first as u32, 0]),
            10 => self.rows.extend([code, first as u32, (first >> 32) as u32]),
            _ => {
                let length = first as u32 as i32;
                if length < i32::from(code == 4) {
                    return fault(Error::StringOrBlob, length_at, depth);
                }
                let run_at = self.at;
                let mut run = self.item(length as usize, depth)?;
                if code == 4 {
                    if run.iter().position(|&byte| byte == 0) != Some(run.len() - 1) {
                        return fault(Error::StringOrBlob, run_at, depth);
                    }
                    run = &run[..run.len() - 1];
                }
                self.rows.extend([code, self.store.len() as u32, run.len() as u32]);
                self.store.extend(run);
            }
        }
        Ok(())
    }

    /// The 8 bytes of a float; else the number that an element begins with.
    fn word_or_float(&mut self, code: u32, depth: usize) -> Result<u64, ListError> {
        match code {
            10 => self.item(8, depth).map(|bytes| u64::from_le_bytes(bytes.try_into().unwrap())),
            _ => self.word(depth).map(u64::from),
        }
    }
}

/// The bytes of the list that rows, 12 bytes each, and store bytes describe.
pub fn write(rows: &[u8], store: &[u8]) -> Result<Vec<u8>, Error> {
    writable(rows, store).map(|elements| image(&elements))
}

/// The list that rows and store describe, or the first of the errors 30, 27 and 28.
pub(super) fn writable(rows: &[u8], store: &[u8]) -> Result<Vec<Element>, Error> {
    let Some((elements, depth)) = described(rows, store) else { return Err(Error::NotOneList) };
    if depth > DEPTH_LIMIT {
        return Err(Error::TooDeep);
    }
    if image(&elements).len() > LIST_LIMIT {
        return Err(Error::BeyondLimit);
    }
    Ok(elements)
}

/// The one list that rows and store describe, of any depth and size, and how deep it is.
fn described(rows: &[u8], store: &[u8]) -> Option<(Vec<Element>, usize)> {
    let (whole, left_over) = rows.as_chunks::<ROW_BYTES>();
    let mut describing = Describing { rows: whole, store, used: 0 };
    let (Element::List(elements), depth) = describing.next()? else { return None };
    let all_used = left_over.is_empty() && describing.rows.is_empty();
    (all_used && describing.used == store.len()).then_some((elements, depth))
}

/// The rows not yet gone through, and how much of the store those before them cover.
struct Describing<'a> {
    rows: &'a [[u8; ROW_BYTES]],
    store: &'a [u8],
    used: usize,
}

impl Describing<'_> {
    /// The element whose row is next, and how deep it is: 0 but for a list.
    fn next(&mut self) -> Option<(Element, usize)> {
        let (row, behind) = self.rows.split_first()?;
        self.rows = behind;
        let [code, second, third] =
            [0, 4, 8].map(|at| u32::from_le_bytes(row[at..at + 4].try_into().unwrap()));
        let element = match code {
            256 if third == 0 && second <= i32::MAX as u32 => return self.list(second),
            1 if third == 0 => Element::Int(second),
            9 if third == 0 => Element::Vocab(second),
            10 => Element::Float(u64::from(second) | u64::from(third) << 32),
            4 => Element::String(self.run(second, third).filter(|run| !run.contains(&0))?),
            12 => Element::Blob(self.run(second, third)?),
            _ => return None,
        };
        Some((element, 0))
    }

    fn list(&mut self, count: u32) -> Option<(Element, usize)> {
        let mut elements = Vec::new();
        let mut deepest = 0;
        for _ in 0..count {
            let (element, depth) = self.next()?;
            elements.push(element);
            deepest = deepest.max(depth);
        }
        Some((Element::List(elements), deepest + 1))
    }

    /// The bytes of a string or blob, which begin where those before them end.
    fn run(&mut self, offset: u32, length: u32) -> Option<Vec<u8>> {
        let start = self.used;
        if offset as usize != start || length > i32::MAX as u32 {
            return None;
        }
        self.used = start + length as usize;
        self.store.get(start..self.used).map(<[u8]>::to_vec)
    }
}
