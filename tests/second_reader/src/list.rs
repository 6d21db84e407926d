//! Lists: bytes to rows and a byte store, and back.
//!
//! Reading judges the whole list before a row is filled; writing judges rows and
//! store, then depth, then size, before a byte is written.

use crate::Error;

/// The most bytes a list may have.
pub const LIST_LIMIT: usize = 4096;
/// A list of one number for each further 4 bytes: 8 + 4 * 1022 is the limit.
pub const ROW_LIMIT: usize = 1023;
/// How deep lists may stand in each other, the outermost being 1.
pub const DEPTH_LIMIT: usize = 8;
/// The bytes of a row: three 32-bit numbers.
pub const ROW_BYTES: usize = 12;
/// The room of a buffer for rows, in bytes: 3,072 numbers.
pub const ROWS_ROOM: usize = 4 * 3072;
/// The room of a buffer for the byte store.
pub const STORE_ROOM: usize = 4096;
/// The code of a list whose elements follow their own codes.
pub const LIST_CODE: u32 = 256;

pub(crate) const WORD: usize = 4;
/// A list's code and count.
pub(crate) const LIST_HEADER: usize = 2 * WORD;

/// The kinds of element other than list, by their codes.
#[derive(Clone, Copy, PartialEq, Eq, Debug)]
#[repr(u32)]
pub enum Kind {
    Int = 1,
    String = 4,
    Vocab = 9,
    Float = 10,
    Blob = 12,
}

impl Kind {
    pub const ALL: [Kind; 5] = [Kind::Int, Kind::Vocab, Kind::Float, Kind::String, Kind::Blob];

    #[inline]
    pub const fn code(self) -> u32 {
        self as u32
    }

    #[inline]
    pub const fn of_code(code: u32) -> Option<Kind> {
        match code {
            1 => Some(Kind::Int),
            4 => Some(Kind::String),
            9 => Some(Kind::Vocab),
            10 => Some(Kind::Float),
            12 => Some(Kind::Blob),
            _ => None,
        }
    }
}

/// What a list's code says of its elements.
#[derive(Clone, Copy)]
pub(crate) enum Form {
    Untyped,
    Typed(Kind),
}

impl Form {
    pub(crate) fn of_code(code: u32) -> Option<Form> {
        if code == LIST_CODE {
            return Some(Form::Untyped);
        }
        Kind::of_code(code.wrapping_sub(LIST_CODE)).map(Form::Typed)
    }
}

/// An error with the offset of the item at fault and the number of lists open there.
#[derive(Clone, Copy, PartialEq, Eq, Debug)]
pub struct ListError {
    pub error: Error,
    pub offset: u64,
    /// A list is open from its count to the end of its last element. For 24 the list at fault
    /// counts too.
    pub depth: u64,
}

impl ListError {
    /// An error where no list is open.
    pub fn outside(error: Error, offset: u64) -> ListError {
        ListError { error, offset, depth: 0 }
    }
}

/// The sizes of a list that was read.
#[derive(Clone, Copy, PartialEq, Eq, Debug)]
pub struct Decoded {
    pub consumed: usize,
    pub rows: usize,
    /// The store bytes in use.
    pub stored: usize,
}

/// Error, bytes consumed, rows, offset, store bytes and depth, as the C call answers them.
pub fn numbers(answer: Result<Decoded, ListError>) -> [u64; 6] {
    match answer {
        Ok(Decoded { consumed, rows, stored }) => {
            [0, consumed as u64, rows as u64, 0, stored as u64, 0]
        }
        Err(ListError { error, offset, depth }) => [error.number(), 0, 0, offset, 0, depth],
    }
}

/// Reads the list at the front of `bytes`: its rows, 12 bytes each, to the front of
/// `rows` and its string and blob bytes to the front of `store`.
pub fn decode(bytes: &[u8], rows: &mut [u8], store: &mut [u8]) -> Result<Decoded, ListError> {
    if rows.len() < ROWS_ROOM || store.len() < STORE_ROOM {
        return Err(ListError::outside(Error::BufferTooSmall, 0));
    }
    let consumed = size(bytes)?;
    let mut fill = Fill { bytes, at: 0, rows, filled: 0, store, used: 0 };
    let code = fill.word();
    fill.list(code);
    Ok(Decoded { consumed, rows: fill.filled / ROW_BYTES, stored: fill.used })
}

/// The size of the list at the front of `bytes`.
#[inline]
pub(crate) fn size(bytes: &[u8]) -> Result<usize, ListError> {
    let bytes = &bytes[..bytes.len().min(LIST_LIMIT)];
    let mut judge = Judge { bytes, at: 0, open: 0 };
    match judge.outermost() {
        Ok(()) => Ok(judge.at),
        Err(Fault(error, offset)) => {
            Err(ListError { error, offset: offset.into(), depth: judge.open as u64 })
        }
    }
}

/// An error and its offset, which is at most the limit; small enough for a register. Its depth
/// is the number of lists that the judge leaves open.
struct Fault(Error, u16);

fn fault(error: Error, offset: usize) -> Fault {
    Fault(error, offset as u16)
}

pub(crate) fn word_at(bytes: &[u8], at: usize) -> u32 {
    u32::from_le_bytes(bytes[at..at + WORD].try_into().unwrap())
}

/// Goes through the items from the front and stops at the first fault.
struct Judge<'a> {
    /// The bytes given, as far as a list may reach.
    bytes: &'a [u8],
    at: usize,
    /// How many lists are open here.
    open: usize,
}

impl Judge<'_> {
    /// Passes one item of this size and answers its offset.
    #[inline]
    fn item(&mut self, size: usize) -> Result<usize, Fault> {
        let start = self.at;
        let end = start + size;
        if end > self.bytes.len() {
            return Err(item_cut(start, end));
        }
        self.at = end;
        Ok(start)
    }

    #[inline]
    fn word(&mut self) -> Result<u32, Fault> {
        let start = self.item(WORD)?;
        Ok(word_at(self.bytes, start))
    }

    fn outermost(&mut self) -> Result<(), Fault> {
        let code = self.word()?;
        let form = Form::of_code(code).ok_or(fault(Error::NotAListCode, 0))?;
        self.list(form, 0)
    }

    /// A list from its count on, where it is open, to its end; its code stands at `code_at`.
    fn list(&mut self, form: Form, code_at: usize) -> Result<(), Fault> {
        self.open += 1;
        let count_at = self.at;
        let count = self.word()?;
        if (count as i32) < 0 {
            return Err(fault(Error::NegativeCount, count_at));
        }
        let count = count as usize;
        match form {
            Form::Typed(_) if count == 0 => Err(fault(Error::NotCanonical, code_at)),
            Form::Typed(Kind::Int | Kind::Vocab) => self.fixed(count, WORD),
            Form::Typed(Kind::Float) => self.fixed(count, 2 * WORD),
            Form::Typed(Kind::String) => (0..count).try_for_each(|_| self.string()),
            Form::Typed(Kind::Blob) => (0..count).try_for_each(|_| self.blob()),
            Form::Untyped => self.untyped(count, code_at),
        }?;
        self.open -= 1;
        Ok(())
    }

    /// Elements of one size: all fit, or the first that doesn't is at fault.
    fn fixed(&mut self, count: usize, size: usize) -> Result<(), Fault> {
        let fitting = (self.bytes.len() - self.at) / size;
        self.at += size * count.min(fitting);
        if count > fitting {
            self.item(size)?;
        }
        Ok(())
    }

    fn untyped(&mut self, count: usize, code_at: usize) -> Result<(), Fault> {
        let mut one_kind = count > 0;
        let mut first = None;
        for _ in 0..count {
            let element_at = self.at;
            let code = self.word()?;
            let kind = Kind::of_code(code);
            match kind {
                Some(kind) => self.element(kind)?,
                None => self.nested(code, element_at)?,
            }
            one_kind &= kind.is_some() && *first.get_or_insert(code) == code;
        }
        if one_kind {
            return Err(fault(Error::NotCanonical, code_at));
        }
        Ok(())
    }

    /// An element whose code, at `code_at`, is none of the kinds': a list, if any.
    fn nested(&mut self, code: u32, code_at: usize) -> Result<(), Fault> {
        let form = Form::of_code(code).ok_or(fault(Error::ElementCodeUnknown, code_at))?;
        if self.open == DEPTH_LIMIT {
            return Err(fault(Error::TooDeep, code_at));
        }
        self.list(form, code_at)
    }

    #[inline]
    fn element(&mut self, kind: Kind) -> Result<(), Fault> {
        match kind {
            Kind::Int | Kind::Vocab => self.item(WORD).map(drop),
            Kind::Float => self.item(2 * WORD).map(drop),
            Kind::String => self.string(),
            Kind::Blob => self.blob(),
        }
    }

    fn string(&mut self) -> Result<(), Fault> {
        let length_at = self.at;
        let length = self.word()?;
        if (length as i32) < 1 {
            return Err(fault(Error::StringOrBlob, length_at));
        }
        let start = self.item(length as usize)?;
        let (last, text) = self.bytes[start..self.at].split_last().unwrap();
        if *last != 0 || text.contains(&0) {
            return Err(fault(Error::StringOrBlob, start));
        }
        Ok(())
    }

    fn blob(&mut self) -> Result<(), Fault> {
        let length_at = self.at;
        let length = self.word()?;
        if (length as i32) < 0 {
            return Err(fault(Error::StringOrBlob, length_at));
        }
        self.item(length as usize)?;
        Ok(())
    }
}

/// The fault of an item that does not fit: the limit comes before the end of the bytes.
#[cold]
fn item_cut(start: usize, end: usize) -> Fault {
    let error = if end > LIST_LIMIT { Error::BeyondLimit } else { Error::ListEnds };
    fault(error, start)
}

/// Goes through a judged list again and writes its rows and store bytes.
struct Fill<'a> {
    bytes: &'a [u8],
    at: usize,
    rows: &'a mut [u8],
    filled: usize,
    store: &'a mut [u8],
    used: usize,
}

impl Fill<'_> {
    #[inline]
    fn word(&mut self) -> u32 {
        let word = word_at(self.bytes, self.at);
        self.at += WORD;
        word
    }

    #[inline]
    fn row(&mut self, code: u32, second: u32, third: u32) {
        let row = &mut self.rows[self.filled..self.filled + ROW_BYTES];
        write_row(row, code, second, third);
        self.filled += ROW_BYTES;
    }

    /// A list behind its code.
    fn list(&mut self, code: u32) {
        let count = self.word();
        self.row(LIST_CODE, count, 0);
        match Form::of_code(code) {
            Some(Form::Typed(kind)) => self.typed(kind, count as usize),
            _ => self.untyped(count),
        }
    }

    fn untyped(&mut self, count: u32) {
        for _ in 0..count {
            let code = self.word();
            match Kind::of_code(code) {
                Some(kind) => self.element(kind),
                None => self.list(code),
            }
        }
    }

    fn typed(&mut self, kind: Kind, count: usize) {
        match kind {
            Kind::Int | Kind::Vocab => self.words(kind.code(), count),
            Kind::Float => self.floats(count),
            Kind::String | Kind::Blob => (0..count).for_each(|_| self.element(kind)),
        }
    }

    fn words(&mut self, code: u32, count: usize) {
        let elements = &self.bytes[self.at..self.at + WORD * count];
        let rows = &mut self.rows[self.filled..self.filled + ROW_BYTES * count];
        for (row, element) in rows.chunks_exact_mut(ROW_BYTES).zip(elements.chunks_exact(WORD)) {
            write_row(row, code, word_at(element, 0), 0);
        }
        self.at += WORD * count;
        self.filled += ROW_BYTES * count;
    }

    fn floats(&mut self, count: usize) {
        let elements = &self.bytes[self.at..self.at + 2 * WORD * count];
        let rows = &mut self.rows[self.filled..self.filled + ROW_BYTES * count];
        for (row, element) in rows.chunks_exact_mut(ROW_BYTES).zip(elements.chunks_exact(2 * WORD))
        {
            write_row(row, Kind::Float.code(), word_at(element, 0), word_at(element, WORD));
        }
        self.at += 2 * WORD * count;
        self.filled += ROW_BYTES * count;
    }

    #[inline]
    fn element(&mut self, kind: Kind) {
        match kind {
            Kind::Int | Kind::Vocab => {
                let bits = self.word();
                self.row(kind.code(), bits, 0);
            }
            Kind::Float => {
                let low = self.word();
                let high = self.word();
                self.row(kind.code(), low, high);
            }
            Kind::String => {
                let length = self.word() as usize;
                self.stored(kind, length - 1);
                self.at += 1;
            }
            Kind::Blob => {
                let length = self.word() as usize;
                self.stored(kind, length);
            }
        }
    }

    /// Copies the bytes of a string or blob to the store.
    fn stored(&mut self, kind: Kind, length: usize) {
        self.row(kind.code(), self.used as u32, length as u32);
        let run = &self.bytes[self.at..self.at + length];
        self.store[self.used..self.used + length].copy_from_slice(run);
        self.at += length;
        self.used += length;
    }
}

#[inline]
pub(crate) fn write_row(row: &mut [u8], code: u32, second: u32, third: u32) {
    row[..4].copy_from_slice(&code.to_le_bytes());
    row[4..8].copy_from_slice(&second.to_le_bytes());
    row[8..12].copy_from_slice(&third.to_le_bytes());
}

pub(crate) type Row = [u8; ROW_BYTES];

/// A row's three numbers.
#[inline]
pub(crate) fn numbers_of(row: &Row) -> [u32; 3] {
    [0, 4, 8].map(|at| word_at(row, at))
}

/// Writes the list that these rows, 12 bytes each, and store bytes describe to the front
/// of `list` and answers its length.
pub fn encode(rows: &[u8], store: &[u8], list: &mut [u8]) -> Result<usize, Error> {
    if list.len() < LIST_LIMIT {
        return Err(Error::BufferTooSmall);
    }
    let mut codes = [0; ROW_LIMIT];
    let rows = judge_rows(rows, store, |row, code| codes[row] = code)?;
    let mut image = Image { rows, next: 0, codes: &codes, store, list, at: 0 };
    image.list();
    Ok(image.at)
}

/// The rows of a list that can be written, or the first of the errors 30, 27 and 28. Tells
/// the row of each list and the code that it is written with.
pub(crate) fn judge_rows<'a>(
    rows: &'a [u8],
    store: &[u8],
    tell: impl FnMut(usize, u32),
) -> Result<&'a [Row], Error> {
    let (rows, left_over) = rows.as_chunks::<ROW_BYTES>();
    if !left_over.is_empty() || !describe_one_list(rows, store) {
        return Err(Error::NotOneList);
    }
    if too_deep(rows) {
        return Err(Error::TooDeep);
    }
    if rows.len() > ROW_LIMIT || (Plan { rows, next: 0, tell }).list_size() > LIST_LIMIT {
        return Err(Error::BeyondLimit);
    }
    Ok(rows)
}

/// Whether the rows are one list with all that is in it, of any depth and size, and
/// the store is their strings and blobs back to back.
fn describe_one_list(rows: &[Row], store: &[u8]) -> bool {
    if rows.first().is_none_or(|row| numbers_of(row)[0] != LIST_CODE) {
        return false;
    }
    // Elements still to come, over all open lists. A sum of counts tells where the
    // outermost list ends, whatever the depth.
    let mut awaited: u64 = 1;
    let mut used = 0;
    for row in rows {
        let [code, second, third] = numbers_of(row);
        if awaited == 0 {
            return false;
        }
        awaited -= 1;
        let fine = match (code, Kind::of_code(code)) {
            (LIST_CODE, _) => {
                awaited += u64::from(second);
                third == 0 && second as i32 >= 0
            }
            (_, Some(Kind::Int | Kind::Vocab)) => third == 0,
            (_, Some(Kind::Float)) => true,
            (_, Some(kind)) => {
                let run = stored_at(store, used, second, third);
                used += third as usize;
                run.is_some_and(|bytes| kind == Kind::Blob || !bytes.contains(&0))
            }
            (_, None) => false,
        };
        if !fine {
            return false;
        }
    }
    awaited == 0 && used == store.len()
}

/// The run of a string or blob row, if it begins where the one before it ended.
fn stored_at(store: &[u8], used: usize, offset: u32, length: u32) -> Option<&[u8]> {
    if offset as usize != used || (length as i32) < 0 {
        return None;
    }
    store.get(used..used + length as usize)
}

/// Whether a list of well-formed rows stands deeper than the limit.
fn too_deep(rows: &[Row]) -> bool {
    let mut awaited = [0; DEPTH_LIMIT];
    let mut depth = 0;
    for row in rows {
        let [code, count, _] = numbers_of(row);
        while depth > 0 && awaited[depth - 1] == 0 {
            depth -= 1;
        }
        if depth > 0 {
            awaited[depth - 1] -= 1;
        }
        if code == LIST_CODE {
            if depth == DEPTH_LIMIT {
                return true;
            }
            awaited[depth] = count;
            depth += 1;
        }
    }
    false
}

/// Finds the code of every list and the size of the whole.
struct Plan<'a, Tell> {
    rows: &'a [Row],
    next: usize,
    /// Takes the row of a list and the code it is written with.
    tell: Tell,
}

impl<Tell: FnMut(usize, u32)> Plan<'_, Tell> {
    /// The bytes of the list whose row is next.
    fn list_size(&mut self) -> usize {
        let own = self.next;
        let [_, count, _] = numbers_of(&self.rows[own]);
        self.next += 1;
        let mut size = LIST_HEADER;
        let mut plain = 0;
        let mut one_kind = true;
        let first = self.rows.get(self.next).map_or(LIST_CODE, |row| numbers_of(row)[0]);
        for _ in 0..count {
            let [code, _, length] = numbers_of(&self.rows[self.next]);
            one_kind &= code == first;
            if code == LIST_CODE {
                size += self.list_size();
            } else {
                size += element_size(code, length as usize);
                plain += 1;
                self.next += 1;
            }
        }
        let typed = count > 0 && one_kind && first != LIST_CODE;
        (self.tell)(own, if typed { LIST_CODE + first } else { LIST_CODE });
        if typed {
            size
        } else {
            size + WORD * plain
        }
    }
}

/// The bytes of an element behind its code, if it has one.
fn element_size(code: u32, length: usize) -> usize {
    match Kind::of_code(code) {
        Some(Kind::Float) => 2 * WORD,
        Some(Kind::String) => WORD + length + 1,
        Some(Kind::Blob) => WORD + length,
        _ => WORD,
    }
}

/// Writes judged rows.
struct Image<'a> {
    rows: &'a [Row],
    next: usize,
    codes: &'a [u32; ROW_LIMIT],
    store: &'a [u8],
    list: &'a mut [u8],
    at: usize,
}

impl Image<'_> {
    fn bytes(&mut self, bytes: &[u8]) {
        self.list[self.at..self.at + bytes.len()].copy_from_slice(bytes);
        self.at += bytes.len();
    }

    fn word(&mut self, word: u32) {
        self.bytes(&word.to_le_bytes());
    }

    /// The list whose row is next.
    fn list(&mut self) {
        let code = self.codes[self.next];
        let [_, count, _] = numbers_of(&self.rows[self.next]);
        self.next += 1;
        self.word(code);
        self.word(count);
        for _ in 0..count {
            let row = numbers_of(&self.rows[self.next]);
            if row[0] == LIST_CODE {
                self.list();
                continue;
            }
            self.next += 1;
            if code == LIST_CODE {
                self.word(row[0]);
            }
            self.element(row);
        }
    }

    fn element(&mut self, [code, second, third]: [u32; 3]) {
        match Kind::of_code(code) {
            Some(Kind::Float) => {
                self.word(second);
                self.word(third);
            }
            Some(Kind::String) => {
                self.word(third + 1);
                self.stored(second, third);
                self.bytes(&[0]);
            }
            Some(Kind::Blob) => {
                self.word(third);
                self.stored(second, third);
            }
            _ => self.word(second),
        }
    }

    fn stored(&mut self, offset: u32, length: u32) {
        let start = offset as usize;
        let store = self.store;
        self.bytes(&store[start..start + length as usize]);
    }
}
