//! Lists as text: rows and store to characters, and back.
//!
//! Writing judges rows and store as for a list's bytes, then whether each element has a
//! text form, before a character is written. Reading judges the whole text, at any depth
//! and size, before a row is filled; only then does it go by the nesting.

use crate::list::{
    judge_rows, numbers_of, write_row, Kind, Row, DEPTH_LIMIT, LIST_CODE, LIST_HEADER, LIST_LIMIT,
    ROWS_ROOM, ROW_BYTES, STORE_ROOM, WORD,
};
use crate::Error;

/// The room of an area that a text is written to, and the most characters of a text.
pub const TEXT_ROOM: usize = 16_384;

/// The hexadecimal digits behind a float's point.
const FRACTION_DIGITS: usize = 13;
const FRACTION_BITS: u32 = 52;
const EXPONENT_MASK: u64 = 0x7ff;
const EXPONENT_BIAS: u32 = 1023;
const SMALLEST_EXPONENT: u32 = 1022;
/// The most bytes of a vocab's text.
const VOCAB_BYTES: usize = 4;

/// The sizes of a list whose text was read.
#[derive(Clone, Copy, PartialEq, Eq, Debug)]
pub struct Read {
    pub rows: usize,
    /// The store bytes in use.
    pub stored: usize,
}

/// Error, rows and store bytes, as the C call answers them.
pub fn numbers(answer: Result<Read, Error>) -> [u64; 3] {
    match answer {
        Ok(Read { rows, stored }) => [0, rows as u64, stored as u64],
        Err(error) => [error.number(), 0, 0],
    }
}

/// Writes the text of the list that these rows, 12 bytes each, and store bytes describe to
/// the front of `text` and answers its length.
pub fn encode(rows: &[u8], store: &[u8], text: &mut [u8]) -> Result<usize, Error> {
    if text.len() < TEXT_ROOM {
        return Err(Error::BufferTooSmall);
    }
    let rows = judge_rows(rows, store, |_, _| ())?;
    if !rows.iter().all(has_text_form) {
        return Err(Error::NoTextForm);
    }
    let mut writing = Writing { rows, next: 0, store, text, at: 0 };
    writing.elements();
    Ok(writing.at)
}

fn has_text_form(row: &Row) -> bool {
    let [code, second, third] = numbers_of(row);
    match Kind::of_code(code) {
        Some(Kind::Float) => third >> 20 & EXPONENT_MASK as u32 != EXPONENT_MASK as u32,
        Some(Kind::Vocab) => is_word(second),
        _ => true,
    }
}

/// Whether a vocab's bytes are one to four that may stand between [ and ], then zeros.
fn is_word(bits: u32) -> bool {
    let mut left = bits;
    while left != 0 {
        if !in_vocab(left as u8) {
            return false;
        }
        left >>= 8;
    }
    bits != 0
}

#[inline]
fn in_vocab(byte: u8) -> bool {
    matches!(byte, 33..=126) && byte != b'[' && byte != b']'
}

/// Whether a byte of a string stands for itself.
#[inline]
fn is_plain(byte: u8) -> bool {
    matches!(byte, 32..=126) && byte != b'"' && byte != b'\\'
}

/// Writes judged rows.
struct Writing<'a> {
    rows: &'a [Row],
    next: usize,
    store: &'a [u8],
    text: &'a mut [u8],
    at: usize,
}

impl Writing<'_> {
    #[inline]
    fn put(&mut self, byte: u8) {
        self.text[self.at] = byte;
        self.at += 1;
    }

    #[inline]
    fn put_all(&mut self, bytes: &[u8]) {
        self.text[self.at..self.at + bytes.len()].copy_from_slice(bytes);
        self.at += bytes.len();
    }

    /// The elements of the list whose row is next.
    fn elements(&mut self) {
        let [_, count, _] = numbers_of(&self.rows[self.next]);
        self.next += 1;
        for at in 0..count {
            if at > 0 {
                self.put(b' ');
            }
            let row = numbers_of(&self.rows[self.next]);
            if row[0] == LIST_CODE {
                self.put(b'(');
                self.elements();
                self.put(b')');
            } else {
                self.next += 1;
                self.element(row);
            }
        }
    }

    #[inline]
    fn element(&mut self, [code, second, third]: [u32; 3]) {
        match Kind::of_code(code) {
            Some(Kind::Float) => self.float(u64::from(second) | u64::from(third) << 32),
            Some(Kind::String) => self.string(second as usize, third as usize),
            Some(Kind::Blob) => self.blob(second as usize, third as usize),
            Some(Kind::Vocab) => self.vocab(second),
            _ => self.int(second as i32),
        }
    }

    fn int(&mut self, number: i32) {
        if number < 0 {
            self.put(b'-');
        }
        self.decimal(number.unsigned_abs());
    }

    fn decimal(&mut self, number: u32) {
        let mut digits = [0; 10];
        let mut first = digits.len();
        let mut left = number;
        loop {
            first -= 1;
            digits[first] = b'0' + (left % 10) as u8;
            left /= 10;
            if left == 0 {
                break;
            }
        }
        self.put_all(&digits[first..]);
    }

    fn float(&mut self, bits: u64) {
        let exponent = (bits >> FRACTION_BITS & EXPONENT_MASK) as u32;
        let fraction = bits & ((1 << FRACTION_BITS) - 1);
        if bits >> 63 == 1 {
            self.put(b'-');
        }
        self.put_all(if exponent == 0 { b"0x0." } else { b"0x1." });
        let mut digits = [0; FRACTION_DIGITS];
        for (at, digit) in digits.iter_mut().rev().enumerate() {
            *digit = b"0123456789abcdef"[(fraction >> (4 * at) & 15) as usize];
        }
        self.put_all(&digits);
        if exponent >= EXPONENT_BIAS || (exponent == 0 && fraction == 0) {
            self.put_all(b"p+");
            self.decimal(exponent.saturating_sub(EXPONENT_BIAS));
        } else {
            self.put_all(b"p-");
            self.decimal(EXPONENT_BIAS - exponent.max(1));
        }
    }

    fn string(&mut self, start: usize, length: usize) {
        self.put(b'"');
        let store = self.store;
        for &byte in &store[start..start + length] {
            if is_plain(byte) {
                self.put(byte);
            } else if matches!(byte, 32..=126) {
                self.put_all(&[b'\\', byte]);
            } else {
                let digit = |shift: u32| b'0' + (byte >> shift & 7);
                self.put_all(&[b'\\', digit(6), digit(3), digit(0)]);
            }
        }
        self.put(b'"');
    }

    fn blob(&mut self, start: usize, length: usize) {
        self.put(b'{');
        let store = self.store;
        for (at, &byte) in store[start..start + length].iter().enumerate() {
            if at > 0 {
                self.put(b' ');
            }
            if byte >= 100 {
                self.put(b'0' + byte / 100);
            }
            if byte >= 10 {
                self.put(b'0' + byte / 10 % 10);
            }
            self.put(b'0' + byte % 10);
        }
        self.put(b'}');
    }

    fn vocab(&mut self, bits: u32) {
        self.put(b'[');
        let mut left = bits;
        while left != 0 {
            self.put(left as u8);
            left >>= 8;
        }
        self.put(b']');
    }
}

/// Reads a text: the rows of its list, 12 bytes each, to the front of `rows` and its string
/// and blob bytes to the front of `store`.
pub fn decode(text: &[u8], rows: &mut [u8], store: &mut [u8]) -> Result<Read, Error> {
    if rows.len() < ROWS_ROOM || store.len() < STORE_ROOM {
        return Err(Error::BufferTooSmall);
    }
    judge(text)?;
    let mut filling = Filling { text, at: 0, rows, filled: 0, store, used: 0 };
    filling.list();
    Ok(Read { rows: filling.filled / ROW_BYTES, stored: filling.used })
}

fn judge(text: &[u8]) -> Result<(), Error> {
    let mut judging = Judging { text, at: 0, tally: Tally::default() };
    judging.whole().ok_or(Error::NotAText)?;
    if judging.tally.deepest > DEPTH_LIMIT {
        return Err(Error::TooDeep);
    }
    if judging.tally.size > LIST_LIMIT {
        return Err(Error::BeyondLimit);
    }
    Ok(())
}

/// How deep the lists of a text are, and the bytes of the whole while none is too deep.
#[derive(Default)]
struct Tally {
    depth: usize,
    deepest: usize,
    size: usize,
    open: [Open; DEPTH_LIMIT],
}

/// What is known of the elements of a list that is open.
#[derive(Clone, Copy, Default)]
struct Open {
    /// The code of the first element, 0 before it.
    first: u32,
    of_several_kinds: bool,
    /// Elements other than lists.
    plain: usize,
}

impl Tally {
    #[inline]
    fn element(&mut self, code: u32, size: usize) {
        self.size += size;
        if let Some(list) = self.open.get_mut(self.depth.wrapping_sub(1)) {
            if list.first == 0 {
                list.first = code;
            }
            list.of_several_kinds |= code != list.first;
            list.plain += usize::from(code != LIST_CODE);
        }
    }

    fn open(&mut self) {
        self.element(LIST_CODE, LIST_HEADER);
        if let Some(list) = self.open.get_mut(self.depth) {
            *list = Open::default();
        }
        self.depth += 1;
        self.deepest = self.deepest.max(self.depth);
    }

    fn close(&mut self) {
        self.depth -= 1;
        if let Some(list) = self.open.get(self.depth) {
            if list.of_several_kinds {
                self.size += WORD * list.plain;
            }
        }
    }
}

/// Goes through a text from the front; none where it is no text.
struct Judging<'a> {
    text: &'a [u8],
    at: usize,
    tally: Tally,
}

impl Judging<'_> {
    #[inline]
    fn next(&mut self) -> Option<u8> {
        let byte = self.peek()?;
        self.at += 1;
        Some(byte)
    }

    #[inline]
    fn peek(&self) -> Option<u8> {
        self.text.get(self.at).copied()
    }

    fn whole(&mut self) -> Option<()> {
        self.tally.open();
        if self.text.is_empty() {
            return Some(());
        }
        loop {
            let byte = self.next()?;
            if byte == b'(' {
                self.tally.open();
                if self.peek()? != b')' {
                    continue;
                }
            } else {
                self.element(byte)?;
            }
            while self.peek() == Some(b')') && self.tally.depth > 1 {
                self.tally.close();
                self.at += 1;
            }
            match self.next() {
                None if self.tally.depth == 1 => break,
                Some(b' ') => {}
                _ => return None,
            }
        }
        self.tally.close();
        Some(())
    }

    /// An element other than a list, behind its first character.
    #[inline]
    fn element(&mut self, first: u8) -> Option<()> {
        let (kind, size) = match first {
            b'"' => (Kind::String, WORD + self.string()? + 1),
            b'{' => (Kind::Blob, WORD + self.blob()?),
            b'[' => {
                self.vocab()?;
                (Kind::Vocab, WORD)
            }
            _ => {
                let negative = first == b'-';
                let digit = if negative { self.next()? } else { first };
                if digit == b'0' && self.peek() == Some(b'x') {
                    self.at += 1;
                    self.float()?;
                    (Kind::Float, 2 * WORD)
                } else {
                    self.int(negative, digit)?;
                    (Kind::Int, WORD)
                }
            }
        };
        self.tally.element(kind.code(), size);
        Some(())
    }

    /// A decimal number of at most `most` behind its first digit.
    #[inline]
    fn decimal(&mut self, first: u8, most: u64) -> Option<u64> {
        let mut number = u64::from(digit_of(first)?);
        while let Some(digit) = self.peek().and_then(digit_of) {
            if number == 0 {
                return None;
            }
            number = 10 * number + u64::from(digit);
            if number > most {
                return None;
            }
            self.at += 1;
        }
        Some(number)
    }

    fn int(&mut self, negative: bool, first: u8) -> Option<()> {
        let most = i32::MAX as u64 + u64::from(negative);
        let number = self.decimal(first, most)?;
        (number > 0 || !negative).then_some(())
    }

    /// A float behind 0x.
    fn float(&mut self) -> Option<()> {
        let front = self.text.get(self.at..self.at + FRACTION_DIGITS + 4)?;
        self.at += front.len();
        let (digits, behind) = front[2..].split_at(FRACTION_DIGITS);
        if front[1] != b'.' || behind[0] != b'p' || !digits.iter().all(|&digit| is_hex(digit)) {
            return None;
        }
        let first = self.next()?;
        let exponent = self.decimal(first, EXPONENT_BIAS.into())? as u32;
        let owed = match (front[0], behind[1]) {
            (b'1', b'+') => true,
            (b'1', b'-') => (1..=SMALLEST_EXPONENT).contains(&exponent),
            (b'0', b'+') => exponent == 0 && digits.iter().all(|&digit| digit == b'0'),
            (b'0', b'-') => {
                exponent == SMALLEST_EXPONENT && digits.iter().any(|&digit| digit != b'0')
            }
            _ => false,
        };
        owed.then_some(())
    }

    /// A string behind its first quote; the number of its bytes.
    fn string(&mut self) -> Option<usize> {
        let mut length = 0;
        loop {
            match self.next()? {
                b'"' => return Some(length),
                b'\\' => self.escaped()?,
                byte if is_plain(byte) => {}
                _ => return None,
            }
            length += 1;
        }
    }

    fn escaped(&mut self) -> Option<()> {
        let first = self.next()?;
        if first == b'"' || first == b'\\' {
            return Some(());
        }
        let digits = [first, self.next()?, self.next()?];
        if !matches!(digits, [b'0'..=b'3', b'0'..=b'7', b'0'..=b'7']) {
            return None;
        }
        matches!(octal(digits), 1..=31 | 127..=255).then_some(())
    }

    /// A blob behind its bracket; the number of its bytes.
    fn blob(&mut self) -> Option<usize> {
        let mut length = 0;
        let mut first = self.next()?;
        if first == b'}' {
            return Some(length);
        }
        loop {
            self.decimal(first, 255)?;
            length += 1;
            match self.next()? {
                b'}' => return Some(length),
                b' ' => first = self.next()?,
                _ => return None,
            }
        }
    }

    /// A vocab behind its bracket.
    fn vocab(&mut self) -> Option<()> {
        let mut length = 0;
        loop {
            match self.next()? {
                b']' if length > 0 => return Some(()),
                byte if in_vocab(byte) && length < VOCAB_BYTES => length += 1,
                _ => return None,
            }
        }
    }
}

#[inline]
fn digit_of(byte: u8) -> Option<u8> {
    let digit = byte.wrapping_sub(b'0');
    (digit < 10).then_some(digit)
}

#[inline]
fn is_hex(byte: u8) -> bool {
    matches!(byte, b'0'..=b'9' | b'a'..=b'f')
}

/// The byte of three octal digits, the first at most 3.
#[inline]
fn octal(digits: [u8; 3]) -> u8 {
    digits.iter().fold(0, |byte, digit| byte << 3 | (digit & 7))
}

/// Goes through a judged text again and writes its rows and store bytes.
struct Filling<'a> {
    text: &'a [u8],
    at: usize,
    rows: &'a mut [u8],
    filled: usize,
    store: &'a mut [u8],
    used: usize,
}

impl Filling<'_> {
    #[inline]
    fn next(&mut self) -> u8 {
        let byte = self.text[self.at];
        self.at += 1;
        byte
    }

    #[inline]
    fn row(&mut self, code: u32, second: u32, third: u32) {
        let row = &mut self.rows[self.filled..self.filled + ROW_BYTES];
        write_row(row, code, second, third);
        self.filled += ROW_BYTES;
    }

    #[inline]
    fn store(&mut self, byte: u8) {
        self.store[self.used] = byte;
        self.used += 1;
    }

    /// A list from its first element on, through the bracket that closes it if there is one.
    fn list(&mut self) {
        let own = self.filled;
        let mut count: u32 = 0;
        self.row(LIST_CODE, 0, 0);
        while self.at < self.text.len() {
            match self.next() {
                b')' => break,
                b' ' => continue,
                b'(' => self.list(),
                first => self.element(first),
            }
            count += 1;
        }
        self.rows[own + WORD..own + 2 * WORD].copy_from_slice(&count.to_le_bytes());
    }

    /// An element other than a list, behind its first character.
    #[inline]
    fn element(&mut self, first: u8) {
        match first {
            b'"' => self.string(),
            b'{' => self.blob(),
            b'[' => self.vocab(),
            b'-' => {
                let digit = self.next();
                self.number(true, digit);
            }
            _ => self.number(false, first),
        }
    }

    fn number(&mut self, negative: bool, first: u8) {
        if first == b'0' && self.text.get(self.at) == Some(&b'x') {
            self.at += 1;
            self.float(negative);
        } else {
            let number = self.decimal(first);
            let bits = if negative { number.wrapping_neg() } else { number };
            self.row(Kind::Int.code(), bits, 0);
        }
    }

    #[inline]
    fn decimal(&mut self, first: u8) -> u32 {
        let mut number = u32::from(first - b'0');
        while let Some(digit) = self.text.get(self.at).copied().and_then(digit_of) {
            number = 10 * number + u32::from(digit);
            self.at += 1;
        }
        number
    }

    /// A float behind 0x.
    fn float(&mut self, negative: bool) {
        let front = &self.text[self.at..self.at + FRACTION_DIGITS + 4];
        let fraction = front[2..2 + FRACTION_DIGITS].iter().fold(0, |fraction, &digit| {
            let value = if digit <= b'9' { digit - b'0' } else { digit - b'a' + 10 };
            fraction << 4 | u64::from(value)
        });
        let (subnormal, below_one) = (front[0] == b'0', front[FRACTION_DIGITS + 3] == b'-');
        self.at += front.len();
        let first = self.next();
        let exponent = self.decimal(first);
        let biased = match (subnormal, below_one) {
            (true, _) => 0,
            (false, true) => EXPONENT_BIAS - exponent,
            (false, false) => EXPONENT_BIAS + exponent,
        };
        let high = (fraction >> 32) as u32 | biased << 20 | u32::from(negative) << 31;
        self.row(Kind::Float.code(), fraction as u32, high);
    }

    fn string(&mut self) {
        let start = self.used;
        loop {
            match self.next() {
                b'"' => break,
                b'\\' => {
                    let byte = self.escaped();
                    self.store(byte);
                }
                byte => self.store(byte),
            }
        }
        self.row(Kind::String.code(), start as u32, (self.used - start) as u32);
    }

    fn escaped(&mut self) -> u8 {
        let first = self.next();
        if first == b'"' || first == b'\\' {
            return first;
        }
        let digits = [first, self.next(), self.next()];
        octal(digits)
    }

    fn blob(&mut self) {
        let start = self.used;
        loop {
            match self.next() {
                b'}' => break,
                b' ' => {}
                first => {
                    let byte = self.decimal(first) as u8;
                    self.store(byte);
                }
            }
        }
        self.row(Kind::Blob.code(), start as u32, (self.used - start) as u32);
    }

    fn vocab(&mut self) {
        let mut bits = 0;
        let mut shift = 0;
        loop {
            match self.next() {
                b']' => break,
                byte => bits |= u32::from(byte) << shift,
            }
            shift += 8;
        }
        self.row(Kind::Vocab.code(), bits, 0);
    }
}
