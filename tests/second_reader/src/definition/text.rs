//! Lists as text: writing by way of the tree; reading by pieces, each of which must be just
//! what is written for the element that it is taken for.

use super::list::writable;
use crate::generate::list::{image, rows_and_store, Element};
use crate::generate::text::{element_text, text_of};
use crate::list::{DEPTH_LIMIT, LIST_LIMIT};
use crate::text::TEXT_ROOM;
use crate::Error;

/// The text of the list that rows, 12 bytes each, and store bytes describe.
pub fn write(rows: &[u8], store: &[u8]) -> Result<Vec<u8>, Error> {
    let text = text_of(&writable(rows, store)?).ok_or(Error::NoTextForm)?;
    assert!(text.len() <= TEXT_ROOM, "a text of {} characters", text.len());
    Ok(text)
}

/// The rows' numbers and the store bytes of the list that has this text.
pub fn read(text: &[u8]) -> Result<(Vec<u32>, Vec<u8>), Error> {
    let pieces = pieces(text).ok_or(Error::NotAText)?;
    let depth = depth(&pieces).ok_or(Error::NotAText)?;
    if depth > DEPTH_LIMIT {
        return Err(Error::TooDeep);
    }
    let elements = tree(&mut pieces.into_iter());
    assert_eq!(text_of(&elements).as_deref(), Some(text));
    if image(&elements).len() > LIST_LIMIT {
        return Err(Error::BeyondLimit);
    }
    Ok(rows_and_store(&elements))
}

#[derive(Debug)]
enum Piece {
    Open,
    Close,
    Space,
    Element(Element),
}

/// The pieces of a text, none where an element is not as it is written.
fn pieces(text: &[u8]) -> Option<Vec<Piece>> {
    let text = std::str::from_utf8(text).ok().filter(|text| text.is_ascii())?;
    let mut pieces = Vec::new();
    let mut left = text;
    while !left.is_empty() {
        let (piece, behind) = left.split_at(piece_length(left)?);
        pieces.push(match piece {
            "(" => Piece::Open,
            ")" => Piece::Close,
            " " => Piece::Space,
            _ => {
                let element = taken_for(piece)?;
                if element_text(&element)? != piece {
                    return None;
                }
                Piece::Element(element)
            }
        });
        left = behind;
    }
    Some(pieces)
}

/// How long the first piece is; strings, blobs and vocabs end at their closing sign, others
/// before a space or a bracket.
fn piece_length(text: &str) -> Option<usize> {
    let closing = |sign| text.find(sign).map(|at| at + 1);
    match text.as_bytes()[0] {
        b'(' | b')' | b' ' => Some(1),
        b'{' => closing('}'),
        b'[' => closing(']'),
        b'"' => {
            let mut at = 1;
            loop {
                match text.as_bytes().get(at)? {
                    b'"' => return Some(at + 1),
                    b'\\' => at += 2,
                    _ => at += 1,
                }
            }
        }
        _ => Some(text.find([' ', '(', ')']).unwrap_or(text.len())),
    }
}

/// The element that a piece could be the text of.
fn taken_for(piece: &str) -> Option<Element> {
    let within = || &piece[1..piece.len() - 1];
    Some(match piece.as_bytes()[0] {
        // No string of a list has a zero in it.
        b'"' => Element::String(string_of(within()).filter(|bytes| !bytes.contains(&0))?),
        b'{' if within().is_empty() => Element::Blob(Vec::new()),
        b'{' => Element::Blob(within().split(' ').map(|n| n.parse().ok()).collect::<Option<_>>()?),
        b'[' => {
            let mut bytes = [0; 4];
            bytes.get_mut(..within().len())?.copy_from_slice(within().as_bytes());
            Element::Vocab(u32::from_le_bytes(bytes))
        }
        _ if piece.contains('x') => Element::Float(float_of(piece)?.to_bits()),
        _ => Element::Int(piece.parse::<i32>().ok()? as u32),
    })
}

fn string_of(within: &str) -> Option<Vec<u8>> {
    let mut bytes = Vec::new();
    let mut left = within;
    while let Some(byte) = left.bytes().next() {
        left = &left[1..];
        if byte != b'\\' {
            bytes.push(byte);
            continue;
        }
        let digits = left.get(..3).and_then(|digits| u8::from_str_radix(digits, 8).ok());
        let (escaped, length) = match digits {
            Some(escaped) => (escaped, 3),
            None => (left.bytes().next()?, 1),
        };
        bytes.push(escaped);
        left = &left[length..];
    }
    Some(bytes)
}

/// The number of a hexadecimal float, by arithmetic that is exact for each that is written.
fn float_of(piece: &str) -> Option<f64> {
    let (mantissa, exponent) = piece.split_once('p')?;
    let (whole, fraction) = mantissa.split_once('.')?;
    let exponent: i32 =
        exponent.parse().ok().filter(|exponent| (-1022..=1023).contains(exponent))?;
    let whole: f64 = whole.trim_start_matches('-').strip_prefix("0x")?.parse().ok()?;
    let digits = u64::from_str_radix(fraction, 16).ok().filter(|digits| *digits < 1 << 52)?;
    let number = (whole + digits as f64 / 2_f64.powi(52)) * 2_f64.powi(exponent);
    Some(if piece.starts_with('-') { -number } else { number })
}

/// How deep the lists of these pieces are, the outermost being 1; none where pieces stand
/// beside each other that may not, or a bracket has no partner.
fn depth(pieces: &[Piece]) -> Option<usize> {
    use Piece::{Close, Element, Open, Space};
    let mut brackets = vec![&Open];
    brackets.extend(pieces);
    brackets.push(&Close);
    for beside in brackets.windows(2) {
        match beside {
            [Open | Space, Element(_) | Open] => {}
            [Element(_) | Close, Space | Close] => {}
            [Open, Close] => {}
            _ => return None,
        }
    }
    let mut open: usize = 0;
    let mut deepest = 0;
    for (at, piece) in brackets.iter().enumerate() {
        match piece {
            Open => open += 1,
            Close => open -= 1,
            _ => {}
        }
        if open == 0 && at + 1 < brackets.len() {
            return None;
        }
        deepest = deepest.max(open);
    }
    (open == 0).then_some(deepest)
}

/// The elements up to the bracket that closes them, which is taken, or the end.
fn tree(pieces: &mut impl Iterator<Item = Piece>) -> Vec<Element> {
    let mut elements = Vec::new();
    while let Some(piece) = pieces.next() {
        match piece {
            Piece::Open => elements.push(Element::List(tree(pieces))),
            Piece::Close => break,
            Piece::Space => {}
            Piece::Element(element) => elements.push(element),
        }
    }
    elements
}
