//! The text of a list in the paper's words; lists that have one and lists that have none;
//! and texts of every kind, damaged ones and such as are none.

use super::list::{self, rows_and_store, Element};
use super::writers;
use crate::list::DEPTH_LIMIT;
use crate::random::Random;
use std::fmt::Write;
use Element::{Blob, Float, Int, List, Vocab};

/// The text of a list: no brackets around it, one space between elements. None if one of
/// them has no text form.
pub fn text_of(elements: &[Element]) -> Option<Vec<u8>> {
    elements_text(elements).map(String::into_bytes)
}

fn elements_text(elements: &[Element]) -> Option<String> {
    let texts: Option<Vec<String>> = elements.iter().map(element_text).collect();
    texts.map(|texts| texts.join(" "))
}

/// The text of one element.
pub fn element_text(element: &Element) -> Option<String> {
    match element {
        Int(bits) => Some(format!("{}", *bits as i32)),
        Vocab(bits) => vocab_text(*bits),
        Float(bits) => float_text(f64::from_bits(*bits)),
        Element::String(bytes) => Some(string_text(bytes)),
        Blob(bytes) => {
            let numbers: Vec<String> = bytes.iter().map(u8::to_string).collect();
            Some(format!("{{{}}}", numbers.join(" ")))
        }
        List(inner) => elements_text(inner).map(|inner| format!("({inner})")),
    }
}

fn vocab_text(bits: u32) -> Option<String> {
    let bytes = bits.to_le_bytes();
    let length = bytes.iter().rposition(|&byte| byte != 0)? + 1;
    let allowed = |byte: &u8| (33..=126).contains(byte) && ![b'[', b']'].contains(byte);
    let word = &bytes[..length];
    word.iter().all(allowed).then(|| format!("[{}]", String::from_utf8_lossy(word)))
}

fn string_text(bytes: &[u8]) -> String {
    let mut text = String::from("\"");
    for &byte in bytes {
        let _ = match byte {
            b'"' => write!(text, "\\\""),
            b'\\' => write!(text, "\\\\"),
            0..32 | 127.. => write!(text, "\\{byte:03o}"),
            _ => write!(text, "{}", char::from(byte)),
        };
    }
    text + "\""
}

/// C99's hexadecimal form, by arithmetic on the number; each step is exact.
fn float_text(number: f64) -> Option<String> {
    if !number.is_finite() {
        return None;
    }
    let mut left = number.abs();
    let mut exponent = 0;
    for step in [512, 256, 128, 64, 32, 16, 8, 4, 2, 1] {
        if left >= 2_f64.powi(step) {
            left /= 2_f64.powi(step);
            exponent += step;
        } else if left > 0.0 && left < 2_f64.powi(1 - step) && exponent - step >= -1022 {
            left *= 2_f64.powi(step);
            exponent -= step;
        }
    }
    let mut text =
        format!("{}0x{}.", if number.is_sign_negative() { "-" } else { "" }, left.trunc());
    for _ in 0..13 {
        left = left.fract() * 16.0;
        let _ = write!(text, "{:x}", left.trunc() as u8);
    }
    let _ = write!(text, "p{exponent:+}");
    Some(text)
}

/// Bytes that begin or end a range of a vocab's, or stand beside one.
const WORD_EDGES: [u8; 10] = [33, 34, b'(', b')', b'Z', b'\\', b'^', b'{', 125, 126];
const WORD_OUTSIDE: [u8; 8] = [0, 1, 31, 32, b'[', b']', 127, 255];

/// One to four bytes, then zeros.
fn word(random: &mut Random) -> u32 {
    let mut bytes = [0; 4];
    for byte in &mut bytes[..random.between(1, 4)] {
        *byte = match random.below(3) {
            0 => random.pick(&WORD_EDGES),
            _ => random.between(usize::from(b'a'), usize::from(b'z')) as u8,
        };
    }
    u32::from_le_bytes(bytes)
}

/// A float that is no infinity and no NaN, those at the edges more often than others.
fn finite(random: &mut Random) -> u64 {
    const EDGES: [u64; 10] = [
        0,
        1,
        0x000f_ffff_ffff_ffff,
        0x0010_0000_0000_0000,
        0x0010_0000_0000_0001,
        0x3fef_ffff_ffff_ffff,
        0x3ff0_0000_0000_0000,
        0x4009_21fb_5444_2d18,
        0x7fe0_0000_0000_0000,
        0x7fef_ffff_ffff_ffff,
    ];
    let bits = match random.below(6) {
        0 | 1 => random.pick(&EDGES) | random.next() & 1 << 63,
        2 => random.next() & !(0x7ff << 52),
        3 => random.next() & 0x8000_0000_0000_000f | (random.between(1015, 1030) as u64) << 52,
        _ => random.next(),
    };
    if bits >> 52 & 0x7ff == 0x7ff {
        return bits & !(1 << (52 + random.below(11)));
    }
    bits
}

/// Bytes of a string that are written as they are, but for quotes and backslashes.
fn printable(random: &mut Random, bytes: &mut [u8]) {
    for byte in bytes {
        *byte = match random.below(8) {
            0 => random.pick(b"\"\\ ()[]{}~!"),
            _ => random.between(32, 126) as u8,
        };
    }
}

/// Gives each element a text form.
fn tame(random: &mut Random, elements: &mut [Element]) {
    for element in elements {
        match element {
            Vocab(bits) => *bits = word(random),
            Float(bits) => *bits = finite(random),
            Element::String(bytes) if random.once_in(2) => printable(random, bytes),
            List(inner) => tame(random, inner),
            _ => {}
        }
    }
}

/// An element that has no text form.
fn untold(random: &mut Random) -> Element {
    match random.below(4) {
        0 => Float(0x7ff << 52 | random.next() & 1 << 63),
        1 => Float(0x7ff << 52 | random.next()),
        2 => Vocab(0),
        _ => {
            let mut bytes = word(random).to_le_bytes();
            let inner_zero = bytes[1] != 0 && random.once_in(3);
            let at = random.below(if inner_zero { 1 } else { 4 });
            bytes[at] = if inner_zero { 0 } else { random.pick(&WORD_OUTSIDE[1..]) };
            Vocab(u32::from_le_bytes(bytes))
        }
    }
}

/// A list of any shape, at times too deep or too long, in which each element has a text form.
pub fn telling(random: &mut Random) -> Vec<Element> {
    let mut elements = match random.below(12) {
        0 => {
            let depth = random.between(DEPTH_LIMIT - 1, DEPTH_LIMIT + 1);
            return nested(random, depth);
        }
        1 | 2 => list::around_the_limit(random),
        _ => list::legal(random),
    };
    tame(random, &mut elements);
    elements
}

/// A list of exactly `depth` levels that has a text form.
pub fn nested(random: &mut Random, depth: usize) -> Vec<Element> {
    let mut elements = list::nested(random, depth);
    tame(random, &mut elements);
    elements
}

/// A list of at most `room` bytes that is legal and has a text form.
pub fn small(random: &mut Random, room: usize) -> Vec<Element> {
    let mut elements = list::tree(random, DEPTH_LIMIT, room);
    tame(random, &mut elements);
    elements
}

/// Puts an element that has no text form somewhere among the others.
fn spoil(random: &mut Random, elements: &mut Vec<Element>) {
    let at = random.below(elements.len() + 1);
    match elements.get_mut(at) {
        Some(List(inner)) if random.once_in(2) => spoil(random, inner),
        Some(element) if random.once_in(2) => *element = untold(random),
        _ => elements.insert(at, untold(random)),
    }
}

/// Rows and store: of lists with a text form and without, and such as describe no list.
pub fn any_list(random: &mut Random) -> (Vec<u8>, Vec<u8>) {
    let elements = match random.below(8) {
        0..=2 => telling(random),
        3 => list::legal(random),
        4 => {
            let mut elements = telling(random);
            spoil(random, &mut elements);
            elements
        }
        _ => return writers::any_list(random),
    };
    let (rows, store) = rows_and_store(&elements);
    (writers::bytes_of(&rows), store)
}

/// Texts of one element or a few.
pub const GOOD: [&str; 36] = [
    "",
    "0",
    "7",
    "-1",
    "10",
    "2147483647",
    "-2147483648",
    "()",
    "(())",
    "() ()",
    "(1) 2 (3)",
    "\"\"",
    "\" \"",
    "\"~\"",
    "\"\\\"\\\\\"",
    "\"\\001\\037\\177\\377\"",
    "\"( [ {\"",
    "{}",
    "{0}",
    "{9 10 99 100 199 200 255}",
    "{} {}",
    "[!]",
    "[a~]",
    "[(\"{]",
    "[\\\\\\\\]",
    "0x0.0000000000000p+0",
    "-0x0.0000000000000p+0",
    "0x1.0000000000000p+0",
    "0x1.0000000000000p+1023",
    "0x1.fffffffffffffp+1023",
    "-0x1.0000000000000p-1022",
    "0x0.0000000000001p-1022",
    "-0x0.fffffffffffffp-1022",
    "0x1.0123456789abcp-1",
    "0x1.def0000000000p+100",
    "1 (-1 \"1\" {1} [1] 0x1.0000000000000p+1) ()",
];

/// What is near to a text and is none.
pub const BAD: [&str; 108] = [
    "-0",
    "00",
    "01",
    "-01",
    "+1",
    "+0",
    "-",
    "--1",
    "1-",
    "1.",
    "1.5",
    "0x1",
    "0xfa",
    "1e5",
    "2147483648",
    "-2147483649",
    "4294967295",
    "4294967296",
    "4294967297",
    "18446744073709551616",
    "18446744073709551617",
    "99999999999999999999999999",
    "a",
    "this",
    " ",
    " 1",
    "1 ",
    "1  2",
    "1\t2",
    "1\n",
    "1,2",
    "\0",
    "1\0",
    "(",
    ")",
    "())",
    "(()",
    ")(",
    "( )",
    "( 1)",
    "(1 )",
    "(1)(2)",
    "1(2)",
    "(1)2",
    "(1",
    "1)",
    "[]",
    "[",
    "]",
    "[a",
    "a]",
    "[abcde]",
    "[a b]",
    "[ a]",
    "[a ]",
    "[a]]",
    "[[a]",
    "[a\x7f]",
    "[a\0]",
    "[\0a]",
    "[a][b]",
    "{",
    "}",
    "{ }",
    "{1 }",
    "{ 1}",
    "{1  2}",
    "{1,2}",
    "{256}",
    "{300}",
    "{1000}",
    "{-1}",
    "{+1}",
    "{00}",
    "{01}",
    "{1",
    "{1}{2}",
    "{a}",
    "\"",
    "\"a",
    "\"a\"b\"",
    "\"a\"\"b\"",
    "\"\\000\"",
    "\"\\040\"",
    "\"\\101\"",
    "\"\\176\"",
    "\"\\400\"",
    "\"\\777\"",
    "\"\\12\"",
    "\"\\1\"",
    "\"\\0012\\\"",
    "\"\\n\"",
    "\"\\a\"",
    "\"\\x01\"",
    "\"\\008\"",
    "\"\x1f\"",
    "\"\x7f\"",
    "\"\n\"",
    "0x1.0000000000000",
    "0x1.0000000000000p",
    "0x1.0000000000000p+",
    "0x1.0000000000000p0",
    "0x1.0000000000000p-0",
    "0x1.0000000000000p+00",
    "0x1.0000000000000p+01",
    "0x1.0000000000000p+1024",
    "0x1.0000000000000p-1023",
    "0x1.000000000000p+0",
];

/// More of them, all near to a float.
pub const BAD_FLOATS: [&str; 27] = [
    "0x1.00000000000000p+0",
    "0x1.000000000000Ap+0",
    "0x1.000000000000gp+0",
    "0X1.0000000000000p+0",
    "0x1.0000000000000P+0",
    "0x1,0000000000000p+0",
    "0x1p+0",
    "0x1.p+0",
    "0x2.0000000000000p+0",
    "0x10.0000000000000p+0",
    "0x.0000000000000p+0",
    "x1.0000000000000p+0",
    "1.0000000000000p+0",
    "00x1.0000000000000p+0",
    "+0x1.0000000000000p+0",
    "--0x1.0000000000000p+0",
    "0x0.0000000000000p-0",
    "0x0.0000000000000p+1",
    "0x0.0000000000000p-1022",
    "0x0.0000000000001p+0",
    "0x0.0000000000001p-1021",
    "0x0.0000000000001p-1023",
    "0x0.0000000000001p+1022",
    "0x1.0000000000000p+ 0",
    "0x1.0000000000000p+-1",
    "inf",
    "nan",
];

/// Characters that mean something in a text, and a few that stand in none.
pub const CHARACTERS: &[u8] = b"()[]{}\"\\ -+.xp0123789aAfgz~\0\n\t\x1f\x7f\x80\xff";

/// Changes a text in one character: another in its place, left out or put in; a cut; or one
/// character more.
pub fn damage(random: &mut Random, text: &mut Vec<u8>) {
    let character = random.pick(CHARACTERS);
    if text.is_empty() {
        text.push(character);
        return;
    }
    let at = random.below(text.len());
    match random.below(9) {
        0..=2 => text[at] = character,
        3 => text[at] ^= 1 << random.below(8),
        4 => drop(text.remove(at)),
        5 | 6 => text.insert(at, character),
        7 => text.truncate(at),
        _ => text.push(character),
    }
}

/// Brackets in each other, at times one lost or one too many.
fn brackets(random: &mut Random) -> Vec<u8> {
    let depth = random.pick(&[7, 8, 9, 40, 3000]);
    let lost = random.below(3).min(1);
    let within = random.pick(&["", "1", "\"a\"", "()", "() ()", " "]);
    let closing = if random.once_in(2) { depth } else { depth + 1 - 2 * lost };
    format!("{}{within}{}", "(".repeat(depth), ")".repeat(closing)).into_bytes()
}

/// Texts, good and bad ones, with a space or a bracket between them.
fn joined(random: &mut Random) -> Vec<u8> {
    let mut text = Vec::new();
    for at in 0..random.between(1, 12) {
        if at > 0 {
            let between: &[&str] = &[" ", " ", " ", " ", " ", " (", ") ", "", "  "];
            text.extend(random.pick(between).bytes());
        }
        let element = match random.below(24) {
            0 => random.pick(&BAD),
            1 => random.pick(&BAD_FLOATS),
            _ => random.pick(&GOOD[1..]),
        };
        text.extend(element.bytes());
    }
    text
}

/// A text that is good but for the size of its list, at times far beyond the limit.
fn long(random: &mut Random) -> Vec<u8> {
    let elements = small(random, 400);
    let text = text_of(&elements).expect("elements that have a text form");
    if elements.is_empty() {
        return text;
    }
    let times = random.between(2, 12) * random.pick(&[1, 1, 10]);
    vec![&text[..]; times].join(&b' ')
}

/// Texts of every kind.
pub fn any_text(random: &mut Random) -> Vec<u8> {
    let mut text = match random.below(16) {
        0 => brackets(random),
        1 | 2 => joined(random),
        3 => long(random),
        4 => (0..random.below(60)).map(|_| random.pick(CHARACTERS)).collect(),
        5..=8 => text_of(&telling(random)).expect("elements that have a text form"),
        _ => {
            let room = random.pick(&[40, 100, 400]);
            text_of(&small(random, room)).expect("elements that have a text form")
        }
    };
    if random.once_in(2) {
        for _ in 0..random.pick(&[1, 1, 1, 2, 3]) {
            damage(random, &mut text);
        }
    }
    text
}
