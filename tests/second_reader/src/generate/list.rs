//! Lists as trees, with the bytes and the rows that the paper gives for them, and
//! trees and bytes of every kind, at the limits and beyond.

use super::writers::bytes_of;
use super::{damage, replace_word};
use crate::list::{Kind, DEPTH_LIMIT, LIST_CODE, LIST_HEADER, LIST_LIMIT, WORD};
use crate::random::Random;

/// An element; a list is a `List`. Strings are held without their closing zero.
#[derive(Clone, PartialEq, Debug)]
pub enum Element {
    Int(u32),
    Vocab(u32),
    Float(u64),
    String(Vec<u8>),
    Blob(Vec<u8>),
    List(Vec<Element>),
}

use Element::{Blob, Float, Int, List, String, Vocab};

/// The element's code where it follows one; 256 for every list.
fn code_of(element: &Element) -> u32 {
    match element {
        Int(_) => Kind::Int.code(),
        Vocab(_) => Kind::Vocab.code(),
        Float(_) => Kind::Float.code(),
        String(_) => Kind::String.code(),
        Blob(_) => Kind::Blob.code(),
        List(_) => LIST_CODE,
    }
}

/// Whether there is an element and all are of one kind other than list.
fn of_one_kind(elements: &[Element]) -> bool {
    let Some(first) = elements.first() else { return false };
    code_of(first) != LIST_CODE && elements.iter().all(|other| code_of(other) == code_of(first))
}

/// The bytes of a list.
pub fn image(elements: &[Element]) -> Vec<u8> {
    let mut bytes = Vec::new();
    put_list(elements, &mut bytes, &mut None);
    bytes
}

/// The bytes of a list with one list in it, that of the given number, in the wrong
/// form: untyped where its elements are of one kind, typed where it is empty. Other
/// lists have one form only and are left as they are.
pub fn misformed_image(elements: &[Element], list: usize) -> Vec<u8> {
    let mut bytes = Vec::new();
    put_list(elements, &mut bytes, &mut Some(list));
    bytes
}

fn put_word(word: u32, bytes: &mut Vec<u8>) {
    bytes.extend(word.to_le_bytes());
}

fn put_list(elements: &[Element], bytes: &mut Vec<u8>, misformed: &mut Option<usize>) {
    let wrong = *misformed == Some(0);
    *misformed = misformed.and_then(|list| list.checked_sub(1));
    let typed = if elements.is_empty() { wrong } else { of_one_kind(elements) && !wrong };
    let kind = elements.first().map_or(Kind::Int.code(), code_of);
    put_word(if typed { LIST_CODE + kind } else { LIST_CODE }, bytes);
    put_word(elements.len() as u32, bytes);
    for element in elements {
        if let List(inner) = element {
            put_list(inner, bytes, misformed);
            continue;
        }
        if !typed {
            put_word(code_of(element), bytes);
        }
        put_element(element, bytes);
    }
}

/// An element other than a list, behind its code.
fn put_element(element: &Element, bytes: &mut Vec<u8>) {
    match element {
        Int(bits) | Vocab(bits) => put_word(*bits, bytes),
        Float(bits) => bytes.extend(bits.to_le_bytes()),
        String(text) => {
            put_word(text.len() as u32 + 1, bytes);
            bytes.extend(text);
            bytes.push(0);
        }
        Blob(content) => {
            put_word(content.len() as u32, bytes);
            bytes.extend(content);
        }
        List(_) => unreachable!("a list is put by put_list"),
    }
}

/// The rows, as numbers, and the store bytes of a list.
pub fn rows_and_store(elements: &[Element]) -> (Vec<u32>, Vec<u8>) {
    let mut rows = Vec::new();
    let mut store = Vec::new();
    put_rows(elements, &mut rows, &mut store);
    (rows, store)
}

fn put_rows(elements: &[Element], rows: &mut Vec<u32>, store: &mut Vec<u8>) {
    rows.extend([LIST_CODE, elements.len() as u32, 0]);
    for element in elements {
        match element {
            Int(bits) | Vocab(bits) => rows.extend([code_of(element), *bits, 0]),
            Float(bits) => rows.extend([code_of(element), *bits as u32, (*bits >> 32) as u32]),
            String(run) | Blob(run) => {
                rows.extend([code_of(element), store.len() as u32, run.len() as u32]);
                store.extend(run);
            }
            List(inner) => put_rows(inner, rows, store),
        }
    }
}

/// How many lists stand in a list, itself included.
pub fn lists_in(elements: &[Element]) -> usize {
    let inner = |element: &Element| match element {
        List(inner) => lists_in(inner),
        _ => 0,
    };
    1 + elements.iter().map(inner).sum::<usize>()
}

/// A length for a string or blob: mostly short, at times as long as there is room.
fn run_length(random: &mut Random, room: usize) -> usize {
    match random.below(8) {
        0 => 0,
        1 => random.between(0, room),
        _ => random.between(0, room.min(20)),
    }
}

fn text(random: &mut Random, length: usize) -> Vec<u8> {
    let mut text = random.bytes(length);
    text.iter_mut().for_each(|byte| *byte = (*byte).max(1));
    text
}

/// An element of this kind in at most `room` bytes, its code counted; room is at
/// least 12 bytes, 16 for a float.
fn of_kind(random: &mut Random, kind: Kind, room: usize) -> Element {
    match kind {
        Kind::Int => Int(random.word()),
        Kind::Vocab => Vocab(random.word()),
        Kind::Float => Float(random.next()),
        Kind::String => {
            let length = run_length(random, room - 9);
            String(text(random, length))
        }
        Kind::Blob => {
            let length = run_length(random, room - 8);
            Blob(random.bytes(length))
        }
    }
}

/// A list of at most `room` bytes and `depth` levels, both at least for an empty one.
pub fn tree(random: &mut Random, depth: usize, room: usize) -> Vec<Element> {
    let most = random.pick(&[0, 1, 2, 2, 3, 4, 6, 9, 30, 2000]);
    let one_kind = random.once_in(2).then(|| random.pick(&Kind::ALL));
    let only_lists = random.once_in(6);
    let mut left = room - 8;
    let mut elements = Vec::new();
    while elements.len() < most && left >= 16 {
        let element = if depth > 1 && (only_lists || (one_kind.is_none() && random.once_in(4))) {
            let share = left.min(random.pick(&[16, 64, 400, 4096]));
            List(tree(random, depth - 1, share))
        } else {
            let kind = one_kind.unwrap_or_else(|| random.pick(&Kind::ALL));
            of_kind(random, kind, left)
        };
        let mut bytes = Vec::new();
        match &element {
            List(inner) => bytes = image(inner),
            other => put_element(other, &mut bytes),
        }
        left -= bytes.len() + if code_of(&element) == LIST_CODE { 0 } else { 4 };
        elements.push(element);
    }
    elements
}

/// A legal list of no special shape.
pub fn legal(random: &mut Random) -> Vec<Element> {
    let room = random.pick(&[8, 40, 100, 100, 400, 1500, LIST_LIMIT]);
    tree(random, DEPTH_LIMIT, room)
}

/// A list of exactly `depth` levels, with something beside the inner list at times.
pub fn nested(random: &mut Random, depth: usize) -> Vec<Element> {
    let mut list = tree(random, 1, 100);
    for _ in 1..depth {
        let mut outer = vec![List(list)];
        if random.once_in(4) {
            let beside = tree(random, 1, 60);
            let at = random.below(2);
            outer.insert(at, if random.once_in(2) { List(beside) } else { Int(random.word()) });
        }
        list = outer;
    }
    list
}

/// A list of every kind of element at every depth: lists of each form stand before the next
/// deeper one, and other elements behind it.
pub fn at_every_depth() -> Vec<Element> {
    (1..=DEPTH_LIMIT).rev().fold(Vec::new(), |deeper, depth| {
        let mut list = vec![Int(1), Float(2), String(b"abc".to_vec()), Blob(vec![0, 5])];
        if depth < DEPTH_LIMIT {
            list.extend([List(vec![]), List(vec![Vocab(3); 2]), List(deeper)]);
        }
        list.extend([Vocab(4), String(vec![])]);
        list
    })
}

/// These bytes as the last element of an outermost list, behind a blob that ends at `start`.
pub fn behind_blob(start: usize, bytes: &[u8]) -> Vec<u8> {
    let blob = Blob(vec![0x55; start - LIST_HEADER - 2 * WORD]);
    inside(2, bytes, |_| vec![blob.clone()])
}

/// These bytes in the place of a list at this depth, as the last element in each list about
/// it; `before` answers the elements that a list of some depth has before that.
fn inside(depth: usize, bytes: &[u8], mut before: impl FnMut(usize) -> Vec<Element>) -> Vec<u8> {
    let mut all = Vec::new();
    for outer in 1..depth {
        let mut elements = before(outer);
        elements.push(List(Vec::new()));
        let list = image(&elements);
        // What follows takes the place of the empty list.
        all.extend(&list[..list.len() - LIST_HEADER]);
    }
    all.extend(bytes);
    all
}

const LONG: u32 = LIST_LIMIT as u32;
const NEGATIVE: u32 = u32::MAX;

/// The front of a list as far as its fault: cut at each kind of item, and with each error of
/// its own. What is 22 at an outermost code is 26 at another.
const FAULTY: [&[u32]; 32] = [
    // 21 at the code, the count, an element or its code, a length, and a run of bytes.
    &[],
    &[256],
    &[256, 1],
    &[256, 2, 1, 5],
    &[256, 1, 9],
    &[256, 1, 10, 0],
    &[256, 1, 4],
    &[256, 1, 12, 5, 0],
    &[257, 2, 5],
    &[266, 1, 0],
    &[260, 1],
    &[268, 1, 5, 0],
    // 22 and 26.
    &[0, 0],
    &[261, 1],
    &[256, 1, 7],
    &[256, 2, 1, 5, 512],
    // 23.
    &[256, NEGATIVE],
    &[260, NEGATIVE],
    // 24 at the count and behind the last element.
    &[257, 0],
    &[268, 0],
    &[256, 1, 1, 5],
    &[256, 2, 12, 0, 12, 0],
    // 25 at a length and at a run of bytes.
    &[260, 1, 0],
    &[268, 1, NEGATIVE],
    &[256, 2, 4, 0],
    &[256, 1, 12, NEGATIVE],
    &[260, 1, 1, 5],
    &[256, 1, 4, 4, 0],
    // 28 at a run of bytes.
    &[260, 1, LONG],
    &[268, 1, LONG],
    &[256, 1, 4, LONG],
    &[256, 1, 12, LONG],
];

/// Bytes with a fault, for every error at every depth that it can have. In the lists about it
/// stands nothing before it, or lists that are closed. One deeper than may be, it is 27 for most.
pub fn faults() -> Vec<Vec<u8>> {
    let closed = |outer| match outer {
        DEPTH_LIMIT => vec![Int(5)],
        _ => vec![List(vec![Int(5)]), List(vec![])],
    };
    let mut all = Vec::new();
    for depth in 1..=DEPTH_LIMIT + 1 {
        for faulty in FAULTY.map(bytes_of) {
            all.push(inside(depth, &faulty, |_| Vec::new()));
            all.push(inside(depth, &faulty, closed));
        }
    }
    all
}

/// A fault at any depth, with elements before it in some of the lists about it; at times they
/// come to the limit.
fn any_fault(random: &mut Random) -> Vec<u8> {
    let depth = random.between(1, DEPTH_LIMIT + 1);
    let faulty = bytes_of(random.pick(&FAULTY));
    let bytes = inside(depth, &faulty, |outer| match random.below(2) {
        0 => Vec::new(),
        _ => tree(random, DEPTH_LIMIT + 1 - outer, 60),
    });
    if random.once_in(4) {
        let start = LIST_LIMIT - random.below(bytes.len() + 1);
        return behind_blob(start, &bytes);
    }
    bytes
}

/// A list of as many like elements as come near the limit.
fn full_of_one(random: &mut Random) -> Vec<Element> {
    let (element, size) = random.pick(&[(0, 4), (1, 4), (2, 8), (3, 5), (4, 4), (5, 8), (6, 8)]);
    let fitting = (LIST_LIMIT - 8) / size;
    let count = random.between(fitting - 2, fitting + 2);
    (0..count)
        .map(|at| match element {
            0 => Int(random.word()),
            1 => Vocab(random.word()),
            2 => Float(random.next()),
            3 => String(Vec::new()),
            4 => Blob(Vec::new()),
            5 => List(Vec::new()),
            _ if at % 2 == 0 => Int(random.word()),
            _ => Vocab(random.word()),
        })
        .collect()
}

/// A list whose bytes come to 4,096 or a few more or fewer.
pub fn around_the_limit(random: &mut Random) -> Vec<Element> {
    if random.once_in(3) {
        return full_of_one(random);
    }
    let room = random.between(100, 3800);
    let inner = tree(random, DEPTH_LIMIT - 1, room);
    let target = random.between(LIST_LIMIT - 6, LIST_LIMIT + 9);
    let rest = target - image(&inner).len() - 16;
    let last =
        if random.once_in(2) { Blob(random.bytes(rest)) } else { String(text(random, rest - 1)) };
    let mut outer = vec![List(inner), last];
    match random.below(12) {
        0 => outer.push(Int(random.word())),
        1 => outer.push(List(Vec::new())),
        2 => outer.push(Blob(Vec::new())),
        _ => {}
    }
    outer
}

/// A count or length that promises far more than is there, before up to 5,000 bytes.
fn promising(random: &mut Random) -> Vec<u8> {
    let mut bytes = Vec::new();
    let code = LIST_CODE + random.pick(&[0, 1, 4, 9, 10, 12]);
    put_word(code, &mut bytes);
    put_word(random.pick(&[2, 1022, 1023, 0x7fff_ffff, 0x8000_0000, 0xffff_ffff]), &mut bytes);
    let length = random.pick(&[0, 3, 4, 100, 4087, 4088, 4089, 5000]);
    let filler =
        random.pick(&[[1, 0, 0, 0], [9, 0, 0, 0], [12, 0, 0, 0], [0, 0, 0, 0], [0, 1, 0, 0]]);
    bytes.extend(filler.iter().cycle().take(length));
    if random.once_in(2) && length >= 8 {
        let at = random.between(8, bytes.len() - 1);
        replace_word(random, &mut bytes, at);
    }
    bytes
}

/// Strings, one of them with another byte in the place of its closing zero.
fn unclosed(random: &mut Random) -> Vec<u8> {
    let lengths: Vec<usize> = (0..random.between(1, 5)).map(|_| random.below(20)).collect();
    let strings: Vec<Element> = lengths.iter().map(|&n| String(text(random, n))).collect();
    let mut bytes = image(&strings);
    let which = random.below(lengths.len());
    let before: usize = lengths[..which].iter().map(|length| length + 5).sum();
    bytes[8 + before + 4 + lengths[which]] = random.between(1, 255) as u8;
    bytes
}

/// Puts a zero into a string, if there is one.
fn spoil_string(random: &mut Random, elements: &mut [Element]) -> bool {
    let start = random.below(elements.len().max(1));
    for at in 0..elements.len() {
        let length = elements.len();
        match &mut elements[(start + at) % length] {
            String(text) if !text.is_empty() => {
                let zero_at = random.below(text.len());
                text[zero_at] = 0;
                return true;
            }
            List(inner) => {
                if spoil_string(random, inner) {
                    return true;
                }
            }
            _ => {}
        }
    }
    false
}

/// A list with one or more faults.
fn damaged(random: &mut Random) -> Vec<u8> {
    let mut elements = if random.once_in(8) { around_the_limit(random) } else { legal(random) };
    match random.below(8) {
        0 if random.once_in(4) => return unclosed(random),
        0 => {
            let list = random.below(lists_in(&elements));
            return misformed_image(&elements, list);
        }
        1 => {
            spoil_string(random, &mut elements);
            return image(&elements);
        }
        _ => {}
    }
    let mut bytes = image(&elements);
    for _ in 0..random.pick(&[1, 1, 1, 2, 3]) {
        if random.once_in(2) && !bytes.is_empty() {
            let at = random.below(bytes.len());
            replace_word(random, &mut bytes, at);
        } else {
            damage(random, &mut bytes);
        }
    }
    bytes
}

/// Bytes for the list reader: legal, at the limits, damaged, followed by others.
pub fn any(random: &mut Random) -> Vec<u8> {
    let mut bytes = match random.below(16) {
        0..=3 => image(&legal(random)),
        4 => {
            let depth = random.between(DEPTH_LIMIT - 1, DEPTH_LIMIT + 1);
            image(&nested(random, depth))
        }
        5 | 6 => image(&around_the_limit(random)),
        7 => promising(random),
        8 => {
            let length = random.below(200);
            random.bytes(length)
        }
        9 | 10 => any_fault(random),
        _ => damaged(random),
    };
    match random.below(8) {
        0 => {
            let length = random.between(1, 40);
            bytes.extend(random.bytes(length));
        }
        1 => {
            let length = random.between(4000, 6000);
            bytes.resize(bytes.len() + length, random.pick(&[0, 1, 0xff]));
        }
        _ => {}
    }
    bytes
}
