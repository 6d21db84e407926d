//! Two lists of settings and a key: entries, elements that are nearly entries, lists with a
//! fault or with bytes behind them, and keys that are in a list or nearly so.

use super::list::{self, image, lists_in, misformed_image, Element};
use super::{damage, replace_word};
use crate::definition::setting as definition;
use crate::list::{DEPTH_LIMIT, LIST_LIMIT};
use crate::random::Random;
use Element::{Blob, Int, List, String, Vocab};

/// The areas of one lookup.
#[derive(Clone, PartialEq, Eq, Debug)]
pub struct Lookup {
    pub guest: Vec<u8>,
    pub house: Vec<u8>,
    pub key: Vec<u8>,
}

/// Few, so that two elements often have the same one, and some the beginning of another.
const KEYS: [&[u8]; 12] = [
    b"",
    b"v",
    b"vol",
    b"volume",
    b"volumf",
    b"volume of the hall",
    b"Volume",
    b"lamp",
    b"lam",
    b"\x01",
    b"\xff",
    b"\xff\xfe",
];

pub fn string(bytes: &[u8]) -> Element {
    String(bytes.to_vec())
}

pub fn entry(key: &[u8], value: &[u8]) -> Element {
    List(vec![string(key), string(value)])
}

/// Elements with the key and the value that are no entries with the key.
pub fn nearly(key: &[u8], value: &[u8]) -> Vec<Element> {
    let (k, v) = (|| string(key), || string(value));
    let blob = |bytes: &[u8]| Blob(bytes.to_vec());
    let image_of_one = image(&[entry(key, value)]);
    vec![
        List(vec![]),
        List(vec![k()]),
        List(vec![k(), v(), v()]),
        List(vec![k(), v(), Int(2)]),
        List(vec![k(), v(), List(vec![])]),
        List(vec![k(), Int(2)]),
        List(vec![Int(2), k()]),
        List(vec![blob(key), blob(value)]),
        List(vec![k(), blob(value)]),
        List(vec![blob(key), v()]),
        List(vec![k(), List(vec![v()])]),
        List(vec![List(vec![k()]), v()]),
        List(vec![entry(key, value)]),
        List(vec![entry(key, value), entry(key, value)]),
        List(vec![List(vec![entry(key, value)])]),
        List(vec![Int(260), Int(2)]),
        List(vec![Vocab(260), Vocab(2)]),
        // The bytes of an entry, with and without the list about it.
        blob(&image_of_one[8..]),
        blob(&image_of_one),
        k(),
        v(),
        Int(260),
    ]
}

fn any_key(random: &mut Random) -> Vec<u8> {
    random.pick(&KEYS).to_vec()
}

/// A value: at times empty, a key, or long.
fn any_value(random: &mut Random) -> Vec<u8> {
    match random.below(8) {
        0 => Vec::new(),
        1 => any_key(random),
        2 => {
            let length = random.below(300);
            without_zeros(random, length)
        }
        _ => {
            let length = random.between(1, 12);
            without_zeros(random, length)
        }
    }
}

fn without_zeros(random: &mut Random, length: usize) -> Vec<u8> {
    (0..length).map(|_| random.byte().max(1)).collect()
}

fn any_element(random: &mut Random) -> Element {
    let (key, value) = (any_key(random), any_value(random));
    match random.below(8) {
        0 | 1 => {
            let mut elements = nearly(&key, &value);
            elements.swap_remove(random.below(elements.len()))
        }
        2 => List(list::tree(random, DEPTH_LIMIT - 1, 60)),
        _ => entry(&key, &value),
    }
}

fn any_elements(random: &mut Random) -> Vec<Element> {
    let most = random.pick(&[0, 1, 2, 3, 3, 5, 8]);
    (0..most).map(|_| any_element(random)).collect()
}

/// A list that comes to 4,096 bytes or a few more or fewer, with an entry as the last element.
fn around_the_limit(random: &mut Random) -> Vec<Element> {
    let mut elements = any_elements(random);
    let key = any_key(random);
    let target = random.between(LIST_LIMIT - 4, LIST_LIMIT + 6);
    elements.push(entry(&key, b""));
    let missing = target.saturating_sub(image(&elements).len());
    elements.pop();
    elements.push(entry(&key, &without_zeros(random, missing)));
    elements
}

/// The list in lists, so that it stands at this depth where it is in an outermost one.
pub fn at_depth(list: Element, depth: usize) -> Element {
    (2..depth).fold(list, |inner, _| List(vec![inner]))
}

/// The elements of a list, of which some are too many or too deep.
fn any_list(random: &mut Random) -> Vec<Element> {
    match random.below(16) {
        0 => list::legal(random),
        1 => around_the_limit(random),
        2 => {
            let mut elements = any_elements(random);
            let (key, value) = (any_key(random), any_value(random));
            let depth = random.between(2, DEPTH_LIMIT + 1);
            let at = random.below(elements.len() + 1);
            elements.insert(at, at_depth(entry(&key, &value), depth));
            elements
        }
        // The list itself is one of two strings.
        3 => vec![String(any_key(random)), String(any_value(random))],
        _ => any_elements(random),
    }
}

/// The area of a list with bytes behind it, or with a fault in it most of the time.
fn spoiled(random: &mut Random, elements: &[Element]) -> Vec<u8> {
    let mut area = image(elements);
    match random.below(8) {
        0 => {
            let list = random.below(lists_in(elements));
            return misformed_image(elements, list);
        }
        1 => return list::any(random),
        2 => area.extend(image(&any_elements(random))),
        3 => {
            let length = random.between(1, 9);
            area.extend(random.bytes(length));
        }
        4 | 5 => {
            let at = random.below(area.len());
            replace_word(random, &mut area, at);
        }
        _ => damage(random, &mut area),
    }
    area
}

/// The strings of a list, in its order.
fn strings_of(elements: &[Element]) -> Vec<&[u8]> {
    let strings = elements.iter().flat_map(|element| match element {
        String(bytes) => vec![&bytes[..]],
        List(inner) => strings_of(inner),
        _ => Vec::new(),
    });
    strings.collect()
}

/// The keys of a list's entries, in its order.
fn keys_of(elements: &[Element]) -> Vec<&[u8]> {
    elements.iter().filter_map(definition::entry).map(|(key, _)| key).collect()
}

/// A key that one of the strings is, or nearly so.
fn key_among(random: &mut Random, strings: &[&[u8]]) -> Vec<u8> {
    let mut key = match strings {
        [] => any_key(random),
        _ => random.pick(strings).to_vec(),
    };
    let at = random.below(key.len() + 1);
    match random.below(20) {
        0 => key.truncate(at),
        1 => key.insert(at, 0),
        2 => key.push(0),
        3 => key.push(random.byte()),
        4 if at < key.len() => key[at] ^= 1 << random.below(8),
        5 if at < key.len() => key[at] = 0,
        6 => key.clear(),
        7 => key = any_key(random),
        8 => {
            let length = random.below(20);
            key = random.bytes(length);
        }
        _ => {}
    }
    key
}

/// Any two areas and a key. Most are two legal lists, since a fault hides all behind it.
pub fn any(random: &mut Random) -> Lookup {
    let (guest, house) = (any_list(random), any_list(random));
    let strings = if random.once_in(4) { strings_of } else { keys_of };
    let key = key_among(random, &[strings(&guest), strings(&house)].concat());
    let (mut guest_area, mut house_area) = (image(&guest), image(&house));
    let fault = random.below(12);
    if matches!(fault, 0..=2) {
        guest_area = spoiled(random, &guest);
    }
    if matches!(fault, 2..=4) {
        house_area = spoiled(random, &house);
    }
    Lookup { guest: guest_area, house: house_area, key }
}
