//! What a lookup shows about the entry that counts, so that a run can tell whether its cases
//! show all of it.

use crate::definition::setting::{entry, first_with, whole};
use crate::generate::list::Element;

#[derive(Clone, Copy, PartialEq, Eq, Debug)]
#[repr(u8)]
pub enum Shown {
    /// The guest's value, where the house list has an entry with the key too.
    GuestFirst = 1,
    /// The first entry's value, where its list has another value for the key behind it.
    FirstEntry = 2,
    /// The value of an entry behind an element that has the key and is no entry.
    BehindOther = 3,
    /// 33, where an element has the key and is no entry.
    OnlyOther = 4,
    /// 33, where an entry has the key as its value.
    OnlyValue = 5,
    /// The house list is refused, where the guest's has an entry with the key.
    HouseRefused = 6,
    /// The guest's list is refused, where the house list would be.
    BothRefused = 7,
    /// An empty key is found.
    EmptyKey = 8,
    /// An empty value is found.
    EmptyValue = 9,
    /// 33 for the beginning of an entry's key.
    Beginning = 10,
    /// 33 for an entry's key with more behind it.
    Longer = 11,
    /// The same, and what follows the entry's key is a zero.
    LongerByZero = 12,
}

impl Shown {
    /// The numbers of all that can be shown.
    pub const NUMBERS: &'static [u64] = &[1, 2, 3, 4, 5, 6, 7, 8, 9, 10, 11, 12];

    pub fn number(self) -> u64 {
        self as u64
    }
}

/// What the lookup of this key in these two areas shows.
pub fn shown(guest: &[u8], house: &[u8], key: &[u8]) -> Vec<Shown> {
    let (guest, house) = match (whole(guest), whole(house)) {
        (Ok(guest), Ok(house)) => (guest, house),
        (Ok(guest), Err(_)) => {
            return Vec::from_iter(first_with(&guest, key).map(|_| Shown::HouseRefused));
        }
        (Err(_), Err(_)) => return vec![Shown::BothRefused],
        (Err(_), Ok(_)) => return Vec::new(),
    };
    match (first_with(&guest, key), first_with(&house, key)) {
        (Some(at), in_house) => {
            let mut shown = found(&guest, at);
            shown.extend(in_house.map(|_| Shown::GuestFirst));
            shown
        }
        (None, Some(at)) => found(&house, at),
        (None, None) => in_neither(&[guest, house].concat(), key),
    }
}

/// What the value of this entry shows.
fn found(elements: &[Element], at: usize) -> Vec<Shown> {
    let (key, value) = entry(&elements[at]).expect("an entry");
    let (before, behind) = (&elements[..at], &elements[at + 1..]);
    let another = behind.iter().filter_map(entry).any(|other| other.0 == key && other.1 != value);
    let passed = before.iter().any(|element| entry(element).is_none() && has(element, key));
    let mut shown = Vec::new();
    shown.extend(another.then_some(Shown::FirstEntry));
    shown.extend(passed.then_some(Shown::BehindOther));
    shown.extend(key.is_empty().then_some(Shown::EmptyKey));
    shown.extend(value.is_empty().then_some(Shown::EmptyValue));
    shown
}

/// What 33 shows about the elements of both lists.
fn in_neither(elements: &[Element], key: &[u8]) -> Vec<Shown> {
    let mut shown = Vec::new();
    for element in elements {
        let Some((other, value)) = entry(element) else {
            shown.extend(has(element, key).then_some(Shown::OnlyOther));
            continue;
        };
        shown.extend((value == key).then_some(Shown::OnlyValue));
        shown.extend(other.starts_with(key).then_some(Shown::Beginning));
        shown.extend(key.strip_prefix(other).map(|more| match more[0] {
            0 => Shown::LongerByZero,
            _ => Shown::Longer,
        }));
    }
    shown
}

/// Whether the element is this string, or one that it holds is.
fn has(element: &Element, string: &[u8]) -> bool {
    match element {
        Element::String(bytes) => bytes == string,
        Element::List(inner) => inner.iter().any(|element| has(element, string)),
        _ => false,
    }
}
