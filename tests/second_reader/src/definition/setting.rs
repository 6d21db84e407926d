//! The value of a setting by the trees of both lists.

use super::list::{read, writable};
use crate::generate::list::{image, Element};
use crate::generate::writers::bytes_of;
use crate::list::ListError;
use crate::setting::{Found, Owner, Refusal};
use crate::Error;

/// The value of the setting with this key.
pub fn find(guest: &[u8], house: &[u8], key: &[u8]) -> Result<Found, Refusal> {
    let guests = whole(guest).map_err(|fault| Refusal::List(Owner::Guest, fault))?;
    let houses = whole(house).map_err(|fault| Refusal::List(Owner::House, fault))?;
    if let Some(at) = first_with(&guests, key) {
        return Ok(value(Owner::Guest, guest, &guests[..=at]));
    }
    if let Some(at) = first_with(&houses, key) {
        return Ok(value(Owner::House, house, &houses[..=at]));
    }
    Err(Refusal::KeyInNeither)
}

/// The list that the whole area is.
pub fn whole(area: &[u8]) -> Result<Vec<Element>, ListError> {
    let list = read(area)?;
    if list.consumed < area.len() {
        return Err(ListError::outside(Error::BytesLeft, list.consumed as u64));
    }
    let elements = writable(&bytes_of(&list.rows), &list.store).expect("a list that was read");
    assert_eq!(image(&elements), area);
    Ok(elements)
}

/// Key and value of an element that is a list of exactly two strings.
pub fn entry(element: &Element) -> Option<(&[u8], &[u8])> {
    let Element::List(inner) = element else { return None };
    match &inner[..] {
        [Element::String(key), Element::String(value)] => Some((key, value)),
        _ => None,
    }
}

/// Which of a list's outermost elements is the first entry with this key.
pub fn first_with(elements: &[Element], key: &[u8]) -> Option<usize> {
    elements.iter().position(|element| entry(element).is_some_and(|(found, _)| found == key))
}

/// The value of the last of a list's first elements, which is an entry. A list of these alone
/// has the list's own bytes up to there, but for the count; the last is the closing zero.
fn value(owner: Owner, list: &[u8], first: &[Element]) -> Found {
    let (_, value) = first.last().and_then(entry).expect("an entry");
    let (offset, length) = (image(first).len() - 1 - value.len(), value.len());
    assert_eq!(&list[offset..offset + length], value);
    Found { owner, offset, length }
}
