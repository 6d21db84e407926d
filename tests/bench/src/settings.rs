//! The settings' cases: one key in two lists.

use crate::cases::{repeat, Case, Side};
use archive::{setting_find, SettingResult};
use second_reader::generate::list::{image, Element};
use second_reader::generate::setting::entry;
use second_reader::list::LIST_LIMIT;
use second_reader::setting::{find, numbers};
use std::hint::black_box;
use Element::{Blob, Int, List};

struct SettingCase {
    name: &'static str,
    guest: Vec<u8>,
    house: Vec<u8>,
    key: Vec<u8>,
}

impl Case for SettingCase {
    fn name(&self) -> &str {
        self.name
    }

    fn bytes(&self) -> usize {
        self.guest.len() + self.house.len()
    }

    fn sides(&self) -> &'static [Side] {
        &[Side::Reader, Side::Archive]
    }

    fn call(&mut self, side: Side, times: u64) {
        let given = || (black_box(&self.guest), black_box(&self.house), black_box(&self.key));
        match side {
            Side::Reader => repeat(times, || {
                let (guest, house, key) = given();
                find(guest, house, key)
            }),
            Side::Archive => repeat(times, || {
                let (guest, house, key) = given();
                setting_find(guest, house, key)
            }),
            Side::Plain | Side::Tuned => unreachable!("a setting has no C side"),
        }
    }

    fn sides_agree(&mut self) -> bool {
        let SettingCase { guest, house, key, .. } = self;
        let SettingResult { error, list, offset, length, depth } = setting_find(guest, house, key);
        numbers(find(guest, house, key)) == [error, list, offset, length, depth]
    }
}

/// The key and the value of an entry, by its number.
fn key(number: usize) -> Vec<u8> {
    format!("setting {number}").into_bytes()
}

fn value(number: usize) -> Vec<u8> {
    format!("value of {number}").into_bytes()
}

/// Entries with these numbers.
fn entries(numbers: impl Iterator<Item = usize>) -> Vec<Element> {
    numbers.map(|number| entry(&key(number), &value(number))).collect()
}

/// As many entries as a list can have, from this number on.
fn full(first: usize) -> Vec<Element> {
    let mut all = entries(first..first + LIST_LIMIT / 16);
    while image(&all).len() > LIST_LIMIT {
        all.pop();
    }
    all
}

/// Lists that hold entries and are none, as many as a list can have, and a blob.
fn others() -> Vec<Element> {
    let mut all = vec![Blob(vec![0; 16])];
    let deeper = List(vec![Int(1), List(entries(7..8)), List(vec![Int(2), Int(3)])]);
    while image(&[&all[..], &[deeper.clone()]].concat()).len() <= LIST_LIMIT {
        all.push(deeper.clone());
    }
    all
}

pub fn all() -> Vec<Box<dyn Case>> {
    let (guest, house) = (entries(100..108), entries(200..208));
    let (full_guest, full_house) = (full(100), full(300));
    let last_of_full = 300 + full_house.len() - 1;
    let short = vec![entry(b"", b""); (LIST_LIMIT - 8) / 18];
    // Told apart by its last byte alone.
    let long = vec![b'k'; 4000];
    let mut nearly = long.clone();
    nearly[3999] = b'l';
    let case = |name, guest: &[Element], house: &[Element], key: Vec<u8>| -> Box<dyn Case> {
        Box::new(SettingCase { name, guest: image(guest), house: image(house), key })
    };
    let mut cut = image(&guest);
    cut.pop();
    let mut longer = image(&full_house);
    longer.push(0);
    let of_areas = |name, guest: Vec<u8>, house: Vec<u8>| -> Box<dyn Case> {
        Box::new(SettingCase { name, guest, house, key: key(100) })
    };
    vec![
        case("setting-empty-lists", &[], &[], key(100)),
        case("setting-guest-first", &guest, &house, key(100)),
        case("setting-guest-last", &guest, &house, key(107)),
        case("setting-house-last", &guest, &house, key(207)),
        case("setting-neither", &guest, &house, key(1)),
        case("setting-guest-first-full", &full_guest, &full_house, key(100)),
        case("setting-house-last-full", &full_guest, &full_house, key(last_of_full)),
        case("setting-other-length", &full_guest, &full_house, vec![b'k'; 40]),
        case("setting-short-full", &short, &short, key(1)),
        case("setting-long-value", &[entry(&key(1), &[b'v'; 4060])], &house, key(1)),
        case("setting-long-key", &[entry(&nearly, b"1")], &[entry(&long, b"2")], long),
        case("setting-others-full", &others(), &others(), key(7)),
        of_areas("setting-refused-short", vec![0; 8], image(&house)),
        of_areas("setting-refused-guest", cut.clone(), image(&house)),
        of_areas("setting-refused-house", image(&guest), cut),
        of_areas("setting-refused-29-full", image(&full_guest), longer),
    ]
}
