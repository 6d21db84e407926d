//! `cinder_setting_find` against the second reader.

use crate::buffers::{Outcome, DEFINITION};
use crate::depths::{self, Answer};
use crate::lent::Lent;
use crate::report::{count_answer, hex, Answers, Difference, Section, READER};
use archive::{setting_find, SettingResult};
use second_reader::definition::setting as definition;
use second_reader::depths::{count, number, numbers as with_depths};
use second_reader::generate::list::{at_every_depth, faults, image, misformed_image, Element};
use second_reader::generate::setting::{any, at_depth, entry, nearly, string, Lookup};
use second_reader::generate::writers::bytes_of;
use second_reader::generate::TELLING_WORDS;
use second_reader::list::{DEPTH_LIMIT, LIST_LIMIT};
use second_reader::lookups::{shown, Shown};
use second_reader::random::Random;
use second_reader::setting::{find, numbers, Found, Refusal};
use Element::{Blob, Int, List};

/// The errors of a list, and 0 for a value found in it; and these with their depths.
const OF_LIST: &[u64] = &[0, 21, 22, 23, 24, 25, 26, 27, 28, 29];
const DEPTHS: &[u64] = &with_depths::<{ count(OF_LIST) }>(OF_LIST);
/// By the number of the list that an answer names.
const NAMES: [&str; 3] =
    ["setting_find of neither", "setting_find of the guest's", "setting_find of the house's"];
const DEPTH_NAMES: [&str; 3] = [
    "setting_find's depths of neither",
    "setting_find's depths of the guest's",
    "setting_find's depths of the house's",
];

pub const SECTION: Section = Section {
    name: "setting",
    progress: 5_000,
    answers: &[
        Answers { of: NAMES[0], numbers: &[33] },
        Answers { of: NAMES[1], numbers: OF_LIST },
        Answers { of: NAMES[2], numbers: OF_LIST },
        Answers { of: DEPTH_NAMES[0], numbers: &[number(33, 0)] },
        Answers { of: DEPTH_NAMES[1], numbers: DEPTHS },
        Answers { of: DEPTH_NAMES[2], numbers: DEPTHS },
        Answers { of: "setting_find's choice", numbers: Shown::NUMBERS },
    ],
    enumerated,
    random: random_case,
};

fn result(answer: Result<Found, Refusal>) -> SettingResult {
    let [error, list, offset, length, depth] = numbers(answer);
    SettingResult { error, list, offset, length, depth }
}

/// One lookup; neither its areas nor the bytes about them may change.
fn check(lookup: &Lookup, lent: Lent, pattern: u64) -> Result<u64, Difference> {
    let Lookup { guest, house, key } = lookup;
    let outcome = |call: fn(&[u8], &[u8], &[u8]) -> SettingResult| {
        let buffers = [guest, house, key].map(|area| lent.buffer(area, pattern));
        Outcome::of(buffers, |buffers| {
            let [guest, house, key] = buffers.map(|buffer| lent.area(buffer));
            call(guest, house, key)
        })
    };
    let found = outcome(setting_find);
    let reader = outcome(|guest, house, key| result(find(guest, house, key)));
    let defined = outcome(|guest, house, key| result(definition::find(guest, house, key)));
    count_answer(NAMES[defined.answer.list as usize], defined.answer.error);
    for shown in shown(guest, house, key) {
        count_answer("setting_find's choice", shown.number());
    }
    let names = ["guest's buffer", "house's buffer", "key's buffer"];
    let case = || {
        vec![
            ("guest", hex(guest)),
            ("house", hex(house)),
            ("key", hex(key)),
            ("pattern seed", pattern.to_string()),
        ]
    };
    defined.owed(DEFINITION, &found, names, case)?;
    reader.owed(READER, &found, names, case)?;
    let SettingResult { error, list, offset, depth, .. } = found.answer;
    let bytes = [&[][..], guest, house][list as usize];
    let answer = Answer { bytes, front: 0, error, offset, depth };
    depths::compare(DEPTH_NAMES[list as usize], &answer, case)?;
    Ok(1)
}

fn random_case(random: &mut Random) -> Result<u64, Difference> {
    let lookup = any(random);
    let lent = random.pick(&[Lent::Guarded, Lent::Whole]);
    check(&lookup, lent, random.next())
}

fn enumerated() -> Result<u64, Difference> {
    Ok(shapes()? + changed()? + lengths()? + deep_entries()? + refused()? + deep_faults()?)
}

/// Looks up each of the keys in these areas.
fn each_key(guest: &[u8], house: &[u8], keys: &[&[u8]]) -> Result<u64, Difference> {
    let mut checks = 0;
    for key in keys {
        let [guest, house, key] = [guest, house, key].map(<[u8]>::to_vec);
        let lookup = Lookup { guest, house, key };
        checks += check(&lookup, Lent::Guarded, checks)? + check(&lookup, Lent::Whole, checks)?;
    }
    Ok(checks)
}

/// Entries and elements that are nearly entries, each before each other one in the guest's
/// list, and with either in the house list; and lists of strings.
fn shapes() -> Result<u64, Difference> {
    let shapes = |value: &[u8]| {
        let mut shapes = nearly(b"key", value);
        shapes.extend([entry(b"key", value), entry(b"", value), entry(b"key", b"")]);
        shapes
    };
    let keys: [&[u8]; 6] = [b"key", b"", b"ke", b"keys", b"key\0", b"1"];
    let mut checks = 0;
    for first in shapes(b"1") {
        for second in shapes(b"22") {
            let house = [first.clone(), entry(b"key", b"333")];
            let guest = [first.clone(), second.clone()];
            checks += each_key(&image(&guest), &image(&[second.clone()]), &keys)?;
            checks += each_key(&image(&[second]), &image(&house), &keys)?;
        }
    }
    let (key, value) = (string(b"key"), string(b"1"));
    for strings in [vec![key.clone()], vec![key.clone(), value.clone()], vec![key, value, Int(2)]] {
        let (area, house) = (image(&strings), image(&[entry(b"key", b"333")]));
        checks += each_key(&area, &area, &keys)?;
        checks += each_key(&area, &house, &keys)?;
        checks += each_key(&house, &area, &keys)?;
    }
    Ok(checks)
}

/// A few short lists: entries alone, and behind elements that are no entries.
fn telling() -> Vec<Vec<u8>> {
    let lamp = entry(b"lamp", b"on");
    let three = List(vec![string(b"lamp"), string(b"of"), string(b"f")]);
    let deeper = List(vec![Int(7), entry(b"lamp", b"deep")]);
    let blob = Blob(image(&[entry(b"lamp", b"blob")])[8..].to_vec());
    vec![
        image(&[lamp.clone()]),
        image(&[entry(b"cups", b"4"), lamp.clone(), entry(b"lamp", b"off")]),
        image(&[three, deeper, entry(b"lamps", b""), lamp.clone()]),
        image(&[Int(260), Int(2), blob, entry(b"", b"lamp"), lamp]),
        image(&[string(b"lamp"), string(b"on")]),
        image(&[]),
    ]
}

/// Each of these lists with each as the other's house list; then with one of the two cut at
/// every byte, with each byte changed, each four bytes replaced, and bytes behind it.
fn changed() -> Result<u64, Difference> {
    let lists = telling();
    let all: [&[u8]; 7] = [b"lamp", b"cups", b"lam", b"lamps", b"lamp\0", b"", b"on"];
    let mut checks = 0;
    for list in &lists {
        for other in &lists {
            checks += each_key(list, other, &all)?;
        }
        for area in changes_of(list) {
            for other in &lists[..2] {
                checks += each_key(&area, other, &[b"lamp"])?;
                checks += each_key(other, &area, &[b"lamp"])?;
            }
            checks += each_key(&area, &area, &[b"", b"lamp"])?;
        }
    }
    Ok(checks)
}

fn changes_of(list: &[u8]) -> Vec<Vec<u8>> {
    let mut all: Vec<Vec<u8>> = (0..list.len()).map(|length| list[..length].to_vec()).collect();
    let mut with = |at: usize, bytes: &[u8]| {
        let mut changed = list.to_vec();
        changed[at..at + bytes.len()].copy_from_slice(bytes);
        all.push(changed);
    };
    for at in 0..list.len() {
        for value in [0, 1, 2, 3, 0xff, list[at] ^ 1, list[at] ^ 0x80] {
            with(at, &[value]);
        }
    }
    for at in 0..list.len().saturating_sub(3) {
        for word in TELLING_WORDS {
            with(at, &word.to_le_bytes());
        }
    }
    for length in 1..=16 {
        all.push([list, &vec![length as u8 % 2; length]].concat());
    }
    all
}

/// Keys and values of each length up to 40; then one of them of each length up to the limit
/// and a little beyond.
fn lengths() -> Result<u64, Difference> {
    let mut checks = 0;
    for key in 0..=40 {
        for value in 0..=40 {
            checks += of_lengths(key, value)?;
        }
    }
    for length in 41..LIST_LIMIT + 4 {
        checks += of_lengths(length, 1)? + of_lengths(1, length)?;
    }
    Ok(checks)
}

/// An entry of these lengths behind another one, in either list; its key, one byte shorter,
/// one byte longer, and with the last byte changed.
fn of_lengths(key: usize, value: usize) -> Result<u64, Difference> {
    let longer = vec![b'k'; key + 1];
    let key = &longer[..key];
    let mut changed = key.to_vec();
    changed.last_mut().into_iter().for_each(|last| *last ^= 1);
    let other = image(&[entry(b"k", b"other")]);
    let list = image(&[entry(b"kk", b"first"), entry(key, &vec![b'v'; value])]);
    let keys = [key, key.split_last().map_or(key, |(_, shorter)| shorter), &longer, &changed];
    Ok(each_key(&list, &other, &keys)? + each_key(&other, &list, &keys)?)
}

/// An entry in lists, to the deepest and one deeper, before and behind one that counts.
fn deep_entries() -> Result<u64, Difference> {
    let mut checks = 0;
    for depth in 2..=DEPTH_LIMIT + 1 {
        let deep = at_depth(entry(b"key", b"deep"), depth);
        let alone = image(&[deep.clone()]);
        let behind = image(&[entry(b"key", b"first"), deep.clone()]);
        let before = image(&[deep, entry(b"key", b"last")]);
        for [guest, house] in [[&alone, &before], [&before, &alone], [&behind, &before]] {
            checks += each_key(guest, house, &[b"key", b"deep", b""])?;
        }
    }
    Ok(checks)
}

/// An area for each error of a list, some more, and good ones, on both sides.
fn refused() -> Result<u64, Difference> {
    let good = image(&[entry(b"key", b"value")]);
    let full = image(&[entry(b"key", &vec![b'v'; LIST_LIMIT - 29])]);
    assert_eq!(full.len(), LIST_LIMIT);
    let mut open = good.clone();
    *open.last_mut().unwrap() = 1;
    let areas = [
        Vec::new(),
        good[..good.len() - 1].to_vec(),
        bytes_of(&[512, 0]),
        bytes_of(&[256, 0x8000_0000]),
        bytes_of(&[260, 0]),
        misformed_image(&[entry(b"key", b"value")], 1),
        open,
        bytes_of(&[256, 1, 261, 2]),
        image(&[at_depth(entry(b"key", b"value"), DEPTH_LIMIT + 1)]),
        image(&[entry(b"key", &vec![b'v'; LIST_LIMIT - 28])]),
        [&good[..], &[0]].concat(),
        [&full[..], &[0]].concat(),
        [&good[..], &full].concat(),
        full,
        good,
    ];
    let mut checks = 0;
    for guest in &areas {
        for house in &areas {
            checks += each_key(guest, house, &[b"key", b"value", b"", b"key\0"])?;
        }
    }
    Ok(checks)
}

/// A fault for every error at every depth, in either list and in both; and bytes behind a list
/// of every depth.
fn deep_faults() -> Result<u64, Difference> {
    let good = image(&[entry(b"key", b"value")]);
    let mut areas = faults();
    areas.push([&image(&at_every_depth())[..], &good].concat());
    let mut checks = 0;
    for area in &areas {
        for [guest, house] in [[area, &good], [&good, area], [area, area]] {
            checks += each_key(guest, house, &[b"key"])?;
        }
    }
    Ok(checks)
}
