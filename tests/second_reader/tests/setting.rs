//! Settings: ticket d's sentences and the readings of its open points, and generated lookups.

use second_reader::definition::setting as definition;
use second_reader::depths::{counted, number, OF_BYTES};
use second_reader::generate::list::{faults, image, misformed_image, Element};
use second_reader::generate::setting::{any, at_depth, entry, nearly, string};
use second_reader::generate::writers::bytes_of as words;
use second_reader::list::LIST_LIMIT;
use second_reader::random::Random;
use second_reader::setting::{find, numbers};
use std::collections::{BTreeMap, BTreeSet};
use Element::{Blob, Int, List};

/// Error, list, offset, length and depth, of the reader and of the definition alike. The depth
/// of a refusal must be what is counted.
fn look_up(guest: &[u8], house: &[u8], key: &[u8]) -> [u64; 5] {
    let found = numbers(find(guest, house, key));
    let defined = numbers(definition::find(guest, house, key));
    assert_eq!(found, defined, "{guest:02x?} {house:02x?} {key:02x?}");
    let [error, list, offset, _, depth] = found;
    if error != 0 {
        let area = [&[], guest, house][list as usize];
        assert_eq!(counted(area, 0, error, offset), Some(depth), "{error} {area:02x?}");
    }
    found
}

const IN_NEITHER: [u64; 5] = [33, 0, 0, 0, 0];

/// The list of the value and its bytes, or the numbers of a refusal.
type Value = Result<(u64, Vec<u8>), [u64; 5]>;

fn value(guest: &[Element], house: &[Element], key: &[u8]) -> Value {
    let areas = [image(guest), image(house)];
    match look_up(&areas[0], &areas[1], key) {
        [0, list, offset, length, 0] => {
            let area = &areas[list as usize - 1];
            let (start, end) = (offset as usize, (offset + length) as usize);
            // What stands before the bytes counts the zero behind them.
            assert_eq!(area[start - 4..start], words(&[length as u32 + 1]));
            assert_eq!(area[end], 0);
            Ok((list, area[start..end].to_vec()))
        }
        refused => Err(refused),
    }
}

fn of_guest(value: &[u8]) -> Value {
    Ok((1, value.to_vec()))
}

fn of_house(value: &[u8]) -> Value {
    Ok((2, value.to_vec()))
}

/// `lamp` is `on`.
fn guest() -> Vec<u8> {
    [&words(&[256, 1, 260, 2, 5])[..], b"lamp\0", &words(&[3]), b"on\0"].concat()
}

/// `lamp` is `off`, `cups` is `4`.
fn house() -> Vec<u8> {
    let lamp = [&words(&[260, 2, 5])[..], b"lamp\0", &words(&[4]), b"off\0"].concat();
    let cups = [&words(&[260, 2, 5])[..], b"cups\0", &words(&[2]), b"4\0"].concat();
    [words(&[256, 2]), lamp, cups].concat()
}

#[test]
fn places_of_values() {
    let (guest, house) = (guest(), house());
    assert_eq!((guest.len(), house.len()), (32, 56));
    assert_eq!(look_up(&guest, &house, b"lamp"), [0, 1, 29, 2, 0]);
    assert_eq!(look_up(&guest, &house, b"cups"), [0, 2, 54, 1, 0]);
    assert_eq!(look_up(&guest, &house, b"door"), IN_NEITHER);
    assert_eq!(look_up(&house, &guest, b"lamp"), [0, 1, 29, 3, 0]);
    assert_eq!(look_up(&house, &guest, b"cups"), [0, 1, 54, 1, 0]);
    let empty = words(&[256, 0]);
    assert_eq!(look_up(&empty, &guest, b"lamp"), [0, 2, 29, 2, 0]);
    assert_eq!(look_up(&guest, &empty, b"lamp"), [0, 1, 29, 2, 0]);
    assert_eq!(look_up(&empty, &empty, b"lamp"), IN_NEITHER);
    assert_eq!(look_up(&empty, &empty, b""), IN_NEITHER);
    // Behind an element of each kind: 8 + 8 + 8 + 12 + 10 + 11 bytes, and those of the entry.
    let others = [
        Int(5),
        Element::Vocab(5),
        Element::Float(5),
        string(b"a"),
        Blob(vec![1, 2, 3]),
        entry(b"lamp", b"on"),
    ];
    assert_eq!(look_up(&image(&others), &empty, b"lamp"), [0, 1, 57 + 8 + 9 + 4, 2, 0]);
}

#[test]
fn the_first_entry_counts() {
    let two = [entry(b"a", b"1"), entry(b"b", b"2"), entry(b"a", b"3")];
    let one = [entry(b"a", b"4"), entry(b"c", b"5")];
    assert_eq!(value(&two, &one, b"a"), of_guest(b"1"));
    assert_eq!(value(&two, &one, b"b"), of_guest(b"2"));
    assert_eq!(value(&two, &one, b"c"), of_house(b"5"));
    assert_eq!(value(&one, &two, b"a"), of_guest(b"4"));
    assert_eq!(value(&one, &two, b"b"), of_house(b"2"));
    assert_eq!(value(&[], &two, b"a"), of_house(b"1"));
    // The last of the guest's list is before the first of the house list.
    let late = [Int(1), entry(b"b", b"2"), entry(b"a", b"9")];
    assert_eq!(value(&late, &two, b"a"), of_guest(b"9"));
}

#[test]
fn what_is_no_entry() {
    let (k, v) = (string(b"k"), string(b"v"));
    let others = [
        vec![List(vec![k.clone()])],
        vec![List(vec![k.clone(), v.clone(), v.clone()])],
        vec![List(vec![k.clone(), Int(5)])],
        vec![List(vec![Int(5), k.clone()])],
        vec![List(vec![Blob(b"k".to_vec()), Blob(b"v".to_vec())])],
        vec![List(vec![k.clone(), Blob(b"v".to_vec())])],
        vec![List(vec![entry(b"k", b"v")])],
        vec![List(vec![Int(1), entry(b"k", b"v")])],
        // A list of one kind that is not list, so its code is 260 and its count 2.
        vec![k.clone(), v.clone()],
        // The strings stand beside a list, each behind its own code.
        vec![k.clone(), v.clone(), List(vec![])],
        vec![entry(b"v", b"k")],
        vec![List(vec![])],
    ];
    for other in others {
        assert_eq!(value(&other, &[], b"k"), Err(IN_NEITHER), "{other:?}");
        assert_eq!(value(&[], &other, b"k"), Err(IN_NEITHER), "{other:?}");
        let mut before = other.clone();
        before.push(entry(b"k", b"w"));
        assert_eq!(value(&before, &[], b"k"), of_guest(b"w"), "{other:?}");
        assert_eq!(value(&other, &before, b"k"), of_house(b"w"), "{other:?}");
    }
    for other in nearly(b"k", b"v") {
        assert_eq!(value(&[other.clone()], &[other.clone()], b"k"), Err(IN_NEITHER), "{other:?}");
        let before = [other, entry(b"k", b"w")];
        assert_eq!(value(&before, &[], b"k"), of_guest(b"w"));
    }
    // Two strings in a 256 list are refused, wherever it stands.
    let misformed = misformed_image(&[entry(b"k", b"v")], 1);
    assert_eq!(misformed[8..16], words(&[256, 2]));
    assert_eq!(look_up(&misformed, &house(), b"lamp"), [24, 1, 8, 0, 2]);
    assert_eq!(look_up(&guest(), &misformed, b"lamp"), [24, 2, 8, 0, 2]);
}

#[test]
fn keys_and_values_of_every_kind() {
    let list = [
        entry(b"volume", b"7"),
        entry(b"", b"nameless"),
        entry(b"silent", b""),
        entry(b"\xff\x01\n\"", b"\xfe\x80"),
    ];
    assert_eq!(value(&list, &[], b""), of_guest(b"nameless"));
    assert_eq!(value(&list, &[], b"silent"), of_guest(b""));
    assert_eq!(value(&[], &list, b""), of_house(b"nameless"));
    assert_eq!(value(&[], &list, b"silent"), of_house(b""));
    assert_eq!(value(&list, &[], b"\xff\x01\n\""), of_guest(b"\xfe\x80"));
    assert_eq!(value(&[entry(b"", b"")], &list, b""), of_guest(b""));
    for key in [
        &b"v"[..],
        b"volum",
        b"volume7",
        b"volumes",
        b"volume ",
        b"Volume",
        b"volumf",
        b"olume",
        b"7",
        b"nameless",
        b"\xff",
    ] {
        assert_eq!(value(&list, &list, key), Err(IN_NEITHER), "{key:02x?}");
    }
    // A zero within, at the end, at the front, and alone: these are in no list.
    for key in [&b"vol\0ume"[..], b"volume\0", b"\0volume", b"\0", b"\0\0", b"silent\0\x01\0\0\0"] {
        assert_eq!(value(&list, &list, key), Err(IN_NEITHER), "{key:02x?}");
    }
    let short = [entry(b"vol", b"3")];
    assert_eq!(value(&short, &list, b"volume"), of_house(b"7"));
    assert_eq!(value(&list, &short, b"vol"), of_house(b"3"));
}

#[test]
fn refusals_name_the_list() {
    let (guest, house) = (guest(), house());
    // The faults of 01's table, with their places and depths.
    let mut string_open = guest.clone();
    string_open[31] = b'n';
    let mut zero_within = house.clone();
    zero_within[30] = 0;
    let faults: [(Vec<u8>, u64, u64, u64); 12] = [
        (Vec::new(), 21, 0, 0),
        (guest[..3].to_vec(), 21, 0, 0),
        (guest[..31].to_vec(), 21, 29, 2),
        (words(&[512, 0]), 22, 0, 0),
        (words(&[256, 0xffff_ffff]), 23, 4, 1),
        (words(&[256, 2, 256, 0xffff_ffff]), 23, 12, 2),
        (words(&[260, 0]), 24, 0, 1),
        (words(&[256, 1, 260, 0]), 24, 8, 2),
        (string_open, 25, 29, 2),
        (zero_within, 25, 29, 2),
        (words(&[256, 1, 7]), 26, 8, 1),
        ([&guest[..], &[0]].concat(), 29, 32, 0),
    ];
    for (area, error, offset, depth) in &faults {
        let refused = |list| [*error, list, *offset, 0, *depth];
        for key in [&b"lamp"[..], b"cups", b"door", b"", b"\0"] {
            assert_eq!(look_up(area, &house, key), refused(1));
            // The house list is judged also where the guest's has the key.
            assert_eq!(look_up(&guest, area, key), refused(2));
            for (other, ..) in &faults {
                assert_eq!(look_up(area, other, key), refused(1));
            }
        }
    }
}

/// The generated faults have every error of a list at every depth that it can have, in either
/// list.
#[test]
fn depths_of_refusals() {
    let (guest, house) = (guest(), house());
    for owner in [1, 2] {
        let mut met = BTreeSet::new();
        for fault in faults() {
            let areas = if owner == 1 { [&fault, &house] } else { [&guest, &fault] };
            let [error, list, _, length, depth] = look_up(areas[0], areas[1], b"lamp");
            assert_eq!((list, length), (owner, 0));
            met.insert(number(error, depth));
        }
        assert_eq!(met, BTreeSet::from(OF_BYTES));
    }
}

#[test]
fn bytes_left_behind_a_list() {
    let (guest, house) = (guest(), house());
    for length in 1..40 {
        for byte in [0, 1, 0xff] {
            let behind = vec![byte; length];
            let guest_more = [&guest[..], &behind].concat();
            let house_more = [&house[..], &behind].concat();
            assert_eq!(look_up(&guest_more, &house, b"lamp"), [29, 1, 32, 0, 0]);
            assert_eq!(look_up(&guest, &house_more, b"lamp"), [29, 2, 56, 0, 0]);
            assert_eq!(look_up(&guest_more, &house_more, b"door"), [29, 1, 32, 0, 0]);
            // 29 comes last for a list, and the guest's 29 before all of the house list's.
            assert_eq!(look_up(&guest_more, &house[..55], b"lamp"), [29, 1, 32, 0, 0]);
            assert_eq!(look_up(&guest[..31], &house_more, b"lamp"), [21, 1, 29, 0, 2]);
        }
    }
    // Another list behind a list is no list of the area.
    let both = [&guest[..], &house].concat();
    assert_eq!(look_up(&both, &house, b"cups"), [29, 1, 32, 0, 0]);
    assert_eq!(look_up(&house, &both, b"lamp"), [29, 2, 32, 0, 0]);
    // A fault within comes before the bytes behind.
    let mut misformed = words(&[256, 2, 257, 1, 5, 257, 0]);
    misformed.extend([0; 9]);
    assert_eq!(look_up(&misformed, &house, b"lamp"), [24, 1, 20, 0, 2]);
    assert_eq!(look_up(&guest, &misformed, b"lamp"), [24, 2, 20, 0, 2]);
}

/// A list of so many bytes with one entry, whose key is `k`; 27 are not the value's.
fn of_size(size: usize) -> Vec<u8> {
    let bytes = image(&[entry(b"k", &vec![b'v'; size - 27])]);
    assert_eq!(bytes.len(), size);
    bytes
}

#[test]
fn the_limit() {
    let full = of_size(LIST_LIMIT);
    assert_eq!(look_up(&full, &guest(), b"k"), [0, 1, 26, 4069, 0]);
    assert_eq!(look_up(&guest(), &full, b"k"), [0, 2, 26, 4069, 0]);
    assert_eq!(look_up(&full, &full, b"k"), [0, 1, 26, 4069, 0]);
    assert_eq!(look_up(&full, &guest(), b"lamp"), [0, 2, 29, 2, 0]);
    let longer = of_size(LIST_LIMIT + 1);
    assert_eq!(look_up(&longer, &full, b"k"), [28, 1, 26, 0, 2]);
    assert_eq!(look_up(&full, &longer, b"k"), [28, 2, 26, 0, 2]);
    // A byte behind 4,096 of a list is left, not part of an item.
    let more = [&full[..], &[0]].concat();
    assert_eq!(look_up(&more, &full, b"k"), [29, 1, 4096, 0, 0]);
    assert_eq!(look_up(&full, &more, b"k"), [29, 2, 4096, 0, 0]);
    assert_eq!(look_up(&more, &longer, b"k"), [29, 1, 4096, 0, 0]);
    // A key that takes up nearly all of the list.
    let key = vec![b'k'; 4070];
    let long_key = image(&[entry(&key, b"")]);
    assert_eq!(long_key.len(), LIST_LIMIT);
    assert_eq!(look_up(&long_key, &guest(), &key), [0, 1, 4095, 0, 0]);
    assert_eq!(look_up(&long_key, &guest(), &key[1..]), IN_NEITHER);
    assert_eq!(look_up(&long_key, &guest(), &[&key[..], b"k"].concat()), IN_NEITHER);
}

#[test]
fn depth() {
    for depth in 2..=8 {
        let list = [at_depth(entry(b"k", b"v"), depth), entry(b"l", b"w")];
        let owed = if depth == 2 { of_guest(b"v") } else { Err(IN_NEITHER) };
        assert_eq!(value(&list, &[], b"k"), owed, "{depth}");
        assert_eq!(value(&list, &[], b"l"), of_guest(b"w"), "{depth}");
    }
    let deep = [entry(b"k", b"v"), at_depth(entry(b"k", b"v"), 9)];
    let offset = 8 + 8 + 6 + 6 + 7 * 8;
    assert_eq!(value(&deep, &[], b"k"), Err([27, 1, offset, 0, 8]));
    assert_eq!(value(&[entry(b"k", b"v")], &deep, b"k"), Err([27, 2, offset, 0, 8]));
}

#[test]
fn finds_as_defined() {
    let mut random = Random::new(21);
    let mut met = BTreeMap::new();
    for _ in 0..30_000 {
        let lookup = any(&mut random);
        let [error, list, ..] = look_up(&lookup.guest, &lookup.house, &lookup.key);
        *met.entry((error, list)).or_insert(0) += 1;
    }
    let of_lists = [0, 21, 22, 23, 24, 25, 26, 27, 28, 29].map(|error| [(error, 1), (error, 2)]);
    for case in of_lists.concat().into_iter().chain([(33, 0)]) {
        assert!(met.get(&case).is_some_and(|&times| times > 20), "{case:?}: {met:?}");
    }
}
