//! The lists that are measured, and streams of them.

use second_reader::generate::list::{image, Element};
use Element::{Blob, Float, Int, List, String, Vocab};

/// Lists; those called full have 4,096 bytes or nearly so.
pub fn all() -> Vec<(&'static str, Vec<u8>)> {
    let ints = |count: u32| (0..count).map(Int).collect::<Vec<_>>();
    let string = |length: usize| String(vec![b'a'; length]);
    let words = ["this", "is", "a", "good list"].map(|word| String(word.as_bytes().to_vec()));
    let untyped = [vec![Vocab(0)], ints(510)].concat();
    let nested = (1..8).fold(ints(3), |inner, _| vec![List(inner), Int(1), List(ints(2))]);
    let deep = vec![List((1..7).fold(ints(1), |inner, _| vec![List(inner)])); 46];
    let mixed = [Int(1), Vocab(2), Float(3), string(8), Blob(vec![0; 8]), List(ints(2))];
    vec![
        ("list-empty", image(&[])),
        ("list-primes", image(&[2, 3, 5, 7, 11, 13, 17, 19].map(Int))),
        ("list-two-lists", image(&[List([91, 92, 93].map(Int).to_vec()), List(words.to_vec())])),
        ("list-ints-full", image(&ints(1022))),
        ("list-untyped-ints-full", image(&untyped)),
        ("list-floats-full", image(&vec![Float(0x3ff0_0000_0000_0000); 511])),
        ("list-strings-100", image(&vec![string(12); 100])),
        ("list-short-strings-full", image(&vec![string(3); 511])),
        ("list-long-string-full", image(&[string(4083)])),
        ("list-blob-full", image(&[Blob(vec![0; 4084])])),
        ("list-mixed-full", image(&vec![mixed; 42].concat())),
        ("list-nested", image(&nested)),
        ("list-nested-full", image(&deep)),
        ("list-published-full", image(&published())),
        ("list-error-at-the-end", {
            let mut bytes = image(&untyped);
            bytes[4088..4092].copy_from_slice(&7_u32.to_le_bytes());
            bytes
        }),
        ("list-nested-cut", {
            let mut bytes = image(&deep);
            bytes.pop();
            bytes
        }),
    ]
}

/// Streams of 8 lists each.
#[cfg(feature = "stream")]
pub fn streams() -> Vec<(&'static str, Vec<u8>)> {
    let lists = all();
    let list = |wanted: &str| {
        let (_, bytes) = lists.iter().find(|(name, _)| *name == wanted).expect("a list of all()");
        bytes.clone()
    };
    let different = [
        "list-empty",
        "list-two-lists",
        "list-ints-full",
        "list-strings-100",
        "list-nested",
        "list-blob-full",
        "list-mixed-full",
        "list-primes",
    ];
    vec![
        ("stream-8-primes", list("list-primes").repeat(8)),
        ("stream-8-different", different.map(list).concat()),
        ("stream-8-published-full", list("list-published-full").repeat(8)),
    ]
}

/// The longest list that a hub publishes: four devices with 32 floats each.
fn published() -> Vec<Element> {
    let value = |index| List(vec![Int(index), Float(0x4009_21fb_0000_0000)]);
    let device = |socket| {
        let mut row = vec![Int(socket), Int(7), Blob(vec![socket as u8; 8])];
        row.extend((0..32).map(value));
        List(row)
    };
    (0..4).map(device).collect()
}
