//! The texts' cases: a list written as text, and its text read.

use crate::cases::{repeat, Case, Side};
use archive::{text_decode, text_encode};
use second_reader::calls::sized;
use second_reader::generate::list::{rows_and_store, Element};
use second_reader::generate::text::text_of;
use second_reader::generate::writers::bytes_of;
use second_reader::list::{ROWS_ROOM, STORE_ROOM};
use second_reader::text::{decode, encode, numbers, TEXT_ROOM};
use std::hint::black_box;
use Element::{Blob, Float, Int, List, Vocab};

struct TextCase {
    name: String,
    /// The characters that are written or read.
    characters: usize,
    call: Call,
    /// The text area that is written, or the rows.
    first: Vec<u8>,
    store: Vec<u8>,
}

enum Call {
    /// Rows and store.
    Write(Vec<u8>, Vec<u8>),
    Read(Vec<u8>),
}

impl Case for TextCase {
    fn name(&self) -> &str {
        &self.name
    }

    fn bytes(&self) -> usize {
        self.characters
    }

    fn sides(&self) -> &'static [Side] {
        &[Side::Reader, Side::Archive]
    }

    fn call(&mut self, side: Side, times: u64) {
        let TextCase { call, first, store, .. } = self;
        match (call, side) {
            (Call::Write(rows, stored), Side::Reader) => {
                repeat(times, || encode(black_box(rows), black_box(stored), first))
            }
            (Call::Write(rows, stored), Side::Archive) => {
                repeat(times, || text_encode(black_box(rows), black_box(stored), first))
            }
            (Call::Read(text), Side::Reader) => {
                repeat(times, || decode(black_box(text), first, store))
            }
            (Call::Read(text), Side::Archive) => {
                repeat(times, || text_decode(black_box(text), first, store))
            }
            (_, Side::Plain | Side::Tuned) => unreachable!("a text has no C side"),
        }
        black_box((first, store));
    }

    fn sides_agree(&mut self) -> bool {
        let reader = self.outcome(Side::Reader);
        reader == self.outcome(Side::Archive)
    }
}

impl TextCase {
    /// What one side answers and leaves, the areas being as new before.
    fn outcome(&mut self, side: Side) -> ([u64; 3], Vec<u8>, Vec<u8>) {
        let TextCase { call, first, store, .. } = self;
        first.fill(0xa5);
        store.fill(0x5a);
        let answer = match (call, side == Side::Reader) {
            (Call::Write(rows, stored), true) => {
                let [error, written] = sized(encode(rows, stored, first));
                [error, written, 0]
            }
            (Call::Write(rows, stored), false) => {
                let result = text_encode(rows, stored, first);
                [result.error, result.written, 0]
            }
            (Call::Read(text), true) => numbers(decode(text, first, store)),
            (Call::Read(text), false) => {
                let result = text_decode(text, first, store);
                [result.error, result.rows, result.stored]
            }
        };
        (answer, first.clone(), store.clone())
    }
}

/// The lists; those called full have 4,096 bytes or nearly so.
fn lists() -> Vec<(&'static str, Vec<Element>)> {
    let string = |bytes: &[u8], length: usize| {
        Element::String(bytes.iter().copied().cycle().take(length).collect())
    };
    let words = ["this", "is", "a", "good list"].map(|word| string(word.as_bytes(), word.len()));
    let number = |at: u32| at.wrapping_mul(0x9e37_79b9);
    let float = |at: u64| (0x3f00 + at % 256) << 48 | at.wrapping_mul(0x9e37_79b9_7f4a) >> 4;
    let vocab = Vocab(u32::from_le_bytes(*b"stop"));
    let mixed = [
        Int(number(1)),
        vocab.clone(),
        Float(float(1)),
        string(b"cup \"2\"", 8),
        Blob(vec![0, 10, 200, 255, 1, 2, 3, 4]),
        List(vec![Int(7), Int(8)]),
    ];
    let deep = List((1..7).fold(vec![Int(7)], |inner, _| vec![List(inner)]));
    let alphabet: Vec<u8> = (b'a'..=b'z').chain([b' ']).collect();
    let all_bytes: Vec<u8> = (0..=255).collect();
    let published = |socket: u32| {
        let mut row = vec![Int(socket), Int(7), Blob(vec![socket as u8; 8])];
        row.extend((0..32).map(|at| List(vec![Int(at), Float(0x4009_21fb_0000_0000)])));
        List(row)
    };
    vec![
        ("empty", vec![]),
        ("primes", [2, 3, 5, 7, 11, 13, 17, 19].map(Int).to_vec()),
        ("two-lists", vec![List([91, 92, 93].map(Int).to_vec()), List(words.to_vec())]),
        ("long-ints-full", (0..1022).map(|at| Int(i32::MIN as u32 + at)).collect()),
        ("small-ints-full", (0..1022).map(|at| Int(at % 10)).collect()),
        ("any-ints-full", (0..1022).map(|at| Int(number(at))).collect()),
        ("floats-full", (0..511).map(|at| Float(float(at))).collect()),
        ("zero-floats-full", vec![Float(0); 511]),
        ("plain-string-full", vec![string(&alphabet, 4083)]),
        ("octal-string-full", vec![string(&[1, 200, 127, 255], 4083)]),
        ("quote-string-full", vec![string(b"\"\\", 4083)]),
        ("short-strings-full", vec![string(b"abc", 3); 511]),
        ("blob-full", vec![Blob(all_bytes.iter().copied().cycle().take(4084).collect())]),
        ("small-blobs-full", vec![Blob(vec![1, 20, 255, 0]); 511]),
        ("vocabs-full", vec![vocab; 1022]),
        ("mixed-full", vec![mixed; 42].concat()),
        ("nested-full", vec![deep; 46]),
        ("empty-lists-full", vec![List(vec![]); 511]),
        ("published-full", (0..4).map(published).collect()),
    ]
}

/// Each list written and its text read, then what is refused at the end.
pub fn all() -> Vec<Box<dyn Case>> {
    let mut cases: Vec<Box<dyn Case>> = Vec::new();
    let mut refused: Vec<Box<dyn Case>> = Vec::new();
    let case = |name: String, characters, call| -> Box<dyn Case> {
        let first = match call {
            Call::Write(..) => TEXT_ROOM,
            Call::Read(..) => ROWS_ROOM,
        };
        Box::new(TextCase {
            name,
            characters,
            call,
            first: vec![0; first],
            store: vec![0; STORE_ROOM],
        })
    };
    let write = |name: String, elements: &[Element], characters| {
        let (rows, store) = rows_and_store(elements);
        case(name, characters, Call::Write(bytes_of(&rows), store))
    };
    for (name, mut elements) in lists() {
        let text = text_of(&elements).expect("elements that have a text form");
        cases.push(write(format!("write-{name}"), &elements, text.len()));
        if name == "any-ints-full" {
            let mut longer = text.clone();
            longer.push(b' ');
            refused.push(case(format!("read-32-{name}"), longer.len(), Call::Read(longer)));
            elements.truncate(509);
            elements.push(Vocab(0));
            refused.push(write(format!("write-31-{name}"), &elements, 0));
        }
        cases.push(case(format!("read-{name}"), text.len(), Call::Read(text)));
    }
    let brackets = [vec![b'('; 8192], vec![b')'; 8192]].concat();
    refused.push(case(String::from("read-27-brackets"), brackets.len(), Call::Read(brackets)));
    cases.extend(refused);
    cases
}
