//! Lists as text: source document 002's examples, floats as C prints them, the readings of
//! the ticket's open points, and round trips on generated trees.

use second_reader::definition::text as definition;
use second_reader::generate::list::{self as lists, image, rows_and_store, Element};
use second_reader::generate::text::{self as generate, text_of, BAD, BAD_FLOATS, GOOD};
use second_reader::generate::writers::bytes_of as words;
use second_reader::list::{ROWS_ROOM, STORE_ROOM};
use second_reader::random::Random;
use second_reader::stream::{show_output, RUN_LIMIT};
use second_reader::text::{decode, encode, numbers, Read, TEXT_ROOM};
use second_reader::Error;
use std::collections::BTreeMap;
use std::ffi::{c_char, c_int};
use Element::{Blob, Float, Int, List, Vocab};

extern "C" {
    fn snprintf(text: *mut c_char, size: usize, format: *const c_char, ...) -> c_int;
}

/// What C prints for `%.13a`.
fn c_text(number: f64) -> Vec<u8> {
    let mut text = [0_u8; 40];
    // SAFETY: the text has room for its size, and the format asks for one double.
    let length = unsafe {
        snprintf(text.as_mut_ptr().cast(), text.len(), c"%.13a".as_ptr(), number) as usize
    };
    text[..length].to_vec()
}

/// The text of rows and store; both readings must agree, and nothing behind it change.
fn write_rows(rows: &[u8], store: &[u8]) -> Result<Vec<u8>, u64> {
    let mut text = [0xa5; TEXT_ROOM];
    let answer = match encode(rows, store, &mut text) {
        Ok(length) => {
            assert!(text[length..].iter().all(|&byte| byte == 0xa5));
            Ok(text[..length].to_vec())
        }
        Err(error) => {
            assert!(text.iter().all(|&byte| byte == 0xa5));
            Err(error.number())
        }
    };
    assert_eq!(answer, definition::write(rows, store).map_err(Error::number));
    answer
}

fn write(elements: &[Element]) -> Result<Vec<u8>, u64> {
    let (rows, store) = rows_and_store(elements);
    write_rows(&words(&rows), &store)
}

/// The rows' numbers and the store of a text; both readings must agree.
fn read(text: &[u8]) -> Result<(Vec<u32>, Vec<u8>), u64> {
    let mut rows = vec![0xa5; ROWS_ROOM];
    let mut store = vec![0xa5; STORE_ROOM];
    let answer = match decode(text, &mut rows, &mut store) {
        Ok(Read { rows: filled, stored }) => {
            let (rows, behind) = rows.split_at(12 * filled);
            assert!(behind.iter().chain(&store[stored..]).all(|&byte| byte == 0xa5));
            let word = |word: &[u8]| u32::from_le_bytes(word.try_into().unwrap());
            Ok((rows.chunks(4).map(word).collect(), store[..stored].to_vec()))
        }
        Err(error) => {
            assert!(rows.iter().chain(&store).all(|&byte| byte == 0xa5));
            Err(error.number())
        }
    };
    let shown = String::from_utf8_lossy(&text[..text.len().min(300)]);
    assert_eq!(answer, definition::read(text).map_err(Error::number), "{shown}");
    answer
}

/// A list has this text, which is read as that list.
fn is_text(elements: &[Element], text: &str) {
    assert_eq!(write(elements).as_deref(), Ok(text.as_bytes()), "{elements:?}");
    assert_eq!(read(text.as_bytes()), Ok(rows_and_store(elements)), "{text}");
}

fn refused(text: &str, number: u64) {
    let shown = &text[..text.len().min(60)];
    assert_eq!(read(text.as_bytes()), Err(number), "{shown}");
}

fn string(bytes: &[u8]) -> Element {
    Element::String(bytes.to_vec())
}

fn vocab(bytes: [u8; 4]) -> Element {
    Vocab(u32::from_le_bytes(bytes))
}

#[test]
fn examples_of_source_document_002() {
    is_text(&[2, 3, 5, 7, 11, 13, 17, 19].map(Int), "2 3 5 7 11 13 17 19");
    let strings = ["this", "is", "a", "good list"].map(|word| string(word.as_bytes()));
    is_text(
        &[List([91, 92, 93].map(Int).to_vec()), List(strings.to_vec())],
        "(91 92 93) (\"this\" \"is\" \"a\" \"good list\")",
    );
    // Its quotes may be left out there; here they may not.
    refused("(91 92 93) (this is a \"good list\")", 32);
    is_text(&[Blob(vec![1, 10, 255, 6, 3])], "{1 10 255 6 3}");
    is_text(&[vocab(*b"get\0")], "[get]");
    is_text(&[Int(-15_i32 as u32)], "-15");
    is_text(&[Int(9991)], "9991");
    ["0xfa", "10.57", ".0"].iter().for_each(|text| refused(text, 32));
}

#[test]
fn one_of_each_kind() {
    is_text(&[], "");
    is_text(&[List(vec![])], "()");
    is_text(&[List(vec![]), List(vec![List(vec![])]), List(vec![])], "() (()) ()");
    is_text(&[Blob(vec![])], "{}");
    is_text(&[string(b"")], "\"\"");
    is_text(
        &[
            Int(1),
            List(vec![string(b"a\"b\\c\x01\xff"), Float(0x3ff0 << 48)]),
            vocab(*b"stop"),
            Blob(vec![0, 9]),
        ],
        "1 (\"a\\\"b\\\\c\\001\\377\" 0x1.0000000000000p+0) [stop] {0 9}",
    );
}

#[test]
fn ints() {
    let edges = [0, 1, 9, 10, 99, 100, 999_999_999, 1_000_000_000, i32::MAX, i32::MIN];
    for number in edges.into_iter().flat_map(|edge| [edge, edge.wrapping_neg()]) {
        is_text(&[Int(number as u32)], &number.to_string());
    }
    let mut random = Random::new(21);
    for _ in 0..20_000 {
        let number = random.word();
        is_text(&[Int(number)], &(number as i32).to_string());
    }
    for text in ["-0", "00", "007", "-07", "+1", "2147483648", "-2147483649", "0x1", "1e3"] {
        refused(text, 32);
    }
    refused(&format!("1{}", "0".repeat(100_000)), 32);
}

fn same_as_c(bits: u64) {
    let text = c_text(f64::from_bits(bits));
    assert_eq!(write(&[Float(bits)]), Ok(text.clone()), "{bits:016x}");
    assert_eq!(read(&text), Ok(rows_and_store(&[Float(bits)])), "{bits:016x}");
}

#[test]
fn floats_as_c_prints_them() {
    let mut random = Random::new(22);
    const FRACTION: u64 = (1 << 52) - 1;
    // 0 for zeros and subnormals, then all 2,046 exponents.
    for exponent in 0..=2046_u64 {
        let fractions = [0, 1, FRACTION, FRACTION - 1, 1 << 51, random.next() & FRACTION];
        for fraction in fractions {
            for sign in [0, 1 << 63] {
                same_as_c(sign | exponent << 52 | fraction);
            }
        }
    }
    for at in 0..52 {
        [1 << at, (1 << at) - 1, FRACTION & !(1 << at)].into_iter().for_each(same_as_c);
    }
    for _ in 0..40_000 {
        let bits = random.next();
        if f64::from_bits(bits).is_finite() {
            same_as_c(bits);
        }
        same_as_c(bits & !(0x7ff << 52));
    }
    let text = |bits| String::from_utf8(write(&[Float(bits)]).unwrap()).unwrap();
    assert_eq!(text(0), "0x0.0000000000000p+0");
    assert_eq!(text(1 << 63), "-0x0.0000000000000p+0");
    assert_eq!(text(1), "0x0.0000000000001p-1022");
    assert_eq!(text(0x7fef_ffff_ffff_ffff), "0x1.fffffffffffffp+1023");
    assert_eq!(text(0xbfe0_0000_0000_0000), "-0x1.0000000000000p-1");
}

#[test]
fn infinities_and_nans_have_no_text() {
    for fraction in (0..52).map(|at| 1 << at).chain([0, (1 << 52) - 1]) {
        for sign in [0, 1 << 63] {
            let bits = sign | 0x7ff << 52 | fraction;
            assert_eq!(write(&[Float(bits)]), Err(31), "{bits:016x}");
            assert_eq!(write(&[Int(1), List(vec![string(b"a"), Float(bits)])]), Err(31));
            assert_eq!(read(&c_text(f64::from_bits(bits))), Err(32));
        }
    }
}

#[test]
fn near_floats() {
    BAD_FLOATS.iter().for_each(|text| refused(text, 32));
    for text in GOOD.iter().filter(|text| text.contains('p') && !text.contains(' ')) {
        assert!(read(text.as_bytes()).is_ok(), "{text}");
        refused(&text.to_uppercase(), 32);
        refused(&format!("+{text}"), 32);
        // Up to the exponent's sign; what is left of its digits can be an exponent too.
        let sign = text.rfind(['+', '-']).unwrap();
        for cut in (1..=sign + 1).filter(|&cut| &text[..cut] != "0") {
            refused(&text[..cut], 32);
        }
    }
    for (exponent, good) in
        [("+1023", true), ("+1024", false), ("-1022", true), ("-1023", false), ("-0", false)]
    {
        let text = format!("0x1.8000000000000p{exponent}");
        assert_eq!(read(text.as_bytes()).is_ok(), good, "{text}");
    }
    for exponent in -2000..2000 {
        let text = format!("0x1.0000000000000p{exponent:+}");
        assert_eq!(read(text.as_bytes()).is_ok(), (-1022..=1023).contains(&exponent), "{text}");
        let text = format!("0x0.1000000000000p{exponent:+}");
        assert_eq!(read(text.as_bytes()).is_ok(), exponent == -1022, "{text}");
        let text = format!("-0x0.0000000000000p{exponent:+}");
        assert_eq!(read(text.as_bytes()).is_ok(), exponent == 0, "{text}");
    }
}

#[test]
fn every_byte_of_strings_and_blobs() {
    for byte in 0..=255_u8 {
        is_text(&[Blob(vec![byte])], &format!("{{{byte}}}"));
        is_text(&[Blob(vec![byte, byte])], &format!("{{{byte} {byte}}}"));
        refused(&format!("{{0{byte}}}"), 32);
        if byte > 0 {
            let text = match byte {
                b'"' | b'\\' => format!("\\{}", char::from(byte)),
                32..=126 => char::from(byte).to_string(),
                _ => format!("\\{byte:03o}"),
            };
            is_text(&[string(&[byte])], &format!("\"{text}\""));
            is_text(&[string(&[b'1', byte, b'1'])], &format!("\"1{text}1\""));
        }
        // As it is, and as octal digits: at most one of the two is its text.
        let raw = read(&[b'"', byte, b'"']).is_ok();
        let octal = read(format!("\"\\{byte:03o}\"").as_bytes()).is_ok();
        assert_eq!(raw, (32..=126).contains(&byte) && ![b'"', b'\\'].contains(&byte), "{byte}");
        assert_eq!(octal, byte > 0 && !(32..=126).contains(&byte), "{byte}");
        let escaped = read(&[b'"', b'\\', byte, b'"']).is_ok();
        assert_eq!(escaped, [b'"', b'\\'].contains(&byte), "{byte}");
        let outside = read(&[byte]).is_ok();
        assert_eq!(outside, byte.is_ascii_digit(), "{byte}");
    }
    for number in 0..1000 {
        assert_eq!(read(format!("{{{number}}}").as_bytes()).is_ok(), number < 256, "{number}");
        let octal = format!("\"\\{number:03}\"");
        let value = u32::from_str_radix(&format!("{number:03}"), 8).unwrap_or(0);
        let good = value > 0 && value < 256 && !(32..=126).contains(&value);
        assert_eq!(read(octal.as_bytes()).is_ok(), good, "{octal}");
    }
    assert_eq!(write_rows(&words(&[256, 1, 0, 4, 0, 1]), &[0]), Err(30));
    let all: Vec<u8> = (1..=255).collect();
    let text = write(&[string(&all)]).unwrap();
    assert_eq!(read(&text), Ok(rows_and_store(&[string(&all)])));
}

fn may_stand_in_vocab(byte: u8) -> bool {
    (33..=126).contains(&byte) && byte != b'[' && byte != b']'
}

#[test]
fn vocabs() {
    let edges = [0, 1, 32, 33, b'[', b'\\', b']', b'a', 126, 127, 255];
    for first in 0..=255 {
        for place in 0..4 {
            let mut bytes = *b"abcd";
            bytes[place] = first;
            let good = may_stand_in_vocab(first) || (first == 0 && place == 3);
            assert_eq!(write(&[vocab(bytes)]).is_ok(), good, "{bytes:?}");
        }
    }
    for number in 0..edges.len().pow(4) {
        let bytes = [0, 1, 2, 3].map(|place| edges[number / edges.len().pow(place) % edges.len()]);
        let length = bytes.iter().position(|&byte| byte == 0).unwrap_or(4);
        let (word, behind) = bytes.split_at(length);
        let good = length > 0
            && word.iter().all(|&byte| may_stand_in_vocab(byte))
            && behind.iter().all(|&byte| byte == 0);
        if good {
            is_text(&[vocab(bytes)], &format!("[{}]", std::str::from_utf8(word).unwrap()));
        } else {
            assert_eq!(write(&[vocab(bytes)]), Err(31), "{bytes:?}");
        }
        let text = [&b"["[..], word, b"]"].concat();
        let own = length > 0 && word.iter().all(|&byte| may_stand_in_vocab(byte));
        assert_eq!(read(&text).is_ok(), own, "{word:?}");
    }
    assert_eq!(write(&[Vocab(0)]), Err(31));
    for text in ["[]", "[abcde]", "[a b]", "[ab", "[[a]", "[a]]"] {
        refused(text, 32);
    }
}

#[test]
fn good_and_bad_texts() {
    for text in GOOD {
        let (rows, store) = read(text.as_bytes()).expect(text);
        assert_eq!(write_rows(&words(&rows), &store).as_deref(), Ok(text.as_bytes()));
        for beside in ["1 ", "(1) ", "() "] {
            let longer =
                if text.is_empty() { String::from("1") } else { format!("{beside}{text}") };
            assert!(read(longer.as_bytes()).is_ok(), "{longer}");
        }
        assert!(read(format!("({text})").as_bytes()).is_ok());
        refused(&format!(" {text}"), 32);
        refused(&format!("{text} "), 32);
        refused(&format!("( {text})"), 32);
        refused(&format!("({text} )"), 32);
        refused(&format!("({text}"), 32);
        refused(&format!("{text})"), 32);
        refused(&format!("1  {text}"), 32);
        refused(&format!("{text}\0"), 32);
        refused(&format!("{text}\n"), 32);
    }
    for text in BAD {
        refused(text, 32);
        refused(&format!("1 {text}"), 32);
        refused(&format!("{text} ()"), 32);
    }
}

#[test]
fn brackets_at_any_depth() {
    let pairs = |depth: usize| format!("{}{}", "(".repeat(depth), ")".repeat(depth));
    for depth in 0..=12 {
        // The outermost list has no brackets.
        let owed = if depth < 8 { None } else { Some(27) };
        assert_eq!(read(pairs(depth).as_bytes()).err(), owed, "{depth}");
    }
    let depth = 100_000;
    refused(&pairs(depth), 27);
    refused(&pairs(depth)[1..], 32);
    refused(&pairs(depth)[..2 * depth - 1], 32);
    refused(&format!("{} ", pairs(depth)), 32);
    refused(&format!("{} )", pairs(depth)), 32);
    refused(&format!("{} 1", pairs(depth)), 27);
    refused(&format!("{} -0", pairs(depth)), 32);
    refused(&vec!["()"; depth].join(" "), 28);
    refused(&"()".repeat(depth), 32);
    refused(&"(".repeat(depth), 32);
    refused(&")".repeat(depth), 32);
    // Too deep and too long, and too long at depth 8.
    let ints = vec!["1"; 5000].join(" ");
    refused(&format!("{ints} {}", pairs(8)), 27);
    refused(&format!("{ints} {}", pairs(7)), 28);
    refused(&format!("({ints}"), 32);
    refused(&format!("{}{ints}{}", "(".repeat(9), ")".repeat(9)), 27);
}

#[test]
fn sizes_at_the_limit() {
    let ints = |count: usize| vec![Int(7); count];
    let sized = |elements: &[Element]| {
        let size = image(elements).len();
        let text = text_of(elements).unwrap();
        if size <= 4096 {
            assert_eq!(write(elements), Ok(text.clone()));
            assert_eq!(read(&text), Ok(rows_and_store(elements)));
        } else {
            assert_eq!(write(elements), Err(28));
            assert_eq!(read(&text), Err(28));
        }
        size
    };
    assert_eq!([1021, 1022, 1023].map(|count| sized(&ints(count))), [4092, 4096, 4100]);
    // Elements of two kinds have their codes, 8 bytes for an int.
    let two = |count: usize| [vec![vocab(*b"a\0\0\0")], ints(count)].concat();
    assert_eq!([509, 510, 511].map(|count| sized(&two(count))), [4088, 4096, 4104]);
    let with_list = |count: usize| [vec![List(vec![])], ints(count)].concat();
    assert_eq!([510, 511].map(|count| sized(&with_list(count))), [4096, 4104]);
    let floats = |count: usize| vec![Float(1); count];
    assert_eq!([510, 511, 512].map(|count| sized(&floats(count))), [4088, 4096, 4104]);
    let empty = |count: usize| vec![List(vec![]); count];
    assert_eq!([510, 511, 512].map(|count| sized(&empty(count))), [4088, 4096, 4104]);
    for byte in [1, 9, 32, 34, 100, 255] {
        let one = |length| [string(&vec![byte; length])];
        assert_eq!([4082, 4083, 4084].map(|length| sized(&one(length))), [4095, 4096, 4097]);
        let one = |length| [Blob(vec![byte; length])];
        assert_eq!([4083, 4084, 4085].map(|length| sized(&one(length))), [4095, 4096, 4097]);
    }
    // The longest text of all: each byte of the list as four characters, but for the header.
    let longest = write(&[Blob(vec![200; 4084])]).unwrap();
    assert_eq!(longest.len(), 4 * 4084 + 1);
    let longest = write(&[string(&[200; 4083])]).unwrap();
    assert_eq!(longest.len(), 4 * 4083 + 2);
    assert!(longest.len() <= TEXT_ROOM);
}

#[test]
fn order_of_refusals() {
    let untold = [Float(0x7ff0 << 48)];
    let (rows, store) = rows_and_store(&untold);
    let rows = words(&rows);
    for length in [0, 1, TEXT_ROOM - 1] {
        let mut text = vec![0xa5; length];
        assert_eq!(encode(&rows, &store, &mut text), Err(Error::BufferTooSmall));
        assert_eq!(encode(&[], &store, &mut text), Err(Error::BufferTooSmall));
        assert!(text.iter().all(|&byte| byte == 0xa5));
    }
    assert_eq!(write(&untold), Err(31));
    assert_eq!(write_rows(&rows[..23], &store), Err(30));
    assert_eq!(write_rows(&rows, &[1]), Err(30));
    let deep = (1..9).fold(untold.to_vec(), |inner, _| vec![List(inner)]);
    assert_eq!(write(&deep), Err(27));
    assert_eq!(write(&deep[0..0]), Ok(vec![]));
    let long = vec![Float(0x7ff0 << 48); 512];
    assert_eq!(write(&long), Err(28));
    assert_eq!(write(&long[..511]), Err(31));
    assert_eq!(write(&[vec![List(deep)], long].concat()), Err(27));

    for (rows, store) in [(0, 0), (ROWS_ROOM - 1, STORE_ROOM), (ROWS_ROOM, STORE_ROOM - 1)] {
        for text in ["", "1", "-0", "((((((((("] {
            let (mut rows, mut store) = (vec![0xa5; rows], vec![0xa5; store]);
            let answer = decode(text.as_bytes(), &mut rows, &mut store);
            assert_eq!(answer, Err(Error::BufferTooSmall));
            assert_eq!(numbers(answer), [20, 0, 0]);
            assert!(rows.iter().chain(&store).all(|&byte| byte == 0xa5));
        }
    }
    assert_eq!(numbers(decode(b"\"ab\" 1", &mut [0; ROWS_ROOM], &mut [0; STORE_ROOM])), [0, 3, 2]);
}

#[test]
fn round_trips() {
    let mut random = Random::new(23);
    let mut met = BTreeMap::new();
    for _ in 0..10_000 {
        let elements = generate::telling(&mut random);
        let answer = write(&elements);
        *met.entry(*answer.as_ref().err().unwrap_or(&0)).or_insert(0) += 1;
        let text = text_of(&elements).expect("a text form");
        match answer {
            Ok(written) => {
                assert_eq!(written, text);
                assert!(text.len() <= 4 * image(&elements).len());
                assert_eq!(read(&text), Ok(rows_and_store(&elements)));
            }
            Err(error) => assert_eq!(read(&text), Err(error)),
        }
    }
    for number in [0, 27, 28] {
        assert!(met.get(&number).is_some_and(|&times| times > 100), "{number}: {met:?}");
    }
}

#[test]
fn what_is_accepted_writes_back() {
    let mut random = Random::new(24);
    let mut met = BTreeMap::new();
    for _ in 0..12_000 {
        let text = generate::any_text(&mut random);
        let answer = read(&text);
        *met.entry(*answer.as_ref().err().unwrap_or(&0)).or_insert(0) += 1;
        if let Ok((rows, store)) = answer {
            assert_eq!(write_rows(&words(&rows), &store), Ok(text));
        }
    }
    for number in [0, 27, 28, 32] {
        assert!(met.get(&number).is_some_and(|&times| times > 100), "{number}: {met:?}");
    }
}

#[test]
fn writes_as_defined() {
    let mut random = Random::new(25);
    let mut met = BTreeMap::new();
    for _ in 0..10_000 {
        let (rows, store) = generate::any_list(&mut random);
        let answer = write_rows(&rows, &store);
        *met.entry(*answer.as_ref().err().unwrap_or(&0)).or_insert(0) += 1;
    }
    for number in [0, 27, 28, 30, 31] {
        assert!(met.get(&number).is_some_and(|&times| times > 100), "{number}: {met:?}");
    }
}

#[test]
fn what_the_show_program_prints() {
    let primes = image(&[2, 3, 5].map(Int));
    let lists = [
        primes.clone(),
        image(&[]),
        image(&[Float(0x7ff0 << 48)]),
        image(&[List(vec![vocab(*b"set\0")]), string(b"\"")]),
    ];
    let mut input = lists.concat();
    let end = input.len();
    let lines = "2 3 5\n\nrefused 31\n([set]) \"\\\"\"\n";
    assert_eq!(show_output(&input), format!("{lines}end {end}\n"));
    input.extend([0, 0]);
    assert_eq!(show_output(&input), format!("{lines}stop 21 at {end} depth 0\n"));
    assert_eq!(show_output(&[]), "end 0\n");
    let mut full = image(&[]).repeat(RUN_LIMIT / 8);
    assert_eq!(show_output(&full), format!("{}end 32768\n", "\n".repeat(4096)));
    full.push(0);
    assert_eq!(show_output(&full), "too long\n");
    let nine = (1..9).fold(vec![], |inner, _| vec![List(inner)]);
    assert_eq!(show_output(&[primes, image(&nine)].concat()), "2 3 5\nstop 27 at 84 depth 8\n");
}

/// Every text of up to four characters of a small alphabet: those that are accepted are all
/// different lists' texts.
#[test]
fn short_texts() {
    let alphabet = b"()[]{}\"\\ -019a";
    let mut lists = BTreeMap::new();
    let mut texts = vec![Vec::new()];
    for _ in 0..=4 {
        for text in &texts {
            if let Ok(list) = read(text) {
                let other = lists.insert(list, text.clone());
                assert_eq!(other, None, "{:?}", String::from_utf8_lossy(text));
            }
        }
        texts = texts
            .iter()
            .flat_map(|text| alphabet.iter().map(|&character| [&text[..], &[character]].concat()))
            .collect();
    }
    assert!(lists.len() > 400, "{}", lists.len());
}

/// Trees that differ have different texts, or one of them has none.
#[test]
fn two_lists_never_have_equal_text() {
    let mut random = Random::new(26);
    let mut texts: BTreeMap<Vec<u8>, Vec<u8>> = BTreeMap::new();
    for number in 0..10_000 {
        let elements = if number % 2 == 0 {
            generate::small(&mut random, 40)
        } else {
            lists::legal(&mut random)
        };
        if let Ok(text) = write(&elements) {
            let bytes = image(&elements);
            let known = texts.entry(text).or_insert_with(|| bytes.clone());
            assert_eq!(*known, bytes);
        }
    }
    assert!(texts.len() > 3_000, "{}", texts.len());
}
