//! Lists: document 01's bench cases, the readings of its open points, and round trips
//! on generated trees.

use second_reader::definition::list as definition;
use second_reader::depths::{counted, number, OF_BYTES};
use second_reader::generate::list::{self as generate, Element};
use second_reader::generate::writers;
use second_reader::list::{
    decode, encode, ListError, DEPTH_LIMIT, LIST_LIMIT, ROWS_ROOM, STORE_ROOM,
};
use second_reader::random::Random;
use second_reader::Error;
use std::collections::{BTreeMap, BTreeSet};
use writers::bytes_of as words;
use Element::{Blob, Float, Int, List, String, Vocab};

fn numbers(rows: &[u8]) -> Vec<u32> {
    rows.chunks(4).map(|word| u32::from_le_bytes(word.try_into().unwrap())).collect()
}

/// Consumed bytes, row numbers and store bytes; or error number, offset and depth. The store
/// in use must be what the string and blob rows cover, and the depth what is counted.
fn read(bytes: &[u8]) -> Result<(usize, Vec<u32>, Vec<u8>), (u64, u64, u64)> {
    let mut rows = [0xa5; ROWS_ROOM];
    let mut store = [0xa5; STORE_ROOM];
    match decode(bytes, &mut rows, &mut store) {
        Ok(decoded) => {
            assert!(rows[12 * decoded.rows..].iter().all(|&byte| byte == 0xa5));
            let filled = numbers(&rows[..12 * decoded.rows]);
            let stored = filled.chunks(3).filter(|row| row[0] == 4 || row[0] == 12);
            let used = stored.map(|row| row[2] as usize).sum::<usize>();
            assert_eq!(decoded.stored, used);
            assert!(store[used..].iter().all(|&byte| byte == 0xa5));
            Ok((decoded.consumed, filled, store[..used].to_vec()))
        }
        Err(ListError { error, offset, depth }) => {
            assert!(rows.iter().chain(&store).all(|&byte| byte == 0xa5));
            let error = error.number();
            assert_eq!(counted(bytes, 0, error, offset), Some(depth), "{error} {bytes:02x?}");
            Err((error, offset, depth))
        }
    }
}

fn fails(bytes: &[u8], error: u64, offset: u64, depth: u64) {
    assert_eq!(read(bytes), Err((error, offset, depth)), "{bytes:02x?}");
}

fn words_fail(given: &[u32], error: u64, offset: u64, depth: u64) {
    fails(&words(given), error, offset, depth);
}

fn write(rows: &[u32], store: &[u8]) -> Result<Vec<u8>, u64> {
    write_bytes(&words(rows), store)
}

fn write_bytes(rows: &[u8], store: &[u8]) -> Result<Vec<u8>, u64> {
    let mut list = [0xa5; LIST_LIMIT];
    match encode(rows, store, &mut list) {
        Ok(length) => {
            assert!(list[length..].iter().all(|&byte| byte == 0xa5));
            Ok(list[..length].to_vec())
        }
        Err(error) => {
            assert!(list.iter().all(|&byte| byte == 0xa5));
            Err(error.number())
        }
    }
}

fn two_lists() -> Vec<u8> {
    let mut bytes = words(&[256, 2, 257, 3, 91, 92, 93, 260, 4]);
    for text in ["this\0", "is\0", "a\0", "good list\0"] {
        bytes.extend((text.len() as u32).to_le_bytes());
        bytes.extend(text.bytes());
    }
    bytes
}

fn nested(depth: usize) -> Vec<u8> {
    let mut given = [256, 1].repeat(depth);
    given[2 * depth - 1] = 0;
    words(&given)
}

fn ints(count: u32) -> Vec<u8> {
    let mut given = vec![257, count];
    given.extend(0..count);
    words(&given)
}

#[test]
fn bench_cases() {
    let primes = [2, 3, 5, 7, 11, 13, 17, 19];
    let mut bytes = words(&[257, 8]);
    bytes.extend(words(&primes));
    let mut rows = vec![256, 8, 0];
    primes.iter().for_each(|&prime| rows.extend([1, prime, 0]));
    assert_eq!(read(&bytes), Ok((40, rows.clone(), vec![])));
    assert_eq!(write(&rows, &[]), Ok(bytes));

    let bytes = two_lists();
    let rows = [
        [256, 2, 0],
        [256, 3, 0],
        [1, 91, 0],
        [1, 92, 0],
        [1, 93, 0],
        [256, 4, 0],
        [4, 0, 4],
        [4, 4, 2],
        [4, 6, 1],
        [4, 7, 9],
    ]
    .concat();
    let store = b"thisisagood list".to_vec();
    assert_eq!(bytes.len(), 72);
    assert_eq!(read(&bytes), Ok((72, rows.clone(), store.clone())));
    assert_eq!(write(&rows, &store), Ok(bytes));

    assert_eq!(read(&words(&[256, 0])), Ok((8, vec![256, 0, 0], vec![])));
    words_fail(&[257, 0], 24, 0, 1);
    words_fail(&[256, 1, 1, 5], 24, 0, 1);
    words_fail(&[512, 0], 22, 0, 0);
    assert_eq!(read(&nested(8)).map(|read| read.0), Ok(64));
    fails(&nested(9), 27, 64, 8);
    assert_eq!(read(&ints(1022)).map(|(taken, rows, _)| (taken, rows.len())), Ok((4096, 3 * 1023)));
    fails(&ints(1023), 28, 4096, 1);
}

#[test]
fn places_of_faults() {
    let mut string = words(&[260, 1, 4]);
    string.extend(b"A\0A\0");
    fails(&string, 25, 12, 1);
    words_fail(&[256, 1], 21, 8, 1);
    fails(&[], 21, 0, 0);
    fails(&[0, 1, 0], 21, 0, 0);
    words_fail(&[256], 21, 4, 1);
    words_fail(&[257, 0x7fff_ffff], 21, 8, 1);
    let mut promising = words(&[257, 0x7fff_ffff]);
    promising.resize(5000, 0);
    fails(&promising, 28, 4096, 1);
    words_fail(&[257, 0x8000_0000], 23, 4, 1);
    words_fail(&[256, 0xffff_ffff], 23, 4, 1);
    words_fail(&[256, 2, 1, 5, 1], 21, 20, 1);
    words_fail(&[256, 2, 1, 5, 1, 6], 24, 0, 1);
    words_fail(&[256, 2, 256, 1, 1, 5, 7], 24, 8, 2);
    words_fail(&[256, 2, 265, 0], 24, 8, 2);
    words_fail(&[256, 1, 7], 26, 8, 1);
    words_fail(&[256, 1, 0], 26, 8, 1);
    words_fail(&[0xffff_ff00, 0], 22, 0, 0);
    words_fail(&[1, 5], 22, 0, 0);
    assert!(read(&words(&[256, 2, 257, 1, 5, 257, 1, 5])).is_ok());
}

#[test]
fn lengths_of_strings_and_blobs() {
    words_fail(&[260, 1, 0], 25, 8, 1);
    words_fail(&[260, 1, 0xffff_ffff], 25, 8, 1);
    words_fail(&[268, 1, 0xffff_ffff], 25, 8, 1);
    words_fail(&[268, 1, 0x8000_0000], 25, 8, 1);
    words_fail(&[260, 1, 0x7fff_ffff], 28, 12, 1);
    words_fail(&[268, 1, 0x7fff_ffff], 28, 12, 1);
    words_fail(&[268, 1, 4085], 28, 12, 1);
    words_fail(&[268, 1, 4084], 21, 12, 1);
    words_fail(&[268, 1], 21, 8, 1);
    words_fail(&[256, 2, 4, 0], 25, 12, 1);
    words_fail(&[260, 1, 4, 0x41414141], 25, 12, 1);
    assert_eq!(read(&words(&[268, 1, 0])), Ok((12, vec![256, 1, 0, 12, 0, 0], vec![])));
    let mut empty_string = words(&[260, 1, 1]);
    empty_string.push(0);
    assert_eq!(read(&empty_string), Ok((13, vec![256, 1, 0, 4, 0, 0], vec![])));
}

/// A list of a blob that ends at this offset and what follows it.
fn blob_up_to(end: usize, count: u32, behind: &[u8]) -> Vec<u8> {
    let mut bytes = words(&[256, count, 12, end as u32 - 16]);
    bytes.resize(end, 0x55);
    bytes.extend(behind);
    bytes
}

#[test]
fn the_limit_comes_before_the_end() {
    fails(&blob_up_to(4096, 2, &[]), 28, 4096, 1);
    fails(&blob_up_to(4096, 2, &words(&[1, 5])), 28, 4096, 1);
    fails(&blob_up_to(4093, 2, &[]), 28, 4093, 1);
    fails(&blob_up_to(4092, 2, &[]), 21, 4092, 1);
    fails(&blob_up_to(4092, 2, &words(&[1])), 28, 4096, 1);
    fails(&blob_up_to(4092, 2, &words(&[7])), 26, 4092, 1);
    // The code of a nested list stands in one list, its count in two.
    fails(&blob_up_to(4093, 2, &words(&[256])), 28, 4093, 1);
    fails(&blob_up_to(4092, 2, &words(&[256])), 28, 4096, 2);
    // The last element is a blob of no bytes that stands at the limit.
    let bytes = blob_up_to(4080, 3, &words(&[1, 5, 12, 0]));
    assert_eq!(read(&bytes).map(|read| read.0), Ok(4096));
    fails(&blob_up_to(4096, 1, &[]), 24, 0, 1);
}

#[test]
fn depth_is_judged_at_the_code() {
    let mut at_depth_8 = [256, 1].repeat(8);
    at_depth_8.push(7);
    words_fail(&at_depth_8, 26, 64, 8);
    for code in [256, 257, 260, 265, 266, 268] {
        at_depth_8[16] = code;
        words_fail(&at_depth_8, 27, 64, 8);
    }
    at_depth_8[16] = 512;
    words_fail(&at_depth_8, 26, 64, 8);
    fails(&words(&at_depth_8)[..67], 21, 64, 8);
    // A list code at depth 9 that passes the limit: the blob before it ends at `end`.
    for (end, error) in [(4092, 27), (4093, 28)] {
        let mut bytes = words(&[256, 1].repeat(7));
        bytes.extend(words(&[256, 2, 12, end - 72]));
        bytes.resize(end as usize, 0x55);
        bytes.extend(words(&[256, 0]));
        fails(&bytes, error, end.into(), 8);
    }
}

/// The lists that are open: from the count to the end of the last element.
#[test]
fn depths_of_faults() {
    // A nested list's code, its count, what is in it, and what is behind it.
    words_fail(&[256, 3, 256], 21, 12, 2);
    fails(&words(&[256, 3, 256])[..11], 21, 8, 1);
    words_fail(&[256, 3, 256, 0xffff_ffff], 23, 12, 2);
    words_fail(&[256, 3, 256, 2], 21, 16, 2);
    words_fail(&[256, 3, 256, 2, 256], 21, 20, 3);
    words_fail(&[256, 3, 256, 2, 256, 0], 21, 24, 2);
    words_fail(&[256, 3, 256, 2, 256, 0, 7], 26, 24, 2);
    words_fail(&[256, 3, 256, 2, 256, 0, 256, 0], 21, 32, 1);
    words_fail(&[256, 3, 256, 2, 256, 0, 256, 0, 7], 26, 32, 1);
    words_fail(&[256, 3, 257, 1, 5, 260, 1, 0], 25, 28, 2);
    words_fail(&[256, 3, 257, 1, 5, 4, 0], 25, 24, 1);
    words_fail(&[256, 3, 256, 0, 268, 1, 0, 12, LIST_LIMIT as u32], 28, 36, 1);
    // A blob of no bytes ends with its length, and the list of which it is the last.
    words_fail(&[256, 2, 268, 1, 0, 7], 26, 20, 1);
    // 24 has the depth of the list, whenever it is judged.
    words_fail(&[256, 2, 256, 2, 256, 0, 257, 0], 24, 24, 3);
    words_fail(&[256, 2, 256, 2, 256, 0, 256, 1, 1, 5], 24, 24, 3);
    words_fail(&[256, 2, 1, 5, 1, 5], 24, 0, 1);
    // Cut anywhere in eight lists, and in the ints behind each of them.
    let mut given = [256, 2].repeat(7);
    given.extend([256, 0]);
    given.extend([1, 5].repeat(7));
    for length in 0..4 * given.len() {
        let word = length / 4;
        let depth = if word < 16 { word.div_ceil(2) } else { 7 - (word - 16) / 2 };
        fails(&words(&given)[..length], 21, 4 * word as u64, depth as u64);
    }
    assert!(read(&words(&given)).is_ok());
}

/// The generated faults have every error at every depth that it can have, and no other.
#[test]
fn faults_at_every_depth() {
    let met = |lists: Vec<Vec<u8>>| -> BTreeSet<u64> {
        let refused = lists.iter().filter_map(|bytes| read(bytes).err());
        refused.map(|(error, _, depth)| number(error, depth)).collect()
    };
    assert_eq!(met(generate::faults()), BTreeSet::from(OF_BYTES));
    let mut random = Random::new(16);
    let any = (0..30_000).map(|_| generate::any(&mut random)).collect();
    assert_eq!(met(any), BTreeSet::from(OF_BYTES));
}

/// The list with every kind at every depth, cut at each byte, and moved so that the limit
/// falls on each: 21 and 28 at every item, wherever it stands.
#[test]
fn cut_at_every_depth() {
    let whole = generate::image(&generate::at_every_depth());
    assert_eq!(read(&whole).map(|read| read.0), Ok(whole.len()));
    let mut met = BTreeSet::new();
    for length in 0..whole.len() {
        let (error, offset, depth) = read(&whole[..length]).unwrap_err();
        assert_eq!(error, 21);
        met.insert((error, depth));
        let start = LIST_LIMIT - length;
        let (error, moved, deeper) = read(&generate::behind_blob(start, &whole)).unwrap_err();
        // In one list more, the deepest are too deep.
        if error != 27 {
            assert_eq!((error, moved, deeper), (28, start as u64 + offset, depth + 1));
            met.insert((error, deeper));
        }
    }
    let deepest = DEPTH_LIMIT as u64;
    let cut = (0..=deepest).map(|depth| (21, depth));
    let beyond = (1..=deepest).map(|depth| (28, depth));
    assert_eq!(met, cut.chain(beyond).collect());
}

#[test]
fn buffers_are_judged_first() {
    let list = words(&[256, 0]);
    for (rows, store) in [(0, 0), (12_287, 4096), (12_288, 4095), (12_300, 0)] {
        let mut rows = vec![0xa5; rows];
        let mut store = vec![0xa5; store];
        let expected = Err(ListError { error: Error::BufferTooSmall, offset: 0, depth: 0 });
        assert_eq!(decode(&list, &mut rows, &mut store), expected);
        assert_eq!(decode(&[], &mut rows, &mut store), expected);
        assert!(rows.iter().chain(&store).all(|&byte| byte == 0xa5));
    }
    let mut list = [0xa5; 4095];
    assert_eq!(encode(&[], &[], &mut list), Err(Error::BufferTooSmall));
    assert_eq!(encode(&words(&[256, 0, 0]), &[], &mut list), Err(Error::BufferTooSmall));
    assert_eq!(list, [0xa5; 4095]);
}

#[test]
fn rows_that_are_not_one_list() {
    let bad: [(&[u32], &[u8]); 28] = [
        (&[], &[]),
        (&[256, 0], &[]),
        (&[256, 0, 0, 1], &[]),
        (&[256, 0, 1], &[]),
        (&[1, 5, 0], &[]),
        (&[257, 1, 0, 1, 5, 0], &[]),
        (&[256, 1, 0], &[]),
        (&[256, 0, 0, 1, 5, 0], &[]),
        (&[256, 1, 0, 1, 5, 0, 1, 6, 0], &[]),
        (&[256, 1, 0, 1, 5, 1], &[]),
        (&[256, 1, 0, 9, 5, 1], &[]),
        (&[256, 1, 0, 256, 0, 1], &[]),
        (&[256, 1, 0, 257, 0, 0], &[]),
        (&[256, 1, 0, 7, 0, 0], &[]),
        (&[256, 0xffff_ffff, 0], &[]),
        (&[256, 0x8000_0000, 0], &[]),
        (&[256, 1, 0, 4, 0, 0xffff_ffff], &[]),
        (&[256, 1, 0, 12, 0, 0x8000_0000], &[]),
        (&[256, 1, 0, 4, 1, 0], &[]),
        (&[256, 1, 0, 12, 1, 0], &[1]),
        (&[256, 1, 0, 12, 0, 2], &[1]),
        (&[256, 1, 0, 12, 0, 1], &[1, 2]),
        (&[256, 0, 0], &[1]),
        (&[256, 2, 0, 12, 0, 2, 12, 1, 1], &[1, 2]),
        (&[256, 2, 0, 12, 0, 1, 12, 0, 1], &[1, 2]),
        (&[256, 2, 0, 12, 1, 1, 12, 0, 1], &[1, 2]),
        (&[256, 1, 0, 4, 0, 1], &[0]),
        (&[256, 1, 0, 4, 0, 3], &[1, 0, 1]),
    ];
    for (rows, store) in bad {
        assert_eq!(write(rows, store), Err(30), "{rows:?} {store:?}");
    }
    assert_eq!(write(&[256, 1, 0, 12, 0, 1], &[0]).map(|list| list.len()), Ok(13));
    // Rows that are cut inside the last, or followed by less than one.
    let rows = words(&[256, 0, 0]);
    for length in 0..rows.len() {
        assert_eq!(write_bytes(&rows[..length], &[]), Err(30));
        assert_eq!(write_bytes(&[&rows, &[0; 12][..length]].concat(), &[]).is_ok(), length == 0);
    }
}

/// The rows of lists nested to this depth, the innermost empty.
fn nested_rows(depth: usize) -> Vec<u32> {
    let mut rows = [256, 1, 0].repeat(depth);
    rows[3 * depth - 2] = 0;
    rows
}

#[test]
fn writing_judges_shape_then_depth_then_size() {
    assert_eq!(write(&nested_rows(8), &[]), Ok(nested(8)));
    assert_eq!(write(&nested_rows(9), &[]), Err(27));
    let mut rows = nested_rows(1000);
    assert_eq!(write(&rows, &[]), Err(27));
    rows.extend([1, 5, 0]);
    assert_eq!(write(&rows, &[]), Err(30));

    let mut many = vec![256, 1022, 0];
    many.extend([1, 5, 0].repeat(1022));
    assert_eq!(write(&many, &[]).map(|list| list.len()), Ok(4096));
    many[1] = 1023;
    assert_eq!(write(&many, &[]), Err(30));
    many.extend([1, 5, 0]);
    assert_eq!(write(&many, &[]), Err(28));
    many[1] = 5001;
    many.extend([1, 5, 0].repeat(5001 - 1023));
    assert_eq!(write(&many, &[]), Err(28));
    // Too deep and too long.
    let last = many.len() - 3;
    many.truncate(last);
    many.extend(nested_rows(8));
    assert_eq!(write(&many, &[]), Err(27));

    let store = vec![1; 4085];
    assert_eq!(write(&[256, 1, 0, 12, 0, 4084], &store[..4084]).map(|list| list.len()), Ok(4096));
    assert_eq!(write(&[256, 1, 0, 12, 0, 4085], &store), Err(28));
    assert_eq!(write(&[256, 1, 0, 4, 0, 4083], &store[..4083]).map(|list| list.len()), Ok(4096));
    assert_eq!(write(&[256, 1, 0, 4, 0, 4084], &store[..4084]), Err(28));
}

#[test]
fn depth_falls_again_behind_a_list() {
    let leaf = |depth: usize| (1..depth).fold(vec![], |inner, _| vec![List(inner)]);
    let tree = vec![List(leaf(7)), List(leaf(7)), Int(1), List(leaf(7))];
    let (rows, store) = generate::rows_and_store(&tree);
    assert_eq!(write(&rows, &store), Ok(generate::image(&tree)));
    let tree = vec![List(leaf(7)), Int(1), List(leaf(8))];
    let (rows, store) = generate::rows_and_store(&tree);
    assert_eq!(write(&rows, &store), Err(27));
}

#[test]
fn round_trips() {
    let mut random = Random::new(5);
    let mut accepted = 0;
    for number in 0..12_000 {
        let tree = match number % 4 {
            0 => generate::around_the_limit(&mut random),
            1 => {
                let depth = random.between(6, 10);
                generate::nested(&mut random, depth)
            }
            _ => generate::legal(&mut random),
        };
        let (rows, store) = generate::rows_and_store(&tree);
        let expected = definition::write(&words(&rows), &store).map_err(|error| error.number());
        assert_eq!(write(&rows, &store), expected);
        let image = generate::image(&tree);
        match expected {
            Ok(bytes) => {
                accepted += 1;
                let length = bytes.len();
                assert_eq!(read(&bytes), Ok((length, rows.clone(), store.clone())));
                let mut longer = bytes;
                longer.extend(random.bytes(9));
                assert_eq!(read(&longer), Ok((length, rows, store)));
                let cut = random.below(length);
                assert_eq!(read(&longer[..cut]).unwrap_err().0, 21);
            }
            Err(27) => assert_eq!(read(&image).unwrap_err().0, 27),
            Err(_) => assert_eq!(read(&image).unwrap_err().0, 28),
        }
    }
    assert!(accepted > 8_000, "{accepted}");
}

#[test]
fn what_is_accepted_writes_back() {
    let mut random = Random::new(6);
    let mut met = BTreeMap::new();
    for _ in 0..30_000 {
        let bytes = generate::any(&mut random);
        match read(&bytes) {
            Ok((consumed, rows, store)) => {
                *met.entry(0).or_insert(0) += 1;
                assert_eq!(write(&rows, &store).unwrap(), bytes[..consumed]);
                assert!(rows.len() <= 3 * 1023);
            }
            Err((error, offset, _)) => {
                *met.entry(error).or_insert(0) += 1;
                assert!(offset <= 4096 && offset <= bytes.len() as u64);
            }
        }
    }
    for error in [0, 21, 22, 23, 24, 25, 26, 27, 28] {
        assert!(met.get(&error).is_some_and(|&times| times > 100), "{error}: {met:?}");
    }
}

#[test]
fn every_kind_typed_and_untyped() {
    let kinds = [
        Int(5),
        Vocab(5),
        Float(0x3ff0_0000_0000_0000),
        String(b"five".to_vec()),
        Blob(vec![0, 5]),
    ];
    for (first, one) in kinds.iter().enumerate() {
        let code = [257, 265, 266, 260, 268][first];
        let typed = generate::image(&[one.clone(), one.clone()]);
        assert_eq!(typed[..8], words(&[code, 2])[..]);
        assert!(read(&typed).is_ok());
        fails(&generate::misformed_image(&[one.clone(), one.clone()], 0), 24, 0, 1);
        for (second, other) in kinds.iter().enumerate() {
            let mixed = generate::image(&[one.clone(), other.clone()]);
            assert_eq!(mixed[..4] == words(&[256])[..], first != second);
            assert!(read(&mixed).is_ok());
        }
    }
}

#[test]
fn reads_as_defined() {
    let mut random = Random::new(13);
    let any = (0..20_000).map(|_| generate::any(&mut random));
    for bytes in generate::faults().into_iter().chain(any) {
        let expected = definition::read(&bytes);
        let expected = expected.map(|read| (read.consumed, read.rows, read.store));
        let expected = expected.map_err(|fault| (fault.error.number(), fault.offset, fault.depth));
        assert_eq!(read(&bytes), expected, "{bytes:02x?}");
    }
}

#[test]
fn writes_as_defined() {
    let mut random = Random::new(15);
    let mut met = BTreeMap::new();
    for _ in 0..10_000 {
        let (rows, store) = writers::any_list(&mut random);
        let expected = definition::write(&rows, &store).map_err(|error| error.number());
        *met.entry(*expected.as_ref().err().unwrap_or(&0)).or_insert(0) += 1;
        assert_eq!(write_bytes(&rows, &store), expected, "{rows:02x?} {store:02x?}");
    }
    for number in [0, 27, 28, 30] {
        assert!(met.get(&number).is_some_and(|&times| times > 100), "{number}: {met:?}");
    }
}
