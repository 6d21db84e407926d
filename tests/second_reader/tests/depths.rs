//! What is told about depths is right, since a run is judged by it.

use second_reader::depths::{count, counted, number, numbers};
use second_reader::generate::writers::bytes_of as words;

#[test]
fn numbers_of_errors() {
    const ERRORS: &[u64] = &[0, 20, 21, 22, 24, 27, 29, 33];
    const NUMBERS: [u64; count(ERRORS)] = numbers(ERRORS);
    let of_21 = [210, 211, 212, 213, 214, 215, 216, 217, 218];
    let of_24 = [241, 242, 243, 244, 245, 246, 247, 248];
    let expected = [&[0, 200][..], &of_21, &[220], &of_24, &[278, 290, 330]].concat();
    assert_eq!(NUMBERS[..], expected);
    for (error, first) in [(23, 231), (25, 251), (26, 261), (28, 281)] {
        assert_eq!(numbers::<8>(&[error]), [0, 1, 2, 3, 4, 5, 6, 7].map(|more| first + more));
        assert_eq!(count(&[error]), 8);
    }
    assert_eq!(number(21, 8), 218);
}

/// The places of bytes, each with the lists that are open there: a digit where an item begins,
/// a dot where none does.
fn places(open: &str) -> impl Iterator<Item = (u64, Option<u64>)> + '_ {
    let lists = open.chars().map(|open| open.to_digit(10).map(u64::from));
    (0..).zip(lists)
}

/// The list `1 "a" (() 2) {}`.
#[test]
fn lists_open_at_a_place() {
    let mut bytes = words(&[256, 4, 1, 1, 4, 2]);
    bytes.extend(b"a\0");
    bytes.extend(words(&[256, 2, 256, 0, 1, 2, 12, 0]));
    let end = bytes.len() as u64;
    let twice = bytes.repeat(2);
    let open = "0...1...1...1...1...1...1.1...2...2...3...2...2...1...1...";
    assert_eq!(open.len(), bytes.len());
    for (place, wanted) in places(open) {
        assert_eq!(counted(&bytes, 0, 21, place), wanted, "{place}");
        // A list that begins there is one more.
        assert_eq!(counted(&bytes, 0, 24, place), wanted.map(|open| open + 1), "{place}");
        // The same behind another list, counted from there and from the front.
        assert_eq!(counted(&twice, end, 21, end + place), wanted, "{place}");
        assert_eq!(counted(&twice, 0, 21, end + place), wanted, "{place}");
    }
    // Behind the list, and past the end of all.
    assert_eq!(counted(&bytes, 0, 29, end), Some(0));
    assert_eq!(counted(&bytes, end + 1, 21, end + 1), Some(0));
    // The place of 20 is before the list that is read.
    assert_eq!(counted(&twice, end, 20, 0), Some(0));
}

/// Elements of typed lists have no code of their own.
#[test]
fn elements_of_one_kind() {
    let ints = words(&[256, 2, 257, 2, 1, 4]);
    let floats = words(&[256, 2, 266, 1, 256, 256]);
    let strings = [&words(&[256, 2, 260, 2, 3])[..], b"ab\0", &words(&[1]), b"\0"].concat();
    let blobs = words(&[256, 2, 268, 2, 0, 4, 256]);
    for (bytes, open) in [
        (ints, "0...1...1...2...2...2...1"),
        (floats, "0...1...1...2...2.......1"),
        (strings, "0...1...1...2...2...2..2...21"),
        (blobs, "0...1...1...2...2...2...2...1"),
    ] {
        assert_eq!(open.len(), bytes.len() + 1);
        for (place, wanted) in places(open) {
            assert_eq!(counted(&bytes, 0, 21, place), wanted, "{bytes:02x?} {place}");
        }
    }
}
