//! Streams of lists: steps, and what the programs run and show print.

use second_reader::depths::counted;
use second_reader::generate::writers::bytes_of as words;
use second_reader::generate::{list, stream as generate};
use second_reader::list::{decode, Decoded, ListError, ROWS_ROOM, STORE_ROOM};
use second_reader::random::Random;
use second_reader::stream::{next, run_output, show_output, Step};
use second_reader::Error;

/// The primes followed by the two-list example.
fn examples() -> Vec<u8> {
    let mut bytes = words(&[257, 8, 2, 3, 5, 7, 11, 13, 17, 19]);
    bytes.extend(words(&[256, 2, 257, 3, 91, 92, 93, 260, 4]));
    for text in ["this\0", "is\0", "a\0", "good list\0"] {
        bytes.extend((text.len() as u32).to_le_bytes());
        bytes.extend(text.bytes());
    }
    bytes
}

#[test]
fn bench_cases() {
    let mut bytes = examples();
    assert_eq!(run_output(&bytes), "list 1 bytes 40 rows 9\nlist 2 bytes 72 rows 10\nend 112\n");
    bytes.extend([0, 0]);
    assert_eq!(
        run_output(&bytes),
        "list 1 bytes 40 rows 9\nlist 2 bytes 72 rows 10\nstop 21 at 112 depth 0\n"
    );
}

#[test]
fn sizes_of_input() {
    assert_eq!(run_output(&[]), "end 0\n");
    assert_eq!(run_output(&[0; 32_769]), "too long\n");
    assert_eq!(run_output(&[0; 32_768]), "stop 22 at 0 depth 0\n");
    let full = words(&[256, 0]).repeat(4096);
    let output = run_output(&full);
    assert_eq!(output.lines().count(), 4097);
    assert!(output.ends_with("list 4096 bytes 8 rows 1\nend 32768\n"));
}

#[test]
fn order_of_a_step() {
    let bytes = examples();
    let mut rows = vec![0xa5; ROWS_ROOM];
    let mut store = vec![0xa5; STORE_ROOM];
    let small = Err(ListError { error: Error::BufferTooSmall, offset: 0, depth: 0 });
    for offset in [0, 40, 112, 113] {
        assert_eq!(next(&bytes, offset, &mut rows[1..], &mut store), small);
        assert_eq!(next(&bytes, offset, &mut rows, &mut store[1..]), small);
    }
    for offset in [113, 114, 1 << 40, u64::MAX] {
        let expected = Err(ListError { error: Error::ListEnds, offset, depth: 0 });
        assert_eq!(next(&bytes, offset, &mut rows, &mut store), expected);
    }
    assert_eq!(next(&bytes, 112, &mut rows, &mut store), Ok(Step::End));
    assert_eq!(next(&[], 0, &mut rows, &mut store), Ok(Step::End));
    let inside = ListError { error: Error::NotAListCode, offset: 8, depth: 0 };
    assert_eq!(next(&bytes, 8, &mut rows, &mut store), Err(inside));
    // Cut inside the strings of the second list.
    let cut = ListError { error: Error::ListEnds, offset: 102, depth: 2 };
    assert_eq!(next(&bytes[..111], 40, &mut rows, &mut store), Err(cut));
    assert!(rows.iter().chain(&store).all(|&byte| byte == 0xa5));
}

/// The limit counts from each list's own front.
#[test]
fn limit_of_a_later_list() {
    let mut bytes = words(&[256, 0]);
    bytes.extend(words(&[257, 1022]));
    bytes.extend([0; 4 * 1022]);
    assert_eq!(
        run_output(&bytes),
        "list 1 bytes 8 rows 1\nlist 2 bytes 4096 rows 1023\nend 4104\n"
    );
    bytes[12..16].copy_from_slice(&1023_u32.to_le_bytes());
    assert_eq!(run_output(&bytes), "list 1 bytes 8 rows 1\nstop 28 at 4104 depth 1\n");
}

/// A series of steps hands over the stream's lists in order, whatever is lent; steps
/// that are lent too little are passed over.
#[test]
fn series_of_steps() {
    let mut random = Random::new(7);
    for _ in 0..2_000 {
        let bytes = generate::any(&mut random);
        let mut offset = 0;
        for _ in 0..30 {
            let rest = &bytes[offset.min(bytes.len())..];
            let rows_length = ROWS_ROOM - usize::from(random.once_in(8));
            let (mut rows, mut store) = (random.bytes(rows_length), random.bytes(STORE_ROOM));
            let (mut alone_rows, mut alone_store) = (rows.clone(), store.clone());
            let alone = decode(rest, &mut alone_rows, &mut alone_store);
            let step = next(&bytes, offset as u64, &mut rows, &mut store);
            if rest.is_empty() && rows_length == ROWS_ROOM {
                assert_eq!(step, Ok(Step::End));
                continue;
            }
            assert!(rows == alone_rows && store == alone_store);
            match alone {
                Ok(decoded) => {
                    assert_eq!(step, Ok(Step::List(decoded)));
                    offset += decoded.consumed;
                }
                Err(ListError { error, offset: within, depth }) => {
                    let front = if error == Error::BufferTooSmall { 0 } else { offset as u64 };
                    let place = front + within;
                    assert_eq!(step, Err(ListError { error, offset: place, depth }));
                    // Also over all lists before it.
                    for front in [0, offset as u64] {
                        assert_eq!(counted(&bytes, front, error.number(), place), Some(depth));
                    }
                }
            }
        }
    }
}

/// Each generated fault behind two lists: the last line has the error, the place and the depth
/// that the list alone has.
#[test]
fn stops_at_every_depth() {
    let (mut rows, mut store) = (vec![0; ROWS_ROOM], vec![0; STORE_ROOM]);
    for fault in list::faults().into_iter().filter(|fault| !fault.is_empty()) {
        let bytes = [&examples()[..], &fault].concat();
        let ListError { error, offset, depth } = decode(&fault, &mut rows, &mut store).unwrap_err();
        let stop = format!("stop {} at {} depth {depth}", error.number(), 112 + offset);
        assert_eq!(run_output(&bytes).lines().last(), Some(&stop[..]));
        assert_eq!(show_output(&bytes).lines().last(), Some(&stop[..]));
    }
}

#[test]
fn lists_end_to_end() {
    let mut random = Random::new(8);
    for _ in 0..300 {
        let trees: Vec<_> = (0..random.below(6)).map(|_| list::legal(&mut random)).collect();
        let images: Vec<_> = trees.iter().map(|tree| list::image(tree)).collect();
        let bytes = images.concat();
        let (mut rows, mut store) = (vec![0; ROWS_ROOM], vec![0; STORE_ROOM]);
        let mut offset = 0;
        for (tree, image) in trees.iter().zip(&images) {
            let (numbers, stored) = list::rows_and_store(tree);
            let step = next(&bytes, offset, &mut rows, &mut store);
            let sizes =
                Decoded { consumed: image.len(), rows: numbers.len() / 3, stored: stored.len() };
            assert_eq!(step, Ok(Step::List(sizes)));
            assert_eq!(rows[..4 * numbers.len()], words(&numbers)[..]);
            assert_eq!(store[..stored.len()], stored[..]);
            offset += image.len() as u64;
        }
        assert_eq!(next(&bytes, offset, &mut rows, &mut store), Ok(Step::End));
    }
}
