//! `cinder_text_encode` and `cinder_text_decode` against the second reader.
//!
//! What is written is read back by the product, and what it reads is written again: both
//! must give what was given.

use crate::buffers::{exact, patterned, put, Outcome, DEFINITION};
use crate::report::{count_answer, hex, Answers, Difference, Section, READER};
use archive::{text_decode, text_encode, TextResult, WriteResult};
use second_reader::calls::sized;
use second_reader::generate::list::{self, rows_and_store, Element};
use second_reader::generate::text::{
    any_list, any_text, damage, nested, small, telling, text_of, BAD, BAD_FLOATS, CHARACTERS, GOOD,
};
use second_reader::generate::writers::{bytes_of, changed_rows};
use second_reader::generate::{self, buffer_length};
use second_reader::list::{ROWS_ROOM, ROW_BYTES, STORE_ROOM};
use second_reader::random::Random;
use second_reader::text::{decode, encode, numbers, Read, TEXT_ROOM};
use second_reader::{definition, Error};

pub const SECTION: Section = Section {
    name: "text",
    progress: 5_000,
    answers: &[
        Answers { of: "text_encode", numbers: &[0, 20, 27, 28, 30, 31] },
        Answers { of: "text_decode", numbers: &[0, 20, 27, 28, 32] },
    ],
    enumerated,
    random: random_case,
};

fn written(answer: Result<usize, Error>) -> WriteResult {
    let [error, written] = sized(answer);
    WriteResult { error, written }
}

fn result(answer: Result<Read, Error>) -> TextResult {
    let [error, rows, stored] = numbers(answer);
    TextResult { error, rows, stored }
}

fn defined_text(rows: &[u8], store: &[u8], text: &mut [u8]) -> Result<usize, Error> {
    if text.len() < TEXT_ROOM {
        return Err(Error::BufferTooSmall);
    }
    definition::text::write(rows, store).map(|written| put(text, &written))
}

fn defined_rows(text: &[u8], rows: &mut [u8], store: &mut [u8]) -> Result<Read, Error> {
    if rows.len() < ROWS_ROOM || store.len() < STORE_ROOM {
        return Err(Error::BufferTooSmall);
    }
    let (numbers, stored) = definition::text::read(text)?;
    let filled = put(rows, &bytes_of(&numbers));
    Ok(Read { rows: filled / ROW_BYTES, stored: put(store, &stored) })
}

/// Rows and store into a text area of this length.
fn check_writing(
    rows: Vec<u8>,
    store: Vec<u8>,
    length: usize,
    pattern: u64,
) -> Result<u64, Difference> {
    let (rows, store) = (exact(rows), exact(store));
    let lent = || [patterned(length, pattern)];
    let found = Outcome::of(lent(), |[text]| text_encode(&rows, &store, text));
    let reader = Outcome::of(lent(), |[text]| written(encode(&rows, &store, text)));
    let defined = Outcome::of(lent(), |[text]| written(defined_text(&rows, &store, text)));
    count_answer("text_encode", defined.answer.error);
    let case = || {
        vec![
            ("rows", hex(&rows)),
            ("store", hex(&store)),
            ("text length", length.to_string()),
            ("pattern seed", pattern.to_string()),
        ]
    };
    defined.owed(DEFINITION, &found, ["text"], case)?;
    reader.owed(READER, &found, ["text"], case)?;
    if found.answer.error == 0 {
        let text = exact(found.buffers[0][..found.answer.written as usize].to_vec());
        let lent = || [patterned(ROWS_ROOM, pattern), patterned(STORE_ROOM, !pattern)];
        let back = Outcome::of(lent(), |[rows, store]| text_decode(&text, rows, store));
        let owed = Outcome::of(lent(), |[back_rows, back_store]| {
            put(back_rows, &rows);
            put(back_store, &store);
            result(Ok(Read { rows: rows.len() / ROW_BYTES, stored: store.len() }))
        });
        owed.owed("what was written", &back, ["rows", "store"], case)?;
    }
    Ok(1)
}

/// The text into areas of these lengths; answers the rows and store of its list, if any.
fn check_areas(
    text: &[u8],
    (rows, store): (usize, usize),
    pattern: u64,
) -> Result<Option<[Box<[u8]>; 2]>, Difference> {
    let text = exact(text.to_vec());
    let lent = || [patterned(rows, pattern), patterned(store, !pattern)];
    let found = Outcome::of(lent(), |[rows, store]| text_decode(&text, rows, store));
    let reader = Outcome::of(lent(), |[rows, store]| result(decode(&text, rows, store)));
    let defined = Outcome::of(lent(), |[rows, store]| result(defined_rows(&text, rows, store)));
    count_answer("text_decode", defined.answer.error);
    let case = || {
        vec![
            ("text", String::from_utf8_lossy(&text).into_owned()),
            ("its bytes", hex(&text)),
            ("rows length", rows.to_string()),
            ("store length", store.to_string()),
            ("pattern seed", pattern.to_string()),
        ]
    };
    defined.owed(DEFINITION, &found, ["rows", "store"], case)?;
    reader.owed(READER, &found, ["rows", "store"], case)?;
    if found.answer.error != 0 {
        return Ok(None);
    }
    let TextResult { rows: filled, stored, .. } = found.answer;
    let [rows, store] = found.buffers;
    let used = [
        exact(rows[..ROW_BYTES * filled as usize].to_vec()),
        exact(store[..stored as usize].to_vec()),
    ];
    let lent = || [patterned(TEXT_ROOM, pattern)];
    let again = Outcome::of(lent(), |[text]| text_encode(&used[0], &used[1], text));
    let owed = Outcome::of(lent(), |[again]| written(Ok(put(again, &text))));
    owed.owed("what was read", &again, ["text"], case)?;
    Ok(Some(used))
}

fn check_reading(text: &[u8], pattern: u64) -> Result<u64, Difference> {
    check_areas(text, (ROWS_ROOM, STORE_ROOM), pattern).map(|_| 1)
}

/// A text that another one was made of by damage: if it is accepted, it is another list.
fn check_damaged(
    elements: &[Element],
    original: &[u8],
    text: &[u8],
    pattern: u64,
) -> Result<u64, Difference> {
    let list = check_areas(text, (ROWS_ROOM, STORE_ROOM), pattern)?;
    if let Some([rows, store]) = list.filter(|_| text != original) {
        let (owed_rows, owed_store) = rows_and_store(elements);
        if rows[..] == bytes_of(&owed_rows) && store[..] == owed_store {
            return Err(Difference {
                case: vec![("text", String::from_utf8_lossy(text).into_owned())],
                input: None,
                side: "two texts",
                expected: format!("another list than {}", String::from_utf8_lossy(original)),
                found: String::from("the same list"),
            });
        }
    }
    Ok(1)
}

fn area_lengths(random: &mut Random) -> (usize, usize) {
    match random.below(12) {
        0 => (buffer_length(random, ROWS_ROOM), STORE_ROOM),
        1 => (ROWS_ROOM, buffer_length(random, STORE_ROOM)),
        _ => (ROWS_ROOM, STORE_ROOM),
    }
}

fn random_case(random: &mut Random) -> Result<u64, Difference> {
    match random.below(5) {
        0 | 1 => {
            let (rows, store) = any_list(random);
            let length = buffer_length(random, TEXT_ROOM);
            check_writing(rows, store, length, random.next())
        }
        2 => {
            let elements = telling(random);
            let original = text_of(&elements).expect("elements that have a text form");
            let mut text = original.clone();
            damage(random, &mut text);
            check_damaged(&elements, &original, &text, random.next())
        }
        _ => {
            let text = any_text(random);
            let lengths = area_lengths(random);
            check_areas(&text, lengths, random.next()).map(|_| 1)
        }
    }
}

fn enumerated() -> Result<u64, Difference> {
    let mut checks = known_texts()?;
    checks += deep_texts(100_000)?;
    let mut random = Random::new(0);
    for number in 0..400 {
        let elements = match number % 10 {
            0 => nested(&mut random, 8),
            1 => nested(&mut random, 9),
            _ => small(&mut random, 90),
        };
        checks += lists_written(&elements, number < 60)?;
        checks += damaged_everywhere(&elements)?;
    }
    for _ in 0..200 {
        let (rows, store) = rows_and_store(&list::around_the_limit(&mut random));
        checks += check_writing(bytes_of(&rows), store, TEXT_ROOM, checks)?;
        let elements = telling(&mut random);
        let (rows, store) = rows_and_store(&elements);
        checks += check_writing(bytes_of(&rows), store, TEXT_ROOM, checks)?;
        checks += check_reading(&text_of(&elements).expect("a text form"), checks)?;
    }
    for _ in 0..200 {
        let (rows, mut store) = any_list(&mut random);
        generate::damage(&mut random, &mut store);
        checks += check_writing(rows, store, TEXT_ROOM, checks)?;
    }
    Ok(checks + longest()? + elements_alone()?)
}

/// Texts that are good or bad by one thing, alone and beside others, into areas of each size.
fn known_texts() -> Result<u64, Difference> {
    let mut checks = 0;
    for text in GOOD.iter().chain(&BAD).chain(&BAD_FLOATS) {
        for around in
            ["#", "1 #", "# 1", "(#)", "(1 #)", "(# 1)", "#(", "#)", "() # ()", " #", "# "]
        {
            checks += check_reading(around.replace('#', text).as_bytes(), checks)?;
        }
        for rows in [0, 12, ROWS_ROOM - 12, ROWS_ROOM - 1, ROWS_ROOM, ROWS_ROOM + 1] {
            for store in [0, 1, STORE_ROOM - 1, STORE_ROOM, STORE_ROOM + 1] {
                check_areas(text.as_bytes(), (rows, store), checks)?;
                checks += 1;
            }
        }
    }
    Ok(checks)
}

/// Brackets in each other, to depth 20 and to this one: whole, with one lost or one too many.
fn deep_texts(deepest: usize) -> Result<u64, Difference> {
    let mut checks = 0;
    for depth in (0..=20).chain([1000, deepest]) {
        for within in ["", "1", "1 \"a\"", "-0", "() ()", " "] {
            for closing in [depth.saturating_sub(1), depth, depth + 1] {
                let text = format!("{}{within}{}", "(".repeat(depth), ")".repeat(closing));
                checks += check_reading(text.as_bytes(), checks)?;
            }
        }
    }
    checks += check_reading(vec!["()"; deepest].join(" ").as_bytes(), checks)?;
    checks += check_reading("()".repeat(deepest).as_bytes(), checks)?;
    Ok(checks)
}

/// A list into text areas of each size, and for the first lists its rows cut at every byte
/// or followed by a few more, each row left out and each number changed.
fn lists_written(elements: &[Element], with_changes: bool) -> Result<u64, Difference> {
    let (rows, store) = rows_and_store(elements);
    let size = text_of(elements).map_or(0, |text| text.len());
    let mut checks = 0;
    for length in [0, size.saturating_sub(1), size, TEXT_ROOM - 1, TEXT_ROOM, TEXT_ROOM + 9] {
        checks += check_writing(bytes_of(&rows), store.clone(), length, checks)?;
    }
    if with_changes {
        for there in 0..4 * rows.len() + ROW_BYTES {
            let mut other = bytes_of(&rows);
            other.resize(there, 0);
            checks += check_writing(other, store.clone(), TEXT_ROOM, checks)?;
        }
        for changed in changed_rows(&rows) {
            checks += check_writing(bytes_of(&changed), store.clone(), TEXT_ROOM, checks)?;
        }
    }
    Ok(checks)
}

/// A text cut at every character; each character left out, replaced by others and with
/// others put in before it; and one character more.
fn damaged_everywhere(elements: &[Element]) -> Result<u64, Difference> {
    let text = text_of(elements).expect("elements that have a text form");
    let mut checks = check_reading(&text, 0)?;
    for at in 0..=text.len() {
        let (front, behind) = text.split_at(at);
        let mut damaged = vec![front.to_vec()];
        // A few of the characters at each place, others at the next.
        let characters = (0..6).map(|step| CHARACTERS[(7 * at + 5 * step) % CHARACTERS.len()]);
        for character in characters.clone() {
            damaged.push([front, &[character], behind].concat());
        }
        if let Some((&own, behind)) = behind.split_first() {
            damaged.push([front, behind].concat());
            damaged.push([front, &[own, own], behind].concat());
            for character in characters.chain([own ^ 1, own ^ 0x20, own ^ 0x80, own + 1]) {
                damaged.push([front, &[character], behind].concat());
            }
        }
        for other in damaged {
            checks += check_damaged(elements, &text, &other, checks)?;
        }
    }
    Ok(checks)
}

/// Lists that come to the limit and to the longest text, and one byte beyond.
fn longest() -> Result<u64, Difference> {
    let mut checks = 0;
    for byte in [1, 9, 10, 32, 34, 99, 100, 127, 255] {
        for length in 4080..=4090 {
            for element in [Element::Blob(vec![byte; length]), Element::String(vec![byte; length])]
            {
                let (rows, store) = rows_and_store(std::slice::from_ref(&element));
                checks += check_writing(bytes_of(&rows), store, TEXT_ROOM, checks)?;
                let text = text_of(&[element]).expect("a text form");
                checks += check_reading(&text, checks)?;
            }
        }
    }
    let repeated = [
        ("-2147483648", 4),
        ("7", 4),
        ("-0x1.fffffffffffffp-1022", 8),
        ("[a]", 4),
        ("[word]", 4),
        ("{}", 4),
        ("\"\"", 5),
        ("()", 8),
    ];
    for (text, size) in repeated {
        let fitting = (4096 - 8) / size;
        for count in fitting - 2..=fitting + 2 {
            checks += check_reading(vec![text; count].join(" ").as_bytes(), checks)?;
            let text = format!("[a] {}", vec![text; count / 2].join(" "));
            checks += check_reading(text.as_bytes(), checks)?;
        }
        checks += check_reading(vec![text; 20_000].join(" ").as_bytes(), checks)?;
    }
    Ok(checks)
}

/// Each kind's edges: every exponent of a float, every byte of a string, a blob and a vocab.
fn elements_alone() -> Result<u64, Difference> {
    let mut elements = Vec::new();
    for high in 0..4096_u64 {
        for fraction in [0, 1, 0xf_ffff_ffff_ffff, 0x8_0000_0000_0000, 0x1_2345_6789_abcd] {
            elements.push(Element::Float(high << 52 | fraction));
        }
    }
    for byte in 0..=255_u8 {
        elements.push(Element::Blob(vec![byte, 0, byte]));
        elements.push(Element::String(vec![b'1', byte, b'1']));
        for place in 0..4 {
            for length in 1..=4 {
                let mut bytes = [0; 4];
                bytes[..length].copy_from_slice(&b"abcd"[..length]);
                bytes[place] = byte;
                elements.push(Element::Vocab(u32::from_le_bytes(bytes)));
            }
        }
    }
    for power in 0..=31 {
        for bits in [1_u32 << power, (1 << power) - 1, (1_u32 << power).wrapping_neg()] {
            elements.push(Element::Int(bits));
        }
    }
    for power in 0..=9 {
        let number = 10_u32.pow(power);
        for bits in [number, number - 1, number.wrapping_neg(), (number - 1).wrapping_neg()] {
            elements.push(Element::Int(bits));
        }
    }
    let mut checks = 0;
    for element in elements {
        let (rows, store) = rows_and_store(std::slice::from_ref(&element));
        checks += check_writing(bytes_of(&rows), store, TEXT_ROOM, checks)?;
    }
    Ok(checks)
}
