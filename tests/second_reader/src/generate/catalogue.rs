//! Catalogues, legal and damaged.

use super::damage;
use crate::catalogue::{PARAMETER_LIMIT, TYPE_LIMIT};
use crate::random::Random;

/// What a catalogue says: type numbers with their numbers of parameters, and a byte for
/// each parameter.
struct Content {
    types: Vec<(u8, u8)>,
    parameters: Vec<u8>,
}

/// What the parameters' kinds are taken from: all kinds alike, mostly INTs, or INTs alone.
const KINDS: [&[u8]; 4] = [&[0, 1, 2], &[0, 1, 2], &[0, 0, 0, 0, 1, 2], &[0]];

impl Content {
    /// As many random parameters as the types have.
    fn of_types(random: &mut Random, types: Vec<(u8, u8)>) -> Content {
        let sum: usize = types.iter().map(|&(_, count)| usize::from(count)).sum();
        let kinds = random.pick(&KINDS);
        let parameters = (0..sum).map(|_| parameter(random, kinds)).collect();
        Content { types, parameters }
    }

    fn bytes(&self) -> Vec<u8> {
        let mut bytes = vec![self.types.len() as u8];
        self.types.iter().for_each(|&(number, count)| bytes.extend([number, count]));
        bytes.extend((self.parameters.len() as u16).to_le_bytes());
        bytes.extend(&self.parameters);
        bytes
    }
}

/// A parameter's byte: one of these kinds, more often readable than not.
fn parameter(random: &mut Random, kinds: &[u8]) -> u8 {
    random.pick(kinds) + 4 * u8::from(!random.once_in(4)) + 8 * u8::from(random.once_in(2))
}

/// So many types with rising numbers.
fn types(random: &mut Random, count: usize) -> Vec<(u8, u8)> {
    let mut numbers: Vec<u8> = (0..=255).collect();
    while numbers.len() > count {
        let at = random.below(numbers.len());
        numbers.remove(at);
    }
    let limit = PARAMETER_LIMIT as u8;
    let mut with_parameters = |number| (number, random.pick(&[0, 1, 3, 8, 20, limit, limit]));
    numbers.into_iter().map(&mut with_parameters).collect()
}

/// A legal catalogue of a few device types, at times of none or as many as can be.
pub fn legal(random: &mut Random) -> Vec<u8> {
    let count = random.pick(&[0, 1, 1, 2, 3, 5, TYPE_LIMIT]);
    let types = types(random, count);
    Content::of_types(random, types).bytes()
}

/// A catalogue with one fault and all else as it should be: a type too many, a
/// parameter too many, two types equal or in the wrong order, a wrong sum, a wrong
/// parameter.
fn one_fault(random: &mut Random) -> Vec<u8> {
    let fault = random.below(6);
    let count = if fault == 0 { TYPE_LIMIT + 1 } else { random.between(2, 5) };
    let mut types = types(random, count);
    match fault {
        1 => types[random.below(count)].1 = PARAMETER_LIMIT as u8 + 1,
        2 => types[1].0 = types[0].0,
        3 => types.swap(0, 1),
        5 => types[0].1 = 1,
        _ => {}
    }
    let mut content = Content::of_types(random, types);
    match fault {
        4 if random.once_in(2) => content.parameters.push(4),
        4 => drop(content.parameters.pop()),
        5 => content.parameters[0] = random.pick(&[3, 7, 11, 15, 16, 17, 20, 255]),
        _ => {}
    }
    content.bytes()
}

/// A catalogue with a fault of any kind.
pub fn damaged(random: &mut Random) -> Vec<u8> {
    if random.once_in(2) {
        return one_fault(random);
    }
    let mut bytes = legal(random);
    match random.below(4) {
        // A count, a type number or a number of parameters, near the front.
        0 => {
            let at = random.below(bytes.len().min(5));
            let old = bytes[at];
            bytes[at] =
                random.pick(&[0, 1, 31, 32, 33, 255, old.wrapping_add(1), old.wrapping_sub(1)]);
        }
        1 => bytes.push(random.pick(&[0, 4])),
        2 => drop(bytes.pop()),
        _ => damage(random, &mut bytes),
    }
    bytes
}

/// Catalogues at the limits: each number of types and of parameters from the highest
/// allowed to one more, and equal, falling and rising types.
pub fn at_limits() -> Vec<Vec<u8>> {
    let of = |types: Vec<(u8, u8)>| {
        let sum = types.iter().map(|&(_, count)| usize::from(count)).sum();
        Content { types, parameters: vec![4; sum] }.bytes()
    };
    let like = |count: u8, parameters: u8| (0..count).map(|number| (number, parameters)).collect();
    vec![
        of(like(0, 0)),
        of(like(32, 0)),
        of(like(33, 0)),
        of(like(32, 32)),
        of(like(33, 32)),
        of(like(1, 32)),
        of(like(1, 33)),
        of(like(32, 33)),
        of(vec![(5, 1), (5, 1)]),
        of(vec![(6, 1), (5, 1)]),
        of(vec![(0, 1), (255, 1)]),
        of(vec![(1, 0), (3, 0), (2, 0)]),
    ]
}
