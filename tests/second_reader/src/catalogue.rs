//! The catalogue of device types and their parameters.

use crate::Error;

/// Device types in a catalogue, and parameters of a device, at most.
pub const TYPE_LIMIT: usize = 32;
pub const PARAMETER_LIMIT: usize = 32;
/// The first year whose devices send an INT as four bytes; those of earlier years send two.
pub const LONG_INT_YEAR: u8 = 6;

#[derive(Clone, Copy, PartialEq, Eq, Debug)]
pub enum ValueKind {
    Int,
    Float,
    Bool,
}

impl ValueKind {
    /// The bytes of a value in a data packet from a device of this year.
    pub fn width(self, year: u8) -> usize {
        match self {
            ValueKind::Int if year < LONG_INT_YEAR => 2,
            ValueKind::Int | ValueKind::Float => 4,
            ValueKind::Bool => 1,
        }
    }
}

/// One parameter's byte: the kind in the low two bits, then readable and writable.
#[derive(Clone, Copy, PartialEq, Eq, Debug)]
pub struct Parameter {
    pub kind: ValueKind,
    pub readable: bool,
    pub writable: bool,
}

impl Parameter {
    fn of_byte(byte: u8) -> Option<Parameter> {
        let kind = match byte & 3 {
            0 => ValueKind::Int,
            1 => ValueKind::Float,
            2 => ValueKind::Bool,
            _ => return None,
        };
        (byte < 16).then_some(Parameter { kind, readable: byte & 4 != 0, writable: byte & 8 != 0 })
    }
}

/// A catalogue that was judged good, over the bytes it was read from.
#[derive(Clone, Copy)]
pub struct Catalogue<'a> {
    /// Type number and number of parameters, in turn.
    types: &'a [u8],
    /// One byte for each parameter, of all types in their order.
    parameters: &'a [u8],
}

impl<'a> Catalogue<'a> {
    /// The whole of `bytes` as a catalogue; any fault is one error.
    pub fn parse(bytes: &'a [u8]) -> Result<Catalogue<'a>, Error> {
        Self::judged(bytes).ok_or(Error::Catalogue)
    }

    fn judged(bytes: &'a [u8]) -> Option<Catalogue<'a>> {
        let (&type_count, behind) = bytes.split_first()?;
        let type_count = usize::from(type_count);
        if type_count > TYPE_LIMIT {
            return None;
        }
        let (types, behind) = behind.split_at_checked(2 * type_count)?;
        let (count, parameters) = behind.split_first_chunk::<2>()?;
        let rising = types.chunks(2).zip(types.chunks(2).skip(1)).all(|(a, b)| a[0] < b[0]);
        let few = types.chunks(2).all(|pair| usize::from(pair[1]) <= PARAMETER_LIMIT);
        let sum: usize = types.chunks(2).map(|pair| usize::from(pair[1])).sum();
        let good = rising
            && few
            && usize::from(u16::from_le_bytes(*count)) == sum
            && parameters.len() == sum
            && parameters.iter().all(|&byte| Parameter::of_byte(byte).is_some());
        good.then_some(Catalogue { types, parameters })
    }

    /// The parameters of a device type, or none if the catalogue lacks the type.
    pub fn device(&self, device_type: u8) -> Option<Device<'a>> {
        let mut start = 0;
        for pair in self.types.chunks(2) {
            let count = usize::from(pair[1]);
            if pair[0] == device_type {
                return Some(Device { parameters: &self.parameters[start..start + count] });
            }
            start += count;
        }
        None
    }

    /// The type numbers, rising.
    pub fn type_numbers(&self) -> impl Iterator<Item = u8> + 'a {
        self.types.chunks(2).map(|pair| pair[0])
    }
}

/// A device type of the catalogue.
#[derive(Clone, Copy)]
pub struct Device<'a> {
    parameters: &'a [u8],
}

impl Device<'_> {
    pub fn parameter(&self, index: usize) -> Option<Parameter> {
        self.parameters.get(index).copied().and_then(Parameter::of_byte)
    }

    /// The kind of a parameter that devices may send.
    pub fn readable(&self, index: usize) -> Option<ValueKind> {
        self.parameter(index).filter(|parameter| parameter.readable).map(|parameter| parameter.kind)
    }
}
