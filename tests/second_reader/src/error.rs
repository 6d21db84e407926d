//! The error numbers of document 01, "Refusal numbers", and of the tickets in 02.

/// Each case is one line of the table; its number is the paper's.
#[derive(Clone, Copy, PartialEq, Eq, Debug)]
#[repr(u8)]
pub enum Error {
    PacketIncomplete = 1,
    FirstByteNotZero = 2,
    LengthBelowFour = 3,
    ZeroEncoded = 4,
    BlockPassesEnd = 5,
    PayloadLength = 6,
    Checksum = 7,
    PacketType = 8,
    NotLawful = 9,
    Socket = 10,
    Catalogue = 11,
    DeviceTypeUnknown = 12,
    SlotsFull = 13,
    UidElsewhere = 14,
    NoDevice = 15,
    ParameterNotReadable = 16,
    ValuesLength = 17,
    BoolValue = 18,
    PacketForDevices = 19,
    BufferTooSmall = 20,
    ListEnds = 21,
    NotAListCode = 22,
    NegativeCount = 23,
    NotCanonical = 24,
    StringOrBlob = 25,
    ElementCodeUnknown = 26,
    TooDeep = 27,
    BeyondLimit = 28,
    BytesLeft = 29,
    NotOneList = 30,
    NoTextForm = 31,
    NotAText = 32,
    KeyInNeither = 33,
}

impl Error {
    pub fn number(self) -> u64 {
        self as u64
    }
}
