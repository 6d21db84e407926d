//! The hub's C calls against the second reader: series of calls on one table, which is
//! kept as bytes, and tables and bytes of every kind.

use crate::buffers::{exact, patterned, put, Outcome, DEFINITION};
use crate::lent::Lent;
use crate::report::{count_answer, hex, Answers, Difference, Section, READER};
use archive::{hub_detach, hub_publish, hub_read, hub_receive};
use second_reader::catalogue::{Catalogue, LONG_INT_YEAR, PARAMETER_LIMIT};
use second_reader::generate::hub::{call, catalogue, table_bytes, Call, WIDE};
use second_reader::generate::table::{INTS, YEARS};
use second_reader::generate::{catalogue as generate_catalogue, list, packet};
use second_reader::list::LIST_LIMIT;
use second_reader::packet::{ACK, DEVICE_DATA, LOG, PING};
use second_reader::random::Random;
use second_reader::table::{Slot, Table, SLOTS, SLOT_BYTES, SOCKETS, TABLE_BYTES};
use second_reader::widths::{Shown, Widths};
use second_reader::{calls, definition, Error};

pub const SECTION: Section = Section {
    name: "hub",
    progress: 5_000,
    answers: &[
        Answers {
            of: "hub_receive",
            numbers: &[0, 1, 2, 3, 4, 5, 6, 7, 8, 9, 10, 11, 12, 13, 14, 15, 16, 17, 18, 19],
        },
        Answers { of: "hub_detach", numbers: &[0, 9, 10, 11, 15] },
        Answers { of: "hub_publish", numbers: &[0, 9, 11, 20] },
        Answers { of: "hub_read", numbers: &[0, 9, 10, 11, 15] },
        Answers { of: "hub_receive's widths", numbers: Shown::NUMBERS },
        // Absent, int, float and flag.
        Answers { of: "hub_read's kind", numbers: &[0, 1, 2, 3] },
    ],
    enumerated,
    random: random_case,
};

/// The numbers of an answer, 0 where it has fewer.
type Numbers = [u64; 3];

fn by_product(catalogue: &[u8], call: &Call, table: &mut [u8], list: &mut [u8]) -> Numbers {
    match call {
        Call::Receive { socket, packet } => {
            let result = hub_receive(catalogue, table, *socket, packet);
            [result.error, result.consumed, 0]
        }
        Call::Detach { socket } => [hub_detach(catalogue, table, *socket), 0, 0],
        Call::Publish { .. } => {
            let result = hub_publish(catalogue, table, list);
            [result.error, result.written, 0]
        }
        Call::Read { socket, index } => {
            let result = hub_read(catalogue, table, *socket, *index);
            [result.error, result.kind, result.bits]
        }
    }
}

fn by_reader(catalogue: &[u8], call: &Call, table: &mut [u8], list: &mut [u8]) -> Numbers {
    let three = |[error, size]: [u64; 2]| [error, size, 0];
    match call {
        Call::Receive { socket, packet } => {
            three(calls::receive(catalogue, table, *socket, packet))
        }
        Call::Detach { socket } => [calls::detach(catalogue, table, *socket), 0, 0],
        Call::Publish { .. } => three(calls::publish(catalogue, table, list)),
        Call::Read { socket, index } => calls::read(catalogue, table, *socket, *index),
    }
}

/// The published list by its definition.
fn published(catalogue: &[u8], table: &[u8], list: &mut [u8]) -> Result<usize, Error> {
    let catalogue = Catalogue::parse(catalogue)?;
    let table = Table::from_bytes(table).filter(|table| table.lawful(&catalogue));
    let table = table.ok_or(Error::NotLawful)?;
    if list.len() < LIST_LIMIT {
        return Err(Error::BufferTooSmall);
    }
    Ok(put(list, &list::image(&definition::hub::published(&catalogue, &table))))
}

fn name(call: &Call) -> &'static str {
    match call {
        Call::Receive { .. } => "hub_receive",
        Call::Detach { .. } => "hub_detach",
        Call::Publish { .. } => "hub_publish",
        Call::Read { .. } => "hub_read",
    }
}

/// The parts of a case that differ.
fn told(catalogue: &[u8], table: &[u8], call: &Call, pattern: u64) -> Vec<(&'static str, String)> {
    let mut case = vec![
        ("call", String::from(name(call))),
        ("catalogue", hex(catalogue)),
        ("table", hex(table)),
        ("pattern seed", pattern.to_string()),
    ];
    match call {
        Call::Receive { socket, packet } => {
            case.extend([("socket", socket.to_string()), ("bytes", hex(packet))]);
        }
        Call::Detach { socket } => case.push(("socket", socket.to_string())),
        Call::Publish { room } => case.push(("list length", room.to_string())),
        Call::Read { socket, index } => {
            case.extend([("socket", socket.to_string()), ("index", index.to_string())]);
        }
    }
    case
}

/// Calls on one table, which is kept as bytes: each sees what the calls before left.
struct Series<'a> {
    catalogue: &'a [u8],
    table: Vec<u8>,
    widths: Widths,
}

impl Series<'_> {
    fn new<'a>(catalogue: &'a [u8], table: &[u8]) -> Series<'a> {
        Series { catalogue, table: table.to_vec(), widths: Widths::default() }
    }

    /// One call; the table becomes what the call leaves.
    fn check(&mut self, call: &Call, lent: Lent, pattern: u64) -> Result<(), Difference> {
        let Series { catalogue, table, .. } = self;
        let room = if let Call::Publish { room } = call { *room } else { 0 };
        let buffers = || [lent.buffer(table, pattern), patterned(room, !pattern)];
        let names = ["table's buffer", "list"];
        let case = || told(catalogue, table, call, pattern);
        let mut found = Outcome::of(buffers(), |[table, list]| {
            by_product(catalogue, call, lent.area(table), list)
        });
        let reader = Outcome::of(buffers(), |[table, list]| {
            by_reader(catalogue, call, lent.area(table), list)
        });
        reader.owed(READER, &found, names, case)?;
        if matches!(call, Call::Publish { .. }) {
            let defined = Outcome::of(buffers(), |[table, list]| {
                let [error, written] = calls::sized(published(catalogue, lent.area(table), list));
                [error, written, 0]
            });
            defined.owed(DEFINITION, &found, names, case)?;
        }
        self.count(call, reader.answer);
        self.table.clear();
        self.table.extend(&*lent.area(&mut found.buffers[0]));
        Ok(())
    }

    /// Counts an answer, and what else the call shows on the table as it was.
    fn count(&mut self, call: &Call, [error, kind, _]: Numbers) {
        count_answer(name(call), error);
        match (call, Table::from_bytes(&self.table)) {
            (Call::Read { .. }, _) if error == 0 => count_answer("hub_read's kind", kind),
            (Call::Receive { socket, packet }, Some(table)) => {
                for shown in self.widths.shown(self.catalogue, &table, *socket, packet) {
                    count_answer("hub_receive's widths", shown.number());
                }
            }
            _ => {}
        }
    }
}

fn random_case(random: &mut Random) -> Result<u64, Difference> {
    let catalogue = exact(catalogue(random));
    let parsed = Catalogue::parse(&catalogue).ok();
    let lent = random.pick(&[Lent::Guarded, Lent::Whole]);
    let mut there = Table::default();
    let mut series = Series::new(&catalogue, &there.to_bytes());
    // Under a bad catalogue every answer is 11.
    let most = if parsed.is_some() { random.pick(&[1, 5, 20, 40]) } else { 2 };
    for _ in 0..most {
        let lawful = parsed.is_some_and(|parsed| there.lawful(&parsed));
        if random.once_in(if lawful { 16 } else { 3 }) {
            series.table = table_bytes(random, &catalogue, &there);
        } else if !lawful && random.once_in(3) {
            series.table = vec![0; TABLE_BYTES];
        }
        there = Table::from_bytes(&series.table).unwrap_or_default();
        let call = call(random, &catalogue, &there);
        series.check(&call, lent, random.next())?;
    }
    Ok(most)
}

/// Type 7: INT readable, FLOAT writable, BOOL readable.
const BENCH: [u8; 8] = [0x01, 0x07, 0x03, 0x03, 0x00, 0x04, 0x09, 0x06];
/// Type 9: 32 readable parameters, of each kind in turn.
const KINDS: [u8; 3] = [4, 5, 6];

fn full_catalogue() -> Vec<u8> {
    let parameters = (0..PARAMETER_LIMIT).map(|index| KINDS[index % KINDS.len()]);
    [1, 9, 32, 32, 0].into_iter().chain(parameters).collect()
}

/// Devices of type 9 on sockets 1, 3, 5 and 7 that hold all their values. Those on 1 and 5
/// send short INTs; they hold some that two bytes do not.
fn full_table() -> Vec<u8> {
    let mut table = Table::default();
    for (at, slot) in table.slots.iter_mut().enumerate() {
        let year = [LONG_INT_YEAR - 1, LONG_INT_YEAR, 0, u8::MAX][at];
        *slot = Slot::new(2 * at as u8 + 1, 9, year, [at as u8 + 1; 8]);
        slot.present = [true; PARAMETER_LIMIT];
        slot.bits = std::array::from_fn(|index| match index % KINDS.len() {
            2 => (index / 3 % 2) as u32,
            _ => 0x7f80_0001 + (index * at) as u32,
        });
    }
    table.to_bytes().to_vec()
}

fn packet_of(packet_type: u8, payload: &[u8]) -> Vec<u8> {
    packet::packet_of(&packet::message_of(packet_type, payload))
}

fn ack_of_year(device_type: u8, year: u8, uid: u8) -> Vec<u8> {
    packet_of(ACK, &[device_type, year, uid, uid, uid, uid, uid, uid, uid, uid])
}

fn ack(device_type: u8, uid: u8) -> Vec<u8> {
    ack_of_year(device_type, LONG_INT_YEAR, uid)
}

fn data(map: u32, values: &[u8]) -> Vec<u8> {
    packet_of(DEVICE_DATA, &[&map.to_le_bytes(), values].concat())
}

/// A call of each kind that a good table accepts or not by its own contents only.
fn one_of_each() -> [Call; 5] {
    [
        Call::Receive { socket: 3, packet: ack(9, 77) },
        Call::Receive { socket: 3, packet: data(1, &[1, 2, 3, 4]) },
        Call::Detach { socket: 3 },
        Call::Publish { room: LIST_LIMIT },
        Call::Read { socket: 3, index: 0 },
    ]
}

/// Calls on one table in turn, each on the table as given, guarded and whole.
fn each_alone(catalogue: &[u8], table: &[u8], calls: &[Call]) -> Result<u64, Difference> {
    let catalogue = exact(catalogue.to_vec());
    for (at, call) in calls.iter().enumerate() {
        let lent = if at % 2 == 0 { Lent::Guarded } else { Lent::Whole };
        Series::new(&catalogue, table).check(call, lent, at as u64)?;
    }
    Ok(calls.len() as u64)
}

fn enumerated() -> Result<u64, Difference> {
    Ok(catalogues()? + tables()? + numbers()? + packets()? + years()? + series()?)
}

/// Whether each catalogue is taken: those at the limits, and the bench cases' one cut at
/// every byte and with each byte changed.
fn catalogues() -> Result<u64, Difference> {
    let mut all = generate_catalogue::at_limits();
    all.extend((0..=BENCH.len()).map(|length| BENCH[..length].to_vec()));
    for at in 0..BENCH.len() {
        for value in [0, 1, 2, 3, 4, 7, 8, 12, 15, 16, 32, 33, 128, 255] {
            let mut changed = BENCH.to_vec();
            changed[at] = value;
            all.push(changed);
        }
    }
    let mut checks = 0;
    for catalogue in all {
        checks += each_alone(&catalogue, &[0; TABLE_BYTES], &one_of_each())?;
        checks += each_alone(&catalogue, &[2; TABLE_BYTES - 1], &one_of_each())?;
    }
    Ok(checks)
}

/// Bytes that are a table or none: each length about those that count, each byte of an
/// empty, a half full and a full table changed, and each pair of rows alike.
fn tables() -> Result<u64, Difference> {
    let catalogue = full_catalogue();
    let full = full_table();
    let mut half = full.clone();
    half[SLOT_BYTES..2 * SLOT_BYTES].fill(0);
    half[3 * SLOT_BYTES..].fill(0);
    let mut checks = 0;
    for whole in [vec![0; TABLE_BYTES], half, full.clone()] {
        for length in (0..=SLOTS + 1).flat_map(|rows| {
            let end = rows * SLOT_BYTES;
            [end.saturating_sub(1), end, end + 1]
        }) {
            let mut table = whole.clone();
            table.resize(length, 0);
            checks += each_alone(&catalogue, &table, &one_of_each())?;
        }
        for at in 0..TABLE_BYTES {
            let old = whole[at];
            for value in [0, 1, 2, 7, 8, 9, 255, old ^ 1, old ^ 0x80] {
                let mut table = whole.clone();
                table[at] = value;
                checks += each_alone(&catalogue, &table, &one_of_each())?;
            }
        }
    }
    for (first, second) in (0..SLOTS).flat_map(|first| (0..SLOTS).map(move |at| (first, at))) {
        // The socket, the UID, and the whole row.
        for (from, to) in [(1, 2), (4, 12), (0, SLOT_BYTES)] {
            let mut table = full.clone();
            let copied = first * SLOT_BYTES + from..first * SLOT_BYTES + to;
            table.copy_within(copied, second * SLOT_BYTES + from);
            checks += each_alone(&catalogue, &table, &one_of_each())?;
        }
    }
    Ok(checks)
}

/// Sockets, indices and lengths of the list area around and far above what is there.
fn numbers() -> Result<u64, Difference> {
    let catalogue = full_catalogue();
    let full = full_table();
    let mut checks = 0;
    let near = 0..=300;
    let wide = WIDE.into_iter().flat_map(|wide| (0..16).map(move |low| wide.wrapping_add(low)));
    for number in near.chain(wide).chain([u64::MAX]) {
        let calls = [
            Call::Receive { socket: number, packet: ack(9, 77) },
            Call::Receive { socket: number, packet: packet_of(LOG, b"warm") },
            Call::Detach { socket: number },
            Call::Read { socket: number, index: 0 },
            Call::Read { socket: 3, index: number },
        ];
        checks += each_alone(&catalogue, &full, &calls)?;
        checks += each_alone(&catalogue, &[0; TABLE_BYTES], &calls)?;
    }
    for room in [0, 1, 80, 3751, 3752, LIST_LIMIT - 1, LIST_LIMIT, LIST_LIMIT + 1, 5000] {
        checks += each_alone(&catalogue, &full, &[Call::Publish { room }])?;
        checks += each_alone(&catalogue, &[0; TABLE_BYTES], &[Call::Publish { room }])?;
        checks += each_alone(&catalogue, &[0; TABLE_BYTES - 1], &[Call::Publish { room }])?;
        checks += each_alone(&[], &full, &[Call::Publish { room }])?;
    }
    Ok(checks)
}

/// Every type with every payload length; ACK and data cut at every byte and with each byte
/// changed; data with every single bit, flag and length; ACKs for every type and UID.
fn packets() -> Result<u64, Difference> {
    let full = full_table();
    let catalogue = full_catalogue();
    let mut all = Vec::new();
    for packet_type in 0..=6 {
        all.extend((0..=251).map(|length| packet_of(packet_type, &vec![0; length])));
    }
    let (long, short) = (data(7, &[1, 2, 3, 4, 5, 6, 7, 8, 1]), data(7, &[1, 2, 3, 4, 5, 6, 1]));
    for whole in [ack(9, 77), long, short, packet_of(PING, &[])] {
        all.extend((0..whole.len()).map(|length| whole[..length].to_vec()));
        for at in 0..whole.len() {
            for value in [0, 1, 2, 255, whole[at] ^ 1, whole[at] ^ 0x80] {
                let mut changed = whole.clone();
                changed[at] = value;
                all.push(changed);
            }
        }
    }
    for index in 0..PARAMETER_LIMIT {
        for length in 0..=7 {
            for value in [0, 1, 2, 255] {
                all.push(data(1 << index, &vec![value; length]));
                // With an INT of either width before it.
                all.push(data(1 << index | 1, &vec![value; length + 2]));
            }
        }
    }
    all.extend((0..=255).map(|device_type| ack(device_type, 77)));
    all.extend((0..=8).map(|uid| ack(9, uid)));
    let mut checks = 0;
    for packet in all {
        let from = |socket| Call::Receive { socket, packet: packet.clone() };
        let mut three = full.clone();
        three[3 * SLOT_BYTES..].fill(0);
        checks += each_alone(&catalogue, &full, &[from(3), from(4)])?;
        checks += each_alone(&catalogue, &three, &[from(1), from(7)])?;
        checks += each_alone(&BENCH, &[0; TABLE_BYTES], &[from(0)])?;
    }
    Ok(checks)
}

/// Every year in turn on one socket, then each of the telling years behind each other one.
fn years() -> Result<u64, Difference> {
    let catalogue = exact(full_catalogue());
    let mut series = Series::new(&catalogue, &full_table());
    let pairs =
        YEARS.into_iter().flat_map(|first| YEARS.into_iter().flat_map(move |next| [first, next]));
    let mut checks = 0;
    for year in (0..=u8::MAX).chain(pairs) {
        for call in of_year(year) {
            series.check(&call, Lent::Guarded, checks)?;
            checks += 1;
        }
    }
    Ok(checks)
}

/// A device comes with this year and sends INTs in both widths: each telling one alone, two
/// at once, and all its values; each is read, and all are posted.
fn of_year(year: u8) -> Vec<Call> {
    let socket = 3;
    let receive = |packet| Call::Receive { socket, packet };
    let mut calls = vec![receive(ack_of_year(9, year, 77))];
    for width in [2, 4] {
        for int in INTS {
            calls.push(receive(data(1, &int.to_le_bytes()[..width])));
            calls.push(Call::Read { socket, index: 0 });
        }
        // Parameters 0 and 3 are INTs: two short ones are as long as a long one.
        calls.push(receive(data(9, &[0xfe, 0xff, 0xff, 0x7f, 0, 0, 1, 0x80][..2 * width])));
        calls.push(Call::Read { socket, index: 3 });
        calls.push(receive(all_values(width)));
        calls.push(Call::Publish { room: LIST_LIMIT });
    }
    calls
}

/// Data of all parameters of type 9, with INTs of this width.
fn all_values(width: usize) -> Vec<u8> {
    let widths = [width, 4, 1];
    let values = (0..PARAMETER_LIMIT).flat_map(|index| vec![1; widths[index % widths.len()]]);
    data(u32::MAX, &Vec::from_iter(values))
}

/// Each socket seated, read, posted and left in turn, again and again on one table.
fn series() -> Result<u64, Difference> {
    let catalogue = exact(BENCH.to_vec());
    let mut series = Series::new(&catalogue, &[0; TABLE_BYTES]);
    let mut checks = 0;
    for round in 0..40 {
        for socket in 0..=u64::from(SOCKETS) {
            // The FLOAT is writable only, so its bit has no readable parameter.
            let map = [5, 1, 4, 0, 2, 7][(round + socket as usize) % 6];
            let values = [&[round as u8, 0, 0, 0][..], &[round as u8 % 3]].concat();
            let values = if map == 4 { &values[4..] } else { &values[..] };
            let calls = [
                Call::Receive { socket, packet: ack(7 + (round % 7 / 6) as u8, socket as u8 % 7) },
                Call::Receive { socket, packet: data(map, values) },
                Call::Read { socket, index: 0 },
                Call::Read { socket, index: 2 },
                Call::Publish { room: LIST_LIMIT },
                Call::Detach { socket: (socket + round as u64) % 11 },
            ];
            for call in &calls {
                series.check(call, Lent::Guarded, checks)?;
                checks += 1;
            }
        }
    }
    Ok(checks)
}
