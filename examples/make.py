#!/usr/bin/env python3
"""Writes the inputs of this folder: NAME.capture for replay, NAME.line for line; NAME.steps has a line for each line of output.

    python3 examples/make.py

A capture is a two-byte catalogue length, the catalogue and records; numbers are low byte first.
Packets are made here, and the findings of a line are told, from the papers' description alone: nothing relies on the product.
"""
import os
import struct

PING, ACK, DEVICE_WRITE, DEVICE_DATA, LOG = 1, 2, 3, 4, 5
INT, FLOAT, BOOL = 0, 1, 2
READABLE, WRITABLE = 4, 8
# The first year whose devices send an INT as four bytes; devices of earlier years send two.
LONG_INT_YEAR = 6
OLD, NEW = LONG_INT_YEAR - 1, LONG_INT_YEAR


def encoded(message):
    """COBS: a code byte c before c-1 bytes; every zero of the message ends a block."""
    part = b""
    for block in message.split(b"\0"):
        part += bytes([len(block) + 1]) + block
    return part


def framed(part):
    return bytes([0, len(part)]) + part


def exclusive_or(bytes_):
    result = 0
    for byte in bytes_:
        result ^= byte
    return result


def message(kind, payload, length=None, flip=0):
    """Type, payload length, payload, checksum. `length` and `flip` damage one of them."""
    body = bytes([kind, len(payload) if length is None else length]) + payload
    return body + bytes([exclusive_or(body) ^ flip])


def packet(kind, payload, **damage):
    return framed(encoded(message(kind, payload, **damage)))


# The payload lengths that each type allows.
ALLOWED = {PING: range(0, 1), ACK: range(10, 11), DEVICE_WRITE: range(4, 133), DEVICE_DATA: range(4, 133), LOG: range(0, 252)}


def judged(part):
    """The error of the encoded bytes of a packet, 0 for a good one."""
    blocks = []
    while part:
        if part[0] > len(part):
            return 5
        blocks.append(part[1:part[0]])
        part = part[part[0]:]
    whole = b"\0".join(blocks)
    if whole[1] != len(whole) - 3:
        return 6
    if exclusive_or(whole) != 0:
        return 7
    return 0 if len(whole) - 3 in ALLOWED.get(whole[0], ()) else 8


class Line:
    """A socket's line: its phase, by the names that the program line prints, and the packet that it is inside of."""

    def __init__(self):
        self.phase = "fresh"
        self.packet = b""

    def taken(self, byte):
        """What one byte decides: the number of a refusal, the bytes of a good packet, or None."""
        if byte == 0:
            refused = {"length": 3, "inside": 4}.get(self.phase)
            self.phase, self.packet = "length", b"\0"
            return refused
        if self.phase == "fresh":
            self.phase = "skipping"
            return 2
        if self.phase == "skipping":
            return None
        self.packet += bytes([byte])
        if self.phase == "length":
            self.phase = "inside" if byte >= 4 else "skipping"
            return None if byte >= 4 else 3
        if len(self.packet) < self.packet[1] + 2:
            return None
        error = judged(self.packet[2:])
        self.phase = "skipping" if error else "fresh"
        return error or self.packet


# What each number means on a line.
ON_LINE = {
    2: "bytes with no 00 before them",
    3: "a length byte below 4",
    4: "a 00 among the encoded bytes",
    5: "a block passes the end",
    6: "a payload length that is not the payload's",
    7: "a checksum that differs",
    8: "an unknown type, or a payload length that it does not allow",
}


def ack(device, year, uid):
    return packet(ACK, bytes([device, year]) + struct.pack("<Q", uid))


def data(bits, values, kind=DEVICE_DATA, **damage):
    return packet(kind, struct.pack("<I", bits) + values, **damage)


def whole_number(year, number):
    """An INT as a device of this year sends it."""
    return struct.pack("<i" if year >= LONG_INT_YEAR else "<h", number)


def catalogue(types):
    """Types as (number, parameter bytes), numbers rising."""
    front = bytes([len(types)]) + b"".join(bytes([n, len(p)]) for n, p in types)
    parameters = b"".join(bytes(p) for _, p in types)
    return front + struct.pack("<H", len(parameters)) + parameters


def row(socket, device, year, uid):
    """A seated device that holds no value."""
    return bytes([1, socket, device, year]) + struct.pack("<Q", uid) + bytes(32 + 4 * 32)


def write(name, kind, bytes_, steps):
    folder = os.path.dirname(os.path.abspath(__file__))
    with open(os.path.join(folder, f"{name}.{kind}"), "wb") as file:
        file.write(bytes_)
    with open(os.path.join(folder, f"{name}.steps"), "w") as file:
        file.writelines(step + "\n" for step in steps)


class Capture:
    SOCKETS = 8
    TABLE_BYTES = 688

    def __init__(self, name, types):
        self.name = name
        self.types = types
        self.records = b""
        self.steps = []
        self.lines = [Line() for _ in range(self.SOCKETS)]

    def add(self, record, *steps):
        self.records += record
        self.steps += steps

    def receive(self, socket, bytes_, step):
        self.add(bytes([1, socket]) + struct.pack("<H", len(bytes_)) + bytes_, f"socket {socket}: {step}")

    def arrive(self, socket, scrap, *steps):
        """Bytes as they arrive: a step for each finding. Of good packets in turn the caller says what they are."""
        record = bytes([7, socket]) + struct.pack("<H", len(scrap)) + scrap
        if socket >= self.SOCKETS:
            self.add(record, f"socket {socket}: 10, bytes as they arrive, {len(scrap)} of them, where there is no socket")
            return
        found = [finding for finding in map(self.lines[socket].taken, scrap) if finding is not None]
        named = iter(steps)
        told = [f"{finding}, on the line: {ON_LINE[finding]}" if isinstance(finding, int) else next(named) for finding in found]
        assert next(named, None) is None, (self.name, scrap, steps)
        self.add(record, *(f"socket {socket}: {step}" for step in told))

    def detach(self, socket):
        self.add(bytes([2, socket]), f"socket {socket}: the device leaves")

    def publish(self):
        self.add(bytes([3]), "the list for the display")

    def read(self, socket, index, step):
        self.add(bytes([4, socket, index]), f"socket {socket}: {step}")

    def load(self, *rows):
        self.add(bytes([5]) + b"".join(rows).ljust(self.TABLE_BYTES, b"\0"), "a table is loaded")

    def show(self):
        self.add(bytes([6]), "the table")

    def look(self):
        self.show()
        self.publish()

    def write(self):
        write(self.name, "capture", struct.pack("<H", len(self.types)) + self.types + self.records, self.steps)


def bench():
    """The two packets of the bench on socket 3, under catalogue C."""
    capture = Capture("bench", bytes.fromhex("0107030300040906"))
    capture.receive(3, bytes.fromhex("000E0E020A0706010203040506070801"), "ACK, type 7, year 6, UID 01 to 08")
    capture.receive(3, bytes.fromhex("000D0404090501010207010103010E"), "DEVICE_DATA, map 5, 7 and true")
    capture.look()
    for index, step in enumerate(["INT", "FLOAT, not readable", "BOOL"]):
        capture.read(3, index, f"parameter {index}, {step}")
    capture.receive(3, bytes.fromhex("000402010201"), "19, PING, which is for devices")
    capture.receive(3, packet(LOG, b"hello"), "LOG")
    capture.look()
    capture.write()


def evening():
    """A cup sensor that names more values than it carries, beside an old syrup pump that works."""
    cup, pump = 10, 20
    sensor, syrup = 2, 5
    weight, warmth, there = 1, 2, 4
    capture = Capture(
        "evening",
        catalogue([
            (cup, [INT + READABLE, FLOAT + READABLE, BOOL + READABLE, INT + WRITABLE]),
            (pump, [FLOAT + READABLE, INT + READABLE, BOOL + READABLE + WRITABLE]),
        ]),
    )
    good = struct.pack("<if", -250, 4.5) + b"\1"
    strokes = -3
    capture.receive(sensor, ack(cup, NEW, 0x1122334455667788), "the cup sensor's ACK")
    capture.receive(syrup, ack(pump, OLD, 0x00000000000000AA), f"the syrup pump's ACK, year {OLD}")
    capture.receive(sensor, data(weight | warmth | there, good), "weight, warmth and that a cup is there")
    running = struct.pack("<f", 0.1) + whole_number(OLD, strokes) + b"\1"
    capture.receive(syrup, data(7, running), f"flow, strokes and that it runs; the strokes, {strokes}, in two bytes")
    capture.look()

    whole = data(weight | warmth | there, good)
    part = encoded(message(DEVICE_DATA, struct.pack("<I", 7) + good))
    running_long = struct.pack("<f", 0.1) + whole_number(NEW, strokes) + b"\1"
    faults = [
        (sensor, whole[:9], "1, L promises more bytes than have come"),
        (sensor, b"\x7f" + whole, "2, a stray byte before the packet"),
        (sensor, b"\0\3" + part, "3, L below 4"),
        (sensor, whole[:8] + b"\0" + whole[9:], "4, a 00 among the encoded bytes"),
        (sensor, framed(b"\x40" + part[1:]), "5, a block passes the end"),
        (sensor, data(7, good[:4], length=13), "6, a payload length of 13 before 8 bytes"),
        (sensor, data(7, good, flip=1), "7, a checksum that differs"),
        (sensor, packet(9, struct.pack("<I", 7) + good), "8, an unknown type"),
        (sensor, packet(DEVICE_DATA, b"\7\0\0"), "8, DEVICE_DATA without a whole map"),
        (sensor, packet(DEVICE_DATA, struct.pack("<I", 0xFFFFFFFF) + bytes(129)), "8, DEVICE_DATA of 133 bytes"),
        (6, whole, "15, data where nobody is"),
        (sensor, data(8, struct.pack("<i", 3)), "16, a parameter that is not readable"),
        (sensor, data(0xFFFFFFFF, bytes(128)), "16, parameters that it does not have"),
        (sensor, data(7, good[:8]), "17, three values named, two carried"),
        (sensor, data(7, good + b"\0"), "17, a byte more than the values"),
        (sensor, data(weight | warmth, good[:4]), "17, two values named, one carried"),
        (sensor, data(0, b"\1"), "17, no value named, one byte carried"),
        (syrup, data(7, running_long), f"17, strokes in four bytes from a pump of year {OLD}"),
        (sensor, data(weight | there, good[:4] + b"\2"), "18, a flag of 2"),
        (sensor, packet(PING, b""), "19, PING"),
        (sensor, data(7, good, kind=DEVICE_WRITE), "19, DEVICE_WRITE"),
    ]
    for socket, bytes_, step in faults:
        capture.receive(socket, bytes_, step)
        capture.look()
    for index, step in enumerate(["flow", "strokes", "running flag"]):
        capture.read(syrup, index, f"the pump's {step}")
    capture.receive(sensor, data(weight, struct.pack("<i", 251)), "a good weight again; the other values stay")
    capture.look()

    # Late in the evening the sensor's bytes come as its line brings them, in scraps.
    late = data(weight, struct.pack("<i", 252))
    capture.arrive(sensor, b"\x7f\x55\x7f")
    capture.look()
    capture.arrive(sensor, whole[:9])
    capture.arrive(sensor, late[:4])
    capture.look()
    capture.arrive(sensor, b"")
    capture.arrive(sensor, late[4:], "a good weight from the line, put together from two scraps")
    capture.look()
    capture.detach(sensor)
    capture.look()
    capture.write()


# The parameters of a device in the capture of years: the first INT, the last, both, and all four.
YEARS_PARAMETERS = [INT + READABLE, FLOAT + READABLE, BOOL + READABLE, INT + READABLE]
FIRST, LAST, BOTH, ALL_FOUR = 1, 8, 9, 15


def four_values(year, first, last):
    values = whole_number(year, first) + struct.pack("<f", 2.5) + b"\1" + whole_number(year, last)
    return data(ALL_FOUR, values)


def two_ints(year, first, last):
    return data(BOTH, whole_number(year, first) + whole_number(year, last))


def years():
    """An old and a new device of one type side by side, each in its own layout and in the other's."""
    kind = 30
    old, new = 1, 4
    capture = Capture("years", catalogue([(kind, YEARS_PARAMETERS)]))
    parts = [
        [
            (old, ack(kind, OLD, 0xA1), f"ACK, year {OLD}"),
            (new, ack(kind, NEW, 0xB2), f"ACK, year {NEW}"),
            (old, four_values(OLD, -1, -250), "all four values, INTs of -1 and -250 in two bytes each"),
            (new, four_values(NEW, -1, -100000), "all four values, INTs of -1 and -100000 in four bytes each"),
            (old, four_values(NEW, 7, 8), "17, all four values in the layout of the other"),
            (old, data(FIRST, whole_number(NEW, 7)), "17, one INT in four bytes"),
            (new, four_values(OLD, 7, 8), "17, all four values in the layout of the other"),
            (new, data(LAST, whole_number(OLD, 7)), "17, one INT in two bytes"),
        ],
        [
            (old, two_ints(OLD, -32768, 32767), "INTs of -32768 and 32767, four bytes in all"),
            (new, two_ints(OLD, -32768, 32767), "17, the same packet: two INTs named, the bytes of one carried"),
            (new, two_ints(NEW, -32768, 32767), "INTs of -32768 and 32767, eight bytes in all"),
            (old, two_ints(NEW, -32768, 32767), "17, the same packet"),
        ],
        [
            (old, ack(kind, NEW, 0xA1), f"a second ACK, year {NEW}"),
            (old, two_ints(OLD, -2, 2), "17, INTs in two bytes"),
            (old, two_ints(NEW, -2, 100000), "INTs of -2 and 100000 in four bytes each"),
            (new, four_values(NEW, -4, 100001), "all four values, INTs of -4 and 100001 in four bytes each"),
            (new, ack(kind, OLD, 0xB2), f"a second ACK, year {OLD}"),
            (new, four_values(NEW, -4, 5), "17, INTs in four bytes"),
            (new, four_values(OLD, -4, 5), "all four values, INTs of -4 and 5 in two bytes each"),
            (old, data(FIRST, whole_number(NEW, -6)), "an INT of -6 in four bytes"),
        ],
    ]
    for part in parts:
        for socket, bytes_, step in part:
            capture.receive(socket, bytes_, step)
            capture.look()
        for socket in [old, new]:
            for index, step in enumerate(["INT", "FLOAT", "BOOL", "INT"]):
                capture.read(socket, index, f"parameter {index}, {step}")
    capture.write()


# The type of the devices in the capture of scraps, and what the first of them sends.
SCRAPS_KIND = 40
NUMBER, FLAG = 1, 2
BOTH_VALUES = data(NUMBER | FLAG, struct.pack("<i", 1000) + b"\1")
SHORT_LOG = packet(LOG, b"")


def cut_anywhere(capture, first, second):
    """Packets in scraps: byte by byte at the ends with empty ones between, and two lines by turns."""
    hello, other = ack(SCRAPS_KIND, NEW, 0xC3), ack(SCRAPS_KIND, OLD, 0xD4)
    values = BOTH_VALUES
    for scrap in [b"", hello[:1], b"", hello[1:2], b"", hello[2:-1], b""]:
        capture.arrive(first, scrap)
    capture.arrive(first, hello[-1:], "ACK, byte by byte at its ends")
    capture.arrive(second, other[:5])
    capture.arrive(first, values[:3])
    capture.arrive(second, other[5:], "ACK, in two scraps")
    capture.arrive(first, values[3:] + values[:7], "both values, in two scraps; the second has the next packet's beginning")
    capture.arrive(first, values[7:], "both values once more, in two scraps")
    capture.look()


def refused_on_line(capture, first, second):
    """What a line refuses, with a good packet behind each, taken whatever came before it; then many findings in one scrap."""
    part = encoded(message(DEVICE_DATA, struct.pack("<I", 7)))
    for bytes_ in [
        b"\x11\x22",
        BOTH_VALUES[:9],
        b"\0",
        b"\0\1\x33",
        b"\0\2",
        b"\0\3\x44\x55\x66",
        framed(b"\x40" + part[1:]),
        packet(LOG, b"ab", length=3) + b"\x77",
        packet(LOG, b"ab", flip=1),
        packet(9, b""),
        packet(ACK, b"nine byte"),
    ]:
        capture.arrive(first, bytes_)
        capture.arrive(first, SHORT_LOG, "LOG, behind what the line brought before it")
    much = b"\x01" + SHORT_LOG + b"\0\0\0\3" + SHORT_LOG + BOTH_VALUES[:6] + SHORT_LOG
    capture.arrive(second, much, *["LOG, in a scrap with much else"] * 3)
    capture.arrive(second, b"\0" * 4 + SHORT_LOG[1:], "LOG, by the last of several 00")
    capture.look()


def refused_by_hub(capture, first, nobody):
    """Good packets that the hub refuses: the line is fresh behind each, and noise is told again. Then sockets that there are not."""
    for socket, bytes_, step in [
        (nobody, BOTH_VALUES, "15, data where nobody is"),
        (first, data(4, b"\1"), "16, a parameter that it does not have"),
        (first, data(NUMBER, b"\1\2"), "17, an INT in two bytes"),
        (first, data(FLAG, b"\2"), "18, a flag of 2"),
        (first, packet(PING, b""), "19, PING"),
    ]:
        capture.arrive(socket, bytes_ + b"\x99", step)
    for socket in [8, 255]:
        for scrap in [b"", BOTH_VALUES[:6], BOTH_VALUES[6:]]:
            capture.arrive(socket, scrap)


def beside_other_calls(capture, first, second):
    """Leaving, an ACK by a record of its own and a loaded table between the bytes of a packet: the line goes on."""
    values = BOTH_VALUES
    capture.arrive(first, values[:4])
    capture.detach(first)
    capture.arrive(first, values[4:8])
    capture.receive(first, ack(SCRAPS_KIND, NEW, 0xC3), "ACK, by a record of its own")
    capture.arrive(first, values[8:10])
    capture.load(row(first, SCRAPS_KIND, NEW, 0xC3))
    capture.arrive(first, values[10:], "both values, begun before the device left")
    capture.look()
    for index, step in enumerate(["INT", "BOOL"]):
        capture.read(first, index, f"parameter {index}, {step}")
        capture.read(second, index, f"15, parameter {index}, {step}: the table that was loaded does not have the device")


def scraps():
    """Two devices whose bytes come by their lines; at the end the longest packet, and one that is not all there."""
    first, second, nobody = 1, 6, 3
    capture = Capture("scraps", catalogue([(SCRAPS_KIND, [INT + READABLE, BOOL + READABLE])]))
    cut_anywhere(capture, first, second)
    refused_on_line(capture, first, second)
    refused_by_hub(capture, first, nobody)
    beside_other_calls(capture, first, second)
    longest = packet(LOG, bytes(range(1, 252)))
    capture.arrive(first, longest[:200])
    capture.arrive(first, longest[200:] + BOTH_VALUES[:-1], "LOG of 251 bytes")
    capture.look()
    capture.write()


def noisy():
    """A captured line with noise, a cut packet and good ones, for the program line."""
    values = data(3, struct.pack("<i", -7) + b"\1")
    bytes_ = b"".join([
        b"\x1c\x7f\x1c",
        ack(40, NEW, 0xE5),
        values,
        b"\x55",
        values[:11],
        values,
        b"\0",
        packet(LOG, b"cup there"),
        b"\0\2\x61\x62",
        data(3, struct.pack("<i", -8) + b"\1", flip=4),
        b"\x63",
        packet(PING, b""),
        values[:6],
    ])
    line, steps = Line(), []
    for place, byte in enumerate(bytes_):
        finding = line.taken(byte)
        if isinstance(finding, int):
            steps.append(f"{finding}, {ON_LINE[finding]}, at {place}")
        elif finding is not None:
            steps.append(f"a packet of {len(finding)} bytes, its 00 at {place + 1 - len(finding)}")
    write("noisy", "line", bytes_, steps + [f"the end, {len(bytes_)} bytes, {line.phase}"])


if __name__ == "__main__":
    bench()
    evening()
    years()
    scraps()
    noisy()
