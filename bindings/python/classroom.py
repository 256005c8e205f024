"""One record of a rig's log, read leaf by leaf; the seven classroom errors, each beside the library's result on the same bytes; which bits of a
source record the result turns on; and pressures that are doubles.

docs/TEACHING.md explains every line that this prints. The converters marked WRONG are wrong on purpose, and only as long as their example needs.
"""

import math
import struct
import sys

from yirvagul import Handling, Refusal, convert_copying, convert_in_place, reach


def sheet(*lines):
    """A layout sheet: each line ended by byte 10, its fields parted by one tab. No field holds a blank, so here blanks stand for the tabs."""
    return "".join(line.replace(" ", "\t") + "\n" for line in lines)


def copied(source, destination, count, log, background):
    """The library's copying form: the destination buffer, which holds the background before the call."""
    out = bytearray(background)
    convert_copying(source, destination, count, Handling.STOP, log, out)
    return out.hex(" ")


def replaced(source, destination, count, log, background):
    """The library's in-place form: the buffer after the call, and the refusal if there is one."""
    buffer = bytearray(log)
    try:
        convert_in_place(source, destination, count, Handling.STOP, buffer, background)
    except Refusal as refused:
        return f"{buffer.hex(' ')}\n       {refused}"
    return buffer.hex(" ")


def show(log, wrong, right):
    """The bytes that go in, and those that come out of either converter."""
    print(f"wrong: {log.hex(' ')} -> {wrong.hex(' ')}", f"right: {log.hex(' ')} -> {right}", sep="\n")


BYTE = "int 1 LE 0 8 zero zero unsigned"


# ---- the record of the page, leaf by leaf

PRESSURE = "int 2 BE 4 12 zero zero unsigned"
VALVE = "int 1 LE 0 8 zero zero signed"

# The pressures 100, 2000 and 4095 with something in their pad bits, something in the gap, and the valve shut.
RECORD = bytes.fromhex("06 43 7d 0c ff f5 a7 01")


def number(layout, leaf):
    """The number in the bytes of one leaf, as the library reads it: converted into 64 bits, which hold it whatever it is."""
    out = bytearray(8)
    convert_copying(sheet(layout), sheet("int 8 LE 0 64 zero zero signed"), 1, Handling.STOP, leaf, out)
    return int.from_bytes(out, "little", signed=True)


def leaves(record):
    """The leaves of a record of the rig: name, layout and bytes."""
    return [*((f"boost {i}", PRESSURE, record[2 * i : 2 * i + 2]) for i in range(3)), ("valve", VALVE, record[7:])]


def reading():
    print("record", RECORD.hex(" "))
    print("leaf     bytes  container  number  pad")
    for name, layout, leaf in leaves(RECORD):
        pad = f"{leaf[1] & 0xF:x}" if layout == PRESSURE else "none"
        print(f"{name:7}  {leaf.hex(' '):5}  {leaf.hex():9}  {number(layout, leaf):<6}  {pad}")


# ---- 1: a signed number of 12 bits, with four bits free above it


def sign_of_the_container(log, offset=0):
    """WRONG: the sign is bit 15, the container's top bit. At offset 0 the number's own top bit is bit 11."""
    container = int.from_bytes(log, "big")
    number = container >> offset & 0xFFF
    if container >> 15 == 1:
        number -= 1 << 12
    return number.to_bytes(2, "big", signed=True)


def sign():
    source = sheet("int 2 BE 0 12 zero zero signed")
    destination = sheet("int 2 BE 0 16 zero zero signed")
    log = bytes.fromhex("0f 38")
    show(log, sign_of_the_container(log), copied(source, destination, 1, log, bytes(2)))
    source, log = sheet("int 2 BE 4 12 zero zero signed"), bytes.fromhex("f3 80")
    show(log, sign_of_the_container(log, 4), copied(source, destination, 1, log, bytes(2)))


# ---- 2: three records of 1 byte become records of 2 bytes in the same buffer


def from_the_first_record(log):
    """WRONG: record 0 is written over record 1 before record 1 is read."""
    buffer = bytearray(log)
    for i in range(3):
        buffer[2 * i : 2 * i + 2] = buffer[i].to_bytes(2, "big")
    return buffer


def growing():
    source = sheet(BYTE)
    destination = sheet("int 2 BE 0 16 zero zero unsigned")
    log = bytes.fromhex("0a 0b 0c 77 77 77")
    show(log, from_the_first_record(log), replaced(source, destination, 3, log, bytes(6)))


# ---- 3: two members that the destination has in the other order


def by_position(log):
    """WRONG: the first member goes to the first and the second to the second, whatever their names."""
    out = bytearray(2)
    for source_byte, destination_byte in zip((0, 2), (0, 1)):
        out[destination_byte] = log[source_byte]
    return out


def members():
    source = sheet(BYTE, "comp 3", "member boost 0 0", "member oil 2 0")
    destination = sheet(BYTE, "comp 2", "member oil 0 0", "member boost 1 0")
    log = bytes.fromhex("64 00 1e")
    show(log, by_position(log), copied(source, destination, 1, log, bytes(2)))


# ---- 4: the source has ones above the number, the destination wants zeros there


def with_the_source_pads(log):
    """WRONG: the bits beside the number come along with it."""
    container = int.from_bytes(log, "little")
    number, pads = container & 0x0FFF, container & 0xF000
    return (number | pads).to_bytes(2, "big")


def pads():
    source = sheet("int 2 LE 0 12 zero one unsigned")
    destination = sheet("int 2 BE 0 12 zero zero unsigned")
    log = bytes.fromhex("05 f0")
    show(log, with_the_source_pads(log), copied(source, destination, 1, log, bytes(2)))
    log = bytes.fromhex("05 00")
    show(log, with_the_source_pads(log), copied(source, destination, 1, log, bytes(2)))


# ---- 5: two enums with the same symbols and other numbers


def numbers_copied(log):
    """WRONG: the number is kept, so its symbol changes."""
    return bytes(log)


def symbols():
    source = sheet(BYTE, "enum 0", "value open 0", "value shut 1")
    destination = sheet(BYTE, "enum 0", "value shut 0", "value open 1")
    log = bytes.fromhex("00 01 00")
    show(log, numbers_copied(log), copied(source, destination, 3, log, bytes(3)))
    try:
        copied(source + sheet("value ajar 2"), destination, 3, log, bytes(3))
    except Refusal as refused:
        print(f"       with a third symbol: {refused}")


# ---- 6: the numbers 5, 6 and 300 into single bytes, with handling stop


def stops_while_writing(log):
    """WRONG: it looks for a number that does not fit while it writes, and finds it with two records written."""
    buffer = bytearray(log)
    for i in range(3):
        number = int.from_bytes(buffer[2 * i : 2 * i + 2], "little")
        if number > 255:
            break
        buffer[i] = number
    return buffer


def stop():
    source = sheet("int 2 LE 0 16 zero zero unsigned")
    destination = sheet(BYTE)
    log = bytes.fromhex("05 00 06 00 2c 01")
    show(log, stops_while_writing(log), replaced(source, destination, 3, log, bytes(3)))
    first = stops_while_writing(log)[:2]
    print(f"       after the wrong one record 0 is {first.hex(' ')}, that is {number('int 2 LE 0 16 zero zero unsigned', first)}")


# ---- 7: three records of 2 bytes become records of 1 byte in the same buffer


def tail_left(log):
    """WRONG: it ends with the last record, and what stood behind it still stands there."""
    buffer = bytearray(log)
    for i in range(3):
        buffer[i] = buffer[2 * i]
    return buffer


def tail():
    source = sheet(BYTE, "comp 2", "member boost 0 0", "member trim 1 0")
    destination = sheet(BYTE, "comp 1", "member boost 0 0")
    log = bytes.fromhex("64 11 65 12 66 13")
    show(log, tail_left(log), replaced(source, destination, 3, log, bytes(3)))


# ---- which bits of the source could have changed the result?

# Two pressures, an oil temperature and a valve; for a customer who wants the first two of them as plain 16-bit numbers, and for one who has 8 bits for each.
TEMPERATURE = "int 2 LE 2 10 zero zero unsigned"
SYMBOLS = ("enum 2", "value open 0", "value shut 1")
OIL = sheet(PRESSURE, TEMPERATURE, VALVE, *SYMBOLS, "array 0 2", "comp 8", "member boost 0 4", "member oil 4 1", "member valve 7 3")
GAUGES = sheet("int 2 LE 0 16 zero zero unsigned", "array 0 2", "comp 6", "member boost 0 1", "member oil 4 0")
DASH = sheet(BYTE, "array 0 2", "comp 3", "member boost 0 1", "member oil 2 0")

# The pressures 100 and 2000, the temperature 424, and the valve shut.
LOGGED = bytes.fromhex("06 43 7d 0c a3 f6 a7 01")


def converter(source, destination, size):
    """The library as a function of one source record: it gives the count of exceptions and the destination record."""

    def convert(record):
        out = bytearray(size)
        return convert_copying(source, destination, 1, Handling.CLAMP, record, out), out

    return convert


def flips_that_show(convert, record):
    """The bits of a record, each a pair of byte and bit, whose flip alone changes what `convert` gives. Works for any converter, yours too."""
    unflipped, found = convert(record), set()
    for byte in range(len(record)):
        for bit in range(8):
            flipped = bytearray(record)
            flipped[byte] ^= 1 << bit
            if convert(flipped) != unflipped:
                found.add((byte, bit))
    return found


def bits_that_can(source, destination):
    """The bits of a source record that can show, as the library says: those that are one in its mask."""
    mask = reach(source, destination)
    return {(byte, bit) for byte, value in enumerate(mask) for bit in range(8) if value >> bit & 1}


def significant_bits(at, size, order, offset, precision):
    """The significant bits of a leaf that starts at byte `at`. Bit 0 of its container is bit 0 of its first byte (LE) or of its last (BE)."""
    bits = range(offset, offset + precision)
    if order == "LE":
        return {(at + b // 8, b % 8) for b in bits}
    return {(at + size - 1 - b // 8, b % 8) for b in bits}


def marks(byte, bits, yes="#", no="."):
    """A mark for each bit of a byte, the highest first."""
    return "".join(yes if (byte, bit) in bits else no for bit in reversed(range(8)))


def print_picture(record, rows):
    """The record's bytes side by side: their places, hex and bits, and below them rows of marks, each of eight for a byte."""
    print("byte", *(f"{byte:8}" for byte in range(len(record))))
    print("hex ", *(f"      {value:02x}" for value in record))
    print("bits", *(f"{value:08b}" for value in record))
    for name, row in rows.items():
        print(f"{name:4}", *row)


def expect(shown, significant):
    if shown != significant:
        sys.exit("the flips that show are not the significant bits of the matched leaves")


def flips():
    can = bits_that_can(OIL, GAUGES)
    expect(can, set().union(*(significant_bits(at, 2, "BE", 4, 12) for at in (0, 2)), significant_bits(4, 2, "LE", 2, 10)))
    numbers = [marks(byte, can, "N", "p") for byte in range(6)]
    print_picture(LOGGED, {"": [*numbers, "g" * 8, "u" * 8]})
    print("mask", *(f"      {value:02x}" for value in reach(OIL, GAUGES)))

    wide, narrow = converter(OIL, GAUGES, 6), converter(OIL, DASH, 3)
    expect(bits_that_can(OIL, DASH), can)
    show_wide, show_narrow = flips_that_show(wide, LOGGED), flips_that_show(narrow, LOGGED)
    expect(show_wide, can)
    print("\nFlips of one source bit that show in the result: into 16 bits; into 8 bits, clamped")
    for byte, value in enumerate(LOGGED):
        print(f"byte {byte}: {value:02x} {value:08b} {marks(byte, show_wide)} {marks(byte, show_narrow)}")
    count, out = wide(LOGGED)
    print(f"16 bits: {out.hex(' ')}, count {count}; {len(show_wide)} flips show, the bits of the mask and no others")
    count, out = narrow(LOGGED)
    print(f"8 bits: {out.hex(' ')}, count {count}; {len(show_narrow)} flips show, clamping hides the other {len(can - show_narrow)}")
    zeros = [flips_that_show(convert, bytes(8)) for convert in (wide, narrow)]
    for shown in zeros:
        expect(shown, can)
    print("of a record of zeros:", " and ".join(f"{len(shown)}" for shown in zeros), "flips show, the bits of the mask and no others")


# ---- the same two bytes in either order

ORDERS = {"LE": TEMPERATURE, "BE": "int 2 BE 2 10 zero zero unsigned"}
TEN = bytes.fromhex("a3 f6")


def orders():
    rows = {}
    for order, layout in ORDERS.items():
        plain = sheet("int 2 LE 0 16 zero zero unsigned")
        can = bits_that_can(sheet(layout), plain)
        expect(can, significant_bits(0, 2, order, 2, 10))
        expect(flips_that_show(converter(sheet(layout), plain, 2), TEN), can)
        rows[order] = [marks(byte, can, "N", "p") for byte in range(2)]
    print_picture(TEN, rows)
    print(", ".join(f"{order}: {number(layout, TEN)}" for order, layout in ORDERS.items()))


# ---- pressures that are doubles

REAL = sheet("real 8 BE")
REALS = [100.0, 100.5, 255.5, 256.5, -0.5, -1.0, 0.0, -0.0, math.inf, math.nan]


def stopped(source, destination, size, leaf):
    """The kind that stops one leaf's conversion, by number and name."""
    try:
        convert_copying(source, destination, 1, Handling.STOP, leaf, bytearray(size))
    except Refusal as refused:
        return f"kind {int(refused.kind)}, {refused.kind.name}"
    return "no exception"


def doubles():
    print("Doubles into a byte, clamped")
    for real in REALS:
        leaf = struct.pack(">d", real)
        _, out = converter(REAL, sheet(BYTE), 1)(leaf)
        print(f"{real:5}  {leaf.hex(' ')} -> {out.hex()}, {stopped(REAL, sheet(BYTE), 1, leaf)}")
    try:
        copied(REAL, sheet(BYTE), 1, struct.pack(">d", math.nan), bytes(1))
    except Refusal as refused:
        print(refused)


def doubles_flips():
    turned, byte = converter(REAL, sheet("real 8 LE"), 8), converter(REAL, sheet(BYTE), 1)
    print("Flips of one of the 64 bits that show: into a double of the other order; into a byte, clamped")
    for real in (100.0, -0.0, math.nan):
        leaf = struct.pack(">d", real)
        print(f"{real:5}  {leaf.hex(' ')}  {len(flips_that_show(turned, leaf))}, {len(flips_that_show(byte, leaf))}")


def ints_as_doubles():
    print("Ints of 64 bits into a double, clamped")
    wide = sheet("int 8 BE 0 64 zero zero unsigned")
    for name, number in (("2^53 - 1", 2**53 - 1), ("2^53", 2**53), ("2^53 + 1", 2**53 + 1), ("2^53 + 2", 2**53 + 2), ("2^53 + 3", 2**53 + 3)):
        leaf = number.to_bytes(8, "big")
        _, out = converter(wide, REAL, 8)(leaf)
        print(f"{name:8}  {leaf.hex(' ')} -> {out.hex(' ')}, {stopped(wide, REAL, 8, leaf)}")


ERRORS = {
    "Sign taken from the container's top bit": sign,
    "Growing in place from the first record": growing,
    "Members paired by position": members,
    "Pads taken from the source's pads": pads,
    "Enum numbers copied, not symbols": symbols,
    "A STOP found after earlier records were written": stop,
    "The shrunk tail still holding source bytes": tail,
}


def errors():
    for i, (title, run) in enumerate(ERRORS.items(), 1):
        print(f"{i}. {title}")
        run()


if __name__ == "__main__":
    reading()
    for part in (orders, errors, flips, doubles, doubles_flips, ints_as_doubles):
        print()
        part()
