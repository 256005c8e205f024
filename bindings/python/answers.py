"""The answers to the questions for the class (docs/QUESTIONS.md), run through the library and through wrong converters. docs/ANSWERS.md explains them."""

import struct

import classroom
from classroom import BYTE, converter, copied, expect, flips_that_show, leaves, marks, number, print_picture, replaced, sheet, significant_bits
from classroom import stopped
from yirvagul import Handling, Refusal, compare, convert_copying, reach


def bit_0():
    rig = sheet(classroom.PRESSURE, "array 0 3", "comp 8", "member boost 0 1")
    plain = sheet("int 2 LE 0 16 zero zero unsigned", "array 0 3", "comp 6", "member boost 0 1")
    convert = converter(rig, plain, 6)
    print("as it was:              ", convert(classroom.RECORD)[1].hex(" "))
    for bit in (0, 4):
        flipped = bytearray(classroom.RECORD)
        flipped[3] ^= 1 << bit
        print(f"bit {bit} of byte 3 flipped:", convert(flipped)[1].hex(" "))


def another_record():
    record = bytes.fromhex("00 0f 80 00 7f ff 00 00")
    print(record.hex(" "))
    for sign in ("unsigned", "signed"):
        numbers = (number(layout.replace("unsigned", sign), leaf) for _, layout, leaf in leaves(record)[:3])
        print(f"boost {sign}:", *numbers)
    print("valve:", number(classroom.VALVE, record[7:]))


def minus_200():
    """The way of error 1, for 12 bits at offset 1: the sign is bit 15."""
    source, destination = sheet("int 2 BE 0 16 zero zero signed"), sheet("int 2 BE 1 12 zero zero signed")
    out = bytearray(2)
    convert_copying(source, destination, 1, Handling.STOP, (-200).to_bytes(2, "big", signed=True), out)
    container = int.from_bytes(out, "big")
    wrong = (container >> 1 & 0xFFF) - (container >> 15 << 12)
    print(f"-200 -> {out.hex(' ')}")
    print(f"right: {number('int 2 BE 1 12 zero zero signed', out)}, wrong: {wrong}")


def shrinking():
    """WRONG: from the last record down, a record is read after its bytes were written over."""
    log = bytes.fromhex("00 0a 00 0b 00 0c")
    for name, fit in (("cut", lambda n: n & 0xFF), ("clamp", lambda n: min(n, 255))):
        buffer, read = bytearray(log), []
        for i in reversed(range(3)):
            record = buffer[2 * i : 2 * i + 2]
            buffer[i] = fit(int.from_bytes(record, "big"))
            read.append(record.hex(" "))
        print(f"wrong, {name + ':':6} {log.hex(' ')} -> {buffer[:3].hex(' ')}, having read {', then '.join(read)}")
    right = replaced(sheet("int 2 BE 0 16 zero zero unsigned"), sheet(BYTE), 3, log, bytes(3))
    print(f"right:        {log.hex(' ')} -> {right}")


def kept_pads():
    print("5 over c3:", copied(sheet(BYTE), sheet("int 1 LE 2 4 keep keep unsigned"), 1, b"\x05", b"\xc3"))


def all_ones():
    source = sheet(BYTE, "enum 0", "value open 0", "value shut 1")
    destination = sheet(BYTE, "enum 0", "value open 255", "value shut 1")
    for log in (b"\x00", b"\x07"):
        count, out = converter(source, destination, 1)(log)
        print(f"{log.hex()} -> {out.hex()}, count {count}")


def there_and_back():
    """Each wrong converter, and the same error on the way back. What it does right is written as plainly as can be."""

    def narrowed(log, fit):
        return (fit(int.from_bytes(log, "big", signed=True)) & 0xFFF).to_bytes(2, "big")

    def position_back(log):
        return bytes([log[0], 0, log[1]])

    def pads_back(log):
        return int.from_bytes(log, "big").to_bytes(2, "little")

    def shrunk(log):
        return bytes(log[1::2])

    def grown(log):
        return b"".join(bytes([log[i], 0]) for i in range(3))

    ways = {
        "1, cutting": ("0f 38", classroom.sign_of_the_container, lambda log: narrowed(log, int)),
        "1, clamping": ("0f 38", classroom.sign_of_the_container, lambda log: narrowed(log, lambda n: max(-2048, min(2047, n)))),
        "2": ("0a 0b 0c 77 77 77", classroom.from_the_first_record, shrunk),
        "3": ("64 00 1e", classroom.by_position, position_back),
        "4": ("05 f0", classroom.with_the_source_pads, pads_back),
        "5": ("00 01 00", classroom.numbers_copied, classroom.numbers_copied),
        "6": ("05 00 06 00 07 00", classroom.stops_while_writing, grown),
        "7": ("64 11 65 12 66 13", classroom.tail_left, grown),
    }
    for name, (log, there, back) in ways.items():
        middle = there(bytes.fromhex(log))
        print(f"{name + ':':12} {log} -> {middle.hex(' ')} -> {back(middle).hex(' ')}")


def behind_the_stop():
    for log in ("05 00 06 00 2c 01 07 00", "05 00 06 00 2c 01 90 01"):
        try:
            copied(sheet("int 2 LE 0 16 zero zero unsigned"), sheet(BYTE), 4, bytes.fromhex(log), bytes(4))
        except Refusal as refused:
            print(f"{log}: {refused}")


def three_bytes():
    leaf, rows, numbers = bytes.fromhex("4e 25 93"), {}, []
    for order in ("LE", "BE"):
        layout, significant = f"int 3 {order} 5 12 zero zero unsigned", significant_bits(0, 3, order, 5, 12)
        expect(flips_that_show(converter(sheet(layout), sheet("int 2 LE 0 16 zero zero unsigned"), 2), leaf), significant)
        rows[order] = [marks(byte, significant, "N", "p") for byte in range(3)]
        numbers.append(f"{order}: {number(layout, leaf)}")
    print_picture(leaf, rows)
    print(", ".join(numbers))


def halves():
    """The fraction is dropped first, and then the range is looked at."""
    signed = sheet(classroom.VALVE)
    for real in (-0.5, 127.5, 128.5, -128.5, -129.0):
        leaf = struct.pack(">d", real)
        _, out = converter(classroom.REAL, signed, 1)(leaf)
        print(f"{real:6}  {leaf.hex(' ')} -> {out.hex()}, {stopped(classroom.REAL, signed, 1, leaf)}")


def two_ints_of_one_double():
    wide = sheet("int 8 BE 0 64 zero zero unsigned")
    for number in (2**60, 2**60 + 1, 2**60 + 256):
        count, out = converter(wide, classroom.REAL, 8)(number.to_bytes(8, "big"))
        print(f"{number} -> {out.hex(' ')}, count {count}")


def a_third_symbol():
    two, three = (sheet(BYTE, "enum 0", "value open 0", "value shut 1", *more) for more in ((), ("value ajar 2",)))
    for name, source, destination, log in (("there", two, three, "00 01"), ("back", three, two, "00 01"), ("back, no records", three, two, "")):
        log = bytes.fromhex(log)
        try:
            out = copied(source, destination, len(log), log, bytes(len(log)))
            print(f"{name}: {log.hex(' ')} -> {out}")
        except Refusal as refused:
            print(f"{name}: {refused.name} ({refused.number:d}), the symbol {refused.symbol}")
    found = compare(three, two, bytes.fromhex("00 01 02"), bytes.fromhex("00 01 02"))
    print("compared, 00 01 02 twice:", *(f"record {difference.record} differs, {difference.first} and {difference.second}" for difference in found))


def the_valve_alone():
    valve = sheet(classroom.VALVE, "enum 0", "value open 0", "value shut 1", "comp 1", "member valve 0 1")
    convert = converter(classroom.OIL, valve, 1)
    print("mask", reach(classroom.OIL, valve).hex(" "))
    for number in (1, 7):
        record = classroom.LOGGED[:7] + bytes([number])
        count, out = convert(record)
        print(f"{record.hex(' ')} -> {out.hex()}, count {count}; {len(flips_that_show(convert, record))} flips show")


def which_leaf_stops():
    def run_of_laps(byte, *words):
        run, oil = words or ("", "")
        laps = ("comp 2", "member boost 0 0", f"member oil 1 0 {oil}".rstrip(), "array 1 2", "comp 4", "member laps 0 2")
        return sheet(byte, *laps, "comp 4", f"member run 0 3 {run}".rstrip())

    signed = BYTE.replace("unsigned", "signed")
    said = (run_of_laps(BYTE), run_of_laps(signed, "stop", "clamp"))
    silent = (run_of_laps(BYTE, "stop", "clamp"), run_of_laps(signed))
    for what, sheets in (("words of the destination", said), ("words of the source", silent)):
        print(f"{what}:")
        for record in ("64 c8 c8 c8", "64 c8 64 c8"):
            for handling in Handling:
                out = bytearray(4)
                try:
                    count = convert_copying(*sheets, 1, handling, bytes.fromhex(record), out)
                    print(f"{record}, {handling.name.lower()}: {out.hex(' ')}, count {count}")
                except Refusal as refused:
                    print(f"{record}, {handling.name.lower()}: STOP at byte {refused.at}, {refused.member}")


if __name__ == "__main__":
    bit_0()
    first = (another_record, minus_200, shrinking, kept_pads, all_ones, there_and_back, behind_the_stop, three_bytes)
    for part in (*first, halves, two_ints_of_one_double, a_third_symbol, the_valve_alone, which_leaf_stops):
        print()
        part()
