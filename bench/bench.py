"""Runs the benchmark with numpy beside the others: `bench.py LIBRARY [ROUNDS [PART OF A NAME]]`.

The library, which `run` builds of the C files here, goes through the rounds and prints the tables. In each round it also calls numpy here, which is timed by the same clock,
the thread's processor time. What numpy does is made of the two sheets before it is timed: an expression for each column, over all records at once. The time of a call has the
allocation of its result in it.
"""
import ctypes
import functools
import sys
import time
import traceback

import numpy

# ---- types of a sheet, with numpy's dtype for their bytes


class Int:
    def __init__(self, size, order, offset, precision, lsb, msb, sign="unsigned"):
        self.size, self.offset, self.precision = int(size), int(offset), int(precision)
        signed = sign == "signed"
        self.low = -(1 << self.precision - 1) if signed else 0
        self.high = (1 << self.precision - signed) - 1
        self.whole = self.precision == 8 * self.size
        self.dtype = numpy.dtype(("<", ">")[order == "BE"] + ("u", "i")[signed] + size)
        below, above = (1 << self.offset) - 1, (1 << 8 * self.size) - (1 << self.offset + self.precision)
        self.keep = below * (lsb == "keep") + above * (msb == "keep")
        self.ones = below * (lsb == "one") + above * (msb == "one")


class Real:
    whole, keep = True, 0

    def __init__(self, size, order):
        self.dtype = numpy.dtype(("<", ">")[order == "BE"] + "f" + size)


class Enum:
    whole, keep = False, 0

    def __init__(self, base):
        self.base, self.dtype, self.numbers = base, base.dtype, {}


class Array:
    def __init__(self, base, dimensions):
        self.base, self.dtype = base, numpy.dtype((base.dtype, dimensions))


class Compound:
    def __init__(self, size):
        self.size, self.members = size, {}

    @property
    def dtype(self):
        types, places = zip(*self.members.values())
        return numpy.dtype({"names": list(self.members), "formats": [t.dtype for t in types], "offsets": places, "itemsize": self.size})


def read(sheet):
    """The type of a sheet."""
    types = []
    for line in sheet.splitlines():
        word, *fields = line.split("\t")
        if word in ("int", "bits"):
            types.append(Int(*fields))
        elif word == "real":
            types.append(Real(*fields))
        elif word == "enum":
            types.append(Enum(types[int(fields[0])]))
        elif word == "value":
            types[-1].numbers[fields[0]] = int(fields[1])
        elif word == "array":
            types.append(Array(types[int(fields[0])], tuple(map(int, fields[1:]))))
        elif word == "comp":
            types.append(Compound(int(fields[0])))
        else:
            types[-1].members[fields[0]] = (types[int(fields[2])], int(fields[1]))
    return types[-1]


# ---- columns: functions of a source's column and of the destination's own, which give what is assigned to the latter; None where it is the source's as it is


def numbers(source):
    """A source's numbers, of its containers."""
    if source.whole:
        return None
    up = 8 * source.size - source.offset - source.precision
    return (lambda x: x << up >> up + source.offset) if up else (lambda x: x >> source.offset)


def between(x, low, high):
    """What numpy.clip gives, which takes long to begin."""
    return numpy.clip(x, low, high) if len(x) > 1024 else numpy.minimum(numpy.maximum(x, low), high)


def limited(source, destination):
    """These, within the destination's range."""
    number, low, high = numbers(source), destination.low, destination.high
    below, above = isinstance(source, Real) or source.low < low, isinstance(source, Real) or source.high > high
    if not (below or above):
        return number
    number = number or (lambda x: x)
    if below and above:
        return lambda x: between(number(x), low, high)
    limit, end = (numpy.maximum, low) if below else (numpy.minimum, high)
    return lambda x: limit(number(x), end)


def placed(source, destination):
    """These, as the destination's containers."""
    number, offset, ones, keep, bits = limited(source, destination), destination.offset, destination.ones, destination.keep, (1 << destination.precision) - 1
    if destination.whole:
        return number and (lambda x, own: number(x))
    number = number or (lambda x: x)
    if keep:
        return lambda x, own: (number(x) & bits) << offset | own & keep | ones
    return lambda x, own: (number(x) & bits) << offset | ones if ones else (number(x) & bits) << offset


def translated(source, destination):
    """An enum's, by a table of all numbers that its containers can have; a negative one counts from the table's end."""
    assert source.base.whole and destination.base.whole
    table = numpy.full(1 << 8 * source.base.size, 0, dtype=destination.dtype)
    table.view(numpy.uint8)[:] = 255
    for name, number in source.numbers.items():
        table[number] = destination.numbers[name]
    return lambda x, own: table[x]


def column(source, destination):
    if isinstance(source, Enum):
        return translated(source, destination)
    if isinstance(destination, Real):
        number = numbers(source)
        return number and (lambda x, own: number(x))
    return placed(source, destination)


def columns(source, destination, way=()):
    """The names of the members on the way to a column, and its function, of all columns that are matched."""
    if isinstance(destination, Array):
        yield from columns(source.base, destination.base, way)
    elif isinstance(destination, Compound):
        for name, (member, _) in destination.members.items():
            if name in source.members:
                yield from columns(source.members[name][0], member, way + (name,))
    else:
        yield way, column(source, destination)


def fixed(source, destination):
    """How many bytes of the destination a conversion fixes whole."""
    if isinstance(destination, Array):
        return fixed(source.base, destination.base) * (destination.dtype.itemsize // destination.base.dtype.itemsize)
    if isinstance(destination, Compound):
        return sum(fixed(source.members[name][0], member) for name, (member, _) in destination.members.items() if name in source.members)
    return 0 if destination.keep else destination.dtype.itemsize


def leaves(type):
    if isinstance(type, Compound):
        return [leaf for member, _ in type.members.values() for leaf in leaves(member)]
    return leaves(type.base) if isinstance(type, Array) else [type]


def copied(records):
    """A copy of all bytes: numpy's own goes member by member and leaves gaps out."""
    return records.view(numpy.uint8).copy().view(records.dtype)


@functools.lru_cache(maxsize=None)
def conversion(source_sheet, destination_sheet):
    """The two dtypes, and a function of the source's records and their background, which gives new records."""
    source, destination = read(source_sheet), read(destination_sheet)
    from_type, to_type = source.dtype, destination.dtype
    if source_sheet == destination_sheet and all(leaf.whole for leaf in leaves(source)):
        return from_type, to_type, lambda records, background: copied(records)
    steps = list(columns(source, destination))
    new = fixed(source, destination) == to_type.itemsize
    if new and not any(function for _, function in steps) and from_type.names == to_type.names:
        return from_type, to_type, lambda records, background: records.astype(to_type)

    def convert(records, background):
        result = numpy.empty(len(records), to_type) if new else copied(background)
        for way, function in steps:
            x, own = records, result
            for name in way:
                x, own = x[name], own[name]
            own[...] = function(x, own) if function else x
        return result

    return from_type, to_type, convert


# ---- one round

ROUND = ctypes.CFUNCTYPE(ctypes.c_double, ctypes.c_char_p, ctypes.c_char_p, ctypes.c_size_t, ctypes.c_size_t, ctypes.c_void_p, ctypes.c_void_p, ctypes.c_void_p)


def at(address, dtype, records, calls):
    """The records of each call."""
    all_bytes = (ctypes.c_char * (dtype.itemsize * records * calls)).from_address(address)
    every = numpy.frombuffer(all_bytes, dtype)
    return [every[i * records : (i + 1) * records] for i in range(calls)]


def timed(source_sheet, destination_sheet, records, calls, source, background, result):
    from_type, to_type, convert = conversion(source_sheet.decode(), destination_sheet.decode())
    pairs = list(zip(at(source, from_type, records, calls), at(background, to_type, records, calls)))
    results = []
    start = time.thread_time_ns()
    for one, behind in pairs:
        results.append(convert(one, behind))
    spent = time.thread_time_ns() - start
    for i, done in enumerate(results):
        ctypes.memmove(result + i * records * to_type.itemsize, done.ctypes.data, done.nbytes)
    return spent


@ROUND
def one_round(*arguments):
    try:
        return timed(*arguments)
    except Exception:
        traceback.print_exc()
        return -1


if __name__ == "__main__":
    library = ctypes.CDLL(sys.argv[1])
    library.bench.argtypes = (ctypes.c_int, ctypes.c_char_p, ROUND)
    sys.exit(library.bench(int(sys.argv[2]) if len(sys.argv) > 2 else 0, sys.argv[3].encode() if len(sys.argv) > 3 else b"", one_round))
