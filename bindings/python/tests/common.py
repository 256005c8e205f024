"""Sheets that several tests use, and random ones."""

import random

BYTE = "int\t1\tLE\t0\t8\tzero\tzero\tunsigned\n"
SIGNED = "int\t1\tLE\t0\t8\tzero\tzero\tsigned\n"
PAIR = "int\t2\tBE\t0\t16\tzero\tzero\tunsigned\n"
BITS = "bits\t1\tLE\t0\t8\tzero\tzero\n"
REAL = "real\t8\tBE\n"

RIG = """\
int\t2\tBE\t4\t12\tzero\tzero\tunsigned
int\t1\tLE\t0\t8\tzero\tzero\tsigned
enum\t1
value\topen\t0
value\tshut\t1
array\t0\t3
comp\t8
member\tboost\t0\t3
member\tvalve\t7\t2
"""

CUSTOMER = """\
int\t2\tLE\t0\t16\tzero\tzero\tunsigned
int\t1\tLE\t0\t8\tzero\tzero\tunsigned
enum\t1
value\tshut\t0
value\topen\t1
array\t0\t3
comp\t7
member\tvalve\t0\t2
member\tboost\t1\t3
"""


def wordless(sheet: str) -> str:
    """A sheet whose members have no words."""
    return sheet.replace("\tclamp\n", "\n").replace("\tstop\n", "\n")


def random_sheet(rng: random.Random) -> str:
    """A sheet without a fault, most often with a compound at its end. Some members have words."""
    lines, sizes, ints = [], [], []

    def add(line, size):
        lines.append(line)
        sizes.append(size)

    def atomic():
        size = rng.choice((1, 1, 2, 2, 3, 4, 8))
        precision = rng.randint(1, 8 * size)
        offset = rng.randint(0, 8 * size - precision)
        fields = [size, rng.choice(("LE", "BE")), offset, precision, *rng.choices(("zero", "one", "keep"), k=2)]
        if rng.random() < 0.3:
            add("\t".join(map(str, ("bits", *fields))), size)
        else:
            sign = rng.choice(("signed", "unsigned"))
            least = -(1 << precision - 1) if sign == "signed" else 0
            ints.append((len(sizes), least, least + (1 << precision) - 1))
            add("\t".join(map(str, ("int", *fields, sign))), size)

    def real():
        add(f"real\t8\t{rng.choice(('LE', 'BE'))}", 8)

    def enum():
        base, least, most = rng.choice(ints)
        add(f"enum\t{base}", sizes[base])
        numbers = {rng.choice((least, most, rng.randint(least, most))) for _ in range(rng.randint(0, 4))}
        for name, number in zip(rng.sample("abcdef", len(numbers)), sorted(numbers)):
            lines.append(f"value\t{name}\t{number}")

    def array():
        base = rng.randrange(len(sizes))
        dimensions = [rng.randint(1, 3) for _ in range(rng.randint(1, 4))]
        size = sizes[base]
        for dimension in dimensions:
            size *= dimension
        if size <= 300:
            add("\t".join(map(str, ("array", base, *dimensions))), size)

    def comp():
        members, at = [], 0
        for name in rng.sample("abcdef", rng.randint(0, 5)):
            at += rng.randint(0, 2)
            base = rng.randrange(len(sizes))
            members.append(f"member\t{name}\t{at}\t{base}" + rng.choice(("", "", "\tclamp", "\tstop")))
            at += sizes[base]
        if at <= 1000:
            add(f"comp\t{max(1, at + rng.randint(0, 3))}", max(1, at))
            sizes[-1] = int(lines[-1].split("\t")[1])
            rng.shuffle(members)
            lines.extend(members)

    atomic()
    for _ in range(rng.randint(0, 6)):
        kind = rng.choice((atomic, atomic, real, enum, enum, array, array, comp, comp))
        if kind is not enum or ints:
            kind()
    if rng.random() < 0.8:
        comp()
    return "".join(line + "\n" for line in lines)


def spoiled(rng: random.Random, sheet: str) -> bytes:
    """A sheet with a few changes, most often faulty."""
    data = bytearray(sheet.encode())
    for _ in range(rng.randint(1, 3)):
        at = rng.randrange(len(data)) if data else 0
        how = rng.randrange(5)
        if how == 0:
            data[at : at + 1] = b""
        elif how == 1:
            data[at:at] = rng.choice((b"\t", b"\n", b"0", b"9", b"-", b" ", b"\r", b"x", b"\xff"))
        elif how == 2:
            data[at : at + 1] = rng.choice((b"\t", b"\n", b"0", b"1", b"7", b"-", b"a"))
        else:
            lines = data.split(b"\n")
            line = rng.randrange(len(lines))
            if how == 3:
                fields = lines[line].split(b"\t")
                words = (b"", b"0", b"1", b"8", b"9", b"64", b"65", b"4096", b"4097", b"4294967296", b"-1", b"-0", b"LE", b"keep", b"a" * 32)
                words += (b"clamp", b"stop", b"stops")
                at = rng.randrange(len(fields) + 1)
                fields[at : at + 1] = [rng.choice(words)]
                lines[line] = b"\t".join(fields)
            else:
                lines.insert(rng.randrange(len(lines)), lines[line])
            data = bytearray(b"\n".join(lines))
    return bytes(data)
