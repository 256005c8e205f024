"""What a faulty line, a missing path and a stopped leaf are explained with. The library is asked first: only its line is explained."""

import random
import unittest
from unittest import mock

import yirvagul
from common import BITS, BYTE, CUSTOMER, PAIR, REAL, RIG, SIGNED, random_sheet, spoiled
from yirvagul import Handling, Number, Refusal, record_size, sheets

ENUM = BYTE + "enum\t0\n"
COMP = PAIR + "comp\t8\n"


def refused(sheet):
    try:
        record_size(sheet)
    except Refusal as refusal:
        return refusal
    return None


# Each rule of document 01's "Layout sheets" and of its decided points: a sheet, its faulty line, and what is said of it.
RULES = {
    "too long": ("x" * 16385, 0, "it is longer than 16,384 bytes: shorten it"),
    "empty sheet": ("", 1, "the sheet is empty: it has at least one line with a type"),
    "no line end": (BYTE[:-1], 1, "it is the last line and has no line end: end it with byte 10"),
    "no line end, later": (BYTE + "comp\t1", 2, "it is the last line and has no line end: end it with byte 10"),
    "empty line": (BYTE + "\n", 2, "it is empty: leave it out"),
    "carriage return": ("comp\t4\r\n", 1, "it ends in a carriage return, byte 13: end lines with byte 10 alone"),
    "another word": ("time\t8\tLE\n", 1, "it starts with `time`: a line starts with one of int, bits, real, enum, value, comp, member, array"),
    "another case": ("Comp\t4\n", 1, "it starts with `Comp`: write comp"),
    "a tab first": ("\tcomp\t4\n", 1, "it starts with a tab: a line starts with one of int, bits, real, enum, value, comp, member, array"),
    "blanks for tabs": ("comp 4\n", 1, "its fields are parted by blanks: part them by one tab"),
    "a tab last": ("comp\t4\t\n", 1, "it ends in a tab: write the field that is missing, or leave the tab out"),
    "an empty field last": (ENUM + "value\ta\t\n", 3, "it ends in a tab: write the field that is missing, or leave the tab out"),
    "fields of int": (
        "int\t1\tLE\t0\t8\tzero\tzero\n",
        1,
        "it has 7 fields, and int has 8, parted by one tab: int, size, order, offset, precision, lsb, msb, sign",
    ),
    "fields of bits": (
        "bits\t1\tLE\t0\t8\tzero\tzero\tunsigned\n",
        1,
        "it has 8 fields, and bits has 7, parted by one tab: bits, size, order, offset, precision, lsb, msb",
    ),
    "fields of enum": (BYTE + "enum\n", 2, "it has 1 field, and enum has 2, parted by one tab: enum, base"),
    "fields of value": (ENUM + "value\ta\n", 3, "it has 2 fields, and value has 3, parted by one tab: value, name, number"),
    "fields of comp": ("comp\t4\t4\n", 1, "it has 3 fields, and comp has 2, parted by one tab: comp, size"),
    "fields of member": (
        COMP + "member\ta\t0\n",
        3,
        "it has 3 fields, and member has 4 or 5, parted by one tab: member, name, byte offset, type, word (clamp or stop, or left out)",
    ),
    "a field behind a word": (
        COMP + "member\ta\t0\t0\tclamp\tstop\n",
        3,
        "it has 6 fields, and member has 4 or 5, parted by one tab: member, name, byte offset, type, word (clamp or stop, or left out)",
    ),
    "another word of a member": (COMP + "member\ta\t0\t0\tstops\n", 3, "its last field is `stops`: write clamp or stop, or leave it out"),
    "a word in another case": (COMP + "member\ta\t0\t0\tClamp\n", 3, "its last field is `Clamp`: write clamp or stop, or leave it out"),
    "a blank behind a word": (COMP + "member\ta\t0\t0\tstop \n", 3, "its last field is `stop `: write clamp or stop, or leave it out"),
    "an empty word": (COMP + "member\ta\t0\t0\t\n", 3, "it ends in a tab: write the field that is missing, or leave the tab out"),
    "a tab behind a word": (COMP + "member\ta\t0\t0\tstop\t\n", 3, "it ends in a tab: write the field that is missing, or leave the tab out"),
    "a word of a compound": ("comp\t4\tclamp\n", 1, "it has 3 fields, and comp has 2, parted by one tab: comp, size"),
    "no base": ("array\n", 1, "it has no dimension: an array has a base and one to four dimensions"),
    "no dimension": (BYTE + "array\t0\n", 2, "it has no dimension: an array has a base and one to four dimensions"),
    "five dimensions": (
        BYTE + "array\t0\t1\t1\t1\t1\t1\n",
        2,
        "it has 5 dimensions: an array has a base and one to four dimensions",
    ),
    # numbers
    "empty number": ("int\t\tLE\t0\t8\tzero\tzero\tsigned\n", 1, "its size is empty: write a decimal number"),
    "two tabs": ("int\t1\t\tLE\t0\t8\tzero\tzero\tsigned\n", 1, "it has 9 fields, and int has 8, parted by one tab: "
                 "int, size, order, offset, precision, lsb, msb, sign"),
    "leading zero": ("comp\t01\n", 1, "its size is `01`: leave leading zeros out"),
    "plus": ("comp\t+1\n", 1, "its size is `+1`: leave the plus out"),
    "minus": ("comp\t-1\n", 1, "its size is `-1`: only an enum's number may have a minus"),
    "blank in a number": ("comp\t4 \n", 1, "its size is `4 `: leave the blank out"),
    "no number": ("comp\tfour\n", 1, "its size is `four`: write a decimal number"),
    "no ASCII digit": ("comp\t\u0664\n", 1, "its size is `\\xd9\\xa4`: write a decimal number"),
    "above 32 bits": ("comp\t4294967297\n", 1, "its size is `4294967297`: a number is at most 4,294,967,295"),
    "far above 32 bits": ("comp\t" + "9" * 5000 + "\n", 1, f"its size is `{'9' * 80}..`: a number is at most 4,294,967,295"),
    "minus alone": (ENUM + "value\ta\t-\n", 3, "its number is `-`: write a decimal number behind the minus"),
    "minus zero": (ENUM + "value\ta\t-0\n", 3, "its number is `-0`: write 0"),
    "minus and leading zero": (ENUM + "value\ta\t-00\n", 3, "its number is `-00`: leave leading zeros out"),
    # names
    "empty name": (ENUM + "value\t\t1\n", 3, "its name is empty: a name has 1 to 31 bytes"),
    "long name": (
        COMP + f"member\t{'a' * 32}\t0\t0\n",
        3,
        f"its name, `{'a' * 32}`, has 32 bytes: a name has 1 to 31",
    ),
    "blank in a name": (
        COMP + "member\toil temp\t0\t0\n",
        3,
        "its name, `oil temp`, has byte 32: a name's bytes are 33 to 126, with no blank",
    ),
    "no ASCII name": (
        ENUM + "value\t\u00e9\t0\n",
        3,
        "its name, `\\xc3\\xa9`, has byte 195: a name's bytes are 33 to 126, with no blank",
    ),
    # int and bits
    "size of int": ("int\t9\tLE\t0\t8\tzero\tzero\tsigned\n", 1, "its size is 9 bytes: 1 to 8 are allowed"),
    "size of bits": ("bits\t0\tLE\t0\t8\tzero\tzero\n", 1, "its size is 0 bytes: 1 to 8 are allowed"),
    "order": ("bits\t1\tle\t0\t8\tzero\tzero\n", 1, "its order is `le`: write LE or BE"),
    "precision 0": ("bits\t1\tLE\t0\t0\tzero\tzero\n", 1, "its precision is 0 bits: 1 to 64 are allowed"),
    "precision 65": ("bits\t8\tLE\t0\t65\tzero\tzero\n", 1, "its precision is 65 bits: 1 to 64 are allowed"),
    "offset": (
        "bits\t2\tLE\t5\t12\tzero\tzero\n",
        1,
        "its offset 5 and precision 12 need 17 bits, and its size has 16: enlarge the size, or move or narrow the number",
    ),
    "lsb": ("bits\t1\tLE\t0\t8\tnone\tzero\n", 1, "its lsb pad is `none`: write zero or one or keep"),
    "msb": ("bits\t1\tLE\t0\t8\tzero\tOne\n", 1, "its msb pad is `One`: write zero or one or keep"),
    "sign": ("int\t1\tLE\t0\t8\tzero\tzero\tplain\n", 1, "its sign is `plain`: write signed or unsigned"),
    # reals
    "fields of real": ("real\t8\n", 1, "it has 2 fields, and real has 3, parted by one tab: real, size, order"),
    "a layout's fields of real": (
        "real\t8\tLE\t0\t64\tzero\tzero\n",
        1,
        "it has 7 fields, and real has 3, parted by one tab: real, size, order",
    ),
    "size of real": ("real\t4\tLE\n", 1, "its size is 4 bytes: a real has 8"),
    "size 1 of real": ("real\t1\tLE\n", 1, "its size is 1 byte: a real has 8"),
    "leading zero of real": ("real\t08\tLE\n", 1, "its size is `08`: leave leading zeros out"),
    "order of real": ("real\t8\tle\n", 1, "its order is `le`: write LE or BE"),
    "real in another case": ("Real\t8\tLE\n", 1, "it starts with `Real`: write real"),
    "base is a real": (REAL + "enum\t0\n", 2, "its base, type 0, is a real: an enum's base is an int"),
    "value after a real": (REAL + "value\ta\t0\n", 2, "value follows an enum or another value of it, and the type before it is a real"),
    "array of reals": (REAL + "array\t0\t513\n", 2, "it has 4,104 bytes: an array has at most 4,096"),
    # enums
    "no base before": ("enum\t0\n", 1, "its base is type 0, and before the type that uses it there is none"),
    "base too late": (BYTE + "enum\t1\n", 2, "its base is type 1, and before the type that uses it there is only type 0"),
    "base is bits": (BITS + "enum\t0\n", 2, "its base, type 0, is a bits: an enum's base is an int"),
    "base is an enum": (ENUM + "enum\t1\n", 3, "its base, type 1, is an enum: an enum's base is an int"),
    "base is a compound": ("comp\t1\nenum\t0\n", 2, "its base, type 0, is a compound: an enum's base is an int"),
    "base is an array": (BYTE + "array\t0\t1\nenum\t1\n", 3, "its base, type 1, is an array: an enum's base is an int"),
    "value first": ("value\ta\t0\n", 1, "value follows an enum or another value of it, and no type is before it"),
    "value after a comp": (COMP + "value\ta\t0\n", 3, "value follows an enum or another value of it, and the type before it is a compound"),
    "value above": (ENUM + "value\ta\t256\n", 3, "its number, `256`, is outside the base's range, 0 to 255"),
    "value below": (ENUM + "value\ta\t-1\n", 3, "its number, `-1`, is outside the base's range, 0 to 255"),
    "value far above": (ENUM + f"value\ta\t{'9' * 30}\n", 3, f"its number, `{'9' * 30}`, is outside the base's range, 0 to 255"),
    "value far below": (
        SIGNED + f"enum\t0\nvalue\ta\t-{'9' * 30}\n",
        3,
        f"its number, `-{'9' * 30}`, is outside the base's range, -128 to 127",
    ),
    "value's name": (ENUM + "value\ta\t0\nvalue\ta\t1\n", 4, "its name, a, is taken: names in one enum or compound are unique"),
    "value's number": (ENUM + "value\ta\t0\nvalue\tb\t0\n", 4, "its number, 0, is that of a: numbers in one enum are unique"),
    # compounds
    "compound of nothing": ("comp\t0\n", 1, "its size is 0 bytes: a compound has 1 to 4,096"),
    "large compound": ("comp\t4097\n", 1, "its size is 4,097 bytes: a compound has 1 to 4,096"),
    "member first": ("member\ta\t0\t0\n", 1, "member follows a comp or another member of it, and no type is before it"),
    "member after an int": (BYTE + "member\ta\t0\t0\n", 2, "member follows a comp or another member of it, and the type before it is an int"),
    "member after bits": (BITS + "member\ta\t0\t0\n", 2, "member follows a comp or another member of it, and the type before it is a bits"),
    "member's type too late": (COMP + "member\ta\t0\t1\n", 3, "its type is type 1, and before the type that uses it there is only type 0"),
    "member's type, of three": (
        BYTE + PAIR + "comp\t8\nmember\ta\t0\t2\n",
        4,
        "its type is type 2, and before the type that uses it there are types 0 to 1",
    ),
    "member outside": (
        COMP + "member\ta\t7\t0\n",
        3,
        "its bytes, 7 to 8, end behind the compound, which has 8 bytes, from byte 0",
    ),
    "member far outside": (
        BYTE + "comp\t1\nmember\ta\t4294967295\t0\n",
        3,
        "its bytes, 4,294,967,295 to 4,294,967,295, end behind the compound, which has 1 byte, from byte 0",
    ),
    "members overlap": (
        COMP + "member\ta\t2\t0\nmember\tb\t1\t0\n",
        4,
        "its bytes, 1 to 2, overlap those of a, 2 to 3",
    ),
    "member's name": (COMP + "member\ta\t0\t0\nmember\ta\t2\t0\n", 4, "its name, a, is taken: names in one enum or compound are unique"),
    # arrays
    "array's base": ("array\t0\t1\n", 1, "its base is type 0, and before the type that uses it there is none"),
    "dimension 0": (BYTE + "array\t0\t2\t0\n", 2, "its dimension 2 is 0: each is at least 1"),
    "dimension": (BYTE + "array\t0\t2\tx\n", 2, "its dimension 2 is `x`: write a decimal number"),
    "large array": (PAIR + "array\t0\t64\t33\n", 2, "it has 4,224 bytes: an array has at most 4,096"),
    "large product": (
        BYTE + "array\t0\t65536\t65536\t65536\t65536\n",
        2,
        "it has 18,446,744,073,709,551,616 bytes: an array has at most 4,096",
    ),
    # how many
    "65 types": (BYTE * 65, 65, "it is the 65th type: a sheet has at most 64"),
    "257 rows": (
        PAIR + "enum\t0\n" + "".join(f"value\ta{i}\t{i}\n" for i in range(257)),
        259,
        "it is the 257th value or member: a sheet has at most 256",
    ),
}


class Rules(unittest.TestCase):
    def test_each_rule_is_explained(self):
        for name, (sheet, line, rule) in RULES.items():
            with self.subTest(name):
                refusal = refused(sheet)
                self.assertEqual((refusal.number, refusal.line, refusal.rule), (Number.SOURCE, line, rule))
                self.assertTrue(str(refusal).startswith("SOURCE (3): "), refusal)
                self.assertIn(rule, str(refusal))

    def test_a_fault_by_itself(self):
        with self.assertRaises(sheets.Fault) as caught:
            sheets.read("comp\t0\n")
        self.assertEqual(str(caught.exception), "line 1: its size is 0 bytes: a compound has 1 to 4,096")

    def test_sheets_at_the_limits(self):
        self.assertEqual(record_size(BYTE * 64), 1)
        self.assertEqual(record_size(PAIR + "enum\t0\n" + "".join(f"value\ta{i}\t{i}\n" for i in range(256))), 2)
        for sheet in ("comp\t4096\n", BYTE + "array\t0\t4096\n", BYTE + "array\t0\t1\t2\t3\t4\n", ENUM, "comp\t1\n", REAL + "array\t0\t512\n"):
            self.assertEqual(sheets.read(sheet).size, record_size(sheet))

    def test_source_and_destination_are_told_apart(self):
        bad = "comp\t0\n"
        for number, source, destination, name in (
            (Number.SOURCE, bad, BYTE, "source sheet"),
            (Number.DESTINATION, BYTE, bad, "destination sheet"),
        ):
            with self.assertRaises(Refusal) as caught:
                yirvagul.convert_copying(source, destination, 1, Handling.STOP, b"\0", bytearray(1))
            self.assertEqual(caught.exception.number, number)
            self.assertEqual(
                str(caught.exception),
                f"{number.name} ({number}): line 1 of the {name} is faulty, `comp\\t0`: its size is 0 bytes: a compound has 1 to 4,096",
            )

    def test_of_a_line_that_only_the_library_faults_the_text_is_shown(self):
        with mock.patch.object(sheets, "read", side_effect=sheets.Fault(1, "another line is faulty")):
            refusal = refused(BYTE + "real\t4\n")
        self.assertEqual((refusal.line, refusal.text, refusal.rule), (2, "real\t4", None))
        self.assertEqual(
            str(refusal),
            "SOURCE (3): line 2 of the sheet is faulty, `real\\t4`: correct it by the rules of sheets and the lines before it",
        )


    def test_words(self):
        """They are the members' own."""
        sheet = PAIR + "comp\t8\nmember\ta\t0\t0\tclamp\nmember\tb\t2\t0\nmember\tstop\t4\t0\tstop\n"
        self.assertEqual([(member.name, member.word) for member in sheets.read(sheet).members], [("a", "clamp"), ("b", None), ("stop", "stop")])
        self.assertEqual(record_size(sheet), 8)


class Reading(unittest.TestCase):
    """The reading in Python beside the library's, on random sheets."""

    def test_same_first_faulty_line_or_size(self):
        rng, faulty, sound = random.Random(1), 0, 0
        for _ in range(1500):
            good = random_sheet(rng)
            self.assertEqual(sheets.read(good).size, record_size(good))
            sheet = spoiled(rng, good)
            try:
                found = 0, sheets.read(sheet).size
                sound += 1
            except sheets.Fault as fault:
                found = fault.line, fault.rule
                faulty += 1
            refusal = refused(sheet)
            answer = (0, record_size(sheet)) if refusal is None else (refusal.line, refusal.rule)
            self.assertEqual(found, answer, sheet)
        self.assertGreater(faulty, 500)
        self.assertGreater(sound, 50)

    def test_same_paths(self):
        rng, none = random.Random(2), 0
        for _ in range(1500):
            source, destination = random_sheet(rng), random_sheet(rng)
            if rng.random() < 0.5:
                destination = source.replace("array\t0\t2", "array\t0\t3").replace("member\ta", "member\tb", 1)
            found = None
            try:
                found = sheets.no_path(sheets.read(source), sheets.read(destination))
                yirvagul.convert_copying(source, destination, 0, Handling.STOP, b"", bytearray())
                self.assertIsNone(found)
            except sheets.Fault:
                continue
            except Refusal as refusal:
                if refusal.number == Number.SYMBOLS:
                    self.assertIsNone(found)
                    continue
                self.assertEqual(refusal.number, Number.PATH)
                self.assertIsNotNone(found, (source, destination))
                self.assertEqual((refusal.member, refusal.rule), found)
                none += 1
        self.assertGreater(none, 300)

    def test_same_symbols(self):
        """Names of symbols dropped, renamed or left, where there is a path."""
        rng, lost, kept = random.Random(4), 0, 0
        for _ in range(1500):
            source = random_sheet(rng)
            if "value" not in source:
                continue
            lines = source.splitlines(keepends=True)
            values = [at for at, line in enumerate(lines) if line.startswith("value")]
            for at in rng.sample(values, rng.randint(0, min(2, len(values)))):
                lines[at] = rng.choice(("", lines[at].replace("\t", "\tnew", 1)))
            destination = "".join(lines)
            types = sheets.read(source), sheets.read(destination)
            found = sheets.lost_symbol(*types)
            try:
                yirvagul.convert_copying(source, destination, 0, Handling.STOP, b"", bytearray())
                self.assertIsNone(found)
                kept += 1
            except Refusal as refusal:
                self.assertEqual(refusal.number, Number.SYMBOLS)
                self.assertEqual((refusal.member, refusal.symbol), found)
                lost += 1
        self.assertGreater(lost, 100)
        self.assertGreater(kept, 100)

    def test_each_leaf_has_a_name_of_its_own(self):
        rng = random.Random(3)
        for _ in range(200):
            sheet = random_sheet(rng)
            type_ = sheets.read(sheet)
            if not isinstance(type_, (sheets.Compound, sheets.Array)):
                continue
            places = [int(line.split("\t")[0]) for line in yirvagul.leaf_list(sheet).splitlines()[1:]]
            names = [sheets.leaf_name(type_, at) for at in places]
            self.assertNotIn(None, names)
            self.assertEqual(len(set(names)), len(places))


class Names(unittest.TestCase):
    def test_leaves(self):
        rig = sheets.read(RIG)
        self.assertEqual([sheets.leaf_name(rig, at) for at in (0, 2, 4, 7)], ["boost[0]", "boost[1]", "boost[2]", "valve"])
        self.assertEqual([sheets.leaf_name(rig, at) for at in (1, 6)], [None, None])
        self.assertIsNone(sheets.leaf_name(sheets.read(BYTE), 0))
        nested = sheets.read(PAIR + "array\t0\t2\t3\ncomp\t14\nmember\tmap\t2\t1\narray\t2\t4\ncomp\t60\nmember\truns\t1\t3\n")
        self.assertEqual(sheets.leaf_name(nested, 1 + 14 * 3 + 2 + 2 * 5), "runs[3].map[1][2]")

    def test_the_place_without_a_path(self):
        def found(source, destination):
            return sheets.no_path(sheets.read(source), sheets.read(destination))

        self.assertIsNone(found(RIG, CUSTOMER))
        self.assertEqual(found(BYTE, BITS), (None, "the source has an int, the destination a bits: give both the same class"))
        source, destination = CUSTOMER.replace("array\t0\t3", "array\t0\t4").replace("comp\t7", "comp\t9"), RIG
        self.assertEqual(
            found(source, destination),
            ("boost", "the source has an array of 4, the destination one of 3: give both the same dimensions"),
        )
        map_of = "int\t1\tLE\t0\t8\tzero\tzero\tunsigned\narray\t0\t{}\ncomp\t12\nmember\tmap\t0\t1\n".format
        self.assertEqual(
            found(map_of("2\t6"), map_of("3\t4")),
            ("map", "the source has an array of 2 by 6, the destination one of 3 by 4: give both the same dimensions"),
        )
        self.assertEqual(
            found(map_of("12"), map_of("12\t1")),
            ("map", "the source has an array of 12, the destination one of 12 by 1: give both the same dimensions"),
        )
        self.assertIsNone(found(map_of("2\t6"), map_of("2\t6")))
        runs = "comp\t1\nmember\ta\t0\t0\narray\t1\t2\ncomp\t2\nmember\truns\t0\t2\n"
        self.assertEqual(
            found(BYTE + runs, BITS + runs),
            ("runs[].a", "the source has an int, the destination a bits: give both the same class"),
        )

    def test_the_symbol_that_a_destination_lacks(self):
        def found(source, destination):
            return sheets.lost_symbol(sheets.read(source), sheets.read(destination))

        def states(*symbols):
            return BYTE + "enum\t0\n" + "".join(f"value\t{symbol}\t{number}\n" for number, symbol in enumerate(symbols))

        self.assertIsNone(found(RIG, CUSTOMER))
        self.assertEqual(found(RIG, CUSTOMER.replace("shut", "Shut")), ("valve", "shut"))
        # the record itself; the first by the source's values; sets in another order
        self.assertEqual(found(states("open", "ajar", "shut"), states("open")), (None, "ajar"))
        self.assertIsNone(found(states("open", "shut"), states("shut", "ajar", "open")))
        # an enum without values
        self.assertIsNone(found(states(), states()))
        self.assertIsNone(found(states(), states("open")))
        self.assertEqual(found(states("open"), states()), (None, "open"))
        # two members lose one: the first by the destination's bytes, not by its lines
        two = states("open", "shut") + "comp\t2\nmember\tvalve\t0\t1\nmember\tpump\t1\t1\n"
        other = states("open") + "enum\t0\nvalue\tshut\t0\ncomp\t3\nmember\tvalve\t2\t1\nmember\tpump\t1\t2\n"
        self.assertEqual(found(two, other), ("pump", "open"))
        self.assertEqual(found(two, other.replace("valve\t2", "valve\t0")), ("valve", "shut"))
        # nested, and in arrays
        nested = "array\t1\t2\t3\ncomp\t7\nmember\tstate\t6\t0\nmember\tvalves\t0\t2\n"
        nested += "array\t3\t4\ncomp\t28\nmember\tengine\t0\t4\n"
        self.assertEqual(found(states("open", "shut") + nested, states("open") + nested), ("engine[].valves[]", "shut"))
        # the enums of members that one sheet alone has
        old, new = "comp\t2\nmember\told\t0\t1\nmember\tboost\t1\t0\n", "comp\t2\nmember\tboost\t0\t0\nmember\tnew\t1\t1\n"
        self.assertIsNone(found(states("open", "shut") + old, states("open") + new))


if __name__ == "__main__":
    unittest.main()
