"""Holds the pages against the repository and the library: what a page shows is what is there, and what it claims is run.

    PYTHONPATH=bindings/python python3 docs/check.py [PAGE..]

Says what is not so, and ends with status 1 then. It wants the archive, the Python package's shared object and the command line built.
"""

import itertools
import os
import pathlib
import re
import shlex
import shutil
import subprocess
import sys
import tempfile

from yirvagul import (
    LIST_BYTES,
    MASK_BYTES,
    SMALL_STACK_BYTES,
    STACK_BYTES,
    Class,
    Handling,
    Layout,
    Order,
    Pad,
    Refusal,
    Report,
    Sign,
    compare,
    convert_copying,
    convert_in_place,
    leaf_list,
    reach,
    record_size,
)

ROOT = pathlib.Path(__file__).resolve().parents[1]
PAGES = ["README.md", "CHANGELOG.md", "bindings/README.md", "bindings/python/README.md", "tests/README.md"]
PAGES += sorted(str(path.relative_to(ROOT)) for path in (ROOT / "docs").glob("**/*.md"))

faults = []


def read(path):
    return (ROOT / path).read_text()


def expect(holds, page, what):
    if not holds:
        faults.append(f"{page}: {what}")


# ---- a page's parts


def blocks(text, language=""):
    """The fenced blocks of a language, or all."""
    return [body for found, body in re.findall(r"^```(\w*)\n(.*?)^```$", text, re.M | re.S) if language in ("", found)]


def prose(text):
    """The page without its fenced and indented blocks."""
    return re.sub(r"(?<=\n\n)(?:    .*\n)+", "", re.sub(r"^```.*?^```$", "", text, flags=re.M | re.S))


def spans(text):
    return re.findall(r"`([^`]+)`", text)


def tables(text, header):
    """The rows of each table with this header, as lists of cells, beside the fenced block that stands right before the table, if one does."""
    found = []
    for before, body in re.findall(rf"(^```\n\n)?^{re.escape(header)}\n\|[-|]+\|\n((?:\|[^\n]*\n)+)", text, re.M):
        block = blocks(text[: text.index(body)])[-1] if before else ""
        found.append((block, [[cell.strip() for cell in line[1:-1].split("|")] for line in body.splitlines()]))
    return found


def rows(page, text, header):
    found = [row for _, part in tables(text, header) for row in part]
    expect(found, page, f"no table {header}")
    return found


# ---- every page


def slug(heading):
    return re.sub(r"[^\w\- ]", "", heading.lower()).replace(" ", "-")


def anchors(text):
    return {slug(heading) for heading in re.findall(r"^#+ (.*)$", text, re.M)}


def check_links(page, text):
    for target in re.findall(r"\]\(([^)\s]+)\)", prose(text)):
        path, _, anchor = target.partition("#")
        if "://" in target:
            continue
        file = (ROOT / page).parent / path if path else ROOT / page
        expect(file.exists(), page, f"links to {target}, which is not there")
        if anchor and file.exists():
            expect(anchor in anchors(file.read_text()), page, f"links to {target}: no such heading")


FOLDERS = ("crates", "docs", "bindings", "include", "cli", "tests", "bench", "examples", ".ci")


def check_paths(page, text):
    """A path in the text is there; a file without a folder stands beside the last path; "`name` in `path`" says true."""
    folder = ROOT
    for path in spans(prose(text)):
        if re.fullmatch(rf"(?:{'|'.join(map(re.escape, FOLDERS))})/[\w./-]+", path) and "NAME" not in path:
            expect((ROOT / path).exists(), page, f"names {path}, which is not there")
            folder = ROOT / path if (ROOT / path).is_dir() else (ROOT / path).parent
        elif page == "docs/ARCHITECTURE.md" and re.fullmatch(r"\w+\.(antt|rs|py)", path):
            expect((folder / path).exists(), page, f"names {path} beside {folder.relative_to(ROOT)}, where it is not")
    for names, path in re.findall(r"((?:`[\w-]+`(?:,|\s|and)*)+)in\s+`(crates/[\w./]+)`", prose(text)):
        file = ROOT / path
        words = re.findall(r"[\w-]+", file.read_text()) if file.is_file() else []
        for name in spans(names):
            expect(name in words, page, f"says that {name} is in {path}")


def check_commands(page, text):
    """The commands of a console block print what stands below each, in a folder with the examples."""
    for block in blocks(text, "console"):
        with tempfile.TemporaryDirectory() as folder:
            shutil.copytree(ROOT / "examples", f"{folder}/examples")
            for command, wanted in re.findall(r"^\$ (.*)\n((?:(?!\$ ).*\n)*)", block, re.M):
                expect(run(command, folder) == wanted, page, f"`{command}` prints something else")


def run(command, folder):
    path = f"{ROOT}/target/cli/release:{os.environ['PATH']}"
    done = subprocess.run(["bash", "-c", command], cwd=folder, env={**os.environ, "PATH": path}, stdout=subprocess.PIPE, stderr=subprocess.STDOUT, text=True)
    return done.stdout


def check_shown(page, text, *files):
    for file in files:
        expect(read(file) in blocks(text), page, f"does not show {file} as it is")


# ---- sheets and bytes as pages write them


def sheet(cell):
    """The lines of a cell: ⇥ is a tab, ␍ byte 13, ␊ an empty line."""
    return "".join(span.replace("⇥", "\t").replace("␍", "\r").replace("␊", "") + "\n" for span in spans(cell))


def data(cell):
    return bytes.fromhex(" ".join(spans(cell)))


def number(cell):
    return int(cell.replace("−", "-"))


def refusal(call, *arguments):
    try:
        call(*arguments)
    except Refusal as refused:
        return refused
    return None


def is_fine(text):
    return refusal(record_size, text) is None


def is_faulty(text, line):
    refused = refusal(record_size, text)
    return refused is not None and (refused.name, refused.line) == ("SOURCE", line)


# ---- README.md


def check_readme(page, text):
    five = blocks(text, "text")[0]
    expect(len(five.splitlines()) == 5, page, "the sheet has not five lines")
    expect(record_size(five) == 4 and leaf_list(five) == "at\tsize\tclass\n0\t2\tint\n3\t1\tint\n", page, "the sheet is not as its legend says")
    with tempfile.TemporaryDirectory() as folder:  # the archive is there: nothing is proved again
        proves = pathlib.Path(folder) / "rt"
        proves.write_text(f"#!/bin/sh\n[ $1 != lib ] || {{ mkdir -p out && cp {shlex.quote(str(ROOT / 'target/staticlib/libcapi.a'))} out/libcapi_c.a; }}\n")
        proves.chmod(0o755)
        said = run(f"PATH={folder}:$PATH ./try", ROOT)
    expect(said in blocks(text, "text"), page, f"./try prints something else:\n{said}")


# ---- the lesson


def runs(page):
    """What the scripts print, in parts."""
    names = {"TEACHING": ["classroom"], "ANSWERS": ["answers"]}.get(pathlib.Path(page).stem, ["classroom", "answers"])
    return [part.rstrip("\n") + "\n" for name in names for part in read(f"bindings/python/{name}.txt").split("\n\n")]


def check_bytes(page, text):
    """Each string of bytes in the text stands in what a script printed."""
    said = re.sub(" +", " ", "\n".join(runs("all")))
    for span in spans(prose(text)):
        if re.fullmatch(r"[0-9a-f]{2}( [0-9a-f]{2})*", span):
            expect(re.search(rf"(?<![0-9a-f]){span}(?![0-9a-f])", said), page, f"{span} is in no run")


def check_teaching(page, text):
    check_bytes(page, text)
    check_shown(page, text, "examples/rig.sheet", "crates/list/stdin", "crates/list/stdout", "examples/oil.sheet", "examples/gauges.sheet")
    for part in runs(page):
        expect(part in blocks(text), page, f"does not show this part of the script's output:\n{part}")
    drawn = [command for command in re.findall(r"^\$ (yirvagul bits .*)$", text, re.M) if run(f"{command} --svg -", ROOT) == read("docs/bits.svg")]
    expect(drawn, page, "docs/bits.svg is not what its command draws")
    said = text.replace("\t", " ")
    explained = re.split(r"^### \d\. ", text, flags=re.M)[1:]
    errors = re.split(r"^\d\. ", read("bindings/python/classroom.txt"), flags=re.M)[1:]
    expect(len(explained) == len(errors) == 7, page, "not seven errors")
    for part, error in zip(explained, errors):
        title = error.split("\n")[0]
        expect(part.startswith(title + "\n"), page, f"does not explain {title}")
        for byte_string in itertools.chain(*re.findall(r"^(?:wrong|right): (.+) -> (.+)$", error, re.M)):
            expect(f"`{byte_string}`" in part, page, f"{title}: lacks {byte_string}")
    for line in re.findall(r'"((?:int|real|enum|value|array|comp|member) [^"{]+)"', read("bindings/python/classroom.py")):
        expect(line in said, page, f"lacks the line {line}")


def check_answers(page, text):
    check_bytes(page, text)
    questions = re.findall(r"^(\d+)\. ", read("docs/QUESTIONS.md"), re.M)
    answers = re.split(r"^## (\d+)\n", text, flags=re.M)[1:]
    expect(answers[::2] == questions, page, "other numbers than the questions have")
    for answer, part in itertools.zip_longest(answers[1::2], runs(page), fillvalue=""):
        expect([part] == blocks(answer), page, f"does not show this part of the script's output, and no other:\n{part}")


# ---- docs/SHEETS.md


def check_rules(page, text):
    found = tables(text, "| Rule | Right | Faulty |")
    expect(len(found) == 7, page, "not seven tables of rules")
    for before, part in found:
        for rule, right, faulty in part:
            expect(is_fine(before + sheet(right)), page, f"refused: {right}")
            text = before + sheet(faulty)
            expect(not spans(faulty) or is_faulty(text, text.count("\n")), page, f"not faulty at its last line: {faulty} ({rule})")


def check_places(page, text):
    for value, layout, over, wanted in rows(page, text, "| Number | Layout | Over | Bytes |"):
        wide = "int\t8\tLE\t0\t64\tzero\tzero\tsigned\n"
        backgrounds = [data(over)] if over else [bytes(len(data(wanted))), b"\xff" * len(data(wanted))]
        for background in backgrounds:
            out, back = bytearray(background), bytearray(8)
            convert_copying(wide, sheet(layout), 1, Handling.STOP, number(value).to_bytes(8, "little", signed=True), out)
            expect(out == data(wanted), page, f"{value} in {layout} is {out.hex(' ')}")
            convert_copying(sheet(layout), wide, 1, Handling.STOP, out, back)
            expect(int.from_bytes(back, "little", signed=True) == number(value), page, f"{wanted} in {layout} is another number than {value}")


def check_conversions(page, text):
    for source, destination, path in rows(page, text, "| From | To | Path |"):
        refused = refusal(convert_copying, sheet(source), sheet(destination), 0, Handling.STOP, b"", bytearray())
        expect((refused is None) == (path == "yes") and (refused is None or refused.name == "PATH"), page, f"path from {source} to {destination}: {refused}")
    for source, destination, lost in rows(page, text, "| From | To | Lost |"):
        refused = refusal(convert_copying, sheet(source), sheet(destination), 0, Handling.STOP, b"", bytearray())
        found = "none" if refused is None else (refused.name, refused.symbol)
        expect(found == ("none" if lost == "none" else ("SYMBOLS", spans(lost)[0])), page, f"symbols of {source} in {destination}: {refused}")
    for source, destination, given, wanted, kind in rows(page, text, "| From | To | Bytes | Become | Kind |"):
        out = bytearray(len(data(wanted)))
        stopped = refusal(convert_copying, sheet(source), sheet(destination), 1, Handling.STOP, data(given), out)
        expect((stopped.kind if stopped else "none") == (kind if kind == "none" else number(kind)), page, f"{given} from {source} to {destination}: {stopped}")
        count = convert_copying(sheet(source), sheet(destination), 1, Handling.CLAMP, data(given), out)
        expect(out == data(wanted) and count == (kind != "none"), page, f"{given} from {source} to {destination} gives {out.hex(' ')}, count {count}")
    for source, destination, handling, given, wanted in rows(page, text, "| From | To | Handling | Bytes | Gives |"):
        out = bytearray(record_size(sheet(destination)))
        try:
            count = convert_copying(sheet(source), sheet(destination), 1, Handling[handling.upper()], data(given), out)
            found = f"`{out.hex(' ')}`, {count} exception{'s' * (count != 1)}"
        except Refusal as refused:
            found = f"{refused.name} at byte {refused.at}"
        expect(found == wanted, page, f"{given} from {source} to {destination}, {handling}: {found}")
    for source, destination, given, wanted, words in rows(page, text, "| From | To | Bytes | Number | Words 6 and 7 |"):
        stopped = refusal(convert_copying, sheet(source), sheet(destination), 1, Handling.STOP, data(given), bytearray(8))
        named = stopped and (repr(stopped.given), stopped.answer[6:]) == (wanted.replace("−", "-"), tuple(int(word, 0) for word in words.split(", ")))
        expect(named, page, f"{given} from {source} to {destination}: {stopped}")
    for source, destination, mask in rows(page, text, "| From | To | Mask |"):
        expect(reach(sheet(source), sheet(destination)) == data(mask), page, f"the mask from {source} to {destination} is another one")
    for source, destination, given, wanted in rows(page, text, "| From | To | Buffer | After |"):
        buffer = bytearray(data(given))
        convert_in_place(sheet(source), sheet(destination), 2, Handling.STOP, buffer, bytes(2 * record_size(sheet(destination))))
        expect(buffer == data(wanted), page, f"in place {given} becomes {buffer.hex(' ')}")


def check_compared(page, text):
    for first, second, one, other, wanted in rows(page, text, "| First sheet | Second sheet | First | Second | Line |"):
        found = [row.line for row in compare(sheet(first), sheet(second), data(one), data(other))]
        expect(found == [line.replace("⇥", "\t") for line in spans(wanted)], page, f"{one} of {first} beside {other} of {second}: {found}")


def layout_of(cell):
    class_, size, order, offset, precision, lsb, msb, *sign = spans(cell)[0].split("⇥")
    pads = {"zero": Pad.ZERO, "one": Pad.ONE, "keep": Pad.KEEP}
    sign = Sign.SIGNED if sign == ["signed"] else Sign.UNSIGNED
    return Layout(Class[class_.upper()], int(size), Order[order], int(offset), int(precision), pads[lsb], pads[msb], sign)


def check_setters(page, text):
    words = {"LE": Order.LE, "BE": Order.BE, "zero": Pad.ZERO, "one": Pad.ONE, "keep": Pad.KEEP, "signed": Sign.SIGNED, "unsigned": Sign.UNSIGNED}
    for given, call, wanted in rows(page, text, "| Layout | Call | Gives |"):
        layout = layout_of(given)
        name, *arguments = spans(call)[0].split("⇥")
        refused = refusal(getattr(layout, f"set_{name}"), *(words[word] if word in words else int(word) for word in arguments))
        if wanted == "RANGE":
            expect(refused and refused.name == "RANGE" and layout == layout_of(given), page, f"{call} on {given} gives {layout}, {refused}")
        else:
            expect(not refused and layout == layout_of(wanted), page, f"{call} on {given} gives {layout}, {refused}")


def check_numbers(page, text):
    """The numbers and names of answers and kinds are the header's."""
    header = read("include/yirvagul.h")
    for heading in ("| No. | Name | Given exactly when | Fields | What to do |", "| Kind | Name | Raised when | Clamping writes |"):
        for row in rows(page, text, heading):
            expect(re.search(rf"\bYIRVAGUL_{row[1]} = {row[0]}\b", header), page, f"the header has not {row[1]} = {row[0]}")


WIDE = "int\t8\tLE\t0\t64\tzero\tzero\tunsigned\n"
BYTE = "int\t1\tLE\t0\t8\tzero\tzero\tunsigned\n"


def values(n):
    """A sheet of an enum with so many values."""
    return f"{WIDE}enum\t0\n" + "".join(f"value\t{i:031}\t{2**64 - 1 - i}\n" for i in range(n))


def padded(n):
    """A sheet of so many bytes, 256 values and types that nothing uses, without another fault than that it may be too long."""
    text = values(256)
    text += WIDE * ((n - len(text)) // len(WIDE) - 1)
    left = n - len(text)
    lines = -(-left // 10)
    return text + "".join(f"comp\t{'1' * ((left - 6 * lines + i) // lines)}\n" for i in range(lines))


def check_limits(page, text):
    """Each limit is kept where a run can tell, and is a constant of the interfaces where it cannot."""
    header = read("include/yirvagul.h")
    signed = WIDE.replace("unsigned", "signed")

    def constant(name):
        """The worth of a sum in the header."""
        return eval(re.search(rf"^#define YIRVAGUL_{name} (\([\d +*]+\))$", header, re.M)[1])

    def takes(n):
        return refusal(convert_copying, BYTE, BYTE, n, Handling.STOP, bytes(n), bytearray(n)) is None

    def reported(sheet, log=b""):
        """The refusal of a report, or of a log of its own sheet."""
        return refusal(lambda: Report(sheet).add(sheet, log))

    def refused_at(name, *cases):
        """Whether the first is fine, and the second is refused by that name."""
        return [refused and refused.name for refused in cases] == [None, name]

    def last(fine, faulty):
        """Whether one sheet is fine and the other faulty at its last line."""
        return is_fine(fine) and is_faulty(faulty, faulty.count("\n"))

    tests = {
        "a sheet": lambda n: is_fine(padded(n)) and is_faulty(padded(n + 1), 0),
        "types of a sheet": lambda n: last("comp\t1\n" * n, "comp\t1\n" * (n + 1)),
        "`value` and `member` lines of a sheet, together": lambda n: last(values(n), values(n + 1)),
        "a name": lambda n: last(*(f"{BYTE}comp\t1\nmember\t{'x' * k}\t0\t0\n" for k in (n, n + 1))),
        "a number in a column": lambda n: n == 2**32 - 1,  # none may be so large; a rule's example is one that would wrap
        "an enum's number": lambda _: last(*(f"{WIDE}enum\t0\nvalue\tx\t{k}\n" for k in (2**64 - 1, 2**64)))
        and last(*(f"{signed}enum\t0\nvalue\tx\t{k}\n" for k in (-(2**63), -(2**63) - 1))),
        "a leaf": lambda n: last(WIDE, WIDE.replace("8", str(n + 1))) and last(WIDE, WIDE.replace("64", "65")),
        "a compound, an array, a record": lambda n: last(f"comp\t{n}\n", f"comp\t{n + 1}\n")
        and last(f"{BYTE}array\t0\t{n}\n", f"{BYTE}array\t0\t{n + 1}\n"),
        "dimensions of an array": lambda n: last(*("\t".join([f"{BYTE}array", "0", *"1" * k]) + "\n" for k in (n, n + 1))),
        "records in one call": lambda n: takes(n) and not takes(n + 1),
        "the working table": lambda n: f"YIRVAGUL_TABLE_WORDS {n}\n" in header,
        "a leaf list": lambda n: n == LIST_BYTES,
        "a mask": lambda n: n == MASK_BYTES == len(reach(f"comp\t{n}\n", "comp\t1\n")) and f"YIRVAGUL_MASK_BYTES {n}\n" in header,
        "an int of a reader's sheet": lambda n: refused_at("CHANNEL", *(reported(WIDE.replace("64", str(k))) for k in (n, n + 1))),
        "records of one report": lambda n: refused_at("FULL", *(reported(BYTE, bytes(k)) for k in (n, n + 1))) and n == Report.MOST_RECORDS,
        "a report's memory": lambda n: n == constant("REPORT_WORDS"),
        "a report's output": lambda n: n == constant("REPORT_BYTES"),
        "the header of a list of differences": lambda n: f"YIRVAGUL_COMPARE_HEADER_BYTES {n}\n" in header,
        "a line of it": lambda n: f"YIRVAGUL_COMPARE_LINE_BYTES {n}\n" in header,
        "stack of a converting call, destination record of at most 128 bytes": lambda n: n == SMALL_STACK_BYTES,
        "stack of any converting call": lambda n: n == STACK_BYTES,
        "stack of the call for the mask": lambda n: n == SMALL_STACK_BYTES,
    }
    limits = dict(rows(page, text, "| What | At most |"))
    expect(list(limits) == list(tests), page, "other limits than are tried")
    for what, limit in limits.items():
        first = re.match(r"[\d,]+", limit)
        expect(tests[what](int(first[0].replace(",", "")) if first else None), page, f"the limit of {what} is not {limit}")


def check_sheets(page, text):
    for check in (check_rules, check_places, check_conversions, check_compared, check_setters, check_numbers, check_limits):
        check(page, text)


# ---- docs/ARCHITECTURE.md


def check_crates(page, text):
    """The tables of crates name those of crates.txt, each once, and so does the drawing."""
    listed = re.findall(r"^(\w+)(?: staticlib)?:", read("crates.txt"), re.M)
    part = text[text.index("## The crates") : text.index("Beside the crates:")]
    named = [name for line in re.findall(r"^\| (`.*?) \|", part, re.M) for name in spans(line)]
    expect(sorted(named) == sorted(listed), page, f"lacks {sorted(set(listed) - set(named))} of crates.txt, and names {sorted(set(named) - set(listed))} beside it")
    drawn = set(re.findall(r"[a-z]+(?:_[a-z]+)+", blocks(text, "text")[0]))
    expect(drawn <= set(listed), page, f"draws {sorted(drawn - set(listed))}, which are not in crates.txt")


# ---- CHANGELOG.md


def check_changelog(page, text):
    """Its newest version is the header's."""
    major, minor, patch = map(int, re.search(r"^## (\d+)\.(\d+)\.(\d+)", text, re.M).groups())
    version = f"YIRVAGUL_VERSION {major * 10000 + minor * 100 + patch}\n"
    expect(version in read("include/yirvagul.h"), page, f"the header has not {version.strip()}")


CHECKS = {
    "README.md": check_readme,
    "CHANGELOG.md": check_changelog,
    "bindings/README.md": lambda page, text: check_shown(
        page,
        text,
        *("bindings/c/rig.c", "bindings/c/rig.txt", "bindings/rust/examples/rig.rs", "bindings/python/rig.py", "bindings/rig.txt"),
        *("bindings/c/season.c", "bindings/c/season.txt"),
    ),
    "docs/TEACHING.md": check_teaching,
    "docs/QUESTIONS.md": check_bytes,
    "docs/ANSWERS.md": check_answers,
    "docs/SHEETS.md": check_sheets,
    "docs/ARCHITECTURE.md": check_crates,
}

for page in sys.argv[1:] or PAGES:
    text = read(page)
    for check in (check_links, check_paths, check_commands, CHECKS.get(page, lambda page, text: None)):
        check(page, text)
sys.exit("\n".join(faults) or 0)
