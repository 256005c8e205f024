"""The package: its names, its documents, its build and its wheel, and what it says where something is missing."""

import ast
import base64
import csv
import doctest
import hashlib
import os
import pathlib
import re
import shutil
import subprocess
import sys
import tempfile
import typing
import unittest
import zipfile

import yirvagul
from yirvagul import _library

HERE = pathlib.Path(__file__).resolve().parent
PYTHON = HERE.parent
REPOSITORY = HERE.parents[2]
PACKAGE = pathlib.Path(yirvagul.__file__).resolve().parent


def run(*command, **environment):
    """A command's exit status and all that it says, in an empty folder."""
    kept = {name: value for name, value in os.environ.items() if not name.startswith("YIRVAGUL_")}
    with tempfile.TemporaryDirectory() as folder:
        done = subprocess.run(
            [str(part) for part in command],
            stdout=subprocess.PIPE,
            stderr=subprocess.STDOUT,
            text=True,
            cwd=folder,
            env={**kept, "PYTHONDONTWRITEBYTECODE": "1", **environment},
        )
    return done.returncode, done.stdout


class Names(unittest.TestCase):
    def test_all(self):
        self.assertEqual(yirvagul.__all__, sorted(yirvagul.__all__, key=lambda name: (not name.isupper(), not name[0].isupper(), name)))
        for name in yirvagul.__all__:
            self.assertIsNotNone(getattr(yirvagul, name))
        public = {name for name in vars(yirvagul) if not name.startswith("_")}
        modules = {path.stem for path in PACKAGE.glob("[a-z]*.py")}
        self.assertEqual(public - modules, set(yirvagul.__all__))

    def test_version(self):
        self.assertRegex(yirvagul.__version__, r"^\d+\.\d+\.\d+$")

    def test_documented(self):
        for name in yirvagul.__all__:
            some = getattr(yirvagul, name)
            if callable(some):
                self.assertTrue(some.__doc__, name)

    def test_types_resolve(self):
        """Annotations can be evaluated where nothing but Python is installed; numpy's are for type checkers."""
        for name in yirvagul.__all__:
            some = getattr(yirvagul, name)
            if callable(some) and name not in ("convert_to_array", "dtype_of", "sheet_of"):
                typing.get_type_hints(some)

    def test_stack(self):
        """As the header says it; and calls run in a thread with that stack and a little for Python itself."""
        said = re.findall(r"^#define YIRVAGUL_(\w*STACK_BYTES) (\d+)$", (REPOSITORY / "include/yirvagul.h").read_text(), re.M)
        self.assertEqual(dict(said), {name: str(getattr(yirvagul, name)) for name in ("STACK_BYTES", "SMALL_STACK_BYTES")})
        script = (
            "import threading, yirvagul\n"
            "def work():\n"
            "    from yirvagul import Handling\n"
            "    sheet = 'int\\t1\\tLE\\t0\\t8\\tzero\\tzero\\tunsigned\\n'\n"
            "    yirvagul.convert_copying(sheet, sheet, 1, Handling.STOP, b'x', bytearray(1))\n"
            "    yirvagul.convert_in_place(sheet, sheet, 1, Handling.STOP, bytearray(1), b'x')\n"
            "    yirvagul.leaf_list(sheet)\n"
            "    yirvagul.reach(sheet, sheet)\n"
            "threading.stack_size(yirvagul.STACK_BYTES + 65536)\n"
            "thread = threading.Thread(target=work)\n"
            "thread.start()\n"
            "thread.join()\n"
        )
        self.assertEqual(run(sys.executable, "-c", script, PYTHONPATH=str(PACKAGE.parent)), (0, ""))


class Documents(unittest.TestCase):
    def test_the_pages_own_examples(self):
        text = (PYTHON / "README.md").read_text()
        try:
            import numpy  # noqa: F401
        except ImportError:
            text = re.sub(r"^## numpy$.*?(?=^## )", "", text, flags=re.M | re.S)
        examples = doctest.DocTestParser().get_doctest(text, {}, "README.md", None, 0)
        said = []
        runner = doctest.DocTestRunner()
        runner.run(examples, out=said.append)
        self.assertEqual("".join(said), "")
        self.assertGreater(runner.summarize(verbose=False).attempted, 10)

    def test_the_repositorys_snippet(self):
        """README's lines for Python, as printed."""
        lines = (REPOSITORY / "README.md").read_text().splitlines()
        first = next(i for i, line in enumerate(lines) if re.match(r"\s*(import|from) yirvagul\b", line))
        indent = len(lines[first]) - len(lines[first].lstrip())
        snippet = []
        for line in lines[first:]:
            if line.startswith("```") or (line and not line.startswith(" " * indent)):
                break
            snippet.append(line[indent:])
        ast.parse("\n".join(snippet))
        self.assertGreater(len(snippet), 3)
        self.assertEqual(run(sys.executable, "-c", "\n".join(snippet), PYTHONPATH=str(PACKAGE.parent)), (0, ""))


class SharedObject(unittest.TestCase):
    def setUp(self):
        folder = tempfile.TemporaryDirectory()
        self.addCleanup(folder.cleanup)
        self.folder = pathlib.Path(folder.name)

    def imported(self, **environment):
        """The import of a package that has no shared object."""
        shutil.copytree(PACKAGE, self.folder / "yirvagul", ignore=shutil.ignore_patterns("*.so", "__pycache__"), dirs_exist_ok=True)
        return run(sys.executable, "-c", "import yirvagul", PYTHONPATH=str(self.folder), **environment)

    def test_missing(self):
        status, said = self.imported()
        self.assertEqual(status, 1)
        self.assertRegex(said, "ImportError: yirvagul has no shared object .+: in the repository run .+ `bindings/python/build`")

    def test_another(self):
        self.assertEqual(self.imported(YIRVAGUL_SO=_library.FILE), (0, ""))

    def test_broken(self):
        broken = self.folder / "broken.so"
        broken.write_bytes(b"no shared object")
        status, said = self.imported(YIRVAGUL_SO=str(broken))
        self.assertEqual(status, 1)
        self.assertRegex(said, f"ImportError: yirvagul has no shared object .*{broken}.*: in the repository run ")

    def test_of_another_version(self):
        other = self.folder / "other.so"
        subprocess.run(["cc", "-shared", "-o", other, "-x", "c", "/dev/null"], check=True)
        status, said = self.imported(YIRVAGUL_SO=str(other))
        self.assertEqual(status, 1)
        self.assertRegex(said, f"ImportError: {other} lacks yirvagul_convert_copying, so it is of another version than this module")


class Build(unittest.TestCase):
    """Of the repository's own build, which bindings/test has run before."""

    built = REPOSITORY / "target/python"

    def content(self):
        return {path.name: path.read_bytes() for path in self.built.iterdir()}

    def test_a_failed_build_leaves_the_old_one(self):
        before = self.content()
        self.assertIn("libyirvagul.so", before)
        with tempfile.TemporaryDirectory() as folder:
            garbage, empty = os.path.join(folder, "garbage.a"), os.path.join(folder, "empty.a")
            pathlib.Path(garbage).write_bytes(b"no archive")
            subprocess.run(["ar", "rc", empty], check=True)
            for archive, words in (
                (os.path.join(folder, "none.a"), "none.a: run `bindings/archive` first"),
                (garbage, "garbage.a"),
                (empty, "lacks yirvagul_convert_copying"),
            ):
                status, said = run(PYTHON / "build", YIRVAGUL_LIB=archive)
                self.assertNotEqual(status, 0)
                self.assertIn(words, said)
                self.assertEqual(self.content(), before)

    def test_the_wheel(self):
        (wheel,) = self.built.glob("*.whl")
        self.assertRegex(wheel.name, rf"^yirvagul-{re.escape(yirvagul.__version__)}-py3-none-linux_\w+\.whl$")
        with zipfile.ZipFile(wheel) as archive:
            files = {name: archive.read(name) for name in archive.namelist()}
        info = f"yirvagul-{yirvagul.__version__}.dist-info/"
        package = {f"yirvagul/{path.name}": path for path in (PYTHON / "yirvagul").iterdir() if path.is_file()}
        package["yirvagul/libyirvagul.so"] = self.built / "libyirvagul.so"
        self.assertEqual(set(files), {*package, info + "METADATA", info + "WHEEL", info + "RECORD"})
        for name, path in package.items():
            self.assertTrue(files[name] == path.read_bytes(), f"{name} differs: run bindings/python/build")
        for name, digest, size in csv.reader(files[info + "RECORD"].decode().splitlines()):
            if name != info + "RECORD":
                self.assertEqual(int(size), len(files[name]))
                self.assertEqual(digest, "sha256=" + base64.urlsafe_b64encode(hashlib.sha256(files[name]).digest()).rstrip(b"=").decode())
        self.assertIn(f"\nVersion: {yirvagul.__version__}\n", files[info + "METADATA"].decode())


if __name__ == "__main__":
    unittest.main()
