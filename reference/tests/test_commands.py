"""Every command of the repository answers --help, and what it cannot use in one line with a status other than 0."""

import os
import subprocess
import sys
import tempfile
import unittest
from pathlib import Path

REPOSITORY = Path(__file__).resolve().parents[2]
MODULES = ("cases", "compare", "program", "salvage", "script")
SCRIPTS = [".ci/run", "bench/before", "bench/constants", "bench/crates", "bench/programs", "bench/run", "bench/source_tables"]
SCRIPTS += ["bindings/readme", "bindings/test", "samples/make"]
SCRIPTS += ["bindings/python/build", "bindings/python/play.py", "bindings/python/sitting.py", "tools/forms", "tools/picture"]
SCRIPTS += ["tools/respell/respell"]
NAMES = SCRIPTS + [f"python3 -m reference.{module}" for module in MODULES]
EXAMPLE = bytes.fromhex("020104040001000100000100")
LONGEST = 60  # seconds

# What takes the path of a file: a command, and its words before the path.
FILES = [("bench/before",), ("bench/constants",), ("bench/crates",), ("bench/run",), ("samples/make",), ("tools/picture",)]
FILES += [("bench/run", "--before")]
FILES += [("bench/source_tables", "--program")]
FILES += [("tools/picture", "samples/alike.sitting", "--names")]
FILES += [("python3 -m reference.compare", option) for option in ("--program", "--scripts", "--salvage")]
# What a file holds that no command can use.
CONTENTS = {"empty": b"", "no-text": b"\xff\xfe\x00", "line": b"asks\n", "binary": bytes(range(256))}

WRONG = [
    ("python3 -m reference.compare", ["--seed", "x"], b"", "--seed"),
    ("python3 -m reference.compare", ["--seconds", "-1"], b"", "from 0 up"),
    ("python3 -m reference.compare", ["--seconds", "nan"], b"", "from 0 up"),
    ("python3 -m reference.compare", ["--program", ""], b"", "'' cannot be run"),
    ("python3 -m reference.compare", ["--salvage", ""], b"", "'' cannot be run"),
    ("python3 -m reference.script", [], b"9", "no call has the number 9"),
    ("python3 -m reference.script", [], b"2 0 0", "ends within a call"),
    ("python3 -m reference.script", [], b"3 " + b"9" * 5000, "more than 32 bits"),
    ("bench/source_tables", ["--rounds", "0"], b"", "from 1 up"),
    ("bench/source_tables", ["--depth", "7"], b"", "--depth"),
    ("tools/forms", ["--at", "nowhere"], b"", "nowhere"),
    ("bindings/python/play.py", [], b"9", "no call has the number 9"),
    ("bindings/python/sitting.py", [], EXAMPLE, "no library at /nowhere"),
]

SOURCES = [
    (b"alphabet 2 depth 1 0 1", "a source is"),
    (b"alphabet 2 depth 1 0 / 1 / 0", "a source is"),
    (b"alphabet / depth 1 0", "a source is"),
    (b"alphabet 2 depth / 1 0", "a source is"),
    (b"alphabet 2 depth 1 0 x / 1", "'x' is no number"),
    (b"alphabet 2 depth 1 0 -1 / 1", "'-1' is no number"),
    (b"alphabet 2 depth 1 0 / 16384", "'16384' is no number"),
    (b"alphabet 2 depth 1 0 2 / 1", "refused 15: A number of the file, read or to be written, is outside its limits."),
    (b"alphabet 2 depth 7 0 / 1", "refused 15: A number of the file, read or to be written, is outside its limits."),
]


def words_of(name):
    """How a command is run; a module is run by this Python."""
    program, *module = name.split(" ")
    return [sys.executable, *module] if module else [REPOSITORY / program]


def run(name, *words, given=b"", output=subprocess.PIPE):
    """What it prints, what it says went wrong, and its status."""
    settings = {"cwd": REPOSITORY, "env": {**os.environ, "SOBUMIKEYO_SO": "/nowhere"}, "timeout": LONGEST}
    done = subprocess.run([*words_of(name), *words], input=given, stdout=output, stderr=subprocess.PIPE, **settings)
    return (done.stdout or b"").decode(), done.stderr.decode(), done.returncode


class Commands(unittest.TestCase):
    def fails(self, reason, name, *words, **more):
        with self.subTest(name=name, words=words):
            printed, said, status = run(name, *words, **more)
            self.assertEqual(printed, "")
            self.assertNotEqual(status, 0)
            self.assertRegex(said, r"\A[^\n]+\n\Z")
            self.assertIn(reason, said)

    def test_all_are_here(self):
        folders = [REPOSITORY / name for name in (".ci", "bench", "bindings", "include", "reference", "samples", "tools")]
        files = [path for folder in folders for path in folder.rglob("*") if path.is_file() and os.access(path, os.X_OK)]
        self.assertEqual(sorted(str(path.relative_to(REPOSITORY)) for path in files), sorted(SCRIPTS))
        ran = [path.stem for path in REPOSITORY.glob("reference/*.py") if '__name__ == "__main__"' in path.read_text("utf-8")]
        self.assertEqual(sorted(ran), sorted(MODULES))

    def test_help(self):
        for name in NAMES:
            with self.subTest(name):
                printed, said, status = run(name, "--help")
                self.assertEqual((said, status), ("", 0))
                self.assertGreater(len(printed.splitlines()), 1)

    def test_unknown_options(self):
        for name in NAMES:
            self.fails("--help says more", name, "--unknown")
        modules = [f"python3 -m reference.{module}" for module in ("cases", "program", "salvage")]
        for name in (".ci/run", "bindings/test", *modules):
            self.fails("--help says more", name, "word")

    def test_files_that_cannot_be_used(self):
        with tempfile.TemporaryDirectory() as folder:
            for name, *words in FILES:
                if name != "bench/run":
                    self.fails("/nowhere/file", name, *words, "/nowhere/file")
                    self.fails(folder, name, *words, folder)
                for file, content in CONTENTS.items():
                    path = Path(folder, file)
                    path.write_bytes(content)
                    self.fails("", name, *words, path)

    def test_wrong_input(self):
        for name, words, given, reason in WRONG:
            self.fails(reason, name, *words, given=given)

    def test_sources(self):
        with tempfile.TemporaryDirectory() as folder:
            source = Path(folder, "source.txt")
            for content, reason in SOURCES:
                source.write_bytes(content)
                self.fails(reason, "samples/make", source)
            self.fails("a sitting file already", "samples/make", "samples/alike.sitting")
            self.assertFalse(source.with_suffix(".sitting").exists())

    def test_output_that_nobody_reads(self):
        for name, given in [
            ("bench/crates", b""),
            ("tools/picture", EXAMPLE),
            ("python3 -m reference.program", EXAMPLE),
            ("python3 -m reference.salvage", EXAMPLE),
            ("python3 -m reference.script", b"4"),
        ]:
            reading, writing = os.pipe()
            os.close(reading)
            self.fails("nobody reads the output any more", name, given=given, output=writing)
            os.close(writing)
            with open("/dev/full", "wb") as full:
                self.fails("No space left on device", name, given=given, output=full)


if __name__ == "__main__":
    unittest.main()
