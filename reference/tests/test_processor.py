"""A program for x86-64 is run by its own path there, and by the toolchain's emulator elsewhere; any other by its own path."""

import tempfile
import unittest
from pathlib import Path
from unittest import mock

from reference.processor import X86_64, command, processor_of

HEADER = b"\x7fELF" + bytes(14)


class Processor(unittest.TestCase):
    def file(self, content):
        folder = tempfile.TemporaryDirectory()
        self.addCleanup(folder.cleanup)
        path = Path(folder.name, "program")
        path.write_bytes(content)
        return path

    def test_processor_of_a_file(self):
        self.assertEqual(processor_of(self.file(HEADER + bytes([X86_64, 0]))), X86_64)
        self.assertEqual(processor_of(self.file(HEADER + bytes([183, 0]))), 183)
        self.assertEqual(processor_of(self.file(b"#!/bin/sh\n")), 0)
        self.assertEqual([processor_of(path) for path in ("", "/nowhere/at/all")], [0, 0])

    def test_own_path(self):
        path = self.file(HEADER + bytes([X86_64, 0]))
        with mock.patch("platform.machine", return_value="x86_64"):
            self.assertEqual(command(path), [path])
        script = self.file(b"#!/bin/sh\n")
        with mock.patch("platform.machine", return_value="aarch64"):
            self.assertEqual(command(script), [script])

    def test_emulator(self):
        path = self.file(HEADER + bytes([X86_64, 0]))
        with mock.patch("platform.machine", return_value="aarch64"), mock.patch.dict("os.environ", RATTLE_HOME="kit"):
            words = [str(word) for word in command(path)]
        self.assertEqual(words[0], "kit/on/aarch64/toolchain/bin/qemu-x86_64")
        self.assertEqual(words[-1], str(path))


if __name__ == "__main__":
    unittest.main()
