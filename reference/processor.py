"""How a built program is run. Those that the toolchain builds are for x86-64."""

import os
import platform
import shutil
from pathlib import Path

from reference.command import Fault

X86_64 = 62  # as the header of an ELF file has it


def command(path):
    """The words that run a program: its own path, or the toolchain's emulator where this processor is another."""
    if platform.machine() == "x86_64" or processor_of(path) != X86_64:
        return [path]
    tools = Path(toolchain(path), "on", platform.machine(), "toolchain")
    return [tools / "bin/qemu-x86_64", tools / "lib/ld-linux-x86-64.so.2", "--library-path", tools / "lib", path]


def toolchain(path):
    """The toolchain's folder, where the emulator for that program is."""
    if os.environ.get("RATTLE_HOME"):
        return os.environ["RATTLE_HOME"]
    command = shutil.which("rt")
    if command is None:
        raise Fault(f"{path} is for x86-64, and needs the toolchain's emulator here, but there is no rt on the PATH")
    return Path(command).resolve().parents[1]


def processor_of(path):
    """The processor that an ELF file is for, by its number; 0 for any other file, and for none, of which the run will say so."""
    try:
        start = Path(path).read_bytes()[:20]
    except OSError:
        return 0
    return int.from_bytes(start[18:20], "little") if start[:4] == b"\x7fELF" else 0
