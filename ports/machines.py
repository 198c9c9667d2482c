# SPDX-License-Identifier: Apache-2.0
"""The machines without an operating system that the library is run on, as qemu emulates them; and how a program for each is made of the LLVM
module of the proved code.

Two compilers make a program: the clang of the kit compiles the module, since no other clang reads its form, and Debian's cross compiler the
rest and links it.
"""

from __future__ import annotations

import subprocess
import sys
from dataclasses import dataclass
from pathlib import Path

PORTS = Path(__file__).resolve().parent
TOP = PORTS.parent
sys.path.insert(0, str(TOP / "tools"))
sys.dont_write_bytecode = True

import program  # noqa: E402  (it is in tools/)
from to32 import Processor, Unknown, rewritten  # noqa: E402  (it is beside this file)

BOARD = PORTS / "board"
WARNINGS = ("-std=gnu11", "-Wall", "-Wextra", "-Werror")
# Without a C library: no call of one is put in for a loop, and sections that nothing uses are left out.
BARE = ("-O2", "-ffreestanding", "-fno-builtin", "-fno-tree-loop-distribute-patterns", "-fno-stack-protector", "-ffunction-sections", "-DROKDAUM_NO_HEAP", "-DROKDAUM_ONE_THREAD")
LINKED = ("-nostdlib", "-static", "-Wl,--gc-sections", "-Wl,--build-id=none", "-Wl,--no-warn-rwx-segments")
# The clang of the kit at its work for rattle says so too.
OF_RATTLE = ("-O2", "-ffunction-sections", "-mllvm", "-no-trap-after-noreturn", "-mllvm", "-trap-unreachable")
SEMIHOSTING = "enable=on,target=native"
# What tests of this folder catch.
__all__ = ["BOARD", "CantMake", "MACHINES", "Machine", "PORTS", "TOP", "Unknown", "command", "console", "for_linux", "measure", "measure_here", "program"]


@dataclass(frozen=True)
class Machine:
    """An emulated machine: what its module is rewritten for, the compilers' flags for it, its start-up code, and the emulator's command."""

    name: str
    processor: Processor
    clang: tuple[str, ...]
    gcc: str
    flags: tuple[str, ...]
    start: str
    script: str
    symbols: tuple[str, ...]
    emulator: tuple[str, ...]


ARM_LAYOUT = "e-m:e-p:32:32-Fi8-i64:64-v128:64:128-a:0:32-n32-S64"


def cortex(name: str, cpu: str, triple: str, fpu: str, board: str, octets: str, more: tuple[str, ...] = ()) -> Machine:
    """A machine with a Cortex-M processor."""
    hard = ("-mfloat-abi=hard", f"-mcpu={cpu}")
    return Machine(
        name, Processor(f"{triple}-none-unknown-eabihf", ARM_LAYOUT, cpu), (f"--target={triple}-none-eabihf", *hard), "arm-none-eabi-gcc", ("-mthumb", *hard, f"-mfpu={fpu}", *more),
        "cortexm.c", "mps.ld", (f"MEMORY_BYTES={octets}", "STACK_BYTES=0x10000", "HEAP_BYTES=0"), ("qemu-system-arm", "-M", board),
    )


MACHINES = {
    it.name: it
    for it in (
        Machine(
            "aarch64", Processor("aarch64-unknown-none-elf", "e-m:e-p270:32:32-p271:32:32-p272:64:64-i8:8:32-i16:16:32-i64:64-i128:128-n32:64-S128-Fn32", "cortex-a53", is_wide=True),
            ("--target=aarch64-none-elf", "-mcpu=cortex-a53"), "aarch64-linux-gnu-gcc", ("-fno-pie", "-no-pie", "-mno-outline-atomics"),
            "aarch64.c", "virt.ld", ("BASE=0x40080000", "STACK_BYTES=0x10000"), ("qemu-system-aarch64", "-M", "virt", "-cpu", "cortex-a53"),
        ),
        Machine(
            "riscv64", Processor("riscv64-unknown-elf", "e-m:e-p:64:64-i64:64-i128:128-n32:64-S128", "generic-rv64", "+m,+a,+f,+d,+c", True),
            ("--target=riscv64-unknown-elf", "-march=rv64gc", "-mabi=lp64d", "-mcmodel=medany"), "riscv64-unknown-elf-gcc", ("-march=rv64gc_zicsr", "-mabi=lp64d", "-mcmodel=medany"),
            "riscv64.c", "virt.ld", ("BASE=0x80000000", "STACK_BYTES=0x10000"), ("qemu-system-riscv64", "-M", "virt", "-bios", "none"),
        ),
        cortex("cortex-m4", "cortex-m4", "thumbv7em", "fpv4-sp-d16", "mps2-an386", "4M"),
        cortex("cortex-m55", "cortex-m55", "thumbv8.1m.main", "auto", "mps3-an547", "512K", ("-DTICK_NUMERATOR=125", "-DTICK_DENOMINATOR=4")),
    )
}


class CantMake(Exception):
    """Why a program for a machine can't be made."""


def run(*words: str | Path) -> None:
    """Runs a compiler, or raises what it says."""
    ran = subprocess.run(words, stdin=subprocess.DEVNULL, capture_output=True, text=True, check=False)
    if ran.returncode:
        raise CantMake(f"{' '.join(map(str, words[:1]))} ended with status {ran.returncode}: {(ran.stdout + ran.stderr).strip()[-1500:]}")


def compiled(machine: Machine, module: Path, folder: Path, *more: str) -> Path:
    """The object that the clang of the kit makes of a module for a machine."""
    text, made = folder / f"{module.stem}-{machine.name}.ll", folder / f"{module.stem}-{machine.name}.o"
    text.write_text(rewritten(module.read_text(encoding="utf-8"), machine.processor), encoding="utf-8")
    run(program.kit() / "toolchain" / "bin" / "clang", *machine.clang, *OF_RATTLE, *more, "-x", "ir", "-c", text, "-o", made)
    return made


def symbols(machine: Machine, *others: str) -> list[str]:
    """What the linker is told of the machine's memory; a symbol that is named again is the later one's."""
    chosen = {one.partition("=")[0]: one for one in (*machine.symbols, *others)}
    return [f"-Wl,--defsym={it}" for it in chosen.values()]


def measure(machine: Machine, module: Path, folder: Path) -> Path:
    """measure.c with the library, for a machine."""
    made, of_proved = folder / f"measure-{machine.name}.elf", compiled(machine, module, folder)
    sources = [PORTS / "measure.c", BOARD / machine.start, BOARD / "bare.c", BOARD / "mem.c", TOP / "c" / "rokdaum.c"]
    run(machine.gcc, *WARNINGS, *BARE, *machine.flags, *LINKED, "-I", BOARD, "-I", TOP / "c", *sources, of_proved, "-Wl,-T," + str(BOARD / machine.script), *symbols(machine), "-lgcc", "-o", made)
    return made


def measure_here(archive: Path, folder: Path) -> Path:
    """measure.c with the library, as a process of this machine."""
    made = folder / "measure-here"
    run("gcc", *WARNINGS, "-O2", "-I", BOARD, "-I", TOP / "c", PORTS / "measure.c", BOARD / "process.c", archive, "-o", made)
    return made


def console(machine: Machine, module: Path, folder: Path) -> Path:
    """A program for a Cortex-M board, over semihosting."""
    made, of_proved = folder / f"{module.stem}-{machine.name}.elf", compiled(machine, module, folder)
    flags = ("-O2", "-ffunction-sections", *machine.flags, "-nostartfiles", "-static", *LINKED[2:])
    memory = symbols(machine, "STACK_BYTES=0x80000", "HEAP_BYTES=0x200000")
    run(machine.gcc, *WARNINGS, *flags, "-I", BOARD, PORTS / "console.c", of_proved, "-Wl,-T," + str(BOARD / machine.script), *memory, "-lc", "-lnosys", "-o", made)
    return made


def for_linux(module: Path, folder: Path) -> Path:
    """A program for Linux on aarch64, from its module."""
    machine, made = MACHINES["aarch64"], folder / f"{module.stem}-aarch64-linux"
    of_proved = compiled(machine, module, folder, "-fPIC")
    run("aarch64-linux-gnu-gcc", *WARNINGS, "-O2", "-static", PORTS / "linux.c", of_proved, "-o", made)
    return made


def command(machine: Machine, elf: Path, *words: str, count: bool = False) -> list[str]:
    """The emulator's command that runs a program with words of a command line, an instruction a nanosecond where they are counted."""
    given = ",".join([SEMIHOSTING, *(f"arg={it}" for it in (elf.stem, *words))]) if words else SEMIHOSTING
    quiet = ["-net", "none", "-display", "none", "-monitor", "none", "-serial", "none"]
    counted = ["-icount", "shift=0"] if count else []
    return [*machine.emulator, *quiet, *counted, "-semihosting-config", given, "-kernel", str(elf)]
