"""Links programs for the targets of tools/library and runs them: under QEMU, under node or on this machine."""
import os
import pathlib
import shutil
import subprocess

PARTS = pathlib.Path(__file__).resolve().parent
ROOT = PARTS.parent.parent
MACHINE = os.uname().machine
ARM = "gcc-arm-none-eabi libnewlib-arm-none-eabi qemu-system-arm"
SEMIHOSTING = ["-nographic", "-monitor", "none", "-serial", "none", "-semihosting-config", "enable=on,target=native"]
FLAGS = ["-O2", "-Wall", "-Wextra", "-Werror", "-I", str(ROOT / "include"), "-I", str(PARTS)]


class Failed(Exception):
    pass


def output(*words):
    return subprocess.run([str(w) for w in words], stdout=subprocess.PIPE, text=True).stdout


def must(*words):
    done = subprocess.run([str(w) for w in words], stdout=subprocess.PIPE, stderr=subprocess.STDOUT, text=True)
    if done.returncode != 0:
        raise Failed(f"{pathlib.Path(str(words[0])).name}: {done.stdout[-1500:]}")


class Target:
    """How a program for a target is linked and run."""

    def __init__(self, name, packages, compiler, words, start, command):
        self.name, self.packages, self.compiler, self.words = name, packages, compiler, words
        self.start, self.command = start, command

    def missing(self):
        """Whether a package is missing: the compiler, the C library or the emulator."""
        if not shutil.which(self.compiler) or self.command and not shutil.which(self.command[0]):
            return True
        specs = [w.split("=")[1] for w in self.words if w.startswith("--specs=")]
        return any("/" not in output(self.compiler, f"-print-file-name={s}").strip() for s in specs)

    def link(self, objects, to, defined):
        sources = [PARTS / f"{part}.c" for part in ("driver", "record", "session", "file", "files", *self.start)]
        if defined:
            sources.remove(PARTS / "file.c")
        must(self.compiler, *self.words, *FLAGS, *defined, "-o", to, *sources, *objects)


class Wasm(Target):
    """WebAssembly is compiled and linked by the kit; node runs it."""

    def link(self, objects, to, defined):
        tools = pathlib.Path(output("rt", "doc").strip()).parent / "toolchain" / "bin"
        headers = output("gcc", "-print-file-name=include").strip()
        made = []
        for part in ("driver", "record", "session", "wasm") + (() if defined else ("file",)):
            made.append(to.with_suffix(f".{part}.o"))
            must(tools / "clang", "--target=wasm32-unknown-unknown", "-ffreestanding", "-fno-builtin", "-isystem", headers,
                 *FLAGS, *defined, "-c", PARTS / f"{part}.c", "-o", made[-1])
        must(tools / "ld.lld", "-flavor", "wasm", "--no-entry", "--export=run", "--allow-undefined", "--stack-first", "-z",
             "stack-size=262144", *made, *objects, "-o", to)


def cortex(name, board, program, data):
    words = [f"-mcpu={name}", "-mthumb", "--specs=rdimon.specs", "-nostartfiles", "-Wl,--no-warn-execstack", "-T",
             str(PARTS / "cortex-m.ld"), f"-Wl,--defsym=PROGRAM_AT={program}", f"-Wl,--defsym=DATA_AT={data}"]
    return Target(name, ARM, "arm-none-eabi-gcc", words, ["cortex-m"],
                  ["qemu-system-arm", "-M", board, *SEMIHOSTING, "-kernel"])


def linux(name, machine, compiler, emulator, packages):
    """The target of a Linux processor; on a machine with that processor no emulator is used."""
    if MACHINE == machine and not emulator[1:]:
        return Target(name, "gcc", "gcc", ["-static"], [], [])
    own = "gcc" if MACHINE == machine else compiler
    return Target(name, packages, own, ["-static"], [], emulator)


def all_targets():
    x86, arm = "gcc-x86-64-linux-gnu qemu-user", "gcc-aarch64-linux-gnu qemu-user"
    riscv = ["-march=rv32imac", "-mabi=ilp32", "--specs=picolibc.specs", "--oslib=semihost", "--crt0=semihost"]
    places = {"__flash": "0x80000000", "__flash_size": "4M", "__ram": "0x80400000", "__ram_size": "8M"}
    riscv += [f"-Wl,--defsym={symbol}={value}" for symbol, value in places.items()]
    return [
        linux("x86-64", "x86_64", "x86_64-linux-gnu-gcc", ["qemu-x86_64"], x86),
        linux("x86-64-v3", "x86_64", "x86_64-linux-gnu-gcc", ["qemu-x86_64", "-cpu", "max"], x86),
        linux("aarch64", "aarch64", "aarch64-linux-gnu-gcc", ["qemu-aarch64"], arm),
        cortex("cortex-m0plus", "mps2-an385", "0", "0x20000000"),  # a Cortex-M3, with traps for unaligned accesses
        cortex("cortex-m4", "mps2-an386", "0", "0x20000000"),
        cortex("cortex-m33", "mps2-an505", "0x10000000", "0x38000000"),
        Target("riscv32", "gcc-riscv64-unknown-elf picolibc-riscv64-unknown-elf qemu-system-misc", "riscv64-unknown-elf-gcc",
               riscv, [], ["qemu-system-riscv32", "-M", "virt", "-bios", "none", *SEMIHOSTING, "-kernel"]),
        Wasm("wasm32", "nodejs", "gcc", [], [], ["node", str(PARTS / "run-wasm.mjs")]),
    ]
