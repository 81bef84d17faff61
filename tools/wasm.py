"""Modules of WebAssembly of the proved calls, for JavaScript.

The kit builds for WebAssembly only what takes no memory. So a crate is built for x86-64, as any static library, and the module
of LLVM that the kit hands to its compiler is compiled for WebAssembly instead, with heap.c in the place of a C library. What this
relies on is checked, and a kit that differs ends the build with a line that says how. Then Debian's binaryen makes of it the same
code over a memory of 32 bits, which more engines take. It also keeps one of functions that are the same, as two crates that are
built over the same libraries have them.
"""
import hashlib
import os
import re
import shutil
import tempfile
from typing import Iterable, NamedTuple, Sequence

import calls
import repository
from calls import Failure, run

# Where the C of the modules is, and that of the library, which it includes.
FOLDERS = (f"{repository.ROOT}/bindings/javascript", f"{repository.ROOT}/bindings/c")

# How the kit's compiler lays out data: for x86-64, as the crate is built, and for WebAssembly, as it is compiled here. Of all that
# a module may use (see `check_module`) both give the same sizes and alignments.
NATIVE_TARGET = calls.TARGET
NATIVE_LAYOUT = "e-m:e-p270:32:32-p271:32:32-p272:64:64-i64:64-i128:128-f80:128-n8:16:32:64-S128"
TARGET = "wasm64-unknown-unknown"
LAYOUT = "e-m:e-p:64:64-p10:8:8-p20:8:8-i64:64-i128:128-n32:64-S128-ni:1:10:20"

# The flags by which the kit compiles a module for WebAssembly, and those for the C of its own that it links.
FLAGS = [
    f"--target={TARGET}", "-mcpu=lime1", "-mllvm", "-expand-div-rem-bits=64", "-mllvm", "-expand-fp-convert-bits=64",
    "-ffunction-sections", "-fdata-sections", "-mllvm", "-trap-unreachable", "-mllvm", "-disable-machine-licm",
    "-mllvm", "-disable-postra-machine-licm", "-mllvm", "-sink-common-insts=false", "--no-default-config",
    "-no-canonical-prefixes", "-fno-crash-diagnostics", "-Werror", "-c",
]
C_FLAGS = ["-O2", "-fwrapv", "-ffreestanding", "-nostdinc", "-I.", "-Wall", "-Wextra"]

# What the kit's compiler has no headers for, of what the library's C includes.
HEADERS = {
    "stdbool.h": "#define bool _Bool\n#define true 1\n#define false 0\n",
    "stddef.h": "typedef __SIZE_TYPE__ size_t;\n#define NULL ((void *)0)\n",
    "stdint.h": "".join(
        f"typedef __{sign}INT{bits}_TYPE__ {sign.lower()}int{bits}_t;\n" for bits in (8, 16, 32, 64) for sign in ("", "U")
    ),
    "string.h": "#define memcpy __builtin_memcpy\n",
}

# What a module may call beside LLVM's own operations.
CALLED = {"rattle_alloc", "rattle_realloc", "rattle_dealloc"}


class Module(NamedTuple):
    """A module: its file, the crates that it is made of, and the C beside them, in bindings/javascript, with what it includes of
    there and of bindings/c. It exports the calls that the C names."""

    file: str
    crates: tuple[str, ...]
    sources: tuple[str, ...]
    included: tuple[str, ...]

    def texts(self) -> dict[str, str]:
        """Returns the text of each file of C by its name."""
        return {name: repository.read(find(name)) for name in (*self.sources, *self.included)}

    def exports(self) -> frozenset[str]:
        """Returns what the module exports."""
        text = "\n".join(self.texts()[name] for name in self.sources)
        return frozenset({"memory", "__heap_base", *re.findall(r"^EXPORTED\d?\((\w+),", text, re.M)})


def find(name: str) -> str:
    """Returns the path of a file of C."""
    return next(path for path in (f"{folder}/{name}" for folder in FOLDERS) if os.path.isfile(path))


def find_kit() -> str:
    """Returns the folder of the Rattle kit, where all is there that a module is made with."""
    if not shutil.which("wasm-opt"):
        raise Failure("the command wasm-opt isn't on the path: install the package binaryen")
    return calls.find_kit()


def text_of_module(kit: str, room: str, module: str) -> str:
    """Returns a module of LLVM as text."""
    text = f"{room}/module.ll"
    run([
        f"{kit}/toolchain/bin/clang", f"--target={NATIVE_TARGET}", "-x", "ir", module, "-S", "-emit-llvm", "-Xclang",
        "-disable-llvm-passes", "-o", text,
    ])
    return repository.read(text)


# ---- from x86-64 to WebAssembly


def check_module(text: str) -> None:
    """Looks for what would mean another thing on WebAssembly than on x86-64."""
    for line, wanted in (("target datalayout", NATIVE_LAYOUT), ("target triple", NATIVE_TARGET)):
        found = re.findall(rf'^{line} = "(.*)"$', text, re.M)
        if found != [wanted]:
            raise Failure(f"the {line} is {found}, and {wanted} is expected")
    strange = {
        r"\baddrspace\(": "pointers of another address space",
        r"\b(x86_fp80|x86_amx|ppc_fp128|fp128)\b": "numbers that only x86-64 has",
        r"^module asm\b|\bcall\b[^\n]*\basm (sideeffect )?\"": "assembly",
        r"\bva_arg\b": "lists of arguments",
        r"\b(fastcc|x86_\w+cc|win64cc|preserve_\w+)\b": "a calling convention",
        r"\b(byval|sret|inreg|thread_local|ifunc|inalloca)\b": "what is passed in another way on each target",
        r"\batomicrmw\b|\bcmpxchg\b|^\s*fence\b": "threads",
    }
    for pattern, what in strange.items():
        match = re.search(pattern, text, re.M)
        if match:
            place = text[: match.start()].count("\n") + 1
            raise Failure(f"the module has {what}: line {place} of its text, {match[0]!r}")
    declared = set(re.findall(r'^declare\b[^@\n]*@"?([^"(\s]+)', text, re.M))
    unknown = {it for it in declared if not it.startswith("llvm.") or it.startswith("llvm.x86")} - CALLED
    if unknown:
        raise Failure(f"the module calls {', '.join(sorted(unknown))}, which nothing here gives it")


def check_calls(texts: Iterable[str], names: Iterable[str]) -> None:
    """Looks for the calls of these names in the modules' texts."""
    defined = {it for text in texts for it in re.findall(r"^define\b[^@\n]*@(\w+)\(", text, re.M)}
    missing = sorted(set(names) - defined)
    if missing:
        raise Failure(f"the module lacks {', '.join(missing)}")


def retarget(text: str) -> str:
    """Returns a module's text for WebAssembly: its layout, its target and its processor."""
    check_module(text)
    text = text.replace(f'target datalayout = "{NATIVE_LAYOUT}"', f'target datalayout = "{LAYOUT}"')
    text = text.replace(f'target triple = "{NATIVE_TARGET}"', f'target triple = "{TARGET}"')
    # As the kit says it for WebAssembly, where no C library has these three.
    known = '"no-builtin-bcmp" "no-builtin-memcmp" "no-builtin-strlen" "target-cpu"="lime1"'
    text, count = re.subn(r'"target-cpu"="x86-64[\w-]*"', known, text)
    if not count or "x86" in "".join(re.findall(r"^attributes .*$", text, re.M)):
        raise Failure("the module names its processor in a way that isn't known")
    return text


def compile_all(kit: str, room: str, texts: Sequence[str], module: Module) -> str:
    """Compiles the texts of modules and the C beside them, and returns the archive of all."""
    clang = f"{kit}/toolchain/bin/clang"
    objects: list[str] = []
    written = {f"crate{at}.ll": text for at, text in enumerate(texts)}
    for name, text in {**HEADERS, **module.texts(), **written}.items():
        with open(f"{room}/{name}", "w", encoding="utf-8") as file:
            file.write(text)
    for name, words in (*((it, ["-x", "ir", "-O3"]) for it in written), *((it, C_FLAGS) for it in module.sources)):
        to = f"{name.partition('.')[0]}.o"
        # In the folder itself, so that no path of this machine gets into what is made.
        run([clang, *FLAGS, *words, name, "-o", to], cwd=room)
        objects.append(to)
    run([f"{kit}/toolchain/bin/llvm-ar", "rcsD", "all.a", *objects], cwd=room)
    return f"{room}/all.a"


def link(kit: str, room: str, archive: str) -> str:
    """Links an archive to a module over a memory of 64 bits, by the kit's linker, which adds its guard and its helpers."""
    words = [f"{kit}/bin/rattle-link", "--target", TARGET, "--toolchain", f"{kit}/toolchain", "-o", f"{room}/wide.wasm", archive]
    report = run(words)
    if "import" in report:
        raise Failure(f"the module imports something: {report.strip()}")
    return f"{room}/wide.wasm"


def lower(room: str, wide: str, exports: frozenset[str]) -> bytes:
    """Makes a module over a memory of 32 bits of one over 64 bits, and returns its bytes."""
    narrow = f"{room}/narrow.wasm"
    run([
        "wasm-opt", "--enable-memory64", "--enable-bulk-memory", "--memory64-lowering", "--duplicate-function-elimination", wide, "-o",
        narrow,
    ])
    with open(narrow, "rb") as file:
        module = file.read()
    check_sections(module, exports)
    return module


def number(bytes_: bytes, at: int) -> tuple[int, int]:
    """Returns the unsigned number at a place of a module, and the place after it."""
    value = shift = 0
    while True:
        value |= (bytes_[at] & 0x7F) << shift
        shift, at = shift + 7, at + 1
        if bytes_[at - 1] < 0x80:
            return value, at


def sections(module: bytes) -> dict[int, tuple[int, int]]:
    """Returns the sections of a module: of each its number, where its content begins, and where it ends."""
    if module[:8] != b"\0asm\1\0\0\0":
        raise Failure("what was made isn't a module of WebAssembly")
    at = 8
    found: dict[int, tuple[int, int]] = {}
    while at < len(module):
        kind = module[at]
        size, begin = number(module, at + 1)
        found.setdefault(kind, (begin, begin + size))
        at = begin + size
    return found


def check_sections(module: bytes, exports: frozenset[str]) -> None:
    """Checks that a module imports nothing, has one memory of 32 bits that may grow, and exports these names."""
    found = sections(module)
    if 2 in found:
        raise Failure("the module imports something")
    begin = found[5][0]
    if module[begin : begin + 2] != b"\1\0":
        raise Failure("the module's memory isn't one of 32 bits that may grow")
    count, at = number(module, found[7][0])
    names = set()
    for _ in range(count):
        size, at = number(module, at)
        names.add(module[at : at + size].decode())
        at = number(module, at + size + 1)[1]
    if names != exports:
        raise Failure(f"the module exports {', '.join(sorted(names))}")


def module_of(kit: str, module: Module, compiled: Sequence[calls.Compiled]) -> bytes:
    """Returns the bytes of a module, made of the compiled calls of its crates."""
    with tempfile.TemporaryDirectory(prefix="sfq-module-") as room:
        texts = [retarget(text_of_module(kit, room, it.module)) for it in compiled]
        check_calls(texts, re.findall(r"\bsfq_proved_\w+(?=\()", "".join(module.texts().values())))
        return lower(room, link(kit, room, compile_all(kit, room, texts, module)), module.exports())


def make(module: Module, jobs: int = 0) -> bytes:
    """Proves the calls of a module, as far as that isn't done, and returns its bytes."""
    kit = find_kit()
    for it in module.crates:
        calls.prove(jobs, it)
    with tempfile.TemporaryDirectory(prefix="sfq-wasm-") as room:
        return module_of(kit, module, [calls.compile_calls(room, name=it) for it in module.crates])


def inputs(module: Module) -> str:
    """Returns a sum over all that a module is made of: its crates with all below them, the kit's logic, and the C."""
    total = hashlib.sha256("".join(calls.crate_of(it).sum for it in module.crates).encode())
    for text in (repository.read(os.path.realpath(__file__)), *module.texts().values()):
        total.update(text.encode())
    return total.hexdigest()
