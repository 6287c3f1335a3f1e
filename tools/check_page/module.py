"""Makes the WebAssembly module of `ctt_web`.

The kit proves the crate and lowers what is proved to one module of LLVM, as for a static library
for x86-64. Here that module is compiled for 64-bit WebAssembly by the kit's clang with the flags
that the kit itself passes for it, with a heap (heap.c) in place of the kit's, which stands on
malloc, and linked by the kit's linker. wasm-opt makes of it one for browsers that have no memories
with addresses of 64 bits.
"""
from __future__ import annotations

import contextlib
import importlib
import io
import os
import re
import shutil
import sys
import tempfile
from typing import NamedTuple

from check_page.kit import Kit, run
from office.refused import Refused

HERE = os.path.dirname(os.path.abspath(__file__))
CRATE = "ctt_web"
KEPT = "out/incremental"
TARGET = "wasm64-unknown-unknown"
EXPORTS = tuple(f"timedesk_{name}" for name in ("report", "sentences", "row", "findings", "page"))
FLAGS = f"""--target={TARGET} -mcpu=lime1 -mllvm -expand-div-rem-bits=64 -mllvm
    -expand-fp-convert-bits=64 -ffunction-sections -fdata-sections -mllvm -trap-unreachable -mllvm
    -no-x86-call-frame-opt -mllvm -disable-machine-licm -mllvm -disable-postra-machine-licm -mllvm
    -sink-common-insts=false --no-default-config -no-canonical-prefixes -fintegrated-cc1
    -fno-crash-diagnostics -Werror -Wno-override-module -c""".split()
# what the kit says of the processor for x86-64, and what it says of WebAssembly
FOR_X86 = ' "probe-stack"="inline-asm" "stack-probe-size"="3072" "target-cpu"="x86-64-v2"'
FOR_WASM = ' "no-builtin-bcmp" "no-builtin-memcmp" "no-builtin-strlen" "target-cpu"="lime1"'
# in place of the kit's clang: copies the module that it is called for
CLANG = """#!/bin/sh
for word in "$@"; do [ "$word" = module.bc ] && cp module.bc "{room}/taken.bc"; done
exec "{clang}" "$@"
"""


# the one instruction of x86-64 that the kit's module asks for by name: each of 16 bytes is the one
# whose number the other operand has, or 0 where that has its high bit
SHUFFLE = "@llvm.x86.ssse3.pshuf.b.128("
OURS = '@"check_page::shuffle"('


class Modules(NamedTuple):
    """The module, and the same for browsers without memories of 64 bits."""

    wide: bytes
    narrow: bytes


def crate_words(kit: Kit, tree: str) -> list[str]:
    """The words with which the kit proves and builds the crate of a checkout."""
    folder = os.path.join(tree, "crates", CRATE)
    sys.path.insert(0, os.path.join(kit.folder, "bin"))
    try:
        rtlib = importlib.import_module("rtlib")
    finally:
        del sys.path[0]
    was = os.getcwd()
    os.chdir(folder)
    # what `rt` has proved of the same files is not proved again
    os.makedirs(KEPT, exist_ok=True)
    try:
        with contextlib.redirect_stdout(io.StringIO()):
            words = rtlib.Crate(folder, tree, {}).words(["--jobs", "1"])
    finally:
        os.chdir(was)
    return [*words, "--incremental", KEPT]


def lay_toolchain(kit: Kit, room: str) -> str:
    """The kit's toolchain, but for its clang, which also keeps what it is called for."""
    tools = os.path.join(room, "tools")
    os.makedirs(os.path.join(tools, "bin"))
    os.symlink(os.path.join(kit.toolchain, "lib"), os.path.join(tools, "lib"))
    for name in os.listdir(os.path.join(kit.toolchain, "bin")):
        if name != "clang":
            os.symlink(kit.tool(name), os.path.join(tools, "bin", name))
    clang = os.path.join(tools, "bin/clang")
    with open(clang, "w", encoding="utf-8") as file:
        file.write(CLANG.format(room=room, clang=kit.tool("clang")))
    os.chmod(clang, 0o755)
    return tools


def shuffle() -> str:
    """A function of LLVM that does what the instruction of x86-64 does."""
    lines = [f"define internal <16 x i8> {OURS}<16 x i8> %bytes, <16 x i8> %numbers) {{"]
    made = "zeroinitializer"
    for at in range(16):
        lines += [
            f"  %n{at} = extractelement <16 x i8> %numbers, i32 {at}",
            f"  %low{at} = and i8 %n{at}, 15",
            f"  %byte{at} = extractelement <16 x i8> %bytes, i8 %low{at}",
            f"  %none{at} = icmp slt i8 %n{at}, 0",
            f"  %one{at} = select i1 %none{at}, i8 0, i8 %byte{at}",
            f"  %all{at} = insertelement <16 x i8> {made}, i8 %one{at}, i32 {at}",
        ]
        made = f"%all{at}"
    return "\n".join([*lines, f"  ret <16 x i8> {made}", "}", ""])


def retargeted(text: str) -> str:
    """The module of LLVM for WebAssembly: the triple and the layout that it states are overridden
    by the target, as the kit does it, and so are the attributes of its functions."""
    text = text.replace(FOR_X86, FOR_WASM)
    text = re.sub(rf"^declare [^\n]*{re.escape(SHUFFLE)}[^\n]*\n", "", text, flags=re.M)
    text = text.replace(SHUFFLE, OURS) + shuffle()
    for left in ("x86-64", "llvm.x86"):
        if left in text:
            raise Refused(f"the kit's module has {left} where it is not known: another kit?")
    for name in EXPORTS:
        begins = rf"^(define void @{name}\(.*\) #\d+)"
        text, count = re.subn(begins, rf'\1 "wasm-export-name"="{name}"', text, flags=re.M)
        if count != 1:
            raise Refused(f"the kit's module does not have {name}: another kit?")
    return text


def lower(kit: Kit, tree: str, room: str) -> None:
    """Proves the crate, and writes its module of LLVM for WebAssembly, web.ll."""
    words = [kit.own("rattle"), "build", *crate_words(kit, tree)]
    words += ["--toolchain", lay_toolchain(kit, room), "--backend", "llvm", "-o", f"{room}/web.a"]
    run(words, os.path.join(tree, "crates", CRATE))
    plain = ["-x", "ir", "-S", "-emit-llvm", "-Xclang", "-disable-llvm-passes"]
    run([kit.tool("clang"), *plain, "taken.bc", "-o", "taken.ll"], room)
    with open(os.path.join(room, "taken.ll"), encoding="utf-8") as file:
        text = retargeted(file.read())
    with open(os.path.join(room, "web.ll"), "w", encoding="utf-8") as file:
        file.write(text)


def link(kit: Kit, room: str) -> None:
    """Compiles the module of LLVM and the heap, and links them: wide.wasm, and narrow.wasm."""
    heap = os.path.join(HERE, "heap.c")
    as_c = ["-O2", "-fwrapv", "-ffreestanding", "-nostdinc", "-Wall", "-x", "c"]
    run([kit.tool("clang"), *FLAGS, "-O3", "-x", "ir", "web.ll", "-o", "web.o"], room)
    run([kit.tool("clang"), *FLAGS, *as_c, heap, "-o", "heap.o"], room)
    run([kit.tool("llvm-ar"), "rcsD", "libweb.a", "web.o", "heap.o"], room)
    words = [kit.own("rattle-link"), "--target", TARGET, "--toolchain", kit.toolchain]
    run([*words, "-o", "wide.wasm", "libweb.a"], room)
    lowers = ["--enable-memory64", "--memory64-lowering"]
    features = ["--enable-bulk-memory", "--enable-sign-ext", "--enable-nontrapping-float-to-int"]
    features += ["--enable-mutable-globals", "--enable-multivalue"]
    run([kit.wasm_opt, *lowers, *features, "wide.wasm", "-o", "narrow.wasm"], room)


def make_modules(kit: Kit, tree: str) -> Modules:
    """The modules of a checkout, over the libraries that `rt` has built there."""
    room = tempfile.mkdtemp(prefix="check-page-")
    try:
        lower(kit, tree, room)
        link(kit, room)
        found = []
        for name in ("wide.wasm", "narrow.wasm"):
            with open(os.path.join(room, name), "rb") as file:
                found.append(file.read())
        return Modules(*found)
    finally:
        shutil.rmtree(room, ignore_errors=True)
