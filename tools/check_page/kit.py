"""The programs that make the module: those of the kit, and Debian's wasm-opt."""
from __future__ import annotations

import dataclasses
import os
import shutil
import subprocess
from collections.abc import Sequence

from office.refused import Refused


@dataclasses.dataclass(frozen=True)
class Kit:
    """The folder of the kit, and wasm-opt."""

    folder: str
    wasm_opt: str

    @property
    def toolchain(self) -> str:
        return os.path.join(self.folder, "toolchain")

    def tool(self, name: str) -> str:
        """A program of the toolchain."""
        return os.path.join(self.toolchain, "bin", name)

    def own(self, name: str) -> str:
        """A program of the kit itself."""
        return os.path.join(self.folder, "bin", name)


def find_kit() -> Kit:
    """The kit, by the page that `rt doc` names."""
    if not shutil.which("rt"):
        raise Refused("there is no rt: the kit that proves and compiles the module")
    told = subprocess.run(["rt", "doc"], capture_output=True, text=True, check=False)
    kit = Kit(os.path.dirname(told.stdout.strip()), shutil.which("wasm-opt") or "")
    for tool in (kit.tool("clang"), kit.tool("llvm-ar"), kit.own("rattle"), kit.own("rattle-link")):
        if not os.access(tool, os.X_OK):
            raise Refused(f"the kit has no {os.path.basename(tool)}: there is no {tool}")
    targets = subprocess.run(
        [kit.tool("clang"), "--print-targets"], capture_output=True, text=True, check=False
    )
    if "wasm64" not in targets.stdout:
        raise Refused("the kit's clang does not compile for WebAssembly")
    if not kit.wasm_opt:
        raise Refused("there is no wasm-opt: Debian has it in the package binaryen")
    return kit


def run(words: Sequence[str], folder: str) -> None:
    """Runs a program to its end, whose lines are told where it fails."""
    done = subprocess.run(
        words, cwd=folder, stdout=subprocess.PIPE, stderr=subprocess.STDOUT, text=True, check=False
    )
    if done.returncode != 0:
        said = "\n".join(done.stdout.splitlines()[-20:])
        raise Refused(f"{os.path.basename(words[0])} ended with {done.returncode}\n{said}")
