#!/usr/bin/env python3
"""Compares the module of the page of checks with the program, byte for byte, over drawn files, most of them damaged; and opens the page.

PROGRAM names another program, TREE a copy of these sources in which `rt ci` has built the libraries, MODULES two files with modules that are
there already, the one with 64-bit memory first, PAGE a page with them, PAIRS how many pairs are drawn. Where something lacks that a
part needs, it is passed over with a word. The last line is 'N passed, M failed'.
"""
import base64
import collections
import hashlib
import json
import os
import random
import re
import shutil
import subprocess
import sys
import tempfile

sys.dont_write_bytecode = True
sys.path.insert(0, os.path.join(os.path.dirname(os.path.abspath(__file__)), "check_page"))
from drawn import draw_blocked, draw_instance, draw_solution  # noqa: E402
from points import WAYS, break_text  # noqa: E402
from opened import open_page  # noqa: E402
from program import HERE, PROGRAM, check, end  # noqa: E402
from rules import Instance  # noqa: E402

PAIRS = int(os.environ.get("PAIRS", "10000"))
PACKAGE = os.path.join(HERE, "tools/check_page")
STATIC = os.path.join(PACKAGE, "static")
BORDER = os.path.join(STATIC, "border.js")
RUN = os.path.join(HERE, "tests/check_page/module.mjs")
# what a page can ask for, and the words of the program for it
WANTED = {
    "report": ["check", "--explain"],
    "sentences": ["check", "--sentences"],
    "row": ["check", "--json", "--name"],
    "findings": ["check", "--csv", "--explain"],
    "page": ["page"],
}
NAMES = ["drawn", "two words", "wide 数学", "a:1:2: S3: b", "<b>"]
ENDINGS = {"instance": "ctt", "solution": "sol", "barred": "barred", "blocked": "blocked"}
DAYS = [None, "Mon,Tue", "Mon,,<b>,数学,Fri,Sat,Sun"]


def skip(why):
    """Says what is passed over."""
    print(f"1 skipped: {why}")


def make_modules(folder):
    """The files of the modules and of the page, or nothing, with a word, where they cannot be made."""
    named = os.environ.get("MODULES")
    if named:
        return [*named.split(os.pathsep), os.environ["PAGE"]]
    page, module = (os.path.join(folder, name) for name in ("check.html", "module"))
    words = [os.path.join(HERE, "check-page"), page, "--module", module]
    tree = os.environ.get("TREE")
    done = subprocess.run([*words, *(["--tree", tree] if tree else [])], capture_output=True, text=True)
    if done.returncode == 0:
        return [module, f"{module}.narrow", page]
    if re.search("there is no (rt|wasm-opt)|for WebAssembly", done.stderr):
        skip(done.stderr.strip())
        return None
    check("the page is made", done.stderr, "")
    return None


def draw_files(draw):
    """Files by their kinds, of which some are damaged."""
    text, barred = draw_instance(draw)
    instance = Instance(text, barred)
    found = {"instance": text, "solution": draw_solution(draw, instance)}
    if barred is not None:
        found["barred"] = barred
    blocked = draw_blocked(draw, instance) if draw.random() < 0.5 else None
    if blocked is not None:
        found["blocked"] = blocked
    for kind in found:
        if draw.random() < 0.25:
            found[kind] = break_text(draw, found[kind], WAYS)
    return found


class Cases:
    """Drawn pairs: what the program says of each, and the lines that ask the module for it."""

    def __init__(self, folder):
        self.folder, self.draw = folder, random.Random(90)
        self.lines, self.answers, self.seen = [], [], collections.Counter()

    def program(self, wanted, files, days):
        """The status and the sum of what the program prints, or of what it says of a fault."""
        names = {kind: name for kind, (name, _) in files.items()}
        words = [*WANTED[wanted], names.pop("instance"), names.pop("solution"), "--point"]
        for kind, name in names.items():
            words += [f"--{kind}", name]
        if wanted == "page" and days:
            words += ["--days", days]
        done = subprocess.run([PROGRAM, *words], capture_output=True, cwd=self.folder, timeout=300)
        self.seen[wanted, done.returncode] += 1
        text = done.stdout if done.returncode == 0 else done.stderr
        return f"{done.returncode} {hashlib.sha256(text).hexdigest()}"

    def add(self, wanted, texts, days=None):
        """A case, which the program answers now, and a module later."""
        name = self.draw.choice(NAMES)
        files = {kind: (f"{name}.{ENDINGS[kind]}", text) for kind, text in texts.items()}
        for file, text in files.values():
            with open(os.path.join(self.folder, file), "wb") as opened:
                opened.write(text)
        self.answers.append(self.program(wanted, files, days))
        packed = {kind: {"name": file, "text": base64.b64encode(text).decode()} for kind, (file, text) in files.items()}
        self.lines.append(json.dumps({"wanted": wanted, "days": days or "", **packed}))

    def fill(self, count):
        for _ in range(count):
            self.add(self.draw.choice(list(WANTED)), draw_files(self.draw), self.draw.choice(DAYS))

    def compare(self, name, module, *flags):
        """Compares what a module answers with what the program has said."""
        path = os.path.join(self.folder, "cases")
        with open(path, "w", encoding="utf-8") as file:
            file.writelines(f"{line}\n" for line in self.lines)
        done = subprocess.run(["node", *flags, RUN, BORDER, module, path], capture_output=True, text=True)
        found = done.stdout.splitlines()
        check(f"{name} ends", (done.returncode, len(found)), (0, len(self.lines)))
        if done.returncode:
            print(done.stderr[-1000:])
        for number, (one, wanted) in enumerate(zip(found, self.answers)):
            check(f"{name}, case {number}: {self.lines[number][:200]}", one, wanted)


def flags_of_node():
    """The words with which this node takes memories of 64 bits, or nothing if it does not."""
    ask = "process.stdout.write(String(WebAssembly.validate(Uint8Array.of(0,97,115,109,1,0,0,0,5,3,1,4,0))))"
    for words in ([], ["--experimental-wasm-memory64"]):
        done = subprocess.run(["node", *words, "-e", ask], capture_output=True, text=True)
        if done.stdout == "true":
            return words
    return None


def compare_modules(folder, wide, narrow):
    if not shutil.which("node"):
        skip("node is not installed: the module was not compared with the program")
        return
    cases = Cases(folder)
    cases.fill(PAIRS)
    flags = flags_of_node()
    if flags is None:
        skip("this node has no 64-bit memories: only the lowered module was compared")
    else:
        cases.compare("module", wide, *flags)
    cases.compare("lowered module", narrow)
    for wanted in WANTED:
        for status in (0, 1):
            check(f"{wanted} with status {status} was drawn", cases.seen[wanted, status] > 0, True)


def run_tool(name, package, words, **how):
    """Runs a tool over the sources of the page, if it is there."""
    if not shutil.which(name):
        skip(f"{name} is not installed (Debian's {package}): it did not look at the page's sources")
        return
    done = subprocess.run([name, *words], stdout=subprocess.PIPE, stderr=subprocess.STDOUT, text=True, **how)
    if done.returncode:
        print(done.stdout[-2000:])
    check(f"{name} finds nothing", done.returncode, 0)


def check_sources(folder):
    """The types and the form of the page's sources, and its modules that need no browser."""
    scripts = [os.path.join(STATIC, name) for name in sorted(os.listdir(STATIC)) if name.endswith(".js")]
    tools = {**os.environ, "NODE_PATH": "/usr/share/nodejs"}
    config = os.path.join(PACKAGE, "eslint.json")
    run_tool("eslint", "eslint", ["--no-eslintrc", "-c", config, "-f", "unix", *scripts], env=tools)
    run_tool("tsc", "node-typescript", ["-p", PACKAGE])
    types = ["--strict", "--python-version", "3.9", "--cache-dir", os.devnull, "-p", "check_page"]
    run_tool("mypy", "mypy", types, cwd=os.path.join(HERE, "tools"))
    modules = os.path.join(folder, "modules")
    shutil.copytree(STATIC, modules)
    shutil.copy(os.path.join(HERE, "tests/check_page/texts.mjs"), modules)
    with open(os.path.join(modules, "package.json"), "w", encoding="utf-8") as file:
        file.write('{ "type": "module" }')
    run_tool("node", "nodejs", ["--test", "texts.mjs"], cwd=modules)
    for first in ("start", "worker"):
        words = [sys.executable, "-B", "-c", f"from check_page.page import bundled; print(bundled({first!r}))"]
        bundle = subprocess.run(words, capture_output=True, text=True, cwd=os.path.join(HERE, "tools"))
        with open(os.path.join(folder, f"{first}.mjs"), "w", encoding="utf-8") as file:
            file.write(bundle.stdout)
        run_tool("node", "nodejs", ["--check", f"{first}.mjs"], cwd=folder)


def main():
    with tempfile.TemporaryDirectory() as folder:
        check_sources(folder)
        made = make_modules(folder)
        if made:
            compare_modules(folder, *made[:2])
            open_page(made[2], folder, skip)
    end()


if __name__ == "__main__":
    main()
