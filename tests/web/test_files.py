"""The files of the page: plain modules, short, checked, and without anything from elsewhere; and
the types of both the page and the package."""
import os
import re
import shutil
import subprocess
import sys
import unittest

from served import HERE

STATIC = os.path.join(HERE, "tools/office/web/static")
PACKAGE = os.path.join(HERE, "tools/office")
FOLDERS = ("", "day", "seat", "work", "words", "terminal", "past", "data", "web")
TOOLS = os.path.join(HERE, "tools")
# modules that know nothing of the page; the others have a picture that may still be missing
STRICT = re.compile(r"static/(card|held|help|inspector|keys|menu|numbers|queue|search)\.js\(")


def lines_of(path):
    with open(path, encoding="utf-8") as file:
        return file.read().split("\n")


class Files(unittest.TestCase):
    def files(self, folder, ending):
        return [os.path.join(folder, one) for one in os.listdir(folder) if one.endswith(ending)]

    def test_short(self):
        """So many lines and columns at most."""
        for folder, ending, most in (
            (STATIC, ".js", 250),
            (STATIC, ".css", 350),
            (STATIC, ".html", 350),
            *((os.path.join(PACKAGE, folder), ".py", 350) for folder in FOLDERS),
        ):
            found = self.files(folder, ending)
            self.assertTrue(found)
            for path in found:
                lines = lines_of(path)
                self.assertLess(len(lines), most + 2, path)
                for number, line in enumerate(lines, 1):
                    self.assertLessEqual(len(line), 100, f"{path}:{number}")
                    self.assertEqual(line, line.rstrip(), f"{path}:{number}")
                    self.assertNotIn("\t", line)

    def test_folders(self):
        """The package has these folders, and no two of its modules have one name."""
        found = [name for name in os.listdir(PACKAGE) if os.path.isdir(os.path.join(PACKAGE, name))]
        self.assertEqual({"", *found} - {"__pycache__"}, set(FOLDERS))
        names = [
            name
            for _, _, files in os.walk(PACKAGE)
            for name in files
            if name.endswith(".py") and name != "__init__.py"
        ]
        self.assertEqual(len(names), len(set(names)))

    def test_as_a_module(self):
        """`python3 -m office` is `office`."""
        module = [sys.executable, "-B", "-m", "office", "--help"]
        script = [os.path.join(HERE, "office"), "--help"]
        done = [
            subprocess.run(words, capture_output=True, text=True, cwd=TOOLS, check=True)
            for words in (module, script)
        ]
        self.assertEqual(done[0].stdout, done[1].stdout)

    def test_nothing_from_elsewhere(self):
        """No address of another host, no text set as markup, no script or style inside a page."""
        for path in self.files(STATIC, ".js") + self.files(STATIC, ".html"):
            text = "\n".join(lines_of(path))
            self.assertIsNone(re.search(r"https?://(?!www\.w3\.org)", text), path)
            for word in ("innerHTML", "outerHTML", "document.write", "eval(", "insertAdjacent"):
                self.assertNotIn(word, text, path)
        for path in self.files(STATIC, ".html"):
            text = "\n".join(lines_of(path))
            self.assertIsNone(re.search(r"<style|<script>|\sstyle=|\son[a-z]+=", text), path)

    def test_imports(self):
        """Each module takes in what there is, and each is needed."""
        modules = {os.path.basename(path): path for path in self.files(STATIC, ".js")}
        needed = {"seat.js", "reader.js"}
        for path in modules.values():
            for name in re.findall(r'from "\./([a-z]+\.js)"', "\n".join(lines_of(path))):
                self.assertIn(name, modules, path)
                needed.add(name)
        self.assertEqual(needed, set(modules))

    @unittest.skipUnless(shutil.which("node"), "node is not installed: no module was parsed")
    def test_parsed(self):
        for path in self.files(STATIC, ".js"):
            done = subprocess.run(["node", "--check", path], capture_output=True, text=True)
            self.assertEqual((done.returncode, done.stderr), (0, ""))

    @unittest.skipUnless(shutil.which("eslint"), "eslint is not installed: no module was checked")
    def test_checked(self):
        """Names, forms and spaces, as eslint.json has them. Debian's modules may be none of this
        node's."""
        words = ["eslint", "--no-eslintrc", "-c", os.path.join(PACKAGE, "web/eslint.json")]
        done = subprocess.run(
            [*words, "-f", "unix", *self.files(STATIC, ".js")],
            capture_output=True,
            text=True,
            env={**os.environ, "NODE_PATH": "/usr/share/nodejs"},
        )
        self.assertEqual((done.returncode, done.stdout, done.stderr), (0, "", ""))

    def test_message_types(self):
        """The types of what a page is sent are those of its messages."""
        done = subprocess.run(
            [os.path.join(TOOLS, "page_types.py"), "--check"], capture_output=True, text=True
        )
        self.assertEqual((done.returncode, done.stdout, done.stderr), (0, "", ""))

    @unittest.skipUnless(shutil.which("tsc"), "tsc is not installed: no type of the page was checked")
    def test_typed_page(self):
        """The types of the page's modules hold, as tsconfig.json has it; each asks for that."""
        for path in self.files(STATIC, ".js"):
            self.assertEqual(lines_of(path)[0], "// @ts-check", path)
        words = ["tsc", "-p", os.path.join(PACKAGE, "web")]
        done = subprocess.run(words, capture_output=True, text=True)
        self.assertEqual((done.returncode, done.stdout, done.stderr), (0, "", ""))

    @unittest.skipUnless(shutil.which("tsc"), "tsc is not installed: no type of the page was checked")
    def test_strict(self):
        """In these modules also what may be null or missing is looked at."""
        words = ["tsc", "-p", os.path.join(PACKAGE, "web"), "--strict", "--pretty", "false"]
        done = subprocess.run(words, capture_output=True, text=True)
        wrong = [line for line in done.stdout.splitlines() if STRICT.search(line)]
        self.assertEqual((wrong, done.stderr), ([], ""))

    @unittest.skipUnless(shutil.which("mypy"), "mypy is not installed, so no type was checked")
    def test_typed(self):
        """Each function of the office and of these tools has types, and they hold, in the oldest
        Python that runs it."""
        words = ["mypy", "--strict", "--python-version", "3.9", "--cache-dir", os.devnull]
        words += ["-p", "office", "-p", "edits"]
        for name in ("flags", "page_types", "strip_checks", "gate"):
            words += ["-m", name]
        done = subprocess.run(words, capture_output=True, text=True, cwd=TOOLS)
        self.assertEqual(done.returncode, 0, done.stdout + done.stderr)
