"""The modules of the page that need no browser, by node alone: tests/web/page has their tests."""
import os
import shutil
import subprocess
import tempfile
import unittest

from served import HERE

STATIC = os.path.join(HERE, "tools/office/web/static")
TESTS = os.path.join(HERE, "tests/web/page")


@unittest.skipUnless(shutil.which("node"), "node is not installed: no module of the page was run")
class Modules(unittest.TestCase):
    def setUp(self):
        """A folder in which node takes each file as a module, as a browser does."""
        folder = tempfile.TemporaryDirectory()
        self.addCleanup(folder.cleanup)
        self.room = folder.name
        shutil.copytree(STATIC, self.room, dirs_exist_ok=True)
        shutil.copytree(TESTS, self.room, dirs_exist_ok=True)
        with open(os.path.join(self.room, "package.json"), "w", encoding="utf-8") as file:
            file.write('{ "type": "module" }')

    def node(self, *words):
        return subprocess.run(["node", *words], capture_output=True, text=True, cwd=self.room)

    def test_modules(self):
        for name in sorted(os.listdir(TESTS)):
            with self.subTest(name):
                done = self.node("--test", name)
                self.assertEqual(done.returncode, 0, done.stdout + done.stderr)
                self.assertNotIn("tests 0", done.stdout)

    def test_that_a_fault_is_found(self):
        """A test that fails there fails here."""
        path = os.path.join(self.room, "numbers.js")
        with open(path, encoding="utf-8") as file:
            text = file.read()
        with open(path, "w", encoding="utf-8") as file:
            file.write(text.replace("costs the same", "costs nothing"))
        self.assertNotEqual(self.node("--test", "numbers.mjs").returncode, 0)
