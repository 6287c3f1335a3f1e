"""The file of the keys: what others may know is not taken."""
import os

from served import SMALL, WebTest


class KeyFile(WebTest):
    def setUp(self):
        super().setUp()
        self.open("day", SMALL, "2")
        self.assertEqual(self.office("web", self.path("day"), "--new-key", "0")[0], 0)
        self.keys = self.path("day/web.keys")
        with open(self.keys) as file:
            self.text = file.read()

    def refused(self, *parts):
        status, printed, said = self.office("web", self.path("day"), "--port", "0")
        self.assertEqual((status, printed), (3, ""))
        for part in ("day/web.keys", *parts):
            self.assertIn(part, said)
        self.assertEqual(said.count("\n"), 1)

    def write_keys(self, text):
        with open(self.keys, "w") as file:
            file.write(text)

    def mended(self, name):
        self.assertEqual(self.office("web", self.path("day"), "--new-key", name)[0], 0)

    def test_mode(self):
        os.chmod(self.keys, 0o644)
        self.refused("others can read it (mode 0644): chmod 600")
        os.chmod(self.keys, 0o600)
        self.mended("1")

    def test_owner(self):
        os.chown(self.keys, 1234, -1)
        self.refused("it is another user's")

    def test_link(self):
        os.rename(self.keys, self.path("elsewhere"))
        os.symlink(self.path("elsewhere"), self.keys)
        self.refused("it is a link")

    def test_short(self):
        lines = [line.split() for line in self.text.splitlines()]
        for key in ("x", "", "1" * 31, "\xe4" * 40, "a b"):
            kept = [f"{name} {key if name == '1' else own}\n" for name, own in lines]
            self.write_keys("".join(kept))
            if len(key.split()) == 1:
                self.refused("the key of 1", "--new-key 1")
        self.mended("1")

    def test_equal(self):
        names = [line.split()[0] for line in self.text.splitlines()]
        self.write_keys("".join(f"{name} {32 * 'k'}\n" for name in names))
        self.refused("have the same key")
        for name in names[1:]:
            self.office("web", self.path("day"), "--new-key", name)
        self.mended("0")

    def test_made_beforehand(self):
        """What others have made for the keys to be written into is not written into."""
        os.remove(self.keys)
        theirs = self.write("day/web.keys.new", "", 0o666)
        kept = os.open(theirs, os.O_RDONLY)
        self.mended("0")
        self.assertEqual(os.fstat(kept).st_size, 0)
        os.close(kept)
        self.assertEqual(os.stat(self.keys).st_mode & 0o777, 0o600)
