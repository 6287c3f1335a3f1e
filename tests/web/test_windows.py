"""The windows of a link: who makes room for whom, and what is kept of them. They need no server."""
import asyncio
import os
import sys
import unittest

HERE = os.path.dirname(os.path.dirname(os.path.dirname(os.path.abspath(__file__))))
sys.path.insert(0, os.path.join(HERE, "tools"))

from office.web.lines import Line, Stream  # noqa: E402
from office.web.windows import Windows  # noqa: E402


def listening(windows, name, holder):
    window = windows.begin(name)
    window.holder = holder
    windows.listen(name)
    return window


class Held(unittest.IsolatedAsyncioTestCase):
    async def test_who_holds_most_makes_room(self):
        """One login that holds nearly all windows takes none of others by more of them."""
        windows = Windows(20, makes_room=True)
        first = [listening(windows, f"d{one}", f"reader {one}") for one in range(5)]
        for number in range(100):
            listening(windows, f"m{number}", "mallory")
        self.assertEqual([one for one in first if windows.by_name.get(one.name) is not one], [])
        self.assertEqual(len(windows.all()), 20)

    async def test_connection_that_ends(self):
        """A window whose connection has ended is known for some time, with its acts; nobody is
        there meanwhile."""
        windows = Windows()
        window = listening(windows, "w1", "")

        async def act():
            return {"number": 1}

        await window.once("1", act)
        window.lose()
        self.assertIs(windows.begin("w1"), window)
        windows.listen("w1").lose()
        self.assertLess(windows.idle_for(), 5)
        windows.gone_since -= 40
        self.assertGreater(windows.idle_for(), 30)
        window.asked_at -= 30
        windows.drop_silent()
        self.assertEqual(windows.all(), [])

    async def test_one_act_at_a_time(self):
        """An act that is asked again while it is under way is not begun again."""
        window, begun = Windows().begin("w1"), []

        async def act():
            begun.append(1)
            await asyncio.sleep(0.01)
            return {"number": len(begun)}

        twice = await asyncio.gather(window.once("1", act), window.once("1", act))
        self.assertEqual([*twice, await window.once("1", act)], [{"number": 1}] * 3)
        self.assertEqual(await window.once("2", act), {"number": 2})


class Packed(unittest.TestCase):
    def test_each_line_by_itself(self):
        """Lines that were packed once are parts of any stream, from wherever it begins."""
        import gzip

        lines = [Line({"picture": "c0109 r01 " * 50, "number": one}) for one in range(3)]
        for first in range(3):
            stream = Stream(True)
            sent = b"".join(map(stream.bytes_of, lines[first:])) + stream.end()
            self.assertEqual(gzip.decompress(sent), b"".join(one.text for one in lines[first:]))
        self.assertLess(len(lines[0].packed), len(lines[0].text) / 2)


if __name__ == "__main__":
    unittest.main()
