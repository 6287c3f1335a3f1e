"""Plays the lines of a script at the seats of a desk."""
import contextlib
import os
import select
import subprocess
import time

from program import PROGRAM

# the seats: of two planners, of one who does nothing, and of one who only looks
SEATS = ("0", "1", "2", "3")
IDLE, LAST = SEATS[2:]
WANTS = (b"no memory\n", b"no place\n")
# the sizes in bytes of a word of the command line as `owned_words` and as `serve` collect it; a list
# has room for 4 at least
WORD_SIZES, LEAST = (24, 16), 4
# a seat that is not opened, or says nothing, for so many seconds has ended
PATIENCE = 5


def held(path):
    """What a file holds; nothing where there is none."""
    if not os.path.exists(path):
        return b""
    with open(path, "rb") as file:
        return file.read()


def seat_of(line):
    """The seat at which a line of a script is typed, and what is typed there."""
    planner, rest = line.split(" ", 1)
    return (planner, rest) if planner in SEATS else (LAST, line)


class Seat:
    """The other ends of a seat's pipes: nothing here waits for the desk to open its own."""

    def __init__(self, path):
        self.path = path
        for ending in (".in", ".out"):
            os.mkfifo(path + ending)
        self.lines = os.open(path + ".in", os.O_RDWR)
        self.answers = os.open(path + ".out", os.O_RDONLY | os.O_NONBLOCK)

    def is_open(self):
        """Whether the desk holds the answers' end, before anything is typed."""
        try:
            os.read(self.answers, 1)
        except BlockingIOError:
            return True
        return False

    def hear(self):
        """A line of the desk, or less where the seat has ended."""
        heard, until = b"", time.monotonic() + PATIENCE
        while not heard.endswith(b"\n") and time.monotonic() < until:
            if not select.select([self.answers], [], [], 0.5)[0]:
                continue
            more = os.read(self.answers, 4096)
            if not more:
                break
            heard += more
        return heard

    def ask(self, line):
        """Types a line, and waits for its answer; or ends the lines, and waits until the seat has ended."""
        if line is None:
            self.end_lines()
        else:
            os.write(self.lines, line.encode(errors="surrogateescape") + b"\n")
        return self.hear()

    def end_lines(self):
        if self.lines is not None:
            os.close(self.lines)
            self.lines = None

    def open_again(self):
        """Lets a desk go on that opens the lines now, of which there are no more."""
        os.close(os.open(self.path + ".in", os.O_RDWR))


class Played:
    """How a script was played: the answers, how often a line was typed again, and how the desk ended: its status, what it
    printed and said, and its minutes."""

    def __init__(self, folder, words, lines, marks):
        seats = {name: Seat(os.path.join(folder, name)) for name in SEATS}
        minutes = os.path.join(folder, "minutes")
        paths = [seat.path for seat in seats.values()]
        command = [PROGRAM, "desk", words[0], *paths, *words[1:], "--minutes", minutes]
        self.lists = [(size, len(command)) for size in WORD_SIZES]
        env = {**os.environ, "MET": os.path.join(folder, "met"), **marks}
        desk = subprocess.Popen(command, env=env, stdout=subprocess.PIPE, stderr=subprocess.PIPE)
        self.answers, self.again = [], 0
        if self.all_sit(seats.values(), desk):
            self.type(seats, lines)
        for seat in seats.values():
            seat.end_lines()
        until = time.monotonic() + 6 * PATIENCE
        while desk.poll() is None and time.monotonic() < until:
            for seat in seats.values():
                seat.open_again()
            time.sleep(0.002)
        desk.kill()
        printed, said = desk.communicate()
        for seat in seats.values():
            os.close(seat.answers)
        self.left = (desk.returncode, printed, said, held(minutes))
        self.met = held(env["MET"]).decode()

    def collected(self):
        """The requests of `collect` for room for all words of the command line."""
        return [f"more {size * max(LEAST, count)}\n" for size, count in self.lists]

    @staticmethod
    def all_sit(seats, desk):
        """Waits until the desk has opened each seat, and answers whether it did. Each seat has a thread, beside the first one:
        where there are fewer some time behind the first seat, a thread has ended that opens none any more."""
        first, until = None, time.monotonic() + PATIENCE
        while desk.poll() is None and time.monotonic() < until:
            are_open = [seat.is_open() for seat in seats]
            if all(are_open):
                return True
            if any(are_open):
                first = first or time.monotonic()
                with contextlib.suppress(OSError):
                    threads = len(os.listdir(f"/proc/{desk.pid}/task"))
                    if threads <= len(seats) and time.monotonic() > first + 0.5:
                        return False
            time.sleep(0.001)
        return False

    def type(self, seats, lines):
        """Types the lines, each once more where memory is wanted, until a seat has ended."""
        for name, line in lines:
            answer = seats[name].ask(line)
            if answer in WANTS:
                self.again += 1
                answer = seats[name].ask(line)
            if line is not None and not answer.endswith(b"\n"):
                return
            self.answers.append(answer)
