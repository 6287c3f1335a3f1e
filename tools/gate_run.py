"""Runs the parts of a test run side by side, prints each whole when it has ended, and ends them."""
from __future__ import annotations

import contextlib
import dataclasses
import os
import pathlib
import shutil
import signal
import subprocess
import sys
import threading
import time
from typing import BinaryIO, Mapping, Optional, Sequence

import gate_tree
from gate_parts import EDITS, PROOFS, PROVED, Need, Outcome, Part, Times, clock, how_ended, judge
from gate_tree import TOP

# what each part prints is kept here
LOGS = TOP / "out/test"
# seconds that parts have to end, and what they began after them
PATIENCE = 3.0
# seconds between two looks at what has ended
BEAT = 0.1
# seconds that tests wait for what is to come, as other parts run beside them
LONG = "120"


@dataclasses.dataclass(frozen=True)
class Work:
    """What is asked of a run."""

    rows: Sequence[Sequence[Part]]
    lanes: int
    all_edits: bool = False
    write: bool = False


@dataclasses.dataclass(frozen=True)
class Call:
    """A command, where it runs, and what it is told beside its words."""

    words: Sequence[str]
    at: pathlib.Path
    told: Mapping[str, str]


class Awaited:
    """Something that parts wait for: it comes, or it does not."""

    def __init__(self) -> None:
        self.is_settled, self.has_come = threading.Event(), False

    def settle(self, has_come: bool) -> None:
        """Says once whether it has come."""
        if not self.is_settled.is_set():
            self.has_come = has_come
            self.is_settled.set()

    def wait(self) -> bool:
        self.is_settled.wait()
        return self.has_come


def processes() -> dict[int, tuple[int, str]]:
    """The parent of each process, and when it was begun."""
    found = {}
    for name in filter(str.isdigit, os.listdir("/proc")):
        try:
            text = pathlib.Path(f"/proc/{name}/stat").read_text(errors="replace")
        except OSError:
            continue
        # the name, which is in brackets, may hold any character
        fields = text.rpartition(")")[2].split()
        if fields[0] not in "ZX":
            found[int(name)] = int(fields[1]), fields[19]
    return found


def begun_by(parent: int) -> dict[int, str]:
    """The processes below a process, each with when it was begun."""
    all_found, below, size = processes(), {parent: ""}, 0
    while len(below) > size:
        size = len(below)
        below.update({it: begun for it, (up, begun) in all_found.items() if up in below})
    del below[parent]
    return below


def still(found: Mapping[int, str]) -> list[int]:
    """Those of the processes that have not ended."""
    now = processes()
    return [it for it, begun in found.items() if it in now and now[it][1] == begun]


def signal_all(found: Mapping[int, str], number: int) -> None:
    for process in still(found):
        with contextlib.suppress(OSError):
            os.kill(process, number)


class Run:
    """A test run: its parts run in threads, one for each row."""

    def __init__(self, work: Work) -> None:
        self.work, self.begun = work, time.monotonic()
        self.proves = any(PROOFS in row for row in work.rows)
        # held while something is printed, and while a process is begun or its end is taken
        self.printing, self.lock = threading.Lock(), threading.Lock()
        self.running: set[int] = set()
        self.is_stopped = False
        # the signal that ends the run
        self.ended_by = 0
        self.outcomes: list[Outcome] = []
        self.lacking: dict[Need, list[str]] = {}
        self.room: Optional[pathlib.Path] = None
        self.proved: set[str] = set()
        self.refused = False
        self.awaited = {need: Awaited() for need in Need}
        self.told = {"PATIENCE": LONG, **os.environ}
        if self.proves:
            # what is tested is what is proved
            for name in ("PROGRAM", "TRIALS", "TIMEDESK"):
                self.told.pop(name, None)
        else:
            self.find_programs()
        self.threads = [threading.Thread(target=self.run_row, args=(row,)) for row in work.rows]

    def find_programs(self) -> None:
        """Takes the programs that stand here, or that are named."""
        for need in Need:
            path = os.environ.get(need.name) or gate_tree.program_of(TOP, need.value)
            self.awaited[need].settle(os.access(path, os.X_OK))

    def start(self) -> None:
        LOGS.mkdir(parents=True, exist_ok=True)
        for thread in self.threads:
            thread.start()

    def is_alive(self) -> bool:
        return any(thread.is_alive() for thread in self.threads)

    def wait(self) -> None:
        """Waits until all rows have ended, or a signal has come, and ends them then."""
        # (a signal that interrupts a join has the thread taken for one that has ended)
        while self.is_alive() and not self.ended_by:
            time.sleep(BEAT)
        if self.ended_by:
            self.say("ending all parts")
            self.stop()

    def clean(self) -> None:
        if self.room:
            shutil.rmtree(self.room, ignore_errors=True)

    def stop(self) -> None:
        """Ends all parts, and what they have begun: by ever stronger signals."""
        with self.lock:
            self.is_stopped = True
            found = begun_by(os.getpid())
            parts = {process: begun for process, begun in found.items() if process in self.running}
        for awaited in self.awaited.values():
            awaited.settle(False)
        signal_all(parts, signal.SIGINT)
        for number in (signal.SIGTERM, signal.SIGKILL):
            until = time.monotonic() + PATIENCE
            # parts may end what they have begun; what they leave is ended after them
            while time.monotonic() < until and (
                self.is_alive() if number == signal.SIGTERM else still(found)
            ):
                time.sleep(BEAT)
            found.update(begun_by(os.getpid()))
            signal_all(found, number)
        for thread in self.threads:
            thread.join()

    def seconds(self) -> float:
        return time.monotonic() - self.begun

    def say(self, text: str) -> None:
        self.show(f"== {clock(self.seconds())} {text}\n".encode())

    def show(self, text: bytes) -> None:
        """Prints lines, and nothing of another part among them."""
        with self.printing:
            sys.stdout.buffer.write(text)
            sys.stdout.buffer.flush()

    def run_row(self, row: Sequence[Part]) -> None:
        for part in row:
            lacking = [need for need in part.needs if not self.awaited[need].wait()]
            if part == EDITS:
                self.wait_for_others()
            if self.is_stopped:
                return
            if lacking:
                self.lacking.setdefault(lacking[0], []).append(part.name)
                continue
            outcome = self.run_part(part)
            self.outcomes.append(outcome)
            if outcome.failed:
                self.say(f"{part.name}: {outcome.failure()}")

    def wait_for_others(self) -> None:
        """Waits for the other rows: edits take all processors, and no screen is to wait for one."""
        for thread in self.threads:
            if thread is not threading.current_thread():
                thread.join()

    def run_part(self, part: Part) -> Outcome:
        """Runs a part; what goes wrong with that has failed, too."""
        try:
            if part == PROOFS:
                return self.prove()
            call = self.call_edits() if part == EDITS else self.call_test(part)
            return self.run_call(part, call)
        except Exception as error:
            return Outcome(part.name, 0, 1, wrong=f"it could not be run: {error!r}")

    def call_test(self, part: Part) -> Call:
        tree = {"TREE": str(self.tree())} if self.room else {}
        return Call([str(TOP / "tests" / part.file)], TOP, {**self.told, **tree})

    def call_edits(self) -> Call:
        """Tries edits over the libraries that were proved, of all crates if all were proved."""
        words = ["nice", "python3", "-Bu", "-m", "edits"]
        words += ["--tree", str(self.tree()), "--edits", str(TOP)]
        words += ["--all"] * self.work.all_edits + ["--write"] * self.work.write
        words += ["--lanes", str(self.work.lanes)]
        if self.refused:
            words += sorted(self.proved)
            if not self.proved:
                raise ValueError("no crate was proved")
        path = os.pathsep.join(filter(None, [str(TOP / "tools"), self.told.get("PYTHONPATH")]))
        return Call(words, TOP, {**self.told, "PYTHONPATH": path})

    def tree(self) -> pathlib.Path:
        """The copy that is proved."""
        if not self.room:
            raise ValueError("nothing was copied")
        return self.room / "tree"

    def begin(self, call: Call, output: Optional[BinaryIO]) -> subprocess.Popen[bytes]:
        """Begins a command that prints to a file, or to a pipe of ours."""
        with self.lock:
            if self.is_stopped:
                raise ValueError("the run was ended")
            process = subprocess.Popen(
                call.words,
                cwd=call.at,
                env=call.told,
                stdin=subprocess.DEVNULL,
                stdout=output or subprocess.PIPE,
                stderr=subprocess.STDOUT,
            )
            self.running.add(process.pid)
        return process

    def end(self, process: subprocess.Popen[bytes]) -> tuple[int, float]:
        """Waits for a command: its status, and the seconds of processor that it took."""
        os.waitid(os.P_PID, process.pid, os.WEXITED | os.WNOWAIT)
        with self.lock:
            _, status, usage = os.wait4(process.pid, 0)
            self.running.discard(process.pid)
        if process.stdout:
            process.stdout.close()
        process.returncode = os.waitstatus_to_exitcode(status)
        return process.returncode, usage.ru_utime + usage.ru_stime

    def run_call(self, part: Part, call: Call) -> Outcome:
        """Runs a part that is printed when it has ended."""
        began, log = self.seconds(), LOGS / f"{part.name}.txt"
        self.say(f"{part.name} begins")
        with open(log, "wb") as output:
            status, processor = self.end(self.begin(call, output))
        text = log.read_bytes()
        if text and not text.endswith(b"\n"):
            text += b"\n"
        took = f"{(self.seconds() - began) / 60:.1f} minutes from {clock(began)} on"
        head = f"== {clock(self.seconds())} {part.name} has ended, {took}; {how_ended(status)}:\n"
        self.show(head.encode() + text)
        times = Times(began, self.seconds() - began, processor)
        return judge(part.name, text.decode(errors="replace"), status, times)

    def prove(self) -> Outcome:
        """Proves a copy, prints each line as it comes, and fetches what tests run."""
        began = self.seconds()
        try:
            self.say(f"{PROOFS.name} begins, in {self.work.lanes} lanes")
            self.room = gate_tree.make_room()
            gate_tree.copy_tree(TOP, self.tree())
            told = {**self.told, "RT_JOBS": str(self.work.lanes), "PYTHONUNBUFFERED": "1"}
            process = self.begin(Call(["nice", "rt", "ci"], self.tree(), told), None)
            text = self.follow(process)
            status, processor = self.end(process)
        finally:
            for awaited in self.awaited.values():
                awaited.settle(False)
        self.say(f"{PROOFS.name} has ended; {how_ended(status)}")
        times = Times(began, self.seconds() - began, processor)
        outcome = judge(PROOFS.name, text, status, times)
        self.refused = outcome.failed > 0
        return outcome

    def follow(self, process: subprocess.Popen[bytes]) -> str:
        """Passes on what `rt ci` prints, until it has ended."""
        lines = []
        with open(LOGS / f"{PROOFS.name}.txt", "wb") as log:
            for line in process.stdout or ():
                self.show(line)
                log.write(line)
                log.flush()
                lines.append(line.decode(errors="replace"))
                proved = PROVED.fullmatch(lines[-1].rstrip("\n"))
                if proved:
                    self.proved.add(proved[1])
                    self.take(proved[1])
        return "".join(lines)

    def take(self, crate: str) -> None:
        """Takes the program of a crate, if tests need it."""
        for need in Need:
            if need.value == crate:
                try:
                    has_come = gate_tree.fetch(self.tree(), crate)
                except OSError as error:
                    has_come = False
                    self.say(f"the program of {crate} could not be fetched: {error}")
                if need == Need.PROGRAM and has_come and not gate_tree.note_build(self.tree()):
                    self.say("the build is not noted: the sources have changed since it began")
                self.awaited[need].settle(has_come)
