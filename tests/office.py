#!/usr/bin/env python3
"""Runs desks with seats, as the program was built: each answer is waited for before the next line is sent. Words name some of the
tests; `latency` measures.

PROGRAM names another program. The last line is 'N passed, M failed'.
"""
import os
import select
import signal
import subprocess
import sys

sys.dont_write_bytecode = True
from desks import PATIENCE, SMALL, call, room  # noqa: E402
from office_days import closures, eight_seats, goes_away, one_seat, two_planners, waits_for_nobody  # noqa: E402
from office_many import killed, latency, sixty_four  # noqa: E402
from office_minutes import cuts, full_disk, lists, refusals, unseen  # noqa: E402
from program import HERE, PROGRAM, check, end  # noqa: E402


def office_script():
    """A day with `office`: two planners, of whom one goes away and comes back."""
    folder = os.path.join(room(), "day")
    office = os.path.join(HERE, "office")
    environment = dict(os.environ, TIMEDESK=PROGRAM)

    def sit(planner, text, seconds=20):
        done = subprocess.run(
            [office, "sit", folder, str(planner)], input=text, capture_output=True, timeout=seconds, text=True
        )
        return done.returncode, done.stdout, done.stderr

    def words(*more):
        return subprocess.run([office, *more], capture_output=True, text=True, env=environment, timeout=60)

    check("office without words", words().returncode, 2)
    check("office for 65", words("open", folder, SMALL, "65").returncode, 3)
    check("no office", words("sit", folder, "0").returncode, 3)
    process = subprocess.Popen(
        [office, "open", folder, SMALL, "3"],
        stdout=subprocess.PIPE,
        stderr=subprocess.PIPE,
        env=environment,
        text=True,
        start_new_session=True,
        # a test that runs in the background ignores this signal, and so would the office
        preexec_fn=lambda: signal.signal(signal.SIGINT, signal.SIG_DFL),
    )
    check("the office says that it is open", process.stderr.readline().startswith("office: open, seats 0 to 2:"), True)
    check("its folder is its owner's", os.stat(folder).st_mode & 0o777, 0o700)
    check("an office is open there", words("open", folder, SMALL, "3").stderr, f"office: an office is open in {folder}\n")
    check("a first planner goes away", sit(0, "open\nplace geo A 0 1\n"), (0, "opened\ndone\n", ""))
    check("a second one commits", sit(1, "open\nplace top B 0 2\ncommit\n"), (0, "opened\ndone\ncommitted 1\n", ""))
    held = subprocess.Popen(
        [office, "sit", folder, "0"], stdin=subprocess.PIPE, stdout=subprocess.PIPE, text=True
    )
    held.stdin.write("course geo\n")
    held.stdin.flush()
    check("the first one finds his draft", held.stdout.readline(), "lectures 1 geo A 0 1\n")
    status, printed, said = sit(0, "")
    check("his seat is taken", (status, printed, " sits at seat 0, since " in said), (3, "", True))
    held.stdin.write("commit\nleave\n")
    held.stdin.flush()
    check("he commits and leaves", held.stdout.read(), "committed 2\nleft\n")
    held.wait(timeout=20)
    held.stdin.close()
    held.stdout.close()
    check("his seat has ended", sit(0, "")[0], 3)
    check("no such seat", sit(7, "")[:2], (3, ""))
    third = subprocess.Popen(
        [office, "sit", folder, "2"], stdin=subprocess.PIPE, stdout=subprocess.PIPE, stderr=subprocess.PIPE, text=True
    )
    third.stdin.write("open\n")
    third.stdin.flush()
    check("a third one sits down", third.stdout.readline(), "opened\n")
    # as Ctrl-C in the terminal of the office does, which reaches all that stand in it
    os.killpg(process.pid, signal.SIGINT)
    heard = select.select([third.stderr], [], [], 20)[0]
    said = third.stderr.readline() if heard else ""
    answers, _ = third.communicate("show cost\nabandon\nleave\n", 20)
    check("who still sits is answered when the office is closed", answers, "costs 10 10 2 0\nabandoned\nleft\n")
    check("and is told that it closes", said.startswith("office: the office closes in "), True)
    printed, _ = process.communicate(timeout=PATIENCE)
    check("the office is closed", (process.returncode, printed), (0, "journal 2\ncosts 10 10 2 0\n"))
    left = ["0.log", "0.sitter", "1.log", "1.sitter", "2.log", "2.sitter", "day.json", "instance.ctt", "minutes", "names", "office", "spare"]
    check("its pipes are gone", sorted(os.listdir(folder)), left)
    closed = words("close", folder)
    check("the day is closed", (closed.returncode, closed.stdout.split("\n")[0]), (0, "day: 2 drafts accepted, the audit agrees"))
    status, journal, said = call("journal", SMALL, os.path.join(folder, "minutes"))
    with open(os.path.join(folder, "journal")) as file:
        check("its journal", (status, journal, said), (0, file.read(), ""))


def main():
    signal.signal(signal.SIGPIPE, signal.SIG_IGN)
    if sys.argv[1:] == ["latency"]:
        latency()
        return
    only = sys.argv[1:]
    tests = [one_seat, two_planners, closures, eight_seats, goes_away, waits_for_nobody, refusals, full_disk, unseen, cuts, lists]
    tests += [office_script, sixty_four, killed]
    for test in tests:
        if only and test.__name__ not in only:
            continue
        signal.alarm(PATIENCE)
        try:
            test()
        except Exception as error:
            check(f"{test.__name__} comes to its end", repr(error), "")
    signal.alarm(0)
    end()


if __name__ == "__main__":
    main()
