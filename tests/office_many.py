"""Many planners at once, desks that are killed, and how long a line waits for its answer."""
import os
import random
import signal
import threading
import time

from desks import FAST, SPRING, SPRING_SOL, Desk, audit, call, with_threads
from program import check


def sixty_four():
    """64 seats with 200 drafts each: their minutes agree, and give the timetable that was shown."""
    desk = Desk(64, "--start", SPRING_SOL, instance=SPRING, folder=FAST)
    with open(SPRING_SOL) as file:
        lectures = [line.split() for line in file if line.strip()]
    told = [[] for _ in range(64)]

    def work(p):
        seat = desk.seats[p]
        chance = random.Random(p)
        for _ in range(200):
            course, _, day, period = chance.choice(lectures)
            seat.ask("open")
            seat.ask(f"course {course}")
            if chance.random() < 0.5:
                seat.ask(f"move {course} {day} {period} {chance.choice(lectures)[1]} {chance.randrange(5)} {chance.randrange(5)}")
            told[p].append(seat.ask("commit"))

    with_threads(work, 64)
    shown = {}
    for course in {lecture[0] for lecture in lectures}:
        words = desk.seats[0].ask(f"show course {course}").split()
        found = words[2:]
        shown[course] = sorted(tuple(found[i : i + 4]) for i in range(0, len(found), 4))
    for seat in desk.seats:
        seat.ask("leave")
        seat.go()
    status, printed, said = desk.end()
    numbers = sorted(int(a.split()[1]) for answers in told for a in answers if a.startswith("committed"))
    check("64 seats: each number once", numbers, list(range(1, len(numbers) + 1)))
    check("64 seats: the end", (status, printed.split("\n")[0], said), (0, f"journal {len(numbers)}", ""))
    start = "--start", SPRING_SOL
    (status, said), audited, journal = audit(desk, *start, instance=SPRING)
    check("64 seats: the journal", (status, said, journal.split("\n")[0]), (0, "", f"journal {len(numbers)}"))
    check("64 seats: audited", audited, (0, "agrees\n", ""))
    status, listed, said = call("list", SPRING, os.path.join(desk.folder, "journal"), *start)
    by_course = {course: [] for course in shown}
    for line in listed.split("\n")[:-1]:
        words = line.split()
        by_course[words[0]].append(tuple(words))
    check("64 seats: listed", (status, said, {c: sorted(ls) for c, ls in by_course.items()}), (0, "", shown))


def killed(times=50):
    """Killed at any moment: what was told is in the minutes, with its draft."""
    wrong = []
    for nth in range(times):
        chance = random.Random(nth)
        desk = Desk(4, folder=FAST if nth % 2 else None)
        told = {}
        lock = threading.Lock()

        def work(p):
            seat = desk.seats[p]
            try:
                for turn in range(100000):
                    look = ("cost", "slot 0 1", "course geo", f"coursecost {('alg', 'top', 'geo')[turn % 3]}")[p]
                    if seat.ask("open") != "opened":
                        return
                    answer = seat.ask(look)
                    commit = seat.ask("commit").split()
                    if len(commit) == 2 and commit[0] == "committed":
                        with lock:
                            told[int(commit[1])] = f"entry {p} 1\n{look}\n{answer}\n"
            except (BrokenPipeError, ValueError):
                pass

        ender = threading.Timer(chance.uniform(0.0, 0.4), lambda: desk.process.send_signal(signal.SIGKILL))
        ender.start()
        with_threads(work, 4)
        ender.join()
        status = desk.end()[0]
        for seat in desk.seats:
            seat.go()
        if not os.path.exists(desk.minutes):
            if told or status != -signal.SIGKILL:
                wrong.append((nth, "no minutes"))
            continue
        (status, _), audited, journal = audit(desk)
        blocks = ["entry" + block for block in journal[: -len("END.\n")].split("entry")[1:]]
        missing = [n for n, draft in told.items() if n > len(blocks) or blocks[n - 1] != draft]
        if status != 0 or audited != (0, "agrees\n", "") or missing:
            wrong.append((nth, status, audited, missing))
    check(f"killed {times} times", wrong, [])


def latency():
    """Not a test: how long eight at once wait for their answers on spring, and for commits with minutes."""
    for minutes in (False, True):
        desk = Desk(8, "--start", SPRING_SOL, instance=SPRING, minutes=minutes)
        times = {"line": [], "commit": []}

        def work(p):
            seat = desk.seats[p]
            with open(SPRING_SOL) as file:
                names = [line.split()[0] for line in file if line.strip()]
            for turn in range(60 if minutes else 400):
                for line in ("open", "cost", f"course {names[(37 * p + turn) % len(names)]}", "slot 0 0", "commit"):
                    begun = time.perf_counter()
                    seat.ask(line)
                    times["commit" if line == "commit" else "line"].append(time.perf_counter() - begun)
            seat.ask("leave")
            seat.go()

        with_threads(work, 8)
        desk.end()
        for kind, found in times.items():
            found.sort()
            print(
                f"minutes {minutes}, {kind}: middle {found[len(found) // 2] * 1000:.3f} ms, "
                f"99 in 100 below {found[len(found) * 99 // 100] * 1000:.3f} ms"
            )
