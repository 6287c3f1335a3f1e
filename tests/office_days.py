"""Days at the seats of a desk: each answer is waited for before the next line is sent."""
import contextlib
import os
import subprocess

from desks import NO_MINUTES, PATIENCE, SMALL, SPRING, SPRING_SOL, Desk, Seat, audit, call, room, with_threads
from pages import typed_days
from program import EXAMPLES, PROGRAM, check

# the answers to the lines of the example, in which a look is stale at the end
PHANTOM = (
    *("opened", "lectures 0", "done", "opened", "done", "committed 1", "stale slot 0 2"),
    "costs 10 15 0 0",
)


def example():
    """The example, each line at the seat of its planner, with its answer."""
    with open(os.path.join(EXAMPLES, "phantom.txt")) as file:
        for line, answer in zip(file.read().splitlines(), PHANTOM):
            planner, rest = ("0", line) if line.startswith("show") else line.split(" ", 1)
            yield int(planner), rest, answer


def typed(title):
    """A day of the page, each line at the seat of its planner, with its answer."""
    for pair in typed_days()[title]["day"]:
        line, answer = pair.split(" -> ")
        planner, line = line.split(" ", 1)
        yield int(planner), line, answer


def two_planners():
    """The worked days of two planners, line by line."""
    for name, day, entries, costs in [
        ("the day of two planners", typed("The day of two planners"), 2, "costs 0 10 0 0"),
        ("the day with a stale draft", [*example(), *typed("The day with a stale draft")], 1, "costs 10 15 0 0"),
    ]:
        desk = Desk(2)
        for planner, line, answer in day:
            check(f"{name}: {planner} {line}", desk.seats[planner].ask(line), answer)
        for seat in desk.seats:
            check(f"{name}: leaving", seat.ask("leave"), "left")
        check(f"{name}: its end", desk.end(), (0, f"journal {entries}\n{costs}\n", ""))
        for seat in desk.seats:
            check(f"{name}: nothing comes behind the end", seat.hear(), "")
            seat.go()
        check(f"{name}: audited", audit(desk)[:2], ((0, ""), (0, "agrees\n", "")))


# anna has a draft open in which a room is not yet seen to be blocked, ben has what is left
BLOCKED = "Blocked: 2 room A 0 * teacher t1 1 1 END."


def closures():
    """A day of two planners under closures; its audit without them does not agree."""
    folder = room()
    with open(os.path.join(folder, "blocked"), "w") as file:
        file.write(BLOCKED)
    sides = ["--blocked", os.path.join(folder, "blocked")]
    desk = Desk(2, *sides)
    for planner, line, answer in typed("Closures"):
        check(f"closures: {planner} {line}", desk.seats[planner].ask(line), answer)
    for seat in desk.seats:
        seat.ask("leave")
        seat.go()
    status, printed, said = desk.end()
    check("closures: the end", (status, printed.split("\n")[0], said), (0, "journal 2", ""))
    found = audit(desk, *sides)
    check("closures: audited", found[:2], ((0, ""), (0, "agrees\n", "")))
    check("closures: audited without them", audit(desk)[1], (1, "differs 1 1\n", ""))


def one_seat():
    """One who sits at once, on standard input and standard output."""
    text = b"open\nplace geo A 0 1\n\n  \t\ncommit\nshow course geo\nleave\nopen\n"
    check(
        "the seat -",
        call("desk", SMALL, "-", text=text),
        (0, "opened\ndone\ncommitted 1\nlectures 1 geo A 0 1\nleft\n", NO_MINUTES + "journal 1\ncosts 0 15 2 0\n"),
    )
    check(
        "a last line without an end counts, and its draft is given up",
        call("desk", SMALL, "-", text=b"open\nplace geo A 0 1"),
        (0, "opened\ndone\n", NO_MINUTES + "journal 0\ncosts 0 20 0 0\n"),
    )
    check("a seat without a line", call("desk", SMALL, "-"), (0, "", NO_MINUTES + "journal 0\ncosts 0 20 0 0\n"))
    check(
        "an opening",
        call("desk", SPRING, "-", "--start", SPRING_SOL, text=b"show cost\n")[1].startswith("costs "),
        True,
    )
    long = b"open\n" + b"x" * 65536 + b"\n" + b"y" * 65537 + b"\n" + b"z" * 1000000 + b"\nabandon"
    check(
        "lines that are too long",
        call("desk", SMALL, "-", text=long)[1],
        "opened\nbad line 1 " + "x" * 65536 + "\nbad line\nbad line\nabandoned\n",
    )
    fits = b"open" + b" " * 65532 + b"\n" + b"abandon" + b" " * 65530 + b"\n" + b" " * 70000 + b"\nshow cost"
    check(
        "a line of 65,536 bytes, one more, and one of blanks",
        call("desk", SMALL, "-", text=fits)[1],
        "opened\nbad line\nbad line\ncosts 0 20 0 0\n",
    )


def eight_seats():
    """Each answer of eight at once is there before the next line is sent."""
    desk = Desk(8, "--start", SPRING_SOL, instance=SPRING)
    heard = [[] for _ in range(8)]

    def work(p):
        seat = desk.seats[p]
        for _ in range(20):
            heard[p] += [seat.ask(line) for line in ("open", "cost", "abandon")]
        heard[p].append(seat.ask("leave"))
        seat.go()

    with_threads(work, 8)
    costs = [line for line in heard[0] if line.startswith("costs")][0]
    check("eight seats at once", heard, [["opened", costs, "abandoned"] * 20 + ["left"]] * 8)
    check("their end", desk.end(), (0, f"journal 0\n{costs}\n", ""))


def goes_away():
    """A planner goes away, as long as someone keeps his seat, and finds his draft again; another closes his output."""
    desk = Desk(3)
    first, second, third = desk.seats
    check("a draft", [first.ask("open"), first.ask("place geo A 0 1")], ["opened", "done"])
    keeper = os.open(first.path + ".in", os.O_WRONLY), os.open(first.path + ".out", os.O_RDONLY)
    first.go()
    check("another planner meanwhile", [second.ask("open"), second.ask("commit")], ["opened", "committed 1"])
    first.sit()
    for end in keeper:
        os.close(end)
    check("the draft is there", first.ask("commit"), "committed 2")
    third.answers.close()
    third.answers = None
    third.say("show cost")
    with contextlib.suppress(BrokenPipeError):
        # the seat that could not write may have closed its input by now
        third.say("show cost")
    check("a seat that closed its output holds up nobody", second.ask("show cost"), "costs 0 15 2 0")
    first.go()
    second.say("leave")
    second.go()
    check("the end of three", desk.end(), (0, "journal 2\ncosts 0 15 2 0\n", ""))
    third.go()


def waits_for_nobody():
    """Nobody waits for a seat at which nobody sits."""
    folder = room()
    seats = [Seat(folder, str(p)) for p in range(2)]
    process = subprocess.Popen(
        [PROGRAM, "desk", SMALL, *(s.path for s in seats)], stdout=subprocess.PIPE, stderr=subprocess.PIPE
    )
    check("that there are no minutes is said before a line is read", process.stderr.readline().decode(), NO_MINUTES)
    seats[1].sit()
    check("the other seat is empty", seats[1].ask("open"), "opened")
    check("it can leave", seats[1].ask("leave"), "left")
    seats[0].sit()
    check("the empty seat is taken", seats[0].ask("open"), "opened")
    seats[0].go()
    printed, said = process.communicate(timeout=PATIENCE)
    check("both have ended", (process.returncode, printed, said), (0, b"journal 0\ncosts 0 20 0 0\n", b""))
