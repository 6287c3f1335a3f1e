"""Draws instances with barred rooms, closures and days, and compares what the commands print with a plain desk."""
import os
import random
import subprocess

from blocked_faults import fault_of
from drawn import draw_blocked, draw_instance, draw_solution, set_out
from plain_audit import audit
from plain_desk import Desk, Rules, as_list, placed
from program import EXAMPLES, PROGRAM, call, check, check_run, words_of, write_files
from rules import Instance

DRAWN = 200
LINES = 40
FAULTS = 400
NOTHING = b"Blocked: 0 END."
REFUSALS = ("refused blocked", "refused barred", "refused unavailable")


def draw_edit(draw, rules, t):
    """The words of an edit, rather of what is placed and of what can be placed."""
    rows, courses, rooms = as_list(t), range(len(rules.course_names)), range(len(rules.room_names))
    c, slot = draw.choice(courses), draw.choice(rules.slots)
    if rows and draw.random() < 0.8:
        c, *slot, _ = draw.choice(rows)
    new, r = draw.choice(rules.slots), draw.choice(rooms)
    if draw.random() < 0.2:
        new, r = draw.choice([*((place[1:], room) for place, room in t.items()), (new, r)])
    if draw.random() < 0.3 and rules.instance.blocked:
        r, *new = draw.choice(sorted(rules.instance.blocked))
    other, *slot2, _ = draw.choice([*rows, (c, *slot, 0)])
    kind = draw.choice(("place", "place", "place", "place", "move", "move", "swap", "reroom", "drop"))
    c = draw.choice(courses) if kind == "place" else c
    parts = {"place": (new, r), "move": (slot, new, r), "swap": (slot, other, slot2), "reroom": (slot, r), "drop": (slot,)}[kind]
    return rules.words(kind, c, *parts).split(" ")


def draw_pattern(draw, rules, t):
    """The words of an edit in which its room and its new slot, or the second lecture of a swap, are mostly left open."""
    words = draw_edit(draw, rules, t)
    while words[0] == "drop":
        words = draw_edit(draw, rules, t)
    room, slot = {"place": (2, 3), "move": (4, 5), "reroom": (2, 5), "swap": (4, 5)}[words[0]]
    if words[0] == "swap" or draw.random() < 0.8:
        words[room] = "*"
    if words[0] != "reroom" and (words[0] == "swap" or draw.random() < 0.7):
        words[slot:] = ["*", "*"]
    return words


def draw_look(draw, rules, t):
    """The words of a look."""
    names = {kind: some for kind, some in rules.instance.names().items() if some and kind != "room"}
    kind = draw.choice([*names, "coursecost", "slot", "cost", "missing", "price", "price", "cheapest", "cheapest", "slots"])
    if kind == "price":
        return ["price", *draw_edit(draw, rules, t)]
    if kind == "cheapest":
        return ["cheapest", str(draw.choice((1, 3, 1000))), *draw_pattern(draw, rules, t)]
    if kind == "slots":
        words = draw_pattern(draw, rules, t)
        while words[-2:] != ["*", "*"]:
            words = draw_pattern(draw, rules, t)
        return ["slots", *words]
    if kind == "slot":
        return ["slot", *map(str, draw.choice(rules.slots))]
    if kind in ("cost", "missing"):
        return [kind]
    return [kind, draw.choice(names["course" if kind == "coursecost" else kind])]


def draw_line(draw, desk, planners):
    """The words of a line of a script."""
    rules, planner = desk.rules, draw.randrange(planners)
    if planner not in desk.drafts or draw.random() < 0.2:
        event = draw.choice(("open", "open", "open", "open", "commit", "refresh", "abandon", "status"))
        return ["show", *draw_look(draw, rules, desk.t)] if draw.random() < 0.1 else [str(planner), event]
    if draw.random() < 0.2:
        return [str(planner), "commit"]
    now = desk.drafts[planner].now
    if draw.random() < 0.3:
        return [str(planner), *draw.choice(([], ["peek"])), *draw_look(draw, rules, now)]
    return [str(planner), *draw_edit(draw, rules, now)]


def draw_day(draw, desk, planners):
    """Plays drawn lines at a plain desk. Gives them and their answers, as texts."""
    script = answers = ""
    for _ in range(LINES):
        words = draw_line(draw, desk, planners)
        script += " ".join(words) + "\n"
        answers += desk.answer(words) + "\n"
    return script, answers


def broken(draw, text):
    """A text of closures of which a word, rather a number, is another one, is left out, or stands twice; or a byte is."""
    words = text.split()
    numbers = [*range(1, min(len(words), 2)), *range(4, len(words) - 1, 4), *range(5, len(words) - 1, 4)]
    at = draw.choice(numbers or [0]) if draw.random() < 0.5 else draw.randrange(len(words))
    other = draw.choice([b"*", b"0", b"00", b"999999999", b"1000000000", b"2000001", b"2000000", b"5", b"05", b"9"])
    if draw.random() < 0.4:
        other = draw.choice([b"-1", b"x", b"room", b"teacher", b"course", b"END.", b"Blocked:", b"nobody", *words])
    way = draw.choice(("other", "other", "other", "other", "less", "more", "cut", "byte"))
    if way == "byte":
        at = draw.randrange(len(text) + 1)
        return text[:at] + draw.choice((b"\xff", b"\xc3", b"\x80", b"\xe2\x82", b"\xc3\xa4")) + text[at:]
    words[at:] = {"other": [other, *words[at + 1:]], "less": words[at + 1:], "more": [words[at], other, *words[at + 1:]], "cut": []}[way]
    return set_out(draw, [word.decode("utf-8", "surrogateescape") for word in words])


def write(folder, name, text):
    """A file with this text."""
    path = os.path.join(folder, name)
    with open(path, "wb") as opened:
        opened.write(text.encode())
    return path


class Drawn:
    """A drawn instance with its side files, and a solution as an opening."""

    def __init__(self, draw, folder):
        self.draw, self.folder = draw, folder
        self.seen = set()
        self.text, self.barred = draw_instance(draw)
        self.blocked = draw_blocked(draw, Instance(self.text, self.barred)) or draw_blocked(draw, Instance(self.text, self.barred))
        self.instance = Instance(self.text, self.barred, self.blocked)
        self.solution = draw_solution(draw, self.instance)
        self.lectures = self.instance.read_solution(self.solution)
        self.files = write_files(folder, self.text, self.solution, self.barred, self.blocked)
        self.sides = words_of(self.files)[2:]

    def check_reports(self, name):
        """Compares the reports, the rows of comparisons, and what `mend` leaves."""
        text, members = self.instance.report(self.lectures)
        check_run(f"{name}: check", "check", *words_of(self.files), wanted=text)
        status = 0 if members["complete"] else 5 if members["lawful"] else 4
        strict = call("compare", *words_of(self.files), "--strict")[0]
        check(f"{name}: compare", strict, status)
        t, others = placed(self.instance, self.lectures)
        desk = Desk(self.instance, t)
        rules = Rules(self.instance)
        said = "".join(f"timedesk: set aside {rules.course_names[c]} {rules.room_names[r]} {d} {p} {fault}\n"
                       for _, (c, d, p, r), fault in others)
        check_run(f"{name}: mend", "mend", *words_of(self.files), wanted=desk.solution(), said=said)
        if others:
            at, _, fault = others[0]
            run = ["run", self.files[0], os.devnull, "--start", self.files[1], *self.sides]
            check_run(f"{name}: an opening", *run, said=f"timedesk: opening {at} {fault}\n", status=1)
        return desk

    def check_day(self, name, desk):
        """Compares a day that begins with what `mend` leaves, its journal, its audits, and what it leaves."""
        start = ["--start", write(self.folder, "start", desk.solution()), *self.sides]
        opening = desk.t
        script, answers = draw_day(self.draw, desk, 3)
        self.seen = {answer for answer in answers.split("\n") if answer in REFUSALS}
        journal = os.path.join(self.folder, "journal")
        check_run(f"{name}: run", "run", self.files[0], write(self.folder, "script", script), *start, "--journal", journal, wanted=answers)
        with open(journal, encoding="utf-8", newline="") as opened:
            check(f"{name}: the journal", opened.read(), desk.journal())
        check_run(f"{name}: audit", "audit", self.files[0], journal, *start, wanted="agrees\n")
        check_run(f"{name}: list", "list", self.files[0], journal, *start, wanted=desk.solution())
        self.check_other_rules(name, opening, desk.journal(), [self.files[0], journal, *start[:2]])

    def check_other_rules(self, name, opening, journal, words):
        """Compares the audit of a journal with other closures, or none. These words name its files."""
        blocked = draw_blocked(self.draw, self.instance) or NOTHING
        files = write_files(os.path.join(self.folder, "other"), self.text, b"", self.barred, blocked)
        instance = Instance(self.text, self.barred, blocked)
        t, refused = placed(instance, as_list(opening))
        printed, said = "" if refused else audit(instance, t, journal.encode()), ""
        if refused:
            said = f"timedesk: opening {refused[0][0]} {refused[0][2]}\n"
        status = 0 if printed == "agrees\n" else 1
        check_run(f"{name}: audit of other rules", "audit", *words, *words_of(files)[2:], wanted=printed, said=said, status=status)

    def check_alone(self, name, opening):
        """Compares what one planner is answered in a crew, and at a seat of a desk with minutes."""
        desk = Desk(self.instance, {})
        script = answers = ""
        for _ in range(LINES):
            words = draw_line(self.draw, desk, 1)
            answers += ("already open" if words[0] == "show" and desk.drafts else desk.answer(words)) + "\n"
            script += " ".join(words if words[0] == "show" else words[1:]) + "\n"
        closing = f"journal {len(desk.entries)}\n{desk.costs()}"
        words = ["crew", self.files[0], write(self.folder, "script", script), *self.sides]
        check_run(f"{name}: crew", *words, wanted=f"planner 0\n{answers}{closing}")
        desk = Desk(self.instance, opening)
        lines = [line.split(" ") for line in script.split("\n")[:-1]]
        answers = "".join(desk.answer(words if words[0] == "show" else ["0", *words]) + "\n" for words in lines)
        minutes = os.path.join(self.folder, "minutes")
        write(self.folder, "minutes", "")
        start = ["--start", os.path.join(self.folder, "start"), *self.sides, "--minutes", minutes]
        done = subprocess.run([PROGRAM, "desk", self.files[0], "-", *start], input=script.encode(), capture_output=True, timeout=300)
        closing = f"journal {len(desk.entries)}\n{desk.costs()}"
        check(f"{name}: desk", (done.returncode, done.stdout.decode(), done.stderr.decode()), (0, answers, closing))
        check_run(f"{name}: journal", "journal", self.files[0], minutes, *self.sides, wanted=desk.journal())

    def check_listed(self, name):
        """Closures of teachers and courses are as the slots that the instance's own text lists."""
        rules = Rules(self.instance)
        listed = [(rules.course_names[c], d, p) for c, d, p in sorted(self.instance.unavailable)]
        words = [word.decode() for word in self.text.split()]
        head = [*words[:13], len(listed), *words[14:-1 - 3 * int(words[13])]]
        text = set_out(self.draw, [*head, *(word for entry in listed for word in entry), "END."])
        rooms = [(rules.room_names[r], d, p) for r, d, p in sorted(self.instance.blocked)]
        blocked = set_out(self.draw, ["Blocked:", len(rooms), *(word for entry in rooms for word in ("room", *entry)), "END."])
        files = write_files(os.path.join(self.folder, "other"), text, self.solution, self.barred, blocked)
        for command, *options in ("check", "--explain"), ("mend",), ("week",):
            wanted = call(command, *words_of(self.files), *options)
            check(f"{name}: {command}, listed", call(command, *words_of(files), *options), wanted)

    def check_broken(self, name):
        """Compares the fault of a text of closures that is broken somewhere."""
        text = broken(self.draw, self.blocked or b"Blocked: 1 room A 0 1 END.")
        fault = fault_of(self.instance, text)
        sides = words_of(write_files(os.path.join(self.folder, "other"), self.text, self.solution, self.barred, text))
        if fault:
            check_run(f"{name}: {fault}", "check", *sides, said=f"timedesk: blocked {fault}\n", status=1)
        else:
            text = Instance(self.text, self.barred, text).report(self.lectures)[0]
            check_run(f"{name}: no fault", "check", *sides, wanted=text)
        return fault[:2]


def check_nothing(drawn, name, solution):
    """All that any command prints is the same without closures as with a file that has none."""
    folder, (instance, *_) = drawn.folder, drawn.files
    start = write(folder, "start", solution)
    barred = ["--barred", drawn.files[2]] if drawn.barred is not None else []
    script, journal, minutes = (os.path.join(folder, file) for file in ("script", "journal", "minutes"))
    told = []
    for blocked in [], ["--blocked", write(folder, "nothing", NOTHING.decode())]:
        sides = [*barred, *blocked]
        runs = [call(command, instance, drawn.files[1], *options, *sides) for command, *options in (
            ("check", "--explain"), ("check", "--json", "--explain", "--strict"), ("compare", "--csv"), ("compare", "--json"),
            ("week",), ("page",), ("mend",))]
        runs += [call("week", instance, drawn.files[1], f"--{kind}={names[0]}", *sides)
                 for kind, names in drawn.instance.names().items() if names and "\0" not in names[0]]
        runs.append(call("run", instance, script, "--start", start, "--journal", journal, *sides))
        with open(journal, "rb") as opened:
            runs.append(opened.read())
        runs += [call(command, instance, journal, "--start", start, *sides) for command in ("audit", "list")]
        runs += [call("crew", instance, script, *sides), call("journal", instance, minutes, *sides)]
        told.append(runs)
    check(f"{name}: nothing is blocked", told[0], told[1])


def seen_in(drawn):
    """What of closures is in a drawn day."""
    seen = drawn.seen | {kind for kind in ("blocked", "closed", "barred") if getattr(drawn.instance, kind)}
    return seen | ({"barred and blocked"} if {"barred", "blocked"} <= seen else set())


def check_drawn(folder):
    """Draws days, and files with faults."""
    draw = random.Random(69)
    os.mkdir(os.path.join(folder, "other"))
    seen = []
    for n in range(DRAWN):
        name = f"drawn day {n}"
        drawn = Drawn(draw, folder)
        if not drawn.instance.courses:
            continue
        desk = drawn.check_reports(name)
        opening, solution = desk.t, desk.solution()
        drawn.check_day(name, desk)
        drawn.check_alone(name, opening)
        drawn.check_listed(name)
        check_nothing(drawn, name, solution)
        seen += seen_in(drawn)
    wanted = (*REFUSALS, "blocked", "closed", "barred and blocked")
    check("each of these in 15 days or more", [what for what in wanted if seen.count(what) < 15], [])
    check_faults(random.Random(69), folder)


def check_faults(draw, folder):
    """Draws texts of closures that are broken."""
    faults = {}
    drawn = None
    for n in range(FAULTS):
        if n % 10 == 0:
            drawn = Drawn(draw, folder)
        fault = drawn.check_broken(f"drawn fault {n}")
        faults[fault] = faults.get(fault, 0) + 1
    check("each fault 3 times or more", [fault for fault in ("", *(f"L{n}" for n in range(1, 9))) if faults.get(fault, 0) < 3], [])
