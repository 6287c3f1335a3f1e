"""Draws instances and scripts, and compares what each slot offers with the prices of all edits that lead there, each asked of the desk by
itself; with a plain desk; and with `cheapest`, beside which a look of these reads the same rows."""
import os
import random

from blocked_drawn import draw_edit
from drawn import PIECES, draw_blocked, draw_instance, draw_solution
from plain_audit import audit
from plain_desk import FAULTS, Desk, Rules, placed
from program import call, check, check_run, words_of, write_files
from rules import Instance

DRAWN = 300
STEPS = 40
# names as any others, and such as words of looks and answers
NAMES = {**{kind: PIECES[kind] for kind in ("plain", "of other letters", "like fixed words", "like numbers")},
         "like marks": ["*", "-", "none", "slots", "-7", "4", "clash", "place"]}


class Look:
    """A look at what each slot offers: the words in front of it, and its own."""

    def __init__(self, rules, where, words):
        self.rules, self.where, self.words = rules, where, words

    def edits(self):
        """The edits of the pattern as they are typed, for each slot those that lead there, by room or course."""
        _, kind, name, *rest = self.words
        rooms = self.rules.room_names if kind == "swap" or rest[-3] == "*" else [rest[-3]]
        for d, p in self.rules.slots:
            if kind == "swap":
                yield [f"swap {name} {rest[0]} {rest[1]} {other} {d} {p}" for other in self.rules.course_names]
            elif kind == "move":
                yield [f"move {name} {rest[0]} {rest[1]} {room} {d} {p}" for room in rooms]
            else:
                yield [f"place {name} {room} {d} {p}" for room in rooms]

    def questions(self):
        """The lines that ask for all of this in the same state, without a call: for the lectures of the course, the cheapest edit, and
        each price."""
        beside = self.where if self.where[0] == "show" else [self.where[0], "peek"]
        asked = [["course", self.words[2]], ["cheapest", "1", *self.words[1:]]]
        asked += [["price", edit] for some in self.edits() for edit in some]
        return [" ".join([*beside, *words]) for words in asked]

    def fault(self, lectures):
        """Why no edit of the pattern can be made, whatever is left open, by the answer that tells the lectures of the course."""
        _, kind, name, *rest = self.words
        words = lectures.split(" ")[2:]
        slots = list(zip(words[2::4], words[3::4]))
        if kind == "place":
            wanted = self.rules.instance.courses[self.rules.course[name]][2]
            return "full" if len(slots) >= wanted else None
        return None if (rest[0], rest[1]) in slots else "notplaced"

    def offers(self, answers):
        """What each slot offers, by the answers to all prices."""
        answers = iter(answers)
        for some in self.edits():
            prices, faults = [], []
            for edit in some:
                word, told = next(answers).split(" ", 1)
                if word == "price":
                    prices.append((int(told), edit))
                else:
                    faults.append((FAULTS.index(told.split(" ")[0]), told))
            if prices:
                least = min(price for price, _ in prices)
                yield next(f"{least} {edit}" for price, edit in prices if price == least)
            elif faults:
                last = max(rank for rank, _ in faults)
                yield next(f"- {told}" for rank, told in faults if rank == last)
            else:
                yield "- none"

    def check(self, name, answer, answers):
        """Compares the answer to the look with those to its questions. Gives what the slots offer."""
        lectures, cheapest, *prices = answers
        name = " ".join([f"{name}:", *self.where, *self.words])
        fault = self.fault(lectures)
        offers = list(self.offers(prices))
        check(name, answer, f"refused {fault}" if fault else " ".join(["slots", str(len(offers)), *offers]))
        told = [offer for offer in offers if not offer.startswith("- ")]
        if fault:
            check(f"{name}: the cheapest", cheapest, f"refused {fault}")
            return [fault]
        least = min((int(offer.split(" ")[0]) for offer in told), default=None)
        check(f"{name}: the cheapest", cheapest in [f"prices 1 {offer}" for offer in told] or cheapest == "prices 0" and not told, True)
        check(f"{name}: the least", cheapest.split(" ")[2:3], [] if least is None else [str(least)])
        return [offer.split(" ")[1] if offer.startswith("- ") else "price" for offer in offers]


def draw_pattern(draw, rules, t):
    """The words of a look at what each slot offers, rather to a lecture that is placed, or missing, than to another one."""
    courses = range(len(rules.course_names))
    missing = [c for c in courses if sum(place[0] == c for place in t) < rules.instance.courses[c][2]]
    kind = draw.choice(("place", "move", "swap"))
    c, d, p = draw.choice([*t] or [(0, 0, 0)]) if draw.random() < 0.9 else (draw.choice(courses), *draw.choice(rules.slots))
    if kind == "place" and missing and draw.random() < 0.9:
        c = draw.choice(missing)
    name = rules.course_names[c]
    if kind == "swap":
        return ["slots", "swap", name, str(d), str(p), "*", "*", "*"]
    room = "*" if draw.random() < 0.6 else draw.choice(rules.room_names)
    return ["slots", kind, name, *([] if kind == "place" else [str(d), str(p)]), room, "*", "*"]


def draw_line(draw, desk):
    """A line of a script of two planners: the words in front of a call, and the other ones."""
    planner, rules, chance = draw.choice("01"), desk.rules, draw.random()
    if chance < 0.07:
        return ["show"], draw_pattern(draw, rules, desk.t)
    draft = desk.drafts.get(int(planner))
    if draft is None:
        return [planner], ["open"]
    if chance < 0.5:
        return [planner], draw_edit(draw, rules, draft.now)
    if chance < 0.8:
        return [planner, *([] if chance < 0.7 else ["peek"])], draw_pattern(draw, rules, draft.now)
    return [planner], [draw.choice(("commit", "commit", "commit", "refresh", "abandon"))]


class Drawn:
    """A drawn script on a drawn instance: its lines, and what a plain desk answers."""

    def __init__(self, draw, folder):
        text, self.barred = draw_instance(draw, NAMES)
        while not Instance(text).courses:
            text, self.barred = draw_instance(draw, NAMES)
        plain = Instance(text, self.barred)
        self.blocked = draw_blocked(draw, plain)
        self.instance = Instance(text, self.barred, self.blocked)
        lectures = self.instance.read_solution(draw_solution(draw, self.instance))
        self.opening = placed(self.instance, lectures)[0] if draw.random() < 0.9 else {}
        self.desk = Desk(self.instance, self.opening)
        solution = self.desk.solution().encode()
        self.files = write_files(folder, text, solution, self.barred, self.blocked)
        self.folder = folder
        self.lines, self.answers = [], []
        while len(self.lines) < STEPS:
            front, words = draw_line(draw, self.desk)
            self.lines.append((front, words))
            self.answers.append(self.desk.answer([*front, *words]))

    def run(self, name, lines):
        """What the program answers to these lines, and their journal, which is audited."""
        script, journal = (os.path.join(self.folder, file) for file in ("script", "journal"))
        with open(script, "w", encoding="utf-8", newline="") as opened:
            opened.write("".join(line + "\n" for line in lines))
        instance, solution, *sides = words_of(self.files)
        words = ["--start", solution, *sides]
        status, printed, said = call("run", instance, script, *words, "--journal", journal)
        answers = printed.split("\n")[:-1]
        check(f"{name}: status, standard error and lines", (status, said, len(answers)), (0, "", len(lines)))
        check_run(f"{name}: audit", "audit", instance, journal, *words, wanted="agrees\n")
        with open(journal, encoding="utf-8", newline="") as opened:
            return answers, opened.read()

    def check(self, name):
        """Compares the answers to all lines. Gives what was offered, and in how many places looks alone have made a draft stale."""
        lines, at, looks = [], [], {}
        for front, words in self.lines:
            at.append(len(lines))
            lines.append(" ".join([*front, *words]))
            if words[0] == "slots":
                looks[at[-1]] = look = Look(self.desk.rules, front, words)
                lines += look.questions()
        answers, journal = self.run(name, lines)
        check(f"{name}: the plain desk", [answers[n] for n in at], self.answers)
        check(f"{name}: the journal", journal, self.desk.journal())
        check(f"{name}: the plain audit", audit(self.instance, self.opening, journal.encode()), "agrees\n")
        seen = [what for n, look in looks.items() for what in look.check(name, answers[n], answers[n + 1:])]
        return seen + self.check_rows(name)

    def check_rows(self, name):
        """Compares the answers that are none to a look with those beside `cheapest`. Gives what else is stale without any look."""
        told = []
        for look in (["slots"], ["cheapest", "2"], None):
            kept = [(front, words) for front, words in self.lines if look or words[0] != "slots"]
            lines = [" ".join([*front, *(look if words[0] == "slots" else words[:1]), *words[1:]]) for front, words in kept]
            answers = self.run(f"{name}, {look}", lines)[0]
            told.append([answer for (_, words), answer in zip(kept, answers) if words[0] != "slots"])
        check(f"{name}: beside cheapest", told[0], told[1])
        return ["stale" for own, other in zip(told[0], told[2]) if own != other and own.startswith("stale")]


def check_drawn(folder):
    """Draws scripts, and says what was seen in them."""
    draw = random.Random(70)
    seen = []
    for n in range(DRAWN):
        seen += Drawn(draw, folder).check(f"drawn script {n}")
    counts = {what: seen.count(what) for what in ("price", *FAULTS, "stale")}
    print("seen: " + ", ".join(f"{what} {count}" for what, count in counts.items()))
    check("each of these 20 times or more", [what for what, count in counts.items() if count < 20], [])
