"""The plain rules: what edits and looks are answered, each reckoned anew from the whole timetable.

A timetable is a dictionary of rooms by course, day and period, all of them numbers. An edit is its
word and its numbers. These rules are told once, for all tests, and nothing of them is the office's.
"""

# the faults of an edit, in the order in which they are looked for
FAULTS = (
    *("notplaced", "sameslot", "samecourse", "already", "full", "unavailable", "barred", "blocked"),
    *("clash", "roomtaken"),
)
EDITS = ("place", "move", "swap", "reroom", "drop")


def as_list(t):
    """The lectures of a timetable: course, day, period and room, in order."""
    return sorted((*place, r) for place, r in t.items())


class Rules:
    """The calls of an instance, and what each is answered on a timetable."""

    def __init__(self, instance):
        self.instance = instance
        self.course_names = [course[0] for course in instance.courses]
        self.room_names = [room[0] for room in instance.rooms]
        self.course = {name: c for c, name in enumerate(self.course_names)}
        self.room = {name: r for r, name in enumerate(self.room_names)}
        self.slots = [(d, p) for d in range(instance.days) for p in range(instance.periods)]

    def fault(self, t, c, slot, r):
        """The first that stands against a lecture of this course in this slot and room, or None."""
        inst, here = self.instance, (c, *slot)
        there = sorted((k, room) for (k, d, p), room in t.items() if (d, p) == slot)
        clashing = [k for k, _ in there if k != c and any(True for _ in inst.causes(c, k))]
        taking = [k for k, room in there if room == r]
        if here in t:
            return "already"
        if sum(place[0] == c for place in t) >= inst.courses[c][2]:
            return "full"
        if here in inst.unavailable:
            return "unavailable"
        if (c, r) in inst.barred:
            return "barred"
        if (r, *slot) in inst.blocked:
            return "blocked"
        if clashing:
            return f"clash {self.course_names[clashing[0]]}"
        if taking:
            return f"roomtaken {self.course_names[taking[0]]}"
        return None

    def put(self, t, *lectures):
        """The timetable with these lectures, tried one after another, or the first fault."""
        after = dict(t)
        for c, slot, r in lectures:
            fault = self.fault(after, c, slot, r)
            if fault:
                return fault, t
            after[(c, *slot)] = r
        return None, after

    def edit(self, t, kind, *parts):
        """The fault of an edit or None, and the timetable after it."""
        if kind == "place":
            return self.put(t, parts)
        c, slot, *others = parts
        if (c, *slot) not in t or (kind == "swap" and (others[0], *others[1]) not in t):
            return "notplaced", t
        left = {place: r for place, r in t.items() if place != (c, *slot)}
        if kind == "drop":
            return None, left
        if kind == "reroom":
            fault, after = self.put(left, (c, slot, *others))
        elif kind == "move":
            fault, after = ("sameslot", t) if others[0] == slot else self.put(left, (c, *others))
        elif others[0] == c:
            fault, after = "samecourse", t
        else:
            r, r2 = t[(c, *slot)], left.pop((others[0], *others[1]))
            fault, after = self.put(left, (c, others[1], r2), (others[0], slot, r))
        return fault, t if fault else after

    def inverse(self, t, kind, c, slot, *others):
        """The edit that takes one back, which can be made on this timetable."""
        if kind == "place":
            return "drop", c, slot
        if kind == "swap":
            return "swap", c, others[1], others[0], slot
        room = t[(c, *slot)]
        if kind == "move":
            return "move", c, others[0], slot, room
        return "place" if kind == "drop" else "reroom", c, slot, room

    def parse(self, words, is_pattern=False):
        """The edit of these words. What a pattern leaves open is None."""
        def slot(d, p):
            return None if d == "*" else (int(d), int(p))

        def room(name):
            return None if is_pattern and name == "*" else self.room[name]

        kind, name, *rest = words
        c = self.course[name]
        if kind in ("place", "reroom"):
            return kind, c, slot(*rest[1:]), room(rest[0])
        if kind == "move":
            return kind, c, slot(*rest[:2]), slot(*rest[3:]), room(rest[2])
        if kind == "swap":
            other = None if is_pattern else self.course[rest[2]]
            return kind, c, slot(*rest[:2]), other, slot(*rest[3:])
        return kind, c, slot(*rest)

    def words(self, kind, c, *parts):
        """The words of an edit."""
        name, *rest = self.course_names[c], *parts
        if kind in ("place", "reroom"):
            return " ".join(map(str, (kind, name, self.room_names[rest[1]], *rest[0])))
        if kind == "move":
            return " ".join(map(str, (kind, name, *rest[0], self.room_names[rest[2]], *rest[1])))
        if kind == "swap":
            return " ".join(map(str, (kind, name, *rest[0], self.course_names[rest[1]], *rest[2])))
        return " ".join(map(str, (kind, name, *rest[0])))

    def filled(self, kind, c, *parts):
        """The edits of a pattern, in order."""
        rooms, courses = range(len(self.room_names)), range(len(self.course_names))
        if kind == "swap":
            return [(kind, c, parts[0], k, slot) for k in courses for slot in self.slots]
        slots = [parts[0]] if kind == "reroom" else self.slots if parts[-2] is None else [parts[-2]]
        some = [(slot, r) for slot in slots for r in (rooms if parts[-1] is None else [parts[-1]])]
        return [(kind, c, *parts[:1], *of) if kind == "move" else (kind, c, *of) for of in some]

    def costs(self, t):
        """The four costs of a timetable."""
        counts = self.instance.count(as_list(t))[0]
        return [counts[kind] for kind in ("capacity", "days", "compactness", "stability")]

    def price(self, t, edit):
        """What an edit adds, or its fault."""
        fault, after = self.edit(t, *edit)
        return fault, None if fault else sum(self.costs(after)) - sum(self.costs(t))

    def pattern_fault(self, t, kind, c, slot, *_):
        """Why each edit of a pattern is refused by what it names, or None."""
        if kind == "place":
            is_full = sum(place[0] == c for place in t) >= self.instance.courses[c][2]
            return "full" if is_full else None
        return None if (c, *slot) in t else "notplaced"

    def priced(self, t, pattern):
        """Each edit of a pattern, in order, with its fault or None and its price."""
        before = sum(self.costs(t))
        for edit in self.filled(*pattern):
            fault, after = self.edit(t, *edit)
            yield edit, fault, None if fault else sum(self.costs(after)) - before

    def cheapest(self, t, most, pattern):
        """The answer to a look at the cheapest edits of a pattern."""
        fault = self.pattern_fault(t, *pattern)
        if fault:
            return f"refused {fault}"
        feasible = [(price, edit) for edit, fault, price in self.priced(t, pattern) if not fault]
        best = sorted(feasible, key=lambda one: one[0])[:most]
        told = (f"{price} {self.words(*edit)}" for price, edit in best)
        return " ".join(["prices", str(len(best)), *told])

    def offers(self, t, pattern):
        """The answer to a look at what each slot offers to a pattern: the first of its cheapest
        edits, or else the first of the faults that are looked for last."""
        fault = self.pattern_fault(t, *pattern)
        if fault:
            return f"refused {fault}"
        told = {slot: [(2, 0, "- none")] for slot in self.slots}
        for edit, fault, price in self.priced(t, pattern):
            slot = edit[-1 if edit[0] == "swap" else -2]
            rank = -FAULTS.index(fault.split(" ")[0]) if fault else price
            offer = f"- {fault}" if fault else f"{price} {self.words(*edit)}"
            told[slot].append((1 if fault else 0, rank, offer))
        best = (min(some, key=lambda one: one[:2])[2] for some in told.values())
        return " ".join(["slots", str(len(told)), *best])

    def lectures(self, t, chosen):
        """The answer to a look at lectures: of these courses, or in a slot."""
        told = [(c, d, p, r) for c, d, p, r in as_list(t) if chosen(c, (d, p))]
        lines = (f"{self.course_names[c]} {self.room_names[r]} {d} {p}" for c, d, p, r in told)
        return " ".join(["lectures", str(len(told)), *lines])

    def answer(self, t, words):
        """What a call is answered, and the timetable after it."""
        kind, *rest = words
        if kind in EDITS:
            fault, after = self.edit(t, *self.parse(words))
            return f"refused {fault}" if fault else "done", after
        return self.look(t, kind, rest), t

    def look(self, t, kind, rest):
        """What a look is answered."""
        if kind == "price":
            fault, price = self.price(t, self.parse(rest))
            return f"refused {fault}" if fault else f"price {price}"
        if kind == "cheapest":
            return self.cheapest(t, int(rest[0]), self.parse(rest[1:], True))
        if kind == "slots":
            return self.offers(t, self.parse(rest, True))
        if kind == "missing":
            stated = ((c, course[2]) for c, course in enumerate(self.instance.courses))
            counts = [(c, many - sum(place[0] == c for place in t)) for c, many in stated]
            some = [f"{self.course_names[c]} {count}" for c, count in counts if count]
            return " ".join(["missing", str(len(some)), *some])
        if kind == "cost":
            return " ".join(map(str, ["costs", *self.costs(t)]))
        if kind == "coursecost":
            c = self.course[rest[0]]
            own = [(d, p, r) for k, d, p, r in as_list(t) if k == c]
            _, _, _, minimum, students = self.instance.courses[c]
            capacity = sum(max(0, students - self.instance.rooms[r][1]) for _, _, r in own)
            days = 5 * max(0, minimum - len({d for d, _, _ in own}))
            return f"costs {capacity} {days} 0 {max(0, len({r for _, _, r in own}) - 1)}"
        if kind == "slot":
            return self.lectures(t, lambda _, slot: slot == tuple(map(int, rest)))
        return self.lectures(t, lambda c, _: self.instance.has(kind, rest[0], (c, 0, 0, 0)))

    def mates(self, courses):
        """The courses that are in a curriculum with one of these, and these."""
        members = [some for _, some in self.instance.curricula if {*some} & {*courses}]
        return set(courses).union(*members)

    def reads(self, words):
        """The rows that a call reads: courses as their numbers, and slots."""
        kind, *rest = words
        courses, slots = range(len(self.course_names)), self.slots
        if kind in ("cost", "missing"):
            return {*courses}
        if kind == "slot":
            return {tuple(map(int, rest))}
        if kind in ("course", "coursecost", "teacher", "curriculum"):
            of = "course" if kind == "coursecost" else kind
            return {c for c in courses if self.instance.has(of, rest[0], (c, 0, 0, 0))}
        if kind in ("cheapest", "slots"):
            pattern = rest if kind == "slots" else rest[1:]
            _, c, slot, *others = self.parse(pattern, True)
            if pattern[0] == "swap":
                return {*courses, *slots}
            new = others[0] if pattern[0] == "move" else slot
            return {*self.mates([c]), *(slots if new is None else [new])}
        edit = self.parse(rest if kind == "price" else words)
        named = [edit[1], edit[3]] if edit[0] == "swap" else [edit[1]]
        rows = {"place": edit[2:3], "reroom": edit[2:3], "move": edit[3:4], "drop": ()}
        rows = rows.get(edit[0], (edit[2], edit[-1]))
        return {*(self.mates(named) if kind == "price" else named), *rows}


class Week:
    """A timetable of an instance, with edits and lectures by their words."""

    def __init__(self, instance, lectures=()):
        self.rules = names = Rules(instance)
        self.t = {(names.course[c], d, p): names.room[r] for c, r, d, p in lectures}

    def fault(self, edit):
        """Why an edit is refused; None if it is not."""
        return self.rules.edit(self.t, *self.rules.parse(edit.split(" ")))[0]

    def make(self, edit):
        """Makes an edit, and answers the one that takes it back."""
        edit = self.rules.parse(edit.split(" "))
        back = self.rules.words(*self.rules.inverse(self.t, *edit))
        self.t = self.rules.edit(self.t, *edit)[1]
        return back

    def by_course(self):
        """The rooms of each course by their slots."""
        found = {name: {} for name in self.rules.course_names}
        for (c, *slot), r in self.t.items():
            found[self.rules.course_names[c]][tuple(slot)] = self.rules.room_names[r]
        return found
