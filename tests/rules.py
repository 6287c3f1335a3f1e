"""A plain reading of the rules: what a report on a timetable counts, and what is found in it, each by itself."""
import itertools

# the counts of a report and the kinds of findings, both in the order in which they are told
KINDS = {"lectures": "lectures", "conflicts": "conflict", "availability": "availability", "occupancy": "occupancy",
         "barred": "barred", "blocked": "blocked", "capacity": "capacity", "days": "days", "compactness": "compactness",
         "stability": "stability"}


def line(finding):
    """The line of what is found: its words with a blank between."""
    return " ".join(map(str, finding.values())) + "\n"


def lectures_in(text):
    """The lectures that a solution lists: course, room, day and period, in its order."""
    words = [word.decode() for word in text.split()]
    return [(c, r, int(d), int(p)) for c, r, d, p in zip(words[0::4], words[1::4], words[2::4], words[3::4])]


class Instance:
    """An instance by the text of its file, and the texts of its barred rooms and of its closures, if there are such."""

    def __init__(self, text, *sides):
        take = map(bytes.decode, text.split()).__next__

        def head():
            take()
            return int(take())

        take()
        self.name = take()
        courses, rooms, self.days, self.periods, curricula, constraints = (head() for _ in range(6))
        take()
        self.courses = [(take(), take(), int(take()), int(take()), int(take())) for _ in range(courses)]
        number = {course[0]: c for c, course in enumerate(self.courses)}
        # in the order in which they are named first
        self.teachers = list(dict.fromkeys(course[1] for course in self.courses))
        take()
        self.rooms = [(take(), int(take())) for _ in range(rooms)]
        room_number = {room[0]: r for r, room in enumerate(self.rooms)}
        take()
        self.curricula = [(take(), list(dict.fromkeys(number[take()] for _ in range(int(take()))))) for _ in range(curricula)]
        take()
        self.listed = {(number[take()], int(take()), int(take())) for _ in range(constraints)}
        self.barred, self.blocked, self.closed = set(), set(), set()
        for side in filter(None, sides):
            words = [word.decode() for word in side.split()]
            if words[0] == "Barred:":
                pairs = zip(words[2::2], words[3::2])
                self.barred = {(number[c], room_number[r]) for c, r in itertools.islice(pairs, int(words[1]))}
            else:
                entries = zip(words[2::4], words[3::4], words[4::4], words[5::4])
                self.close(itertools.islice(entries, int(words[1])))
        self.unavailable = self.listed | self.closed

    def close(self, entries):
        """What these entries of closures block: rooms in slots, and courses in slots, by themselves and by their teachers."""
        for kind, name, day, period in entries:
            days = range(self.days) if day == "*" else [int(day)]
            periods = range(self.periods) if period == "*" else [int(period)]
            slots = [(d, p) for d in days for p in periods]
            if kind == "room":
                self.blocked |= {(r, *slot) for r, room in enumerate(self.rooms) if room[0] == name for slot in slots}
            else:
                who = {"course": 0, "teacher": 1}[kind]
                self.closed |= {(c, *slot) for c, course in enumerate(self.courses) if course[who] == name for slot in slots}

    def blocks(self, kind, name, day, period):
        """Whether closures block the room, the course, or all courses of the teacher of this name in a slot."""
        if kind == "room":
            return (self.names()["room"].index(name), day, period) in self.blocked
        who = {"course": 0, "teacher": 1}.get(kind)
        own = [c for c, course in enumerate(self.courses) if who is not None and course[who] == name]
        return bool(own) and all((c, day, period) in self.closed for c in own)

    def names(self):
        """The names of what has a week of its own, by kind."""
        return {"curriculum": [name for name, _ in self.curricula], "teacher": self.teachers,
                "course": [course[0] for course in self.courses], "room": [name for name, _ in self.rooms]}

    def has(self, kind, name, lecture):
        """Whether a lecture is in the week of this curriculum, teacher, course or room."""
        c, _, _, r = lecture
        if kind == "curriculum":
            return c in dict(self.curricula)[name]
        return name == {"teacher": self.courses[c][1], "course": self.courses[c][0], "room": self.rooms[r][0]}[kind]

    def read_solution(self, text):
        """Its lectures: course, day, period and room, as numbers, in order."""
        number = {course[0]: c for c, course in enumerate(self.courses)}
        room_number = {room[0]: r for r, room in enumerate(self.rooms)}
        return sorted((number[c], d, p, room_number[r]) for c, r, d, p in lectures_in(text))

    def causes(self, c, d):
        """Why two courses clash."""
        if self.courses[c][1] == self.courses[d][1]:
            yield "teacher", self.courses[c][1]
        for name, members in self.curricula:
            if c in members and d in members:
                yield "curriculum", name

    def find_by_course(self, t):
        """What is found of each course by itself: its kind, the numbers that it is ordered by, and what it tells, by key."""
        for c, (name, _, stated, minimum, _) in enumerate(self.courses):
            own = [lecture for lecture in t if lecture[0] == c]
            days = len({day for _, day, _, _ in own})
            rooms = len({r for _, _, _, r in own})
            if len(own) != stated:
                yield "lectures", (c,), {"course": name, "placed": len(own), "stated": stated}
            if days < minimum:
                yield "days", (c,), {"course": name, "days": days, "minimum": minimum, "points": 5 * (minimum - days)}
            if rooms > 1:
                yield "stability", (c,), {"course": name, "rooms": rooms, "points": rooms - 1}

    def find_by_pair(self, t):
        """The same of each two lectures, of which the first has the lower number of a course."""
        for (c, *slot, _), (d, *slot2, _) in itertools.combinations(t, 2):
            for cause, name in itertools.islice(self.causes(c, d), 1) if slot == slot2 else ():
                tells = {"course": self.courses[c][0], "other": self.courses[d][0], "day": slot[0], "period": slot[1]}
                yield "conflict", (c, d, *slot), {**tells, "cause": cause, "name": name}

    def find_by_lecture(self, t):
        """The same of each lecture, beside those before it."""
        for n, (c, day, period, r) in enumerate(t):
            at = (c, day, period)
            (course, _, _, _, students), (room, seats) = self.courses[c], self.rooms[r]
            when = {"day": day, "period": period}
            where = {"course": course, "room": room, **when}
            if at in self.unavailable:
                yield "availability", at, {"course": course, **when}
            if any(lecture[1:] == (day, period, r) for lecture in t[:n]):
                yield "occupancy", at, {"room": room, **when, "course": course}
            if (c, r) in self.barred:
                yield "barred", at, where
            if (r, day, period) in self.blocked:
                yield "blocked", at, where
            if students > seats:
                yield "capacity", at, {**where, "points": students - seats}

    def find_alone(self, t):
        """The same of each lecture in each curriculum."""
        for q, (name, members) in enumerate(self.curricula):
            own = [lecture for lecture in t if lecture[0] in members]
            busy = {(day, period) for _, day, period, _ in own}
            for c, day, period, _ in own:
                if not busy & {(day, period - 1), (day, period + 1)}:
                    tells = {"curriculum": name, "course": self.courses[c][0], "day": day, "period": period, "points": 2}
                    yield "compactness", (q, c, day, period), tells

    def find(self, t):
        """All that is found, in order."""
        kinds = list(KINDS.values())
        found = [*self.find_by_course(t), *self.find_by_pair(t), *self.find_by_lecture(t), *self.find_alone(t)]
        return [{"kind": kind, **tells} for kind, _, tells in sorted(found, key=lambda each: (kinds.index(each[0]), each[1]))]

    def count(self, t):
        """The counts of the report, each by its formula."""
        own = [[lecture for lecture in t if lecture[0] == c] for c in range(len(self.courses))]
        slots = [(d, p) for d in range(self.days) for p in range(self.periods)]
        standing = {slot: [lecture for lecture in t if lecture[1:3] == slot] for slot in slots}
        counts = {"lectures": sum(abs(len(row) - course[2]) for row, course in zip(own, self.courses))}
        counts["conflicts"] = sum(any(True for _ in self.causes(k[0], l[0])) for slot in slots
                                  for k, l in itertools.combinations(standing[slot], 2))
        counts["availability"] = sum(lecture[:3] in self.unavailable for lecture in t)
        counts["occupancy"] = sum(len(row) - len({lecture[3] for lecture in row}) for row in standing.values())
        counts["barred"] = sum((lecture[0], lecture[3]) in self.barred for lecture in t)
        counts["blocked"] = sum((lecture[3], *lecture[1:3]) in self.blocked for lecture in t)
        counts["capacity"] = sum(max(0, self.courses[c][4] - self.rooms[r][1]) for c, _, _, r in t)
        counts["days"] = sum(5 * max(0, course[3] - len({l[1] for l in row})) for row, course in zip(own, self.courses))
        counts["compactness"] = 0
        for _, members in self.curricula:
            for day in range(self.days):
                at = [sum(lecture[0] in members for lecture in standing[day, p]) for p in range(self.periods)]
                for before, here, behind in zip([0] + at, at, at[1:] + [0]):
                    counts["compactness"] += 2 * here if before == behind == 0 else 0
        counts["stability"] = sum(max(0, len({lecture[3] for lecture in row}) - 1) for row in own)
        lawful = not any(counts[kind] for kind in ("conflicts", "availability", "occupancy", "barred", "blocked"))
        lawful = lawful and all(len(row) <= course[2] for row, course in zip(own, self.courses))
        return counts, lawful, lawful and counts["lectures"] == 0

    def report(self, t):
        """The report as text, and as the members of an object."""
        counts, lawful, complete = self.count(t)
        if not self.barred:
            del counts["barred"]
        if not self.blocked:
            del counts["blocked"]
        counts["total"] = sum(counts[kind] for kind in ("capacity", "days", "compactness", "stability"))
        lines = [f"instance {self.name}"] + [f"{kind} {count}" for kind, count in counts.items()]
        lines += [f"lawful {'yes' if lawful else 'no'}", f"complete {'yes' if complete else 'no'}"]
        return "".join(line + "\n" for line in lines), {"instance": self.name, **counts, "lawful": lawful, "complete": complete}
