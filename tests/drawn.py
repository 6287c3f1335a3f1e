"""Draws instances and solutions, with names of all kinds."""
import itertools

# pieces of names: each kind of names takes its own, or all
PIECES = {
    "plain": ["c", "math", "room", "Q7", "x-y", "b_1"],
    "of other letters": ["Übung", "数学", "Ё", "🎓", "e\u0301", "नमस्ते", "ﷺ"],
    "escaped in JSON": ['"', "\\", "\x00", "\x01", "\b", "\x1f", "\x7f", "/", "\\n", "\\u0041"],
    "of markup": ["<b>", "&amp;", "</td>", "'", '"', "-->", "<script>"],
    "like fixed words": ["END.", "COURSES:", "Name:", "teacher", "curriculum", "conflict", "total", "complete"],
    "like numbers": ["0", "007", "999999999", "-1", "1.5", "1e3"],
    "long": ["x" * 40, "ö" * 90, "0123456789" * 30],
    "with other blanks": ["a\u00a0b", "\u2028", "\u3000", "\ufeff", "\x1c", "\x85", "--json"],
}
PIECES["of all kinds"] = [piece for pieces in PIECES.values() for piece in pieces]


def draw_names(draw, pieces, count):
    """Names of which none is another, as numbers are added to them where they are short of others."""
    names = {}
    while len(names) < count:
        name = "".join(draw.choices(pieces, k=draw.randint(1, 3)))
        names[name if name not in names else f"{name}{len(names)}"] = None
    return list(names)


def set_out(draw, words):
    """Words with blanks between them."""
    blanks = draw.choice(([" "], ["\n"], [" ", "\n", "\t", "\r\n", "\v", "\f", "  "]))
    return "".join(str(word) + draw.choice(blanks) for word in words).encode()


def draw_instance(draw, pieces_of=PIECES):
    """An instance's text, and the text of its barred rooms or none."""
    pieces = pieces_of[draw.choice(list(pieces_of))]
    days, periods = draw.randint(1, 5), draw.randint(1, 5)
    courses = draw_names(draw, pieces, draw.choice((0, 1, 3, 5, 6, 7, 8)))
    rooms = draw_names(draw, pieces, draw.randint(1, 4))
    curricula = draw_names(draw, pieces, draw.randint(0, 5))
    teachers = draw_names(draw, pieces, draw.randint(2, 8))
    closed = [(c, draw.randrange(days), draw.randrange(periods)) for c in courses for _ in range(draw.choice((0, 0, 1, 4)))]
    words = ["Name:", draw.choice(pieces), "Courses:", len(courses), "Rooms:", len(rooms), "Days:", days, "Periods_per_day:", periods,
             "Curricula:", len(curricula), "Constraints:", len(closed), "COURSES:"]
    for name in courses:
        words += [name, draw.choice(teachers), draw.randint(0, 4), draw.randint(0, 3), draw.randint(0, 40)]
    words.append("ROOMS:")
    for name in rooms:
        words += [name, draw.randint(5, 40)]
    words.append("CURRICULA:")
    for name in curricula:
        members = draw.choices(courses, k=draw.randint(0, 5)) if courses else []
        words += [name, len(members), *members]
    words += ["UNAVAILABILITY_CONSTRAINTS:", *itertools.chain.from_iterable(closed), "END."]
    pairs = [(draw.choice(courses), draw.choice(rooms)) for _ in range(draw.choice((0, 3, 8)) if courses else 0)]
    barred = ["Barred:", len(pairs), *itertools.chain.from_iterable(pairs), "END."]
    return set_out(draw, words), set_out(draw, barred) if draw.random() < 0.5 else None


def draw_blocked(draw, instance):
    """A text of closures of an instance, or none: of rooms, teachers and courses, in one slot or many, some named twice."""
    if draw.random() < 0.4:
        return None
    names = {"room": [room[0] for room in instance.rooms], "teacher": instance.teachers, "course": [it[0] for it in instance.courses]}
    kinds = [kind for kind in names if names[kind]]
    entries = []
    for _ in range(draw.choice((0, 1, 3, 6))):
        kind = draw.choice(kinds)
        day, period = (draw.choice(("*", f"{draw.randrange(many):0{draw.randint(1, 3)}}")) for many in (instance.days, instance.periods))
        entries += [[kind, draw.choice(names[kind]), day, period]] * draw.choice((1, 1, 1, 2))
    draw.shuffle(entries)
    more = draw.choice(([], [], ["and", "more"]))
    return set_out(draw, ["Blocked:", len(entries), *itertools.chain.from_iterable(entries), "END.", *more])


def draw_solution(draw, instance):
    """A solution: any lectures, or all in few slots, or as many as the rules allow, and of those perhaps some moved."""
    slots = [(d, p) for d in range(instance.days) for p in range(instance.periods)]
    way = draw.choice(("any", "crowded", "lawful", "lawful", "moved"))
    if way == "crowded":
        slots = draw.sample(slots, min(3, len(slots)))
    cells = [(c, d, p) for c in range(len(instance.courses)) for d, p in slots]
    draw.shuffle(cells)
    t = []
    for cell in cells[:draw.choice((0, 5, 12, 20)) if way in ("any", "crowded") else None]:
        room = draw.randrange(len(instance.rooms))
        more = sorted(t + [(*cell, room)])
        if way in ("any", "crowded") or instance.count(more)[1]:
            t = more
    if way == "moved" and t:
        c, d, p, r = draw.choice(t)
        others = [slot for slot in slots if not any(lecture[:3] == (c, *slot) for lecture in t)]
        t.remove((c, d, p, r))
        t += [(c, *slot, r) for slot in draw.sample(others, min(2, len(others)))]
    draw.shuffle(t)
    return set_out(draw, itertools.chain.from_iterable((instance.courses[c][0], instance.rooms[r][0], d, p) for c, d, p, r in t))
