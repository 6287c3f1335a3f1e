"""A plain writing of the page of a timetable."""
import re

from rules import KINDS

# the parts of the page, with a grid for each of these kinds, and the letters of their ids
PARTS = [("curricula", "Curricula", "curriculum", "c"), ("teachers", "Teachers", "teacher", "t"), ("rooms", "Rooms", "room", "r"),
         ("courses", "Courses", "course", "k")]
# the kinds of findings, each with its sign and what is said of it, and what is counted
TITLES = {
    "lectures": "▽\u00a0lectures missing or surplus",
    "conflict": "▲\u00a0conflict",
    "availability": "▼\u00a0unavailable",
    "occupancy": "◆\u00a0room taken",
    "barred": "■\u00a0barred",
    "blocked": "▬\u00a0blocked",
    "capacity": "●\u00a0too few seats",
    "days": "△\u00a0too few days",
    "compactness": "○\u00a0alone",
    "stability": "◇\u00a0several rooms",
}
NOUNS = {"lectures": "lecture", "conflict": "time", "availability": "time", "occupancy": "time", "barred": "time",
         "blocked": "time"}
# the kinds that have a sign at the lecture
SIGNED = ("conflict", "availability", "occupancy", "barred", "blocked", "capacity", "compactness")
# the lines of the report that tell costs
COSTS = ("capacity", "days", "compactness", "stability", "total")
# the lines of the report that count what is found of a kind
COUNTS = {"conflicts" if kind == "conflict" else kind: kind for kind in TITLES}
FIRST = 5
# the most cells of grids that a page has if it is not asked for the grids of one kind
MOST_CELLS = 80_000
ENTRY = ("<div id='entry' role='search' hidden><label for='find'>Show</label> <input id='find' type='search' "
         "placeholder='a teacher, a course ..' autocomplete='off'> <span id='shown' role='status'></span></div>\n")


def amount(number, noun):
    """A number of things."""
    return f"{number} {noun}{'' if number == 1 else 's'}"


def titles_of(instance):
    """The kinds of findings that the page of an instance tells, each with its title: blocked rooms only if there are any."""
    return {kind: title for kind, title in TITLES.items() if kind != "blocked" or instance.blocked}


def numbered(text):
    """A text with its signs and its blanks that do not break by number, as the page has it."""
    return re.sub("[▀-◿✗\u00a0]", lambda sign: f"&#{ord(sign[0])};", text)


def cost_sign(kind, points):
    """The sign of what a lecture costs: the seats that are too few, or else the points."""
    return f"●\u00a0{points} too few seats" if kind == "capacity" else f"{TITLES[kind]}: {amount(points, 'point')}"


class Page:
    """The page of a timetable, written plainly."""

    def __init__(self, instance, t, style, script, solution, days=(), plain=False, one=None, grids=None):
        """`one` is the kind and the name of which alone the page has the grid, `grids` the part that it has alone."""
        self.instance, self.t, self.style, self.script, self.days, self.plain, self.one = instance, t, style, script, days, plain, one
        self.solution = solution.rsplit("/", 1)[-1]
        cells = sum(map(len, instance.names().values())) * instance.days * instance.periods
        self.only = grids or ("rooms" if cells > MOST_CELLS else None)
        # the parts that the page has
        self.parts = [] if one else [part for part in PARTS if self.only in (None, part[0])]
        self.found = instance.find(t)
        # what breaks a rule, then what costs most
        self.ranked = sorted(self.found, key=lambda each: ("points" in each, -each.get("points", 0)))
        self.ids = {kind: {name: f"{letter}{n}" for n, name in enumerate(instance.names()[kind])} for _, _, kind, letter in PARTS}

    def escape(self, text):
        for character, name in ("&", "amp"), ("<", "lt"), (">", "gt"), ('"', "quot"), ("'", "#39"):
            text = text.replace(character, f"&{name};")
        return text

    def named(self, name):
        return f"<bdi>{self.escape(name)}</bdi>"

    def linked(self, kind, name):
        """A name, as a link to the grid of that name where the page has it."""
        if any(part[2] == kind for part in self.parts):
            return f"<a href='#{self.ids[kind][name]}'>{self.named(name)}</a>"
        return self.named(name)

    def day(self, day):
        """A day by its name, or else by its number from 1."""
        return self.named(self.days[day]) if day < len(self.days) and self.days[day] else f"day {day + 1}"

    def row(self, key, value):
        """A line of the report."""
        if key in COUNTS and value != "0":
            value = f"<a href='#{COUNTS[key]}'>{numbered(TITLES[COUNTS[key]][0])} {value}</a>"
        return f"<tr><th scope='row'>{key}</th><td>{'<b>&#10007; no</b>' if value == 'no' else value}</td></tr>\n"

    def place(self, finding):
        """The id of the cell, or of the grid, in which something is seen."""
        kind = finding["kind"]
        if kind == "conflict":
            grid = self.ids[finding["cause"]][finding["name"]]
        elif kind in ("occupancy", "barred", "blocked", "capacity"):
            grid = self.ids["room"][finding["room"]]
        elif kind == "compactness":
            grid = self.ids["curriculum"][finding["curriculum"]]
        else:
            grid = self.ids["course"][finding["course"]]
        if "period" not in finding:
            return grid
        return f"{grid}-{finding['day'] * self.instance.periods + finding['period']}"

    def sentence(self, finding):
        """What is found, as a sentence."""
        tells = {key: self.named(text) for key, text in finding.items() if key in ("course", "other", "room", "curriculum", "name")}
        when = f"{self.day(finding['day'])}, period {finding['period'] + 1}" if "period" in finding else ""
        students = {course[0]: course[4] for course in self.instance.courses}.get(finding.get("course"))
        seats = dict(self.instance.rooms).get(finding.get("room"))
        texts = {
            "lectures": "{course} has {placed} in place of {stated}",
            "conflict": "{course} and {other} are both on {when}: same {cause} {name}",
            "availability": "{course} is on {when}, when it is unavailable",
            "occupancy": "{course} is in room {room} on {when}, when the room is taken",
            "barred": "{course} is in room {room}, which is barred for it, on {when}",
            "blocked": "{course} is in room {room} on {when}, when the room is blocked",
            "capacity": "{course} with {students} is in room {room} with {seats} on {when}",
            "days": "{course} is on {count} in place of at least {minimum}",
            "compactness": "{course} on {when} is alone in curriculum {curriculum}",
            "stability": "{course} is in {rooms}",
        }
        return texts[finding["kind"]].format(
            **tells, when=when, placed=amount(finding.get("placed"), "lecture"), stated=finding.get("stated"), cause=finding.get("cause"),
            students=amount(students, "student"), seats=amount(seats, "seat"), count=amount(finding.get("days"), "day"),
            minimum=finding.get("minimum"), rooms=amount(finding.get("rooms"), "room"))

    def item(self, finding):
        """A finding in a list."""
        price = f"<i>{amount(finding['points'], 'point')}</i> " if "points" in finding else ""
        place = self.place(finding)
        shown = any(part[3] == place[0] for part in self.parts)
        link = f" href='#{place}'" if shown else ""
        title = f" title='day {finding['day']}, period {finding['period']}'" if "period" in finding else ""
        return f"<li>{price}<a{link}{title}>{self.sentence(finding)}</a></li>\n"

    def findings(self):
        """The report and what is found: the first of it, and then all, kind by kind; nothing of costs on a plain page."""
        counts, _, _ = self.instance.count(self.t)
        text = "<div id='found'><h2 id='findings'>Findings</h2>\n<p>Days and periods are counted from 1.</p>\n"
        text += "<details><summary><h3 id='report'>Report</h3></summary><table>\n"
        text += "".join(self.row(key, value) for key, value in self.rows()) + "</table></details>\n"
        if not self.plain:
            text += "<details><summary><h3 id='first'>To mend first</h3></summary><ol>\n"
            text += "".join(map(self.item, self.ranked[:FIRST])) + "</ol></details>\n"
        text += "<div><h3 id='hard'>Hard rules</h3>\n"
        for key, kind in KINDS.items():
            if kind == "capacity":
                if self.plain:
                    break
                text += f"</div>\n<div><h3 id='costs'>Costs: {amount(self.cost(), 'point')}</h3>\n"
            if kind not in titles_of(self.instance):
                continue
            total = amount(counts[key], NOUNS.get(kind, "point"))
            text += f"<details><summary><h4 id='{kind}'>{numbered(TITLES[kind])}: {total}</h4></summary><ul>\n"
            text += "".join(self.item(finding) for finding in self.ranked if finding["kind"] == kind) + "</ul></details>\n"
        return text + "</div></div>\n"

    def cost(self):
        """The points of all that is found."""
        return sum(finding.get("points", 0) for finding in self.found)

    def rows(self):
        """The keys and values of the report; nothing of costs on a plain page."""
        rows = [row.split(" ") for row in self.instance.report(self.t)[0].split("\n")[1:-1]]
        return [row for row in rows if not (self.plain and row[0] in COSTS)]

    def verdict(self):
        """Whether the timetable is lawful and complete, and what it costs unless the page is plain."""
        rows = dict(row.split(" ") for row in self.instance.report(self.t)[0].split("\n")[1:-1])
        told = [word if rows[word] == "yes" else f"<b>{numbered(f'✗{chr(160)}not {word}')}</b>" for word in ("lawful", "complete")]
        return ", ".join(told) + ("" if self.plain else f": {amount(self.cost(), 'point')}")

    def signs(self, kind, own, lecture):
        """What is wrong with a lecture in a grid of this kind that has these lectures, and what it costs there."""
        c, day, period, r = lecture
        others = [other for other in self.t if other[1:3] == (day, period) and other != lecture]
        busy = {other[1:3] for other in own}
        points = {
            "capacity": max(0, self.instance.courses[c][4] - self.instance.rooms[r][1]),
            "compactness": 2 if kind == "curriculum" and not busy & {(day, period - 1), (day, period + 1)} else 0,
        }
        holds = {
            "conflict": any(True for other in others for _ in self.instance.causes(c, other[0])),
            "availability": (c, day, period) in self.instance.unavailable,
            "occupancy": any(other[3] == r for other in others),
            "barred": (c, r) in self.instance.barred,
            "blocked": (r, day, period) in self.instance.blocked,
        }
        for sign in SIGNED:
            if sign not in points:
                yield f" <b>{numbered(TITLES[sign])}</b>" if holds[sign] else ""
            elif points[sign] and not self.plain:
                yield f" <i>{numbered(cost_sign(sign, points[sign]))}</i>"

    def mark(self, kind, name, day, period):
        """What a cell says of its slot: that closures block it, or else that its course is unavailable."""
        if self.instance.blocks(kind, name, day, period):
            return TITLES["blocked"]
        if kind == "course" and (self.instance.names()[kind].index(name), day, period) in self.instance.unavailable:
            return "closed"
        return ""

    def note(self, kind, name):
        """What the head of a grid says after the name."""
        if kind == "room":
            return f", {amount(dict(self.instance.rooms)[name], 'seat')}"
        if kind == "course":
            _, teacher, _, _, students = next(course for course in self.instance.courses if course[0] == name)
            return f", {amount(students, 'student')}, teacher {self.linked('teacher', teacher)}"
        return ""

    def grid(self, kind, name):
        """The grid of a curriculum, a teacher, a room or a course."""
        own = [lecture for lecture in self.t if self.instance.has(kind, name, lecture)]
        letter = self.ids[kind][name]
        text = f"<section><h3 id='{letter}'>{kind.capitalize()} {self.named(name)}{self.note(kind, name)}</h3><div>"
        text += f"<table aria-labelledby='{letter}'>\n<tr><th>period</th>"
        text += "".join(f"<th scope='col' title='day {day}'>{self.day(day)}</th>" for day in range(self.instance.days)) + "</tr>\n"
        for period in range(self.instance.periods):
            text += f"<tr><th scope='row' title='period {period}'>{period + 1}</th>"
            for day in range(self.instance.days):
                text += f"<td id='{letter}-{day * self.instance.periods + period}'>"
                mark = self.mark(kind, name, day, period)
                text += f"<em>{numbered(mark)}</em>" if mark else ""
                for lecture in own:
                    if lecture[1:3] == (day, period):
                        course, room = self.instance.courses[lecture[0]][0], self.instance.rooms[lecture[3]][0]
                        text += f"<p style='--course:{lecture[0]}'>{self.linked('course', course)} <small>{self.linked('room', room)}</small>"
                        text += "".join(self.signs(kind, own, lecture)) + "</p>"
                text += "</td>"
            text += "</tr>\n"
        return text + "</table></div></section>\n"

    def index(self):
        """The links to the grids of the page."""
        text = "<details><summary><h2 id='index'>Index</h2></summary><ul id='entries'>\n"
        for _, _, kind, _ in self.parts:
            for name in self.instance.names()[kind]:
                text += f"<li><a href='#{self.ids[kind][name]}'>{kind.capitalize()} {self.named(name)}</a></li>\n"
        return text + "</ul></details>\n"

    def body(self):
        """What stands below the verdict: one grid alone, or all that the page has."""
        start = f"<main id='grids' style='--days:{self.instance.days}'>\n"
        if self.one:
            return start + self.grid(*self.one) + "</main>"
        text = ""
        if self.only:
            text += f"<p id='only'>This page has the grids of the {self.only} only. With <kbd>--grids</kbd> it has those of another kind, and "
            text += "with <kbd>--teacher</kbd>, <kbd>--course</kbd>, <kbd>--room</kbd> or <kbd>--curriculum</kbd> one alone.</p>\n"
        text += f"<nav aria-label='Parts of the page'>{ENTRY}"
        text += "".join(f"<a href='#{part}'>{title}</a> " for part, title, _, _ in self.parts)
        text += "<a href='#index'>Index</a> <a href='#findings'>Findings</a></nav>\n" + start + self.index()
        for part, title, kind, _ in self.parts:
            text += f"<details open><summary><h2 id='{part}'>{title}</h2></summary><article>\n"
            text += "".join(self.grid(kind, of) for of in self.instance.names()[kind]) + "</article></details>\n"
        return text + self.findings() + f"</main>\n<script>{self.script}</script>"

    def text(self):
        """The whole page."""
        name, solution = self.escape(self.instance.name), self.escape(self.solution)
        text = "<!DOCTYPE html>\n<html lang='en'><head><meta charset='utf-8'>\n"
        text += "<meta name='viewport' content='width=device-width, initial-scale=1'>\n"
        text += f"<title>{name}: {solution}</title><style>{self.style}</style></head>\n"
        text += "<body><a id='skip' href='#grids'>Skip to the grids</a>\n"
        text += f"<header><h1><bdi>{name}</bdi>: <bdi>{solution}</bdi></h1>\n"
        return text + f"<p id='verdict'>{self.verdict()}</p></header>\n{self.body()}</body></html>\n"
