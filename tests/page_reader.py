"""Reads a page as a browser does, and compares what stands where with the plain page."""
import html.parser
import re

from plain_page import COSTS, COUNTS, FIRST, NOUNS, TITLES, amount, cost_sign, titles_of
from program import check
from rules import line

# the kinds that break a rule
BREAKS = ("lectures", "conflict", "availability", "occupancy", "barred", "blocked")
# what stands beside a text without being what it is told in
AROUND = ("bdi", "a")


class Reader(html.parser.HTMLParser):
    """Reads a page as a browser does: which elements stand open at each text."""

    def __init__(self):
        super().__init__()
        self.open, self.ids, self.links, self.tags, self.names, self.faults = [], [], [], set(), set(), []
        # the texts by the id of the cell and the element that they stand in; heads and lists, closed cells with what they say, and the lines of the report
        self.cells, self.heads, self.items, self.rows, self.closed = {}, {}, {}, [], []
        # the texts that stand in an element with a direction of its own
        self.apart = set()
        # by the id of a grid, the heads of its columns and lines: their titles and texts
        self.columns, self.lines = {}, {}
        # by id, the attributes of an element and the text in it
        self.told = {}

    def handle_starttag(self, tag, attributes):
        self.tags.add(tag)
        self.names |= {name for name, _ in attributes}
        given = dict(attributes)
        if "id" in given:
            self.ids.append(given["id"])
            self.told[given["id"]] = [given, ""]
        if tag == "a" and "href" in given:
            self.links.append(given["href"])
        if tag == "td" and "id" in given:
            self.cells[given["id"]] = []
        if tag == "li":
            self.items.setdefault(self.ids[-1], []).append(["", "", None])
        if tag == "a" and "li" in self.open:
            self.items[self.ids[-1]][-1][0] = given.get("href", "")
            self.items[self.ids[-1]][-1][2] = given.get("title")
        if tag == "em":
            self.closed.append([self.ids[-1], ""])
        if tag == "th" and given.get("scope") == "row" and self.ids[-1] == "report":
            self.rows.append(["", ""])
        elif tag == "th" and "scope" in given:
            heads = self.columns if given["scope"] == "col" else self.lines
            heads.setdefault(self.ids[-1].split("-")[0], []).append([given.get("title"), ""])
        if tag == "p" and "td" in self.open:
            self.cells[self.ids[-1]].append({"p": "", "small": "", "b": [], "i": [], "links": [], "style": given.get("style")})
        if tag == "a" and "p" in self.open and "td" in self.open:
            self.cells[self.ids[-1]][-1]["links"].append(given.get("href"))
        if tag in ("meta", "input"):
            return
        self.open.append(tag)
        if tag in ("b", "i") and "p" in self.open and "td" in self.open:
            self.cells[self.ids[-1]][-1][tag].append("")

    def handle_endtag(self, tag):
        if not self.open or self.open.pop() != tag:
            self.faults.append(f"</{tag}> at {self.getpos()}")

    def handle_data(self, text):
        if "bdi" in self.open:
            self.apart.add(text.strip("\n"))
        if self.ids:
            self.told[self.ids[-1]][1] += text
        where = next((tag for tag in reversed(self.open) if tag not in AROUND), "")
        if "p" in self.open and "td" in self.open:
            told = self.cells[self.ids[-1]][-1]
            if where in ("b", "i"):
                told[where][-1] += text
            else:
                told[where] += text
        elif where == "em":
            self.closed[-1][1] += text
        elif where in ("h3", "h4"):
            self.heads[self.ids[-1]] = self.heads.get(self.ids[-1], "") + text
        elif "li" in self.open:
            self.items[self.ids[-1]][-1][1] += text
        elif self.ids[-1:] == ["report"] and "tr" in self.open:
            self.rows[-1][0 if where == "th" else 1] += text
        elif where == "th" and self.ids[-1].split("-")[0] in self.columns:
            (self.lines if "-" in self.ids[-1] or self.ids[-1] in self.lines else self.columns)[self.ids[-1].split("-")[0]][-1][1] += text


TAGS = {"html", "head", "meta", "title", "style", "body", "h1", "h2", "h3", "h4", "nav", "a", "input", "table", "tr", "th", "td", "ul", "ol",
        "li", "article", "section", "details", "summary", "div", "p", "small", "em", "b", "i", "bdi", "script", "header", "main", "label", "span", "kbd"}
NAMED = {"lang", "charset", "name", "content", "id", "href", "scope", "open", "placeholder", "hidden", "title", "style", "role", "for", "type",
         "autocomplete", "aria-label", "aria-labelledby"}


def plain(text):
    """A text without its tags and with its characters."""
    return html.unescape(re.sub("<[^>]*>", "", text))


def check_read(name, text, page):
    """Reads a page by itself: it is well formed and stands alone, and each lecture stands once in each of its grids, at its slot."""
    reader = Reader()
    reader.feed(text)
    reader.close()
    check(f"{name}: well formed", (reader.faults, reader.open), ([], []))
    check(f"{name}: only these elements", reader.tags - TAGS, set())
    check(f"{name}: only these attributes", reader.names - NAMED, set())
    check(f"{name}: each id once", len(reader.ids), len(set(reader.ids)))
    check(f"{name}: links to ids of the page", [link for link in reader.links if link[:1] != "#" or link[1:] not in reader.ids], [])
    check(f"{name}: verdict", reader.told["verdict"][1].strip("\n"), plain(page.verdict()))
    grids = grids_of(page)
    check(f"{name}: the heads", reader.heads, {**heads_of_findings(page), **{grid: head for grid, (_, _, head) in grids.items()}})
    check_lectures(name, reader, page, grids)
    check_counted(name, reader, page, grids)
    if page.plain:
        check(f"{name}: nothing of costs", ("i" in reader.tags, re.search(r"\bpoints?\b", text[text.find("<body>"):text.find("<script>")])), (False, None))
    if not page.one:
        check_findings(name, reader, page)
        check_rows(name, reader, page)
    check_apart(name, reader, page)
    # what breaks a rule is marked where its link leads
    for finding in page.found:
        if "period" in finding and page.place(finding).split("-")[0] in grids and not (page.plain and "points" in finding):
            tag = "b" if finding["kind"] in BREAKS else "i"
            sign = TITLES[finding["kind"]] if tag == "b" else cost_sign(finding["kind"], finding["points"])
            marks = [mark for told in reader.cells[page.place(finding)] for mark in told[tag]]
            check(f"{name}: {line(finding)} marked", sign in marks, True)


def grids_of(page):
    """The grids of a page by their ids: of what kind and name, and their heads."""
    named = [page.one] if page.one else [(kind, of) for _, _, kind, _ in page.parts for of in page.instance.names()[kind]]
    return {page.ids[kind][of]: (kind, of, f"{kind.capitalize()} {of}{plain(page.note(kind, of))}") for kind, of in named}


def heads_of_findings(page):
    """The heads of the report and of the findings; without those of costs on a plain page."""
    if page.one:
        return {}
    counts, _, _ = page.instance.count(page.t)
    kinds = {kind: f"{TITLES[kind]}: {amount(counts[key], NOUNS.get(kind, 'point'))}" for key, kind in COUNTS.items() if kind in titles_of(page.instance)}
    heads = {"report": "Report", "hard": "Hard rules", **{kind: head for kind, head in kinds.items() if not (page.plain and kind in COSTS)}}
    if not page.plain:
        total = sum(counts[kind] for kind in COUNTS if kind not in NOUNS and kind != "conflicts")
        heads |= {"first": "To mend first", "costs": f"Costs: {amount(total, 'point')}"}
    return heads


def check_lectures(name, reader, page, grids):
    """Each lecture stands once in each of its grids, at its slot, in the colour of its course; its names lead to the grids of these names."""
    instance = page.instance
    wanted = {f"{grid}-{slot}": [] for grid in grids for slot in range(instance.days * instance.periods)}
    for grid, (kind, of, _) in grids.items():
        for lecture in page.t:
            if instance.has(kind, of, lecture):
                course, room = instance.courses[lecture[0]][0], instance.rooms[lecture[3]][0]
                links = [f"#{page.ids[each][of]}" for each, of in (("course", course), ("room", room)) if page.ids[each][of] in grids and not page.one]
                wanted[f"{grid}-{lecture[1] * instance.periods + lecture[2]}"].append((course, room, f"--course:{lecture[0]}", links))
    found = {cell: [(told["p"].strip(" "), told["small"], told["style"], told["links"]) for told in lectures] for cell, lectures in reader.cells.items()}
    check(f"{name}: the lectures", found, wanted)
    for link in {link for lectures in reader.cells.values() for told in lectures for link in told["links"]}:
        kind, of, head = grids[link[1:]]
        check(f"{name}: {link} leads to the grid of that name", reader.heads[link[1:]], head)


def check_counted(name, reader, page, grids):
    """Days and periods are counted from 1, and by the desk's numbers in titles."""
    instance = page.instance
    days = [[f"day {day}", page.days[day] if day < len(page.days) and page.days[day] else f"day {day + 1}"] for day in range(instance.days)]
    periods = [[f"period {period}", str(period + 1)] for period in range(instance.periods)]
    check(f"{name}: days", reader.columns, dict.fromkeys(grids, days))
    check(f"{name}: periods", reader.lines, dict.fromkeys(grids, periods))


def check_findings(name, reader, page):
    """Each finding is once in the list of its kind, more points first, and the worst are also in the first list; the index has each grid."""
    told = {finding_text(page, finding): finding for finding in page.found}
    for kind in TITLES:
        own = [tuple(item) for item in reader.items.get(kind, [])]
        wanted = [] if page.plain and kind in COSTS else sorted(text for text, finding in told.items() if finding["kind"] == kind)
        check(f"{name}: the findings of {kind}", sorted(own, key=str), sorted(wanted, key=str))
        points = [told.get(text, {}).get("points", 0) for text in own]
        check(f"{name}: {kind} by points", points, sorted(points, reverse=True))
    worst = [tuple(item) for item in reader.items.get("first", [])]
    check(f"{name}: what to mend first", worst, [] if page.plain else [finding_text(page, finding) for finding in page.ranked[:FIRST]])
    entries = [[f"#{page.ids[kind][of]}", f"{kind.capitalize()} {of}", None] for _, _, kind, _ in page.parts for of in page.instance.names()[kind]]
    check(f"{name}: the filter's list", reader.items.get("entries", []), entries)
    check(f"{name}: closed cells", sorted(reader.closed), sorted(closed_cells(page)))


def closed_cells(page):
    """The cells that say something of their slots, and what: closures by themselves, and what else a course has unavailable."""
    instance, slots = page.instance, set()
    for c, day, period in instance.unavailable:
        slots.add(("k", c, day, period, TITLES["blocked"] if (c, day, period) in instance.closed else "closed"))
    slots |= {("r", *blocked, TITLES["blocked"]) for blocked in instance.blocked}
    for n, teacher in enumerate(instance.teachers):
        own = [{closed[1:] for closed in instance.closed if closed[0] == c} for c, course in enumerate(instance.courses) if course[1] == teacher]
        slots |= {("t", n, *slot, TITLES["blocked"]) for slot in set.intersection(*own)}
    grids = grids_of(page)
    return [[f"{letter}{n}-{day * instance.periods + period}", said] for letter, n, day, period, said in slots if f"{letter}{n}" in grids]


def finding_text(page, finding):
    """A finding as a browser shows it: where its link leads, its text, and the desk's numbers of its slot."""
    price = f"{amount(finding['points'], 'point')} " if "points" in finding else ""
    place = page.place(finding)
    link = f"#{place}" if place.split("-")[0] in grids_of(page) else ""
    title = f"day {finding['day']}, period {finding['period']}" if "period" in finding else None
    return link, price + plain(page.sentence(finding)), title


def check_apart(name, reader, page):
    """Each name stands in an element of its own, so that it turns nothing beside it."""
    shown = {head for head in (page.instance.name, page.solution)}
    for kind, of, _ in grids_of(page).values():
        shown.add(of)
        if kind == "course":
            shown.add(next(course[1] for course in page.instance.courses if course[0] == of))
        for lecture in page.t:
            if page.instance.has(kind, of, lecture):
                shown |= {page.instance.courses[lecture[0]][0], page.instance.rooms[lecture[3]][0]}
    if grids_of(page):
        shown |= {page.days[day] for day in range(min(len(page.days), page.instance.days)) if page.days[day]}
    if not page.one:
        for finding in page.found:
            if not (page.plain and "points" in finding):
                shown |= {plain(told) for told in re.findall("<bdi>(.*?)</bdi>", page.sentence(finding), re.DOTALL)}
    check(f"{name}: names apart", reader.apart, shown)


def check_rows(name, reader, page):
    """In the report a link leads to each kind of which something is found, and to no other; its sign, and that of `no`, is there."""
    kinds = {finding["kind"] for finding in page.found}
    counts = [kind for kind in titles_of(page.instance) if (kind != "barred" or page.instance.barred) and not (page.plain and kind in COSTS)]
    check(f"{name}: links to kinds", [link for link in reader.links if link[1:] in TITLES], [f"#{kind}" for kind in counts if kind in kinds])
    check(f"{name}: rows", [told[0] for told in reader.rows], [row[0] for row in page.rows()])
    for key, value in page.rows():
        marked = COUNTS[key] in kinds if key in COUNTS else value == "no"
        sign = f"{TITLES[COUNTS[key]][0] if key in COUNTS else '✗'} " if marked else ""
        check(f"{name}: {key} marked", [told for told in reader.rows if told[0] == key], [[key, sign + value]])
