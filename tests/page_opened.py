"""Opens pages in a browser: what is typed at the entry, links to what is not shown, columns, contrast, sheets of paper."""
import base64
import os
import pathlib
import re
import sys
import tempfile

sys.path.insert(0, os.path.join(os.path.dirname(os.path.abspath(__file__)), "web"))
from browser import Browser, Driver, has_browser  # noqa: E402
from contrast import CONTRAST  # noqa: E402
from program import EXAMPLES, NAMES, call, check, pair_of, read_files  # noqa: E402
from rules import Instance  # noqa: E402

NO_BROWSER = "chromium or chromedriver is not installed, so no page was opened"
# the heads of the grids that are seen, and the other heads below which nothing is seen
SEEN = """
const seen = (one) => one.checkVisibility();
const below = (head) => {
  const part = head.closest('details') || head.parentElement;
  return [...part.querySelectorAll('section, li')].some((one) => one.closest('[hidden]') === null);
};
return [[...document.querySelectorAll('section h3')].filter(seen).map((head) => head.textContent),
  [...document.querySelectorAll('main h2, main h3:not(section h3), main h4')].filter((head) => seen(head) && !below(head)).map((head) => head.textContent)];
"""
SAID = "return [document.getElementById('find').value, document.getElementById('shown').textContent]"
# the widths of the columns of days, grid by grid; what is far below has none before it is drawn
WIDTHS = """
const grids = [...document.querySelectorAll('section')];
for (const one of grids) one.style.contentVisibility = 'visible';
return grids.map((one) => [...one.querySelectorAll('th[scope=col]')].map((head) => head.offsetWidth));
"""
PER_SHEET = re.compile(rb"/Type\s*/Page\b(?!s)")


def write_page(folder, name, *words):
    """A page in a file, and its address."""
    file = pathlib.Path(folder, f"{name}.html")
    file.write_text(call("page", *words)[1], encoding="utf-8")
    return file.as_uri()


def check_entry(browser, instance):
    """What is typed leaves grids and findings and no empty heading; what is left is said, Escape shows all, and a link shows what it leads to."""
    teacher = instance.teachers[-1]
    own = [course[0] for course in instance.courses if course[1] == teacher]
    every = browser.run(SEEN)[0]
    count = sum(map(len, instance.names().values()))
    check("entry: all grids at first", len(every), count)
    browser.click("#find")
    browser.type(teacher)
    heads, empty = browser.run(SEEN)
    check("entry: the grids of a teacher", ([head.split(",")[0] for head in heads], empty), ([f"Teacher {teacher}", *(f"Course {name}" for name in own)], []))
    said = browser.run(SAID)
    check("entry: what is left is said", (said[0], said[1].split(",")[0]), (teacher, f"{len(heads)} grids"))
    browser.press("Enter")
    check("entry: Enter goes to the first grid", browser.run("return location.hash"), f"#t{len(instance.teachers) - 1}")
    browser.run("document.querySelector('td a[href^=\"#r\"]').click()")
    check("entry: a link to what is not shown", (browser.run(SAID)[0], len(browser.run(SEEN)[0])), ("", count))
    browser.click("#find")
    browser.type("zz top")
    check("entry: nothing", browser.run(SEEN), [[], []])
    check("entry: nothing is said", browser.run(SAID), ["zz top", "Nothing here has this name. Escape shows all."])
    browser.press("Escape")
    check("entry: Escape", (browser.run(SAID), browser.run(SEEN)[0]), (["", ""], every))


def check_sheets(browser, name, wanted):
    """A page in print has so many sheets."""
    text = base64.b64decode(browser.command("POST", "print", {"page": {"width": 21.0, "height": 29.7}}))
    check(f"{name}: one sheet a grid", len(PER_SHEET.findall(text)), wanted)


def check_opened():
    """Opens pages, if there is a browser."""
    if not has_browser():
        print(NO_BROWSER)
        return
    driver = Driver()
    try:
        with tempfile.TemporaryDirectory() as folder:
            check_pages(driver, folder)
    finally:
        driver.end()


def check_pages(driver, folder):
    """Opens the page of an example, and those of names of all kinds."""
    files = pair_of(EXAMPLES, "spring")
    instance = Instance(read_files(files)[0])
    browser = Browser(driver, features={"prefers-color-scheme": "light"})
    browser.go(write_page(folder, "spring", *files))
    check_entry(browser, instance)
    check("columns of one width", {max(row) - min(row) > 1 for row in browser.run(WIDTHS)}, {False})
    browser.go(write_page(folder, "rooms", *files, "--grids", "rooms"))
    check_sheets(browser, "the rooms", len(instance.rooms))
    browser.go(write_page(folder, "teacher", *files, "--plain", f"--teacher={instance.teachers[0]}"))
    check_sheets(browser, "a teacher", 1)
    for name in "wide", "markup":
        browser.go(write_page(folder, name, *pair_of(NAMES, name)))
        browser.run("for (const part of document.querySelectorAll('details')) part.open = true;")
        for scheme in "light", "dark":
            browser.cdp("Emulation.setEmulatedMedia", features=[{"name": "prefers-color-scheme", "value": scheme}])
            check(f"contrast of {name} in a {scheme} window", browser.run(CONTRAST), [])
    browser.end()
