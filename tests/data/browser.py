"""Chromium, in which pages are looked at; and another reader of calendars. Both may be missing."""
import atexit
import base64
import json
import os
import re
import shutil
import subprocess
import sys
import tempfile
import time
import unittest

from support import HERE

sys.path.insert(0, os.path.join(HERE, "tools"))
from pictures import Browser  # noqa: E402

BROWSER = shutil.which(os.environ.get("BROWSER", "chromium"))
# Debian's Python, which has Debian's packages
PYTHON = "/usr/bin/python3"
READER = """
import icalendar, json, sys
found = icalendar.Calendar.from_ical(sys.stdin.buffer.read())
events = [
    {
        "uid": str(event["uid"]),
        "begins": event["dtstart"].dt.isoformat(),
        "ends": event["dtend"].dt.isoformat(),
        "zone": str(event["dtstart"].params["TZID"]),
        "summary": str(event["summary"]),
        "location": str(event["location"]),
        "told": str(event["description"]),
        "sequence": int(event["sequence"]),
        "stamp": event["dtstamp"].dt.isoformat(),
        "modified": event["last-modified"].dt.isoformat(),
        "status": str(event.get("status", "")),
    }
    for event in found.walk("VEVENT")
]
zone = found.walk("VTIMEZONE")[0].to_tz()
times = [event["dtstart"].dt.replace(tzinfo=None) for event in found.walk("VEVENT")]
offsets = [str(zone.utcoffset(time)) for time in times]
errors = [str(error) for part in found.walk() for error in part.errors]
print(json.dumps({"name": str(found["x-wr-calname"]), "events": events, "offsets": offsets,
                  "errors": errors}))
"""
# what a page is like in its window
MEASURE = """(() => {
  const seen = (which) =>
    [...document.querySelectorAll(which)].filter((one) => one.getClientRects().length).length;
  return {
    wide: document.documentElement.scrollWidth,
    background: getComputedStyle(document.body).backgroundColor,
    loaded: performance.getEntriesByType("resource").length,
    items: seen("li"), lectures: seen("article"), free: seen(".free"),
  };
})()"""


def has_reader():
    return (
        os.path.exists(PYTHON)
        and subprocess.run([PYTHON, "-c", "import icalendar"], stderr=subprocess.DEVNULL).returncode
        == 0
    )


with_browser = unittest.skipUnless(BROWSER, "chromium is not installed: no page was looked at")
with_reader = unittest.skipUnless(
    has_reader(), "python3-icalendar is not installed: no calendar was read by another reader"
)


def read_calendar(data):
    """What the other reader finds in a calendar."""
    done = subprocess.run([PYTHON, "-c", READER], input=data, stdout=subprocess.PIPE, check=True)
    return json.loads(done.stdout)


class Pages:
    """Pages in a browser, which is started once for all tests."""

    browser = None

    @classmethod
    def started(cls):
        if cls.browser is None:
            folder = tempfile.mkdtemp()
            cls.browser = Browser(folder)
            atexit.register(shutil.rmtree, folder, ignore_errors=True)
            atexit.register(cls.browser.process.wait)
            atexit.register(cls.browser.ask, "Browser.close")
        return cls.browser

    @classmethod
    def ask(cls, method, **words):
        return cls.started().ask(method, **words)

    @classmethod
    def go(cls, path, width, night=False, script=True):
        """Goes to a page, in a window of this width."""
        size = {"width": width, "height": 900, "deviceScaleFactor": 1, "mobile": width < 600}
        shade = {"name": "prefers-color-scheme", "value": "dark" if night else "light"}
        cls.ask("Emulation.setDeviceMetricsOverride", **size)
        cls.ask("Emulation.setEmulatedMedia", features=[shade])
        cls.ask("Emulation.setScriptExecutionDisabled", value=not script)
        cls.ask("Page.navigate", url="about:blank")
        cls.ask("Page.navigate", url=path if "://" in path else f"file://{path}")
        while cls.run("document.readyState") != "complete":
            time.sleep(0.02)

    @classmethod
    def run(cls, script):
        """The value of a script in the page."""
        found = cls.ask("Runtime.evaluate", expression=script, returnByValue=True)["result"]
        return found.get("value")

    @classmethod
    def measure(cls, path, width, night=False, script=True):
        """What a page is like in a window of this width."""
        cls.go(path, width, night, script)
        return cls.run(MEASURE)

    @classmethod
    def sheets(cls, path):
        """The sheets that a page takes on paper, each with its size in points."""
        cls.go(path, 1400)
        printed = cls.ask("Page.printToPDF", preferCSSPageSize=True, printBackground=True)
        sizes = re.findall(
            rb"/MediaBox \[0 0 ([0-9.]+) ([0-9.]+)\]", base64.b64decode(printed["data"])
        )
        return [tuple(round(float(side)) for side in size) for size in sizes]
