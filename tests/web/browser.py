"""Chromium without a window, driven by WebDriver over plain HTTP."""
import base64
import contextlib
import http.client
import json
import os
import re
import shutil
import signal
import subprocess
import time

ELEMENT = "element-6066-11e4-a52e-4f735466cecf"
# what takes longer hangs
PATIENCE = int(os.environ.get("PATIENCE", "30"))
# for trials: how many times slower a page is, and milliseconds that each answer takes longer
SLOWER, LATER = (float(os.environ.get(name, "0")) for name in ("SLOWER", "LATER"))
KEYS = {
    "Enter": "\ue007",
    "Escape": "\ue00c",
    "Tab": "\ue004",
    "Space": " ",
    "ArrowLeft": "\ue012",
    "ArrowUp": "\ue013",
    "ArrowRight": "\ue014",
    "ArrowDown": "\ue015",
    "Home": "\ue011",
    "End": "\ue010",
    "PageDown": "\ue00f",
    "Backspace": "\ue003",
    "Delete": "\ue017",
    "Shift": "\ue008",
    "Control": "\ue009",
    "Alt": "\ue00a",
}


def find_programs():
    """Chromium and its driver, if both are there."""
    chromium = shutil.which("chromium") or shutil.which("google-chrome")
    return chromium, shutil.which("chromedriver")


def has_browser():
    return None not in find_programs()


class DriverFault(Exception):
    """The driver refuses, or what was waited for did not come."""


class BrowserLost(DriverFault):
    """The browser or its driver has not begun, or has gone: this says nothing of the page."""


# what the driver says of a browser that it has lost
LOST = re.compile(
    "session not created|invalid session id|disconnected|not reachable|tab crashed"
    "|failed to start|Timed out receiving message from renderer"
)


class Driver:
    """The process that drives browsers, begun when it is first needed."""

    def __init__(self):
        self.process = subprocess.Popen(
            [find_programs()[1], "--port=0", "--log-level=SEVERE"],
            stdin=subprocess.DEVNULL,
            stdout=subprocess.PIPE,
            stderr=subprocess.DEVNULL,
            text=True,
            start_new_session=True,
        )
        try:
            self.port = self.read_port()
        except BaseException:
            self.end()
            raise

    def read_port(self):
        for line in self.process.stdout:
            found = re.search(r"started successfully on port (\d+)", line)
            if found:
                return int(found.group(1))
        raise BrowserLost("the driver does not begin")

    def end(self):
        """Ends the driver, and browsers that it has left."""
        self.process.terminate()
        with contextlib.suppress(subprocess.TimeoutExpired):
            self.process.wait(10)
        with contextlib.suppress(ProcessLookupError):
            os.killpg(self.process.pid, signal.SIGKILL)
        self.process.wait(10)
        self.process.stdout.close()

    def call(self, method, path, body=None):
        """A command to its end, and the value that it answers."""
        connection = http.client.HTTPConnection("127.0.0.1", self.port, timeout=2 * PATIENCE)
        with contextlib.closing(connection):
            text = None if body is None else json.dumps(body)
            try:
                connection.request(method, path, text, {"Content-Type": "application/json"})
                value = json.loads(connection.getresponse().read())["value"]
            except (OSError, http.client.HTTPException) as fault:
                raise BrowserLost(f"the driver does not answer: {fault!r}") from None
        if isinstance(value, dict) and "error" in value:
            told = f"{value['error']}: {(value['message'].splitlines() or [''])[0]}"
            raise BrowserLost(told) if LOST.search(told) else DriverFault(told)
        return value


class Browser:
    """A browser with an empty profile and a page of a certain size."""

    def __init__(self, driver, width=1280, height=800, touch=False, **settings):
        self.driver = driver
        words = ["--headless=new", "--no-sandbox", "--disable-gpu", "--disable-dev-shm-usage"]
        words += ["--hide-scrollbars", f"--window-size={width},{height}", "--lang=en"]
        words += ["--touch-events=enabled"] if touch else []
        options = {"args": words + settings.get("words", []), "binary": find_programs()[0]}
        wanted = {
            "goog:chromeOptions": options,
            "goog:loggingPrefs": {"browser": "ALL"},
            "acceptInsecureCerts": True,
            "unhandledPromptBehavior": "accept",
        }
        made = driver.call("POST", "/session", {"capabilities": {"alwaysMatch": wanted}})
        self.path = f"/session/{made['sessionId']}"
        self.set_size(width, height, touch, settings.get("zoom", 1))
        features = settings.get("features", {})
        media = [{"name": name, "value": value} for name, value in features.items()]
        self.cdp("Emulation.setEmulatedMedia", features=media)
        self.command("POST", "timeouts", {"script": PATIENCE * 1000})
        self.slow_down()

    def slow_down(self):
        if SLOWER:
            self.cdp("Emulation.setCPUThrottlingRate", rate=SLOWER)
        if LATER:
            self.cdp("Network.enable")
            told = {"offline": False, "downloadThroughput": -1, "uploadThroughput": -1}
            self.cdp("Network.emulateNetworkConditions", latency=LATER, **told)

    def set_size(self, width, height, touch=False, zoom=1):
        """The size of the page; a zoom leaves so many fewer pixels for what is drawn."""
        self.cdp(
            "Emulation.setDeviceMetricsOverride",
            width=int(width / zoom),
            height=int(height / zoom),
            deviceScaleFactor=zoom,
            mobile=False,
        )
        # the page has it a little later
        self.wait("return innerWidth === arguments[0]", int(width / zoom))
        if touch:
            self.cdp("Emulation.setTouchEmulationEnabled", enabled=True, maxTouchPoints=5)
            self.cdp("Emulation.setEmitTouchEventsForMouse", enabled=False, configuration="desktop")

    def end(self):
        with contextlib.suppress(DriverFault, OSError):
            self.driver.call("DELETE", self.path)

    def command(self, method, path, body=None):
        return self.driver.call(method, f"{self.path}/{path}" if path else self.path, body)

    def cdp(self, name, **parameters):
        """A command of Chromium's own protocol."""
        return self.command("POST", "goog/cdp/execute", {"cmd": name, "params": parameters})

    # pages

    def go(self, url):
        # an address that differs behind its # alone would load nothing
        self.command("POST", "url", {"url": "about:blank"})
        self.command("POST", "url", {"url": url})

    def reload(self):
        self.command("POST", "refresh", {})

    def tab(self):
        """Opens another window of the same browser, and goes there."""
        handle = self.command("POST", "window/new", {"type": "tab"})["handle"]
        self.switch(handle)
        return handle

    def switch(self, handle):
        self.command("POST", "window", {"handle": handle})

    def handle(self):
        return self.command("GET", "window")

    def close_tab(self):
        return self.command("DELETE", "window")

    def run(self, script, *arguments):
        """The value of a script in the page."""
        return self.command("POST", "execute/sync", {"script": script, "args": list(arguments)})

    def run_later(self, script, *arguments):
        """The value that a script hands to its last argument."""
        return self.command("POST", "execute/async", {"script": script, "args": list(arguments)})

    def wait(self, script, *arguments, seconds=PATIENCE):
        """The value of a script as soon as it is true."""
        until, failed = time.monotonic() + seconds, ""
        while True:
            try:
                found = self.run(script, *arguments)
                if found:
                    return found
            except BrowserLost:
                raise
            except DriverFault as fault:
                # the page goes just now, or has not come
                failed = str(fault)
            if time.monotonic() > until:
                told = f"waited for: {script} {arguments} {failed}\n{self.seen()[:1500]}"
                raise DriverFault(told)
            time.sleep(0.02)

    def seen(self):
        """The text of the page, and what is in front and has the keyboard."""
        return self.run(
            "const at = document.activeElement;"
            "const where = at && `${at.tagName} ${at.id || at.dataset.at || at.className}`;"
            "return `keyboard: ${where}, acts: ${document.body.dataset.acts}\n`"
            " + document.body.innerText"
        )

    def text(self, selector):
        return self.run(
            "const found = document.querySelector(arguments[0]);"
            "return found && !found.hidden ? found.innerText : ''",
            selector,
        )

    def sees(self, text, selector="body", seconds=PATIENCE):
        """Waits until a text is in a part of the page."""
        self.wait(
            "const found = document.querySelector(arguments[1]);"
            "return !!found && found.innerText.replace(/\\s+/g, ' ').includes(arguments[0])",
            text,
            selector,
            seconds=seconds,
        )

    # keys and pointers

    def find(self, selector):
        until = time.monotonic() + PATIENCE
        while True:
            try:
                found = self.command(
                    "POST", "element", {"using": "css selector", "value": selector}
                )
                return found[ELEMENT]
            except DriverFault as fault:
                if isinstance(fault, BrowserLost) or time.monotonic() > until:
                    raise
                time.sleep(0.02)

    def click(self, selector):
        """Clicks the middle of an element as a mouse does."""
        at = self.middle(selector)
        self.pointer("mouse", [("move", at), ("down",), ("up",)])

    def middle(self, selector):
        """Where an element is on the page that is seen; it is scrolled there if need be."""
        self.find(selector)
        found = self.run(
            "const one = document.querySelector(arguments[0]);"
            "const see = () => { const b = one.getBoundingClientRect();"
            "  return [b.left + b.width / 2, b.top + b.height / 2]; };"
            "let [x, y] = see();"
            # it is outside, or below what scrolls by itself
            "const at = document.elementFromPoint(x, y);"
            "if (!at || !one.contains(at))"
            "  { one.scrollIntoView({block: 'center', inline: 'center'}); [x, y] = see(); }"
            "return [Math.round(x), Math.round(y)]",
            selector,
        )
        return tuple(found)

    def press(self, *names):
        """Presses keys, one after another, as a keyboard does. `Shift+Tab` holds the first one."""
        actions = []
        for name in names:
            held = name.split("+") if len(name) > 1 and "+" in name else [name]
            keys = [KEYS.get(one, one) for one in held]
            actions += [{"type": "keyDown", "value": key} for key in keys]
            actions += [{"type": "keyUp", "value": key} for key in reversed(keys)]
        self.act({"type": "key", "id": "keyboard", "actions": actions})

    def type(self, text):
        self.press(*["Space" if letter == " " else letter for letter in text])

    def pointer(self, kind, steps):
        """Moves and presses a `mouse`, a `pen` or a `touch`."""
        actions = []
        for step in steps:
            if step[0] == "move":
                (x, y), time_taken = step[1], step[2] if len(step) > 2 else 0
                actions.append({"type": "pointerMove", "x": x, "y": y, "duration": time_taken})
            elif step[0] == "wait":
                actions.append({"type": "pause", "duration": step[1]})
            else:
                actions.append({"type": f"pointer{step[0].title()}", "button": 0})
        self.act(
            {
                "type": "pointer",
                "id": kind,
                "parameters": {"pointerType": kind},
                "actions": actions,
            }
        )

    def drag(self, kind, start, *ends, drop=True):
        """Drags from one selector to others; the last one is where it is dropped."""
        steps = [("move", self.middle(start)), ("down",)]
        for end in ends:
            at = end if isinstance(end, tuple) else self.middle(end)
            steps += [("move", at, 60), ("wait", 60)]
        self.pointer(kind, steps + ([("up",)] if drop else []))

    def act(self, *sources):
        self.command("POST", "actions", {"actions": list(sources)})

    def release(self):
        self.command("DELETE", "actions")

    # what is looked at

    def picture(self, path):
        """A picture of what is seen."""
        found = base64.b64decode(self.command("GET", "screenshot"))
        with open(path, "wb") as file:
            file.write(found)

    def complaints(self):
        """What the console has as errors or warnings since the last time."""
        lines = self.command("POST", "se/log", {"type": "browser"})
        return [line["message"] for line in lines if line["level"] in ("SEVERE", "WARNING")]
