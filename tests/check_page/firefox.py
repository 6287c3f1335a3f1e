"""Firefox without a window, driven by Marionette, its own protocol: it needs no driver beside it."""
import contextlib
import json
import os
import shutil
import socket
import subprocess
import tempfile
import time

PATIENCE = int(os.environ.get("PATIENCE", "30"))
SETTINGS = {
    "marionette.port": 0,
    "app.update.enabled": False,
    "browser.shell.checkDefaultBrowser": False,
    "datareporting.policy.dataSubmissionEnabled": False,
    "network.captive-portal-service.enabled": False,
    "network.connectivity-service.enabled": False,
    "toolkit.telemetry.reportingpolicy.firstRun": False,
}


def find_firefox():
    return shutil.which("firefox-esr") or shutil.which("firefox")


class FirefoxFault(Exception):
    """Firefox refuses a command, or does not begin."""


class Firefox:
    """A Firefox with an empty profile."""

    def __init__(self):
        self.profile = tempfile.mkdtemp(prefix="firefox-")
        with open(os.path.join(self.profile, "user.js"), "w", encoding="utf-8") as file:
            for name, value in SETTINGS.items():
                file.write(f"user_pref({json.dumps(name)}, {json.dumps(value)});\n")
        self.process = subprocess.Popen(
            [find_firefox(), "--headless", "--no-remote", "--marionette", "--profile", self.profile],
            stdin=subprocess.DEVNULL,
            stdout=subprocess.DEVNULL,
            stderr=subprocess.DEVNULL,
            env={**os.environ, "MOZ_HEADLESS_WIDTH": "1100", "MOZ_HEADLESS_HEIGHT": "900"},
        )
        try:
            self.socket = socket.create_connection(("127.0.0.1", self.port()), 4 * PATIENCE)
            self.file = self.socket.makefile("rb")
            self.number = 0
            self.read()
            self.ask("WebDriver:NewSession")
        except BaseException:
            self.end()
            raise

    def port(self):
        """The port that it has chosen, which it writes into its profile."""
        path = os.path.join(self.profile, "MarionetteActivePort")
        until = time.monotonic() + 4 * PATIENCE
        while time.monotonic() < until and self.process.poll() is None:
            with contextlib.suppress(OSError, ValueError), open(path, encoding="utf-8") as file:
                return int(file.read())
            time.sleep(0.1)
        raise FirefoxFault("it does not begin")

    def read(self):
        """A message: its length, a colon, and JSON."""
        length = b""
        while not length.endswith(b":"):
            letter = self.file.read(1)
            if not letter:
                raise FirefoxFault("it has gone")
            length += letter
        return json.loads(self.file.read(int(length[:-1])))

    def ask(self, name, **told):
        self.number += 1
        text = json.dumps([0, self.number, name, told]).encode()
        self.socket.sendall(b"%d:%s" % (len(text), text))
        _, _, fault, value = self.read()
        if fault:
            raise FirefoxFault(f"{name}: {fault.get('message', fault)}")
        return value["value"] if isinstance(value, dict) and set(value) == {"value"} else value

    def go(self, url):
        self.ask("WebDriver:Navigate", url=url)

    def run(self, script, *words):
        return self.ask("WebDriver:ExecuteScript", script=script, args=list(words), newSandbox=False, sandbox=None)

    def shot(self):
        return self.ask("WebDriver:TakeScreenshot", full=False)

    def end(self):
        self.process.terminate()
        with contextlib.suppress(subprocess.TimeoutExpired):
            self.process.wait(10)
        if self.process.poll() is None:
            self.process.kill()
            self.process.wait()
        shutil.rmtree(self.profile, ignore_errors=True)
