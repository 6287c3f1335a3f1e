"""A real terminal: tmux with a server of its own, of which the test sees what a planner would."""
import os
import shutil
import subprocess
import tempfile
import time


def has_tmux():
    return shutil.which("tmux") is not None


class Terminals:
    """A tmux server with a window for each command."""

    def __init__(self, environment, columns=80, lines=24):
        self.folder = tempfile.mkdtemp()
        self.socket = os.path.join(self.folder, "tmux")
        self.environment = {**environment, "LC_ALL": "C.UTF-8", "LANG": "C.UTF-8"}
        self.environment.pop("TMUX", None)
        self.columns, self.lines = columns, lines
        self.count = 0

    def tmux(self, *words):
        done = subprocess.run(
            ["tmux", "-u", "-f", "/dev/null", "-S", self.socket, *words],
            capture_output=True,
            env=self.environment,
            timeout=60,
        )
        return done.stdout.decode()

    def open(self, words, name=None):
        """A terminal in which a command runs. What it says when it has ended stays to be seen."""
        name = name or f"t{self.count}"
        self.count += 1
        self.tmux(
            "new-session",
            "-d",
            "-s",
            name,
            "-x",
            str(self.columns),
            "-y",
            str(self.lines),
            "--",
            "sh",
            "-c",
            'trap : INT; "$@"; echo "ended $?"; exec sleep 600',
            "sh",
            *words,
        )
        return Terminal(self, name)

    def end(self):
        self.tmux("kill-server")
        shutil.rmtree(self.folder, ignore_errors=True)


class Terminal:
    """A terminal of the server."""

    def __init__(self, server, name):
        self.server, self.name = server, name

    def press(self, *keys):
        """Presses keys by tmux's names; a text of several letters that is none is typed."""
        for key in keys:
            literal = ["-l"] if len(key) == 1 or " " in key else []
            self.server.tmux("send-keys", "-t", self.name, *literal, "--", key)

    def text(self, *options):
        """What is seen."""
        return self.server.tmux("capture-pane", "-p", *options, "-t", self.name)

    def wait(self, wanted, seconds=30):
        """Waits until a text is seen, and answers all that is seen then; or what was seen at
        last."""
        until = time.monotonic() + seconds
        seen = self.text()
        while wanted not in seen and time.monotonic() < until:
            time.sleep(0.05)
            seen = self.text()
        return seen

    def wait_settled(self, quiet=0.4, seconds=30):
        """Waits until what is seen does not change for a while."""
        until, seen, since = time.monotonic() + seconds, self.text(), time.monotonic()
        while time.monotonic() < until and time.monotonic() - since < quiet:
            time.sleep(0.05)
            now = self.text()
            if now != seen:
                seen, since = now, time.monotonic()
        return seen

    def resize(self, columns, lines):
        self.server.tmux("resize-window", "-t", self.name, "-x", str(columns), "-y", str(lines))

    def close(self):
        """Closes the terminal, as its owner may do at any time."""
        self.server.tmux("kill-session", "-t", self.name)
