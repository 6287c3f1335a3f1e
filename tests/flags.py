#!/usr/bin/env python3
"""Compares what the program prints as help with docs/help.txt and docs/help, and the manual and the completions with what tools/flags.py
makes of it. Tries that script on a flag that is new, too.

PROGRAM names another program. The last line is 'N passed, M failed'.
"""
import itertools
import os
import pathlib
import shutil
import subprocess
import sys
import tempfile

sys.dont_write_bytecode = True
HERE = pathlib.Path(__file__).resolve().parent.parent
sys.path.insert(0, str(HERE / "tools"))

import flags  # noqa: E402

PROGRAM = os.path.abspath(os.environ.get("PROGRAM", str(HERE / "crates/ctt_tool/out/ctt_tool")))
FLAG = "      --loud            Say it aloud, with --json or `-`\n"
BARE = "--byte --csv --explain --faults --help --json --loud --name --plain --point --sentences --sort --strict --version"
VALUED = "      --loud <VOICE>     Say it aloud\n"
passed = failed = 0


def equals(what, found, wanted):
    """Counts a comparison."""
    global passed, failed
    if found == wanted:
        passed += 1
    else:
        failed += 1
        print(f"FAILED: {what}: found\n{found}\nand not\n{wanted}")


def call(*words):
    """The status of the program, what it prints, and what it says."""
    done = subprocess.run(["timedesk", *words], executable=PROGRAM, stdin=subprocess.DEVNULL, stdout=subprocess.PIPE, stderr=subprocess.PIPE)
    return done.returncode, done.stdout.decode(), done.stderr.decode()


def run(top, *words):
    """The status of the script of a tree, and what it prints."""
    done = subprocess.run([sys.executable, str(top / "tools" / "flags.py"), *words], stdout=subprocess.PIPE, stderr=subprocess.STDOUT)
    return done.returncode, done.stdout.decode()


def known(top, program, command):
    """The options that the completions of a tree know of a command, and those that have no value."""
    asked = f'. "$1" && _{program}_known "$2" && echo "$options" && echo "$_{program}_bare"'
    done = subprocess.run(["bash", "-c", asked, "-", str(top / "docs/completion.bash"), command], stdout=subprocess.PIPE, check=True)
    return [line.split() for line in done.stdout.decode().splitlines()]


# what the program prints is what is kept
kept = flags.help_file("").read_text(encoding="utf-8")
names = flags.command_names(kept)
for name in ["", *names]:
    text = flags.help_file(name).read_text(encoding="utf-8")
    equals(f"help of {name or 'the program'}", call(*name.split(), "--help"), (0, text, ""))
    equals(f"short help of {name or 'the program'}", call(*name.split(), "-h"), (0, text, ""))
    equals(f"help {name}", call("help", *name.split()), (0, text, ""))
equals("the files of help", sorted(file.stem for file in (HERE / "docs/help").iterdir()), sorted(names))

# the manual and the completions are made of it, and of the help of office
equals("manual and completions", run(HERE, "--check", PROGRAM), (0, ""))

# a week is that of one thing alone, and so is a page of one, as the manual says by bars
for one, other in itertools.combinations(flags.EITHER[0], 2):
    for command in "week", "page":
        equals(f"{command} {one} {other}", call(command, "nowhere.ctt", "nowhere.sol", one, "x", other, "x")[0], 2)

with tempfile.TemporaryDirectory() as room:
    top = pathlib.Path(room)
    (top / "tools").mkdir()
    shutil.copy(str(HERE / "tools/flags.py"), str(top / "tools"))
    shutil.copytree(str(HERE / "tools/office"), str(top / "tools/office"))
    (top / "docs").mkdir()
    shutil.copytree(str(HERE / "docs/help"), str(top / "docs/help"))
    for file in ("help.txt", "timedesk.1", "completion.bash"):
        shutil.copy(str(HERE / "docs" / file), str(top / "docs"))
    equals("a copy", run(top, "--check"), (0, ""))
    # a flag that the help has alone
    help_of_mend = top / "docs/help/mend.txt"
    text = help_of_mend.read_text(encoding="utf-8")
    front, options = text.split("Options:\n")
    help_of_mend.write_text(f"{front}Options:\n{FLAG}{options}", encoding="utf-8")
    status, said = run(top, "--check")
    equals("a flag in the help alone", status, 1)
    equals("what it lacks", [line for line in said.splitlines() if "loud" in line], [
        "+.RB [ \\-\\-loud ]", "+.BR \\-\\-loud", "+Say it aloud, with \\-\\-json or \\fB\\-\\fR.",
        f"+_timedesk_bare='{BARE}'",
        "+    mend) options='--barred --blocked --help --loud --point' ;;"])
    equals("a flag that is written", run(top, "--write"), (0, ""))
    equals("that flag", run(top, "--check"), (0, ""))
    equals("that flag completed", known(top, "timedesk", "mend"), [
        "--barred --blocked --help --loud --point".split(), BARE.split()])
    equals("a program without it", run(top, "--check", PROGRAM)[1].splitlines()[:2], ["docs/help/mend.txt:", "-" + FLAG.rstrip("\n")])
    # a flag cannot be one with a value elsewhere
    help_of_list = top / "docs/help/list.txt"
    whole = help_of_list.read_text(encoding="utf-8")
    help_of_list.write_text(whole.replace("Options:\n", f"Options:\n{VALUED}"), encoding="utf-8")
    equals("a flag with a value elsewhere", run(top, "--check"), (1, "timedesk: with a value, and without one: --loud\n"))
    # the help of a program takes the place of what is kept
    (top / "docs/help/old.txt").write_text("old\n", encoding="utf-8")
    help_of_list.write_text(whole, encoding="utf-8")
    equals("a help of no command", "docs/help/old.txt: it is the help of no command" in run(top, "--check", PROGRAM)[1], True)
    equals("the help of a program", run(top, "--write", PROGRAM), (0, ""))
    equals("all of it", run(top, "--check", PROGRAM), (0, ""))
    equals("the files", sorted(file.name for file in (top / "docs/help").iterdir()), sorted(f"{name}.txt" for name in names))
    equals("the manual as it was", (top / "docs/timedesk.1").read_bytes(), (HERE / "docs/timedesk.1").read_bytes())
    equals("the completions as they were", (top / "docs/completion.bash").read_bytes(), (HERE / "docs/completion.bash").read_bytes())
    # an option of office is its parser's
    words = top / "tools/office/commands_blocking.py"
    words.write_text(words.read_text(encoding="utf-8").replace('"--why"', '"--reason"'), encoding="utf-8")
    equals("an option of office", run(top, "--check")[0], 1)
    equals("an option of office that is written", run(top, "--write"), (0, ""))
    equals("that option", known(top, "office", "unblock")[0], ["--help", "--reason"])
    # a command has its words in the manual
    page = top / "docs/timedesk.1"
    page.write_text(page.read_text(encoding="utf-8").replace(".B timedesk mend\n", "", 1), encoding="utf-8")
    equals("a manual without a command", run(top, "--check"), (1, "docs/timedesk.1: its synopsis needs a line .B timedesk mend\n"))

print(f"{passed} passed, {failed} failed")
sys.exit(failed != 0)
