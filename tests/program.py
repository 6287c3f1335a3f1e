"""Runs the program, and counts comparisons. PROGRAM names another one."""
import itertools
import os
import shutil
import subprocess
import sys

HERE = os.path.dirname(os.path.dirname(os.path.abspath(__file__)))
PROGRAM = os.environ.get("PROGRAM", os.path.join(HERE, "crates/ctt_tool/out/ctt_tool"))
EXAMPLES = os.path.join(HERE, "examples")
NAMES = os.path.join(HERE, "tests/names")
SMALL = os.path.join(EXAMPLES, "small.ctt")
SMALL_SOL = os.path.join(EXAMPLES, "s.sol")
SPRING = os.path.join(EXAMPLES, "spring.ctt")
SPRING_SOL = os.path.join(EXAMPLES, "spring.sol")
# where a sync takes no time, if there is such a place
FAST = "/dev/shm" if os.path.isdir("/dev/shm") else None

passed = 0
failed = 0


def pair_of(folder, name):
    """The files of an instance and of a solution."""
    return [os.path.join(folder, f"{name}.{ending}") for ending in ("ctt", "sol")]


def read_files(files):
    """What files hold."""
    texts = []
    for file in files:
        with open(file, "rb") as opened:
            texts.append(opened.read())
    return texts


def write_files(folder, instance, solution, barred=None, blocked=None):
    """Files of an instance, a solution and perhaps barred rooms and closures, as the words of a
    command give them."""
    files = []
    texts = {"ctt": instance, "sol": solution, "barred": barred, "blocked": blocked}
    for ending, text in texts.items():
        if text is not None:
            files.append(os.path.join(folder, f"drawn.{ending}"))
            with open(files[-1], "wb") as opened:
                opened.write(text)
    return files


def words_of(files):
    """The words of a command by which it is given these files. The option of a side file is its
    ending."""
    sides = (("--" + os.path.splitext(file)[1][1:], file) for file in files[2:])
    return [*files[:2], *itertools.chain.from_iterable(sides)]


def build(folder, name):
    """A library of calls to stand in front of the C library's, or an end where there is no
    compiler."""
    compiler = next(filter(None, map(shutil.which, ("cc", "gcc", "clang"))), None)
    if compiler is None:
        print("no C compiler was found, so no call of the C library failed")
        sys.exit(1)
    made = os.path.join(folder, f"{name}.so")
    source = os.path.join(HERE, "tests", f"{name}.c")
    subprocess.run([compiler, "-O1", "-shared", "-fPIC", "-o", made, source, "-ldl"], check=True)
    return made


def check(name, found, wanted):
    """Counts a comparison of two texts, or of two values. Of texts the first line that differs is
    shown."""
    global passed, failed
    if found == wanted:
        passed += 1
        return
    failed += 1
    if failed > 20:
        return
    if isinstance(found, str):
        lines = itertools.zip_longest(found.split("\n"), wanted.split("\n"), fillvalue="no line")
        found, wanted = next(pair for pair in lines if pair[0] != pair[1])
    print(f"FAILED: {name}: found {found!r:.300}\n    and not {wanted!r:.300}")


def call(*words, text=b""):
    """A run of the program on this input: its status, what it prints, and what it says."""
    done = subprocess.run([PROGRAM, *words], input=text, capture_output=True, timeout=300)
    return done.returncode, done.stdout.decode(), done.stderr.decode()


def check_run(name, *words, wanted="", said="", status=0):
    """A run prints a text, says another one, and ends with a status."""
    ended, printed, complaint = call(*words)
    check(f"{name}: status and standard error", (ended, complaint), (status, said))
    check(name, printed, wanted)


def check_full(name, *words):
    """A run whose output has no place is told so, with its status."""
    with open("/dev/full", "wb") as full:
        done = subprocess.run([PROGRAM, *words], stdout=full, stderr=subprocess.PIPE, timeout=300)
    check(name, (done.returncode, done.stderr), (3, b"timedesk: cannot write\n"))


def end():
    """Says what was counted, and ends with status 0 only where nothing failed."""
    print(f"{passed} passed, {failed} failed")
    sys.exit(failed != 0)
