#!/usr/bin/env python3
"""Compares the rows of `compare` with a plain reading of the rules, also those of `--sort`, `--pairs` and `--faults`, and tries `where`,
`check --name` and standard input.

PROGRAM names another program. The last line is 'N passed, M failed'.
"""
import csv
import io
import json
import os
import random
import subprocess
import sys
import tempfile
import unicodedata

sys.dont_write_bytecode = True
from drawn import draw_blocked, draw_instance, draw_solution  # noqa: E402
from program import EXAMPLES, PROGRAM, call, check, check_full, check_run, end, pair_of, read_files, words_of, write_files  # noqa: E402
from rules import Instance  # noqa: E402
from week import width  # noqa: E402

DRAWN = 60
SOLUTIONS = 5
COUNTS = ["lectures", "conflicts", "availability", "occupancy", "barred", "blocked", "capacity", "days", "compactness", "stability"]
FILES = ["plain.sol", 'a "quoted", one.sol', "wide 数学.sol", "two\nlines.sol", "long-" + "x" * 30 + ".sol"]


HARD, COSTS = COUNTS[:6], COUNTS[6:]


def columns(*instances):
    """The names of the columns. Blocked rooms have one only if there are some."""
    hard = [key for key in HARD if key != "blocked" or any(instance.blocked for instance in instances)]
    return ["file", *hard, "violations", *COSTS, "total", "lawful", "complete"]


def row(instance, file, t):
    """The cells of a solution."""
    counts, lawful, complete = instance.count(t)
    sums = {"violations": sum(counts[kind] for kind in HARD), "total": sum(counts[kind] for kind in COSTS)}
    cells = {"file": file, **counts, **sums, "lawful": lawful, "complete": complete}
    return {key: cells[key] for key in columns(instance)}


def refused_row(head, file, fault):
    """The cells of a file that is refused."""
    return {**dict.fromkeys(head), "file": file, "fault": fault}


def words(cells):
    """The cells as words, with yes or no for what is true or false, and nothing for what there is not."""
    answers = {True: "yes", False: "no", None: ""}
    return [answers[cell] if cell is None or isinstance(cell, bool) else str(cell) for cell in cells.values()]


def rank(cells):
    """What a row of an instance is sorted by: those that are read before those that are refused; by violations, by the total, and by
    the bytes of the name."""
    return cells["lawful"] is None, cells["violations"] or 0, cells["total"] or 0, cells["file"].encode()


def aligned(head, rows):
    """A table with the files at the left and all else at the right of its column."""
    lines = [head, *map(words, rows)]
    widths = [max(map(width, column)) for column in zip(*lines)]
    text = ""
    for first, *others in lines:
        text += first + " " * (widths[0] - width(first))
        text += "".join(" " + " " * (wide - width(cell)) + cell for wide, cell in zip(widths[1:], others)) + "\n"
    return text


def csv_text(head, rows):
    out = io.StringIO()
    csv.writer(out, lineterminator="\n").writerows([head, *map(words, rows)])
    return out.getvalue()


def json_of(rows):
    """The rows as JSON, their keys in the order of their bytes."""
    return json.dumps(rows, sort_keys=True, ensure_ascii=False, separators=(",", ":")) + "\n"


def check_rows(name, given, head, rows, said="", refused=()):
    """Compares all forms of a comparison, given the names of its columns, its rows, and those of the files that are refused, each with
    its number among all."""
    if said:
        status = strict = 1
    else:
        status, strict = 0, 0 if all(each["complete"] for each in rows) else 5 if all(each["lawful"] for each in rows) else 4
    check_run(f"{name}: aligned", "compare", *given, wanted=aligned(head, rows), said=said, status=status)
    check_run(f"{name}: CSV", "compare", *given, "--csv", "--strict", wanted=csv_text(head, rows), said=said, status=strict)
    check_run(f"{name}: JSON", "compare", *given, "--json", wanted=json_of(rows), said=said, status=status)
    best = sorted(rows, key=rank)
    check_run(f"{name}: the best first", "compare", *given, "--sort", wanted=aligned(head, best), said=said, status=status)
    check_run(f"{name}: the best first, as CSV", "compare", "--sort", "--csv", *given, wanted=csv_text(head, best), said=said, status=status)
    # a row for each file, also for those that are refused
    head, every = [*head, "fault"], [{**cells, "fault": None} for cells in rows]
    for at, cells in refused:
        every.insert(at, cells)
    check_run(f"{name}: faults", "compare", *given, "--faults", "--csv", wanted=csv_text(head, every), said=said, status=status)
    check_run(f"{name}: faults as JSON", "compare", *given, "--json", "--faults", wanted=json_of(every), said=said, status=status)
    best = json_of(sorted(every, key=rank))
    check_run(f"{name}: faults last", "compare", *given, "--json", "--faults", "--sort", wanted=best, said=said, status=status)
    check_run(f"{name}: no faults when aligned", "compare", *given, "--faults", wanted=aligned(head[:-1], rows), said=said, status=status)


def write(file, text):
    with open(file, "wb") as opened:
        opened.write(text)


def check_drawn(folder):
    """Draws instances with solutions, of which some are refused, and compares their rows."""
    draw = random.Random(59)
    for n in range(DRAWN):
        text, barred = draw_instance(draw)
        blocked = draw_blocked(draw, Instance(text, barred))
        instance = Instance(text, barred, blocked)
        given = words_of(write_files(folder, text, b"", barred, blocked))
        rows, said, files, left_out, points = [], "", [], [], []
        for file in FILES[:SOLUTIONS]:
            files.append(os.path.join(folder, file))
            solution = draw_solution(draw, instance)
            refused = draw.random() < 0.1
            write(files[-1], b"one" if refused else solution)
            if refused:
                ended, _, complaint = call("check", given[0], files[-1], *given[2:])
                check(f"drawn solutions {n}: refused", (ended, complaint[:19]), (1, "timedesk: solution "))
                points += [complaint.replace("timedesk: ", f"timedesk: {files[-1]}: ", 1), f"{files[-1]}:1:1: S3: lecture 1: course: no course one\n"]
                said += points[-2]
                left_out.append((len(files) - 1, refused_row([*columns(instance), "fault"], files[-1], complaint[19:].rstrip("\n"))))
            else:
                rows.append(row(instance, files[-1], instance.read_solution(solution)))
        check_rows(f"drawn solutions {n}", [given[0], *files, *given[2:]], columns(instance), rows, said, left_out)
        words_given = ["compare", "--point", given[0], *files, *given[2:]]
        said, status = "".join(points), 1 if points else 0
        check_run(f"drawn solutions {n}: points", *words_given, wanted=aligned(columns(instance), rows), said=said, status=status)


def check_examples(folder):
    instance, solution = pair_of(EXAMPLES, "spring")
    texts = read_files([instance, solution])
    read = Instance(texts[0])
    head, rows = columns(read), [row(read, solution, read.read_solution(texts[1]))]
    check_rows("spring", [instance, solution], head, rows)
    check_rows("spring, many times", [instance, *[solution] * 100], head, rows * 100)
    none = os.path.join(folder, "none.sol")
    unread = refused_row([*head, "fault"], none, "cannot read")
    check_rows("no file", [instance, none, solution], head, rows, f"timedesk: {none}: cannot read\n", [(0, unread)])
    check_run("no instance", "compare", none, solution, said=f"timedesk: cannot read {none}\n", status=3)
    check_full("no place for the rows", "compare", instance, solution)
    for option in (), ("--explain",):
        _, printed, _ = call("check", instance, solution, "--json", *option)
        wanted = json_of({**json.loads(printed), "file": solution})
        check_run("a name", "check", instance, solution, "--json", "--name", *option, wanted=wanted)
    _, printed, _ = call("check", instance, solution)
    check_run("no name without JSON", "check", instance, solution, "--name", wanted=printed)


def check_list(name, text, head, groups, folder):
    """Compares all forms of a comparison of pairs, by the text of their list: each group has what is said of its files, and its rows, of
    which those of refused files have a fault."""
    file, said = os.path.join(folder, "list.txt"), "".join(said for said, _ in groups)
    with open(file, "wb") as opened:
        opened.write(text)
    every = [cells for _, rows in groups for cells in rows]
    best = [cells for _, rows in groups for cells in sorted(rows, key=rank)]
    status = 1 if said else 0

    def whole(rows):
        return [{key: cells[key] for key in head} for cells in rows if cells["fault"] is None]

    def with_faults(rows):
        return [{key: cells[key] for key in [*head, "fault"]} for cells in rows]

    check_run(f"{name}: aligned", "compare", "--pairs", file, wanted=aligned(head, whole(every)), said=said, status=status)
    check_run(f"{name}: the best first", "compare", "--sort", "--pairs", file, wanted=aligned(head, whole(best)), said=said, status=status)
    wanted = csv_text([*head, "fault"], with_faults(best))
    check_run(f"{name}: CSV", "compare", "--pairs", file, "--csv", "--faults", "--sort", wanted=wanted, said=said, status=status)
    check_run(f"{name}: JSON", "compare", "--json", "--pairs", file, wanted=json_of(whole(every)), said=said, status=status)
    with open(file, "rb") as given:
        done = subprocess.run([PROGRAM, "compare", "--pairs", "-", "--json", "--faults"], stdin=given, capture_output=True, timeout=300)
    wanted = (status, json_of(with_faults(every)), said)
    check(f"{name}: of standard input", (done.returncode, done.stdout.decode(), done.stderr.decode()), wanted)


def check_refused_list(name, text, fault, folder, begins=""):
    """Compares what is said of a list of pairs that is refused, and of its point; `begins` is what is said of how it begins."""
    file = os.path.join(folder, "list.txt")
    write(file, text)
    said = f"timedesk: pairs {fault}\n"
    check_run(name, "compare", "--pairs", file, said=said, status=1)
    code, line = fault.split()
    sentence = {
        "P1": "a name that is not UTF-8",
        "P2": "expected two words, an instance and a solution of it",
        "P3": "a name is that of a file, not of standard input",
        "P4": begins,
    }[code]
    said += f"{file}:{line}:1: {code}: {sentence}\n"
    check_run(f"{name}: its point", "compare", "--pairs", file, "--point", said=said, status=1)


def check_pairs(folder):
    """Draws lists of pairs: of some instances, of which some are refused, with solutions in any order."""
    draw = random.Random(73)
    for n in range(DRAWN // 2):
        named, groups, head = [], [], ["instance", *columns()]
        for number in range(draw.randint(1, 3)):
            text, _ = draw_instance(draw)
            instance, ctt = Instance(text), os.path.join(folder, draw.choice(["a", "数学", "long-name"]) + f"{number}.ctt")
            is_cut = draw.random() < 0.2
            write(ctt, text[:6] if is_cut else text)
            said, rows = (f"timedesk: {ctt}: instance I2 2\n" if is_cut else ""), []
            for at in range(draw.randint(1, 4)):
                file = os.path.join(folder, f"{draw.choice('abc')}{number}-{at}.sol")
                solution = b"one" if draw.random() < 0.2 else draw_solution(draw, instance)
                write(file, solution)
                fault = "I2 2" if is_cut else "S3 1" if solution == b"one" else None
                cells = refused_row(head, file, fault) if fault else {**row(instance, file, instance.read_solution(solution)), "fault": None}
                rows.append({**cells, "instance": ctt})
                said += f"timedesk: {file}: solution S3 1\n" if fault == "S3 1" else ""
            named.append([f"{ctt}{draw.choice([' ', chr(9), '   '])}{cells['file']}" for cells in rows])
            groups.append((said, rows))
        # the lines of an instance keep their order; the instances that of their first lines
        lines, order = [], list(range(len(named)))
        turns = [number for number, of in enumerate(named) for _ in of]
        draw.shuffle(turns)
        order.sort(key=turns.index)
        for number in turns:
            lines.append(named[number].pop(0) + draw.choice(["", " ", "\r", "\n", "\n \t"]))
        text = "\n".join(lines) + draw.choice(["", "\n"])
        check_list(f"drawn pairs {n}", text.encode(), head, [groups[number] for number in order], folder)
    check_list("no pair", b" \n", ["instance", *columns()], [], folder)
    instance, solution = pair_of(EXAMPLES, "spring")
    pair = f"{instance} {solution}\n"
    for text, fault in (
        (pair + "one", "P2 2"), ("one two three\n" + pair, "P2 1"), (f"{pair}\n - {solution}", "P3 3"), (f"{instance} -", "P3 1"),
        ("one\n- -", "P2 1"), (f"{pair}nowhere nowhere\n{pair}one", "P2 4"),
    ):
        check_refused_list(f"pairs {text}", text.encode(), fault, folder)
    check_refused_list("pairs of bytes", pair.encode() + b"a\xff b\n", "P1 2", folder)
    for said, text in [
        ("the file begins with a byte order mark", b"\xef\xbb\xbf" + pair.encode()),
        ("the file begins with a byte order mark", b"\xef\xbb\xbf\n" + pair.encode()),
        ("the file is UTF-16, not UTF-8", b"\xff\xfe" + pair.encode("utf-16-le")),
        ("the file is UTF-16, not UTF-8", b"\xfe\xff" + pair.encode("utf-16-be")),
        ("the file is UTF-32, not UTF-8", b"\xff\xfe\0\0" + pair.encode("utf-32-le")),
        ("the file is UTF-32, not UTF-8", b"\0\0\xfe\xff" + pair.encode("utf-32-be")),
    ]:
        check_refused_list(f"pairs that begin with {text[:4]!r}", text, "P4 1", folder, said)
    none = os.path.join(folder, "none")
    check_run("no list of pairs", "compare", "--pairs", none, said=f"timedesk: cannot read {none}\n", status=3)
    beside = "timedesk: --pairs names the files: no INSTANCE, SOLUTION, --barred or --blocked beside it\n"
    for more in [instance], [instance, solution], ["--barred", "-"], ["--blocked", none]:
        check_run("files beside pairs", "compare", *more, "--pairs", none, said=beside, status=2)
    for few in [], [instance]:
        check_run("nothing to compare", "compare", *few, said="timedesk: compare needs an INSTANCE and a SOLUTION, or --pairs\n", status=2)
    # each instance is read once, also where a thousand lines name it
    write(os.path.join(folder, "list.txt"), pair.encode() * 1000)
    status, printed, said = call("compare", "--pairs", os.path.join(folder, "list.txt"))
    check("a thousand pairs", (status, len(printed.splitlines()), said), (0, 1001, ""))


def check_standard_input():
    """`-` is standard input."""
    instance, solution = pair_of(EXAMPLES, "small")[0], os.path.join(EXAMPLES, "s.sol")
    for command, file in (("check", solution), ("week", solution), ("run", os.path.join(EXAMPLES, "planners.txt"))):
        _, printed, complaint = call(command, instance, file)
        with open(file, "rb") as given:
            done = subprocess.run([PROGRAM, command, instance, "-"], stdin=given, capture_output=True, timeout=300)
        check(f"{command} of standard input", (done.stdout.decode(), done.stderr.decode()), (printed, complaint))


def shown(file, text, number):
    """What `where` prints of a word, by a plain reading."""
    begins = [k for k, byte in enumerate(text) if byte not in b"\t\n\v\f\r " and (k == 0 or text[k - 1] in b"\t\n\v\f\r ")]
    start = begins[number - 1]
    lead = text[text.rfind(b"\n", 0, start) + 1:start].decode()
    line = text[start - len(lead.encode()):].split(b"\n")[0].decode()
    mark = below(lead) + "^"
    word = text[start:].split()[0].decode()
    return f"{file}:{1 + text.count(bytes([10]), 0, start)}:{1 + len(lead)}: {word}\n{line}\n{mark}\n"


def below(lead):
    """What is below a line before the mark: a tab below a tab, and as many blanks below another character as it is wide."""
    return "".join("\t" if character == "\t" else " " * (unicodedata.category(character) != "Cc") * width(character) for character in lead)


def below_bytes(lead):
    """The same below bytes, which are one blank wide where they are not UTF-8."""
    try:
        return below(lead.decode()).encode()
    except UnicodeDecodeError:
        return b"".join(b"\t" if byte == 9 else b" " for byte in lead if byte & 0xC0 != 0x80)


def place(file, front):
    """The place in a file behind these bytes: line and column, which is a character."""
    lead = front.split(b"\n")[-1]
    return f"{file}:{1 + front.count(bytes([10]))}:{1 + sum(byte & 0xC0 != 0x80 for byte in lead)}: "


def check_bytes(folder):
    """Finds each byte of a text with characters of one to four bytes, and with bytes that are none."""
    file, text = os.path.join(folder, "bytes.txt"), "a\té数🎓\n\nb".encode() + b"\xff c\x80\n" + "é".encode()
    write(file, text)
    for number in range(len(text)):
        front, what = text[:number], text[number]
        lead = front.split(b"\n")[-1]
        line = lead + text[number:].split(b"\n")[0]
        mark = below_bytes(lead) + b"^"
        wanted = f"{place(file, front)}0x{what:02x}\n".encode() + line + b"\n" + mark + b"\n"
        done = subprocess.run([PROGRAM, "where", file, str(number), "--byte"], capture_output=True, timeout=300)
        check(f"byte {number}", (done.returncode, done.stdout, done.stderr), (0, wanted, b""))
    for number in len(text), len(text) + 7, 999999999:
        said = f"{place(file, text)}the bytes end here, before byte {number}\n"
        check_run(f"no byte {number}", "where", "--byte", file, str(number), said=said, status=1)
    for number in "x", "1000000000", "":
        check_run(f"no byte {number}", "where", "--byte", file, number, said=f"timedesk: no byte {number} in {file}\n", status=1)


def check_words(folder):
    """Finds words of the examples, and of a text with blanks of all kinds."""
    odd = os.path.join(folder, "odd.txt")
    write(odd, "\n\n a\tbé\v数学\fc \r\n\n\td\te".encode())
    for file in (odd, *pair_of(EXAMPLES, "small")[:1], os.path.join(EXAMPLES, "s.sol")):
        text = read_files([file])[0]
        count = len(text.split())
        for number in range(1, count + 1):
            check_run(f"word {number}", "where", file, str(number), wanted=shown(file, text, number))
        for word in ("0", "x", "1000000000", "999999999999", ""):
            check_run(f"no word {word}", "where", file, word, said=f"timedesk: no word {word} in {file}\n", status=1)
        for number in count + 1, count + 7, 999999999:
            said = f"{place(file, text.rstrip())}the words end here, before word {number}\n"
            check_run(f"no word {number}", "where", file, str(number), said=said, status=1)
    none, empty = os.path.join(folder, "none"), os.path.join(folder, "empty")
    check_run("words of no file", "where", none, "1", said=f"timedesk: cannot read {none}\n", status=3)
    write(empty, b" \n\n ")
    check_run("no word at all", "where", empty, "1", said=f"{empty}:1:1: the words end here, before word 1\n", status=1)


def main():
    with tempfile.TemporaryDirectory() as folder:
        check_drawn(folder)
        check_examples(folder)
        check_pairs(folder)
        check_words(folder)
        check_bytes(folder)
    check_standard_input()
    end()


if __name__ == "__main__":
    main()
