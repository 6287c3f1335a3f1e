"""`office import`: an instance, its side files and labels, of the tables of an office. What is
wrong in them is said at once, and then nothing is written."""
from __future__ import annotations

import os
import shlex

from office.data import given_tables, plan_book
from office.data.codes import NO_NAME
from office.data.imported import BARRED, CLOSURES, INSTANCE, START
from office.data.instance_files import BLOCKED, barred_text, instance_text
from office.data.label_files import LABELS_COLUMNS
from office.data.labels import KINDS, PLAN
from office.data.new_folder import new_folder, write_files
from office.data.normal_tables import normal_tables
from office.data.plan_tables import Tables
from office.data.short_names import short_names
from office.data.sources import WORKBOOKS
from office.data.tables import read_bytes, write_table
from office.day.closures_file import blocked_text, closures_text
from office.day.desk_words import encoded
from office.day.instance import Instance
from office.day.program import build, output, program_words
from office.day.safe_files import write_whole
from office.refused import MACHINE, Refused, Silent
from office.words.text import counted, shown

# how many of the short names that were made are told
SAID = 5


def label_rows(tables: Tables, instance: Instance) -> list[tuple[str, str, str, str]]:
    """All codes, with the names that they have."""
    plan = tables.labels.names.get((PLAN, instance.name), NO_NAME)
    rows = [(PLAN, instance.name, *plan)]
    for kind in KINDS:
        names = tables.codes[kind].names
        made = short_names({c: one.name for c, one in names.items() if not one.short})
        rows += [(kind, c, one.name, one.short or made.get(c, "")) for c, one in names.items()]
    return rows


def label_files(tables: Tables) -> dict[str, bytes]:
    """The times, the term and the single dates, as they were written; in English where they are of
    a workbook, or of a language of the office's own."""
    labels, source = tables.labels, tables.source
    found: dict[str, bytes] = {}
    normal = normal_tables(labels, tables.days, tables.periods)
    for file, (heads, rows) in normal.items():
        path = os.path.join(source.path, file)
        text = read_bytes(path) if source.is_folder and not source.has_words else None
        if text is not None:
            found[file] = text
        elif any(source.places(file)):
            found[file] = write_table(heads, rows)
    return found


def import_files(tables: Tables, instance: Instance) -> dict[str, bytes]:
    """The files that an import writes."""
    heads = [column.name for column in LABELS_COLUMNS]
    files = {
        INSTANCE: instance_text(instance),
        "labels.csv": write_table(heads, label_rows(tables, instance)),
    }
    if tables.barred is not None:
        files[BARRED] = barred_text(instance)
    if tables.closures is not None:
        files[CLOSURES] = closures_text(tables.closures)
    if tables.start is not None:
        lines = (f"{lecture.words()}\n" for _, lecture in tables.start)
        files[START] = encoded("".join(lines))
    files.update(label_files(tables))
    files[given_tables.FILE] = given_tables.packed(tables.source)
    if tables.source.is_folder:
        book = read_bytes(os.path.join(tables.folder, plan_book.FILE))
        files.update({} if book is None else {plan_book.FILE: book})
    return files


def validate(program: list[str], folder: str, has: dict[str, bytes], instance: Instance) -> None:
    """Has the program read what was written, as a desk would."""
    path = {name: os.path.join(folder, name) for name in has}
    start = ["--start", path[START]] if START in has else []
    barred = ["--barred", path[BARRED]] if BARRED in has else []
    blocked = os.path.join(folder, BLOCKED)
    write_whole(blocked, blocked_text(instance.closures))
    sides = [*barred, "--blocked", blocked] if instance.closures else barred
    status, _ = output([*program, "run", path[INSTANCE], os.devnull, *start, *sides])
    os.remove(blocked)
    if status != 0:
        raise Silent(status or MACHINE)


def say_short_names(tables: Tables, folder: str) -> None:
    """Says which short names were made, and where others can be written."""
    said: list[str] = []
    for kind in KINDS:
        names = tables.codes[kind].names
        made = short_names({c: one.name for c, one in names.items() if not one.short})
        said += [f"{names[code].name or code}: {short}" for code, short in made.items()]
    if said:
        more = f"; {len(said) - SAID} others" if len(said) > SAID else ""
        where = os.path.join(folder, "labels.csv")
        print(shown(f"short names made, as in {where}: {'; '.join(said[:SAID])}{more}"))


def say_what(tables: Tables, instance: Instance, folder: str) -> None:
    """Says what was imported, and how a day begins with it."""
    lectures = sum(course.lectures for course in instance.courses.values())
    parts = [
        counted(len(instance.courses), "course") + f" with {counted(lectures, 'lecture')}",
        counted(len(instance.teachers), "teacher"),
        counted(len(instance.rooms), "room"),
        f"{len(instance.curricula)} curricula",
        f"{counted(instance.days, 'day')} of {counted(instance.periods, 'period')}",
    ]
    print(f"{folder}: {', '.join(parts)}")
    for note in tables.faults.notes:
        print(note)
    if tables.start is not None:
        print(f"placed at the start: {len(tables.start)} of {counted(lectures, 'lecture')}")
    say_short_names(tables, folder)
    print(f"to open a day: office open DAY {shlex.quote(folder)} PLANNERS")


def import_folder(source: str, folder: str, unproved: bool) -> int:
    """Imports the tables of a folder, or of a workbook, into a new folder."""
    if not os.path.exists(source):
        raise Refused(f"there is no folder {source}, and no workbook")
    if not os.path.isdir(source) and not source.lower().endswith(WORKBOOKS):
        raise Refused(f"{source} is no folder, and no workbook (.xlsx, .ods)")
    program = program_words(unproved)
    build(program)
    tables = Tables(source, program)
    instance = tables.read()
    files = import_files(tables, instance)
    with new_folder(folder) as made:
        write_files(made, files)
        validate(program, made, files, instance)
    say_what(tables, instance, folder)
    return 0
