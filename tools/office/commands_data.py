"""The commands that take data in and out. Each takes in what it needs alone."""
from __future__ import annotations

import argparse
import datetime

from office.arguments import Commands, add_at, add_command
from office.data.labels import KINDS
from office.day.folder import Day

FORMS = {
    "html": "as a page for a browser, and for one sheet of A4",
    "csv": "as a table for a spreadsheet",
    "ics": "as a calendar: an event for each lecture in each week of the term",
}
TABLES = {
    "xlsx": "as one workbook with a sheet for each table",
    "semicolon": "with semicolons between cells",
}


def add_data(commands: Commands) -> None:
    does = "make an instance, a start and labels of the tables of an office"
    one = commands.add_parser(
        "import", help=does, description=does[0].upper() + does[1:] + ".", allow_abbrev=False
    )
    tables = "the tables: courses.csv, rooms.csv .., or a workbook"
    one.add_argument("folder", metavar="FOLDER", help=tables)
    add_output(one, "DIR")
    one.set_defaults(do=do_import)
    one = add_command(commands, "export", "write the tables of a day, with its timetable")
    add_output(one, "FOLDER")
    add_at(one)
    forms = one.add_mutually_exclusive_group()
    for form, does in TABLES.items():
        forms.add_argument(f"--{form}", dest="form", action="store_const", const=form, help=does)
    one.set_defaults(do=do_export)
    one = add_command(commands, "publish", "write the weeks of a day for a web server")
    one.add_argument("folder", metavar="DIR", help="the folder, a link to its newest version")
    follow = "again after each accepted draft, until the day is closed"
    one.add_argument("--follow", action="store_true", help=follow)
    does = "tell whose weeks have changed as JSON, one in a line"
    one.add_argument("--json", action="store_true", help=does)
    does = "the language of the pages, en or de"
    one.add_argument("--lang", choices=["en", "de"], default="en", help=does)
    when = one.add_mutually_exclusive_group()
    does = "changes hold from this date on, as 2026-12-01; else from now on"
    when.add_argument("--from", metavar="DATE", dest="since", type=date_of, help=does)
    does = "changes hold for the whole term, also where it is past"
    when.add_argument("--whole-term", action="store_true", help=does)
    does = "add a page in which a visitor checks the timetable, with the whole instance in it"
    one.add_argument("--with-check", dest="with_check", action="store_true", help=does)
    one.set_defaults(do=do_publish)


def date_of(text: str) -> datetime.date:
    """The date of a word."""
    from office.data.readings import read_date

    found = read_date(text)
    if found is None:
        raise argparse.ArgumentTypeError(f"{text} is no date as 2026-12-01")
    return found


def add_output(command: argparse.ArgumentParser, name: str) -> None:
    does = "the folder that is made"
    command.add_argument("-o", "--output", metavar=name, dest="into", required=True, help=does)


def add_view(command: argparse.ArgumentParser) -> None:
    """Adds whose week is meant, and the form in which it is told."""
    kinds = command.add_mutually_exclusive_group()
    for kind in KINDS:
        does = f"the week of this {kind} alone, by its code or its name"
        kinds.add_argument(f"--{kind}", metavar=kind.upper(), help=does)
    forms = command.add_mutually_exclusive_group()
    for form, does in FORMS.items():
        forms.add_argument(f"--{form}", dest="form", action="store_const", const=form, help=does)
    command.add_argument("--costs", action="store_true", help="with what lectures cost")


def do_import(words: argparse.Namespace) -> int:
    from office.data.importing import import_folder

    return import_folder(words.folder, words.into, words.unproved)


def do_export(words: argparse.Namespace) -> int:
    from office.data.exporting import Form, export_day

    form = Form(words.form) if words.form else None
    return export_day(Day(words.day), words.at, words.into, form)


def do_publish(words: argparse.Namespace) -> int:
    from office.data.own_check import read_page
    from office.data.page_words import Language
    from office.data.publishing import Wanted, publish
    from office.data.telling import From

    since = From(words.since, words.whole_term)
    check = read_page() if words.with_check else None
    wanted = Wanted(since, words.json, check, Language(words.lang))
    return publish(Day(words.day), words.folder, words.follow, wanted)
