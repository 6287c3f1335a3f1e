"""Instances and solutions by a plain reading, their parts by names."""
from collections import namedtuple

from rules import Instance, lectures_in

Course = namedtuple("Course", "name teacher lectures minimum_days students")


class PlainInstance:
    """What the plain rules read in the text of an instance, and in those of its side files."""

    def __init__(self, text, *sides):
        plain = Instance(text, *sides)
        self.name, self.days, self.periods = plain.name, plain.days, plain.periods
        self.courses = {course[0]: Course(*course) for course in plain.courses}
        names, rooms = list(self.courses), [name for name, _ in plain.rooms]
        self.rooms = dict(plain.rooms)
        self.curricula = {
            name: [names[member] for member in members]
            for name, members in plain.curricula
        }
        self.teachers = {
            teacher: [course.name for course in self.courses.values() if course.teacher == teacher]
            for teacher in plain.teachers
        }
        self.curricula_of = {
            name: [of for of, members in self.curricula.items() if name in members]
            for name in names
        }
        # the slots in which a course cannot be, by the instance or by a closure
        self.unavailable = {name: set() for name in names}
        for course, day, period in plain.unavailable:
            self.unavailable[names[course]].add((day, period))
        # the slots in which a closure blocks a room
        self.blocked = {name: set() for name in rooms}
        for room, day, period in plain.blocked:
            self.blocked[rooms[room]].add((day, period))
        self.barred = {(names[course], rooms[room]) for course, room in plain.barred}

    def slots(self):
        return [(day, period) for day in range(self.days) for period in range(self.periods)]


def text_of(path):
    """The bytes of a file; none without one."""
    if path is None:
        return b""
    with open(path, "rb") as file:
        return file.read()


def instance_of(path, *sides):
    """The instance of a file, and of side files, of which some may be wanting."""
    return PlainInstance(text_of(path), *map(text_of, sides))


def lectures_of(path):
    """The lectures of a solution; none without one."""
    return lectures_in(text_of(path))


def file_of_closures(scopes):
    """The text of a file of closures: each a kind, a name, a day and a period, of which None stands for all."""
    entries = [" ".join("*" if part is None else str(part) for part in scope) for scope in scopes]
    return "\n".join([f"Blocked: {len(entries)}", *entries, "END.\n"]).encode()
