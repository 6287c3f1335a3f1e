"""How soon a key is answered, with what is drawn after it."""
import random
import time

from speed import press_keys
from support import SPRING, SPRING_SOL, OfficeTest, said

from office.day.instance import read_instance, read_solution
from office.day.timetable import Timetable
from office.terminal.board import Board

COURSES, ROOMS, DAYS, PERIODS = 2000, 80, 10, 10


class Keys(OfficeTest):
    def keys(self, size, limit):
        """Presses keys, prints the times, and compares the middle one with its limit in
        milliseconds. A machine that has other work to do is slower."""
        begun = time.perf_counter()
        board = Board(self.planning("day", 0))
        board.begin()
        board.rows(24, 80)
        first = (time.perf_counter() - begun) * 1000
        by_key = press_keys(board, 5)
        times = sorted(sum(by_key.values(), []))
        middle, last = times[len(times) // 2], times[-1]
        slow = max(by_key, key=lambda key: by_key[key][-1])
        print(
            f"a key at {size}: middle {middle:.1f} ms, longest {last:.1f} ms ({slow}); "
            f"the first screen {first:.0f} ms"
        )
        self.assertEqual(said(board.planning.alarm), "")
        self.assertGreater(len(board.planning.minutes.entries), 0)
        self.assertLess(middle, limit)

    def commit_many(self, solution, count=2000):
        """Takes the first lecture out and puts it in again, in so many drafts."""
        course, room, day, period = read_solution(solution)[0]
        edits = [f"drop {course} {day} {period}", f"place {course} {room} {day} {period}"]
        lines = "".join(f"open\n{edits[number % 2]}\ncommit\n" for number in range(count))
        self.assertEqual(self.sit("day", 0, lines)[-1], f"committed {count}")

    def test_spring(self):
        self.open("day", SPRING, "1", "--start", SPRING_SOL)
        self.keys("spring size", 50)

    def test_spring_with_many_drafts(self):
        self.open("day", SPRING, "1", "--start", SPRING_SOL)
        self.commit_many(SPRING_SOL)
        self.keys("spring size behind 2,000 drafts", 50)

    def test_two_thousand_courses(self):
        self.open("day", *self.large())
        self.keys(f"{COURSES} courses", 300)

    def test_two_thousand_courses_with_many_drafts(self):
        words = self.large()
        self.open("day", *words)
        self.commit_many(words[-1])
        self.keys(f"{COURSES} courses behind 2,000 drafts", 300)

    def large(self):
        """The words that open a day of many courses."""
        draw = random.Random(1)
        names = [f"c{number:04}" for number in range(COURSES)]
        lines = [
            f"Name: large Courses: {COURSES} Rooms: {ROOMS} Days: {DAYS} "
            f"Periods_per_day: {PERIODS} Curricula: {COURSES // 2} Constraints: 0",
            "COURSES:",
            *(f"{name} t{draw.randrange(COURSES // 2)} 3 2 {draw.randrange(200)}" for name in names),
            "ROOMS:",
            *(f"r{number:02} {draw.randrange(20, 200)}" for number in range(ROOMS)),
            "CURRICULA:",
            *(f"q{q} 4 {' '.join(draw.sample(names, 4))}" for q in range(COURSES // 2)),
            "UNAVAILABILITY_CONSTRAINTS:",
            "END.",
        ]
        instance = self.write("large.ctt", "\n".join(lines))
        solution = self.write("large.sol", self.placed(instance, draw))
        return instance, "1", "--start", solution

    @staticmethod
    def placed(path, draw):
        """A solution with most lectures of an instance."""
        instance = read_instance(path)
        timetable, slots = Timetable(instance), instance.slots()
        free = {slot: list(instance.rooms) for slot in slots}
        for name, course in instance.courses.items():
            for slot in draw.sample(slots, 12):
                is_free = free[slot] and not instance.mates[name] & set(timetable.by_slot[slot])
                if timetable.missing(name) and is_free:
                    timetable.put(name, slot, free[slot].pop())
        return "".join(lecture.words() + "\n" for lecture in timetable.lectures())
