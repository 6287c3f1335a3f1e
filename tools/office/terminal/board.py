"""The screen without a terminal: keys go in, rows of text come out."""
from __future__ import annotations

from typing import Callable, Optional

from office.data.label_files import Watched
from office.day.lecture import Lecture, Slot
from office.seat.answers import Offer
from office.terminal.board_draft import BoardDraft
from office.terminal.board_rules import BoardRules
from office.terminal.drawn import Drawn
from office.terminal.grid import Grid, Row
from office.terminal.header import Header, key_rows
from office.terminal.help_page import help_lines
from office.terminal.overlays import Asked, Chooser, Overlay, Page, Typed, Worded
from office.words.actions import WEEK_KEYS, KeyNames
from office.words.notice import NOTHING, Question, say
from office.words.text import fit, wrap
from office.words.wording import Wording
from office.work.carry import SWAP
from office.work.planning import Planning
from office.work.week import Cell, View
from office.work.week_printing import print_week
from office.work.work import Work

# rows above the grid, and below it
ABOVE, BELOW = 3, 7
# keys by which other programs take something back
UNDOING = {"ctrl-z": "u", "ctrl-y": "U"}
STEPS = {"left": (-1, 0), "right": (1, 0), "up": (0, -1), "down": (0, 1)}


class Board:
    """What is seen, and what each key does."""

    def __init__(self, planning: Planning) -> None:
        self.planning = planning
        self.work = Work(planning)
        self.labels = Watched(planning.seat.day.path)
        self.wording = Wording(KeyNames(), self.labels.labels)
        self.cursor: Slot = (0, 0)
        self.overlay: Optional[Overlay] = None
        self.drawn = Drawn()
        self.rules, self.draft = BoardRules(self), BoardDraft(self)
        # the desk has ended: nothing more can be done
        self.is_dead = False
        # the letters that were pressed last in the week, one after another
        self.run = ""
        # the window is too small to see what a key does
        self.is_small = False
        self.actions = self.acts()

    def acts(self) -> dict[str, Callable[[], Optional[Question]]]:
        """What each action does, by its name."""
        drafting = self.work.drafting
        return {
            "pick up": self.pick_up,
            "swap": self.swap,
            "missing": self.list_missing,
            "take out": lambda: self.work.take_out(self.seen()),
            "view": self.choose_view,
            "weeks": lambda: self.work.show_next_week(self.seen()),
            "history": lambda: self.work.drafts_of(self.seen()),
            "pin": self.pin,
            "block": self.rules.block,
            "who": self.work.knowing.who_is_where,
            "undo": lambda: self.free(drafting.undo),
            "edits": drafting.edits,
            "commit": lambda: self.free(self.draft.show_box),
            "refresh": lambda: self.free(drafting.refresh),
            "redo": lambda: self.free(drafting.redo),
            "abandon": drafting.ask_abandon,
            "undo undo": lambda: self.free(drafting.undo_undo),
            "put aside": self.draft.put_aside,
            "variants": self.draft.list_variants,
            "findings": self.work.findings.question,
            "print": self.print_week,
            "line": self.draft.type_line,
            "help": self.show_help,
            "leave": self.work.ask_leave,
            "next": self.next_lecture,
            "lay down": self.work.lay_down,
            "cheapest": self.go_to_best,
            "last": self.last_choice,
        }

    @property
    def is_done(self) -> bool:
        return self.work.is_done

    def begin(self) -> None:
        """Shows the week with which one begins, and what is to be asked first."""
        question = self.work.begin()
        self.show_view(self.work.view)
        self.ask(question)

    def ask(self, question: Optional[Question]) -> None:
        """Shows what is to be read or answered."""
        if question is not None and question.choices:
            choices = Worded(question.choices, self.wording)
            title = self.wording.notice(question.title)
            self.overlay = Chooser(title, choices, self.choose)
        elif question is not None and question.reason is not None:
            self.draft.ask_reason(question.reason)
        elif question is not None:
            self.overlay = Asked(question, self.wording, self.ask)

    def choose(self, act: Callable[[], Optional[Question]]) -> None:
        """Does what was chosen of a list, and goes where it leads."""
        self.ask(act())
        if self.work.goal is not None:
            self.set_cursor(self.work.goal)
            self.work.goal = None

    def print_week(self) -> None:
        self.work.notice = print_week(self.planning, self.work.view)

    # what is seen

    def rows(self, height: int, width: int) -> list[Row]:
        """The whole screen in so many rows and columns."""
        self.is_small = height < 10 or width < 40
        if self.is_small:
            return [[(fit("the window is too small", width), "bad")]] + [[("", "")]] * (height - 1)
        self.work.renew()
        if self.overlay is not None and not isinstance(self.overlay, Typed):
            return self.overlay.rows(height, width)[:height]
        header = Header(self.work, self.wording, width)
        grid = Grid(self.work, self.wording, self.cursor)
        rows = header.head_rows() + grid.rows(height - ABOVE - BELOW, width)
        rows = rows[: height - BELOW]
        rows += [[("", "")]] * (height - BELOW - len(rows))
        rows += header.detail_rows(self.cursor, grid.cells[self.cursor])
        rows += self.message_rows(width, grid.cells[self.cursor])
        self.drawn.keep(self.work, grid)
        if isinstance(self.overlay, Typed):
            return rows + key_rows(self.work.carry, width)[:1] + self.overlay.rows(1, width)
        return rows + key_rows(self.work.carry, width)

    def seen(self) -> Optional[Lecture]:
        """The lecture that was seen at the cursor; of a week that was not drawn yet, the one that
        stands there."""
        if self.drawn.view == self.work.view:
            return self.drawn.lectures.get(self.cursor)
        return self.work.lecture_at(self.cursor)

    def seen_offer(self) -> Optional[Offer]:
        """The offer that was seen at the cursor, or the one that is chosen there now."""
        carry = self.work.carry
        if self.drawn.offer is not None and self.drawn.offer[0] == self.cursor:
            return self.drawn.offer[1]
        return carry.chosen(self.cursor) if carry else None

    def message_rows(self, width: int, cell: Cell) -> list[Row]:
        """Two rows: what the last step has to say, or what others say of the slot at the cursor,
        and what else is to be known."""
        notice = self.planning.notice
        texts = self.wording.lines([notice] if notice else self.work.knowing.notices_of(cell))
        lines = [line for each in texts for line in wrap(each, width - 2)][:2]
        style = "bad" if notice.is_bad else "said"
        rows: list[Row] = [[(fit(f" {line}", width), style)] for line in lines]
        urgent = next(iter(self.work.urgent()), NOTHING)
        if urgent:
            rows = rows[:1] + [[(fit(f" {self.wording.notice(urgent)}", width), "bad")]]
        return rows + [[("", "")]] * (2 - len(rows))

    # keys

    def press(self, key: str) -> None:
        """Does what a key means."""
        if self.is_small and key != "q":
            return
        self.planning.alarm = NOTHING
        if self.work.carry is None and self.overlay is None:
            self.planning.notice = NOTHING
        if not self.work.renew():
            return
        if self.overlay is None:
            key = UNDOING.get(key, key)
        self.run = self.run + key if len(key) == 1 else ""
        if self.overlay is not None:
            front = self.overlay
            if front.press(key) and self.overlay is front:
                self.overlay = self.rules.take_kept()
            return
        if key in STEPS:
            self.go(*STEPS[key])
        elif key in WEEK_KEYS:
            self.ask(self.actions[WEEK_KEYS[key]]())

    def go(self, days: int, periods: int) -> None:
        instance = self.planning.instance
        day = min(max(0, self.cursor[0] + days), instance.days - 1)
        self.set_cursor((day, min(max(0, self.cursor[1] + periods), instance.periods - 1)))

    def set_cursor(self, slot: Slot) -> None:
        if slot != self.cursor:
            self.cursor = slot
            if self.work.carry:
                self.work.carry.begin_at(slot)
                self.drawn.offer = None

    def tick(self) -> bool:
        """Looks for news; answers whether there are any."""
        is_renamed = self.labels.read_on()
        self.wording.labels = self.labels.labels
        return self.work.tick() or is_renamed

    def show_view(self, view: View) -> None:
        """Shows a week, with the cursor at its first lecture, or where it was if a lecture is
        picked up."""
        self.work.show(view)
        lectures = self.work.lectures()
        if lectures and not self.work.carry and all(one.slot != self.cursor for one in lectures):
            self.cursor = min(one.slot for one in lectures)

    def choose_view(self) -> None:
        choices = [(self.wording.view(*view), view) for view in self.work.views]
        self.overlay = Chooser("Whose week?", choices, self.show_view)

    def next_lecture(self) -> None:
        """The next offer of a slot, if a lecture is picked up; else the next lecture of the
        week."""
        if self.work.carry:
            self.turn_choice(1)
            return
        slots = sorted({one.slot for one in self.work.lectures()})
        later = [slot for slot in slots if slot > self.cursor] or slots
        if later:
            self.set_cursor(later[0])

    def last_choice(self) -> None:
        if self.work.carry:
            self.turn_choice(-1)

    def turn_choice(self, step: int) -> None:
        assert self.work.carry is not None
        self.work.carry.choice += step
        self.drawn.offer = None

    # lectures

    def free(self, act: Callable[[], Optional[Question]]) -> Optional[Question]:
        """Does something for which no lecture may be picked up."""
        self.work.carry = None
        return act()

    def pick_up(self) -> Optional[Question]:
        """Picks a lecture up, or puts it down."""
        if self.work.carry:
            return self.work.put_down(self.cursor, self.seen_offer())
        return self.begin_carry(self.work.pick_up(self.seen()))

    def swap(self) -> Optional[Question]:
        if self.work.carry:
            self.work.swap_instead()
            return self.begin_carry(None)
        return self.begin_carry(self.work.pick_up(self.seen(), SWAP))

    def pin(self) -> Optional[Question]:
        """Pins a lecture, or takes its pin off."""
        lecture, knowing = self.seen(), self.work.knowing
        if not knowing.can_pin(lecture) or lecture is None:
            return None
        question, seen = knowing.ask_unpin(lecture), lecture
        if question is None:
            meant = self.draft.meant(self.run)
            self.overlay = Typed("Why is it pinned? ", lambda why: knowing.pin(seen, why), meant)
        return question

    def begin_carry(self, question: Optional[Question]) -> Optional[Question]:
        """Chooses what is offered at the cursor."""
        self.drawn.offer = None
        if self.work.carry:
            self.work.carry.begin_at(self.cursor)
        return question

    def go_to_best(self) -> None:
        carry = self.work.carry
        best = carry.best() if carry else None
        if carry is not None and carry.stands_best():
            self.planning.notice = carry.best_notice()
        elif carry is not None and best is not None:
            self.set_cursor(best[0])
            carry.choose(*best)
            self.drawn.offer = None
        elif carry is None:
            self.planning.notice = say("pick up first")

    def list_missing(self) -> None:
        courses = self.planning.instance.courses
        choices = [
            (self.wording.missing(courses[name], count, self.work.stood(name)), name)
            for name, count in self.work.missing().items()
        ]
        if choices:
            self.overlay = Chooser("Missing lectures: which one?", choices, self.carry_missing)

    def carry_missing(self, course: str) -> None:
        self.work.carry = None
        self.show_view(View("course", course))
        self.ask(self.begin_carry(self.work.pick_up_missing(course)))

    def step_over(self) -> None:
        """Goes on in the next part of the day."""
        self.rules.step_over()

    def show_help(self) -> None:
        self.overlay = Page("Keys", help_lines())

    def desk_ended(self, why: str) -> None:
        """What is left to say when the desk has ended, or does not answer."""
        self.is_dead = True
        lines = self.wording.lines(self.work.drafting.left())
        self.overlay = Page(why, lines, {"q": self.work.leave}, "q leaves")
