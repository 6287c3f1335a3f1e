"""The screen in a terminal, by curses."""
from __future__ import annotations

import contextlib
import curses
import locale
import os
import signal
import sys
import termios
import time
from typing import Any, Optional

from office.day.folder import Day
from office.day.processes import Alarm
from office.refused import MACHINE
from office.seat.seat import DEAD, DEAD_DESK, DeskEnded, Gone, NoAnswer, Seat
from office.terminal.board import Board
from office.terminal.grid import Row
from office.words.actions import BY_NAME
from office.words.notice import Notice, say
from office.words.text import counted, fit, width
from office.work.part_stepping import waiting_notice
from office.work.planning import Planning

# how many milliseconds a key is waited for, before news are looked for
TICK = 500
NAMES = {
    curses.KEY_UP: "up",
    curses.KEY_DOWN: "down",
    curses.KEY_LEFT: "left",
    curses.KEY_RIGHT: "right",
    curses.KEY_ENTER: "enter",
    "\n": "enter",
    "\r": "enter",
    "\x1b": "escape",
    "\t": "tab",
    curses.KEY_BTAB: "backtab",
    curses.KEY_BACKSPACE: "backspace",
    "\x7f": "backspace",
    "\b": "backspace",
    curses.KEY_PPAGE: "pageup",
    curses.KEY_NPAGE: "pagedown",
    curses.KEY_DC: "x",
    curses.KEY_RESIZE: "resize",
    "\x1a": "ctrl-z",
    "\x19": "ctrl-y",
}
COLOURS = {
    "mine": curses.COLOR_CYAN,
    "others": curses.COLOR_MAGENTA,
    "points": curses.COLOR_YELLOW,
    "good": curses.COLOR_GREEN,
    "bad": curses.COLOR_RED,
}


def styles() -> dict[str, int]:
    """The attributes of styles: colours only in a terminal that has them, and where NO_COLOR does
    not forbid them."""
    found = {
        "": 0,
        "head": curses.A_BOLD,
        "title": curses.A_UNDERLINE,
        "dim": 0,
        "detail": 0,
        "said": curses.A_BOLD,
    }
    found.update(
        {
            "cursor": curses.A_REVERSE,
            "mine": curses.A_BOLD,
            "others": curses.A_UNDERLINE,
            "bad": curses.A_BOLD,
        }
    )
    if not curses.has_colors() or os.environ.get("NO_COLOR"):
        return found
    curses.start_color()
    background = curses.COLOR_BLACK
    with contextlib.suppress(curses.error):
        curses.use_default_colors()
        background = -1
    for number, (style, colour) in enumerate(COLOURS.items(), 1):
        curses.init_pair(number, colour, background)
        found[style] = found.get(style, 0) | curses.color_pair(number)
    return found


def take_key_of_stopping() -> None:
    """Ctrl-Z takes an edit back; it does not stop the client."""
    with contextlib.suppress(OSError, termios.error):
        settings = termios.tcgetattr(sys.stdin)
        settings[6][termios.VSUSP] = b"\0"
        termios.tcsetattr(sys.stdin, termios.TCSANOW, settings)


class Closed(Exception):
    """The office has closed."""


class Screen:
    """A board in a window."""

    def __init__(self, window: Any, board: Board) -> None:
        self.window, self.board = window, board
        self.styles = styles()
        with contextlib.suppress(curses.error):
            curses.curs_set(0)
        window.keypad(True)
        take_key_of_stopping()
        window.timeout(TICK)
        board.planning.seat.waits = self.wait

    def paint(self) -> None:
        height, columns = self.window.getmaxyx()
        self.window.erase()
        for line, row in enumerate(self.board.rows(height, columns)[:height]):
            self.paint_row(line, row, columns)
        self.window.refresh()

    def paint_row(self, line: int, row: Row, columns: int) -> None:
        at = 0
        for text, style in row:
            # the last cell of a window cannot be written
            with contextlib.suppress(curses.error):
                self.window.addstr(line, at, text[: columns * 2], self.styles.get(style, 0))
            at += width(text)
            if at >= columns:
                break

    def key(self) -> Optional[str]:
        """The next key by its name; None if none comes for a while."""
        try:
            found = self.window.get_wch()
        except curses.error:
            return None
        name = NAMES.get(found, found)
        if name == "escape" and self.is_followed():
            return ""
        return name if isinstance(name, str) else ""

    def is_followed(self) -> bool:
        """Whether a key has come together with Escape, as one that is pressed with Alt does: it is
        taken away then."""
        self.window.timeout(0)
        try:
            self.window.get_wch()
            return True
        except curses.error:
            return False
        finally:
            self.window.timeout(TICK)

    def wait(self, seconds: float) -> None:
        """Says how long the desk has not answered; who wants to leave can leave."""
        self.paint_last(waiting_notice(self.board.planning.seat, seconds))
        self.window.timeout(0)
        key = self.key()
        self.window.timeout(TICK)
        if key == BY_NAME["leave"].key:
            raise Gone

    def paint_last(self, notice: Notice) -> None:
        """Says something in the last row."""
        height, columns = self.window.getmaxyx()
        text = self.board.wording.notice(notice)
        self.paint_row(height - 1, [(fit(f" {text}", columns - 1), "bad")], columns)
        self.window.refresh()

    def step_over(self) -> None:
        """Goes on in the next part of the day, as soon as its desk is there."""
        self.paint_last(say("rules change now"))
        self.board.step_over()

    def step(self) -> None:
        """Takes a key, or looks for news."""
        board, seat = self.board, self.board.planning.seat
        key = self.key()
        if key == "resize":
            self.window.clear()
        elif key:
            board.press(key)
        else:
            if not sys.stdin.isatty():
                raise Gone
            if not board.is_dead and seat.is_over():
                self.step_over()
            if not board.is_dead and seat.has_more():
                # nothing was asked: the desk has ended
                seat.read(0)
            board.tick()
            at = seat.day.closes_at()
            if at is not None and time.time() > at and not board.is_dead:
                raise Closed

    def go_on(self) -> None:
        """Paints, and takes keys, until the planner leaves."""
        while not self.board.is_done:
            try:
                self.paint()
                self.step()
            except (DeskEnded, NoAnswer) as fault:
                self.desk_ended(fault)

    def desk_ended(self, fault: Exception) -> None:
        """Goes on, if the desk has ended because the rules change; else says that it has ended."""
        is_over = not self.board.is_dead and self.board.planning.seat.is_over()
        with contextlib.suppress(DeskEnded, NoAnswer):
            if is_over:
                self.step_over()
                return
        is_silent = isinstance(fault, NoAnswer)
        self.board.desk_ended("The desk does not answer" if is_silent else "The desk has ended")


def show_board(window: Any, board: Board) -> None:
    Screen(window, board).go_on()


def sit_at_screen(day: Day, planner: int, name: Optional[str]) -> int:
    """Sits down at the screen, and answers the status."""

    locale.setlocale(locale.LC_ALL, "")
    os.environ.setdefault("ESCDELAY", "25")
    seat = Seat(day, planner, name)
    seat.waits = say_waiting
    said, is_dead, is_closed = "", False, False
    alarm = Alarm(Gone, signal.SIGINT, signal.SIGTERM, signal.SIGHUP)
    try:
        board = Board(Planning(seat))
        board.begin()
        curses.wrapper(show_board, board)
        is_dead = board.is_dead
    except Gone:
        said = "you went away"
    except curses.error:
        # a terminal that is gone cannot be set back
        if sys.stdin.isatty():
            raise
    except Closed:
        said = "the office has closed"
        is_closed = True
    except (DeskEnded, NoAnswer):
        is_dead = True
    finally:
        alarm.stop()
        say_goodbye(seat, [said] if said else [], is_dead, is_closed)
    return MACHINE if is_dead else 0


def say_waiting(seconds: float) -> None:
    """Says, before there is a screen, that the desk does not answer."""
    with contextlib.suppress(OSError):
        print(
            f"\roffice: the desk has not answered for {round(seconds)} s; Ctrl-C leaves",
            end="",
            file=sys.stderr,
            flush=True,
        )


def say_goodbye(seat: Seat, lines: list[str], is_dead: bool, is_closed: bool) -> None:
    """Goes away from a seat, and says what becomes of the draft; the terminal may be gone."""
    edits, fault = seat.state.unfinished(), seat.log.fault
    if is_dead:
        lines = [DEAD_DESK if fault and edits else DEAD]
    if fault and edits:
        lines.append(f"the log cannot be written ({fault}): your edits are on no disk")
    elif is_closed and edits:
        lines.append(
            f"{counted(len(edits), 'edit')} not committed: the next day offers them, at seat "
            f"{seat.planner} of office open NEXT --after {seat.day.path}"
        )
    elif seat.state.is_open and not is_dead:
        lines.append(f"your draft stays as it is: office sit {seat.day.path} {seat.planner}")
    with contextlib.suppress(OSError):
        seat.go()
        for line in lines:
            print(f"office: {line}", file=sys.stderr)
