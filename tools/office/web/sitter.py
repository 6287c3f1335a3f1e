"""A seat at which browsers sit, in a thread of its own, so that a desk which thinks holds up nobody
else. All windows of a seat share its draft."""
from __future__ import annotations

import asyncio
import contextlib
from concurrent.futures import ThreadPoolExecutor
from functools import partial
from typing import Any, Callable, Optional

from office.day.costs import COSTS, MEANINGS
from office.day.edits import Edit, Kind
from office.day.folder import Day
from office.seat.seat import DeskEnded, NoAnswer, Seat, read_sitter
from office.web.action_names import key_table
from office.web.frame import Frame
from office.web.guard import Fault
from office.web.message_types import NoticeData, PersonData, PictureData
from office.web.messages import FAREWELL, notice_data, question_data
from office.web.news_sent import NewsSent, Redrawn, last_news
from office.web.person import Person
from office.web.picture import Picture
from office.web.questions import WHY, Shown
from office.web.seat_faults import LOST, fault_of
from office.web.verbs import CHANGES, VERBS, Request, WindowTurn, hold_again
from office.web.windows import Window, Windows
from office.words.notice import NOTHING, Question
from office.work.part_stepping import waiting_notice
from office.work.planning import Planning
from office.work.shared_reading import SharedReading
from office.work.work import Work

# so many requests of a seat may wait for their turn; a seat without a window is left after so many
# seconds; letters of a name
WAIT, IDLE, NAME = 16, 30.0, 40
# what changes nothing
LOOKS = ("show", "next_week", "about", "offers", "print", "close")
Data = dict[str, Any]


class Sitter:
    """Somebody who sits at a seat by browsers."""

    def __init__(self, day: Day, planner: int, frame: Frame, shared: SharedReading) -> None:
        self.day, self.planner, self.frame, self.shared = day, planner, frame, shared
        self.windows, self.called = Windows(), f"seat {planner}"
        self.planning: Optional[Planning] = None
        self.name = ""
        # what is asked of who has sat down, until it is answered in one of his windows
        self.first: Optional[Question] = None
        # by how much each edit of the draft has changed the cost when it was made
        self.prices: dict[Edit, int] = {}
        # how the day was when this seat looked for news last
        self._looked: Any = None
        self._person = Person(day, planner, frame)
        self._waiting = 0
        # whether the windows were told that the desk does not answer
        self._is_slow = False
        self._thread = ThreadPoolExecutor(1, f"seat-{planner}")

    # what is asked

    async def answer(self, window: Window, verb: str, data: Data) -> Data:
        if verb not in ("hello", "answer", *LOOKS) and verb not in VERBS:
            raise Fault(404, "nothing is here")
        if verb == "hello":
            self.loop = asyncio.get_running_loop()
            found = await self.do(lambda: self._hello(window, data))
        else:
            found = await self.do(lambda: self._turn(window, verb, data), verb in LOOKS)
        for other, event in found.pop("others", []):
            other.tell(event)
        return found

    async def do(self, work: Callable[[], Data], is_look: bool = True) -> Data:
        """Does something at the seat, one thing at a time. If the rules change meanwhile, a look is
        a look at the next part of the day, and an act is not done."""
        if self._waiting >= WAIT:
            raise Fault(429, "too many requests wait at this seat")
        self._waiting += 1
        try:
            return await asyncio.get_running_loop().run_in_executor(
                self._thread, self._do, work, is_look
            )
        except Fault as fault:
            if fault.status == LOST:
                # all windows hear it, whichever of them has asked
                self.tell({"fault": fault.why})
                self.windows.end_all()
            raise
        finally:
            self._waiting -= 1
            if self._is_slow:
                self._is_slow = False
                self.tell({"waits": ""})

    def _do(self, work: Callable[[], Data], is_look: bool) -> Data:
        try:
            return self._done(work, is_look)
        except Exception as thrown:
            fault = fault_of(thrown)
            if fault.status == LOST:
                self._go()
            raise fault from None

    def _done(self, work: Callable[[], Data], is_look: bool) -> Data:
        try:
            if is_look or not self._is_over():
                return work()
        except (DeskEnded, NoAnswer):
            if not self._is_over():
                raise
        self._step_over()
        return work() if is_look else {}

    # in the seat's thread

    def _hello(self, window: Window, data: Data) -> Data:
        """Sits down, if nobody does yet, and tells all with which a window begins."""
        request = Request(self.frame.instance, data)
        if self.planning is None:
            last = self.name or read_sitter(self.day, self.planner)[0]
            name = request.text("login", NAME) or request.text("name", NAME)
            if not name:
                return {"wants": "name", "last": last, "seat": self.planner}
            self._sit(name)
        shown = self._shown(window)
        planning = shown.planning
        # what was accepted just now is told, too
        planning.tick()
        # a page that comes back may be one of another day
        with contextlib.suppress(Fault):
            shown.work.show(request.view())
        with contextlib.suppress(Fault):
            hold_again(shown, self.frame.instance, data.get("held"))
        if self.first is not None:
            shown.ask(self.first)
        return {
            "seat": self.planner,
            "name": self.frame.wording.safe(planning.seat.name),
            "keys": key_table(),
            "parts": COSTS,
            "meanings": MEANINGS,
            "farewell": FAREWELL,
            **self.frame.data(),
            "news": last_news(planning, self.frame),
            "picture": self._picture(shown),
            "question": question_data(self.frame.wording, shown),
            "notice": self._notice(),
        }

    def _sit(self, name: str) -> None:
        seat = Seat(self.day, self.planner, name)
        try:
            planning = Planning(seat, self.frame.instance, self.shared)
            seat.waits = partial(self._tell_waiting, seat)
            self.begun = Work(planning)
            self.first = self.begun.begin()
            self.news_sent = NewsSent(planning, self.frame)
            self.redrawn = Redrawn(planning)
        except BaseException:
            seat.go()
            raise
        self.planning, self.name = planning, name
        self.prices.clear()

    def _tell_waiting(self, seat: Seat, seconds: float) -> None:
        """The windows are told that the desk does not answer; this runs in the seat's thread."""
        text = self.frame.wording.notice(waiting_notice(seat, seconds))
        self._is_slow = True
        self.loop.call_soon_threadsafe(self.tell, {"waits": text})

    def _go(self) -> None:
        if self.planning is not None:
            planning, self.planning = self.planning, None
            planning.seat.go()

    def _shown(self, window: Window) -> Shown:
        """What a window has; it begins anew when somebody has sat down anew."""
        assert self.planning is not None
        if window.shown is None or window.shown.planning is not self.planning:
            wording = self.frame.wording
            window.shown = Shown(self.planning, self.begun.variants, wording)
        shown: Shown = window.shown
        return shown

    def _turn(self, window: Window, verb: str, data: Data) -> Data:
        if self.planning is None:
            raise Fault(410, "this window is not known here: it begins anew")
        shown, planning = self._shown(window), self.planning
        request = Request(self.frame.instance, data)
        picture = Picture(self.frame, shown.work, self.prices)
        if verb == "about":
            lecture = request.lecture()
            return {"about": picture.about(lecture) if lecture else None}
        if verb == "offers":
            return picture.offers_data(request.slot("at"))
        if verb == "print":
            return dict(picture.page())
        accepted, cost = len(planning.seat.state.accepted), sum(planning.costs().values())
        planning.notice = planning.alarm = NOTHING
        self._act(shown, verb, request)
        if shown.work.is_done or self.begun.is_done:
            self._go()
            return {"left": True, "others": [(one, {"left": True}) for one in self._others(window)]}
        found: Data = {
            "notice": self._notice(cost),
            "question": question_data(self.frame.wording, shown),
            "picture": self._picture(shown),
        }
        if verb in CHANGES:
            found["others"] = self._pictures(window)
            found["committed"] = len(planning.seat.state.accepted) > accepted
        return found

    # from one part of the day to the next

    def _is_over(self) -> bool:
        return self.planning is not None and self.planning.seat.is_over()

    def _step_over(self) -> None:
        """Goes on in the next part of the day as soon as its desk is there: a draft that was open
        is made again, what was picked up is put back. What is to be read is so where nothing else
        is in front."""
        question = self.begun.step_over()
        assert self.planning is not None
        self.planning.alarm = NOTHING
        for window in self.windows.all():
            shown = self._shown(window)
            shown.work.carry = None
            if question is not None and shown.question is None:
                shown.ask(question)
            if not window.is_listening:
                continue
            event: Data = {"notice": self._notice(), "picture": self._picture(shown)}
            if shown.question in (None, question):
                event["question"] = question_data(self.frame.wording, shown)
            self.loop.call_soon_threadsafe(window.tell, event)

    def _act(self, shown: Shown, verb: str, request: Request) -> None:
        """Does what is asked, and keeps what is to be asked then."""
        if self.first is not None and verb == "answer":
            self.first = None
        elif self.first is not None and not self.first.can_wait:
            raise Fault(409, "first answer what is asked")
        if verb == "answer":
            answer, choice = request.data.get("answer"), request.data.get("choice")
            typed = request.text("why", WHY)
            question = shown.answer(request.number("question"), answer, choice, typed)
            if question is not None:
                shown.ask(question)
            return
        shown.close(request.text("why", WHY))
        if verb != "close":
            question = VERBS[verb](WindowTurn(shown, request))
            if question is not None:
                shown.ask(question)

    def _picture(self, shown: Shown) -> PictureData:
        shown.work.renew()
        shown.pictures += 1
        return Picture(self.frame, shown.work, self.prices).data(shown.pictures)

    def _notice(self, before: Optional[int] = None) -> NoticeData:
        """What there is to say; of an edit that was made also how it has changed the cost."""
        planning = self.planning
        assert planning is not None
        found = notice_data(self.frame.wording, planning.notice)
        edits = planning.edits()
        # what a lecture costs is not saved by taking it out
        is_drop = bool(edits) and edits[-1].kind is Kind.DROP
        if before is not None and planning.notice.code == "done" and edits and not is_drop:
            found["price"] = sum(planning.costs().values()) - before
            self.prices[edits[-1]] = found["price"]
        return found

    def _others(self, but: Optional[Window] = None) -> list[Window]:
        return [one for one in self.windows.all() if one is not but and one.is_listening]

    def _pictures(self, but: Optional[Window] = None) -> list[Any]:
        """What each other window draws now."""
        return [(one, {"picture": self._picture(self._shown(one))}) for one in self._others(but)]

    # news

    async def look(self, stamp: Any) -> None:
        """Looks for drafts that were accepted since, if somebody sits here, and the day is not as
        it was at the last look."""
        if self._waiting:
            return
        self.windows.drop_silent()
        if self.planning is None:
            return
        if self.windows.idle_for() > IDLE:
            await self.leave()
        elif stamp is None or stamp != self._looked or self.planning.seat.has_more():
            self._looked = stamp
            with contextlib.suppress(Fault):
                found = await self.do(self._look)
                for window, event in found["others"]:
                    window.tell({"news": found["news"], **event})

    def _look(self) -> Data:
        planning = self.planning
        if planning is None:
            return {"others": [], "news": []}
        if self._is_over():
            self._step_over()
        if planning.seat.has_more():
            # nothing was asked: the desk has ended
            planning.seat.read(0)
        planning.tick()
        news = self.news_sent.read_on()
        self.redrawn.read_on()
        found = [(one, self._news_for(self._shown(one), bool(news))) for one in self._others()]
        return {"news": news, "others": [(one, event) for one, event in found if event]}

    def _news_for(self, shown: Shown, is_new: bool) -> Data:
        """What a window draws anew: the week only where it may be another one by now."""
        if shown.work.carry is not None or self.redrawn.has(shown.work.view):
            return {"picture": self._picture(shown)}
        if not is_new:
            return {}
        return {"state": Picture(self.frame, shown.work, self.prices).state()}

    async def rename(self) -> None:
        """Tells the windows what things are called now."""
        if self.planning is None:
            return
        with contextlib.suppress(Fault):
            for window, event in (await self.do(self._renamed))["others"]:
                window.tell(event)

    def _renamed(self) -> Data:
        if self.planning is None:
            return {"others": []}
        accepted = last_news(self.planning, self.frame)
        names = {"names": self.frame.data(), "accepted": accepted}
        return {"others": [(window, {**event, **names}) for window, event in self._pictures()]}

    def tell(self, event: Data) -> None:
        for window in self.windows.all():
            window.tell(event)

    def person(self) -> Optional[PersonData]:
        """Who sits at the seat now."""
        return self._person.data(self.planning)

    async def leave(self) -> None:
        await asyncio.get_running_loop().run_in_executor(self._thread, self._go)
