"""The types of all that a page is sent, as it stands in JSON: what a verb is answered, and what the
office says by itself. tools/page_types.py makes the types of the page's modules of them."""
from __future__ import annotations

from typing import Literal, Optional, TypedDict

# a day and a period, from 0
SlotData = tuple[int, int]
# the kind of a week and the code of whose it is, or a code and what it is called
PairData = tuple[str, str]
# a price, the room or the course that is offered, and what it is called
OfferData = tuple[int, str, str]


class NamesData(TypedDict):
    """What days, periods and slots are called, and what has a name: its code, what it is called."""

    days: list[str]
    periods: list[str]
    slots: list[list[str]]
    named: dict[str, list[PairData]]


class KeyData(TypedDict):
    """An action, the keys that do it, and what it does in a sentence."""

    name: str
    keys: list[str]
    said: str
    help: str


class PersonData(TypedDict):
    """Who sits at a seat."""

    seat: int
    who: str
    title: str


class NewsData(TypedDict):
    """A draft that was accepted."""

    number: int
    seat: int
    who: str
    when: str
    why: str
    edits: list[str]
    slots: list[SlotData]
    text: str


# what stands below the week, and what is asked


# by how much an edit has changed the cost
NoticePrice = TypedDict("NoticePrice", {"price": int}, total=False)


class NoticeData(NoticePrice):
    """What the last step has to say."""

    code: str
    text: str
    isBad: bool


# a line of a question, by what it is
LineData = TypedDict("LineData", {"code": str, "text": str})


class AnswerData(TypedDict):
    """An answer, what stands on its button, and its letter, if it has one."""

    name: str
    said: str
    key: str


# a cost before and after a commit
CostRowData = TypedDict("CostRowData", {"label": str, "was": Optional[int], "now": int})
# what a line that is to be typed is called, what was typed before, and what is asked about that
WhyData = TypedDict("WhyData", {"label": str, "text": str, "doubt": str})
QuestionMore = TypedDict("QuestionMore", {"why": WhyData, "costs": list[CostRowData]}, total=False)


class QuestionData(QuestionMore):
    """What is to be read, answered, chosen or typed; it has a number."""

    number: int
    title: str
    lines: list[LineData]
    answers: list[AnswerData]
    choices: list[str]
    canWait: bool
    # it is not answered by Enter alone
    isCareful: bool


# the draft


class CourseData(TypedDict):
    """A course, and its colour."""

    course: str
    said: str
    hue: int
    teacher_said: str
    # by its names where there is room for more than short ones
    told: str
    students: int


class MissingData(CourseData):
    """A course of which lectures are missing, and where they stood."""

    count: int
    stood: list[str]


# an edit in words and as a line, and by how much it has changed the cost, as far as that is known
EditData = TypedDict("EditData", {"text": str, "edit": str, "price": Optional[int]})


class DraftData(TypedDict):
    """The draft that is open, and what has become of what it stands on."""

    edits: list[EditData]
    taken_back: list[EditData]
    base: Optional[dict[str, int]]
    base_total: Optional[int]
    since: int
    stale_preview: str
    left_out: list[str]


class StateData(TypedDict):
    """What the timetable costs and lacks, and the draft."""

    costs: dict[str, int]
    missing: list[MissingData]
    draft: Optional[DraftData]
    blocked: list[str]
    ended: list[str]
    alarm: str


# a week


class LectureData(CourseData):
    """A lecture where it stands, and what it costs there. Who reads is told of no seats."""

    room: str
    room_said: str
    seats: Optional[int]
    short: int
    alone: int


# why a slot is blocked, in few words and in a sentence
BlockedData = TypedDict("BlockedData", {"why": str, "text": str})


class CellData(TypedDict):
    """A slot of a week of which there is something to say."""

    at: SlotData
    lectures: list[LectureData]
    mine: bool
    # who has changed it, and that in a sentence; what stands there now, if that is not drawn
    others: list[str]
    changed: str
    now: Optional[list[str]]
    closed: bool
    gone: list[str]
    working: list[str]
    pinned: bool
    blocked: list[BlockedData]


class WeekData(TypedDict):
    """A week, and whose it is."""

    view: PairData
    title: str
    about: str
    missing: str
    working: list[str]
    cells: list[CellData]


# what is held


# why a slot offers nothing
SlotWhy = TypedDict("SlotWhy", {"shortly": str, "why": str}, total=False)


class HeldSlotData(SlotWhy):
    """What a slot offers for what is held, cheapest first."""

    at: SlotData
    offers: list[OfferData]


class HeldData(CourseData):
    """What is held, the cheapest slot for it, and the place of the cheapest offer there."""

    kind: Literal["move", "swap", "place"]
    about: str
    hint: str
    at: Optional[SlotData]
    room: Optional[str]
    room_said: str
    best: Optional[SlotData]
    place: int
    slots: list[HeldSlotData]


class ReaderPictureData(TypedDict):
    """What a window draws of who reads; later ones have higher numbers."""

    number: int
    week: WeekData


class PictureData(ReaderPictureData):
    """What a window of a seat draws, and where it is to look, if something was chosen."""

    goal: Optional[SlotData]
    state: StateData
    held: Optional[HeldData]


# what is answered

# why a request is refused
FaultData = TypedDict("FaultData", {"fault": str})


class DayData(TypedDict):
    """The day, when it closes, what time it is, and whether this window was known before."""

    day: str
    closes: Optional[float]
    now: float
    again: bool


class SeatsData(DayData):
    """Who sits at the seats of a day."""

    people: list[PersonData]


class WantsData(SeatsData):
    """A name is wanted of who sits down; the last one there had this one."""

    wants: Literal["name"]
    last: str
    seat: int


class ReaderHelloData(NamesData, DayData):
    """With what a window of who reads begins."""

    picture: ReaderPictureData


class HelloData(NamesData, SeatsData):
    """With what a window of a seat begins."""

    seat: int
    name: str
    keys: list[KeyData]
    parts: list[str]
    meanings: dict[str, str]
    farewell: str
    news: list[NewsData]
    picture: PictureData
    question: Optional[QuestionData]
    notice: NoticeData


class AboutLectureData(TypedDict):
    """A lecture in words, what others have to do with it, and the weeks in which it stands."""

    course: str
    said: str
    where: str
    lines: list[str]
    notices: list[str]
    weeks: list[tuple[PairData, str]]


AboutData = TypedDict("AboutData", {"about": Optional[AboutLectureData]})
OffersData = TypedDict("OffersData", {"offers": list[OfferData], "told": list[str]}, total=False)
# a page to be kept as a file
PageData = TypedDict("PageData", {"name": str, "text": str})
PrintData = TypedDict("PrintData", {"page": PageData, "notice": NoticeData})
# what is answered to who reads
ReaderTurnData = TypedDict("ReaderTurnData", {"picture": ReaderPictureData})


class TurnData(TypedDict, total=False):
    """What an act is answered. One that came at the end of a part was not done, and has nothing."""

    left: Literal[True]
    notice: NoticeData
    question: Optional[QuestionData]
    picture: PictureData


# what the office says by itself


class OfficeEventData(TypedDict, total=False):
    """To all: when the office closes, that it has, that a new link is needed."""

    closes: Optional[float]
    over: Literal[True]
    gone: Literal[True]


class ReaderEventData(OfficeEventData, total=False):
    """To who reads."""
    names: NamesData
    picture: ReaderPictureData


class EventData(OfficeEventData, total=False):
    """To a window of a seat."""

    names: NamesData
    accepted: list[NewsData]
    people: list[PersonData]
    news: list[NewsData]
    picture: PictureData
    # in place of a picture, where the week is as it was
    state: StateData
    question: Optional[QuestionData]
    notice: NoticeData
    left: Literal[True]
    # what is wrong with the desk, and that it does not answer yet
    fault: str
    waits: str
