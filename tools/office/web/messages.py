"""What is said in a browser: notices, questions, and drafts that were accepted, as plain data."""
from __future__ import annotations

from typing import Optional

from office.day.costs import COSTS
from office.web.action_names import CAREFUL, button, letter
from office.web.message_types import CostRowData, NewsData, NoticeData, QuestionData
from office.web.questions import Shown
from office.words.notice import NOTHING, Notice
from office.words.text import counted
from office.words.wording import Wording
from office.work.drafting import Box
from office.work.news import Accepted
from office.work.planning import Planning


FAREWELL = (
    "The office has closed: what you have committed is on the disk, and open edits are offered "
    "again on the next day."
)


def notice_data(wording: Wording, notice: Notice) -> NoticeData:
    return {"code": notice.code, "text": wording.notice(notice), "isBad": notice.is_bad}


def question_data(wording: Wording, shown: Shown) -> Optional[QuestionData]:
    """What is to be read, answered, chosen or typed, with a button an answer."""
    question, line = shown.question, shown.line
    if question is None:
        return None
    lines = [one for one in question.lines if one.code != "box change"]
    answers = [*question.answers, *([line.answer] if line else [])]
    found: QuestionData = {
        "number": shown.asked,
        "title": wording.notice(question.title),
        "lines": [{"code": one.code, "text": wording.notice(one)} for one in lines],
        "answers": [
            {"name": name, "said": button(name), "key": "" if line else letter(name)}
            for name in answers
        ],
        "choices": wording.lines([one for one, _ in question.choices]),
        "canWait": question.can_wait,
        "isCareful": line is None and any(name in CAREFUL for name in answers),
    }
    if line is not None:
        doubt = line.meant.notice(line.text) if line.meant else NOTHING
        found["why"] = {"label": line.label, "text": line.text, "doubt": wording.notice(doubt)}
    if line is not None and line.box is not None:
        found["title"] = f"Commit {counted(len(line.box.edits), 'edit')}?"
        found["costs"] = cost_rows(line.box)
    return found


def cost_rows(box: Box) -> list[CostRowData]:
    """The costs before and after a commit, part by part, and their sums."""
    before = box.before or None
    rows: list[CostRowData] = [
        {"label": part, "was": before[part] if before else None, "now": box.after[part]}
        for part in COSTS
    ]
    was = sum(before.values()) if before else None
    return [*rows, {"label": "total", "was": was, "now": sum(box.after.values())}]


def news_data(planning: Planning, wording: Wording, accepted: Accepted) -> NewsData:
    """An accepted draft."""
    news, entry = planning.news, accepted.entry
    facts = news.facts(accepted)
    who = wording.notice(news.who(accepted))
    edits = [wording.shifts(shifts) for shifts in accepted.shifts]
    slots = {slot for shift in accepted.all() for slot in shift.slots()}
    return {
        "number": entry.number,
        "seat": entry.planner,
        "who": who,
        "when": facts.time[11:16],
        "why": wording.safe(facts.why),
        "edits": edits,
        "slots": sorted(slots),
        "text": f"{who} committed draft {entry.number}: {'; '.join(edits)}",
    }
