"""The sentences of notices by their codes. `{key[redo]}` is a face's name for an action."""
from __future__ import annotations

from office.words.sentences_past import KNOWING, PAST
from office.words.sentences_rules import RULES

# why an edit is refused
REASONS = {
    "teacher busy": "its teacher {teacher} teaches {other} then",
    "curriculum busy": "curriculum {curriculum} has {other} then",
    "room taken": "{other} is in {room} then",
    "its room taken": "{other} is in its room then",
    "unavailable": "{course} is unavailable then",
    "barred": "{room} is barred for {course}",
    "one barred": "the room of one is barred for the other",
    "already": "{course} has a lecture there already",
    "one already": "one has a lecture there already",
    "full": "all lectures of {course} are placed",
    "not placed": "no lecture of {course} stands there any more",
    "one not placed": "one does not stand there any more",
    "same slot": "it stands in this slot already",
    "same course": "both are lectures of {course}",
    "no such course": "there is no course {course}",
    "no such room": "there is no room {room}",
    "no such slot": "there is no {slot}",
    "back already": "it is so already",
    "changed since": "it has been changed since",
    "changed by": "draft {number} of {who} has changed it since",
    "fault": "{fault}",
    "rooms": "{reasons}",
    "no room": "each room is taken, barred or blocked then",
    "no rooms": "there is no room at all",
    "not told": "the desk has not said what it would cost",
    "partner": "with {other}: {reason}",
    "no partner": "no lecture there to swap with",
    # where a cell has room for two words
    "cell clash": "clash {other}",
    "cell closed": "closed",
    "cell blocked": "blocked",
    "cell has one": "has one",
    "cell full": "full",
    "cell gone": "gone",
    "cell no room": "no room",
    "cell no swap": "no swap",
    "cell not told": "not known",
}
# what the desk answers to an edit or a turn that is not as it was hoped for
DESK = {
    "nothing to redo": "There is no stale draft to make again.",
    "no edit to undo": "No edit is left to undo.",
    "already open": "A draft is open already.",
    "no draft": "No draft is open.",
    "no memory": "The desk has no memory for it now; try again.",
    "no place": "The desk has no place for it now; try again.",
    "no answer yet": "The desk has not answered for {seconds} s; {key[leave]} leaves.",
    "desk says": "The desk says: {answer}",
    "typed": "{line}: {answer}",
    "not understood": "{line}: bad line: the desk does not know these words ({answer}).",
    "differs": "The desk answered otherwise than expected: everything was read anew.",
}
DRAFT = {
    "decide first": "First say what becomes of the {count:edit} of your last draft: {key[redo]} "
    "makes them again, {key[abandon]} gives them up.",
    "done": "Done: {shifts}.",
    "refused": "Refused: {shifts}: {reason}.",
    "nothing to undo": "No draft is open: nothing to undo.",
    "taken back": "Taken back: {shifts}.",
    "may be meant": "{name} is a name or a word: is it the reason?",
    "reason needed": "A reason is needed: all who plan read it.",
    "commit by its key": "A commit is seen before it is made: {key[commit]} shows it.",
    "nothing to commit": "No draft is open: nothing to commit.",
    "no edits": "Your draft has no edits: nothing to commit.",
    "committed": "Committed as draft {number}: {count:edit}, on the disk.{kept}",
    "reason kept": " The reason is kept.",
    "reason not kept": " The reason could not be written ({fault}).",
    "not these edits": "Your draft has other edits by now: look at them again.",
    "not in the minutes": "Not written: {answer}, says the desk; the minutes do not have it.",
    "not written": "Not written: the disk is full, or fails. Your edits are in the log.",
    "not written nor kept": "Not written, and your edits are on no disk ({fault}): write them "
    "down.",
    "minutes fail": "Nothing can be committed any more: the disk is full, or fails. Tell the "
    "office.",
    "empty draft": "{row} has changed, and your draft had no edits left: it is closed, and you see "
    "the newest timetable.",
    "newest": "No draft is open: you see the newest timetable.",
    "up to date": "Your draft is up to date.",
    "stale": "Stale: {row} has changed. Your edits are kept: {key[redo]} makes them again.",
    "last given up": "The last draft is given up: {count:edit}.{aside}",
    "given up": "The draft is given up: {count:edit}.{aside}",
    "given up as": " Put aside as {name}: {key[variants]} lists it.",
    "empty given up": "The draft is given up; it had no edits.",
    "not offered again": "They are not offered again: they are put aside as {name} "
    "({key[variants]}).",
    "is open": "Your draft is open: if {key[commit]} or {key[refresh]} finds it stale, {key[redo]} "
    "makes its edits again.",
    "made again": "{made} of {count} edits made again, none committed yet.",
    "left out": "{number}. {shifts}: {reason}",
    "as you left it": "Your draft is as you left it: {count:edit}.",
}
LECTURES = {
    "no lecture": "No lecture stands here: {key[missing]} lists those that are missing.",
    "no lecture here": "No lecture stands here.",
    "printed": "Written: {path}.",
    "not printed": "No page: {why}.",
    "page made": "{path} is where your browser keeps what it loads: a page to print or to send.",
    "lecture first": "Go to a lecture first.",
    "pick up first": "Pick a lecture up first, by {key[pick up]}.",
    "changed by others": "Somebody has changed {course}: it is not picked up any more.",
    # what the chosen offer of a slot is
    "no offer": "cannot stand there: {reason}",
    "offer stays": "stays where it is{more}",
    "offer in": "{price} in {room}{more}",
    "offer with": "{price} with {other}{more}",
    "offer of several": " ({number} of {of}; {key[next]} for the next)",
    "nowhere else": "It can stand nowhere else now.",
    "cheapest in": "Cheapest: {price} in {room}, {slot}: {key[cheapest]} goes there.",
    "stands best": "It stands best: no slot is cheaper. Next: {price} in {room}, {slot}.",
    "cheapest with": "Cheapest: {price} with {other}, {slot}: {key[cheapest]} goes there.",
    "other price": "Others have changed it just now: {now}.",
    "cannot stand": "It cannot stand there: {reason}.",
    "stays": "It stays where it was.",
    "nothing missing": "No lecture is missing.",
}
# what others have done
OTHERS = {
    "named": "{name}",
    "seat": "seat {planner}",
    "moved here": "{who} moved {course} here, {time}{because}.",
    "moved away": "{who} took {course} away from here, {time}{because}.",
    "new room here": "{who} gave {course} this room, {time}{because}.",
    "not as seen": "Somebody has just changed {course}: look again.",
    "by draft": "draft {number}, {who}, {time}{because}:",
}
# variants, and what was taken back
VARIANTS = {
    "nothing undone": "Nothing was taken back that can be made again.",
    "nothing to put aside": "Your draft has no edits to put aside.",
    "variant name": "Put aside as: ",
    "put aside": "Put aside as {name}: {count:edit}. You begin anew; {key[variants]} lists what "
    "was put aside.",
    "put aside first": "Your draft has {count:edit}: {key[put aside]} puts them aside, "
    "{key[abandon]} gives them up.",
    "thrown away": "{name} is thrown away: {key[variants]} lists it last.",
    "no variants": "Nothing was put aside: {key[put aside]} puts a draft aside.",
    "variants": "What was put aside",
    "variant": "{name}: {count:edit}; the program does not say what it would bring now",
    "variant now": "{name}: {count:edit}, {made} of them can be made now: cost {price}, missing "
    "{missing}",
    "variant thrown": "thrown away: {name}, {count:edit}",
    "compared": "{name} -> {second}",
    "same variants": "Both lead to the same timetable now.",
    "not compared": "Cannot compare them: the program gave no answer.",
}
# what the program finds
FINDINGS = {
    "no findings": "Nothing is known of findings now: {fault}.",
    "findings": "What to mend: {count:finding}, {points} points",
    "findings of": "{part}: {count:finding}, {points} points ({meaning})",
    "no findings of": "Nothing costs points for {part} ({meaning}).",
    "see gaps": "gaps in the days of curricula, and the groups that are worst off (no points)",
    "gaps title": "Gaps in days of curricula: {count}; they cost no points",
    "worst off": "worst off: curriculum {curriculum}, {alone} alone on their day, {gaps} in gaps",
    "gaps": "curriculum {curriculum}, {day}: {gaps} free between two lectures",
    "found lectures": "{placed} of {stated} lectures placed: {course}",
    "found conflict": "conflict: {course} and {other}, {slot}, {cause} {name}",
    "found availability": "unavailable: {course}, {slot}",
    "found occupancy": "room taken: {course} in {room}, {slot}",
    "found barred": "barred: {course} in {room}, {slot}",
    "found blocked": "blocked: {course} in {room}, {slot}",
    "found capacity": "{points} without a seat: {course} in {room}, {slot}",
    "found days": "{points} for too few days: {course} on {days} of {minimum}",
    "found compactness": "{points} for standing alone: {course} in curriculum {curriculum}, {slot}",
    "found stability": "{points} for more than one room: {course} in {rooms} rooms",
}
# titles and lines of what is read or asked
LINES = {
    "blank": "",
    "edit line": "  {shifts}",
    "numbered": "{number}. {shifts}",
    "earlier edits": "{count:edit} of {day} not accepted: make them again?",
    "draft of another": "{owner} has left a draft here: go on with {count:edit}?",
    "stale of another": "{owner} has left {count:edit} of a stale draft here: go on with them?",
    "take over why": "A commit is logged for who makes it. If you leave, they stay as they are.",
    "these refused": "These were refused:",
    "edits of draft": "The edits of your draft: {count}; choose one to take it back",
    "was taken back": "taken back, to be made again: {shifts}",
    "take edit back": "Take this edit back?",
    "left out before": "Not made again, of the draft before:",
    "row changed": "{row} has changed:",
    "your edits": "Your edits:",
    "redo commits nothing": "{key[redo]} makes them again on the newest timetable. Nothing is "
    "committed by it.",
    "box change": "Cost {price}: {parts}.",
    "box cost": "It costs {count} then.",
    "leaves missing": "It leaves lectures missing: {courses}.",
    "box fresh": "Nothing that it stands on has changed.",
    "box stale": "Stale by now: {row} has changed. Nothing is lost; it cannot be committed as it "
    "is.",
    "stale title": "Your draft is stale: nothing is lost",
    "give up": "Give up these edits?",
    "give up why": "They are put aside: {key[variants]} lists them.",
    "leave": "Leave the seat?",
    "leave why": "Your draft stays as it is, not committed: you find it when you sit down again.",
    "on the disk": "Your accepted drafts are on the disk: {numbers}.",
    "not accepted": "These edits were not accepted. They are in the log of the seat, and offered "
    "again after the next opening:",
    "not accepted nor kept": "These edits were not accepted, and the log cannot be written "
    "({fault}): write them down.",
    "log fault": "The log cannot be written ({fault}): edits are lost if the desk dies.",
    "closing": "The office closes in {seconds} s: commit now, or your edits are offered again.",
}
SENTENCES: dict[str, str] = {
    **REASONS,
    **DESK,
    **DRAFT,
    **LECTURES,
    **OTHERS,
    **VARIANTS,
    **FINDINGS,
    **LINES,
    **PAST,
    **KNOWING,
    **RULES,
}
