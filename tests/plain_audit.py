"""A plain audit: whether each call of a journal is answered there as a plain desk answers it."""
from plain_desk import Rules

# how many words follow each word of a call; of a pattern it is the same
CALLS = {"place": 4, "move": 6, "swap": 6, "reroom": 4, "drop": 3, "course": 1, "slot": 2, "teacher": 1, "curriculum": 1,
         "coursecost": 1, "cost": 0, "missing": 0}
# and each word of a fault that names a course
FAULTS = {"clash": 1, "roomtaken": 1}


def reply_of(words):
    """The words of a call, and those of its reply, at the front of words; they are taken away."""
    def take(count):
        return [words.pop(0) for _ in range(count)]

    call = take({"price": 1, "cheapest": 2, "slots": 1}.get(words[0], 0))
    call += take(1 + CALLS[words[0]])
    reply = take(1)
    if reply[0] == "refused":
        reply += take(1 + FAULTS.get(words[0], 0))
    elif reply[0] == "price":
        reply += take(1)
    elif reply[0] == "costs":
        reply += take(4)
    elif reply[0] != "done":
        reply += take(1)
        for _ in range(int(reply[1])):
            reply += take({"lectures": 4, "missing": 2, "prices": 1, "slots": 1}[reply[0]])
            if reply[-1] == "-" and reply[0] == "slots":
                reply += take(1 + FAULTS.get(words[0], 0))
            elif reply[0] in ("prices", "slots"):
                reply += take(1 + CALLS[words[0]])
    return call, " ".join(reply)


def audit(instance, opening, text):
    """What an audit prints of a journal that has no fault."""
    rules, t = Rules(instance), dict(opening)
    words = [word.decode() for word in text.split()]
    count = int(words[1])
    words = words[2:]
    for entry in range(1, count + 1):
        calls = int(words[2])
        words = words[3:]
        for number in range(1, calls + 1):
            call, told = reply_of(words)
            answer, t = rules.answer(t, call)
            if answer != told:
                return f"differs {entry} {number}\n"
    return "agrees\n"
