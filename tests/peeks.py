#!/usr/bin/env python3
"""Plays drawn days on one desk. Each planner has courses and slots of his own, looks for prices, and makes edits that can be made: if
he peeks no draft is stale, and if he asks for the prices some are.

PROGRAM names another program. The last line is 'N passed, M failed'.
"""
import os
import random
import sys
import tempfile

sys.dont_write_bytecode = True
from program import EXAMPLES, call, check, end, pair_of, read_files  # noqa: E402
from rules import Instance  # noqa: E402

DAYS = 10
PRICES = 20
EDITS = 3
DRAFTS = 2


def play(files, folder, lines):
    """What a desk answers to these lines."""
    script = os.path.join(folder, "day.txt")
    with open(script, "w", encoding="utf-8") as opened:
        opened.write("".join(line + "\n" for line in lines))
    status, printed, said = call("run", files[0], script, "--start", files[1])
    check("a day: status and standard error", (status, said), (0, ""))
    answers = printed.splitlines()
    check("a day: an answer for each line", len(answers), len(lines))
    return answers


def own_parts(draw, count, planners):
    """The numbers below count, drawn into a part for each planner."""
    numbers = list(range(count))
    draw.shuffle(numbers)
    return [numbers[p::planners] for p in range(planners)]


def moves_in(files, folder, instance, lectures, slots):
    """The moves of these lectures into these slots that can be made on the timetable that the desk opens with, as they are typed."""
    looks = [f"0 peek cheapest 1000 move {instance.courses[c][0]} {day} {period} * * *" for c, day, period, _ in lectures]
    moves = []
    for answer in play(files, folder, ["0 open", *looks])[1:]:
        words = answer.split()[2:]
        for at in range(0, len(words), 8):
            if int(words[at + 6]) * instance.periods + int(words[at + 7]) in slots:
                moves.append(" ".join(words[at + 1:at + 8]))
    return moves


def look_for(draw, move):
    """A look at the price of a move, or, now and then, at what each slot offers to its lecture."""
    if draw.random() < 0.9:
        return f"price {move}"
    return " ".join(["slots", *move.split(" ")[:4], "* * *"])


def draft(draw, front, moves):
    """The lines of a draft: looks at prices, and edits."""
    looks = [front + look_for(draw, draw.choice(moves)) for _ in range(PRICES)]
    return ["open", *looks, *draw.sample(moves, EDITS), "commit"]


def mixed(draw, rows):
    """The lines of all rows as they come, each row in its order."""
    left = [list(row) for row in rows]
    lines = []
    while any(left):
        lines.append(draw.choice([row for row in left if row]).pop(0))
    return lines


def commits(files, folder, seed, front, moves):
    """The answers to the commits of a drawn day of planners who have these moves, and these words in front of their looks."""
    draw = random.Random(seed)
    rows = [[f"{p} {line}" for _ in range(DRAFTS) for line in draft(draw, front, own)] for p, own in enumerate(moves)]
    lines = mixed(draw, rows)
    return [answer for line, answer in zip(lines, play(files, folder, lines)) if line.endswith("commit")]


def main():
    files = pair_of(EXAMPLES, "spring")
    instance = Instance(read_files(files)[0])
    lectures = instance.read_solution(read_files(files)[1])
    stale = asked = 0
    with tempfile.TemporaryDirectory() as folder:
        for seed in range(DAYS):
            planners = 8 if seed % 2 else 4
            draw = random.Random(seed)
            courses = own_parts(draw, len(instance.courses), planners)
            slots = own_parts(draw, instance.days * instance.periods, planners)
            own = [[it for it in lectures if it[0] in courses[p] and it[1] * instance.periods + it[2] in slots[p]] for p in range(planners)]
            moves = [moves_in(files, folder, instance, own[p], slots[p]) for p in range(planners)]
            moves = [some for some in moves if len(some) >= EDITS]
            peeked = commits(files, folder, seed, "peek ", moves)
            check(f"day {seed}: stale drafts of planners who peek", [it for it in peeked if it.startswith("stale")], [])
            told = commits(files, folder, seed, "", moves)
            stale += sum(answer.startswith("stale") for answer in told)
            asked += len(told)
    print(f"of {asked} drafts in which prices were asked {stale} were stale")
    check("a tenth of these or more", 10 * stale >= asked, True)
    end()


main()
