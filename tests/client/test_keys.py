"""The table of keys, the sentences of notices, and what is made of them."""
import ast
import glob
import os
import string

from support import HERE, OfficeTest

from office.day.costs import COSTS, MEANINGS
from office.terminal.help_page import help_lines
from office.words.actions import ACTIONS, ANSWERS, BY_NAME, FREE, KeyNames, key_of, row_of
from office.words.sentences import SENTENCES
from office.words.text import width


def said_codes():
    """The codes of all notices that the package says, where they are written out."""
    for path in glob.glob(os.path.join(HERE, "tools/office/**/*.py"), recursive=True):
        with open(path) as file:
            tree = ast.parse(file.read())
        for node in ast.walk(tree):
            if isinstance(node, ast.ImportFrom) and node.module == "office.words.notice":
                break
        else:
            # another function of this name
            continue
        for node in ast.walk(tree):
            is_call = isinstance(node, ast.Call) and isinstance(node.func, ast.Name)
            if is_call and node.func.id == "say" and node.args:
                code = node.args[0]
                if isinstance(code, ast.Constant):
                    yield path, code.value, {word.arg for word in node.keywords}


class Keys(OfficeTest):
    def test_each_key_has_one_action(self):
        keys = [action.key for action in ACTIONS]
        self.assertEqual(len(keys), len(set(keys)))
        names = [action.name for action in ACTIONS + ANSWERS]
        self.assertEqual(len(names), len(set(names)))

    def test_each_action_is_done(self):
        from office.terminal.board import Board
        from support import SMALL

        self.open("day", SMALL, "1")
        board = Board(self.planning("day", 0))
        self.assertEqual({action.name for action in ACTIONS}, set(board.actions))

    def test_help_has_each_key(self):
        lines = help_lines()
        for action in ACTIONS:
            if action.help:
                self.assertIn(f"{key_of(action.name):>6}  {action.help}", lines)

    def test_help_has_each_cost(self):
        """What each part of the cost counts is said once for both faces."""
        self.assertEqual(tuple(MEANINGS), COSTS)
        (line,) = [line for line in help_lines() if line.startswith("Costs: ")]
        for part, counts in MEANINGS.items():
            self.assertIn(f"{part} is {counts}", line)

    def test_rows_of_keys(self):
        for names in FREE:
            self.assertLessEqual(width(row_of(names)) + 1, 80)
            for name in names:
                self.assertTrue(BY_NAME[name].short)


class Sentences(OfficeTest):
    def test_each_code_has_one(self):
        for path, code, _ in said_codes():
            self.assertIn(code, SENTENCES, path)

    def test_data_are_given(self):
        """What a sentence says is in each notice of its code."""
        for path, code, data in said_codes():
            fields = [field for _, field, _, _ in string.Formatter().parse(SENTENCES[code])]
            wanted = {field for field in fields if field and not field.startswith("key[")}
            if None not in data:
                self.assertEqual(wanted - data, set(), (path, code))

    def test_actions_that_sentences_name(self):
        names = KeyNames()
        for code, sentence in SENTENCES.items():
            for _, field, _, _ in string.Formatter().parse(sentence):
                if field and field.startswith("key["):
                    self.assertTrue(names[field[4:-1]], code)
