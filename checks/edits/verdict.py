"""What a check says of each function. The prover's words stand here and nowhere else."""
import re
from collections import namedtuple

VERDICT = re.compile(r'^(fn|impl|trait|struct|enum) (\S+): (.+)', re.M)
PROVED = 'proved'
NOT_PROVED = ('not proved', 'no proof')
# what a function's own goal is refused by
SEARCH = '`search` did not prove'
VALUES = 'the facts known there allow'
OPEN = re.compile(r'is not proved that .*\(`[^`]+`\)|error: `[^`]+`: `(?:search|omega|grind)`')
ANSWER = re.compile(r'^(?:\./)?(proofs/\S+?):\d+:\d+: error: (.*)', re.M)
NAMES_ALONE = re.compile(r'has no field|is not in scope|has no `|was not admitted')
# what it waits for
WAITS = re.compile(r'it (?:calls|passes|waits for) .*')
# (of a whole crate whether it is proved, or of some functions their number)
END = re.compile(r'^(?:logic|only)=(\S+)', re.M)
# that it ended with a function, whatever came of it
CHECKED = re.compile(r'checked (\S+), \d+ of \d+')

VALUES_WORD, SEARCH_WORD, ANSWER_WORD, STALE_WORD = 'with values', 'by search', 'by an answer', 'by an answer that no longer fits'

GOAL = re.compile(r'is not proved that .*?\(`([^`]+)`\)|error: `([^`]+)`: `')

# What is said of a function: whether it is proved, how a goal of its own was refused, if one was, what it waits for, what is open of it, and
# the first goal that is.
Function = namedtuple('Function', 'is_proved refused waits open goal')


class Said:
    """What a check said: of each function, and of the lemmas and definitions that it refused; whether it came to the functions, and whether
    the whole crate is proved."""

    def __init__(self, text, crate):
        self.text, self.functions, self.others = text, {}, []
        answers, start = answers_refused(text, crate), 0
        for found in VERDICT.finditer(text):
            lines, start = text[start:found.start()].split('\n'), found.end()
            kind, path, verdict = found.groups()
            waits = ''.join(WAITS.findall(verdict))
            if kind == 'fn':
                answered = answers.pop(path, [])
                own = [*(line for line in lines if not ANSWER.match(line)), *answered]
                open, goals = open_of(own), [goal for line in own for goal in GOAL.findall(line)]
                by = (ANSWER_WORD if open else STALE_WORD) if answered else ''
                by = VALUES_WORD if open == VALUES_WORD else SEARCH_WORD if SEARCH in verdict else by
                # (a closure with a condition is `proved where its callers give what it asks`)
                is_proved, by = verdict.startswith(PROVED), by if verdict.startswith(NOT_PROVED) else ''
                self.functions[path] = Function(is_proved, by, waits, open, ''.join(goals[0]) if goals else '')
            elif verdict != PROVED and not waits:
                self.others.append(f'{kind} {path}')
        self.others += answers
        ends = END.findall(text)
        self.is_whole = bool(ends and self.functions)
        self.is_proved = ends[:1] == [PROVED] and all(function.is_proved for function in self.functions.values())

    def refused(self):
        """The functions, and after them the lemmas and types, a goal of whose own was refused, each with how."""
        functions = {path: function.refused for path, function in self.functions.items() if function.refused}
        return {**functions, **dict.fromkeys(self.others, ANSWER_WORD)}


def answers_refused(text, crate):
    """Of each function, or else each file of lemmas, with an answer that was refused: its errors, without those of names alone that the
    edit took away."""
    found = {}
    for error in ANSWER.finditer(text):
        parts = [part.lstrip('+') for part in error[1].split('/')[1:-1]]
        path = '::'.join([crate, *parts]) if parts else error[1]
        if not NAMES_ALONE.search(error[2]):
            found.setdefault(path, []).append(error[0])
    return found


def open_of(lines):
    """Returns what these lines leave open of a function: `with values`, at which a goal of its is false; another `goal`; or nothing, as where
    only an answer's type no longer fits."""
    return VALUES_WORD if any(VALUES in line for line in lines) else 'goal' if any(map(OPEN.search, lines)) else ''
