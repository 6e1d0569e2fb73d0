"""Reads the code of Rattle: without its comments and strings, and where its braces and clauses are."""
import functools
import re

from crates import text_of

UNREAD = re.compile(r'//[^\n]*|/\*.*?\*/|b?"(?:\\.|[^"\\])*"|b?\'(?:\\[^\']+|[^\'\\])\'', re.S)
# A clause of a contract, of a loop or of a trait, up to its opening brace.
CLAUSE = re.compile(r'\b(?:(?:requires|ensures)(?: \w+)?|ghost \w+(?: =|:)) \{')


def blank(found):
    """Spaces for what an expression found, so that what comes after it stays in its place and line."""
    return re.sub(r'[^\n]', ' ', found[0])


@functools.lru_cache(None)
def code_of(path):
    """The text of a file, with spaces for comments, strings and characters."""
    return UNREAD.sub(blank, text_of(path))


def closing(code, at):
    """Where the brace closes that opens at a place."""
    depth = 0
    for place in range(at, len(code)):
        depth += (code[place] == '{') - (code[place] == '}')
        if depth == 0:
            return place
    return len(code)


@functools.lru_cache(None)
def clauses(code):
    """Where the brace of each clause opens, with where it closes."""
    return {found.end() - 1: closing(code, found.end() - 1) for found in CLAUSE.finditer(code)}
