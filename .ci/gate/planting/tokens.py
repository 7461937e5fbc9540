"""What counts of a source text: its tokens, so that neither a comment nor a line break does.

Strings and character literals count as they are written. White space is taken together where it
separates two tokens, and dropped where a bracket, a comma or a semicolon does; a comma doesn't count
before a bracket that closes a list, which has one if the list is wrapped. In definitions and proofs
the line that begins a part of a block counts: there the layout says where a part ends.
"""

from __future__ import annotations

import re
from collections.abc import Callable

# What is read as it is written: in the code a raw string, a character, a string; else a string. One
# that doesn't end, as in a part of a line, goes on to the end of the text.
_CODE_STRING = (
    r"""\bb?r(?P<marks>\#*)".*?(?:"(?P=marks)|\Z)"""
    r"""|'(?:[^'\\\n]|\\(?:x[0-9a-fA-F]{2}|u\{[0-9a-fA-F_]+\}|.))'"""
    r"""|"(?:[^"\\]|\\.)*(?:"|\Z)"""
)
_SPEC_STRING = r'"(?:[^"\\\n]|\\.)*(?:"|\Z)'
_STRING = {True: re.compile(_CODE_STRING, re.S), False: re.compile(_SPEC_STRING)}
_STRING_OR_COMMENT = {
    True: re.compile(rf"(?P<kept>{_CODE_STRING})|//[^\n]*|/\*.*?\*/", re.S),
    False: re.compile(rf"(?P<kept>{_SPEC_STRING})|(?:^[ ]*--|(?<=\s)--(?=\s|\Z))[^\n]*", re.M),
}
_BLANK = re.compile(r"[ \t]+(?=\n)|\n\s*(?=\n)|\A\s*\n")
_WHERE = re.compile(r"(?<!\S)where(?:\s+|$)")
# White space after an opening bracket, before a closing one, and around what separates.
_BESIDE_A_MARK = re.compile(r"(?<=[(\[{,;])\s+|\s+(?=[)\]},;])")
_BEFORE_A_METHOD = re.compile(r"\s*\n\s*(?=\.\w)")
_BRACKET_OR_COMMA = re.compile(r"[()\[\]{},]")


def _outside_strings(text: str, is_code: bool, change: Callable[[str], str]) -> str:
    """Return a text with a change of each part between its strings."""
    made, end = "", 0
    for string in _STRING[is_code].finditer(text):
        made += change(text[end : string.start()]) + string[0]
        end = string.end()
    return made + change(text[end:])


def without_comments(text: str, is_code: bool) -> str:
    """Return a text without its comments, and without lines that are blank then."""
    plain = _STRING_OR_COMMENT[is_code].sub(lambda found: found["kept"] or "", text)
    return _outside_strings(plain, is_code, lambda part: _BLANK.sub("", part))


def tokens_of(text: str, is_code: bool, place: re.Pattern[str]) -> str:
    """Return what counts of a text without comments.

    Parameters
    ----------
    text : str
        The text.
    is_code : bool
        Whether it is code; else it is a definition or a proof.
    place : re.Pattern
        What doesn't count beside white space.
    """

    def spaced(part: str) -> str:
        if is_code:
            part = _BEFORE_A_METHOD.sub("", part)
        return _BESIDE_A_MARK.sub("", re.sub(r"\s+", " ", place.sub("", part)))

    if is_code:
        return _without_last_commas(_outside_strings(text, is_code, spaced)).strip()
    return _outside_strings(_with_blocks(text), is_code, spaced).strip()


def _with_blocks(text: str) -> str:
    """Return a definition or proof with a mark before each line that begins a part of a block.

    A block begins after `where`, or at the margin; a line that is further in goes on with a part.
    """
    blocks = [0]
    begins = False
    made = []
    for line in text.split("\n"):
        depth = len(line) - len(line.lstrip(" "))
        if begins:
            blocks.append(depth)
        while depth < blocks[-1]:
            blocks.pop()
        made.append(f"⏎{len(blocks)} {line}" if depth == blocks[-1] else line)
        where = _WHERE.search(line)
        begins = where is not None and where.end() == len(line)
        if where and not begins:
            blocks.append(where.end())
    return "\n".join(made)


def _without_last_commas(text: str) -> str:
    """Return a text of code without a comma before the bracket that closes a list.

    One in round brackets without a name before them stays if it is the only one: it makes a tuple.
    """
    strings = [found.span() for found in _STRING[True].finditer(text)]
    opened: list[tuple[int, bool]] = []
    dropped = set()
    comma, commas = -1, 0
    before: list[tuple[int, int]] = []
    for found in _BRACKET_OR_COMMA.finditer(text):
        at = found.start()
        while strings and strings[0][1] <= at:
            strings.pop(0)
        if strings and strings[0][0] <= at:
            continue
        if found[0] in "([{":
            is_list = found[0] != "(" or re.match(r"[\w!>]", text[at - 1 : at]) is not None
            opened.append((at, is_list))
            before.append((comma, commas))
            comma, commas = -1, 0
        elif found[0] == ",":
            comma, commas = at, commas + 1
        elif opened:
            start, is_list = opened.pop()
            if comma == at - 1 and comma > start + 1 and (is_list or commas > 1):
                dropped.add(comma)
            comma, commas = before.pop()
    return "".join(each for at, each in enumerate(text) if at not in dropped)
