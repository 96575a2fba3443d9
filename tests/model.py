"""A model of the archive text, written from docs/ARCHIVE.md alone.

    python3 tests/model.py < FILE

prints what the program `inspect` reports about FILE.

The model is meant to be read next to the page and to be compared with the
programs. It is slow and plain on purpose. It has these sections:

- patterns: cells, contents and the numbering rule;
- the archive text: forms, faults, judging and writing;
- the program inspect.

No section keeps anything between two calls. The store, which does, stands in
store_model.py and uses the first two sections.
"""

from __future__ import annotations

import re
import sys
from dataclasses import dataclass
from enum import Enum
from typing import List, Sequence, Set, Union

# --------------------------------------------------------------------------
# Patterns
# --------------------------------------------------------------------------

MOST_CELLS = 16_384
GREATEST_YARN = 4_095


class Joint(Enum):
    """The joint of a cell, with the byte that stands for it in a text."""

    BESIDE = b"b"
    ABOVE = b"a"


@dataclass(frozen=True)
class Nothing:
    """The content that is nothing."""


@dataclass(frozen=True)
class Yarn:
    """The content that is a yarn."""

    number: int


@dataclass(frozen=True)
class Link:
    """The content that is a cell, told by the number of that cell."""

    number: int


Content = Union[Nothing, Yarn, Link]


@dataclass(frozen=True)
class Cell:
    """One cell of a pattern."""

    joint: Joint
    left: Content
    right: Content

    def contents(self) -> tuple[Content, Content]:
        """Both contents, left before right."""
        return (self.left, self.right)


Pattern = List[Cell]


def contents_of(pattern: Pattern) -> list[Content]:
    """All contents of a pattern, by rising cell number, left before right."""
    return [content for cell in pattern for content in cell.contents()]


def numbered(cells: Sequence[Cell], first: int) -> Pattern:
    """The pattern of all cells reached from `first`, numbered by the rule.

    The links in `cells` are places in `cells`. Cells that are not reached
    are left out.
    """
    number_of = {first: 0}
    order = [first]
    for place in order:  # the list grows while it is walked
        for content in cells[place].contents():
            if isinstance(content, Link) and content.number not in number_of:
                number_of[content.number] = len(order)
                order.append(content.number)

    def renamed(content: Content) -> Content:
        return Link(number_of[content.number]) if isinstance(content, Link) else content

    return [
        Cell(cells[place].joint, renamed(cells[place].left), renamed(cells[place].right))
        for place in order
    ]


class Numbering:
    """The numbering rule, followed cell by cell.

    It keeps the set of the cells met so far. Cell 0 is met from the start.
    As long as the rule holds, the set has no gap, and so its size is the
    next unused number.
    """

    def __init__(self) -> None:
        self.met: Set[int] = {0}

    def admits(self, own_number: int, cell: Cell) -> bool:
        """Whether the next cell keeps the rule; its links count as met then."""
        if own_number not in self.met:
            return False
        for content in cell.contents():
            if isinstance(content, Link):
                next_unused = len(self.met)
                if content.number not in self.met and content.number != next_unused:
                    return False
                self.met.add(content.number)
        return True


# --------------------------------------------------------------------------
# The archive text: faults
# --------------------------------------------------------------------------


class Layer(Enum):
    """Where a fault belongs. Judging a text gives the first two only."""

    LINE = "line"
    FILE = "file"
    STORE = "store"


LAYER_OF = {
    9: Layer.LINE,
    10: Layer.FILE,
    11: Layer.LINE,
    12: Layer.FILE,
    13: Layer.FILE,
    14: Layer.FILE,
}


@dataclass(frozen=True)
class Fault:
    """Why a text is not accepted. Lines are counted from 1; 0 is no line."""

    layer: Layer
    number: int
    line: int


class FaultMet(Exception):
    """Ends the judging: the first fault met is the answer."""

    def __init__(self, number: int, line: int) -> None:
        super().__init__(number, line)
        self.fault = Fault(LAYER_OF[number], number, line)


# --------------------------------------------------------------------------
# The archive text: forms of lines
# --------------------------------------------------------------------------

# These are always matched against a whole line without its byte 10.
_NUMBER = rb"(?:0|[1-9][0-9]{0,4})"
_CONTENT = rb"(?:-|[yc]" + _NUMBER + rb")"

HEADER = re.compile(rb"pattern\t(" + _NUMBER + rb")\t(" + _NUMBER + rb")")
CELL_LINE = re.compile(rb"cell\t([ba])\t(" + _CONTENT + rb")\t(" + _CONTENT + rb")")
END_LINE = re.compile(rb"end\t(" + _NUMBER + rb")")


def content_of(field: bytes) -> Content:
    """The content that a field of the right form stands for."""
    if field == b"-":
        return Nothing()
    kind = Yarn if field.startswith(b"y") else Link
    return kind(int(field[1:]))


def field_of(content: Content) -> bytes:
    """The field that stands for a content."""
    if isinstance(content, Nothing):
        return b"-"
    letter = b"y" if isinstance(content, Yarn) else b"c"
    return letter + str(content.number).encode("ascii")


def in_range(content: Content, count: int) -> bool:
    """Whether the number of a content, if it has one, lies in its range."""
    if isinstance(content, Yarn):
        return content.number <= GREATEST_YARN
    if isinstance(content, Link):
        return content.number < count
    return True


# --------------------------------------------------------------------------
# The archive text: judging
# --------------------------------------------------------------------------


class Sheet:
    """A text cut into its ended lines and what is left behind the last one."""

    def __init__(self, text: bytes) -> None:
        *self.lines, self.rest = text.split(b"\n")

    def due(self, place: int) -> bytes:
        """The line due at a place, all earlier lines being used up."""
        if place > len(self.lines):
            raise FaultMet(13, place)
        return self.lines[place - 1]

    def goes_on_behind(self, place: int) -> bool:
        """Whether any byte follows the line at a place."""
        return len(self.lines) > place or self.rest != b""


def judge_header(line: bytes) -> int:
    """The count told by the header."""
    form = HEADER.fullmatch(line)
    if form is None:
        raise FaultMet(9, 1)
    version, count = int(form[1]), int(form[2])
    if version != 1:
        raise FaultMet(10, 1)
    if count not in range(1, MOST_CELLS + 1):
        raise FaultMet(11, 1)
    return count


def judge_cell_line(line: bytes, own_number: int, count: int, numbering: Numbering) -> Cell:
    """The cell told by the line of the cell `own_number`."""
    place = own_number + 2
    form = CELL_LINE.fullmatch(line)
    if form is None:
        raise FaultMet(9, place)
    cell = Cell(Joint(form[1]), content_of(form[2]), content_of(form[3]))
    if not all(in_range(content, count) for content in cell.contents()):
        raise FaultMet(11, place)
    if not numbering.admits(own_number, cell):
        raise FaultMet(12, place)
    return cell


def judge_end_line(line: bytes, count: int) -> None:
    """Nothing, if the end line tells the count of the header."""
    form = END_LINE.fullmatch(line)
    if form is None or int(form[1]) != count:
        raise FaultMet(9, count + 2)


def accepted_pattern(text: bytes) -> Pattern:
    """The pattern of a text without fault; raises FaultMet for any other."""
    sheet = Sheet(text)
    count = judge_header(sheet.due(1))
    numbering = Numbering()
    pattern = [
        judge_cell_line(sheet.due(own_number + 2), own_number, count, numbering)
        for own_number in range(count)
    ]
    judge_end_line(sheet.due(count + 2), count)
    if sheet.goes_on_behind(count + 2):
        raise FaultMet(14, count + 3)
    return pattern


def judge(text: bytes) -> Union[Pattern, Fault]:
    """The pattern of an accepted text, or the fault of any other."""
    try:
        return accepted_pattern(text)
    except FaultMet as met:
        return met.fault


# --------------------------------------------------------------------------
# The archive text: writing
# --------------------------------------------------------------------------


def line_of(*fields: bytes) -> bytes:
    """The bytes of one line."""
    return b"\t".join(fields) + b"\n"


def write(pattern: Pattern) -> bytes:
    """The text of a pattern whose cells stand in the order of their numbers.

    Nothing is checked here: a list of cells that breaks the rules is written
    in the same way, and judging its text then tells the fault.
    """
    count = str(len(pattern)).encode("ascii")
    cell_lines = [
        line_of(b"cell", cell.joint.value, field_of(cell.left), field_of(cell.right))
        for cell in pattern
    ]
    return line_of(b"pattern", b"1", count) + b"".join(cell_lines) + line_of(b"end", count)


# --------------------------------------------------------------------------
# The program inspect
# --------------------------------------------------------------------------


def count_ties(pattern: Pattern) -> int:
    """How many contents are cell 0 or a cell that an earlier content named."""
    named: Set[int] = {0}
    ties = 0
    for content in contents_of(pattern):
        if isinstance(content, Link):
            ties += content.number in named
            named.add(content.number)
    return ties


def report(text: bytes) -> bytes:
    """The bytes that `inspect` writes about a text."""
    verdict = judge(text)
    if isinstance(verdict, Fault):
        return b"fault\t%d\t%d\n" % (verdict.number, verdict.line)
    contents = contents_of(verdict)
    rows = [
        (b"cells", len(verdict)),
        (b"above", sum(cell.joint is Joint.ABOVE for cell in verdict)),
        (b"yarns", sum(isinstance(content, Yarn) for content in contents)),
        (b"nothings", sum(isinstance(content, Nothing) for content in contents)),
        (b"ties", count_ties(verdict)),
    ]
    return b"".join(b"%s\t%d\n" % row for row in rows)


def main() -> None:
    """Judge standard input and print the report."""
    sys.stdout.buffer.write(report(sys.stdin.buffer.read()))


if __name__ == "__main__":
    main()
