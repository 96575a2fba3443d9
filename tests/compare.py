"""Compares the model of the archive text with a program on many texts.

    python3 tests/compare.py [--binary PATH] [--seed N] [--count N]
    python3 tests/compare.py --self [--seed N] [--count N]

The first form runs the binary once for each text and compares its output,
byte for byte, with the report of the model. The second form runs no binary
and checks the model against itself and against the documented examples.

The texts are some fixed ones and then `count` made ones. The made text with
a given index depends on the seed and the index only. Where a text is made so
that its answer is known beforehand, the model must give that answer too.

Exit status: 0 if all agreed, 1 at the first difference, 2 if the binary
cannot be run.
"""

from __future__ import annotations

import argparse
import os
import random
import re
import subprocess
import sys
from collections import Counter, deque
from concurrent.futures import Future, ThreadPoolExecutor
from dataclasses import dataclass, field
from pathlib import Path
from typing import Callable, Deque, Dict, Iterator, List, Optional, Tuple

sys.dont_write_bytecode = True

import model  # noqa: E402  (the line above must come first)
from model import Cell, Content, Fault, Joint, Link, Nothing, Pattern, Yarn  # noqa: E402

TOP = Path(__file__).resolve().parent.parent
DEFAULT_BINARY = TOP / "crates" / "inspect" / "out" / "inspect"
DEFAULT_COUNT = 20_000
ENOUGH = 200  # how often each answer must occur in a run of the default count
WORKERS = 2
SECONDS_ALLOWED = 60

FAULT_NUMBERS = (9, 10, 11, 12, 13, 14)


@dataclass(frozen=True)
class Case:
    """A text, and what is known about it beforehand."""

    name: str
    text: bytes
    starts: bytes = b""  # the report must begin with these bytes
    pattern: Optional[Pattern] = None  # the text must be accepted as this
    layer: Optional[str] = None  # the fault must have this layer
    length: Optional[int] = None  # the text must have so many bytes


def fault_line(number: int, line: int) -> bytes:
    """The report of a fault."""
    return b"fault\t%d\t%d\n" % (number, line)


# --------------------------------------------------------------------------
# Fixed texts: the documented examples
# --------------------------------------------------------------------------


def lines(shown: str) -> bytes:
    """The bytes of lines shown as in the pages: ` / ` between lines."""
    return b"".join(
        row.replace("·", "\t").encode("ascii") + b"\n" for row in shown.split(" / ")
    )


ONE = "pattern·1·1 / cell·b·-·- / end·1"
LOOP = "pattern·1·1 / cell·a·c0·y7 / end·1"
LOOP_BROKEN = "pattern·1·1 / cell·a·c1·y7 / end·1"
SAVED = "pattern·1·2 / cell·b·c1·c1 / cell·b·y5·- / end·2"
THREE = "pattern·1·3 / cell·b·c1·c2 / cell·a·c0·y1 / cell·b·c1·- / end·3"
UNNAMED = "pattern·1·2 / cell·b·-·- / cell·b·-·- / end·2"

# The table of judged texts: text, then fault number and line.
JUDGED_FAULTS: List[Tuple[bytes, int, int]] = [
    (b"", 13, 1),
    (b"pattern", 13, 1),
    (b"\n", 9, 1),
    (lines("pattern·x·1"), 9, 1),
    (lines("pattern·01·1"), 9, 1),
    (lines("pattern·2·x"), 9, 1),
    (lines("pattern·100000·1"), 9, 1),
    (lines("pattern·2·0"), 10, 1),
    (lines("pattern·99999·1"), 10, 1),
    (lines("pattern·1·0"), 11, 1),
    (lines("pattern·1·16385"), 11, 1),
    (lines("pattern·1·99999"), 11, 1),
    (lines("pattern·1·100000"), 9, 1),
    (lines("pattern·1·1"), 13, 2),
    (b"pattern\t1\t1\r\n", 9, 1),
    (lines(LOOP_BROKEN), 11, 2),
    (lines("pattern·1·1 / cell·a·y4096·- / end·1"), 11, 2),
    (lines("pattern·1·1 / cell·a·y100000·- / end·1"), 9, 2),
    (lines("pattern·1·1 / cell·c·-·- / end·1"), 9, 2),
    (lines("pattern·1·1 / cell·b·-·-· / end·1"), 9, 2),
    (lines("pattern·1·1 / cell·b·-·- / end·2"), 9, 3),
    (lines("pattern·1·1 / cell·b·-·- / cell·b·-·- / end·1"), 9, 3),
    (lines("pattern·1·2 / cell·b·c1·- / end·2"), 9, 3),
    (lines(ONE)[:-1], 13, 3),
    (lines(UNNAMED), 12, 3),
    (lines("pattern·1·2 / cell·b·-·- / cell·b·c1·- / end·2"), 12, 3),
    (lines("pattern·1·3 / cell·b·c2·- / cell·b·-·- / cell·b·-·- / end·3"), 12, 2),
    (lines("pattern·1·3 / cell·b·c2·c3 / cell·b·-·- / cell·b·-·- / end·3"), 11, 2),
]

LOOP_BYTES = bytes.fromhex(
    "70 61 74 74 65 72 6e 09 31 09 31 0a"
    "63 65 6c 6c 09 61 09 63 30 09 79 37 0a"
    "65 6e 64 09 31 0a"
)
SAVED_BYTES = bytes.fromhex(
    "70 61 74 74 65 72 6e 09 31 09 32 0a"
    "63 65 6c 6c 09 62 09 63 31 09 63 31 0a"
    "63 65 6c 6c 09 62 09 79 35 09 2d 0a"
    "65 6e 64 09 32 0a"
)


def documented_cases() -> Iterator[Case]:
    """Every text of docs/ARCHIVE.md and docs/EXAMPLES.md with its answer."""
    # docs/ARCHIVE.md, examples of judging
    for text, number, line in JUDGED_FAULTS:
        yield Case("judged example", text, fault_line(number, line))
    yield Case("judged example, loop", lines(LOOP), b"cells\t1\n")
    greatest_yarn = lines("pattern·1·1 / cell·a·y4095·- / end·1")
    yield Case("judged example, greatest yarn", greatest_yarn, b"cells\t1\n")
    for byte in range(256):
        text = lines(ONE) + bytes([byte])
        yield Case("judged example, one byte more", text, fault_line(14, 4))

    # docs/ARCHIVE.md, the program inspect
    loop = lines("cells·1 / above·1 / yarns·1 / nothings·0 / ties·1")
    saved = lines("cells·2 / above·0 / yarns·1 / nothings·1 / ties·1")
    three = lines("cells·3 / above·1 / yarns·1 / nothings·1 / ties·2")
    yield Case("inspect example", lines(LOOP), loop, length=31)
    yield Case("inspect example", lines(SAVED), saved, length=43)
    yield Case("inspect example", lines(THREE), three, length=56)
    yield Case("inspect example", lines(LOOP_BROKEN), fault_line(11, 2), length=31)
    yield Case("inspect example", b"", fault_line(13, 1))

    # docs/EXAMPLES.md
    cell_one = Cell(Joint.BESIDE, Yarn(5), Nothing())
    saved_pattern = [Cell(Joint.BESIDE, Link(1), Link(1)), cell_one]
    loop_pattern = [Cell(Joint.ABOVE, Link(0), Yarn(7))]
    yield Case("worked example, call 7", SAVED_BYTES, saved, saved_pattern, length=43)
    yield Case("worked example 12", LOOP_BYTES, loop, loop_pattern, length=31)
    broken = LOOP_BYTES.replace(b"c0", b"c1")
    yield Case("worked example 12, c1", broken, fault_line(11, 2), layer="line", length=31)
    yield Case("worked example 13", lines(UNNAMED), fault_line(12, 3), layer="file", length=40)


# --------------------------------------------------------------------------
# Fixed texts: great sizes
# --------------------------------------------------------------------------


def longest_pattern() -> Pattern:
    """A pattern of the greatest count whose text is as long as any.

    New cells are named as early as possible, two in each line. Once all are
    named, every other content is a cell number of five digits.
    """
    last = model.MOST_CELLS - 1
    return [
        Cell(Joint.ABOVE, Link(min(2 * i + 1, last)), Link(min(2 * i + 2, last)))
        for i in range(model.MOST_CELLS)
    ]


def chain_pattern(count: int) -> Pattern:
    """A chain in which each cell is named just before its own line."""
    cells = [Cell(Joint.BESIDE, Nothing(), Link(i + 1)) for i in range(count - 1)]
    return cells + [Cell(Joint.BESIDE, Nothing(), Nothing())]


def great_cases() -> Iterator[Case]:
    """Texts at the greatest count, and texts longer than any accepted one."""
    most = model.MOST_CELLS
    cells_line = b"cells\t%d\n" % most
    longest = longest_pattern()
    long_text = model.write(longest)
    yield Case("longest text", long_text, cells_line, longest)
    yield Case("longest text, cut", long_text[:-1], fault_line(13, most + 2))
    yield Case("longest text, one byte more", long_text + b"x", fault_line(14, most + 3))
    yield Case("longest text twice", long_text + long_text, fault_line(14, most + 3))

    chain = chain_pattern(most)
    chain_text = model.write(chain)
    yield Case("longest chain", chain_text, cells_line, chain)
    too_many = model.write(chain_pattern(most + 1))
    yield Case("one cell too many", too_many, fault_line(11, 1))
    surplus = chain_text.replace(b"end\t", b"cell\tb\t-\t-\nend\t")
    yield Case("one cell line too many", surplus, fault_line(9, most + 2))
    missing = chain_text.replace(b"cell\tb\t-\t-\n", b"")
    yield Case("one cell line too few", missing, fault_line(9, most + 1))
    unnamed = chain_text.replace(b"c%d\n" % (most - 1), b"-\n")
    yield Case("last cell unnamed", unnamed, fault_line(12, most + 1))
    beyond = chain_text.replace(b"cell\tb\t-\t-\n", b"cell\tb\t-\tc%d\n" % most)
    yield Case("last content out of range", beyond, fault_line(11, most + 1))

    rows = rows_of(chain_text)
    for own in (60, 999, 4095, 8192, 9999, 10_000, 12_345, most - 3):
        yield from late_cases(rows, own)

    yield Case("long first line", b"pattern\t1\t" + b"1" * 400_000 + b"\n", fault_line(9, 1))
    yield Case("long text, no byte 10", b"pattern\t1\t1" + b"\t" * 400_000, fault_line(13, 1))
    yield Case("long end", lines(ONE) + b"\n" * 1_000_000, fault_line(14, 4))
    yield Case("long zeros", bytes(1_000_000), fault_line(13, 1))
    yield Case("long rows", b"\n" * 1_000_000, fault_line(9, 1))
    long_line = lines("pattern·1·1") + b"cell" + b" " * 400_000 + b"\n"
    yield Case("long second line", long_line, fault_line(9, 2))


def late_cases(rows: List[bytes], own: int) -> Iterator[Case]:
    """Each fault of a cell line, late in the longest chain.

    Before the line of cell `own` the greatest cell named is `own` itself.
    """
    before, behind = b"".join(rows[:own + 1]), b"".join(rows[own + 2:])
    right_row, line = rows[own + 1], own + 2
    spoilt = {
        9: (b"cell\tb\t\t-\n", b"end\t%d\n" % own, b"cell\tb\ty0\tc0%d\n" % own),
        11: (b"cell\tb\ty4096\tc%d\n" % own, b"cell\ta\t-\tc16384\n"),
        12: (b"cell\tb\tc%d\t-\n" % (own + 2), b"cell\tb\tc%d\tc%d\n" % (own, own + 2)),
    }
    for number, bad_rows in spoilt.items():
        for bad_row in bad_rows:
            yield Case("late fault", before + bad_row + behind, fault_line(number, line))
    yield Case("late cut", before, fault_line(13, line))
    yield Case("late cut in a line", before + right_row[:-1], fault_line(13, line))
    nowhere = before + right_row.replace(b"c%d" % (own + 1), b"c%d" % own) + behind
    yield Case("late unnamed cell", nowhere, fault_line(12, line + 1))


def fixed_cases() -> Iterator[Case]:
    """All texts that do not depend on the seed."""
    yield from documented_cases()
    yield from great_cases()


# --------------------------------------------------------------------------
# Made texts: patterns
# --------------------------------------------------------------------------

Rng = random.Random


def random_yarn(rng: Rng) -> Yarn:
    """A yarn in its range, often at a place where the digits change."""
    if rng.random() < 0.4:
        return Yarn(rng.choice((0, 1, 9, 10, 99, 100, 999, 1000, 4094, 4095)))
    return Yarn(rng.randint(0, model.GREATEST_YARN))


def random_content(rng: Rng, count: int, own: int, weights: Tuple[int, int, int]) -> Content:
    """Nothing, a yarn or any cell below the count."""
    kind = rng.choices(("nothing", "yarn", "link"), weights)[0]
    if kind == "nothing":
        return Nothing()
    if kind == "yarn":
        return random_yarn(rng)
    return Link(rng.choice((own, 0, rng.randrange(count), rng.randrange(count))))


def random_weights(rng: Rng) -> Tuple[int, int, int]:
    """How often a pattern has nothings, yarns and links."""
    return (rng.randint(0, 3), rng.randint(0, 3), rng.randint(0, 5) + 1)


def random_pattern(rng: Rng, count: int) -> Pattern:
    """A random pattern with just so many cells, all reached.

    A tree reaches each cell from the first; what is left over is filled with
    any contents, so cells are shared and cycles arise. The cells are shuffled
    and then numbered by the rule.
    """
    shape = rng.choice(("deep", "bushy", "mixed"))
    weights = random_weights(rng)
    slots: List[List[Optional[Content]]] = [[None, None] for _ in range(count)]
    open_slots = [(0, 0), (0, 1)]
    rng.shuffle(open_slots)
    for child in range(1, count):
        place = {"deep": -1, "bushy": 0, "mixed": rng.randrange(len(open_slots))}[shape]
        parent, side = open_slots.pop(place)
        slots[parent][side] = Link(child)
        for side in rng.sample((0, 1), 2):
            open_slots.append((child, side))
    for own, pair in enumerate(slots):
        for side in (0, 1):
            if pair[side] is None:
                pair[side] = random_content(rng, count, own, weights)
    joints = [rng.choice((Joint.BESIDE, Joint.ABOVE)) for _ in range(count)]
    tree = [Cell(joint, *pair) for joint, pair in zip(joints, slots)]
    shuffled, first = shuffle_cells(rng, tree)
    return model.numbered(shuffled, first)


def shuffle_cells(rng: Rng, cells: Pattern) -> Tuple[List[Cell], int]:
    """The same cells in another order, and the new place of cell 0."""
    new_place = list(range(len(cells)))
    rng.shuffle(new_place)

    def moved(content: Content) -> Content:
        return Link(new_place[content.number]) if isinstance(content, Link) else content

    result: List[Cell] = list(cells)
    for old, cell in enumerate(cells):
        result[new_place[old]] = Cell(cell.joint, moved(cell.left), moved(cell.right))
    return result, new_place[0]


def random_count(rng: Rng) -> int:
    """Mostly 1 to 40 cells, some hundreds now and then, seldom thousands."""
    dice = rng.random()
    if dice < 0.001:
        return model.MOST_CELLS
    if dice < 0.005:
        return rng.randint(601, model.MOST_CELLS)
    if dice < 0.035:
        return rng.randint(41, 600)
    if dice < 0.2:
        return rng.randint(1, 3)
    return rng.randint(1, 40)


def made_pattern(rng: Rng, at_least: int = 1) -> Pattern:
    """A random pattern of a random count."""
    return random_pattern(rng, max(at_least, random_count(rng)))


def valid_case(rng: Rng) -> Case:
    """A text that must be accepted."""
    pattern = made_pattern(rng)
    return Case("valid", model.write(pattern), b"cells\t%d\n" % len(pattern), pattern)


# --------------------------------------------------------------------------
# Made texts: damage
# --------------------------------------------------------------------------

ALPHABET = b"paternclyd0123456789-\t\n"
ODD_BYTES = b"\0\t\n\r\x0b\x0c \x1c\x7f\x80\x85\xa0\xff+-.,_/:;0189@AZ`abcyz{"

BAD_NUMBERS = (
    b"", b"x", b"00", b"01", b"007", b"00001", b"000001", b"100000", b"999999",
    b"0000000001", b"+1", b"-1", b"-0", b" 1", b"1 ", b"1\r", b"1\0", b"\x001",
    b"1.0", b"1e1", b"1_0", b"1,0", b"0x1", b"1a", b"b1", b"\xb9", b"\xd9\xa1",
    b"4294967296", b"4294967297", b"18446744073709551616", b"18446744073709551617",
    b"340282366920938463463374607431768211457",
)
BAD_CONTENTS = (
    b"", b"x", b"y", b"c", b"5", b"--", b"-0", b"-1", b"- ", b" -", b"-\r", b"\0",
    b"x5", b"Y1", b"C0", b"yc1", b"cy1", b"yy1", b"c-", b"y-1", b"c 0", b"y1c",
    b"c0\t", b"\tc0", b"-\t-", b"b", b"a", b"\xe2\x80\x93",
) + tuple(b"y" + n for n in BAD_NUMBERS) + tuple(b"c" + n for n in BAD_NUMBERS)
BAD_JOINTS = (
    b"", b"c", b"A", b"B", b"ab", b"bb", b"aa", b"-", b" b", b"b ", b"\0", b"b\0",
    b"b\r", b"0", b"1", b"`", b"\xe1", b"\xe2",
)
BAD_FIRSTS = {
    b"pattern": (b"", b"Pattern", b"PATTERN", b"patter", b"patterns", b" pattern",
                 b"pattern ", b"\xef\xbb\xbfpattern", b"\0pattern", b"attern",
                 b"cell", b"end", b"pattern\t", b"\tpattern", b"patternpattern"),
    b"cell": (b"", b"Cell", b"CELL", b"cel", b"cells", b" cell", b"cell ", b"c", b"ell",
              b"pattern", b"end", b"cell\t", b"\tcell", b"\0cell", b"#", b"cellcell"),
    b"end": (b"", b"End", b"END", b"en", b"ends", b" end", b"end ", b"nd", b"cell",
             b"pattern", b"end\t", b"\tend", b"\0end", b"endend"),
}
OTHER_VERSIONS = (0, 2, 3, 9, 10, 11, 12, 21, 100, 256, 257, 513, 32769, 65535, 65536,
                  65537, 99999)
COUNTS_OUT_OF_RANGE = (0, 16385, 16386, 16387, 20000, 32768, 32769, 65535, 65536, 65537,
                       65538, 81920, 99999)
EDGES = (0, 1, 9, 10, 4094, 4095, 4096, 4097, 16383, 16384, 16385, 32767, 32768, 65534,
         65535, 65536, 65537, 99999, 100000, 131072)


def in_words(change: Callable) -> str:
    """What a change does, as its own first line tells it."""
    return (change.__doc__ or "").strip().split("\n")[0].rstrip(".")


def digits(number: int) -> bytes:
    """A number as it is written."""
    return str(number).encode("ascii")


def random_byte(rng: Rng) -> bytes:
    """Any byte, or one of the format, or one that is easily mistaken."""
    source = rng.choice((ALPHABET, ODD_BYTES, None))
    return bytes([rng.choice(source) if source else rng.randrange(256)])


def replace_byte(rng: Rng, text: bytes) -> bytes:
    """One byte replaced, or one bit of it turned."""
    if not text:
        return text
    place = rng.randrange(len(text))
    new = bytes([text[place] ^ (1 << rng.randrange(8))])
    if rng.random() < 0.5:
        new = random_byte(rng)
    return text[:place] + new + text[place + 1:]


def insert_bytes(rng: Rng, text: bytes) -> bytes:
    """One to three bytes inserted anywhere."""
    place = rng.randint(0, len(text))
    new = b"".join(random_byte(rng) for _ in range(rng.choice((1, 1, 1, 2, 3))))
    return text[:place] + new + text[place:]


def delete_bytes(rng: Rng, text: bytes) -> bytes:
    """One or more bytes taken out anywhere."""
    place = rng.randint(0, len(text))
    return text[:place] + text[place + rng.choice((1, 1, 1, 2, 3, 12)):]


def truncate(rng: Rng, text: bytes) -> bytes:
    """The text cut at any byte, often close to its end."""
    if rng.random() < 0.3:
        return text[:-rng.randint(1, 12)]
    return text[:rng.randint(0, len(text))]


def append_bytes(rng: Rng, text: bytes) -> bytes:
    """Something behind the text."""
    return text + rng.choice((
        b"\n", b"\0", b"\r\n", b" ", b"x", random_byte(rng), random_byte(rng), b"end",
        b"end\t1\n", b"cell\tb\t-\t-\n", text, text[:rng.randint(1, 40)],
    ))


def rows_of(text: bytes) -> List[bytes]:
    """The text cut behind each byte 10."""
    return [row for row in re.split(rb"(?<=\n)", text) if row]


def on_rows(change: Callable[[Rng, List[bytes]], None]) -> Callable[[Rng, bytes], bytes]:
    """Turns a change of a list of rows into a change of a text."""

    def on_text(rng: Rng, text: bytes) -> bytes:
        rows = rows_of(text)
        if rows:
            change(rng, rows)
        return b"".join(rows)

    on_text.__doc__ = change.__doc__
    return on_text


@on_rows
def duplicate_row(rng: Rng, rows: List[bytes]) -> None:
    """One line stands twice, the second time anywhere."""
    place = rng.randrange(len(rows))
    target = place if rng.random() < 0.5 else rng.randint(0, len(rows))
    rows.insert(target, rows[place])


@on_rows
def drop_row(rng: Rng, rows: List[bytes]) -> None:
    """One line is missing."""
    del rows[rng.randrange(len(rows))]


@on_rows
def swap_rows(rng: Rng, rows: List[bytes]) -> None:
    """Two lines have changed places."""
    one = rng.randrange(len(rows))
    other = min(one + 1, len(rows) - 1) if rng.random() < 0.5 else rng.randrange(len(rows))
    rows[one], rows[other] = rows[other], rows[one]


@on_rows
def blank_row(rng: Rng, rows: List[bytes]) -> None:
    """An empty line, or one that might be taken for a comment."""
    rows.insert(rng.randint(0, len(rows)), rng.choice((b"\n", b"\n", b"\t\n", b" \n", b"#\n")))


@on_rows
def pad_row(rng: Rng, rows: List[bytes]) -> None:
    """A space, tab or byte 0 before or behind a line."""
    place = rng.randrange(len(rows))
    extra = rng.choice((b" ", b"\t", b"\0", b"\t-", b"\tb"))
    if rng.random() < 0.5:
        rows[place] = extra + rows[place]
    else:
        rows[place] = rows[place].rstrip(b"\n") + extra + b"\n"


@on_rows
def add_return(rng: Rng, rows: List[bytes]) -> None:
    """Byte 13 before byte 10, in one line or in all from some line on."""
    first = rng.randrange(len(rows))
    last = first + 1 if rng.random() < 0.6 else len(rows)
    for place in range(first, last):
        rows[place] = rows[place].replace(b"\n", b"\r\n")


@on_rows
def change_version(rng: Rng, rows: List[bytes]) -> None:
    """Another version in the header."""
    version = digits(rng.choice(OTHER_VERSIONS))
    if rng.random() < 0.2:
        version = rng.choice(BAD_NUMBERS)
    rows[0] = re.sub(rb"\t[^\t]*\t", lambda _: b"\t" + version + b"\t", rows[0], count=1)


@on_rows
def change_count(rng: Rng, rows: List[bytes]) -> None:
    """Another count in the header, sometimes in the end line too."""
    count = len(rows) - 2
    new = rng.choice((count - 1, count + 1, count - 1, count + 1, count + 65536, 0, 16384,
                      rng.choice(COUNTS_OUT_OF_RANGE)))
    rows[0] = b"pattern\t1\t%d\n" % new
    if rng.random() < 0.5:
        rows[-1] = b"end\t%d\n" % new


@on_rows
def change_end(rng: Rng, rows: List[bytes]) -> None:
    """Another count or another form in the end line."""
    count = len(rows) - 2
    counts = [count - 1, count + 1, count + 65536, 0, 99999, 16385]
    other = digits(rng.choice(counts))
    forms = (b"end\t" + other, b"end\t" + other, b"end\t0%d" % count,
             b"end\t" + rng.choice(BAD_NUMBERS), b"end", b"end\t", b"end\t%d\t" % count,
             b"end\t%d\t%d" % (count, count), b"End\t%d" % count, b"end %d" % count)
    rows[-1] = rng.choice(forms) + b"\n"


@on_rows
def change_field(rng: Rng, rows: List[bytes]) -> None:
    """A field of any line with a wrong form."""
    place = rng.randrange(len(rows))
    fields = rows[place].rstrip(b"\n").split(b"\t")
    which = rng.randrange(len(fields))
    if which == 1:
        fields[which] = rng.choice(BAD_JOINTS)
    else:
        fields[which] = rng.choice(BAD_CONTENTS)
    rows[place] = b"\t".join(fields) + b"\n"


def change_matches(pattern: bytes, text: bytes, rng: Rng, new: Callable[[bytes], bytes]) -> bytes:
    """One of the places where the expression matches, written anew."""
    found = list(re.finditer(pattern, text))
    if not found:
        return text
    match = rng.choice(found)
    return text[:match.start()] + new(match[0]) + text[match.end():]


def change_number(rng: Rng, text: bytes) -> bytes:
    """A number one more or less, at an edge of a range or in a wrong form."""
    count = text.count(b"\n") - 2

    def new(old: bytes) -> bytes:
        value = int(old[:18])
        way = rng.randrange(7)
        if way == 0:
            return digits(abs(value + rng.choice((-1, 1))))
        if way == 1:
            return b"0" * rng.randint(1, 5) + old
        if way == 2:
            return digits(rng.choice(EDGES))
        if way == 3:
            return digits(abs(count + rng.choice((-2, -1, 0, 1))))
        if way == 4:
            return digits(value + rng.choice((65536, 65536, 1 << 32, 1 << 64)))
        if way == 5:
            return rng.choice(BAD_NUMBERS)
        return digits(rng.randint(0, 120_000))

    return change_matches(rb"[0-9]+", text, rng, new)


def change_tab(rng: Rng, text: bytes) -> bytes:
    """A tab doubled, removed or replaced."""
    other = rng.choice((b"\t\t", b"\t\t", b"", b"", b" ", b"        ", b"\t ", b" \t",
                        b"\x0b", b",", b"\n", b"\0"))
    return change_matches(rb"\t", text, rng, lambda _: other)


def change_row_end(rng: Rng, text: bytes) -> bytes:
    """A byte 10 doubled, removed or replaced."""
    other = rng.choice((b"\n\n", b"", b"\r", b"\x0b", b"\x0c", b"\x85", b"\0", b" ",
                        b"\xe2\x80\xa8", b"\n\r"))
    return change_matches(rb"\n", text, rng, lambda _: other)


def change_letter(rng: Rng, text: bytes) -> bytes:
    """A word or a letter in upper case, or one content letter for another."""
    way = rng.randrange(4)
    if way == 0:
        return change_matches(rb"[a-z]+", text, rng, bytes.upper)
    if way == 1:
        return change_matches(rb"[a-z]", text, rng, bytes.upper)
    if way == 2:
        swapped = {b"y": b"c", b"c": b"y"}
        return change_matches(rb"[yc](?=[0-9])", text, rng, lambda old: swapped[old])
    return text.upper()


def add_zero_byte(rng: Rng, text: bytes) -> bytes:
    """A byte 0 inserted, or put in place of another byte."""
    place = rng.randint(0, len(text))
    return text[:place] + b"\0" + text[place + rng.choice((0, 1)):]


DAMAGES: Tuple[Tuple[Callable[[Rng, bytes], bytes], int], ...] = (
    (replace_byte, 4),
    (insert_bytes, 3),
    (delete_bytes, 3),
    (truncate, 3),
    (append_bytes, 4),
    (duplicate_row, 2),
    (drop_row, 2),
    (swap_rows, 2),
    (blank_row, 2),
    (pad_row, 2),
    (add_return, 2),
    (change_version, 3),
    (change_count, 3),
    (change_end, 3),
    (change_field, 4),
    (change_number, 10),
    (change_tab, 3),
    (change_row_end, 3),
    (change_letter, 4),
    (add_zero_byte, 2),
)


def damaged_case(rng: Rng) -> Case:
    """A valid text with one to three damages; its answer is not known."""
    text = model.write(made_pattern(rng))
    changes, weights = zip(*DAMAGES)
    chosen = rng.choices(changes, weights, k=rng.choice((1, 1, 1, 1, 2, 3)))
    for change in chosen:
        text = change(rng, text)
    return Case("damaged: " + ", ".join(in_words(change) for change in chosen), text)


# --------------------------------------------------------------------------
# Made texts: broken numbering
# --------------------------------------------------------------------------


def greatest_named(pattern: Pattern) -> int:
    """The greatest cell number named by these cells, 0 if there is none."""
    named = [c.number for c in model.contents_of(pattern) if isinstance(c, Link)]
    return max(named, default=0)


def line_breaking_rule(pattern: Pattern) -> Optional[int]:
    """The line that breaks the numbering rule, by its three steps.

    This follows the greatest number named so far. The model asks for the set
    of cells met instead, so each checks the other.
    """
    greatest = 0
    for own, cell in enumerate(pattern):
        if own > greatest:
            return own + 2
        for content in cell.contents():
            if isinstance(content, Link):
                if content.number > greatest + 1:
                    return own + 2
                greatest = max(greatest, content.number)
    return None


def with_content(cell: Cell, side: int, content: Content) -> Cell:
    """The cell with one content replaced; side 0 is left, side 1 right."""
    if side == 0:
        return Cell(cell.joint, content, cell.right)
    return Cell(cell.joint, cell.left, content)


def exchange_numbers(rng: Rng, pattern: Pattern) -> Pattern:
    """Two cell numbers exchanged in all contents, the lines left in place."""
    one, other = rng.sample(range(len(pattern)), 2)
    new = {one: other, other: one}

    def changed(content: Content) -> Content:
        if isinstance(content, Link):
            return Link(new.get(content.number, content.number))
        return content

    return [Cell(cell.joint, changed(cell.left), changed(cell.right)) for cell in pattern]


def shuffle_lines(rng: Rng, pattern: Pattern) -> Pattern:
    """The cell lines in another order, the contents left as they are."""
    result = list(pattern)
    rng.shuffle(result)
    return result


def number_freely(rng: Rng, pattern: Pattern) -> Pattern:
    """The same graph with cells numbered anyhow."""
    return shuffle_cells(rng, pattern)[0]


def replace_link(rng: Rng, pattern: Pattern) -> Pattern:
    """One content that is a cell becomes something else."""
    places = [
        (own, side)
        for own, cell in enumerate(pattern)
        for side, content in enumerate(cell.contents())
        if isinstance(content, Link)
    ]
    own, side = rng.choice(places)
    count = len(pattern)
    content = rng.choice((Nothing(), random_yarn(rng), Link(own), Link(count - 1),
                          Link(rng.randrange(count)), Link(min(own + 2, count - 1))))
    result = list(pattern)
    result[own] = with_content(result[own], side, content)
    return result


def renumbered_case(rng: Rng) -> Case:
    """Cells in their ranges whose numbering is wrong, or perhaps still right."""
    pattern = made_pattern(rng, at_least=2)
    changes = (exchange_numbers, shuffle_lines, number_freely, replace_link, replace_link)
    change = rng.choice(changes)
    pattern = change(rng, pattern)
    line = line_breaking_rule(pattern)
    starts = b"cells\t%d\n" % len(pattern) if line is None else fault_line(12, line)
    return Case("renumbered: " + in_words(change), model.write(pattern), starts)


# --------------------------------------------------------------------------
# Made texts: one or two faults at known places
# --------------------------------------------------------------------------


def content_out_of_range(rng: Rng, count: int) -> bytes:
    """A content of the right form whose number is too great."""
    if rng.random() < 0.5:
        yarns = (4096, 4097, 9999, 10000, 65535, 65536, 65536 + rng.randint(0, 4095), 99999)
        return b"y%d" % rng.choice(yarns)
    return b"c%d" % rng.choice((count, count, count + 1, 16384 + count, 65535, 65536,
                                65536 + rng.randrange(count), 99999))


def bad_form_field(rng: Rng, fields: List[bytes], slot: int) -> None:
    """Breaks the form of a cell line, in the given slot or elsewhere."""
    way = rng.randrange(6)
    if way == 0:
        fields[0] = rng.choice(BAD_FIRSTS[b"cell"])
    elif way == 1:
        fields[1] = rng.choice(BAD_JOINTS)
    elif way == 2:
        fields.append(rng.choice((b"", b"-", b"y0", b"x")))
    else:
        fields[slot] = rng.choice(BAD_CONTENTS)


def fields_of(cell: Cell) -> List[bytes]:
    """The four fields of a cell line."""
    return model.write([cell]).split(b"\n")[1].split(b"\t")


def cell_faults_case(rng: Rng) -> Case:
    """One or two faults in one cell line, left and right in either order."""
    pattern = made_pattern(rng, at_least=4)
    count = len(pattern)
    greatest, eligible = 0, []
    for own, cell in enumerate(pattern):
        if greatest + 3 <= count - 1:
            eligible.append(own)
        greatest = max(greatest, greatest_named([cell]))
    own = max(rng.choice(eligible), rng.choice(eligible))
    fields = fields_of(pattern[own])
    kinds = rng.sample((9, 11, 12), rng.choice((1, 2, 2, 2)))
    slots = rng.sample((2, 3), 2)
    # The form is broken last, since it may add a field.
    for kind, slot in sorted(zip(kinds, slots), reverse=True):
        if kind == 12:
            fields[slot] = b"c%d" % (count - 1)
        elif kind == 11:
            fields[slot] = content_out_of_range(rng, count)
        else:
            bad_form_field(rng, fields, slot)
    rows = rows_of(model.write(pattern))
    return with_row(rng, "in one cell line", rows, own + 1, fields, min(kinds))


def with_row(rng: Rng, name: str, rows: List[bytes], place: int, fields: List[bytes],
             number: int) -> Case:
    """The text with one row replaced, and perhaps cut before its byte 10.

    `place` counts rows from 0. Later rows may have faults of their own.
    """
    row = b"\t".join(fields)
    if rng.random() < 0.2:
        text = b"".join(rows[:place]) + row
        return Case(name + ", no byte 10", text, fault_line(13, place + 1))
    rows = rows[:place] + [row + b"\n"] + rows[place + 1:]
    if rng.random() < 0.4 and place + 1 < len(rows):
        later = rng.randrange(place + 1, len(rows))
        rows[later] = rng.choice((b"", b"\n", b"x\n", b"cell\tb\ty4096\t-\n", rows[later] * 2,
                                  b"cell\tb\tc99999\tx\n", rows[later][:-1], b"end\t1\n"))
        name += ", and one in a later line"
    return Case(name, b"".join(rows), fault_line(number, place + 1))


def unnamed_cell_case(rng: Rng) -> Case:
    """A cell that no earlier line names, perhaps with another fault in its line."""
    own = min(random_count(rng), model.MOST_CELLS - 4)  # the first unnamed cell
    count = own + rng.randint(1, 4)
    pattern = random_pattern(rng, own)
    weights = random_weights(rng)
    for extra in range(own, count):
        left, right = (random_content(rng, count, extra, weights) for _ in range(2))
        pattern.append(Cell(rng.choice((Joint.BESIDE, Joint.ABOVE)), left, right))
    rows = rows_of(model.write(pattern))
    fields = fields_of(pattern[own])
    number = rng.choice((12, 12, 11, 9))
    if number == 11:
        fields[rng.choice((2, 3))] = content_out_of_range(rng, count)
    elif number == 9:
        bad_form_field(rng, fields, rng.choice((2, 3)))
    return with_row(rng, "unnamed cell", rows, own + 1, fields, number)


def header_faults_case(rng: Rng) -> Case:
    """Any of the faults of a header, alone or together."""
    pattern = made_pattern(rng)
    fields = [b"pattern", b"1", digits(len(pattern))]
    numbers = set()
    while not numbers:
        if rng.random() < 0.15:
            fields[0] = rng.choice(BAD_FIRSTS[b"pattern"])
            numbers.add(9)
        dice = rng.random()
        if dice < 0.15:
            fields[1] = rng.choice(BAD_NUMBERS)
            numbers.add(9)
        elif dice < 0.75:
            fields[1] = digits(rng.choice(OTHER_VERSIONS))
            numbers.add(10)
        dice = rng.random()
        if dice < 0.15:
            fields[2] = rng.choice(BAD_NUMBERS)
            numbers.add(9)
        elif dice < 0.6:
            fields[2] = digits(rng.choice(COUNTS_OUT_OF_RANGE))
            numbers.add(11)
    if rng.random() < 0.08:
        del fields[rng.randrange(3)]
        numbers.add(9)
    elif rng.random() < 0.08:
        fields.insert(rng.randint(0, 3), rng.choice((b"", b"1", b"-")))
        numbers.add(9)
    rows = rows_of(model.write(pattern))
    return with_row(rng, "in the header", rows, 0, fields, min(numbers))


def end_faults_case(rng: Rng) -> Case:
    """Faults of the end line together with bytes behind it or no byte 10."""
    pattern = made_pattern(rng)
    count = len(pattern)
    head = b"".join(rows_of(model.write(pattern))[:-1])
    last = b"end\t%d" % count
    wrong = rng.random() < 0.4
    if wrong:
        other = rng.choice((count - 1, count + 1, count + 65536, 99999, 0))
        last = rng.choice((
            b"end\t%d" % other, b"end\t" + rng.choice(BAD_NUMBERS), b"end\t0%d" % count,
            rng.choice(BAD_FIRSTS[b"end"]) + b"\t%d" % count, b"end\t%d\t" % count,
            b"cell\tb\t-\t-", b"cell\ta\tc99999\ty4096", b"pattern\t1\t%d" % count, b"",
        ))
    behind = rng.choice((b"", b"x", b"end", b"\0", b"\t", random_byte(rng), b"end\t%d" % count))
    if rng.random() < 0.3:
        behind = behind.replace(b"\n", b"")
        return Case("end line without byte 10", head + last + behind, fault_line(13, count + 2))
    behind += rng.choice((b"", b"", b"\n", b"\n\n"))
    text = head + last + b"\n" + behind
    if wrong:
        return Case("wrong end line", text, fault_line(9, count + 2))
    if behind:
        return Case("bytes behind the end line", text, fault_line(14, count + 3))
    return Case("right end line", text, b"cells\t%d\n" % count, pattern)


# --------------------------------------------------------------------------
# Made texts: noise
# --------------------------------------------------------------------------

TOKENS = (b"pattern", b"cell", b"end", b"\t", b"\t", b"\t", b"\n", b"\n", b"a", b"b", b"-",
          b"y", b"c", b"0", b"1", b"2", b"pattern\t1\t", b"cell\tb\t", b"end\t1\n",
          b"pattern\t1\t1\n", b"cell\ta\t-\t-\n", b"pattern\t2\t1\n")


def noise_case(rng: Rng) -> Case:
    """Bytes, letters or words in any order; or a text without byte 10."""
    way = rng.randrange(6)
    if way == 0:
        return Case("random bytes", rng.randbytes(rng.choice((0, 1, 2, 10, 100, 1000))))
    if way == 1:
        size = rng.randint(0, 60)
        return Case("random letters", bytes(rng.choice(ALPHABET) for _ in range(size)))
    if way == 2:
        words = rng.choices(TOKENS, k=rng.randint(0, 20))
        return Case("random words", b"".join(words))
    if way == 3:
        other = rng.choice((b"", b"\r", b"\0", b" ", b"\x0b", b"\x85", b"\\n"))
        text = model.write(made_pattern(rng)).replace(b"\n", other)
        return Case("no byte 10", text, fault_line(13, 1))
    return Case("random lines", random_lines(rng))


def random_lines(rng: Rng) -> bytes:
    """Lines of the right forms with small random numbers."""
    count = rng.randint(1, 5)
    rows = [b"pattern\t1\t%d\n" % count]
    for own in range(count):
        contents = [b"c%d" % rng.randint(0, count - (rng.random() < 0.9)) for _ in range(2)]
        for side in (0, 1):
            if rng.random() < 0.3:
                next_cell = b"c%d" % min(own + 1, count - 1)
                contents[side] = rng.choice((b"-", b"y0", b"y4095", next_cell))
        rows.append(b"cell\t%s\t%s\t%s\n" % (rng.choice((b"a", b"b")), *contents))
    rows.append(b"end\t%d\n" % count)
    return b"".join(rows) + rng.choice((b"", b"", b"", b"", b"", b"\n"))


# --------------------------------------------------------------------------
# All texts
# --------------------------------------------------------------------------

MAKERS: Tuple[Tuple[Callable[[Rng], Case], int], ...] = (
    (valid_case, 18),
    (damaged_case, 42),
    (renumbered_case, 8),
    (cell_faults_case, 8),
    (unnamed_cell_case, 4),
    (header_faults_case, 6),
    (end_faults_case, 6),
    (noise_case, 8),
)


def made_case(seed: int, index: int) -> Case:
    """The made text with this index."""
    rng = random.Random(f"{seed}:{index}")
    makers, weights = zip(*MAKERS)
    return rng.choices(makers, weights)[0](rng)


def all_cases(seed: int, count: int) -> Iterator[Tuple[str, Case]]:
    """The fixed texts, then `count` made ones, each with its place in words."""
    for index, case in enumerate(fixed_cases()):
        yield f"fixed text, index {index}", case
    for index in range(count):
        yield f"made text, index {index}", made_case(seed, index)


# --------------------------------------------------------------------------
# Checking the model
# --------------------------------------------------------------------------


def problem_with_model(case: Case) -> Optional[str]:
    """What is wrong with the answer of the model, in words, or None."""
    verdict, report = model.judge(case.text), model.report(case.text)
    if not report.startswith(case.starts):
        return f"known beforehand {case.starts!r}, model says {report!r}"
    if case.length is not None and case.length != len(case.text):
        return f"documented length {case.length}, the text has {len(case.text)} bytes"
    if case.pattern is not None and model.write(case.pattern) != case.text:
        return "writing the pattern gives another text"
    if isinstance(verdict, Fault):
        return problem_with_fault(case, verdict, report)
    if case.pattern is not None and verdict != case.pattern:
        return "judging the written text gives another pattern"
    return problem_with_acceptance(case.text, verdict, report)


def problem_with_fault(case: Case, fault: Fault, report: bytes) -> Optional[str]:
    """As above, for a text that the model refuses."""
    if case.pattern is not None:
        return f"the text of a pattern is refused: {fault}"
    if case.layer not in (None, fault.layer.value):
        return f"documented layer {case.layer}, model says {fault}"
    if report != fault_line(fault.number, fault.line):
        return f"{fault} is reported as {report!r}"
    if fault.line > case.text.count(b"\n") + 1:
        return f"{fault} lies behind the text"
    return None


def problem_with_acceptance(text: bytes, pattern: Pattern, report: bytes) -> Optional[str]:
    """As above, for a text that the model accepts as a pattern."""
    count = len(pattern)
    if model.write(pattern) != text:
        return "writing the accepted pattern gives another text"
    if line_breaking_rule(pattern) is not None:
        return "the accepted pattern is not numbered by the rule"
    shuffled, first = shuffle_cells(random.Random(count), pattern)
    if model.numbered(shuffled, first) != pattern:
        return "the same pattern in another order gets another text"
    if len(text) > 21 * count + 26:
        return "the text is longer than its documented bound"
    names = [row.split(b"\t")[0] for row in report.splitlines()]
    cells, above, yarns, nothings, ties = (int(row.split(b"\t")[1]) for row in report.splitlines())
    if names != [b"cells", b"above", b"yarns", b"nothings", b"ties"]:
        return "the report has other names"
    links = sum(isinstance(content, Link) for content in model.contents_of(pattern))
    if cells != count or above > count:
        return "the report tells another number of cells"
    if yarns + nothings + links != 2 * count or links != ties + count - 1:
        return "the sums of the report are wrong"
    return None


# --------------------------------------------------------------------------
# Running the binary
# --------------------------------------------------------------------------


@dataclass(frozen=True)
class Outcome:
    """What a run of the binary gave."""

    status: Optional[int]  # None if it was stopped because it took too long
    output: bytes
    complaint: bytes = b""


def run_binary(binary: str, text: bytes) -> Outcome:
    """Runs the binary with the text on its standard input.

    A program that does not read all of its input breaks the pipe; that is
    no error here, only its output and exit status count.
    """
    try:
        done = subprocess.run([binary], input=text, capture_output=True, timeout=SECONDS_ALLOWED)
    except BrokenPipeError:
        return Outcome(None, b"", b"the pipe broke")
    except subprocess.TimeoutExpired:
        return Outcome(None, b"", b"no end within %d seconds" % SECONDS_ALLOWED)
    return Outcome(done.returncode, done.stdout, done.stderr)


# --------------------------------------------------------------------------
# Counting and printing
# --------------------------------------------------------------------------


@dataclass
class Tally:
    """How often each answer occurred, and at which lines."""

    texts: int = 0
    accepted: int = 0
    greatest: int = 0
    lines: Dict[int, Counter] = field(default_factory=lambda: {n: Counter() for n in FAULT_NUMBERS})

    def add(self, text: bytes) -> None:
        """Counts one text by the answer of the model."""
        verdict = model.judge(text)
        self.texts += 1
        if isinstance(verdict, Fault):
            self.lines[verdict.number][verdict.line] += 1
        else:
            self.accepted += 1
            self.greatest = max(self.greatest, len(verdict))

    def total(self, number: int) -> int:
        """How many texts had this fault."""
        return sum(self.lines[number].values())

    def too_rare(self) -> List[str]:
        """The answers that occurred too seldom for a run of the default count."""
        counts = {"accepted": self.accepted}
        counts.update((f"fault {number}", self.total(number)) for number in FAULT_NUMBERS)
        return [name for name, count in counts.items() if count < ENOUGH]

    def print(self) -> None:
        """Where the faults were, then one summary line."""
        spread = ", ".join(
            f"{number} at {len(at)} lines up to {max(at, default=0)}"
            for number, at in self.lines.items()
        )
        print(f"lines of faults: {spread}; greatest accepted count {self.greatest}")
        totals = ", ".join(f"fault {number}: {self.total(number)}" for number in FAULT_NUMBERS)
        print(f"{self.texts} texts, accepted: {self.accepted}, {totals}")


def print_case(seed: int, place: str, case: Case) -> None:
    """Tells which text it is about."""
    print(f"seed {seed}, {place} ({case.name})")
    print(f"text, {len(case.text)} bytes: {case.text!r}")


def finish(tally: Tally, count: int) -> int:
    """Prints the counts and gives the exit status."""
    tally.print()
    rare = tally.too_rare() if count >= DEFAULT_COUNT else []
    if rare:
        print(f"too few texts with these answers: {', '.join(rare)}")
        return 1
    print(f"{tally.texts} passed, 0 failed")
    return 0


# --------------------------------------------------------------------------
# The two commands
# --------------------------------------------------------------------------


def check_self(seed: int, count: int) -> int:
    """Checks the model without a binary."""
    tally = Tally()
    for place, case in all_cases(seed, count):
        problem = problem_with_model(case)
        if problem is not None:
            print_case(seed, place, case)
            print(f"model: {problem}")
            return 1
        tally.add(case.text)
    return finish(tally, count)


def compare(binary: str, seed: int, count: int) -> int:
    """Compares the model with the binary, a few texts ahead of the answers."""
    tally = Tally()
    waiting: Deque[Tuple[str, Case, "Future[Outcome]"]] = deque()

    def settle() -> bool:
        """Waits for the oldest run; tells whether it agreed."""
        place, case, future = waiting.popleft()
        outcome, expected = future.result(), model.report(case.text)
        problem = problem_with_model(case)
        if problem is None and outcome.status == 0 and outcome.output == expected:
            tally.add(case.text)
            return True
        print_case(seed, place, case)
        print(f"model:  {expected!r}" + (f" ({problem})" if problem else ""))
        print(f"binary: {outcome.output!r}, exit status {outcome.status}")
        if outcome.complaint:
            print(f"binary, standard error: {outcome.complaint!r}")
        return False

    with ThreadPoolExecutor(max_workers=WORKERS) as pool:
        try:
            for place, case in all_cases(seed, count):
                waiting.append((place, case, pool.submit(run_binary, binary, case.text)))
                if len(waiting) >= 8 * WORKERS and not settle():
                    return 1
            while waiting:
                if not settle():
                    return 1
        except OSError as error:
            print(f"cannot run the binary: {error}")
            return 2
        finally:
            for _, _, future in waiting:
                future.cancel()
    return finish(tally, count)


def main() -> int:
    """Reads the arguments and runs one of the two commands."""
    parser = argparse.ArgumentParser(description="Compare the model with a program.")
    parser.add_argument("--binary", default=str(DEFAULT_BINARY), help="the program inspect")
    parser.add_argument("--seed", type=int, default=1)
    parser.add_argument("--count", type=int, default=DEFAULT_COUNT, help="how many made texts")
    parser.add_argument("--self", action="store_true", dest="alone", help="run no binary")
    options = parser.parse_args()
    if options.alone:
        return check_self(options.seed, options.count)
    if not os.path.isfile(options.binary):
        print(f"no such binary: {options.binary}")
        return 2
    return compare(os.path.abspath(options.binary), options.seed, options.count)


if __name__ == "__main__":
    sys.exit(main())
