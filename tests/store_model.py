"""A model of the store, written from docs/ alone.

It is meant to be read next to docs/STORE.md and uses the patterns and the
archive text of model.py. It is slow and plain on purpose. It has these
sections:

- words: tags, colours, sides, paces;
- answers and moments;
- the memory below the store;
- the store: open, the free list, the collector, new cells, the designer's
  hand, take and task, load and save;
- the program reprint.

Every step that a plausible mistake could get wrong is a method of its own,
so that store_wrong.py can replace just that step.
"""

from __future__ import annotations

from copy import copy as shallow_copy
from dataclasses import dataclass, replace
from enum import Enum
from typing import Callable, Dict, List, Optional, Sequence, Set, Tuple, Union

import model
from model import Cell, Content, Fault, Joint, Layer, Link, Nothing, Yarn

# --------------------------------------------------------------------------
# Words
# --------------------------------------------------------------------------

MOST_HOLDS = 96
GREATEST_PACE = 65_535
NOT_IN_PATTERN = 65_535
NOTHING = Nothing()


class Tag(Enum):
    """What the tag of a cell says."""

    FREE = "free"
    USED = "used"


class Colour(Enum):
    """A mark colour; as a sweep colour it is never grey."""

    WHITE = "W"
    GREY = "G"
    BLACK = "B"


class Side(Enum):
    """One of the two contents of a cell."""

    LEFT = "left"
    RIGHT = "right"


@dataclass(frozen=True)
class Pace:
    """The limits for the units of a take that has a free cell."""

    least: int = 0
    most: int = GREATEST_PACE


def set_pace(least: int, most: int) -> Pace:
    """The pace that is set from any two numbers."""
    most = min(most, GREATEST_PACE)
    return Pace(min(least, most), most)


# --------------------------------------------------------------------------
# Answers and moments
# --------------------------------------------------------------------------


@dataclass(frozen=True)
class Refused:
    """A refusal. Only 7 tells how many units were run."""

    number: int
    units: Optional[int] = None


@dataclass(frozen=True)
class AtHold:
    """Marking at a hold; also the answer of a mark that visited it."""

    number: int


@dataclass(frozen=True)
class AtCell:
    """Marking at a cell; also the answer of a mark that blackened it."""

    number: int


@dataclass(frozen=True)
class Ended:
    """Marking or sweeping has ended."""


Stage = Union[AtHold, AtCell, Ended]


@dataclass(frozen=True)
class Swept:
    """The answer of a sweep that passed a cell or put it back."""

    cell: int
    put_back: bool


@dataclass(frozen=True)
class UnitDone:
    """What the steps of a unit answered, and whether it had a turn."""

    mark: Stage
    sweep: Union[Swept, Ended]
    turned: bool


@dataclass(frozen=True)
class Taken:
    """The answer of an accepted take."""

    cell: int
    units: int


@dataclass(frozen=True)
class Loaded:
    """The answer of an accepted load."""

    count: int


@dataclass(frozen=True)
class Saved:
    """The answer of an accepted save."""

    count: int
    length: int


@dataclass(frozen=True)
class TaskDone:
    """How many takes of a task were accepted, and what stopped it."""

    accepted: int
    refusal: Optional[Refused] = None


@dataclass(frozen=True)
class TakeOf:
    """A take in the list of a task. The joint is a byte."""

    hold: int
    joint: int
    a: int
    b: int


@dataclass(frozen=True)
class MarkMoment:
    """A mark, called or in a unit."""

    answer: Stage


@dataclass(frozen=True)
class SweepMoment:
    """A sweep, called or in a unit."""

    answer: Union[Swept, Ended]


@dataclass(frozen=True)
class TurnMoment:
    """An accepted turn, called or in a unit."""


@dataclass(frozen=True)
class GiftMoment:
    """Cells given by an accepted take or load, in the order of giving.

    `made` has their joints and contents; the links are cells of the store.
    The hold gets the first cell.
    """

    hold: int
    cells: Tuple[int, ...]
    made: Tuple[Cell, ...]


@dataclass(frozen=True)
class HandMoment:
    """An accepted call of the designer's hand."""

    name: str
    arguments: tuple


Moment = Union[MarkMoment, SweepMoment, TurnMoment, GiftMoment, HandMoment]


# --------------------------------------------------------------------------
# The memory below the store
# --------------------------------------------------------------------------


class HeapRefused(Exception):
    """A heap would refuse this; inside the store it must never occur."""

    def __init__(self, number: int, what: str) -> None:
        super().__init__(f"heap refusal {number}: {what}")
        self.number = number


@dataclass
class StoreCell:
    """One cell of the store; a cell that was just made unless told."""

    joint: Joint = Joint.BESIDE
    left: Content = NOTHING
    right: Content = NOTHING
    tag: Tag = Tag.FREE
    mark: Colour = Colour.WHITE
    sweep: Colour = Colour.WHITE

    def contents(self) -> Tuple[Content, Content]:
        """Both contents, left before right."""
        return (self.left, self.right)


class Memory:
    """The cells, used only as docs/HEAPS.md allows."""

    def __init__(self, cells: Sequence[StoreCell]) -> None:
        self.cells = list(cells)

    def size(self) -> int:
        """The number of cells."""
        return len(self.cells)

    def read(self, index: int) -> StoreCell:
        """The cell, for reading only."""
        self._ask_index(index)
        return self.cells[index]

    def write(self, index: int, joint: Joint, left: Content, right: Content, tag: Tag) -> None:
        """Sets these four of a cell, and no colour."""
        self._ask_index(index)
        for content in (left, right):
            if isinstance(content, Yarn) and content.number > model.GREATEST_YARN:
                raise HeapRefused(5, f"write of {content} into cell {index}")
            if isinstance(content, Link):
                self._ask_index(content.number)
        cell = self.cells[index]
        cell.joint, cell.left, cell.right, cell.tag = joint, left, right, tag

    def paint_mark(self, index: int, colour: Colour) -> None:
        """Sets the mark colour of a cell."""
        self._ask_index(index)
        self.cells[index].mark = colour

    def paint_sweep(self, index: int, colour: Colour) -> None:
        """Sets the sweep colour of a cell."""
        self._ask_index(index)
        assert colour is not Colour.GREY, "a grey sweep colour cannot be written down"
        self.cells[index].sweep = colour

    def first_grey(self, start: int) -> Optional[int]:
        """The least number of a grey cell from `start` on."""
        for index in range(start, len(self.cells)):
            if self.cells[index].mark is Colour.GREY:
                return index
        return None

    def exchange(self) -> None:
        """In every cell, the two colours change places."""
        if self.first_grey(0) is not None:
            raise HeapRefused(19, f"exchange while cell {self.first_grey(0)} is grey")
        for cell in self.cells:
            cell.mark, cell.sweep = cell.sweep, cell.mark

    def _ask_index(self, index: int) -> None:
        if not 0 <= index < len(self.cells):
            raise HeapRefused(18, f"cell {index} of {len(self.cells)}")


# --------------------------------------------------------------------------
# The store: open, holds, reach
# --------------------------------------------------------------------------

JOINT_OF_BYTE: Dict[int, Joint] = {joint.value[0]: joint for joint in Joint}


def check_before_open(size: int, hold_count: int) -> Optional[Refused]:
    """What whoever opens a store may ask beforehand."""
    if size == 0:
        return Refused(1)
    if hold_count == 0 or hold_count > MOST_HOLDS:
        return Refused(2)
    return None


class Store:
    """A store over a memory, with a history of its moments.

    `watch`, if there is one, is called after every moment. The hold table
    may have more entries than the store has holds.
    """

    def __init__(
        self,
        memory: Memory,
        hold_count: int,
        hold_table: Optional[List[Content]] = None,
        watch: Optional[Callable[[Moment], None]] = None,
    ) -> None:
        self.memory = memory
        self.size = memory.size()
        self.hold_count = min(max(hold_count, 1), MOST_HOLDS)
        self.hold_table = [NOTHING] * self.hold_count if hold_table is None else hold_table
        self.pace = Pace()
        self.history: List[Moment] = []
        self.watch = watch
        self._open()

    def _open(self) -> None:
        """Makes all cells free, and all holds nothing."""
        for index in range(self.size):
            following = Link(index + 1) if index + 1 < self.size else NOTHING
            self.memory.write(index, Joint.BESIDE, following, NOTHING, Tag.FREE)
            self.memory.paint_mark(index, Colour.WHITE)
            self.memory.paint_sweep(index, Colour.WHITE)
        self.front: Optional[int] = 0 if self.size else None
        self.end: Optional[int] = self.size - 1 if self.size else None
        self.free_count = self.size
        for hold in range(self.hold_count):
            self.hold_table[hold] = NOTHING
        self.stage: Stage = AtHold(0)
        self.sweep_place = self.size

    def clone(self) -> "Store":
        """The same store over memory of its own, unwatched and without history."""
        other = shallow_copy(self)
        other.memory = Memory([replace(cell) for cell in self.memory.cells])
        other.hold_table = list(self.hold_table)
        other.history = []
        other.watch = None
        return other

    def note(self, moment: Moment) -> None:
        """Adds a moment to the history."""
        self.history.append(moment)
        if self.watch is not None:
            self.watch(moment)

    def holds(self) -> List[Content]:
        """The contents of the holds."""
        return self.hold_table[: self.hold_count]

    def reached(self) -> Set[int]:
        """The cells that are reached from the holds."""
        found: Set[int] = set()
        waiting = list(self.holds())
        while waiting:
            content = waiting.pop()
            if isinstance(content, Link) and content.number not in found:
                found.add(content.number)
                waiting.extend(self.memory.cells[content.number].contents())
        return found

    def refuse_holds(self, *holds: int) -> Optional[Refused]:
        """Refusal 3 if any of these is no hold."""
        return None if all(hold < self.hold_count for hold in holds) else Refused(3)

    # ----------------------------------------------------------------------
    # The free list
    # ----------------------------------------------------------------------

    def free_list(self) -> List[int]:
        """The free cells as the links tell them, front first.

        A walk that is longer than the store has cells is cut off.
        """
        result: List[int] = []
        place = self.front
        while place is not None and len(result) <= self.size:
            result.append(place)
            left = self.memory.cells[place].left
            place = left.number if isinstance(left, Link) else None
        return result

    def leave_free_list(self) -> int:
        """The front of the free list, which leaves the list."""
        assert self.front is not None, "a new cell needs a free cell"
        chosen = self.front
        left = self.memory.read(chosen).left
        self.front = left.number if isinstance(left, Link) else None
        self.end = None if self.front is None else self.end
        self.free_count -= 1
        return chosen

    def put_back(self, index: int) -> None:
        """Frees a cell, behind the end of the free list. No colour changes."""
        self.memory.write(index, Joint.BESIDE, NOTHING, NOTHING, Tag.FREE)
        if self.end is None:
            self.front = index
        else:
            last = self.memory.read(self.end)
            self.memory.write(self.end, last.joint, Link(index), last.right, last.tag)
        self.end = index
        self.free_count += 1

    # ----------------------------------------------------------------------
    # The collector
    # ----------------------------------------------------------------------

    def shade(self, content: Content) -> None:
        """Paints a white cell grey."""
        if isinstance(content, Link):
            if self.memory.read(content.number).mark is Colour.WHITE:
                self.memory.paint_mark(content.number, Colour.GREY)

    def mark(self) -> Stage:
        """One step of the marker."""
        answer = self.mark_step()
        self.note(MarkMoment(answer))
        return answer

    def mark_step(self) -> Stage:
        """What a mark does, by the stage of marking."""
        if isinstance(self.stage, AtHold):
            return self.mark_hold(self.stage.number)
        if isinstance(self.stage, AtCell):
            return self.mark_cell(self.stage.number)
        return Ended()

    def mark_hold(self, hold: int) -> Stage:
        """The step at a hold."""
        self.shade(self.hold_table[hold])
        self.stage = AtHold(hold + 1) if hold + 1 < self.hold_count else AtCell(0)
        return AtHold(hold)

    def mark_cell(self, start: int) -> Stage:
        """The step at a cell."""
        found = self.search_grey(start)
        if found is None:
            self.stage = Ended()
            return Ended()
        self.blacken(found)
        self.stage = AtCell(found)
        return AtCell(found)

    def search_grey(self, start: int) -> Optional[int]:
        """The first grey cell from `start` on, or else from 0 on."""
        found = self.memory.first_grey(start)
        return self.memory.first_grey(0) if found is None else found

    def blacken(self, index: int) -> None:
        """Shades both contents of a cell, then paints it black."""
        cell = self.memory.read(index)
        self.shade(cell.left)
        self.shade(cell.right)
        self.memory.paint_mark(index, Colour.BLACK)

    def sweep(self) -> Union[Swept, Ended]:
        """One step of the sweeper."""
        answer = self.sweep_step()
        self.note(SweepMoment(answer))
        return answer

    def sweep_step(self) -> Union[Swept, Ended]:
        """What a sweep does, by the cell at the sweep place."""
        place = self.sweep_place
        if place == self.size:
            return Ended()
        lost = self.is_lost(place)
        if lost:
            self.put_back(place)
        else:
            self.memory.paint_sweep(place, Colour.WHITE)
        self.sweep_place = place + 1
        return Swept(place, lost)

    def is_lost(self, index: int) -> bool:
        """Whether the sweeper puts this cell back."""
        cell = self.memory.read(index)
        return cell.tag is Tag.USED and cell.sweep is Colour.WHITE

    def may_turn(self) -> bool:
        """Whether a turn is accepted."""
        return self.stage == Ended() and self.sweep_place == self.size

    def turn(self) -> Optional[Refused]:
        """The start of the next cycle, if both marker and sweeper are done."""
        if not self.may_turn():
            return Refused(8)
        self.exchange()
        self.stage = AtHold(0)
        self.sweep_place = 0
        self.note(TurnMoment())
        return None

    def exchange(self) -> None:
        """Lets the two colours of every cell change places."""
        self.memory.exchange()

    def unit(self) -> UnitDone:
        """One mark, one sweep, and a turn if it is accepted then."""
        mark, sweep, turned = self.mark(), self.sweep(), False
        if self.may_turn():
            self.turn()
            turned = True
        return UnitDone(mark, sweep, turned)

    def cycle_limit(self) -> int:
        """K: so many units in a row contain a turn."""
        return self.hold_count + self.size + 1

    # ----------------------------------------------------------------------
    # New cells
    # ----------------------------------------------------------------------

    def make_new(self, index: int, made: Cell) -> None:
        """Makes a cell that has left the free list a new cell."""
        self.memory.write(index, made.joint, made.left, made.right, Tag.USED)
        self.memory.paint_mark(index, Colour.BLACK)
        self.memory.paint_sweep(index, self.new_sweep_colour(index))
        self.shade(made.left)
        self.shade(made.right)

    def new_sweep_colour(self, index: int) -> Colour:
        """Black if the sweeper has still to pass the cell."""
        return Colour.BLACK if index >= self.sweep_place else Colour.WHITE

    # ----------------------------------------------------------------------
    # The designer's hand
    # ----------------------------------------------------------------------

    def yarn(self, hold: int, number: int) -> Optional[Refused]:
        """A hold gets a yarn."""
        refusal = self.refuse_holds(hold)
        if refusal is None and number > model.GREATEST_YARN:
            refusal = Refused(5)
        if refusal is None:
            self.hold_table[hold] = Yarn(number)
            self.note(HandMoment("yarn", (hold, number)))
        return refusal

    def drop(self, hold: int) -> Optional[Refused]:
        """A hold gets nothing."""
        refusal = self.refuse_holds(hold)
        if refusal is None:
            self.hold_table[hold] = NOTHING
            self.note(HandMoment("drop", (hold,)))
        return refusal

    def copy(self, hold: int, source: int) -> Optional[Refused]:
        """A hold gets the content of another, or of itself."""
        refusal = self.refuse_holds(hold, source)
        if refusal is None:
            content = self.hold_table[source]
            self.hold_table[hold] = content
            self.shade_moved("copy", content)
            self.note(HandMoment("copy", (hold, source)))
        return refusal

    def follow(self, hold: int, side: Side, target: int) -> Optional[Refused]:
        """The target hold gets a side of the first hold's cell."""
        refusal = self.refuse_holds(hold, target) or self.refuse_no_cell(hold)
        if refusal is None:
            cell = self.cell_in(hold)
            content = cell.left if side is Side.LEFT else cell.right
            self.hold_table[target] = content
            self.shade_moved("follow", content)
            self.note(HandMoment("follow", (hold, side, target)))
        return refusal

    def tie(self, hold: int, side: Side, source: int) -> Optional[Refused]:
        """A side of the first hold's cell gets the content of another hold."""
        refusal = self.refuse_holds(hold, source) or self.refuse_no_cell(hold)
        if refusal is None:
            content, cell = self.hold_table[source], self.cell_in(hold)
            left = content if side is Side.LEFT else cell.left
            right = content if side is Side.RIGHT else cell.right
            self.memory.write(self.hold_table[hold].number, cell.joint, left, right, cell.tag)
            self.shade_moved("tie", content)
            self.note(HandMoment("tie", (hold, side, source)))
        return refusal

    def refuse_no_cell(self, hold: int) -> Optional[Refused]:
        """Refusal 4 if the hold contains no cell."""
        return None if isinstance(self.hold_table[hold], Link) else Refused(4)

    def cell_in(self, hold: int) -> StoreCell:
        """The cell that a hold contains."""
        return self.memory.read(self.hold_table[hold].number)

    def shade_moved(self, call: str, content: Content) -> None:
        """Shades what copy, follow or tie has moved."""
        self.shade(content)

    # ----------------------------------------------------------------------
    # Take and task
    # ----------------------------------------------------------------------

    def take(
        self, hold: int, joint: int, a: int, b: int, pace: Optional[Pace] = None
    ) -> Union[Taken, Refused]:
        """A new cell, after units of the collector. The joint is a byte.

        Without a pace of its own it goes by the pace in force.
        """
        refusal = self.refuse_holds(hold, a, b)
        if refusal is None and joint not in JOINT_OF_BYTE:
            refusal = Refused(6)
        if refusal is not None:
            return refusal
        units = self.run_units(self.pace if pace is None else pace)
        if self.free_count == 0:
            return Refused(7, units)
        chosen = self.leave_free_list()
        made = Cell(JOINT_OF_BYTE[joint], self.hold_table[a], self.hold_table[b])
        self.make_new(chosen, made)
        self.hold_table[hold] = Link(chosen)
        self.note(GiftMoment(hold, (chosen,), (made,)))
        return Taken(chosen, units)

    def run_units(self, pace: Pace) -> int:
        """Runs the units of a take and tells their number."""
        units = 0
        if self.free_count == 0:
            while self.free_count == 0 and units < self.most_units():
                self.unit()
                units += 1
            return units
        units = self.paced_units(pace)
        for _ in range(units):
            self.unit()
        return units

    def paced_units(self, pace: Pace) -> int:
        """The number of units of a take that has a free cell."""
        rounded_up = (self.cycle_limit() + self.free_count - 1) // self.free_count
        return min(max(rounded_up, pace.least), pace.most)

    def most_units(self) -> int:
        """How many units a take without a free cell runs at most."""
        return 3 * self.cycle_limit()

    def task(self, least: int, most: int, takes: Sequence[TakeOf]) -> TaskDone:
        """Takes one after the other, with a pace for the length of the task."""
        pace_before = self.pace
        self.pace = set_pace(least, most)
        done = self.run_takes(takes)
        self.pace = pace_before
        return done

    def run_takes(self, takes: Sequence[TakeOf]) -> TaskDone:
        """Takes until one is refused."""
        for accepted, each in enumerate(takes):
            answer = self.take(each.hold, each.joint, each.a, each.b)
            if isinstance(answer, Refused):
                return TaskDone(accepted, answer)
        return TaskDone(len(takes))

    # ----------------------------------------------------------------------
    # Load and save
    # ----------------------------------------------------------------------

    def load(self, hold: int, text: bytes, places: List[int]) -> Union[Loaded, Fault]:
        """Puts the pattern of a text into new cells; `places` is lent."""
        if self.refuse_holds(hold) is not None:
            return Fault(Layer.STORE, 3, 0)
        pattern = model.judge(text)
        if isinstance(pattern, Fault):
            return pattern
        if len(places) < len(pattern):
            return Fault(Layer.STORE, 17, 0)
        if self.free_count < len(pattern):
            return Fault(Layer.STORE, 15, 0)
        chosen = [self.leave_free_list() for _ in pattern]
        places[: len(chosen)] = chosen
        made = [with_links(cell, chosen) for cell in pattern]
        for index, cell in zip(chosen, made):
            self.make_new(index, cell)
        self.hold_table[hold] = Link(chosen[0])
        self.note(GiftMoment(hold, tuple(chosen), tuple(made)))
        return Loaded(len(pattern))

    def save(
        self, hold: int, buffer: bytearray, numbers: List[int], order: List[int]
    ) -> Union[Saved, Refused]:
        """Writes the text of a pattern; buffer and tables are lent."""
        refusal = self.refuse_holds(hold) or self.refuse_no_cell(hold)
        if refusal is not None:
            return refusal
        if len(numbers) < self.size or len(order) < self.size:
            return Refused(17)
        found = self.breadth_first(self.hold_table[hold].number)
        number_of = {index: number for number, index in enumerate(found)}
        numbers[: self.size] = [number_of.get(i, NOT_IN_PATTERN) for i in range(self.size)]
        order[: len(found)] = found
        cells = [self.memory.read(index) for index in found]
        text = model.write([
            with_links(Cell(cell.joint, cell.left, cell.right), numbers) for cell in cells
        ])
        if len(buffer) < len(text):
            return Refused(16)
        buffer[: len(text)] = text
        return Saved(len(found), len(text))

    def breadth_first(self, first: int) -> List[int]:
        """The cells reached from the first, in the order of the numbering rule."""
        found = [first]
        for index in found:  # the list grows while it is walked
            for content in self.memory.read(index).contents():
                if isinstance(content, Link) and content.number not in found:
                    found.append(content.number)
        return found


def with_links(cell: Cell, new: Sequence[int]) -> Cell:
    """The cell with each link replaced by the new number of its cell."""

    def renamed(content: Content) -> Content:
        return Link(new[content.number]) if isinstance(content, Link) else content

    return Cell(cell.joint, renamed(cell.left), renamed(cell.right))


# --------------------------------------------------------------------------
# The program reprint
# --------------------------------------------------------------------------

REPRINT_BYTES = 16_384
REPRINT_CELLS = 512


def reprint(read: bytes) -> bytes:
    """The bytes that `reprint` writes for the bytes that it reads."""
    store = Store(Memory([StoreCell() for _ in range(REPRINT_CELLS)]), 1)
    fault = store.load(0, read[:REPRINT_BYTES], [0] * model.MOST_CELLS)
    if isinstance(fault, Fault):
        return b"fault\t%d\t%d\n" % (fault.number, fault.line)
    buffer = bytearray(REPRINT_BYTES)
    saved = store.save(0, buffer, [0] * REPRINT_CELLS, [0] * REPRINT_CELLS)
    return bytes(buffer[: saved.length])
