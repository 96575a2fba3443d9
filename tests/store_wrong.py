"""Wrong variants of the store, each with one step replaced.

The first four are the well-known mistakes at the end of docs/STORE.md, with
the runs given there. The others are mistakes that an author of the store
might make. The checks must find every one of them; a check that lets one
pass is too weak.
"""

from __future__ import annotations

from typing import List, Optional, Sequence, Tuple, Type, Union

import model
from model import Cell, Content, Fault, Layer, Link
from store_examples import B, new_store, same
from store_model import (
    NOTHING, AtCell, AtHold, Colour, Ended, Pace, Refused, Saved, Side, Stage, Store, Swept,
    Tag, TakeOf, TaskDone, set_pace,
)
from store_watch import STATEMENT_1, CheckFailed, Watcher, require

# --------------------------------------------------------------------------
# The well-known mistakes
# --------------------------------------------------------------------------


class LosesGrey(Store):
    """By its mistake a grey cell may meet the exchange, which a heap refuses.

    So that the loss itself can be seen, the grey cell gets a white sweep
    colour instead.
    """

    def exchange(self) -> None:
        for cell in self.memory.cells:
            if cell.mark is Colour.GREY:
                cell.mark = Colour.WHITE
        self.memory.exchange()


class WhiteAheadOfSweeper(LosesGrey):
    """A new cell ahead of the sweeper has a white sweep colour."""

    def new_sweep_colour(self, index: int) -> Colour:
        return Colour.WHITE


class CopyWithoutShading(LosesGrey):
    """copy does not shade."""

    def shade_moved(self, call: str, content: Content) -> None:
        if call != "copy":
            self.shade(content)


class FollowWithoutShading(LosesGrey):
    """follow does not shade."""

    def shade_moved(self, call: str, content: Content) -> None:
        if call != "follow":
            self.shade(content)


class EndsAtSearchFromK(LosesGrey):
    """Marking ends when the search from k finds nothing."""

    def search_grey(self, start: int) -> Optional[int]:
        return self.memory.first_grey(start)


WELL_KNOWN: Tuple[Type[Store], ...] = (
    WhiteAheadOfSweeper, CopyWithoutShading, FollowWithoutShading, EndsAtSearchFromK,
)

NO_UNITS = Pace(0, 0)


def run_white_ahead(store: Store) -> object:
    """The run of the first mistake, M = 1, R = 1. Gives its last answer."""
    store.mark()
    same("mistake 1", store.mark(), Ended())
    same("mistake 1", store.turn(), None)
    same("mistake 1", store.take(0, B, 0, 0, NO_UNITS).cell, 0)
    return store.sweep()


def run_copy_unshaded(store: Store) -> object:
    """The run of the second mistake, M = 1, R = 2. Gives its last answer."""
    store.take(1, B, 0, 0, NO_UNITS)
    same("mistake 2", [store.mark() for _ in range(3)], [AtHold(0), AtHold(1), Ended()])
    same("mistake 2", (store.turn(), store.mark()), (None, AtHold(0)))
    same("mistake 2", (store.copy(0, 1), store.drop(1)), (None, None))
    for _ in range(3):
        store.mark()
    same("mistake 2", store.sweep(), Swept(0, False))
    same("mistake 2", store.turn(), None)
    return store.sweep()


def run_follow_unshaded(store: Store) -> object:
    """The same with follow and a later tie over the last link, M = 2, R = 2.

    Cell 1 in hold 1 names cell 0 on its left. The page gives no calls for
    this run; these are the shortest of its kind.
    """
    store.take(1, B, 0, 0, NO_UNITS)
    store.take(1, B, 1, 0, NO_UNITS)
    for _ in range(3):
        store.mark()
    same("mistake 2, follow", (store.turn(), store.mark()), (None, AtHold(0)))
    same("mistake 2, follow", store.follow(1, Side.LEFT, 0), None)
    same("mistake 2, follow", store.tie(1, Side.LEFT, 1), None)  # cell 1 names itself now
    while store.stage != Ended():
        store.mark()
    same("mistake 2, follow", [store.sweep() for _ in range(2)],
         [Swept(0, False), Swept(1, False)])
    same("mistake 2, follow", store.turn(), None)
    return store.sweep()


def run_ends_early(store: Store) -> object:
    """The run of the third mistake, M = 2, R = 1, carried on to the loss.

    Gives the answers of the last mark of the page and of the sweep that
    passes or loses cell 0.
    """
    store.take(0, B, 0, 0, NO_UNITS)
    store.take(0, B, 0, 0, NO_UNITS)
    same("mistake 3", store.memory.cells[1].left, Link(0))
    same("mistake 3", [store.mark() for _ in range(2)], [AtHold(0), Ended()])
    same("mistake 3", store.turn(), None)
    same("mistake 3", [store.mark() for _ in range(2)], [AtHold(0), AtCell(1)])
    same("mistake 3", store.memory.cells[0].mark, Colour.GREY)
    last_mark = store.mark()
    while store.stage != Ended():
        store.mark()
    store.sweep()
    store.sweep()
    same("mistake 3", store.turn(), None)
    return last_mark, store.sweep()


# Size, holds, run, last answer by the rules, and the variant that fails.
RUNS = (
    (1, 1, run_white_ahead, Swept(0, False), WhiteAheadOfSweeper),
    (1, 2, run_copy_unshaded, Swept(0, False), CopyWithoutShading),
    (2, 2, run_follow_unshaded, Swept(0, False), FollowWithoutShading),
    (2, 1, run_ends_early, (AtCell(0), Swept(0, False)), EndsAtSearchFromK),
)


def check_documented_runs() -> int:
    """Runs each mistake as documented, by the rules and wrongly."""
    only_statement_1 = frozenset((STATEMENT_1,))
    for size, hold_count, run, answer, variant in RUNS:
        store = new_store(Store, size, hold_count)
        Watcher(store)
        same(f"{variant.__name__}, by the rules", run(store), answer)
        store = new_store(variant, size, hold_count)
        Watcher(store, only_statement_1)
        found = None
        try:
            run(store)
        except CheckFailed as failed:
            found = failed.check
        require(found == STATEMENT_1, "documented mistake",
                f"{variant.__name__} does not break statement 1 on its run, but {found}")
    return len(RUNS)


# --------------------------------------------------------------------------
# Other mistakes: marking and sweeping
# --------------------------------------------------------------------------


class TieWithoutShading(Store):
    """tie does not shade."""

    def shade_moved(self, call: str, content: Content) -> None:
        if call != "tie":
            self.shade(content)


class SearchFromNext(Store):
    """The search begins at k + 1."""

    def search_grey(self, start: int) -> Optional[int]:
        return super().search_grey(start + 1)


class StageBehindFound(Store):
    """After a step at cell c the stage is at cell c + 1."""

    def mark_cell(self, start: int) -> Stage:
        answer = super().mark_cell(start)
        if isinstance(answer, AtCell):
            self.stage = AtCell(answer.number + 1)
        return answer


class EndsWithLastGrey(Store):
    """The step that blackens the last grey cell ends the marking."""

    def mark_cell(self, start: int) -> Stage:
        answer = super().mark_cell(start)
        if self.memory.first_grey(0) is None:
            self.stage = Ended()
        return answer


class BlackenShadesLeftOnly(Store):
    """The right content of a found cell is forgotten."""

    def blacken(self, index: int) -> None:
        self.shade(self.memory.read(index).left)
        self.memory.paint_mark(index, Colour.BLACK)


class SweepOnlyMoves(Store):
    """The sweep only moves its place."""

    def sweep_step(self) -> Union[Swept, Ended]:
        place = self.sweep_place
        if place == self.size:
            return Ended()
        self.sweep_place = place + 1
        return Swept(place, False)


class SweepDoesNotWhiten(Store):
    """The sweep leaves the sweep colour of a cell that it passes."""

    def sweep_step(self) -> Union[Swept, Ended]:
        place = self.sweep_place
        colour = self.memory.cells[place].sweep if place < self.size else Colour.WHITE
        answer = super().sweep_step()
        if place < self.size:
            self.memory.paint_sweep(place, colour)
        return answer


class SweepIgnoresTag(Store):
    """The sweep puts back white cells that are free already."""

    def is_lost(self, index: int) -> bool:
        return self.memory.read(index).sweep is Colour.WHITE


class PutBackAtFront(Store):
    """A cell is put back at the front of the free list."""

    def put_back(self, index: int) -> None:
        following = NOTHING if self.front is None else Link(self.front)
        self.memory.write(index, model.Joint.BESIDE, following, NOTHING, Tag.FREE)
        self.end = index if self.end is None else self.end
        self.front = index
        self.free_count += 1


class TurnDuringSweep(Store):
    """A turn does not wait for the sweep."""

    def may_turn(self) -> bool:
        return self.stage == Ended()


# --------------------------------------------------------------------------
# Other mistakes: new cells and takes
# --------------------------------------------------------------------------


class NewCellGrey(Store):
    """A new cell is grey."""

    def make_new(self, index: int, made: Cell) -> None:
        super().make_new(index, made)
        self.memory.paint_mark(index, Colour.GREY)


class NewCellWhite(Store):
    """A new cell is white for the marker."""

    def make_new(self, index: int, made: Cell) -> None:
        super().make_new(index, made)
        self.memory.paint_mark(index, Colour.WHITE)


class NewCellShadesNothing(Store):
    """The contents of a new cell are not shaded."""

    def make_new(self, index: int, made: Cell) -> None:
        marks = [cell.mark for cell in self.memory.cells]
        super().make_new(index, made)
        for number, colour in enumerate(marks):
            if number != index:
                self.memory.paint_mark(number, colour)


class BlackBehindSweeper(Store):
    """A new cell behind the sweeper has a black sweep colour."""

    def new_sweep_colour(self, index: int) -> Colour:
        return Colour.BLACK


class TwiceK(Store):
    """With two cells or more, a take gives up after 2 × K units."""

    def most_units(self) -> int:
        return (2 if self.size >= 2 else 3) * self.cycle_limit()


class ReadsFreeAgain(Store):
    """The number of free cells is read after the units, unit by unit."""

    def run_units(self, pace: Pace) -> int:
        if self.free_count == 0:
            return super().run_units(pace)
        units = 0
        while units < self.paced_units(pace):
            self.unit()
            units += 1
        return units


class StopsWhenFreed(Store):
    """A take with a free cell stops as soon as its units free another."""

    def run_units(self, pace: Pace) -> int:
        free = self.free_count
        if free == 0:
            return super().run_units(pace)
        units, due = 0, self.paced_units(pace)
        while units < due and self.free_count == free:
            self.unit()
            units += 1
        return units


class PaceWithoutFreeCell(Store):
    """The pace limits also a take without a free cell."""

    def run_units(self, pace: Pace) -> int:
        if self.free_count:
            return super().run_units(pace)
        units = 0
        while self.free_count == 0 and units < min(self.most_units(), pace.most):
            self.unit()
            units += 1
        return units


class TaskKeepsPace(Store):
    """A refused take leaves the pace of its task in force."""

    def task(self, least: int, most: int, takes: Sequence[TakeOf]) -> TaskDone:
        done = super().task(least, most, takes)
        if done.refusal is not None:
            self.pace = set_pace(least, most)
        return done


# --------------------------------------------------------------------------
# Other mistakes: refusals, load and save
# --------------------------------------------------------------------------


class FourBeforeThree(Store):
    """tie asks for the cell of its first hold before its second hold."""

    def tie(self, hold: int, side: Side, source: int) -> Optional[Refused]:
        early = self.refuse_holds(hold) or self.refuse_no_cell(hold)
        return early or super().tie(hold, side, source)


class RoomBeforePlaces(Store):
    """load asks for free cells before it asks for the length of the table."""

    def load(self, hold: int, text: bytes, places: List[int]) -> object:
        answer = super().load(hold, text, places)
        if answer == Fault(Layer.STORE, 17, 0) and len(model.judge(text)) > self.free_count:
            return Fault(Layer.STORE, 15, 0)
        return answer


class SaveCleansTables(Store):
    """A save that is refused with 16 leaves the tables untouched."""

    def save(self, hold: int, buffer: bytearray, numbers: List[int],
             order: List[int]) -> Union[Saved, Refused]:
        before = list(numbers), list(order)
        answer = super().save(hold, buffer, numbers, order)
        if answer == Refused(16):
            numbers[:], order[:] = before
        return answer


class SaveDepthFirst(Store):
    """save numbers the cells depth first."""

    def breadth_first(self, first: int) -> List[int]:
        found: List[int] = []

        def visit(content: Content) -> None:
            if isinstance(content, Link) and content.number not in found:
                found.append(content.number)
                for part in self.memory.read(content.number).contents():
                    visit(part)

        visit(Link(first))
        return found


OTHERS: Tuple[Type[Store], ...] = (
    TieWithoutShading, SearchFromNext, StageBehindFound, EndsWithLastGrey,
    BlackenShadesLeftOnly, SweepOnlyMoves, SweepDoesNotWhiten, SweepIgnoresTag, PutBackAtFront,
    TurnDuringSweep, NewCellGrey, NewCellWhite, NewCellShadesNothing, BlackBehindSweeper, TwiceK,
    ReadsFreeAgain, StopsWhenFreed, PaceWithoutFreeCell, TaskKeepsPace, FourBeforeThree,
    RoomBeforePlaces, SaveCleansTables, SaveDepthFirst,
)
