"""What is checked of a store after every moment, from docs/ alone.

A Watcher is laid beside a store of store_model.py and sees each moment of
its history. It checks

- the step: the state after the moment is the one that the rules give from
  the state before it, told here a second time and in another way;
- the history: free and used, and the order of the free list;
- the invariant;
- statements 1 and 2 of "What every run of calls keeps" in docs/STORE.md.

The first check that fails raises CheckFailed with the name of the check.
"""

from __future__ import annotations

from collections import Counter, deque
from dataclasses import dataclass, field
from typing import Deque, Dict, FrozenSet, Iterator, List, Optional, Set, Union

import model
from model import Cell, Content, Link, Yarn
from store_model import (
    NOTHING, AtCell, AtHold, Colour, Ended, GiftMoment, HandMoment, MarkMoment, Moment, Side,
    Stage, Store, Swept, SweepMoment, Tag, TurnMoment,
)

WHITE, GREY, BLACK = Colour.WHITE, Colour.GREY, Colour.BLACK

STEP = "step"
HISTORY = "history"
INVARIANT = "invariant"
STATEMENT_1 = "statement 1"
STATEMENT_2 = "statement 2"
ALL_CHECKS = frozenset((STEP, HISTORY, INVARIANT, STATEMENT_1, STATEMENT_2))


class CheckFailed(Exception):
    """A check that failed, by its name, and what it found."""

    def __init__(self, check: str, found: str) -> None:
        super().__init__(f"{check}: {found}")
        self.check = check


def require(holds: bool, check: str, found: str) -> None:
    """Fails the check with these words unless the condition holds."""
    if not holds:
        raise CheckFailed(check, found)


# --------------------------------------------------------------------------
# Pictures: the state of a store, and the steps told on it
# --------------------------------------------------------------------------


@dataclass
class Picture:
    """The state of a store. The links of the free list are told as a list."""

    holds: List[Content]
    bodies: List[Optional[Cell]]  # joint and contents of a used cell; None for a free one
    marks: List[Colour]
    sweeps: List[Colour]
    stage: Stage
    sweep_place: int
    free: List[int]

    def copy(self) -> "Picture":
        """A picture of its own."""
        return Picture(
            list(self.holds), list(self.bodies), list(self.marks), list(self.sweeps),
            self.stage, self.sweep_place, list(self.free),
        )

    def shade(self, *contents: Content) -> None:
        """Every white cell among these contents becomes grey."""
        for content in contents:
            if isinstance(content, Link) and self.marks[content.number] is WHITE:
                self.marks[content.number] = GREY

    def __str__(self) -> str:
        bodies = ", ".join(
            f"{number}: {body_in_words(body)}" for number, body in enumerate(self.bodies)
        )
        return (
            f"holds {[in_words(content) for content in self.holds]}; cells {{{bodies}}}; "
            f"free list {self.free}; mark {letters(self.marks)}, sweep {letters(self.sweeps)}; "
            f"marking {self.stage}; s = {self.sweep_place}"
        )


def in_words(content: Content) -> str:
    """A content as it is written in a text."""
    return model.field_of(content).decode("ascii")


def body_in_words(body: Optional[Cell]) -> str:
    """A cell as in a text, or that it is free."""
    if body is None:
        return "free"
    return f"{body.joint.value.decode()} {in_words(body.left)} {in_words(body.right)}"


def letters(colours: List[Colour]) -> str:
    """Colours as the letters of docs/EXAMPLES.md, cell 0 first."""
    return "".join(colour.value for colour in colours)


def picture_of(store: Store) -> Picture:
    """The picture of a store as it is now."""
    cells = store.memory.cells
    return Picture(
        store.holds(),
        [None if c.tag is Tag.FREE else Cell(c.joint, c.left, c.right) for c in cells],
        [cell.mark for cell in cells],
        [cell.sweep for cell in cells],
        store.stage,
        store.sweep_place,
        store.free_list(),
    )


def new_picture(size: int, hold_count: int) -> Picture:
    """The picture of a new store."""
    return Picture(
        [NOTHING] * min(max(hold_count, 1), 96), [None] * size, [WHITE] * size, [WHITE] * size,
        AtHold(0), size, list(range(size)),
    )


def told_mark(picture: Picture) -> Stage:
    """A mark, told on a picture. Gives the answer."""
    stage = picture.stage
    if isinstance(stage, AtHold):
        picture.shade(picture.holds[stage.number])
        is_last = stage.number == len(picture.holds) - 1
        picture.stage = AtCell(0) if is_last else AtHold(stage.number + 1)
        return stage
    greys = [number for number, colour in enumerate(picture.marks) if colour is GREY]
    if stage == Ended() or not greys:
        picture.stage = Ended()
        return Ended()
    found = min(greys, key=lambda number: (number < stage.number, number))
    body = picture.bodies[found]
    if body is not None:
        picture.shade(body.left, body.right)
    picture.marks[found] = BLACK
    picture.stage = AtCell(found)
    return AtCell(found)


def told_sweep(picture: Picture) -> Union[Swept, Ended]:
    """A sweep, told on a picture. Gives the answer."""
    place = picture.sweep_place
    if place == len(picture.bodies):
        return Ended()
    was_lost = picture.bodies[place] is not None and picture.sweeps[place] is WHITE
    if was_lost:
        picture.bodies[place] = None
        picture.free.append(place)
    picture.sweeps[place] = WHITE
    picture.sweep_place = place + 1
    return Swept(place, was_lost)


def told_turn(picture: Picture) -> None:
    """An accepted turn, told on a picture."""
    require(picture.stage == Ended(), STEP, "a turn is accepted before marking has ended")
    at_end = picture.sweep_place == len(picture.bodies)
    require(at_end, STEP, "a turn is accepted before the sweep has ended")
    picture.marks, picture.sweeps = picture.sweeps, picture.marks
    picture.stage, picture.sweep_place = AtHold(0), 0


def told_gift(picture: Picture, gift: GiftMoment) -> None:
    """A gift of cells, told on a picture."""
    count = len(gift.cells)
    front, picture.free = picture.free[:count], picture.free[count:]
    require(list(gift.cells) == front, STEP, f"given {gift.cells}, the front is {front}")
    for number, body in zip(gift.cells, gift.made):
        picture.bodies[number] = body
        picture.marks[number] = BLACK
        still_to_pass = number >= picture.sweep_place
        picture.sweeps[number] = BLACK if still_to_pass else WHITE
    for body in gift.made:
        picture.shade(*body.contents())
    picture.holds[gift.hold] = Link(gift.cells[0])


def told_hand(picture: Picture, hand: HandMoment) -> None:
    """An accepted call of the designer's hand, told on a picture."""
    holds, first = picture.holds, hand.arguments[0]
    if hand.name == "yarn":
        holds[first] = Yarn(hand.arguments[1])
    elif hand.name == "drop":
        holds[first] = NOTHING
    elif hand.name == "copy":
        picture.shade(holds[hand.arguments[1]])
        holds[first] = holds[hand.arguments[1]]
    else:
        _, side, other = hand.arguments
        number = holds[first].number
        sides = dict(zip((Side.LEFT, Side.RIGHT), picture.bodies[number].contents()))
        if hand.name == "tie":
            sides[side] = holds[other]
            joint = picture.bodies[number].joint
            picture.bodies[number] = Cell(joint, sides[Side.LEFT], sides[Side.RIGHT])
        else:
            holds[other] = sides[side]
        picture.shade(sides[side])


def told(before: Picture, moment: Moment) -> Picture:
    """The state after a moment by the rules."""
    after, answer = before.copy(), None
    if isinstance(moment, MarkMoment):
        answer = told_mark(after)
    elif isinstance(moment, SweepMoment):
        answer = told_sweep(after)
    elif isinstance(moment, TurnMoment):
        told_turn(after)
    elif isinstance(moment, GiftMoment):
        told_gift(after, moment)
    else:
        told_hand(after, moment)
    if answer is not None:
        require(moment.answer == answer, STEP, f"the answer is {moment.answer}, not {answer}")
    return after


# --------------------------------------------------------------------------
# The invariant
# --------------------------------------------------------------------------


def links_in(*contents: Content) -> Set[int]:
    """The cells among these contents."""
    return {content.number for content in contents if isinstance(content, Link)}


def kept_cells(store: Store) -> Set[int]:
    """The used cells that the sweeper is not about to put back."""
    return {
        number
        for number, cell in enumerate(store.memory.cells)
        if cell.tag is Tag.USED
        and not (number >= store.sweep_place and cell.sweep is WHITE)
    }


def breaks_of_free_list(store: Store) -> Iterator[str]:
    """What is wrong with the free list."""
    cells, free = store.memory.cells, store.free_list()
    tagged = [number for number, cell in enumerate(cells) if cell.tag is Tag.FREE]
    if sorted(free) != tagged:
        yield f"the free list is {free}, the free cells are {tagged}"
    ends = (free[0], free[-1]) if free else (None, None)
    if (store.front, store.end, store.free_count) != (*ends, len(free)):
        yield f"front {store.front}, end {store.end}, L = {store.free_count} for {free}"
    for number, following in zip(free, [*free[1:], None]):
        left = NOTHING if following is None else Link(following)
        cell = cells[number]
        if (cell.joint, cell.left, cell.right) != (model.Joint.BESIDE, left, NOTHING):
            yield f"free cell {number} has {cell}"


def breaks_of_ranges(store: Store) -> Iterator[str]:
    """What lies outside its range."""
    for number, cell in enumerate(store.memory.cells):
        if not all(model.in_range(content, store.size) for content in cell.contents()):
            yield f"cell {number} has a content out of range"
        if cell.sweep is GREY:
            yield f"cell {number} has a grey sweep colour"
    if not all(model.in_range(content, store.size) for content in store.holds()):
        yield "a hold has a content out of range"
    if isinstance(store.stage, AtHold) and store.stage.number >= store.hold_count:
        yield f"marking is at hold {store.stage.number}"
    if not 0 <= store.sweep_place <= store.size:
        yield f"s = {store.sweep_place}"


def breaks_of_colours(store: Store) -> Iterator[str]:
    """What is wrong between colours, tags and links."""
    cells, kept = store.memory.cells, kept_cells(store)
    for number, cell in enumerate(cells):
        named = links_in(*cell.contents())
        if number < store.sweep_place and cell.sweep is not WHITE:
            yield f"cell {number} is below s and has not a white sweep colour"
        if number in kept and not named <= kept:
            yield f"the kept cell {number} names {sorted(named - kept)}"
        if cell.mark is not WHITE and number not in kept:
            yield f"cell {number} is {cell.mark.value} and not kept"
        if cell.mark is BLACK and any(cells[other].mark is WHITE for other in named):
            yield f"the black cell {number} names a white cell"
        if cell.mark is GREY and store.stage == Ended():
            yield f"marking has ended and cell {number} is grey"
    held = links_in(*store.holds())
    if not held <= kept:
        yield f"holds contain {sorted(held - kept)}, which are not kept"
    visited = store.stage.number if isinstance(store.stage, AtHold) else store.hold_count
    for number in sorted(links_in(*store.holds()[:visited])):
        if cells[number].mark is WHITE:
            yield f"a visited hold contains the white cell {number}"


def check_invariant(store: Store) -> None:
    """Fails at the first break of the invariant."""
    for breaks in (breaks_of_ranges, breaks_of_free_list, breaks_of_colours):
        for found in breaks(store):
            raise CheckFailed(INVARIANT, found)


# --------------------------------------------------------------------------
# Watching
# --------------------------------------------------------------------------


@dataclass
class TurnSeen:
    """An accepted turn for which the second turn after it is awaited."""

    place: int  # in the history
    stray: FrozenSet[int]  # as the turn begins
    turns_after: int = 0
    put_back: Counter = field(default_factory=Counter)


class Watcher:
    """Sees every moment of a store and checks it."""

    def __init__(self, store: Store, checks: FrozenSet[str] = ALL_CHECKS) -> None:
        self.store = store
        self.checks = checks
        self.free: Deque[int] = deque(range(store.size))  # told by the history
        self.picture = picture_of(store)
        self.reached = store.reached()
        self.turns_seen: List[TurnSeen] = []
        self.may_turn_after: List[bool] = []  # for each moment of the history
        self.moments: Counter = Counter()
        self.puts_back = 0
        self.judged_turns = 0
        if STEP in checks:
            new = new_picture(store.size, store.hold_count)
            require(self.picture == new, STEP, f"opened as {self.picture}")
        if INVARIANT in checks:
            check_invariant(store)
        store.watch = self.see

    def see(self, moment: Moment) -> None:
        """Checks the state after one moment."""
        self.moments[type(moment).__name__] += 1
        stray = frozenset(range(self.store.size)) - set(self.free) - self.reached
        before, self.picture = self.picture, picture_of(self.store)
        self.reached = self.store.reached()
        if STEP in self.checks:
            after = told(before, moment)
            require(self.picture == after, STEP,
                    f"{moment}\nfrom   {before}\ngave   {self.picture}\nnot    {after}")
        self.follow_history(moment)
        self.follow_turns(moment, stray)
        if STATEMENT_1 in self.checks:
            lost = sorted(self.reached & set(self.free))
            require(not lost, STATEMENT_1, f"the cells {lost} are reached and free")
        ended = self.picture.stage == Ended()
        if INVARIANT in self.checks:
            check_invariant(self.store)
            left = [n for n in self.reached if ended and self.picture.marks[n] is not BLACK]
            require(not left, INVARIANT, f"marking has ended, the reached {left} are not black")
        self.may_turn_after.append(ended and self.picture.sweep_place == self.store.size)

    def follow_history(self, moment: Moment) -> None:
        """Follows which cells are free, in the order in which they were put back."""
        if isinstance(moment, GiftMoment):
            for number in moment.cells:
                self.leave(number)
        elif isinstance(moment, SweepMoment) and was_put_back(moment):
            self.puts_back += 1
            if HISTORY in self.checks:
                again = moment.answer.cell in self.free
                require(not again, HISTORY, f"free cell {moment.answer.cell} is put back")
            self.free.append(moment.answer.cell)
        if HISTORY in self.checks:
            free = list(self.free)
            require(self.picture.free == free, HISTORY,
                    f"the free list is {self.picture.free}, the history tells {free}")
            tagged = {n for n, body in enumerate(self.picture.bodies) if body is None}
            require(tagged == set(free), HISTORY, f"tags say that {tagged} are free, not {free}")

    def leave(self, number: int) -> None:
        """A cell is given."""
        if HISTORY in self.checks:
            front = self.free[0] if self.free else None
            require(number == front, HISTORY, f"cell {number} is given, cell {front} is due")
        if number in self.free:
            self.free.remove(number)

    def follow_turns(self, moment: Moment, stray: FrozenSet[int]) -> None:
        """Counts what is put back between a turn and the second turn after it.

        `stray` are the cells that were stray before the moment.
        """
        if isinstance(moment, SweepMoment) and was_put_back(moment):
            for seen in self.turns_seen:
                seen.put_back[moment.answer.cell] += 1
        if not isinstance(moment, TurnMoment):
            return
        for seen in self.turns_seen:
            seen.turns_after += 1
            if seen.turns_after == 2:
                self.judge_turn(seen)
        self.turns_seen = [seen for seen in self.turns_seen if seen.turns_after < 2]
        self.turns_seen.append(TurnSeen(len(self.store.history) - 1, stray))

    def judge_turn(self, seen: TurnSeen) -> None:
        """Statement 2 for one turn, as the second turn after it comes."""
        self.judged_turns += 1
        if STATEMENT_2 not in self.checks:
            return
        counts: Dict[int, int] = {number: seen.put_back[number] for number in seen.stray}
        wrong = {number: count for number, count in counts.items() if count != 1}
        require(not wrong, STATEMENT_2,
                f"stray at the turn at place {seen.place} of the history, put back "
                f"so often before the second turn after it: {wrong}")


def was_put_back(moment: SweepMoment) -> bool:
    """Whether a sweep put its cell back."""
    return isinstance(moment.answer, Swept) and moment.answer.put_back
