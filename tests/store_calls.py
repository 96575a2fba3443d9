"""One call of a store, made and checked from docs/ alone.

A Caller makes calls on a store that a Watcher watches. For each call it
tells beforehand which refusal is due, and it checks the answer, what a
refused call leaves, the memory lent to the call, the number of units, and
what load and save promise of each other.
"""

from __future__ import annotations

from dataclasses import dataclass
from typing import Dict, FrozenSet, List, Optional, Sequence, Tuple, Union

import model
from model import Fault, Joint, Layer, Link
from store_model import (
    GiftMoment, HandMoment, Loaded, MarkMoment, Memory, Moment, Pace, Refused, Saved, Store,
    StoreCell, SweepMoment, Taken, TakeOf, TaskDone, TurnMoment, set_pace, with_links,
)
from store_watch import ALL_CHECKS, CheckFailed, Watcher, picture_of, was_put_back

STATEMENT_3 = "statement 3"
ANSWER = "answer"
REFUSAL = "refusal"
UNTOUCHED = "untouched"
UNITS = "units"
CYCLE = "K units"
LENT = "lent memory"
SAME_PATTERN = "same pattern"
EVERY_CHECK = ALL_CHECKS | {
    STATEMENT_3, ANSWER, REFUSAL, UNTOUCHED, UNITS, CYCLE, LENT, SAME_PATTERN,
}

HAND = ("yarn", "drop", "copy", "follow", "tie")
NAMES = (*HAND, "take", "task", "load", "save", "mark", "sweep", "turn", "unit")

# Which arguments are holds.
HOLD_PLACES: Dict[str, Tuple[int, ...]] = {
    "yarn": (0,), "drop": (0,), "copy": (0, 1), "follow": (0, 2), "tie": (0, 2),
    "take": (0, 2, 3), "load": (0,), "save": (0,),
}


@dataclass(frozen=True)
class Call:
    """A call with its arguments. Lent memory is told by its lengths.

    - take: hold, joint, a, b, pace
    - task: least, most, list of takes
    - load: hold, text, length of places
    - save: hold, lengths of buffer, numbers and order
    - any other: as in docs/STORE.md
    """

    name: str
    arguments: tuple = ()

    def __str__(self) -> str:
        return f"{self.name}({', '.join(repr(each) for each in self.arguments)})"


Answer = Union[None, Refused, Fault, Taken, Loaded, Saved, TaskDone, object]


def lent_table(length: int) -> List[int]:
    """A table with entries that nothing here would write."""
    return [40_000 + place for place in range(length)]


def lent_buffer(length: int) -> bytearray:
    """A buffer with bytes that no text has."""
    return bytearray(200 + place % 50 for place in range(length))


def number_of(answer: Answer) -> Optional[int]:
    """The number of a refusal, or None for an accepted call."""
    if isinstance(answer, TaskDone):
        return number_of(answer.refusal)
    return answer.number if isinstance(answer, (Refused, Fault)) else None


# --------------------------------------------------------------------------
# Patterns in stores, and units in a history
# --------------------------------------------------------------------------


def same_pattern(cells: Sequence[StoreCell], first: int, others: Sequence[StoreCell],
                 other_first: int) -> bool:
    """Whether the cells reached from the two first cells can be paired."""
    partner, partner_back = {first: other_first}, {other_first: first}
    order = [first]
    for one in order:  # the list grows while it is walked
        cell, other = cells[one], others[partner[one]]
        if cell.joint is not other.joint:
            return False
        for content, twin in zip(cell.contents(), other.contents()):
            if not (isinstance(content, Link) and isinstance(twin, Link)):
                if content != twin:
                    return False
                continue
            if content.number not in partner and twin.number not in partner_back:
                partner[content.number] = twin.number
                partner_back[twin.number] = content.number
                order.append(content.number)
            if partner.get(content.number) != twin.number:
                return False
            if partner_back.get(twin.number) != content.number:
                return False
    return True


def split_units(moments: Sequence[Moment], may_turn: Sequence[bool]) -> List[List[Moment]]:
    """Moments cut into units; `may_turn` tells whether a turn was due after each."""
    units: List[List[Moment]] = []
    place = 0
    while place < len(moments):
        kinds = [type(moment) for moment in moments[place:place + 2]]
        if kinds != [MarkMoment, SweepMoment]:
            raise CheckFailed(UNITS, f"a unit begins with {moments[place:place + 2]}")
        turns = place + 2 < len(moments) and isinstance(moments[place + 2], TurnMoment)
        if turns != may_turn[place + 1]:
            raise CheckFailed(UNITS, f"a turn in unit {len(units) + 1}: {turns}")
        units.append(list(moments[place:place + 2 + turns]))
        place += 2 + turns
    return units


def frees(unit: Sequence[Moment]) -> bool:
    """Whether a unit puts a cell back."""
    return any(isinstance(each, SweepMoment) and was_put_back(each) for each in unit)


def everything(store: Store) -> tuple:
    """All that a call could alter in a store, the fields of free cells too."""
    cells = [
        (cell.joint, cell.left, cell.right, cell.tag, cell.mark, cell.sweep)
        for cell in store.memory.cells
    ]
    numbers = (store.front, store.end, store.free_count, store.stage, store.sweep_place)
    return cells, numbers, list(store.hold_table), store.pace


# --------------------------------------------------------------------------
# Making calls
# --------------------------------------------------------------------------


class Caller:
    """Makes calls on a watched store and checks them."""

    def __init__(self, store: Store, checks: FrozenSet[str] = EVERY_CHECK) -> None:
        self.store = store
        self.checks = checks
        self.watcher = Watcher(store, checks)
        self.surplus = store.hold_table[store.hold_count:]

    def require(self, holds: bool, check: str, found: str) -> None:
        """Fails the check unless the condition holds or the check is left out."""
        if not holds and check in self.checks:
            raise CheckFailed(check, found)

    def make(self, call: Call) -> Answer:
        """Makes a call, checks it and gives its answer."""
        store = self.store
        before, pace, start = everything(store), store.pace, len(store.history)
        due = self.due_refusal(call)
        way = {"take": self.take, "task": self.task, "load": self.load, "save": self.save}
        answer = way.get(call.name, self.plain)(call)
        moments = store.history[start:]
        self.check_refusal(call, due, answer)
        if call.name == "save" or due is not None:
            self.require(not moments, UNTOUCHED, f"{moments} in a call that changes nothing")
            self.require(everything(store) == before, UNTOUCHED, f"left {picture_of(store)}")
        self.require(store.pace == pace, UNTOUCHED, f"the pace is {store.pace}, it was {pace}")
        surplus = store.hold_table[store.hold_count:]
        self.require(surplus == self.surplus, UNTOUCHED, "a surplus entry of the hold table")
        return answer

    # ----------------------------------------------------------------------
    # Refusals
    # ----------------------------------------------------------------------

    def check_refusal(self, call: Call, due: Optional[int], answer: Answer) -> None:
        """The refusal that is due, and no other. A task is seen by its takes."""
        if call.name == "task":
            return
        allowed = {None, 7} if call.name == "take" and due is None else {due}
        self.require(number_of(answer) in allowed, REFUSAL, f"{answer} where {due} is due")
        if due is not None and call.name != "load":
            self.require(answer == Refused(due), REFUSAL, f"{answer} tells more than {due}")

    def due_refusal(self, call: Call) -> Optional[int]:
        """The refusal that is due by the rules, 7 and those of a task apart."""
        store, given = self.store, call.arguments
        if any(given[place] >= store.hold_count for place in HOLD_PLACES.get(call.name, ())):
            return 3
        if call.name in ("follow", "tie", "save"):
            if not isinstance(store.holds()[given[0]], Link):
                return 4
        if call.name == "yarn" and given[1] >= 4096:
            return 5
        if call.name == "take" and given[1] not in b"ab":
            return 6
        if call.name == "turn":
            done = self.watcher.may_turn_after[-1:] or [False]
            return None if done[0] else 8
        if call.name == "load":
            return self.due_load_refusal(*given)
        if call.name == "save":
            return self.due_save_refusal(*given)
        return None

    def due_load_refusal(self, _: int, text: bytes, length: int) -> Optional[int]:
        """The refusal due in a load into a good hold."""
        pattern = model.judge(text)
        if isinstance(pattern, Fault):
            return pattern.number
        if length < len(pattern):
            return 17
        return 15 if len(pattern) > len(self.watcher.free) else None

    def due_save_refusal(self, hold: int, *lengths: int) -> Optional[int]:
        """The refusal due in a save of a hold with a cell."""
        if min(lengths[1:]) < self.store.size:
            return 17
        return 16 if lengths[0] < len(self.text_of(hold)) else None

    def text_of(self, hold: int) -> bytes:
        """The text of the pattern in a hold, by the numbering rule of model.py."""
        first = self.store.hold_table[hold].number
        return model.write(model.numbered(self.store.memory.cells, first))

    # ----------------------------------------------------------------------
    # The hand, mark, sweep, turn and unit
    # ----------------------------------------------------------------------

    def plain(self, call: Call) -> Answer:
        """A call without lent memory and without a pace."""
        start = len(self.store.history)
        answer = getattr(self.store, call.name)(*call.arguments)
        moments = self.store.history[start:]
        if isinstance(answer, Refused):
            return answer
        due: List[Moment] = []
        if call.name in HAND:
            due = [HandMoment(call.name, call.arguments)]
        elif call.name == "turn":
            due = [TurnMoment()]
        elif call.name == "mark":
            due = [MarkMoment(answer)]
        elif call.name == "sweep":
            due = [SweepMoment(answer)]
        if call.name == "unit":
            if UNITS in self.checks:
                units = split_units(moments, self.watcher.may_turn_after[start:])
                self.require(len(units) == 1, UNITS, f"a unit has the moments {moments}")
            due = [MarkMoment(answer.mark), SweepMoment(answer.sweep)]
            due += [TurnMoment()] * answer.turned
        elif call.name in (*HAND, "turn"):
            self.require(answer is None, ANSWER, f"{call.name} answers {answer}")
        self.require(moments == due, ANSWER, f"the moments {moments} instead of {due}")
        return answer

    # ----------------------------------------------------------------------
    # Take and task
    # ----------------------------------------------------------------------

    def take(self, call: Call) -> Answer:
        """A take with a pace of its own."""
        store, start = self.store, len(self.store.history)
        begin = self.beginning(store)
        answer = store.take(*call.arguments)
        moments, may_turn = store.history[start:], self.watcher.may_turn_after[start:]
        if number_of(answer) not in (3, 6):
            self.check_take(begin, TakeOf(*call.arguments[:4]), call.arguments[4], answer,
                            moments, may_turn)
        return answer

    def beginning(self, store: Store) -> Tuple[int, bool, list]:
        """L, whether all cells are reached, and the holds, as a take begins."""
        return len(store.free_list()), len(store.reached()) == store.size, store.holds()

    def check_take(self, begin: tuple, take: TakeOf, pace: Pace, answer: Answer,
                   moments: Sequence[Moment], may_turn: Sequence[bool]) -> None:
        """A take that is not refused with 3 or 6, with its moments."""
        free, full, holds = begin
        is_seven = number_of(answer) == 7
        self.require(is_seven == full, STATEMENT_3, f"{answer}, all cells reached: {full}")
        if UNITS not in self.checks:
            return
        gifts = [] if is_seven else list(moments[-1:])
        units = split_units(moments[:len(moments) - len(gifts)], may_turn)
        self.require(len(units) == answer.units, UNITS, f"{len(units)} units, {answer}")
        limit = self.store.hold_count + self.store.size + 1
        if is_seven:
            self.require(len(units) == 3 * limit, UNITS, f"7 after {len(units)} units, K {limit}")
        elif free:
            due = min(max(-(-limit // free), pace.least), pace.most)
            self.require(len(units) == due, UNITS, f"{len(units)} units with L = {free}: {due}")
        early = units if is_seven else units[:-1]
        if not free:
            self.require(not any(map(frees, early)), UNITS, "units after a cell was free")
        self.check_turns(units, limit)
        if not is_seven:
            made = model.Cell(Joint(bytes([take.joint])), holds[take.a], holds[take.b])
            due_gift = GiftMoment(take.hold, (answer.cell,), (made,))
            self.require(gifts == [due_gift], ANSWER, f"{gifts} instead of {due_gift}")

    def check_turns(self, units: Sequence[Sequence[Moment]], limit: int) -> None:
        """Any K units in a row contain a turn."""
        without = 0
        for unit in units:
            without = 0 if isinstance(unit[-1], TurnMoment) else without + 1
            self.require(without < limit, CYCLE, f"{without} units without a turn, K {limit}")

    def task(self, call: Call) -> Answer:
        """A task, compared with the list of its takes on a second store."""
        store, start = self.store, len(self.store.history)
        least, most, takes = call.arguments
        twin, pace = store.clone(), set_pace(least, most)
        answer = store.task(least, most, takes)
        may_turn = self.watcher.may_turn_after[start:]
        accepted, last = 0, None
        for each in takes:
            begin, mine = self.beginning(twin), len(twin.history)
            last = twin.take(each.hold, each.joint, each.a, each.b, pace)
            if number_of(last) not in (3, 6):
                self.check_take(begin, each, pace, last, twin.history[mine:], may_turn[mine:])
            if number_of(last) is not None:
                break
            accepted, last = accepted + 1, None
        self.require(answer == TaskDone(accepted, last), ANSWER,
                     f"{answer}, its takes give {accepted} and {last}")
        self.require(store.history[start:] == twin.history, ANSWER, "other moments than its takes")
        self.require(picture_of(store) == picture_of(twin), ANSWER, "another end than its takes")
        return answer

    def check_cycle(self) -> None:
        """From the present state, on a second store, K units contain a turn."""
        twin = self.store.clone()
        limit = twin.hold_count + twin.size + 1
        turned = [twin.unit().turned for _ in range(limit)]
        self.require(any(turned), CYCLE, f"no turn in {limit} units")

    # ----------------------------------------------------------------------
    # Load and save
    # ----------------------------------------------------------------------

    def load(self, call: Call) -> Answer:
        """A load, and if it is accepted a save of what it loaded."""
        hold, text, length = call.arguments
        store, places, start = self.store, lent_table(length), len(self.store.history)
        due = self.due_refusal(call)
        front = list(self.watcher.free)
        answer = store.load(hold, text, places)
        if isinstance(answer, Fault):
            fault = model.judge(text)
            if due in (3, 15, 17):
                fault = Fault(Layer.STORE, due, 0)
            self.require(answer == fault, REFUSAL, f"{answer} instead of {fault}")
            self.require(places == lent_table(length), LENT, "places after a refused load")
            return answer
        pattern = model.accepted_pattern(text)
        count = len(pattern)
        self.require(answer == Loaded(count), ANSWER, f"{answer} for {count} cells")
        self.require(places == front[:count] + lent_table(length)[count:], LENT, f"{places}")
        made = tuple(with_links(cell, places) for cell in pattern)
        gift = GiftMoment(hold, tuple(places[:count]), made)
        self.require(store.history[start:] == [gift], ANSWER, f"{store.history[start:]}")
        self.check_saved_again(hold, text, places[:count])
        return answer

    def check_saved_again(self, hold: int, text: bytes, places: List[int]) -> None:
        """Save of a hold just filled gives back the loaded text."""
        size = self.store.size
        buffer, numbers, order = lent_buffer(len(text)), lent_table(size), lent_table(size)
        answer = self.store.save(hold, buffer, numbers, order)
        saved = Saved(len(places), len(text))
        self.require(answer == saved, SAME_PATTERN, f"{answer} instead of {saved}")
        self.require(bytes(buffer) == text, SAME_PATTERN, f"loaded {text!r}, saved {buffer!r}")
        self.require(order[:len(places)] == places, SAME_PATTERN, f"{order}, loaded as {places}")

    def save(self, call: Call) -> Answer:
        """A save, and if it is accepted a load elsewhere of what it saved."""
        hold, *lengths = call.arguments
        store, due = self.store, self.due_refusal(call)
        buffer, numbers, order = lent_buffer(lengths[0]), *map(lent_table, lengths[1:])
        answer = store.save(hold, buffer, numbers, order)
        filled = due in (None, 16)
        if not filled:
            self.require(numbers == lent_table(lengths[1]), LENT, "numbers are written")
            self.require(order == lent_table(lengths[2]), LENT, "order is written")
        else:
            self.check_tables(hold, numbers, order)
        if due is not None:
            self.require(buffer == lent_buffer(lengths[0]), LENT, "the buffer is written")
            return answer
        text = self.text_of(hold)
        count = text.count(b"\n") - 2
        self.require(answer == Saved(count, len(text)), ANSWER, f"{answer} for {text!r}")
        left = text + lent_buffer(lengths[0])[len(text):]
        self.require(buffer == left, LENT, f"the buffer is {buffer!r} for {text!r}")
        self.check_loaded_elsewhere(hold, text)
        return answer

    def check_tables(self, hold: int, numbers: List[int], order: List[int]) -> None:
        """Both tables as save fills them, and nothing behind."""
        if LENT not in self.checks:
            return
        store = self.store
        size, first = store.size, store.hold_table[hold].number
        pattern = model.numbered(store.memory.cells, first)
        count = len(pattern)
        found = order[:count]
        self.require(order[count:] == lent_table(len(order))[count:], LENT, "order, behind n")
        self.require(numbers[size:] == lent_table(len(numbers))[size:], LENT, "numbers, behind M")
        due = [found.index(i) if i in found else 65_535 for i in range(size)]
        self.require(numbers[:size] == due, LENT, f"numbers {numbers}, order {order}")
        in_range = len(set(found)) == count and all(i < size for i in found)
        self.require(in_range, LENT, f"order begins with {found}")
        for number, cell in zip(found, pattern):
            have = store.memory.cells[number]
            made = with_links(cell, found)
            same = (have.joint, have.left, have.right) == (made.joint, made.left, made.right)
            self.require(same, LENT, f"order {found} is not the numbering rule")

    def check_loaded_elsewhere(self, hold: int, text: bytes) -> None:
        """Load after save gives the same pattern, at other cell numbers."""
        store, first = self.store, self.store.hold_table[hold].number
        count = text.count(b"\n") - 2
        other = type(store)(Memory([StoreCell() for _ in range(count + 1)]), 2)
        other.take(1, Joint.ABOVE.value[0], 0, 1)
        places = lent_table(count)
        answer = other.load(0, text, places)
        self.require(answer == Loaded(count), SAME_PATTERN, f"{answer} for a saved text")
        same = same_pattern(store.memory.cells, first, other.memory.cells, places[0])
        self.require(same, SAME_PATTERN, f"saved {text!r}, loaded as another pattern")
