"""The worked examples of docs/EXAMPLES.md, as assertions on a store.

Some numbers that the other pages of docs/ give are asserted beside them.
Each example runs on a given class of stores, so that wrong variants can be
tried on them too. An example that is not as documented raises CheckFailed.
The heap examples under "Planes" are not here: the model has no planes.
"""

from __future__ import annotations

from typing import Callable, List, Tuple, Type, Union

from compare import LOOP_BYTES, SAVED_BYTES, UNNAMED, lines
from model import (
    Cell, Content, Fault, Joint, Layer, Link, Nothing, Pattern, Yarn, report, write,
)
from store_model import (
    NOT_IN_PATTERN, NOTHING, AtCell, AtHold, Ended, GiftMoment, Loaded, MarkMoment, Memory,
    Moment, Pace, Refused, Saved, Stage, Store, StoreCell, SweepMoment, Swept, Taken, TakeOf,
    TaskDone, TurnMoment, check_before_open, reprint, set_pace,
)
from store_watch import letters, picture_of, require

Stores = Type[Store]
B, A, X = b"bax"  # three bytes that may be passed as a joint

# A row of a table of units: mark answers, sweep answers, turn, marking after,
# s after.
Row = Tuple[str, str, str, str, int]


def new_store(stores: Stores, size: int, hold_count: int) -> Store:
    """A new store over cells that were just made."""
    return stores(Memory([StoreCell() for _ in range(size)]), hold_count)


def same(name: str, found: object, documented: object) -> None:
    """Fails unless the example gives what is documented."""
    require(found == documented, f"example {name}", f"{found} is documented as {documented}")


# --------------------------------------------------------------------------
# Tables of units
# --------------------------------------------------------------------------


class UnitRows:
    """Writes down the units of a store as the tables do."""

    def __init__(self, store: Store) -> None:
        self.store = store
        self.rows: List[List[object]] = []
        store.watch = self.see

    def see(self, moment: Moment) -> None:
        """Begins a row at a mark, and fills it."""
        if isinstance(moment, MarkMoment):
            self.rows.append([answer_in_words(moment.answer), "", "no", "", 0])
        elif isinstance(moment, SweepMoment):
            self.rows[-1][1] = answer_in_words(moment.answer)
        elif isinstance(moment, TurnMoment):
            self.rows[-1][2] = "yes"
        if isinstance(moment, (MarkMoment, SweepMoment, TurnMoment)):
            self.rows[-1][3] = stage_in_words(self.store.stage)
            self.rows[-1][4] = self.store.sweep_place

    def taken(self) -> List[Row]:
        """The rows since the last time."""
        rows, self.rows = self.rows, []
        return [tuple(row) for row in rows]


def answer_in_words(answer: Union[Stage, Swept]) -> str:
    """The answer of a mark or a sweep as in the tables."""
    if isinstance(answer, AtHold):
        return f"hold {answer.number}"
    if isinstance(answer, AtCell):
        return f"cell {answer.number}"
    if isinstance(answer, Swept):
        return f"cell {answer.cell}, " + ("put back" if answer.put_back else "no")
    return "ended"


def stage_in_words(stage: Stage) -> str:
    """The stage of marking as in the tables."""
    return "ended" if stage == Ended() else "at " + answer_in_words(stage)


def rows_of(table: str) -> List[Row]:
    """The rows of a table of units as documented; – for a sweep that ended."""
    rows = []
    for line in table.strip().splitlines():
        mark, sweep, turn, stage, place = (part.strip() for part in line.split("|"))
        rows.append((mark, "ended" if sweep == "–" else sweep, turn, stage, int(place)))
    return rows


def state(store: Store) -> Tuple[List[Content], List[int], str, str]:
    """Holds, free list, mark colours and sweep colours."""
    picture = picture_of(store)
    return (picture.holds, picture.free, letters(picture.marks), letters(picture.sweeps))


def body(store: Store, number: int) -> Cell:
    """Joint and contents of a cell."""
    cell = store.memory.cells[number]
    return Cell(cell.joint, cell.left, cell.right)


# --------------------------------------------------------------------------
# Calls 1 to 7
# --------------------------------------------------------------------------

CALL_2 = """
hold 0 | – | no | at hold 1 | 3
hold 1 | – | no | at cell 0 | 3
"""
CALL_3 = """
ended  | –          | yes | at hold 0 | 0
hold 0 | cell 0, no | no  | at hold 1 | 1
hold 1 | cell 1, no | no  | at cell 0 | 2
"""
CALL_5 = """
cell 0 | cell 2, no | no  | at cell 0 | 3
ended  | –          | yes | at hold 0 | 0
hold 0 | cell 0, no | no  | at hold 1 | 1
hold 1 | cell 1, no | no  | at cell 0 | 2
cell 0 | cell 2, no | no  | at cell 0 | 3
ended  | –          | yes | at hold 0 | 0
"""
CALL_6 = """
hold 0 | cell 0, no       | no | at hold 1 | 1
hold 1 | cell 1, put back | no | at cell 0 | 2
"""


def store_before_call_7(stores: Stores) -> Store:
    """The store with M = 3 and R = 2 after calls 1 to 6."""
    store = new_store(stores, 3, 2)
    store.yarn(0, 5)
    store.take(0, B, 0, 1)
    store.take(1, A, 0, 0)
    store.drop(1)
    store.take(1, B, 1, 1)
    store.take(1, B, 0, 0)
    return store


def calls_1_to_3(stores: Stores) -> None:
    """A new store with M = 3 and R = 2, then calls 1 to 3."""
    store = new_store(stores, 3, 2)
    rows = UnitRows(store)
    same("K", store.cycle_limit(), 6)
    same("new store", state(store), ([NOTHING, NOTHING], [0, 1, 2], "WWW", "WWW"))
    same("new store", (store.stage, store.sweep_place), (AtHold(0), 3))
    same("1", store.yarn(0, 5), None)
    same("1", rows.taken(), [])
    same("2", store.take(0, B, 0, 1), Taken(0, 2))
    same("2", rows.taken(), rows_of(CALL_2))
    same("2", body(store, 0), Cell(Joint.BESIDE, Yarn(5), Nothing()))
    same("2", state(store), ([Link(0), NOTHING], [1, 2], "BWW", "WWW"))
    colours_after_turn = []
    see = store.watch

    def watch(moment: Moment) -> None:
        see(moment)
        if moment == TurnMoment():
            colours_after_turn.append(state(store)[2:])

    store.watch = watch
    same("3", store.take(1, A, 0, 0), Taken(1, 3))
    same("3", rows.taken(), rows_of(CALL_3))
    same("3", colours_after_turn, [("WWW", "BWW")])
    same("3", body(store, 1), Cell(Joint.ABOVE, Link(0), Link(0)))
    same("3", state(store), ([Link(0), Link(1)], [2], "GBW", "WWW"))


def calls_4_to_6(stores: Stores) -> None:
    """Calls 4 to 6 on the store after call 3."""
    store = new_store(stores, 3, 2)
    rows = UnitRows(store)
    store.yarn(0, 5)
    store.take(0, B, 0, 1)
    store.take(1, A, 0, 0)
    rows.taken()
    same("4", store.drop(1), None)
    same("4", store.reached(), {0})
    same("4", rows.taken(), [])
    same("5", store.take(1, B, 1, 1), Taken(2, 6))
    same("5", rows.taken(), rows_of(CALL_5))
    same("5", body(store, 2), Cell(Joint.BESIDE, Nothing(), Nothing()))
    same("5", state(store), ([Link(0), Link(2)], [], "WWB", "BWB"))
    same("6", store.take(1, B, 0, 0), Taken(1, 2))
    same("6", rows.taken(), rows_of(CALL_6))
    same("6", body(store, 1), Cell(Joint.BESIDE, Link(0), Link(0)))
    same("6", state(store), ([Link(0), Link(1)], [], "GBB", "WWB"))
    same("6", store.reached(), {0, 1})


def call_7(stores: Stores) -> None:
    """Save into lent memory that is just long enough, and into shorter one."""
    filled = ([1, 0, NOT_IN_PATTERN], [1, 0, 77])
    texts = (
        (43, Saved(2, 43), filled, SAVED_BYTES),
        (42, Refused(16), filled, b"#" * 42),
        (45, Saved(2, 43), filled, SAVED_BYTES + b"##"),
    )
    same("7", len(SAVED_BYTES), 43)
    for length, answer, tables, left in texts:
        store = store_before_call_7(stores)
        before = picture_of(store)
        buffer, numbers, order = bytearray(b"#" * length), [77] * 3, [77] * 3
        same("7", store.save(1, buffer, numbers, order), answer)
        same("7", (numbers, order), tables)
        same("7", bytes(buffer), left)
        same("7", picture_of(store), before)
    told = lines("cells·2 / above·0 / yarns·1 / nothings·1 / ties·1")
    same("7", (report(SAVED_BYTES), reprint(SAVED_BYTES)), (told, SAVED_BYTES))
    for short in ((2, 3), (3, 2), (2, 2)):
        buffer, numbers, order = bytearray(b"#" * 43), [77] * short[0], [77] * short[1]
        same("7", store.save(1, buffer, numbers, order), Refused(17))
        same("7", (bytes(buffer), set(numbers), set(order)), (b"#" * 43, {77}, {77}))


# --------------------------------------------------------------------------
# Calls 8 to 10
# --------------------------------------------------------------------------

CALL_8 = """
hold 0 | –          | no  | at cell 0 | 1
ended  | –          | yes | at hold 0 | 0
hold 0 | cell 0, no | no  | at cell 0 | 1
"""
CALL_9 = """
ended  | –          | yes | at hold 0 | 0
hold 0 | cell 0, no | no  | at cell 0 | 1
cell 0 | –          | no  | at cell 0 | 1
"""
CALL_10 = """
ended  | –                | yes | at hold 0 | 0
hold 0 | cell 0, no       | no  | at cell 0 | 1
ended  | –                | yes | at hold 0 | 0
hold 0 | cell 0, put back | no  | at cell 0 | 1
"""


def calls_8_to_10(stores: Stores) -> None:
    """The store with M = 1 and R = 1."""
    store = new_store(stores, 1, 1)
    rows = UnitRows(store)
    same("K", store.cycle_limit(), 3)
    same("new store", state(store), ([NOTHING], [0], "W", "W"))
    same("new store", (store.stage, store.sweep_place), (AtHold(0), 1))
    same("8", store.take(0, B, 0, 0), Taken(0, 3))
    same("8", rows.taken(), rows_of(CALL_8))
    same("8", body(store, 0), Cell(Joint.BESIDE, Nothing(), Nothing()))
    same("8", state(store), ([Link(0)], [], "B", "W"))
    same("9", store.take(0, B, 0, 0), Refused(7, 9))
    same("9", rows.taken(), rows_of(CALL_9) * 3)
    same("9", store.holds(), [Link(0)])
    same("10", store.drop(0), None)
    same("10", store.take(0, B, 0, 0), Taken(0, 4))
    same("10", rows.taken(), rows_of(CALL_10))


# --------------------------------------------------------------------------
# Yarn limit, texts, load
# --------------------------------------------------------------------------


def yarn_limit(stores: Stores) -> None:
    """Example 11."""
    store = new_store(stores, 1, 1)
    same("11", store.yarn(0, 4095), None)
    before = picture_of(store)
    same("11", store.holds(), [Yarn(4095)])
    same("11", store.yarn(0, 4096), Refused(5))
    same("11", picture_of(store), before)


def texts(stores: Stores) -> None:
    """Examples 12 and 13, loaded."""
    store = new_store(stores, 2, 1)
    before = picture_of(store)
    broken, unnamed = LOOP_BYTES.replace(b"c0", b"c1"), lines(UNNAMED)
    same("12", (len(LOOP_BYTES), len(broken), len(unnamed)), (31, 31, 40))
    places = [77] * 3
    same("12", store.load(0, broken, places), Fault(Layer.LINE, 11, 2))
    same("13", store.load(0, unnamed, places), Fault(Layer.FILE, 12, 3))
    same("13", (picture_of(store), places), (before, [77] * 3))
    same("12", store.load(0, LOOP_BYTES, places), Loaded(1))
    same("12", (body(store, 0), places), (Cell(Joint.ABOVE, Link(0), Yarn(7)), [0, 77, 77]))


def load_section(stores: Stores) -> None:
    """The table of loads in a new store with M = 3 and R = 2."""
    store = new_store(stores, 3, 2)
    rows = UnitRows(store)
    places = [77] * 3
    no_room = Fault(Layer.STORE, 15, 0)
    same("load", store.load(1, SAVED_BYTES, places), Loaded(2))
    same("load", places, [0, 1, 77])
    same("load", state(store), ([NOTHING, Link(0)], [2], "BBW", "WWW"))
    same("load", store.load(0, LOOP_BYTES, places), Loaded(1))
    same("load", (places, body(store, 2).left), ([2, 1, 77], Link(2)))
    same("load", state(store)[1], [])
    same("load", store.load(0, LOOP_BYTES, places), no_room)
    store.drop(0)
    store.drop(1)
    same("load", store.reached(), set())
    same("load", store.load(0, LOOP_BYTES, places), no_room)
    same("load", (places, rows.taken()), ([2, 1, 77], []))
    same("load", store.take(0, B, 0, 0), Taken(0, 7))
    taken = rows.taken()
    turns = [unit for unit, row in enumerate(taken, 1) if row[2] == "yes"]
    same("load", turns, [3, 6])
    same("load", taken[6][1], "cell 0, put back")


def reprinting(_: Stores) -> None:
    """What docs/ARCHIVE.md says of the program reprint."""
    for count, fault in ((512, None), (513, b"fault\t15\t0\n"), (1164, b"fault\t15\t0\n")):
        text = write(shortest_pattern(count))
        same("reprint", len(text) <= 16_384, True)
        same("reprint", reprint(text), text if fault is None else fault)
    same("reprint", len(write(shortest_pattern(1165))) > 16_384, True)
    same("reprint", reprint(b"x" * 16_384 + b"\n"), b"fault\t13\t1\n")
    same("reprint", reprint(b"x" * 16_383 + b"\n" + LOOP_BYTES), b"fault\t9\t1\n")


def shortest_pattern(count: int) -> Pattern:
    """A pattern whose text is as short as any: each cell is named once."""
    return [
        Cell(Joint.BESIDE, Link(own + 1) if own + 1 < count else Nothing(), Nothing())
        for own in range(count)
    ]


# --------------------------------------------------------------------------
# Paces, tasks, size 0, opening
# --------------------------------------------------------------------------


def paces(stores: Stores) -> None:
    """How paces are set, and the units of a first take with M = 3, R = 2."""
    for numbers, pace in (
        ((9, 4), Pace(4, 4)), ((70000, 3), Pace(3, 3)), ((70000, 80000), Pace(65535, 65535)),
        ((0, 65536), Pace(0, 65535)), ((1 << 70, 1 << 70), Pace(65535, 65535)),
    ):
        same("pace", set_pace(*numbers), pace)
    for pace, units in (
        (Pace(0, 65535), 2), (Pace(3, 65535), 3), (Pace(9, 9), 9), (Pace(0, 1), 1),
        (Pace(0, 0), 0),
    ):
        store = new_store(stores, 3, 2)
        same("pace", store.take(0, B, 0, 1, pace), Taken(0, units))
        marks = sum(isinstance(moment, MarkMoment) for moment in store.history)
        same("pace", marks, units)
        store = new_store(stores, 3, 2)
        done = store.task(pace.least, pace.most, [TakeOf(0, B, 0, 1)])
        same("pace", (done, store.pace), (TaskDone(1), Pace(0, 65535)))
        marks = sum(isinstance(moment, MarkMoment) for moment in store.history)
        same("pace", marks, units)


def greatest_pace() -> None:
    """A take with the greatest number of units. It takes a second."""
    store = new_store(Store, 3, 2)
    same("greatest pace", store.take(0, B, 0, 1, set_pace(70000, 80000)), Taken(0, 65535))
    marks = sum(isinstance(moment, MarkMoment) for moment in store.history)
    same("greatest pace", marks, 65535)


def tasks(stores: Stores) -> None:
    """The table of tasks on new stores."""
    take, no_joint = TakeOf(0, B, 0, 0), TakeOf(0, X, 0, 0)
    for size, hold_count, pace, takes, done in (
        (1, 1, (0, 0), [take] * 3, TaskDone(1, Refused(7, 9))),
        (3, 2, (1, 1), [take] * 4, TaskDone(3, Refused(7, 18))),
        (3, 2, (1, 1), [take, no_joint, take], TaskDone(1, Refused(6))),
        (3, 2, (1, 1), [], TaskDone(0)),
    ):
        store = new_store(stores, size, hold_count)
        same("task", store.task(*pace, takes), done)
        same("task", store.pace, Pace(0, 65535))
        gifts = sum(isinstance(moment, GiftMoment) for moment in store.history)
        same("task", gifts, done.accepted)


def size_0(stores: Stores) -> None:
    """Stores without cells."""
    for passed, hold_count, units in ((1, 1, 6), (2, 2, 9), (96, 96, 291), (200, 96, 291),
                                      (0, 1, 6)):
        store = new_store(stores, 0, passed)
        same("size 0", store.hold_count, hold_count)
        same("size 0", [store.take(0, B, 0, 0) for _ in range(2)], [Refused(7, units)] * 2)
        same("size 0", store.load(0, LOOP_BYTES, []), Fault(Layer.STORE, 17, 0))
        same("size 0", store.load(0, LOOP_BYTES, [77]), Fault(Layer.STORE, 15, 0))
        same("size 0", store.save(0, bytearray(), [], []), Refused(4))
        same("size 0", store.sweep(), Ended())
        same("size 0", store.turn(), Refused(8))
        answers = [store.mark() for _ in range(hold_count + 1)]
        same("size 0", answers, [AtHold(r) for r in range(hold_count)] + [Ended()])
        same("size 0", store.turn(), None)


def opening(stores: Stores) -> None:
    """The check before open, and the clipped number of holds."""
    for size, hold_count, number in (
        (0, 0, 1), (0, 1, 1), (0, 97, 1), (1, 0, 2), (1, 97, 2), (16384, 1 << 40, 2),
        (1, 1, None), (1, 96, None), (16384, 96, None),
    ):
        refusal = None if number is None else Refused(number)
        same("opening", check_before_open(size, hold_count), refusal)
    for passed, hold_count in ((0, 1), (1, 1), (95, 95), (96, 96), (97, 96), (1 << 40, 96)):
        same("opening", new_store(stores, 1, passed).hold_count, hold_count)


EXAMPLES: Tuple[Callable[[Stores], None], ...] = (
    calls_1_to_3, calls_4_to_6, call_7, calls_8_to_10, yarn_limit, texts, load_section,
    reprinting, paces, tasks, size_0, opening,
)


def check_examples(stores: Stores = Store) -> int:
    """Runs all examples and tells how many groups there are."""
    for example in EXAMPLES:
        example(stores)
    return len(EXAMPLES)
