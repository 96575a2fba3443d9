"""Checks the model of the store.

    python3 tests/check_store.py [--seed N] [--runs N] [--calls N] [--most-cells N]
                                 [--first N] [--only-runs]

It checks, in this order,

- the worked examples of docs/EXAMPLES.md;
- the well-known mistakes at the end of docs/STORE.md, on the runs given there;
- all states of tiny stores;
- wrong variants of the store: the random runs must find each of them;
- long random runs of calls on small stores, with good and bad arguments:
  every moment and every call.

A random run depends only on the seed, its index, the number of calls and the
greatest number of cells. Exit status: 0 if all is as it should be, 1 at the
first failure, which is reported with what is needed to see it again.
"""

from __future__ import annotations

import argparse
import random
import sys
from collections import Counter
from dataclasses import dataclass, field, replace
from typing import Dict, FrozenSet, List, Optional, Tuple, Type

sys.dont_write_bytecode = True

import compare  # noqa: E402  (the line above must come first)
import model  # noqa: E402
from model import Content, Joint, Link, Nothing, Yarn  # noqa: E402
from store_calls import (  # noqa: E402
    EVERY_CHECK, HAND, NAMES, STATEMENT_3, Call, Caller, number_of,
)
from store_examples import check_examples, greatest_pace  # noqa: E402
from store_model import (  # noqa: E402
    AtHold, Colour, HeapRefused, Memory, Side, Store, StoreCell, Tag, TakeOf, set_pace,
)
from store_states import TINY, count_states  # noqa: E402
from store_watch import STATEMENT_1, STATEMENT_2, STEP, CheckFailed  # noqa: E402
from store_wrong import OTHERS, WELL_KNOWN, check_documented_runs  # noqa: E402

DEFAULT_RUNS = 800
DEFAULT_CALLS = 250
DEFAULT_MOST_CELLS = 6
ENOUGH = 20  # how often each answer must occur in a run of the default counts
VARIANT_RUNS = 1000  # so many random runs may be needed to find a wrong variant
VARIANT_FEW_RUNS = 40  # so many are tried where it need not be found
VARIANT_CALLS = 200

STATEMENTS = frozenset((STATEMENT_1, STATEMENT_2, STATEMENT_3))

Rng = random.Random

# --------------------------------------------------------------------------
# Random stores
# --------------------------------------------------------------------------


def any_content(rng: Rng, size: int) -> Content:
    """Any content that is in range in a store of this size."""
    kind = rng.randrange(3)
    if kind == 0 or (kind == 2 and size == 0):
        return Nothing()
    return Yarn(rng.choice((0, 5, 4095))) if kind == 1 else Link(rng.randrange(size))


def any_cell(rng: Rng, size: int) -> StoreCell:
    """A cell with anything that a sound heap may contain."""
    return StoreCell(
        rng.choice(list(Joint)), any_content(rng, size), any_content(rng, size),
        rng.choice(list(Tag)), rng.choice(list(Colour)),
        rng.choice((Colour.WHITE, Colour.BLACK)),
    )


def random_store(rng: Rng, stores: Type[Store], most_cells: int) -> Tuple[Store, int]:
    """A new store over cells with any contents, and the R that was passed.

    The hold table often has surplus entries, also with any contents.
    """
    sizes = range(most_cells + 1)
    size = rng.choices(sizes, [1 if each == 0 else 3 + each for each in sizes])[0]
    passed = rng.choices((1, 2, 3, 0, rng.choice((96, 97, 200, 1 << 32))), (20, 40, 40, 3, 1))[0]
    hold_count = min(max(passed, 1), 96)
    table = [any_content(rng, size) for _ in range(hold_count + rng.randrange(3))]
    memory = Memory([any_cell(rng, size) for _ in range(size)])
    return stores(memory, passed, table), passed


# --------------------------------------------------------------------------
# Random calls
# --------------------------------------------------------------------------

BASE_WEIGHTS: Dict[str, int] = {
    "yarn": 2, "drop": 4, "copy": 8, "follow": 8, "tie": 8, "take": 14, "task": 2, "load": 4,
    "save": 3, "mark": 12, "sweep": 12, "turn": 4, "unit": 10,
}
COLLECTOR = ("mark", "sweep", "turn", "unit")
# The calls of each phase, how many there are on average, and how often it comes.
PHASES: Tuple[Tuple[Tuple[str, ...], int, int], ...] = (
    (NAMES, 12, 2), (HAND, 3, 1), (COLLECTOR, 20, 4), (("take", *HAND), 6, 1),
    (("take", "task", "load"), 4, 2),
)
BIG = (96, 97, 255, 256, 65_535, 65_536, (1 << 32) - 1, 1 << 32, (1 << 64) - 1)


class Chooser:
    """Makes random calls that suit the present state of a store.

    It goes through phases in which only calls of some kinds are made: a cell
    is lost by a mistake only if it is left alone for a while afterwards.
    """

    def __init__(self, rng: Rng, store: Store) -> None:
        self.rng = rng
        self.store = store
        factors = [rng.choice((0.2, 1, 1, 3)) for _ in NAMES]
        self.weights = {name: BASE_WEIGHTS[name] * each for name, each in zip(NAMES, factors)}
        self.phase, self.length, _ = PHASES[0]
        self.waiting: Optional[Call] = None
        self.wanted = rng.randint(min(1, store.size), store.size)  # so many reached cells
        self.touch = rng.choice((0.05, 0.1, 0.25))  # how often the hand comes into the marking
        self.bad = rng.choice((0, 0.02, 0.05, 0.15))  # how often an argument is bad
        self.idle = rng.choice((0.1, 0.5, 0.9))  # how often a take runs no units

    def call(self) -> Call:
        """The next call."""
        if self.waiting is not None:
            call, self.waiting = self.waiting, None
            return call
        self.choose_phase()
        weights = [self.weights[name] for name in self.phase]
        name = self.rng.choices(self.phase, weights)[0]
        reached = len(self.store.reached())
        if name in ("take", "task") and reached == self.store.size and self.rng.random() < 0.7:
            name = "drop"
        if name in HAND and reached < self.wanted and self.rng.random() < 0.7:
            name = self.rng.choice(("take", "take", "load"))
        make = getattr(self, name, None)
        call = Call(name) if make is None else Call(name, make())
        if self.rng.random() < 0.4:
            self.waiting = self.overwriting(call)
        return call

    def overwriting(self, call: Call) -> Optional[Call]:
        """A call that takes away the place from which a call moves a cell.

        The collector is then left to itself: what it has not been told of is
        lost soon.
        """
        given = call.arguments
        if call.name not in ("copy", "follow", "tie") or given[0] == given[-1]:
            return None
        self.phase, self.length, _ = PHASES[2]
        if call.name != "follow":
            return Call("drop", given[-1:])
        if self.rng.random() < 0.5:
            return Call("drop", given[:1])
        return Call("tie", (*given[:2], given[0]))

    def choose_phase(self) -> None:
        """Perhaps another phase; often the hand's while marking is under way."""
        if self.phase is COLLECTOR and self.is_marking() and self.rng.random() < self.touch:
            self.phase, self.length, _ = self.rng.choice((PHASES[1], PHASES[3]))
        elif self.rng.random() < 1 / self.length:
            weights = [often for _, _, often in PHASES]
            self.phase, self.length, _ = self.rng.choices(PHASES, weights)[0]

    def is_marking(self) -> bool:
        """Whether some hold was visited and some hold or grey cell is left."""
        stage = self.store.stage
        if isinstance(stage, AtHold):
            return stage.number > 0
        return self.store.memory.first_grey(0) is not None

    def is_bad(self) -> bool:
        """Whether an argument shall be bad."""
        return self.rng.random() < self.bad

    def hold(self, with_cell: bool = False) -> int:
        """A hold number, preferably of a hold with a cell if so asked."""
        count = self.store.hold_count
        if self.is_bad():
            return self.rng.choice([count, count + 1, *(n for n in BIG if n >= count)])
        if with_cell and self.rng.random() < 0.9:
            full = [h for h, c in enumerate(self.store.holds()) if isinstance(c, Link)]
            if full:
                return self.rng.choice(full)
        return self.rng.randrange(count)

    def side(self) -> Side:
        """Left or right."""
        return self.rng.choice((Side.LEFT, Side.RIGHT))

    def joint(self) -> int:
        """A byte, seldom one that is no joint."""
        return self.rng.randrange(256) if self.is_bad() else self.rng.choice(b"ba")

    def pace(self) -> Tuple[int, int]:
        """Two numbers from which a pace is set; it asks for few units."""
        rng, limit = self.rng, self.store.cycle_limit()
        if rng.random() < self.idle:
            return (rng.choice((0, 0, 7, 70_000)), 0)
        return rng.choice((
            (0, 65_535), (0, 65_536), (0, 1 << 40), (rng.randrange(5), 65_535), (0, 1),
            (rng.randint(0, limit), rng.randint(0, 2 * limit)), (70_000, rng.randint(0, limit)),
        ))

    def yarn(self) -> tuple:
        """The arguments of yarn."""
        number = self.rng.choice((0, 1, 5, 4094, 4095))
        if self.rng.random() < 0.15:
            number = self.rng.choice((4096, 4097, 65_536, 65_541, 1 << 32, (1 << 64) - 1))
        return (self.hold(), number)

    def drop(self) -> tuple:
        """The arguments of drop."""
        return (self.hold(with_cell=True),)

    def copy(self) -> tuple:
        """The arguments of copy, often of a white cell."""
        whites = self.holds_of(Colour.WHITE)
        if whites and self.rng.random() < 0.5:
            return (self.hold(), self.rng.choice(whites))
        return (self.hold(), self.hold(with_cell=True))

    def follow(self) -> tuple:
        """The arguments of follow, preferably to a side that is a cell."""
        hold, side = self.hold(with_cell=True), self.side()
        if hold < self.store.hold_count and isinstance(self.store.holds()[hold], Link):
            cell = self.store.cell_in(hold)
            if isinstance(cell.left, Link) != isinstance(cell.right, Link):
                if self.rng.random() < 0.8:
                    side = Side.LEFT if isinstance(cell.left, Link) else Side.RIGHT
        return (hold, side, self.hold())

    def tie(self) -> tuple:
        """The arguments of tie, often a white cell into a black one."""
        blacks, whites = self.holds_of(Colour.BLACK), self.holds_of(Colour.WHITE)
        if blacks and whites and self.rng.random() < 0.5:
            return (self.rng.choice(blacks), self.side(), self.rng.choice(whites))
        with_cell = self.rng.random() < 0.7
        return (self.hold(with_cell=True), self.side(), self.hold(with_cell))

    def holds_of(self, colour: Colour) -> List[int]:
        """The holds whose cell has this mark colour."""
        cells = self.store.memory.cells
        return [
            hold
            for hold, content in enumerate(self.store.holds())
            if isinstance(content, Link) and cells[content.number].mark is colour
        ]

    def take(self) -> tuple:
        """The arguments of take, with a pace of its own."""
        a, b = (self.hold(with_cell=self.rng.random() < 0.5) for _ in range(2))
        return (self.hold(), self.joint(), a, b, set_pace(*self.pace()))

    def task(self) -> tuple:
        """The arguments of task."""
        takes = [TakeOf(*self.take()[:4]) for _ in range(self.rng.choice((0, 1, 2, 2, 3, 5)))]
        return (*self.pace(), takes)

    def load(self) -> tuple:
        """The arguments of load, with a good or a damaged text."""
        rng = self.rng
        most = max(1, self.store.free_count if rng.random() < 0.7 else self.store.size + 2)
        count = rng.randint(1, most)
        text = model.write(compare.random_pattern(rng, count))
        if rng.random() < 0.3:
            changes, weights = zip(*compare.DAMAGES)
            for change in rng.choices(changes, weights, k=rng.choice((1, 1, 1, 2))):
                text = change(rng, text)
        if rng.random() < 0.08:
            text = compare.noise_case(rng).text
        return (self.hold(), text, self.room(count))

    def room(self, needed: int) -> int:
        """The length of lent memory, mostly enough."""
        rng = self.rng
        if rng.random() < 0.1:
            return rng.choice((max(needed - 1, 0), rng.randint(0, needed), 0))
        return needed + rng.choice((0, 0, 1, 3))

    def save(self) -> tuple:
        """The arguments of save, with lengths near those that are needed."""
        hold, length = self.hold(with_cell=True), 30
        if hold < self.store.hold_count and isinstance(self.store.holds()[hold], Link):
            first = self.store.holds()[hold].number
            length = len(model.write(model.numbered(self.store.memory.cells, first)))
        return (hold, self.room(length), *(self.room(self.store.size) for _ in range(2)))


# --------------------------------------------------------------------------
# Random runs
# --------------------------------------------------------------------------


@dataclass
class Tally:
    """What happened in all random runs."""

    runs: int = 0
    calls: Counter = field(default_factory=Counter)
    accepted: Counter = field(default_factory=Counter)
    refused: Counter = field(default_factory=Counter)
    moments: Counter = field(default_factory=Counter)
    put_back: int = 0
    judged_turns: int = 0
    cycles: int = 0

    def add_call(self, call: Call, number: Optional[int]) -> None:
        """Counts one call by its answer."""
        self.calls[call.name] += 1
        if number is None:
            self.accepted[call.name] += 1
        else:
            self.refused[number] += 1

    def add_run(self, caller: Caller) -> None:
        """Counts the moments of a run."""
        self.runs += 1
        self.moments += caller.watcher.moments
        self.put_back += caller.watcher.puts_back
        self.judged_turns += caller.watcher.judged_turns

    def too_rare(self) -> List[str]:
        """The answers that occurred too seldom."""
        counts = {f"accepted {name}": self.accepted[name] for name in NAMES}
        counts.update((f"refusal {number}", self.refused[number]) for number in range(3, 18))
        return [name for name, count in counts.items() if count < ENOUGH]

    def print(self) -> None:
        """All counts."""
        print(f"random runs: {self.runs}, calls: {sum(self.calls.values())}")
        for name in NAMES:
            print(f"  {name}: {self.calls[name]}, accepted {self.accepted[name]}")
        refused = ", ".join(f"{n}: {self.refused[n]}" for n in sorted(self.refused))
        print(f"refused by number: {refused}")
        moments = self.moments
        print(
            f"moments: {sum(moments.values())} (marks {moments['MarkMoment']}, "
            f"sweeps {moments['SweepMoment']}, turns {moments['TurnMoment']}, "
            f"gifts {moments['GiftMoment']}, hand {moments['HandMoment']})"
        )
        print(
            f"turns: {moments['TurnMoment']}, of them with two turns after them "
            f"{self.judged_turns}; cells put back: {self.put_back}; "
            f"states from which K units were tried: {self.cycles}"
        )


class RunFailed(Exception):
    """A random run in which a check failed, with what it did until then."""

    def __init__(self, index: int, opened: str, calls: List[Call], reason: Exception) -> None:
        super().__init__(str(reason))
        self.index = index
        self.opened = opened
        self.calls = calls
        self.reason = reason

    def check(self) -> str:
        """The name of the check."""
        if isinstance(self.reason, CheckFailed):
            return self.reason.check
        if isinstance(self.reason, HeapRefused):
            return f"heap refusal {self.reason.number}"
        return type(self.reason).__name__


@dataclass(frozen=True)
class Plan:
    """What random runs there shall be, on which stores and with which checks."""

    seed: int
    first: int
    runs: int
    calls: int
    most_cells: int
    stores: Type[Store] = Store
    checks: FrozenSet[str] = EVERY_CHECK


def random_run(plan: Plan, index: int, tally: Tally) -> None:
    """One random run. Whatever goes wrong in it is raised as RunFailed."""
    rng = random.Random(f"{plan.seed}:{index}")
    store, passed = random_store(rng, plan.stores, plan.most_cells)
    opened = f"M = {store.size}, R passed as {passed}, {len(store.hold_table)} hold entries"
    calls: List[Call] = []
    try:
        caller = Caller(store, plan.checks)
        chooser = Chooser(rng, store)
        # With many holds a single take may run hundreds of units.
        count = plan.calls if store.hold_count < 10 else plan.calls // 10
        for _ in range(count):
            calls.append(chooser.call())
            tally.add_call(calls[-1], number_of(caller.make(calls[-1])))
            if rng.random() < 0.05:
                caller.check_cycle()
                tally.cycles += 1
        tally.add_run(caller)
    except Exception as reason:  # a wrong variant may fail in any way
        raise RunFailed(index, opened, calls, reason) from reason


def random_runs(plan: Plan, tally: Tally) -> None:
    """All random runs of a plan, until one fails."""
    for index in range(plan.first, plan.first + plan.runs):
        random_run(plan, index, tally)


def report(plan: Plan, failed: RunFailed) -> None:
    """Tells a failure so that it can be seen again."""
    print(f"FAILED: {failed.check()}")
    print(failed)
    print(f"seed {plan.seed}, run {failed.index} ({failed.opened}), call {len(failed.calls)}")
    for number, call in enumerate(failed.calls, 1):
        print(f"  {number}: {call}")
    print(f"again: python3 tests/check_store.py --only-runs --seed {plan.seed} "
          f"--first {failed.index} --runs 1 --calls {plan.calls} "
          f"--most-cells {plan.most_cells}")


# --------------------------------------------------------------------------
# Wrong variants
# --------------------------------------------------------------------------


def found_by_examples(variant: Type[Store]) -> str:
    """The first worked example that finds a variant."""
    try:
        check_examples(variant)
    except CheckFailed as failed:
        return failed.check
    except Exception as reason:  # a wrong variant may fail in any way
        return type(reason).__name__
    return "no example"


def found_by_runs(plan: Plan) -> Optional[str]:
    """The check that finds a variant in random runs, and where; None if none does."""
    try:
        random_runs(plan, Tally())
    except RunFailed as failed:
        return f"{failed.check()} (run {failed.index}, call {len(failed.calls)})"
    return None


def check_variant(seed: int, variant: Type[Store]) -> bool:
    """Tries a wrong variant, prints what finds it, and tells whether it was found."""
    plan = Plan(seed, 0, VARIANT_RUNS, VARIANT_CALLS, DEFAULT_MOST_CELLS, variant)
    few = replace(plan, runs=VARIANT_FEW_RUNS)
    found = [found_by_runs(plan)]
    columns = [
        found_by_examples(variant),
        found[0] or "NOT FOUND",
        found_by_runs(replace(few, checks=EVERY_CHECK - {STEP})) or "-",
    ]
    if variant in WELL_KNOWN:
        found.append(found_by_runs(replace(plan, checks=frozenset((STATEMENT_1,)))))
        columns.append(found[1] or "NOT FOUND")
    else:
        columns.append(found_by_runs(replace(few, checks=STATEMENTS)) or "-")
    print(f"  {variant.__name__}: " + "; ".join(columns))
    return None not in found


def check_variants(seed: int) -> List[str]:
    """Tries all wrong variants; gives those that were not found."""
    print("wrong variants, found by: first worked example; random runs; a few random runs")
    print("without the step check; a few random runs with the three statements alone, and for")
    print("the four well-known mistakes random runs with statement 1 alone")
    return [
        variant.__name__
        for variant in (*WELL_KNOWN, *OTHERS)
        if not check_variant(seed, variant)
    ]


# --------------------------------------------------------------------------
# The command
# --------------------------------------------------------------------------


def check_fixed(seed: int) -> bool:
    """Everything but the random runs; tells whether all is well."""
    try:
        greatest_pace()
        print(f"worked examples: {check_examples()} groups as documented")
        runs = check_documented_runs()
        print(f"well-known mistakes: {runs} runs, statement 1 broken by the mistake alone")
        states = ", ".join(f"M = {m}, R = {r}: {count_states(m, r)}" for m, r in TINY)
        print(f"all states of tiny stores: {states}")
    except (CheckFailed, HeapRefused) as failed:
        print(f"FAILED: {failed}")
        return False
    missed = check_variants(seed)
    if missed:
        print(f"FAILED: the random runs did not find {', '.join(missed)}")
    return not missed


def main() -> int:
    """Reads the arguments and checks."""
    parser = argparse.ArgumentParser(description="Check the model of the store.")
    parser.add_argument("--seed", type=int, default=1)
    parser.add_argument("--runs", type=int, default=DEFAULT_RUNS, help="how many random runs")
    parser.add_argument("--calls", type=int, default=DEFAULT_CALLS, help="calls of each run")
    parser.add_argument("--most-cells", type=int, default=DEFAULT_MOST_CELLS)
    parser.add_argument("--first", type=int, default=0, help="the index of the first run")
    parser.add_argument("--only-runs", action="store_true", help="only the random runs")
    options = parser.parse_args()
    if not options.only_runs and not check_fixed(options.seed):
        return 1
    plan = Plan(options.seed, options.first, options.runs, options.calls, options.most_cells)
    tally = Tally()
    try:
        random_runs(plan, tally)
    except RunFailed as failed:
        report(plan, failed)
        return 1
    tally.print()
    if options.runs >= DEFAULT_RUNS and options.calls >= DEFAULT_CALLS and tally.too_rare():
        print(f"FAILED: too few of these answers: {', '.join(tally.too_rare())}")
        return 1
    print("ok")
    return 0


if __name__ == "__main__":
    sys.exit(main())
