"""All states of tiny stores.

From a new store every call is tried in every state, until no new state is
met. Paces, units and takes without a free cell need no calls of their own: a
unit is a mark, a sweep and perhaps a turn. Nothing stands for every yarn and
`b` for both joints, since the collector does not tell them apart.

In every state are checked: the invariant, statement 1, statement 3 with its
3 × K units, and that K units contain a turn.
"""

from __future__ import annotations

from itertools import product
from typing import Callable, Iterator, List, Set, Tuple

import model
from model import Cell, Joint, Link, Nothing
from store_calls import CYCLE, STATEMENT_3, everything, number_of
from store_examples import B, new_store
from store_model import Pace, Side, Store
from store_watch import STATEMENT_1, check_invariant, in_words, picture_of, require

# The sizes and hold counts whose states are few enough.
TINY: Tuple[Tuple[int, int], ...] = ((0, 1), (0, 2), (1, 1), (1, 2), (1, 3), (2, 1))

Step = Callable[[Store], object]


def tiny_texts(size: int) -> List[bytes]:
    """The texts of all patterns of at most so many cells, without yarns."""
    texts = []
    for count in range(1, size + 1):
        contents = [Nothing(), *(Link(number) for number in range(count))]
        cells = [Cell(Joint.BESIDE, *pair) for pair in product(contents, contents)]
        for pattern in product(cells, repeat=count):
            text = model.write(list(pattern))
            if model.judge(text) == list(pattern):
                texts.append(text)
    return texts


def steps(size: int, hold_count: int) -> List[Tuple[int, Step]]:
    """Every call that can be accepted, with the free cells that it needs."""
    result: List[Tuple[int, Step]] = [(0, Store.mark), (0, Store.sweep), (0, Store.turn)]
    holds = range(hold_count)
    for h in holds:
        result.append((0, lambda store, h=h: store.drop(h)))
        for text in tiny_texts(size):
            need = text.count(b"\n") - 2
            result.append((need, lambda store, h=h, t=text: store.load(h, t, [0] * size)))
    for h, g in product(holds, holds):
        result.append((0, lambda store, h=h, g=g: store.copy(h, g)))
        for side in Side:
            result.append((0, lambda store, h=h, g=g, side=side: store.follow(h, side, g)))
            result.append((0, lambda store, h=h, g=g, side=side: store.tie(h, side, g)))
    for h, a, b in product(holds, holds, holds):
        result.append((1, lambda store, h=h, a=a, b=b: store.take(h, B, a, b, Pace(0, 0))))
    return result


def check_state(store: Store) -> None:
    """What must hold in every state."""
    check_invariant(store)
    reached, free = store.reached(), set(store.free_list())
    require(not reached & free, STATEMENT_1, f"reached and free in {picture_of(store)}")
    limit = store.hold_count + store.size + 1
    twin = store.clone()
    turned = [twin.unit().turned for _ in range(limit)]
    require(any(turned), CYCLE, f"no turn in {limit} units from {picture_of(store)}")
    answer = store.clone().take(0, B, 0, 0)
    is_seven, full = number_of(answer) == 7, len(reached) == store.size
    require(is_seven == full, STATEMENT_3, f"{answer} in {picture_of(store)}")
    require(not is_seven or answer.units == 3 * limit, STATEMENT_3, f"{answer}, K = {limit}")


def key_of(store: Store) -> tuple:
    """What tells one state from another, in a form that can be looked up fast."""
    cells, numbers, holds, _ = everything(store)
    words = [
        (in_words(left), in_words(right), tag.value, mark.value, sweep.value)
        for _, left, right, tag, mark, sweep in cells
    ]
    return (*words, *numbers, *map(in_words, holds))


def after_one_step(store: Store, tried: List[Tuple[int, Step]]) -> Iterator[Store]:
    """The stores that one step gives. A step without a moment gives none."""
    twin = store.clone()
    for need, step in tried:
        if need <= store.free_count:
            step(twin)
        if twin.history:
            yield twin
            twin = store.clone()


def count_states(size: int, hold_count: int) -> int:
    """Meets and checks all states of a store and tells their number."""
    first = new_store(Store, size, hold_count)
    tried = steps(size, hold_count)
    met: Set[tuple] = {key_of(first)}
    waiting = [first]
    while waiting:
        store = waiting.pop()
        check_state(store)
        for other in after_one_step(store, tried):
            key = key_of(other)
            if key not in met:
                met.add(key)
                waiting.append(other)
    return len(met)
