"""Several trees in one memory."""
import copy
from array import array
from typing import Any, Iterable, NamedTuple, Optional

from . import _engine as engine
from ._arguments import amounts, u64
from ._desk_inputs import warn_of_quotes
from ._faults import call
from ._kept import Kept
from ._limits import MAX_NAME, SHELF_ROOM
from .amounts import Amount, Amounts

NO_TREE, FITTED = 0, 2


class ShelvedTree(NamedTuple):
    """A tree on a shelf, as it was asked for; it awaits its commit where it is not fitted."""

    steps: int
    reversion: int
    fitted: bool


class Shelf:
    """Up to eight trees under the names 1 to MAX_NAME, which share a memory of SHELF_ROOM discounts.

    A tree is asked for, which sets aside the nodes that its discounts need, all 0; then it is committed, which fits it to points; then it is
    priced by its name until it is released. A refused call leaves the shelf as it was, and work on one name changes no discount of another.
    From its commit on a tree carries its error bound, which its prices read: see bounds().
    Any number of threads may use one shelf: those that change it take turns, and a price is that of the shelf before or after a change.
    """

    def __init__(self) -> None:
        self._kept = Kept(call("empty_shelf"), SHELF_ROOM)

    def __repr__(self) -> str:
        trees = {name: self.tree(name) for name in range(1, MAX_NAME + 1)}
        return f"<Shelf {({name: tree for name, tree in trees.items() if tree})}>"

    def __copy__(self) -> "Shelf":
        return copy.deepcopy(self)

    def ask(self, name: int, steps: int, reversion: int) -> None:
        """Asks for a tree under a name that has none."""
        self._kept.change("shelf_ask", "shelf", u64("name", name), u64("steps", steps), u64("reversion", reversion))

    def commit(self, name: int, frequency: int, volatility: int, points: engine.Points) -> None:
        """Fits the tree of a name that awaits its commit to as many points as it has steps. Where the fit is refused the tree still awaits a
        commit; one that is fitted takes no other."""
        quoted = engine.columns(points)
        warn_of_quotes("points", *quoted)
        self._kept.change("shelf_commit", "shelf", u64("name", name), u64("frequency", frequency),
                          u64("volatility", volatility), *quoted)

    def release(self, name: int) -> None:
        """Releases the tree of a name, fitted or not: its nodes are free for any later asking."""
        self._kept.change("shelf_release", "shelf", u64("name", name))

    def _slot(self, name: int) -> Any:
        """What the shelf keeps of a name that has a tree; else None."""
        number = u64("name", name)
        if not 1 <= number <= MAX_NAME:
            return None
        slot = self._kept.both[0].slots[number - 1]
        return None if slot.status == NO_TREE else slot

    def tree(self, name: int) -> Optional[ShelvedTree]:
        """The tree of a name, as ShelvedTree(steps, reversion, fitted); None where it has none."""
        slot = self._slot(name)
        return None if slot is None else ShelvedTree(slot.steps, slot.reversion, slot.status == FITTED)

    def bounds(self, name: int) -> Optional[engine.TreeErrorBounds]:
        """What the tree of a name carries, as TreeErrorBounds(bound, greatest): the error bound of its prices and the greatest discount of each
        row, worked out once, by its commit. All are 0 while it awaits that; None where the name has no tree."""
        slot = self._slot(name)
        return None if slot is None else engine.TreeErrorBounds(slot.bound, tuple(slot.greatest))

    @property
    def nodes_held(self) -> int:
        """How many nodes the trees of all names hold, of SHELF_ROOM."""
        shelf, _ = self._kept.both
        return sum(int(call("shelf_part", shelf, name).count) for name in range(1, MAX_NAME + 1))

    def discounts(self, name: int) -> "array[int]":
        """The discounts of a name's tree for rows 0 to n - 1, row after row, lowest node first, as array('Q'): all 0 while it awaits its commit,
        and none where the name has no tree. They are a copy, which no later call changes."""
        shelf, memory = self._kept.both
        part = call("shelf_part", shelf, u64("name", name))
        return array("Q", memory.values[part.start:part.start + part.count].tobytes())

    def _bond(self, name: int, flows: Amounts) -> Any:
        return *self._kept.both, u64("name", name), amounts("flows", flows)

    def bond_price(self, name: int, flows: Amounts) -> engine.Price:
        """The bond with these flows of rows 1 to n on the tree of a name, as the function bond_price gives it; its bound is the one that the tree
        carries."""
        return engine._price("shelf_bond_price", *self._bond(name, flows))

    def option_price(self, name: int, flows: Amounts, kind: int, expiry: int, strike: Amount) -> engine.Price:
        """An option on that bond, as the function option_price gives it."""
        return engine._price("shelf_option_price", *self._bond(name, flows), *engine._option(kind, expiry, strike))

    def bond_and_option(self, name: int, flows: Amounts, kind: int, expiry: int, strike: Amount) -> engine.BondAndOption:
        """Bond and option in one roll; each is a Price, or the Refused that its own method would raise."""
        return engine._both("shelf_bond_and_option", "shelf_bond_price", "shelf_option_price", *self._bond(name, flows),
                            *engine._option(kind, expiry, strike))

    def dated_option_price(self, name: int, flows: Amounts, side: int, dates: Iterable[int], strike: Amount) -> engine.Price:
        """An option on that bond with listed rows of exercise, as the function dated_option_price gives it."""
        return engine._price("shelf_dated_option_price", *self._bond(name, flows), *engine._dated_option(side, dates, strike))

    def bond_and_dated_option(self, name: int, flows: Amounts, side: int, dates: Iterable[int], strike: Amount) -> engine.BondAndOption:
        """Bond and dated option in one roll, as bond_and_option gives them."""
        return engine._both("shelf_bond_and_dated_option", "shelf_bond_price", "shelf_dated_option_price", *self._bond(name, flows),
                            *engine._dated_option(side, dates, strike))

    def option_strip(self, name: int, flows: Amounts, side: int, dates: Iterable[int], strikes: Amounts) -> engine.Strip:
        """Up to 16 strikes of one side and one list of dates, as the function option_strip gives them: each a Price, or the Refused that
        dated_option_price would raise for that strike. Raised are WrongName, and NotInTree for no strike or more than MAX_STRIKES."""
        return engine._strip("shelf_option_strip", "shelf_dated_option_price", (*self._bond(name, flows), *engine._side(side, dates)), strikes)

    def option_strip_of_kind(self, name: int, flows: Amounts, kind: int, expiry: int, strikes: Amounts) -> engine.Strip:
        """The same for one of the four kinds: each answer is what option_price gives, or would raise, for its strike."""
        return engine._strip("shelf_option_strip_of_kind", "shelf_option_price", (*self._bond(name, flows), *engine._kind(kind, expiry)), strikes)
