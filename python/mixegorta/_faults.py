"""Which argument a refusal is about. Asked only after the engine has refused, and the engine itself is asked again, of parts of the
call, so that no limit stands here."""
import struct
from typing import Any, Callable, Dict, List, Optional, Tuple, Union

from ._arguments import Memory, Slice, amounts, own_memory, quotes
from ._declarations import DECLARATIONS, CPoint
from ._library import LOCKED, UNLOCKED
from ._limits import ONE
from .refusals import CLASSES, Refused

Given = Dict[str, Any]
Place = Tuple[Optional[str], Optional[int]]


def _flat(given: Tuple[Any, ...]) -> List[Any]:
    """The arguments as ctypes takes them: a slice is its address, none where it is empty, and its count; a memory its address alone."""
    flat: List[Any] = []
    for argument in given:
        if isinstance(argument, Memory):
            flat.append(argument.address)
        elif isinstance(argument, Slice):
            flat += argument.address if argument.count else 0, argument.count
        else:
            flat.append(argument)
    return flat


def call(name: str, *given: Any) -> Any:
    """What the engine answers. The interpreter's lock is given up where the call has memory and all of it is the call's own."""
    memories = [argument.lent for argument in given if isinstance(argument, Slice)]
    return (UNLOCKED if memories and not any(memories) else LOCKED)[name](*_flat(given))


def refusal(number: int, name: str, given: Tuple[Any, ...], verdict: Any = None) -> Refused:
    """The exception for a refused call; of 16 to 18 the verdict shows what is wrong."""
    kind = CLASSES.get(number, Refused)
    if number == 16:
        return kind(number, "bands", place=verdict.place)
    if number in (17, 18):
        return kind(number, "bands", verdict.row, verdict.price)
    named = dict(zip(DECLARATIONS[name][1], given))
    argument, row = _place(number, named)
    lower = _lower_volatility(number, named)
    if lower is not None and argument == "points":
        argument = "volatility"
    return kind(number, argument, row, volatility=lower)


def accepted(number: int, name: str, given: Tuple[Any, ...], verdict: Any = None) -> None:
    """Raises the refusal of a call, where its number is one."""
    if number:
        refused = refusal(number, name, given, verdict)
        # whoever handles it may resize what was lent, though the traceback still holds this call
        for argument in given:
            if isinstance(argument, Slice) and argument.lent:
                argument.values.release()
        raise refused


def _place(number: int, given: Given) -> Place:
    if "file" in given:
        return "out", None
    if "job" in given:
        return _place_in_job(number, given)
    if "rate_steps" in given and number in (3, 4, 6, 9, 12, 19):
        return _place_in_pair(number, given)
    if "shelf" in given and "steps" not in given and number != 15:
        given = {**given, **_tree_on_shelf(given)}
    found = FINDERS.get(number, (None, None))
    return found(given) if callable(found) else found


def _place_in_pair(number: int, given: Given) -> Place:
    """Of the tree that alone gives the number, its own place; of both together the flows, the strike or the first row with a discount of 0."""
    if number == 19:
        return "spread_steps" if given["rate_steps"] != given["spread_steps"] else "rate_steps", None
    for side in ("rate_", "spread_"):
        tree = {name: given[side + name] for name in ("steps", "reversion", "discounts")}
        if call("price_error_bound", *tree.values()).number == number:
            argument, row = _place(number, tree)
            return f"{side}{argument}", row
    if number == 9:
        return "spread_discounts", _row_of_zero(given)
    return "strike" if number == 12 and _pair_bond(given, given["rate_steps"], given["flows"]).number == 0 else "flows", None


def _pair_bond(given: Given, steps: int, flows: Slice) -> Any:
    """The bond on the first so many steps of a pair."""
    rates, spreads = ((steps, given[side + "reversion"], given[side + "discounts"]) for side in ("rate_", "spread_"))
    return call("pair_bond_price", *rates, *spreads, flows)


def _row_of_zero(given: Given) -> Optional[int]:
    """The first row with a pair whose discount is 0: the last row of the shortest trees that are refused."""
    counts = range(1, given["rate_steps"] + 1)
    return next((steps - 1 for steps in counts if _pair_bond(given, steps, amounts("flows", [0] * steps)).number == 9), None)


def _place_in_job(number: int, given: Given) -> Place:
    if number == 6:
        return "out" if "out" in given else _short_memory(given), None
    if number not in (7, 9, 10):
        return "job", None
    return "job", _place(number, _fit_and_flows(bytes(given["job"])))[1]


def _short_memory(given: Given) -> str:
    """Which memory is too short for the tree of a job."""
    short = given["discounts"].count < _needed("discounts_needed", _fit_and_flows(bytes(given["job"])))
    return "discounts" if short else "state_prices"


def _fit_and_flows(job: bytes) -> Given:
    """The arguments of a well-formed job's fit and its flows."""
    frequency, steps, reversion, volatility = struct.unpack_from(">3xB3xB3xH3xI", job)
    # a version stands before the quotes, or none
    version, start = (job[23], 24) if job[20:21] == b"\x0b" else (1, 20)
    fields = [job[start + 11 * i:start + 11 + 11 * i] for i in range(steps)]
    points = [(row, *struct.unpack(">B2xd", field)) for row, field in enumerate(fields, 1)]
    flows = [struct.unpack_from(">3xI", job, start + 11 * steps + 7 * i)[0] for i in range(steps)]
    given = dict(zip(("rows", "kinds", "figures"), quotes(points)))
    return {**given, "version": version, "frequency": frequency, "steps": steps, "reversion": reversion, "volatility": volatility,
            "flows": amounts("flows", flows)}


def _tree_on_shelf(given: Given) -> Given:
    """Steps, reversion and discounts of the tree that the name has."""
    slot, part = given["shelf"].slots[given["name"] - 1], call("shelf_part", given["shelf"], given["name"])
    discounts = amounts("discounts", given["memory"].values[part.start:part.start + part.count].tolist())
    return {"steps": slot.steps, "reversion": slot.reversion, "discounts": discounts}


def _needed(name: str, given: Given) -> int:
    """How many numbers a tree has, by the working reversion where a version is given; one that is unknown leaves the reversion itself."""
    reversion = given["reversion"]
    if "version" in given:
        working = call("working_reversion", given["version"], reversion)
        reversion = reversion if working.number else working.value
    return int(call(name, given["steps"], reversion).value)


def _not_a_table(given: Given) -> str:
    """The first list that has not as many numbers as the first rows; else the row."""
    lists = "last_rows", "lowest_prices", "highest_prices", "haircuts"
    return next((name for name in lists if given[name].count != given["first_rows"].count), "row")


def _not_in_tree(given: Given) -> Place:
    if "strikes" in given:
        return "strikes", None
    if "haircuts" in given:
        return _not_a_table(given), None
    if "point" in given:
        return "point", given["point"].row
    if "rows" in given and (place := _misplaced(given)):
        return place
    if {"discounts", "reversion"} <= given.keys() and given["discounts"].count < _needed("discounts_needed", given):
        return "discounts", None
    if "rows" in given:
        return "state_prices", None
    if "flows" in given:
        return "flows", None
    if "payoffs" in given:
        return _payoffs_not_in_tree(given), None
    if "node" in given and call("branches", given["reversion"], given["row"], 0).number == 0:
        return "node", None
    return "row", None


def _misplaced(given: Given) -> Optional[Place]:
    """Points that are not as many as the steps, or the first of them that is not in its place."""
    if given["rows"].count != given["steps"]:
        return "points", None
    return next((("points", place) for place, row in enumerate(given["rows"], 1) if row != place), None)


def _payoffs_not_in_tree(given: Given) -> str:
    if "row" in given:
        bound = call("state_price_error_bound", given["steps"], given["reversion"], given["discounts"], given["row"])
        return "row" if bound.number else "payoffs"
    return "payoffs" if given["payoffs"].count != given["state_prices"].count else "state_prices"


def _quote(given: Given) -> Place:
    if "version" in given and call("working_reversion", given["version"], 0).number:
        return "version", None
    if "point" in given:
        return "point", given["point"].row
    for row, kind, figure in zip(given["rows"], given["kinds"], given["figures"]):
        if call("quote_discount", given["frequency"], kind, CPoint(row, figure)).number:
            return "points", row
    return "points", None


def _discount(given: Given) -> Place:
    if "discount" in given:
        return "discount", None
    if "rows" in given:
        return "points", _unfitted_row(given)
    if "shelf" in given:
        return "name", None
    row = 0
    for place, discount in enumerate(given["discounts"]):
        row += call("row_start", given["reversion"], row + 1).value == place
        if call("step_rate", discount).number:
            return "discounts", row
    return "discounts", None


def _unfitted_row(given: Given) -> int:
    """The least number of steps that cannot be fitted, which is the row of the quote that the fit fails to meet."""
    low, high = 0, given["steps"]
    discounts, state_prices = (own_memory(_needed(name, given)) for name in ("discounts_needed", "state_prices_needed"))
    while high - low > 1:
        steps = (low + high) // 2
        columns = [given[name].first(steps) for name in ("rows", "kinds", "figures")]
        if call("fit_version", given.get("version", 1), given["frequency"], steps, given["reversion"], given["volatility"], *columns, discounts,
                state_prices):
            high = steps
        else:
            low = steps
    return int(high)


def _lower_volatility(number: int, given: Given) -> Optional[int]:
    """Of a fit that is refused for its nodes, the greatest lower volatility that is found accepted by halving; None where there is none."""
    if number not in (8, 9):
        return None
    if "job" in given:
        given = _fit_and_flows(bytes(given["job"]))
    elif "shelf" in given and "rows" in given:
        given = {**given, **_tree_on_shelf(given)}
    if not {"rows", "volatility"} <= given.keys():
        return None
    memories = [own_memory(_needed(name, given)) for name in ("discounts_needed", "state_prices_needed")]
    low, high = -1, given["volatility"]
    while high - low > 1:
        middle = 0 if low < 0 else (low + high) // 2
        if call("fit_version", given.get("version", 1), given["frequency"], given["steps"], given["reversion"], middle,
                *(given[name] for name in ("rows", "kinds", "figures")), *memories):
            if middle == 0:
                return None
            high = middle
        else:
            low = middle
    return low if low >= 0 else None


def _flow(given: Given) -> Place:
    unit = amounts("discounts", [ONE])
    for row, flow in enumerate(given["flows"], 1):
        if call("bond_price", 1, 0, unit, amounts("flows", [flow])).number == 10:
            return "flows", row
    return "flows", None


def _option_terms(given: Given) -> Place:
    """The first of kind or side, expiry and strike that is refused on a tree of one step."""
    unit, flows = amounts("discounts", [ONE]), amounts("flows", [0])
    if call("option_price", 1, 0, unit, flows, 1, 0, given["strike"]).number == 11:
        return "strike", None
    if "kind" not in given:
        return "side", None
    kind = call("option_price", 1, 0, unit, flows, given["kind"], 0, 0)
    return "kind" if kind.number == 11 else "expiry", None


def _value(given: Given) -> Place:
    if "haircuts" in given:
        return "price", None
    if "flows" in given:
        bond = call("bond_price", *(given[name] for name in ("steps", "reversion", "discounts", "flows")))
        return "flows" if bond.number == 12 else "strike", None
    if "state_prices" in given:
        nothing = amounts("payoffs", [0] * given["payoffs"].count)
        if call("value_by_state_prices", given["state_prices"], nothing).number == 12:
            return "state_prices", None
    return "payoffs", None


FINDERS: Dict[int, Union[Place, Callable[[Given], Place]]] = {
    1: ("job", None), 2: ("frequency", None), 3: ("steps", None), 4: ("reversion", None), 5: ("volatility", None), 6: _not_in_tree, 7: _quote,
    8: ("volatility", None), 9: _discount, 10: _flow, 11: _option_terms, 12: _value, 13: ("dates", None),
    14: ("steps", None), 15: ("name", None),
}
