"""Unit and range of each argument by its name, told once and shown in the documentation of every function that takes it."""
import inspect
from typing import Any, Callable, Dict, Iterable

from ._limits import MAX_BANDS, MAX_DISCOUNTS, MAX_FLOW, MAX_HAIRCUT, MAX_JOB, MAX_NAME, MAX_NODE_DISCOUNT, MAX_REVERSION, MAX_STATE_PRICES, MAX_STEPS
from ._limits import MAX_STRIKE, MAX_STRIKES, MAX_VALUE, MAX_VOLATILITY, SHEET_ROOM

PART = "DISCOUNTS or STATE_PRICES"
UNITS: Dict[str, str] = {
    "frequency": "steps a year, 1, 2, 4 or 12",
    "steps": f"steps of the tree, n, 1 to {MAX_STEPS}",
    "reversion": f"a step, in ten-thousandths, 0 to {MAX_REVERSION:,}; a yearly one of 10 % with quarterly steps is 250",
    "volatility": f"a year, absolute, in millionths, 0 to {MAX_VOLATILITY:,}; 1 % or 100 basis points are 10,000",
    "version": "how the fit takes the reversion, 1 or 2",
    "points": "a Point(row, kind, figure) for each row 1 to n, in order; a rate is a part of one, 0.032 for 3.2 %",
    "point": f"a Point(row, kind, figure) of a row 1 to {MAX_STEPS}; a rate is a part of one, 0.032 for 3.2 %",
    "row": f"a date of the tree, 0 for today to n for the last, at most {MAX_STEPS}",
    "node": "a place in a row, -w to w, w the row's half width",
    "discounts": f"in billionths, 1 to {MAX_NODE_DISCOUNT:,} each, for rows 0 to n - 1, row after row, lowest node first, at most {MAX_DISCOUNTS:,}",
    "state_prices": f"in billionths, for rows 0 to n, row after row, lowest node first, at most {MAX_STATE_PRICES:,}",
    "discount": f"in billionths, 1 to {MAX_NODE_DISCOUNT:,}",
    "flows": f"in billionths for a notional of one, 0 to {MAX_FLOW:,} each, for rows 1 to n",
    "kind": "EUROPEAN_CALL, EUROPEAN_PUT, AMERICAN_CALL or AMERICAN_PUT",
    "side": "CALL or PUT",
    "expiry": "a row, 0 to n - 1",
    "dates": "rows, 0 to n - 1, strictly rising, at least one",
    "strike": f"in billionths for a notional of one, 0 to {MAX_STRIKE:,}",
    "strikes": f"1 to {MAX_STRIKES} of them, in billionths for a notional of one, 0 to {MAX_STRIKE:,} each",
    "payoffs": f"in billionths, 0 to {MAX_VALUE:,} each, one for each node of the row, lowest first",
    "job": f"bytes, at most {MAX_JOB:,}",
    "out": f"memory to write, for a sheet at least {SHEET_ROOM:,} bytes",
    "name": f"what a tree on a shelf goes by, 1 to {MAX_NAME}",
    "first_rows": f"1 to {MAX_STEPS} each, at most {MAX_BANDS} of them",
    "last_rows": f"1 to {MAX_STEPS} each, as many",
    "lowest_prices": f"in billionths, 0 to {MAX_VALUE:,} each, as many",
    "highest_prices": f"in billionths, 0 to {MAX_VALUE:,} each, as many",
    "haircuts": f"in ten-thousandths of the price, 0 to {MAX_HAIRCUT:,} each, as many",
    "price": f"in billionths, 0 to {MAX_VALUE:,}",
    "bands": f"at most {MAX_BANDS} of Band(first_row, last_row, lowest_price, highest_price, haircut)",
}
for _tree in ("rate", "spread"):
    UNITS.update({f"{_tree}_steps": f"steps of the {_tree} tree, n, the same in both trees, 1 to MAX_PAIR_STEPS", f"{_tree}_reversion": UNITS["reversion"],
                  f"{_tree}_discounts": UNITS["discounts"], f"{_tree}s": f"the {_tree} Tree, of the same steps as the other, 1 to MAX_PAIR_STEPS"})
UNITS.update(jobs=f"of bytes, at most {MAX_JOB:,} each for a job that is accepted", file="the bytes of a book, as book_of_jobs gives them",
             first="a Report of the books that come first", second="a Report of the books after them",
             reports="each a Report, in the order of their books")
# where a name means another thing than elsewhere
OTHERS: Dict[str, Dict[str, str]] = {
    "row_range": {"kind": PART}, "Tree.row": {"kind": PART}, "JobQuote.of": {"kind": "DISCOUNT_FACTOR, YEARLY_RATE or YEARLY_YIELD"},
    "billionths": {"name": "what a message calls the amount"},
    "lending_worth": {"row": f"the bond's last row, 1 to {MAX_STEPS}"}, "Bands.worth": {"row": f"the bond's last row, 1 to {MAX_STEPS}"},
    "Job.write_into": {"out": f"memory to write, at least as many bytes as the job has, at most {MAX_JOB:,}"},
    "book_report_into": {"out": "memory to write, at least BOOK_ROOM bytes"},
    "prices_of_job_into": {"discounts": "memory to write, for billionths, MAX_DISCOUNTS numbers serve every job",
                           "state_prices": "memory to write, for billionths, MAX_STATE_PRICES numbers serve every job"},
    "fit_into": {"discounts": "memory to write, for billionths, as many as discounts_needed answers",
                 "state_prices": "memory to write, for billionths, as many as state_prices_needed answers"},
    "value_by_state_prices": {"state_prices": "in billionths, those of one row, lowest node first"},
}


def units_of(title: str, function: Callable[..., Any]) -> Dict[str, str]:
    """Unit and range of each argument of a function that has one."""
    known = {**UNITS, **OTHERS.get(title, {})}
    return {name: known[name] for name in inspect.signature(function).parameters if name in known}


def _describe(thing: Any, title: str, function: Callable[..., Any]) -> None:
    """Puts the units of a function's arguments behind the documentation of a thing."""
    lines = [f"{name}: {words}." for name, words in units_of(title, function).items()]
    if lines and thing.__doc__:
        thing.__doc__ = "\n".join([inspect.cleandoc(thing.__doc__), "", *lines])


def describe(names: Iterable[str], space: Dict[str, Any]) -> None:
    """Does so for all functions, classes and methods of these names."""
    for name in names:
        thing = space[name]
        if inspect.isfunction(thing):
            _describe(thing, name, thing)
        if not inspect.isclass(thing) or issubclass(thing, Exception):
            continue
        if inspect.isfunction(vars(thing).get("__init__")):
            _describe(thing, name, thing.__init__)
        for method, member in list(vars(thing).items()):
            function = member.__func__ if isinstance(member, classmethod) else member
            if not method.startswith("_") and inspect.isfunction(function):
                _describe(function, f"{name}.{method}", function)
