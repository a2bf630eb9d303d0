"""Uses that a type checker accepts, and uses that it must not: an `ignore` that nothing needs is an error of its own."""
from array import array
from decimal import Decimal
from typing import Optional

import mixegorta as m

points = [m.Point(1, m.DISCOUNT_FACTOR, 0.97), m.Point(2, m.YEARLY_RATE, 0.032)]
tree: m.Tree = m.Tree(1, 2, 0, 10_000, points)
others = [m.Tree(1, 2, 0, volatility, m.Curve(points)) for volatility in (5_000, 6_000)]
bond: m.Price = tree.bond_price([Decimal("0.04"), "1.04"])
same: m.Price = others[0].bond_price(array("Q", [40_000_000, 1_040_000_000]))
lent: m.Price = m.bond_price(2, 0, tree.discounts, memoryview(array("Q", [0, m.ONE])))
option: m.Price = tree.option_price([0, m.ONE], m.EUROPEAN_CALL, 1, "0.95")
dated: m.Price = tree.dated_option_price([0, m.ONE], m.CALL, b"\0\1", Decimal("0.95"))
m.fit_into(1, 2, 0, 0, points, array("Q", bytes(32)), memoryview(array("Q", bytes(72))))
value: int = m.billionths("1.01") + bond.value
both = tree.bond_and_option([0, m.ONE], m.AMERICAN_PUT, 2, "1.01")
shelf: m.Shelf = m.Shelf()
shelf.ask(1, 2, 0)
shelf.commit(1, 1, 10_000, m.Curve(points))
shelved: m.Price = shelf.bond_price(1, [Decimal("0.04"), "1.04"])
same_option: m.Price = shelf.dated_option_price(1, [0, m.ONE], m.CALL, b"\0\1", Decimal("0.95"))
copied: "array[int]" = shelf.discounts(1)
held: int = shelf.nodes_held + len(copied)
name_of: Optional[m.ShelvedTree] = shelf.tree(1)
fitted: bool = name_of is not None and name_of.fitted
known: m.TreeErrorBounds = tree.bounds()
carried: Optional[m.TreeErrorBounds] = shelf.bounds(1)
same_bound: bool = carried == known == m.tree_bounds(2, 0, copied) and tree.price_error_bound() == m.price_error_bound(2, 0, copied) == bond.bound
second: m.Tree = m.Tree(1, 2, 1_000, 10_000, points, version=2)
working: int = second.working_reversion
same_bound = same_bound and working == m.working_reversion(second.version, second.reversion)
m.fit_into(1, 2, 1_000, 0, points, array("Q", bytes(32)), memoryview(array("Q", bytes(72))), version=2)
strip: m.Strip = tree.option_strip([0, m.ONE], m.CALL, b"\0\1", ["0.95", Decimal("0.95"), 950_000_000])
same_bound = same_bound and strip == [dated] * 3 == shelf.option_strip(1, [0, m.ONE], m.CALL, [0, 1], array("Q", [950_000_000] * 3))
by_kind: m.Strip = m.option_strip_of_kind(2, 0, copied, [0, m.ONE], m.EUROPEAN_CALL, 1, ("0.95",))
same_bound = same_bound and by_kind == [option] == shelf.option_strip_of_kind(1, [0, m.ONE], m.EUROPEAN_CALL, 1, ["0.95"])
table: m.Bands = m.Bands([m.Band(1, 20, 0, m.MAX_VALUE, 250), (21, 60, "0", Decimal(8), 800)])
wrong: Optional[m.Refused] = table.verdict()
worth: int = table.worth(20, "1.00") + m.lending_worth([1], [60], ["0"], array("Q", [m.MAX_VALUE]), [0], 1, m.ONE)
m.check_bands([1], [60], [0], [m.MAX_VALUE], range(1))
place: Optional[int] = wrong.place if wrong is not None else None
job: m.Job = m.Job(1, 0, 0, [m.JobQuote.of(m.DISCOUNT_FACTOR, 0.97), (m.YEARLY_RATE, 0)], ["0.04", Decimal("1.04")], m.DatedOption(m.CALL, "1", b"\1"), 2)
read: m.Job = m.Job.read(job.to_bytes())
size: int = m.Job(1, 0, 0, (), array("Q"), m.KindOption(1, 0, m.ONE)).write_into(bytearray(29))
pair: m.Pair = m.Pair(tree, tree)
paired: m.Price = pair.bond_price([0, m.ONE])
same_bound = same_bound and paired == m.pair_bond_price(2, tree.working_reversion, tree.discounts, 2, tree.working_reversion, copied, ["0", Decimal(1)])
paired_option: m.Price = pair.dated_option_price([0, m.ONE], m.CALL, b"\0\1", "0.95")
same_bound = same_bound and paired_option.value <= paired.value
empty: bytes = m.book_of_jobs([])
report: str = m.book_report(empty) + m.book_report(bytearray(m.book_of_jobs([b"", memoryview(b"")])))
report_size: int = m.book_report_into(b"", bytearray(m.BOOK_ROOM))
try:
    job_prices: m.JobPrices = m.prices_of_job(b"")
    of_option: Optional[m.Price] = job_prices.option
except m.MalformedJob:
    report = report[:report_size]
words: str = f"{both.option.argument} {both.option.row}" if isinstance(both.option, m.Refused) else f"{both.option.bound}"

try:
    tree.option_price([0, m.ONE], m.EUROPEAN_CALL, 1, 0.95)  # type: ignore[arg-type]
except TypeError:
    pass
try:
    tree.bond_price([0.04, 1.04])  # type: ignore[list-item]
except TypeError:
    pass
try:
    tree.option_strip([0, m.ONE], m.CALL, b"\0", [0.95])  # type: ignore[list-item]
except TypeError:
    pass
try:
    tree.option_strip([0, m.ONE], m.CALL, b"\0", m.ONE)  # type: ignore[arg-type]
except TypeError:
    pass
try:
    m.billionths(1.01)  # type: ignore[arg-type]
except TypeError:
    pass
try:
    shelf.ask("rates", 2, 0)  # type: ignore[arg-type]
except TypeError:
    pass
try:
    m.Tree(1, 2, 1_000, 10_000, points, version="2")  # type: ignore[arg-type]
except TypeError:
    pass
try:
    m.Bands([("1", 60, 0, m.MAX_VALUE, 250)])  # type: ignore[list-item]
except TypeError:
    pass
try:
    m.Job(1, 0, 0, [], [], (1, 0, m.ONE)).to_bytes()  # type: ignore[arg-type]
except TypeError:
    pass
try:
    m.book_of_jobs(["job"])  # type: ignore[list-item]
except TypeError:
    pass
copied_job: bool = size == 29 and read.version == 2 and len(read.quotes) == 2
print(copied_job and report == m.book_report(b"") and place is None and worth == 1_975_000_000 and bond == same == shelved and dated == same_option and fitted and same_bound and words.startswith("expiry"))
