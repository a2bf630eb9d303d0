import QuantLib as ql

today = ql.Date(16, 11, 2026)
ql.Settings.instance().evaluationDate = today
quotes = {"3M": -0.25, "6M": -0.15, "1Y": 0.1, "2Y": 0.6, "3Y": 1.0, "5Y": 1.6, "7Y": 2.1, "10Y": 2.5}
years = ql.Thirty360(ql.Thirty360.BondBasis)
days = [today + ql.Period(tenor) for tenor in quotes]
factors = [(1 + rate / 100) ** -years.yearFraction(today, day) for day, rate in zip(days, quotes.values())]
flat = ql.YieldTermStructureHandle(ql.DiscountCurve([today, *days], [1.0, *factors], years))
move = ql.SimpleQuote(0.0)
curve = ql.YieldTermStructureHandle(ql.ZeroSpreadedTermStructure(flat, ql.QuoteHandle(move), ql.Continuous, ql.NoFrequency, years))
schedule = ql.Schedule(today, today + ql.Period("10Y"), ql.Period("1Y"), ql.NullCalendar(), ql.Unadjusted, ql.Unadjusted, ql.DateGeneration.Backward, False)


def price(basis_points=0.0, at=100.0, volatility=0.007, steps=40):
    calls = ql.CallabilitySchedule()
    for year in range(5, 10):
        calls.append(ql.Callability(ql.BondPrice(at, ql.BondPrice.Clean), ql.Callability.Call, today + ql.Period(year, ql.Years)))
    note = ql.CallableFixedRateBond(0, 100.0, schedule, [0.015], years, ql.Unadjusted, 100.0, today, calls)
    move.setValue(basis_points / 10_000)
    note.setPricingEngine(ql.TreeCallableFixedRateBondEngine(ql.HullWhite(curve, 0.03, volatility), steps))
    return note.dirtyPrice()


bond = ql.FixedRateBond(0, 100.0, schedule, [0.015], years, ql.Unadjusted, 100.0, today)
bond.setPricingEngine(ql.DiscountingBondEngine(flat))
answer = price()
strip = [price(at=at) for at in (98.0, 99.0, 100.0, 101.0)]
dv01 = (price(-1) - price(1)) / 2
convexity = (price(-25) + price(25) - 2 * answer) / answer / 0.0025 ** 2
vega = (price(volatility=0.0071) - price(volatility=0.0069)) / 2
spread = ql.Brent().solve(lambda basis_points: price(basis_points) - 90, 1e-4, 0.0, -100.0, 100.0)
