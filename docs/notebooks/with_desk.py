from mixegorta import desk

curve = desk.Curve({"3M": "-0.25", "6M": "-0.15", "1Y": "0.1", "2Y": "0.6", "3Y": "1.0", "5Y": "1.6", "7Y": "2.1", "10Y": "2.5"}, compounding="yearly")
model = desk.Model(volatility_bp=70, reversion="0.03")
bond = desk.Bond(coupon="1.5", maturity="10Y")
note = bond.callable(on=bond.coupon_days(first="5Y"), at=100)
answer = desk.price(note, curve, model)
strip = desk.strip(note, curve, model, at=[98, 99, 100, 101])
risk = desk.sensitivities(note, curve, model)
spread = desk.oas(note, curve, model, clean="90")
