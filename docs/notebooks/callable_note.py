# %% [markdown]
# # A callable note on a curve that starts below zero
#
# A treasurer has a EUR curve from −0.25 % to 2.5 % over ten years, and a bond of ten years with a coupon of 1.5 % that its issuer may call at par on each coupon
# day from the fifth year on. `mixegorta.desk` takes percent and tenors; the proved engine prices. The package stands beside the proved core: each price below is
# an answer of the engine with its bound, and nothing else here is proved.
#
# This page is made by `tools/notebook.py docs/notebooks/callable_note.py`, which runs every cell.

# %%
from with_desk import answer, bond, curve, desk, model, note, risk, spread, strip

print(open("with_desk.py").read())

# %% [markdown]
# ## The curve
#
# What was asked, and what the engine is handed: a discount for each quarter, log-linear between the tenors.

# %%
curve

# %%
print(curve.rows(4))

# %% [markdown]
# Yearly figures become the engine's units; where they do not come out even it says so.

# %%
print(model.rows(4))

# %% [markdown]
# ## The price
#
# Per 100. The bound says how far the exact price on the same tree may be, and is no distance from the market: beside it stands what the same note costs with
# half as many steps.

# %%
print(answer)
print(answer.rows())

# %% [markdown]
# The tree, scaled to where its state price lies. Squares on tinted ground are rates below zero.

# %%
answer.fitted

# %% [markdown]
# ## A strip of strikes, and sensitivities

# %%
print(strip)

# %%
print(risk)

# %%
print(desk.sensitivities(note, curve, model, keys=["2Y", "5Y", "10Y"], move_bp=10))

# %% [markdown]
# The move of the whole curve at which the tree gives a market price of 90:

# %%
print(spread)

# %% [markdown]
# ## The same in QuantLib
#
# The same discounts, the same model on a tree of as many steps, the same note.

# %%
print(open("with_quantlib.py").read())

# %%
# needs QuantLib
import with_quantlib as other

lines = [len([line for line in open(name) if line.strip()]) for name in ("with_desk.py", "with_quantlib.py")]
pairs = [("lines", *lines), ("bond", answer.bond.value, other.bond.dirtyPrice()), ("callable bond, 40 steps", answer.total.value, other.answer)]
pairs += [(f"callable at {at}", found.total.value, price) for at, found, price in zip(strip.at, strip.answers, other.strip)]
pairs += [("dv01", risk["dv01"].value, other.dv01), ("convexity", risk["convexity"].value, other.convexity), ("vega", risk["vega"].value, other.vega),
          ("spread at 90", spread.basis_points, other.spread)]
print(f"{'':24}{'mixegorta.desk':>16}{'QuantLib':>16}")
for name, ours, theirs in pairs:
    print(f"{name:24}{ours:16.4f}{theirs:16.4f}" if name != "lines" else f"{name:24}{ours:16}{theirs:16}")

# %% [markdown]
# The trees differ: QuantLib places steps between its own days and keeps no bound. What remains between them is of the size of the estimate above, far above the
# bound, and falls with more steps; [STUDY.md](../STUDY.md) has both against a fine tree.
