"""Limits and units. Written by tools/declarations.py from tools/limits.txt."""

__all__ = [
    "ONE", "PROBABILITY_ONE", "MAX_STEPS", "MAX_NODES", "MAX_DISCOUNTS", "MAX_STATE_PRICES", "MAX_STRIKES", "MAX_NAME", "SHELF_ROOM",
    "MAX_BANDS", "MAX_HAIRCUT", "MAX_PAIR_STEPS", "MAX_JOB", "MAX_JOB_STEPS", "MAX_JOB_DATES", "SHEET_ROOM", "MAX_FIELDS", "BOOK_ROOM",
    "MAX_REPORT_SIZE", "MAX_REVERSION", "MAX_VOLATILITY", "MIN_QUOTE_DISCOUNT", "MAX_QUOTE_DISCOUNT", "MAX_NODE_DISCOUNT", "MAX_FLOW",
    "MAX_STRIKE", "MAX_VALUE", "MAX_STATE_PRICE_SUM",
]

# billionths in one
ONE = 1_000_000_000
# the whole of which probabilities are parts
PROBABILITY_ONE = 600_000_000
# the largest number of steps
MAX_STEPS = 60
# the largest number of nodes of a row
MAX_NODES = 121
# the largest number of discounts of a tree
MAX_DISCOUNTS = 3_600
# the largest number of state prices of a tree
MAX_STATE_PRICES = 3_721
# the largest number of strikes of a strip; the least is 1
MAX_STRIKES = 16
# the largest name of a tree on a shelf; the least is 1
MAX_NAME = 8
# numbers in the memory of a shelf, which are the nodes that it has for all its trees
SHELF_ROOM = 3_600
# the most bands of a table of haircuts
MAX_BANDS = 40
# the largest haircut of a band, in ten-thousandths: all of a price
MAX_HAIRCUT = 10_000
# the largest number of steps of a rate tree and a spread tree together
MAX_PAIR_STEPS = 20
# the longest job in bytes
MAX_JOB = 4_700
# the places of a job record for quotes and for flows: as many steps as one byte can tell
MAX_JOB_STEPS = 255
# the places of a job record for listed rows: as many as a job has room for
MAX_JOB_DATES = 4_672
# room for the sheet of every job in bytes
SHEET_ROOM = 468_736
# the most fields of a book of jobs
MAX_FIELDS = 500
# room for the report of every book in bytes
BOOK_ROOM = 2_304
# the most books and fields of a report together
MAX_REPORT_SIZE = 2_305_843_009
# the largest reversion per step, in ten-thousandths
MAX_REVERSION = 6_000
# the largest yearly volatility, in millionths
MAX_VOLATILITY = 50_000
# the smallest quoted discount, in billionths
MIN_QUOTE_DISCOUNT = 100_000_000
# the largest quoted discount, in billionths
MAX_QUOTE_DISCOUNT = 2_000_000_000
# the largest discount of a node, in billionths
MAX_NODE_DISCOUNT = 1_100_000_000
# the largest flow, in billionths
MAX_FLOW = 2_000_000_000
# the largest strike, in billionths
MAX_STRIKE = 4_000_000_000
# the largest value of a bond, an option or a payoff, in billionths
MAX_VALUE = 8_000_000_000
# the largest sum of state prices by which payoffs are valued, in billionths
MAX_STATE_PRICE_SUM = 2_000_000_100
