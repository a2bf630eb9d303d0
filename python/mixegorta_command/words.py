"""What each refusal says and what to do about it. Written by tools/declarations.py from tools/refusals.txt."""

REFUSALS = {
    1: (
        'the job is malformed or longer than 4,700 bytes',
        'compare the order of its fields, their lengths and byte order, and the counts of quotes and flows with the steps',
    ),
    2: (
        'the steps a year are not 1, 2, 4 or 12',
        'build the curve for one of these step lengths',
    ),
    3: (
        'the steps are outside 1 to 60',
        'take fewer steps: 60 monthly steps are five years, 60 yearly ones sixty',
    ),
    4: (
        'the reversion is above 6,000',
        'check its unit, ten-thousandths a step; a true reversion so strong needs shorter steps',
    ),
    5: (
        'the volatility is above 50,000',
        'check its unit, millionths a year, and that it is absolute, not relative to the rate',
    ),
    6: (
        'a length, row or node is not in the tree, a memory is too short, or the strikes are none or more than 16',
        'correct the calling program',
    ),
    7: (
        "a quote's kind, figure or discount is outside its limits, or the version is not 1 or 2",
        'look for a rate in percent (3.2 for 0.032), or a rate given as a discount',
    ),
    8: (
        'the nodes are too far apart',
        'the tree is too wide: less volatility, fewer or shorter steps, or more reversion narrow it',
    ),
    9: (
        'a node discount is 0 or above 1,100,000,000',
        'look for a quote out of line with its neighbours; then less volatility, more reversion, fewer or shorter steps help',
    ),
    10: (
        'a flow is above 2,000,000,000',
        'give flows for a notional of one and multiply the price',
    ),
    11: (
        "the option's kind, side, expiry or strike is outside its limit",
        'expiry is a row before the last one, not a year, and the strike is for a notional of one',
    ),
    12: (
        'a value is above 8,000,000,000, or state prices sum above 2,000,000,100',
        'give flows and strike for a smaller notional and multiply the price',
    ),
    13: (
        'the exercise dates are none, not strictly rising, or reach the last row',
        'list rows in order, each once, the last one before the last row',
    ),
    14: (
        'the asked nodes and those held are more than 3,600',
        'release a tree first, or ask for fewer steps or more reversion',
    ),
    15: (
        'the name is outside 1 to 8, already present at asking, not awaiting a commit at commit, or absent at release or pricing',
        'ask for a tree before its commit, commit it once, and release it before its name is asked for again',
    ),
    16: (
        'a band has an end before its start, or a haircut, start or end out of range, or there are more than 40 bands',
        'correct the band at the place that is shown, counted from 1; place 41 says that only the number of bands is wrong',
    ),
    17: (
        'a row and a price are in no band',
        'add a band for the pair that is shown, or let one reach it; both ends belong to a band',
    ),
    18: (
        'a row and a price are in two or more bands',
        'shorten one of the bands that have the pair that is shown; both ends belong to a band',
    ),
    19: (
        'the steps of a pair are above 20, or its two trees differ in them',
        'fit rate and spread with the same steps, at most 20; longer steps reach further',
    ),
}
