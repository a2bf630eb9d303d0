// What the module exports, the refusals and the limits. Written by tools/declarations.py from the crates.

// The structs, each after those that it holds.
export const RECORDS = {
    Answer: [['number', 'u64'], ['value', 'u64']],
    Branches: [['number', 'u64'], ['lowest', 'i64'], ['probabilities', ['array', 'u64', 3]]],
    Point: [['row', 'u64'], ['figure', 'f64']],
    RowRange: [['start', 'usize'], ['count', 'usize']],
    Rate: [['number', 'u64'], ['value', 'i64']],
    TreeErrorBounds: [['number', 'u64'], ['bound', 'u64'], ['greatest', ['array', 'u64', 60]]],
    Price: [['number', 'u64'], ['value', 'u64'], ['bound', 'u64']],
    BondAndOption: [['bond', 'Price'], ['option', 'Price']],
    Strip: [
        ['number', 'u64'], ['numbers', ['array', 'u64', 16]], ['values', ['array', 'u64', 16]],
        ['bounds', ['array', 'u64', 16]]
    ],
    Written: [['number', 'u64'], ['size', 'usize']],
    JobPrices: [['number', 'u64'], ['bond', 'Price'], ['has_option', 'bool'], ['option', 'Price']],
    OptionRecord: [
        ['tag', 'u64'], ['kind', 'u64'], ['expiry', 'u64'], ['strike', 'u64'], ['count', 'usize'],
        ['dates', ['array', 'u8', 4672]]
    ],
    Job: [
        ['frequency', 'u64'], ['steps', 'usize'], ['reversion', 'u64'], ['volatility', 'u64'], ['version', 'u64'],
        ['kinds', ['array', 'u8', 255]], ['figures', ['array', 'u64', 255]], ['flows', ['array', 'u64', 255]],
        ['option', 'OptionRecord']
    ],
    Reading: [['number', 'u64'], ['job', 'Job']],
    BookText: [['number', 'u64'], ['size', 'usize']],
    Report: [
        ['books', 'u64'], ['fields', 'u64'], ['priced', 'u64'], ['refused', ['array', 'u64', 13]], ['bonds', 'u64'],
        ['options', 'u64'], ['error_bounds', 'u64'], ['dearest', 'u64'], ['book', 'u64'], ['place', 'u64']
    ],
    Joined: [['number', 'u64'], ['report', 'Report']],
    Slot: [
        ['status', 'u64'], ['steps', 'usize'], ['reversion', 'u64'], ['bound', 'u64'],
        ['greatest', ['array', 'u64', 60]]
    ],
    Shelf: [['slots', ['array', 'Slot', 8]]],
    Part: [['start', 'usize'], ['count', 'usize']],
    Shelved: [['number', 'u64'], ['shelf', 'Shelf']],
    Verdict: [['number', 'u64'], ['row', 'u64'], ['price', 'u64'], ['place', 'u64']],
    Worth: [['worth', 'u64'], ['verdict', 'Verdict']],
};

// Each exported function with its result and its parameters.
export const FUNCTIONS = {
    version: ['u64', []],
    half_width: ['Answer', [['reversion', 'u64'], ['row', 'usize']]],
    node_count: ['Answer', [['reversion', 'u64'], ['row', 'usize']]],
    row_start: ['Answer', [['reversion', 'u64'], ['row', 'usize']]],
    discounts_needed: ['Answer', [['steps', 'usize'], ['reversion', 'u64']]],
    state_prices_needed: ['Answer', [['steps', 'usize'], ['reversion', 'u64']]],
    branches: ['Branches', [['reversion', 'u64'], ['row', 'usize'], ['node', 'i64']]],
    working_reversion: ['Answer', [['version', 'u64'], ['reversion', 'u64']]],
    quote_discount: ['Answer', [['frequency', 'u64'], ['kind', 'u8'], ['point', 'Point']]],
    curve_discounts: ['u64', [
        ['frequency', 'u64'], ['steps', 'usize'], ['rows', ['slice', 'u64', false]], ['kinds', ['slice', 'u8', false]],
        ['figures', ['slice', 'f64', false]], ['discounts', ['slice', 'u64', true]]
    ]],
    fit: ['u64', [
        ['frequency', 'u64'], ['steps', 'usize'], ['reversion', 'u64'], ['volatility', 'u64'],
        ['rows', ['slice', 'u64', false]], ['kinds', ['slice', 'u8', false]], ['figures', ['slice', 'f64', false]],
        ['discounts', ['slice', 'u64', true]], ['state_prices', ['slice', 'u64', true]]
    ]],
    fit_version: ['u64', [
        ['version', 'u64'], ['frequency', 'u64'], ['steps', 'usize'], ['reversion', 'u64'], ['volatility', 'u64'],
        ['rows', ['slice', 'u64', false]], ['kinds', ['slice', 'u8', false]], ['figures', ['slice', 'f64', false]],
        ['discounts', ['slice', 'u64', true]], ['state_prices', ['slice', 'u64', true]]
    ]],
    row_range: ['RowRange', [
        ['discounts', ['slice', 'u64', false]], ['state_prices', ['slice', 'u64', false]], ['kind', 'u64'],
        ['steps', 'usize'], ['reversion', 'u64'], ['row', 'usize']
    ]],
    step_rate: ['Rate', [['discount', 'u64']]],
    continuous_rate: ['Rate', [['discount', 'u64']]],
    state_price_error_bound: ['Answer', [
        ['steps', 'usize'], ['reversion', 'u64'], ['discounts', ['slice', 'u64', false]], ['row', 'usize']
    ]],
    price_error_bound: ['Answer', [['steps', 'usize'], ['reversion', 'u64'], ['discounts', ['slice', 'u64', false]]]],
    tree_bounds: ['TreeErrorBounds', [
        ['steps', 'usize'], ['reversion', 'u64'], ['discounts', ['slice', 'u64', false]]
    ]],
    bond_price: ['Price', [
        ['steps', 'usize'], ['reversion', 'u64'], ['discounts', ['slice', 'u64', false]],
        ['flows', ['slice', 'u64', false]]
    ]],
    option_price: ['Price', [
        ['steps', 'usize'], ['reversion', 'u64'], ['discounts', ['slice', 'u64', false]],
        ['flows', ['slice', 'u64', false]], ['kind', 'u64'], ['expiry', 'usize'], ['strike', 'u64']
    ]],
    bond_and_option: ['BondAndOption', [
        ['steps', 'usize'], ['reversion', 'u64'], ['discounts', ['slice', 'u64', false]],
        ['flows', ['slice', 'u64', false]], ['kind', 'u64'], ['expiry', 'usize'], ['strike', 'u64']
    ]],
    dated_option_price: ['Price', [
        ['steps', 'usize'], ['reversion', 'u64'], ['discounts', ['slice', 'u64', false]],
        ['flows', ['slice', 'u64', false]], ['side', 'u64'], ['dates', ['slice', 'u8', false]], ['strike', 'u64']
    ]],
    bond_and_dated_option: ['BondAndOption', [
        ['steps', 'usize'], ['reversion', 'u64'], ['discounts', ['slice', 'u64', false]],
        ['flows', ['slice', 'u64', false]], ['side', 'u64'], ['dates', ['slice', 'u8', false]], ['strike', 'u64']
    ]],
    option_strip: ['Strip', [
        ['steps', 'usize'], ['reversion', 'u64'], ['discounts', ['slice', 'u64', false]],
        ['flows', ['slice', 'u64', false]], ['side', 'u64'], ['dates', ['slice', 'u8', false]],
        ['strikes', ['slice', 'u64', false]]
    ]],
    option_strip_of_kind: ['Strip', [
        ['steps', 'usize'], ['reversion', 'u64'], ['discounts', ['slice', 'u64', false]],
        ['flows', ['slice', 'u64', false]], ['kind', 'u64'], ['expiry', 'usize'], ['strikes', ['slice', 'u64', false]]
    ]],
    value_by_state_prices: ['Answer', [
        ['state_prices', ['slice', 'u64', false]], ['payoffs', ['slice', 'u64', false]]
    ]],
    valuation_error_bound: ['Answer', [
        ['steps', 'usize'], ['reversion', 'u64'], ['discounts', ['slice', 'u64', false]], ['row', 'usize'],
        ['payoffs', ['slice', 'u64', false]]
    ]],
    sheet: ['Written', [['job', ['slice', 'u8', false]], ['out', ['slice', 'u8', true]]]],
    prices_of_job: ['JobPrices', [
        ['job', ['slice', 'u8', false]], ['discounts', ['slice', 'u64', true]],
        ['state_prices', ['slice', 'u64', true]]
    ]],
    read_job: ['Reading', [['bytes', ['slice', 'u8', false]]]],
    write_job: ['Answer', [['job', 'Job'], ['out', ['slice', 'u8', true]]]],
    book_report: ['BookText', [['file', ['slice', 'u8', false]], ['out', ['slice', 'u8', true]]]],
    empty_report: ['Report', []],
    report_of_file: ['Report', [['file', ['slice', 'u8', false]]]],
    joined_reports: ['Joined', [['first', 'Report'], ['second', 'Report']]],
    empty_shelf: ['Shelf', []],
    shelf_part: ['Part', [['shelf', 'Shelf'], ['name', 'usize']]],
    shelf_ask: ['Shelved', [
        ['shelf', 'Shelf'], ['memory', ['pointer', ['array', 'u64', 3600], true]], ['name', 'usize'],
        ['steps', 'usize'], ['reversion', 'u64']
    ]],
    shelf_commit: ['Shelved', [
        ['shelf', 'Shelf'], ['memory', ['pointer', ['array', 'u64', 3600], true]], ['name', 'usize'],
        ['frequency', 'u64'], ['volatility', 'u64'], ['rows', ['slice', 'u64', false]],
        ['kinds', ['slice', 'u8', false]], ['figures', ['slice', 'f64', false]]
    ]],
    shelf_release: ['Shelved', [
        ['shelf', 'Shelf'], ['memory', ['pointer', ['array', 'u64', 3600], true]], ['name', 'usize']
    ]],
    shelf_bond_price: ['Price', [
        ['shelf', 'Shelf'], ['memory', ['pointer', ['array', 'u64', 3600], false]], ['name', 'usize'],
        ['flows', ['slice', 'u64', false]]
    ]],
    shelf_option_price: ['Price', [
        ['shelf', 'Shelf'], ['memory', ['pointer', ['array', 'u64', 3600], false]], ['name', 'usize'],
        ['flows', ['slice', 'u64', false]], ['kind', 'u64'], ['expiry', 'usize'], ['strike', 'u64']
    ]],
    shelf_bond_and_option: ['BondAndOption', [
        ['shelf', 'Shelf'], ['memory', ['pointer', ['array', 'u64', 3600], false]], ['name', 'usize'],
        ['flows', ['slice', 'u64', false]], ['kind', 'u64'], ['expiry', 'usize'], ['strike', 'u64']
    ]],
    shelf_dated_option_price: ['Price', [
        ['shelf', 'Shelf'], ['memory', ['pointer', ['array', 'u64', 3600], false]], ['name', 'usize'],
        ['flows', ['slice', 'u64', false]], ['side', 'u64'], ['dates', ['slice', 'u8', false]], ['strike', 'u64']
    ]],
    shelf_bond_and_dated_option: ['BondAndOption', [
        ['shelf', 'Shelf'], ['memory', ['pointer', ['array', 'u64', 3600], false]], ['name', 'usize'],
        ['flows', ['slice', 'u64', false]], ['side', 'u64'], ['dates', ['slice', 'u8', false]], ['strike', 'u64']
    ]],
    shelf_option_strip: ['Strip', [
        ['shelf', 'Shelf'], ['memory', ['pointer', ['array', 'u64', 3600], false]], ['name', 'usize'],
        ['flows', ['slice', 'u64', false]], ['side', 'u64'], ['dates', ['slice', 'u8', false]],
        ['strikes', ['slice', 'u64', false]]
    ]],
    shelf_option_strip_of_kind: ['Strip', [
        ['shelf', 'Shelf'], ['memory', ['pointer', ['array', 'u64', 3600], false]], ['name', 'usize'],
        ['flows', ['slice', 'u64', false]], ['kind', 'u64'], ['expiry', 'usize'], ['strikes', ['slice', 'u64', false]]
    ]],
    check_bands: ['Verdict', [
        ['first_rows', ['slice', 'u64', false]], ['last_rows', ['slice', 'u64', false]],
        ['lowest_prices', ['slice', 'u64', false]], ['highest_prices', ['slice', 'u64', false]],
        ['haircuts', ['slice', 'u64', false]]
    ]],
    lending_worth: ['Worth', [
        ['first_rows', ['slice', 'u64', false]], ['last_rows', ['slice', 'u64', false]],
        ['lowest_prices', ['slice', 'u64', false]], ['highest_prices', ['slice', 'u64', false]],
        ['haircuts', ['slice', 'u64', false]], ['row', 'u64'], ['price', 'u64']
    ]],
    pair_bond_price: ['Price', [
        ['rate_steps', 'usize'], ['rate_reversion', 'u64'], ['rate_discounts', ['slice', 'u64', false]],
        ['spread_steps', 'usize'], ['spread_reversion', 'u64'], ['spread_discounts', ['slice', 'u64', false]],
        ['flows', ['slice', 'u64', false]]
    ]],
    pair_dated_option_price: ['Price', [
        ['rate_steps', 'usize'], ['rate_reversion', 'u64'], ['rate_discounts', ['slice', 'u64', false]],
        ['spread_steps', 'usize'], ['spread_reversion', 'u64'], ['spread_discounts', ['slice', 'u64', false]],
        ['flows', ['slice', 'u64', false]], ['side', 'u64'], ['dates', ['slice', 'u8', false]], ['strike', 'u64']
    ]],
};

// Each refusal: its number, its name, its cause and what to do about it.
export const REFUSALS = [
    [1, 'MalformedJob',
        'the job is malformed or longer than 4,700 bytes',
        'compare the order of its fields, their lengths and byte order, and the counts of quotes and flows with the steps'],
    [2, 'UnknownFrequency',
        'the steps a year are not 1, 2, 4 or 12',
        'build the curve for one of these step lengths'],
    [3, 'StepsOutOfRange',
        'the steps are outside 1 to 60',
        'take fewer steps: 60 monthly steps are five years, 60 yearly ones sixty'],
    [4, 'ReversionTooLarge',
        'the reversion is above 6,000',
        'check its unit, ten-thousandths a step; a true reversion so strong needs shorter steps'],
    [5, 'VolatilityTooLarge',
        'the volatility is above 50,000',
        'check its unit, millionths a year, and that it is absolute, not relative to the rate'],
    [6, 'NotInTree',
        'a length, row or node is not in the tree, a memory is too short, or the strikes are none or more than 16',
        'correct the calling program'],
    [7, 'QuoteOutOfRange',
        'a quote\'s kind, figure or discount is outside its limits, or the version is not 1 or 2',
        'look for a rate in percent (3.2 for 0.032), or a rate given as a discount'],
    [8, 'NodesTooFarApart',
        'the nodes are too far apart',
        'the tree is too wide: less volatility, fewer or shorter steps, or more reversion narrow it'],
    [9, 'NodeDiscountOutOfRange',
        'a node discount is 0 or above 1,100,000,000',
        'look for a quote out of line with its neighbours; then less volatility, more reversion, fewer or shorter steps help'],
    [10, 'FlowTooLarge',
        'a flow is above 2,000,000,000',
        'give flows for a notional of one and multiply the price'],
    [11, 'OptionTermsOutOfRange',
        'the option\'s kind, side, expiry or strike is outside its limit',
        'expiry is a row before the last one, not a year, and the strike is for a notional of one'],
    [12, 'ValueTooLarge',
        'a value is above 8,000,000,000, or state prices sum above 2,000,000,100',
        'give flows and strike for a smaller notional and multiply the price'],
    [13, 'ExerciseDatesOutOfOrder',
        'the exercise dates are none, not strictly rising, or reach the last row',
        'list rows in order, each once, the last one before the last row'],
    [14, 'ShelfFull',
        'the asked nodes and those held are more than 3,600',
        'release a tree first, or ask for fewer steps or more reversion'],
    [15, 'WrongName',
        'the name is outside 1 to 8, already present at asking, not awaiting a commit at commit, or absent at release or pricing',
        'ask for a tree before its commit, commit it once, and release it before its name is asked for again'],
    [16, 'BadBand',
        'a band has an end before its start, or a haircut, start or end out of range, or there are more than 40 bands',
        'correct the band at the place that is shown, counted from 1; place 41 says that only the number of bands is wrong'],
    [17, 'PairInNoBand',
        'a row and a price are in no band',
        'add a band for the pair that is shown, or let one reach it; both ends belong to a band'],
    [18, 'PairInSeveralBands',
        'a row and a price are in two or more bands',
        'shorten one of the bands that have the pair that is shown; both ends belong to a band'],
    [19, 'PairStepsOutOfRange',
        'the steps of a pair are above 20, or its two trees differ in them',
        'fit rate and spread with the same steps, at most 20; longer steps reach further'],
];

// Billionths in one.
export const ONE = 1_000_000_000n;
// The whole of which probabilities are parts.
export const PROBABILITY_ONE = 600_000_000n;
// The largest number of steps.
export const MAX_STEPS = 60;
// The largest number of nodes of a row.
export const MAX_NODES = 121;
// The largest number of discounts of a tree.
export const MAX_DISCOUNTS = 3_600;
// The largest number of state prices of a tree.
export const MAX_STATE_PRICES = 3_721;
// The largest number of strikes of a strip; the least is 1.
export const MAX_STRIKES = 16;
// The largest name of a tree on a shelf; the least is 1.
export const MAX_NAME = 8;
// Numbers in the memory of a shelf, which are the nodes that it has for all its trees.
export const SHELF_ROOM = 3_600;
// The most bands of a table of haircuts.
export const MAX_BANDS = 40;
// The largest haircut of a band, in ten-thousandths: all of a price.
export const MAX_HAIRCUT = 10_000n;
// The largest number of steps of a rate tree and a spread tree together.
export const MAX_PAIR_STEPS = 20;
// The longest job in bytes.
export const MAX_JOB = 4_700;
// The places of a job record for quotes and for flows: as many steps as one byte can tell.
export const MAX_JOB_STEPS = 255;
// The places of a job record for listed rows: as many as a job has room for.
export const MAX_JOB_DATES = 4_672;
// Room for the sheet of every job in bytes.
export const SHEET_ROOM = 468_736;
// The most fields of a book of jobs.
export const MAX_FIELDS = 500;
// Room for the report of every book in bytes.
export const BOOK_ROOM = 2_304;
// The most books and fields of a report together.
export const MAX_REPORT_SIZE = 2_305_843_009n;
// The largest reversion per step, in ten-thousandths.
export const MAX_REVERSION = 6_000n;
// The largest yearly volatility, in millionths.
export const MAX_VOLATILITY = 50_000n;
// The smallest quoted discount, in billionths.
export const MIN_QUOTE_DISCOUNT = 100_000_000n;
// The largest quoted discount, in billionths.
export const MAX_QUOTE_DISCOUNT = 2_000_000_000n;
// The largest discount of a node, in billionths.
export const MAX_NODE_DISCOUNT = 1_100_000_000n;
// The largest flow, in billionths.
export const MAX_FLOW = 2_000_000_000n;
// The largest strike, in billionths.
export const MAX_STRIKE = 4_000_000_000n;
// The largest value of a bond, an option or a payoff, in billionths.
export const MAX_VALUE = 8_000_000_000n;
// The largest sum of state prices by which payoffs are valued, in billionths.
export const MAX_STATE_PRICE_SUM = 2_000_000_100n;
